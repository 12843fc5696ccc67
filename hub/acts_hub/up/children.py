"""Processes that are started again when they end, until they are asked to."""
from __future__ import annotations

import asyncio
import os
import pathlib
import pwd
import signal
import time
from collections.abc import Awaitable, Callable, Mapping
from dataclasses import dataclass, field

from ..doors import namespace

QUICK = 10.0
"""Seconds: a process that ended sooner, and was not killed, has failed at its start."""
MOST_QUICK = 5
"""So many failures one after the other end the whole."""
LOG_BYTES = 8 << 20
"""Above this a log gives way to a new one at the next start."""


class Failed(Exception):
    """A process does not stay, or does not get ready; the text says which and why."""


@dataclass
class Child:
    """A process: its words, its log, and how it is asked to end."""

    name: str
    words: tuple[str, ...]
    log: pathlib.Path
    is_ready: Callable[[], Awaitable[bool]]
    patience: float = 10.0
    user: str | None = None
    environment: Mapping[str, str] = field(default_factory=dict)
    process: asyncio.subprocess.Process | None = None
    is_stopping: bool = False

    async def keep(self, say: Callable[[str], None]) -> None:
        """Starts it, again and again, until it is asked to end; `Failed` if it does not stay."""
        quick = 0
        while not self.is_stopping:
            began = time.monotonic()
            status = await self._live()
            if self.is_stopping:
                return
            quick = quick + 1 if status >= 0 and time.monotonic() < began + QUICK else 0
            if quick == MOST_QUICK:
                raise Failed(f'{self.name} does not stay; it said: {self.last_words()}')
            say(f'{self.name} has ended ({_status(status)}); it is started again')
            await asyncio.sleep(1)

    async def ready(self, seconds: float = 60) -> None:
        """Waits until it is ready."""
        end = time.monotonic() + seconds
        while not await self.is_ready():
            if time.monotonic() > end:
                raise Failed(f'{self.name} is not ready after {seconds:.0f} seconds; it said: {self.last_words()}')
            await asyncio.sleep(0.1)

    async def stop(self) -> None:
        """Asks it to end; asks again after its patience, and kills it then."""
        self.is_stopping = True
        for number in signal.SIGTERM, signal.SIGTERM, signal.SIGKILL:
            if self.process is None or self.process.returncode is not None:
                return
            self.process.send_signal(number)
            try:
                await asyncio.wait_for(asyncio.shield(self.process.wait()), self.patience)
            except asyncio.TimeoutError:
                continue

    def last_words(self) -> str:
        """The last lines of its log."""
        try:
            with open(self.log, 'rb') as file:
                file.seek(max(0, self.log.stat().st_size - 2000))
                return file.read().decode(errors='replace').strip() or 'nothing'
        except OSError as fault:
            return f'nothing ({fault.strerror})'

    async def _live(self) -> int:
        """One life of it; its exit status."""
        if self.log.exists() and self.log.stat().st_size > LOG_BYTES:
            os.replace(self.log, self.log.with_name(self.log.name + '.before'))
        entry = pwd.getpwnam(self.user) if self.user else None
        parent = os.getpid()
        with open(os.open(self.log, os.O_WRONLY | os.O_APPEND | os.O_CREAT, 0o600), 'ab') as log:
            try:
                self.process = await asyncio.create_subprocess_exec(
                    *self.words, stdin=asyncio.subprocess.DEVNULL, stdout=log, stderr=log, start_new_session=True,
                    env={**os.environ, **self.environment}, preexec_fn=lambda: namespace.bind_to_parent(parent),
                    user=self.user, group=entry.pw_gid if entry else None, extra_groups=[] if entry else None)
            except OSError as fault:
                raise Failed(f'{self.name}: {self.words[0]}: {fault.strerror}') from None
        return await self.process.wait()


def _status(status: int) -> str:
    return f'by {signal.Signals(-status).name}' if status < 0 else f'with status {status}'
