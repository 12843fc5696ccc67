"""The runner port: lines of runners, each with its answer."""
from __future__ import annotations

import asyncio
import pathlib
from dataclasses import dataclass

from ..config import address_of
from .http import Away

MAX_LINE = 512
MAX_LINES = 1024
MAX_BODY = 65_536


@dataclass(frozen=True, slots=True)
class Answer:
    """The answer to a line, and of a FETCH the body."""

    text: str
    body: bytes | None = None


class Lines:
    """One session of the runner port."""

    def __init__(self, reader: asyncio.StreamReader, writer: asyncio.StreamWriter) -> None:
        self._reader, self._writer = reader, writer
        self.asked = 0

    @property
    def is_used_up(self) -> bool:
        """Whether the session has answered as many lines as one may."""
        return self.asked >= MAX_LINES

    async def ask(self, line: str, seconds: float = 60) -> Answer:
        """Sends a line, without its line feed, and gives the answer. After `Away` the session is over."""
        if '\n' in line or '\r' in line or len(line.encode()) >= MAX_LINE:
            raise ValueError('no line of a runner')
        self.asked += 1
        try:
            return await asyncio.wait_for(self._exchange(line), seconds)
        except (OSError, asyncio.TimeoutError, asyncio.IncompleteReadError, asyncio.LimitOverrunError, ValueError) as fault:
            self.close()
            raise Away(f'the runner port does not answer: {fault!r}') from None

    async def _exchange(self, line: str) -> Answer:
        self._writer.write(line.encode() + b'\n')
        await self._writer.drain()
        text = (await self._reader.readuntil(b'\n')).decode().rstrip('\n')
        word, _, length = text.partition(' ')
        if word == 'body' and line.startswith('FETCH ') and int(length) <= MAX_BODY:
            body = await self._reader.readexactly(int(length))
            await self._reader.readexactly(1)
            return Answer(text, body)
        return Answer(text)

    def close(self) -> None:
        """Ends the session."""
        self._writer.close()


class RunnerPort:
    """Where runners' lines go."""

    def __init__(self, address: str) -> None:
        self.address = address_of(address)

    async def open(self, seconds: float = 10) -> Lines:
        """A new session."""
        try:
            if isinstance(self.address, pathlib.Path):
                opened = asyncio.open_unix_connection(str(self.address), limit=2 * MAX_BODY)
            else:
                opened = asyncio.open_connection(*self.address, limit=2 * MAX_BODY)
            return Lines(*await asyncio.wait_for(opened, seconds))
        except (OSError, asyncio.TimeoutError) as fault:
            raise Away(f'the runner port is not reached: {fault!r}') from None
