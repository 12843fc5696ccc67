"""The watchdog of runners: one that was silent for too long is reported lost, once its host has surely ended."""
from __future__ import annotations

import asyncio
import contextlib
import json
import os
import shlex
import signal
import sys
import time
from collections.abc import Awaitable, Callable, Coroutine, Iterable, Mapping
from dataclasses import dataclass, field
from pathlib import Path
from typing import Any, TypeVar

from .service.hooks import HookPort
from .service.http import Away
from .service.models import Runner
from .service.view import ViewPort

WARN_AGAIN = 60.0
"""Seconds between two lines of one warning."""
STALL = 5.0
"""A process that stood still for so long may not have seen what runners said."""
ROUNDED = 2.0
"""Seconds by which a view may be off: it has whole ones."""
VIEW_LIMIT = 10.0
"""Seconds that a view may take."""

T = TypeVar('T')


@dataclass(frozen=True)
class Rules:
    """When a runner is silent or over its time limit, and what ends its host; in seconds, `minutes` but for that."""

    state: Path
    after: float
    fence: str
    fence_limit: float = 300.0
    again: float = 30.0
    most: int = 4
    minutes: float | None = None
    grace: float = 600.0
    pause: float = 1.0


@dataclass
class Watched:
    """A runner that holds a lease, or is being reported lost."""

    name: str
    lease: int = 0
    leg: tuple[int, str, int] | None = None
    began: float = 0.0
    limit: float | None = None
    is_losing: bool = False
    heard: float = field(default_factory=time.monotonic)
    is_tried: bool = False
    again: float = 0.0

    def kept(self) -> dict[str, object]:
        """What outlives this process."""
        leg = list(self.leg) if self.leg else None
        return {'lease': self.lease, 'leg': leg, 'began': self.began, 'limit': self.limit, 'is_losing': self.is_losing}

    def take(self, lease: int, leg: tuple[int, str, int] | None) -> bool:
        """Notes its lease; answers whether this is another one."""
        is_new = lease != self.lease
        if is_new:
            self.lease, self.leg, self.began, self.limit = lease, leg, time.time(), None
        return is_new

    def overdue(self) -> float:
        """By how many seconds its leg is over its time limit; below zero if it is not."""
        return time.time() - self.began - self.limit if self.lease and self.limit is not None else -1.0


class Watchdog:
    """Looks at the runners by the view port, and reports by the hook port."""

    def __init__(self, rules: Rules, view: ViewPort, hooks: HookPort) -> None:
        self._rules = rules
        self._view = view
        self._hooks = hooks
        self._runners = {name: _watched(name, kept) for name, kept in _read_state(rules.state).items()}
        self._warned = -WARN_AGAIN
        self._tasks: set[asyncio.Task[None]] = set()

    async def watch(self) -> None:
        """Watches without end."""
        for runner in list(self._runners.values()):
            if runner.is_losing:  # an earlier life had its host fenced, and may have reported it
                self._begin(self._lose(runner))
        before = time.monotonic()
        while True:
            await asyncio.sleep(self._rules.pause)
            stood_still = time.monotonic() - before > self._rules.pause + STALL
            if not await self._take_views() or stood_still:
                for runner in self._runners.values():
                    runner.heard = time.monotonic()
            before = time.monotonic()
            self._look(before)

    def _begin(self, work: Coroutine[Any, Any, None]) -> None:
        task = asyncio.get_running_loop().create_task(work)
        self._tasks.add(task)  # the loop itself keeps no task
        task.add_done_callback(self._tasks.discard)

    def _keep(self) -> None:
        """Keeps who holds a lease, also over a crash of the machine."""
        new = self._rules.state.with_name(self._rules.state.name + '.new')
        with open(new, 'w', encoding='utf-8') as file:
            json.dump({runner.name: runner.kept() for runner in self._runners.values() if runner.lease}, file)
            file.flush()
            os.fsync(file.fileno())
        os.replace(new, self._rules.state)

    async def _take_views(self) -> bool:
        """Notes what the view port shows; answers whether it did. If not, nobody is silent: the service may be away."""
        try:
            rows = await asyncio.wait_for(self._view.runners(), VIEW_LIMIT)
        except (Away, asyncio.TimeoutError) as fault:
            self._warn(f'the view port: {fault or repr(fault)}')
            return False
        before = {name: runner.kept() for name, runner in self._runners.items()}
        self._note(rows)
        if {name: runner.kept() for name, runner in self._runners.items()} != before:
            self._keep()
        return True

    def _note(self, rows: Iterable[Runner]) -> None:
        shown = set()
        for row in rows:
            shown.add(row.name)
            if row.lease or row.name in self._runners:
                self._note_row(self._runners.setdefault(row.name, Watched(row.name)), row)
        for name, runner in list(self._runners.items()):
            if not runner.is_losing and (not runner.lease or name not in shown):
                del self._runners[name]

    def _note_row(self, runner: Watched, row: Runner) -> None:
        if runner.is_losing:
            return
        lease = row.lease
        leg = (lease.run, lease.job, lease.leg) if lease else None
        if runner.take(lease.lease if lease else 0, leg) and runner.lease:
            runner.heard = time.monotonic()
            self._begin(self._find_limit(runner, runner.lease))
        if row.heard_seconds_ago is not None:
            runner.heard = max(runner.heard, time.monotonic() - row.heard_seconds_ago - 1)

    async def _find_limit(self, runner: Watched, lease: int) -> None:
        """Asks for the run's body, and notes the time limit of the runner's job."""
        if not runner.leg:
            return
        run, job, _ = runner.leg
        with contextlib.suppress(Away, ValueError, LookupError):
            body = json.loads(await self._view.body(run) or await self._hooks.body(run) or b'{}')
            minutes = body['workflow']['jobs'][job].get('timeout-minutes')
            if not isinstance(minutes, (int, float)) or isinstance(minutes, bool):  # a text would be an expression
                minutes = self._rules.minutes
            if runner.lease == lease and minutes is not None:
                runner.limit = 60 * minutes
                self._keep()

    def _look(self, now: float) -> None:
        """Begins to end the leases of runners that are silent, or do not stop at their time limit."""
        leased = [runner for runner in self._runners.values() if runner.lease and not runner.is_losing]
        nearly = [runner.name for runner in leased if now - runner.heard > self._rules.after / 2]
        ready = [runner for runner in leased if not runner.is_tried and now > runner.again]
        silent = [runner for runner in ready if now - runner.heard > self._rules.after]
        if silent and len(nearly) > self._rules.most:
            names = ', '.join(nearly)
            self._warn(f'no host is fenced: {len(nearly)} runners are silent, perhaps by a fault of the network ({names})')
            silent = []
        overdue = [runner for runner in ready if runner not in silent and runner.overdue() > self._rules.grace]
        for runner in silent + overdue:
            runner.is_tried = True
            self._begin(self._end(runner, runner in silent))

    def _warn(self, words: str) -> None:
        now = time.monotonic()
        if now > self._warned + WARN_AGAIN:
            self._warned = now
            _say(words)

    async def _end(self, runner: Watched, is_silent: bool) -> None:
        """Has the host of a runner fenced, and then reports it lost, unless it was heard or has another lease."""
        heard, lease, why = runner.heard, runner.lease, 'silent' if is_silent else 'over its time limit'
        is_fenced = await self._fence(runner, why) and await self._take_views()
        runner.is_tried, runner.again = False, time.monotonic() + self._rules.again
        if not is_fenced:
            _say(f'{runner.name} is {why}, and not lost: its host was not fenced')
        elif is_silent and runner.heard > heard + ROUNDED or runner.lease != lease:
            _say(f'{runner.name} was {why}, and is not lost: it was heard meanwhile')
        else:
            await self._lose(runner)

    async def _fence(self, runner: Watched, why: str) -> bool:
        """Whether the command says that the host of a runner has ended."""
        run, job, leg = runner.leg or ('', '', '')
        told = {'RUNNER': runner.name, 'LEASE': runner.lease, 'RUN': run, 'JOB': job, 'LEG': leg, 'WHY': why}
        environment = {**os.environ, **{f'ACTS_{name}': str(value) for name, value in told.items()}}
        words = [*shlex.split(self._rules.fence), runner.name]
        try:
            command = await asyncio.create_subprocess_exec(
                *words, start_new_session=True, stdin=asyncio.subprocess.DEVNULL, env=environment)
        except OSError as fault:
            _say(str(fault))
            return False
        try:
            return await asyncio.wait_for(command.wait(), self._rules.fence_limit) == 0
        except asyncio.TimeoutError:
            os.killpg(command.pid, signal.SIGKILL)
            await command.wait()
            return False

    async def _lose(self, runner: Watched) -> None:
        """Reports a runner lost, and repeats a report without an answer only while the runner holds this lease."""
        runner.is_losing = True
        try:
            self._keep()
        except OSError as fault:
            _say(f'{runner.name} is not lost: {fault}')
            runner.is_losing = False
            return
        answer = None
        while await self._still_holds(runner) and (answer := await self._report(runner.name)) is None:
            await asyncio.sleep(1)
        _say(f"{runner.name} is lost, with lease {runner.lease}: {answer or 'it has ended'}")
        runner.take(0, None)
        runner.is_losing = False
        self._keep()

    async def _still_holds(self, runner: Watched) -> bool:
        """Whether a runner holds the lease that is to be ended; the view port is asked until it answers."""
        rows = await _until_answered(lambda: asyncio.wait_for(self._view.runners(runner.name), VIEW_LIMIT))
        return any(row.name == runner.name and row.lease and row.lease.lease == runner.lease for row in rows)

    async def _report(self, name: str) -> str | None:
        """The answer to the report; None if there is none, or the service asks for another try."""
        try:
            reply = await self._hooks.lost(name, seconds=None)  # one that is left behind could be carried out later
        except Away:
            return None
        return reply.words if reply.ok or reply.refusal in (40, 44, 45) else None


async def _until_answered(ask: Callable[[], Awaitable[T]]) -> T:
    while True:
        try:
            return await ask()
        except (Away, asyncio.TimeoutError):
            await asyncio.sleep(1)


def _watched(name: str, kept: Mapping[str, Any]) -> Watched:
    run, job, leg = kept['leg'] or (0, '', 0)
    return Watched(name, kept['lease'], (run, job, leg) if run else None, kept['began'], kept['limit'], kept['is_losing'])


def _read_state(path: Path) -> dict[str, Any]:
    try:
        return dict(json.loads(path.read_text(encoding='utf-8')))
    except FileNotFoundError:
        return {}


def _say(words: str) -> None:
    print('watchdog:', words, file=sys.stderr, flush=True)
