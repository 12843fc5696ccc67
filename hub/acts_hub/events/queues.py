"""Deliveries that wait, by repository. Those of a repository are handled in order, beside those of others."""
from __future__ import annotations

import asyncio
import traceback
from typing import Awaitable, Callable

from ..log import say


class NotNow(Exception):
    """The delivery, and those of its repository after it, are tried again later."""


class Queues:
    """`handle(name)` says whether a delivery is done; if not, others may pass it, unless it says `NotNow`."""

    def __init__(self, handle: Callable[[str], Awaitable[bool]], pause: float, first_pause: float = 0.5) -> None:
        self.handle, self.pause, self.first_pause = handle, pause, first_pause
        self.queues: dict[str, set[str]] = {}
        self.wakes: dict[str, asyncio.Event] = {}
        self.tasks: dict[str, asyncio.Task[None]] = {}
        self.why: dict[str, str] = {}  # why a repository's deliveries wait

    def add(self, repository: str, name: str) -> None:
        """Adds a delivery to the queue of its repository."""
        self.queues.setdefault(repository, set()).add(name)
        self.wakes.setdefault(repository, asyncio.Event()).set()
        if repository not in self.tasks:
            self.tasks[repository] = asyncio.create_task(self.work(repository), name=f'events of {repository}')

    def wake(self) -> None:
        """Lets what rests be tried again at once."""
        for wake in self.wakes.values():
            wake.set()

    def names(self) -> set[str]:
        """The names of all that wait."""
        return {name for names in self.queues.values() for name in names}

    async def stop(self) -> None:
        """Ends all work; what waits is in the spool."""
        tasks = list(self.tasks.values())
        for task in tasks:
            task.cancel()
        await asyncio.gather(*tasks, return_exceptions=True)

    async def work(self, repository: str) -> None:
        """Handles the deliveries of one repository while there are any."""
        pause = self.first_pause
        while self.queues[repository]:
            self.wakes[repository].clear()
            if await self.left_of(repository):
                await self.rest(repository, pause)
                pause = min(2 * pause, self.pause)
            else:
                pause = self.first_pause
        for of in self.queues, self.wakes, self.tasks, self.why:
            of.pop(repository, None)  # type: ignore[attr-defined]

    async def rest(self, repository: str, pause: float) -> None:
        """Waits a while, or until another delivery comes."""
        try:
            await asyncio.wait_for(self.wakes[repository].wait(), pause)
        except asyncio.TimeoutError:
            pass

    async def left_of(self, repository: str) -> bool:
        """Whether something is left after a try of each delivery."""
        left = False
        for name in sorted(self.queues[repository]):
            try:
                is_done = await self.handle(name)
            except NotNow as fault:
                if self.why.get(repository) != str(fault):
                    say(f'events: {name} is tried again: {fault}')
                self.why[repository] = str(fault)
                return True
            except Exception as fault:  # of this program, or of the disk: nothing is lost, and it is tried again
                traceback.print_exc()
                self.why[repository] = repr(fault)
                return True
            self.why.pop(repository, None)
            left = left or not is_done
            if is_done:
                self.queues[repository].discard(name)
        return left
