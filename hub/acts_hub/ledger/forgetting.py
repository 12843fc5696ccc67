"""What is kept of runs that the service has forgotten goes: logs, artifacts and rows. How far it has come is noted nowhere: what is there says it, after a crash too."""
from __future__ import annotations

import asyncio
from typing import TYPE_CHECKING

from ..log import say
from .files import remove_empty

if TYPE_CHECKING:
    from ..hub import Hub

TABLES = 'runs', 'attempts', 'legs', 'notes'
SLICE = 200  # runs whose rows go in one transaction
SECONDS = 3600


class Forgetting:
    """Works whenever runs were forgotten, and once an hour, since what comes late for one may be kept after it has gone."""

    def __init__(self, hub: Hub) -> None:
        self._hub, self._news = hub, asyncio.Event()
        hub.mirror.forgot += [hub.notes.forget_through, lambda last: self._news.set()]

    async def watch(self) -> None:
        """Removes what is kept of forgotten runs, without end."""
        while True:
            try:
                await asyncio.wait_for(self._news.wait(), SECONDS)
            except asyncio.TimeoutError:
                pass
            self._news.clear()
            try:
                count = await self.work()
                if count:
                    say(f'removed the logs and artifacts of {count} runs that the service has forgotten')
            except Exception as fault:  # a disk that fails is no reason to stop
                say(f'what is kept of forgotten runs can not be removed: {fault!r}')

    async def work(self) -> int:
        """Removes all that is kept of forgotten runs; says of how many there were logs or artifacts."""
        hub, last = self._hub, self._hub.mirror.forgotten
        runs = await asyncio.to_thread(lambda: sorted({*hub.logs.runs(last), *hub.artifacts.runs(last)}))
        for start in range(0, len(runs), SLICE):
            if not self._is_so_still(last):
                return start
            await asyncio.to_thread(self._remove, runs[start:start + SLICE], last)
        while self._is_so_still(last) and (first := await asyncio.to_thread(self._first, last)) is not None:
            end = min(last, first + SLICE - 1)
            ticket = hub.database.write_all([(f'delete from {table} where run > 0 and run <= ?', (end,)) for table in TABLES])
            if not await asyncio.to_thread(hub.database.flushed, ticket):
                break                                       # it is done later
        return len(runs)

    def _is_so_still(self, last: int) -> bool:
        """Whether the service has not been restored to a state in which a run up to this one is there."""
        return self._hub.mirror.forgotten >= last

    def _remove(self, runs: list[int], last: int) -> None:
        self._hub.logs.drop(*runs)
        for run in runs:
            self._hub.artifacts.drop(run)
        for folder in self._hub.logs.folder, self._hub.artifacts.folder:
            remove_empty(folder, last)

    def _first(self, last: int) -> int | None:
        """The first run up to this one of which there is a row."""
        rows = [row for table in TABLES for row in self._hub.database.read(f'select min(run) from {table} where run > 0')]
        return min((run for run, in rows if run is not None and run <= last), default=None)
