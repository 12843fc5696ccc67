"""Follows the service: lists its runs, and takes its changes from a cursor on."""
from __future__ import annotations

import asyncio
import time
from typing import TYPE_CHECKING

from ..ledger.runs import KeptRun
from ..log import say
from ..times import now
from .batch import Batch
from .changes import Changes
from .facts import Facts
from .http import Away, Gone
from .leases import Leases
from .looks import Looks, kept_of
from .models import Change, Row

if TYPE_CHECKING:
    from .mirror import Mirror

LIVE_SECONDS = 5.0
BEHIND = 0.003  # seconds: what a line tells of is told to runners and clients that wait for its answer first
FULL_PAGE = 1000
VERIFIED = 1000
LOOKED_AT = 2000
KEPT_AT_START = 200


class Follower:
    """What keeps a mirror up to date."""

    def __init__(self, mirror: Mirror) -> None:
        self.mirror = mirror
        self.leases = Leases()
        self.looks = Looks(mirror, self.leases)
        self.changes = Changes(mirror, self.leases, self.looks)
        self._cursor: str | None = None

    async def follow(self) -> None:
        """Follows without end: after an outage from the cursor, and if that is not known any more, by a new list."""
        self.mirror.attempts.load()
        self.mirror.runner_store.load()
        self.leases.load(self.mirror.attempts)
        self._cursor = self.mirror.meta.get('cursor')
        for (run, attempt), note in self.mirror.attempts.notes.items():
            if note.status is not None:
                self.changes.attempts[run] = max(attempt, self.changes.attempts.get(run, 1))
        worker = asyncio.create_task(self.looks.work())
        try:
            while True:
                await self._try()
        finally:
            worker.cancel()
            await asyncio.gather(worker, return_exceptions=True)

    async def _try(self) -> None:
        try:
            await self._follow()
        except Gone:
            say('the service does not know the cursor any more: its runs are listed anew')
            self._cursor = None
            self.leases.clear()
            self.changes.attempts.clear()
        except Away as fault:
            self._fault(str(fault))
            await asyncio.sleep(0.5)
        except Exception as fault:  # whatever the service says, the hub goes on
            self._fault(f'what the service shows can not be taken: {fault!r}')
            self._cursor = None
            await asyncio.sleep(2)

    def _fault(self, words: str | None) -> None:
        if words != self.mirror.fault:
            say(words or 'the service answers')
            self.mirror.fault = words

    async def _follow(self) -> None:
        view, mirror = self.mirror.view, self.mirror
        is_known = self._cursor is not None
        lines: list[Change] = []
        if self._cursor is None:
            cursor = (await view.changes())[1]
        else:
            lines, cursor = await view.changes(self._cursor, 0)
        self._fault(None)
        if not mirror.is_whole or not is_known:
            await self._list(verify=not is_known)
        if not is_known:
            self.changes.attempts = {run: found.row.attempt for run, found in mirror.runs.items()}
        await self._catch_up(lines, cursor)
        mirror.is_whole = True
        mirror.moved(set(mirror.runs))
        heard = time.monotonic()
        while True:
            is_live = time.monotonic() - heard < LIVE_SECONDS   # else what comes may have happened long ago
            assert self._cursor is not None
            lines, cursor = await view.changes(self._cursor, 25)
            heard = time.monotonic()
            self._fault(None)
            await asyncio.sleep(BEHIND)
            await self.changes.take(lines, now() if is_live else None, cursor)
            self._cursor = cursor

    async def _catch_up(self, lines: list[Change], cursor: str) -> None:
        """Takes lines of before: when each happened is not known, but for what it says itself."""
        while True:
            await self.changes.take(lines, None, cursor)
            self._cursor = cursor
            if len(lines) < FULL_PAGE:
                return
            lines, cursor = await self.mirror.view.changes(cursor, 0)

    async def _list(self, verify: bool) -> None:
        """Lists all runs: those before the first one are forgotten. With `verify`, the service may be another one, or restored."""
        mirror, began = self.mirror, time.monotonic()
        rows: dict[int, Row] = {}
        before: int | None = None
        while True:
            page, before = await mirror.view.page(before)
            rows.update((row.run, row) for row in page)
            if before is None:
                break
        kept = {**mirror.kept.all(), **{run.id: kept_of(run.row, run.facts, run.digest, run.created_at, run.created_source) for run in mirror.runs.values()}}
        self.changes.forget_through(min(rows) - 1 if rows else await mirror.view.forgotten())
        for run in mirror.runs.keys() - rows.keys():
            mirror.gone(run)
        batch, listed = Batch(mirror), now()
        for number, run in enumerate(sorted(rows)):
            self._listed(batch, rows[run], kept.get(run), listed)
            if number % 500 == 499:
                batch.write()
                await asyncio.sleep(0)
        batch.write()
        self._to_read(rows, verify)
        say(f'{len(rows)} runs are listed, in {time.monotonic() - began:.2f} s')

    def _listed(self, batch: Batch, row: Row, kept: KeptRun | None, at: int) -> None:
        """Shows a run of the list. What is kept of another run with this id, or of a later state of it, is dropped."""
        mirror = self.mirror
        if kept is not None and self._is_other(row, kept):
            say(f'run {row.run} is another one, or was restored: what was kept of it is dropped')
            batch.forget(row.run)
            kept = None
        before = mirror.runs.get(row.run)
        for earlier in range(before.row.attempt, row.attempt) if before is not None else ():
            self.changes.past(batch, row.run, earlier)
        note = mirror.attempts.note(row.run, row.attempt)
        is_changed = (note.status, note.conclusion) != (row.status, row.conclusion)
        note.status, note.conclusion = row.status, row.conclusion
        if note.started_at is None and note.updated_at is None and row.attempt > 1:
            note.updated_at = at                            # it had begun by then
        facts = Facts.of(kept.facts) if kept is not None and kept.facts is not None else None
        mirror.put_row(row, facts, kept.digest if kept else None, kept.created_at if kept else at, kept.created_source if kept else 'listed')
        if kept is None:
            batch.add(mirror.kept.keep(row.run, kept_of(row, None, None, at, 'listed')))
        if is_changed:
            batch.keep_attempt(row.run, row.attempt)

    def _is_other(self, row: Row, kept: KeptRun) -> bool:
        """Whether what is kept is of another run, or of a state that is later than the service's."""
        if (row.repository, row.delivery) != (kept.repository, kept.delivery):
            return True
        notes = self.mirror.attempts.notes
        later = notes.get((row.run, row.attempt + 1))
        note = notes.get((row.run, row.attempt))
        if later is not None and later.status is not None:
            return True
        return note is not None and note.status == 'completed' and (row.status, row.conclusion) != ('completed', note.conclusion)

    def _to_read(self, rows: dict[int, Row], verify: bool) -> None:
        """What is to be read after a list: bodies that are not known, those of the newest runs where the service may be another, runs that go on."""
        newest = sorted(rows, reverse=True)
        ongoing = [run for run in newest if rows[run].status != 'completed']
        for run in dict.fromkeys([*ongoing, *newest[:VERIFIED]] if verify else []):
            self.looks.at_body(run)
        for run in newest:
            if not self.mirror.runs[run].digest:
                self.looks.at_body(run)
        for run in ongoing[:LOOKED_AT]:
            self.looks.at_run(run, None)
        for run in newest[:KEPT_AT_START]:
            if rows[run].status == 'completed' and not self.mirror.attempts.has_whole(run, rows[run].attempt):
                self.looks.at_run(run, None)
