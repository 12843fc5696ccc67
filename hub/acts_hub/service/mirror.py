"""All runs in memory, with what the ledger keeps of them. `Follower` keeps it up to date."""
from __future__ import annotations

import asyncio
import dataclasses
import time
from collections import OrderedDict
from collections.abc import AsyncIterator, Callable
from contextlib import asynccontextmanager

from ..ledger.attempts import AttemptNote, AttemptStore
from ..ledger.database import Database, Statement
from ..ledger.runners import RunnerStore
from ..ledger.runs import Meta, RunStore
from .facts import Facts
from .follow import Follower
from .hooks import HookPort
from .http import Away
from .index import Index
from .models import Json, Row, Runner, Whole
from .runs import Run, Runs, Watcher, filled, value_of, values_of
from .view import ViewPort
from .whole import leg_count, rebuilt, whole_of

__all__ = ['Mirror', 'Run', 'Runs', 'Watcher', 'value_of']
MAX_BODIES = 64
MAX_SNAPSHOT_LEGS = 100_000


class Mirror:
    """The runs of the service. All of it belongs to one event loop."""

    def __init__(self, view: ViewPort, hooks: HookPort, database: Database) -> None:
        self.view, self.hooks, self.database = view, hooks, database
        self.kept, self.attempts, self.runner_store, self.meta = RunStore(database), AttemptStore(database), RunnerStore(database), Meta(database)
        self.runs: dict[int, Run] = {}
        self.is_whole = False
        self.version = 0
        self.fault: str | None = None
        self.dropped: list[Callable[[int], None]] = []      # called with a run whose ledger was dropped: its logs and artifacts go too
        self.forgotten = 0                                  # the service has forgotten the runs up to this one
        self.forgot: list[Callable[[int], None]] = []       # called with the last of the runs that the service has forgotten
        self.snapshots: OrderedDict[int, Json] = OrderedDict()
        self._snapshot_legs: dict[int, int] = {}
        self._bodies: OrderedDict[tuple[int, str], bytes] = OrderedDict()
        self._index = Index()
        self._watchers: set[Watcher] = set()
        self._moved = asyncio.Event()
        self._follower = Follower(self)

    # what it knows

    def of(self, repository: str) -> Runs:
        """The runs of a repository, newest last."""
        return Runs(self._index.of(repository.lower()), self.runs)

    def select(self, repository: str, *, path: str | None = None, branch: str | None = None, event: str | None = None, actor: str | None = None,
               status: str | None = None, conclusion: str | None = None, sha: str | None = None) -> Runs:
        """The runs of a repository that match all of these, newest last: by indexes, not by a look at each run."""
        asked = {'path': path, 'branch': branch, 'event': event, 'actor': actor.lower() if actor else actor, 'status': status, 'conclusion': conclusion,
                 'sha': sha.lower() if sha else sha}
        return Runs(self._index.select(repository.lower(), {name: value for name, value in asked.items() if value is not None}), self.runs)

    def repositories(self) -> list[str]:
        """The repositories that have a run, as their newest run writes them."""
        return sorted(self.of(name)[-1].row.repository for name in self._index.repositories())

    def attempt(self, run: int, attempt: int) -> Run | None:
        """A run as it was in an attempt. What nobody saw of an earlier one, such as its conclusion, is None."""
        known = self.runs.get(run)
        if known is None or not 1 <= attempt <= known.row.attempt:
            return None
        if attempt == known.row.attempt:
            return known
        note = self.attempts.notes.get((run, attempt), AttemptNote())
        started = note.started_at or (known.created_at if attempt == 1 else note.updated_at or known.created_at)
        return dataclasses.replace(
            known, row=dataclasses.replace(known.row, attempt=attempt, status='completed', conclusion=note.conclusion), started_at=started,
            updated_at=note.completed_at or note.updated_at or started, completed_at=note.completed_at, triggering_actor=note.triggering_actor, skipped=note.skipped)

    async def whole(self, run: int, attempt: int | None = None) -> Whole | None:
        """A run with its jobs in an attempt, by default the present one; None if there is no such attempt."""
        known = self.runs.get(run)
        if known is None or (attempt is not None and not 1 <= attempt <= known.row.attempt):
            return None
        wanted = known.row.attempt if attempt is None else attempt
        kept = self.attempts.whole(run, wanted)
        if kept is None or (wanted == known.row.attempt and known.row.status != 'completed'):
            try:
                present = await self.view.run_json(run)
            except Away:
                present = self.snapshots.get(run)
                if present is None or present['attempt'] != wanted:
                    raise
            if present is None:
                return None
            if attempt is None or present['attempt'] == attempt:
                wanted, kept = present['attempt'], present
            else:
                kept = self.attempts.whole(run, wanted) or self.rebuilt(present, wanted)
        return whole_of(kept, self.attempts.legs(run, wanted), known.facts)

    def rebuilt(self, present: Json, attempt: int) -> Json:
        """An earlier attempt, from what was seen of it."""
        run = present['run']
        seen = self.snapshots.get(run)
        return rebuilt(present, attempt, self.attempts.notes.get((run, attempt)), self.attempts.legs(run, attempt),
                       seen if seen is not None and seen['attempt'] == attempt else None)

    async def body(self, run: int) -> bytes | None:
        """The admitted body of a run; None if there is none."""
        known = self.runs.get(run)
        key = run, known.row.delivery if known else ''
        found = self._bodies.get(key)
        if found is None:
            found = await self.fetch_body(run)
            if found is not None and known is not None:
                self._bodies[key] = found
                if len(self._bodies) > MAX_BODIES:
                    self._bodies.popitem(last=False)
        return found

    async def fetch_body(self, run: int) -> bytes | None:
        """The admitted body, from the view port where it shows bodies, else from the hook port."""
        found = await self.view.body(run)
        return await self.hooks.body(run) if found is None else found

    async def runners(self) -> list[Runner]:
        """All runners that have claimed, with the labels that they were given."""
        return [dataclasses.replace(one, labels=self.runner_store.shown(one.name, one.labels)) for one in await self.view.runners()]

    # what is told to it

    def note_actor(self, run: int, attempt: int, name: str) -> None:
        """Notes who began an attempt by a re-run; before or after the service says that it began."""
        self.attempts.note(run, attempt).triggering_actor = name
        self.database.write(*self.attempts.keep(run, attempt))
        known = self.runs.get(run)
        if known is not None and known.row.attempt == attempt:
            self.put(dataclasses.replace(known, triggering_actor=name))
            self.moved({run})

    async def keep(self, run: int) -> None:
        """Keeps the present attempt of a run, if it has ended; to be called before a re-run."""
        await self._follower.looks.keep(run)

    # how it is kept up to date

    def put(self, run: Run) -> None:
        """A run is new, or has changed."""
        before = self.runs.get(run.id)
        self.runs[run.id] = run
        self._index.put(run.id, run.row.repository.lower(), values_of(before) if before else None, values_of(run))

    def put_row(self, row: Row, facts: Facts | None, digest: str | None, created_at: int, source: str) -> Run:
        """A run with this row, and with the times that are noted of its attempt."""
        row, facts = filled(row, facts)
        note = self.attempts.note(row.run, row.attempt)
        started = note.started_at or (created_at if row.attempt == 1 else note.updated_at or created_at)
        ended = row.status == 'completed'
        run = Run(row, facts, created_at, started, (note.completed_at if ended else None) or note.updated_at or started,
                  note.completed_at if ended else None, note.triggering_actor or facts.actor, digest or '', source, note.skipped)
        self.put(run)
        return run

    def gone(self, run: int) -> None:
        """A service that was restored has the run no more. What the ledger keeps of it stays till its days are over, or another run has its id."""
        known = self.runs.pop(run, None)
        self.drop_snapshot(run)
        if known is not None:
            self._index.drop(run, known.row.repository.lower(), values_of(known))

    def forget(self, run: int) -> list[Statement]:
        """Drops all that the ledger keeps of a run: it is another one now, or the service was restored to before what is kept."""
        self.gone(run)
        self.attempts.forget(run)
        for key in [key for key in self._bodies if key[0] == run]:
            del self._bodies[key]
        for call in self.dropped:
            call(run)
        return self.kept.drop(run)

    def forget_through(self, last: int) -> set[int]:
        """The service has forgotten the runs up to this one: they are shown no more, and what is kept of them goes soon. Says which were shown."""
        self.forgotten = last
        found = {run for run in self.runs if run <= last}
        for run in found:
            del self.runs[run]
            self.drop_snapshot(run)
        for key in [key for key in self._bodies if key[0] <= last]:
            del self._bodies[key]
        self._index.drop_through(last)
        self.attempts.forget_through(last)
        for call in self.forgot:
            call(last)
        return found

    def expire(self, before: int) -> None:
        """Drops what is kept of runs that the service has no more and that are older than this."""
        if self.is_whole and self.fault is None:
            for run in [run for run in self.kept.older(before) if run not in self.runs]:
                self.database.write_all(self.forget(run))

    def snapshot(self, run: int, json: Json) -> None:
        """Keeps the last look at a run that goes on; of all such runs so many that their legs are bounded."""
        self.drop_snapshot(run)
        self.snapshots[run], self._snapshot_legs[run] = json, 1 + leg_count(json)
        total = sum(self._snapshot_legs.values()) if len(self.snapshots) % 16 == 0 or self._snapshot_legs[run] > 1000 else 0
        while total > MAX_SNAPSHOT_LEGS and len(self.snapshots) > 1:
            oldest = next(iter(self.snapshots))
            total -= self._snapshot_legs[oldest]
            self.drop_snapshot(oldest)

    def drop_snapshot(self, run: int) -> None:
        """Forgets the last look at a run."""
        self.snapshots.pop(run, None)
        self._snapshot_legs.pop(run, None)

    def moved(self, runs: set[int]) -> None:
        """Tells all who wait for changes."""
        self.version += 1
        self._moved.set()
        self._moved = asyncio.Event()
        for watcher in self._watchers:
            watcher.note(runs)

    async def settled(self, test: Callable[[], bool], seconds: float = 3.0) -> bool:
        """Waits until a change makes the test true; says whether it is."""
        late = time.monotonic() + seconds
        while not test():
            left = late - time.monotonic()
            if left <= 0:
                return False
            try:
                await asyncio.wait_for(self._moved.wait(), left)
            except asyncio.TimeoutError:
                return test()
        return True

    @asynccontextmanager
    async def watch(self) -> AsyncIterator[Watcher]:
        """A watcher, for as long as it is used."""
        watcher = Watcher()
        self._watchers.add(watcher)
        try:
            yield watcher
        finally:
            self._watchers.discard(watcher)

    async def follow(self) -> None:
        """Follows the service without end."""
        await self._follower.follow()
