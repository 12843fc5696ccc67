"""Looks at runs that changed, and reads bodies, a few at a time, beside the changes."""
from __future__ import annotations

import asyncio
import dataclasses
import hashlib
import json
from collections import OrderedDict
from typing import TYPE_CHECKING

from ..ledger.runs import KeptRun
from ..log import say
from ..times import now, of_iso
from .batch import Batch
from .facts import Facts, facts_of
from .http import Away
from .leases import Leases, Place
from .models import Json, Row
from .whole import ENDS, is_skipped, leg_count, leg_states

if TYPE_CHECKING:
    from .mirror import Mirror

AT_ONCE = 6
LEGS_A_SECOND = 500


class Looks:
    """What is to be read of the service: whole runs first, then bodies."""

    def __init__(self, mirror: Mirror, leases: Leases) -> None:
        self.mirror, self.leases = mirror, leases
        self._runs: OrderedDict[int, int | None] = OrderedDict()    # run -> when what is to be seen happened, if that is known
        self._bodies: OrderedDict[int, None] = OrderedDict()
        self._rests: dict[int, tuple[int | None] | None] = {}       # large runs that rest, and since when they are to be looked at again
        self._work = asyncio.Event()

    def at_run(self, run: int, at: int | None, is_end: bool = False) -> None:
        """A run is to be looked at. One with many legs rests between two looks, but for its end."""
        if run in self._rests and not is_end:
            self._rests[run] = (at,)
            return
        self._runs[run] = at
        self._work.set()

    def _rest(self, run: int, legs: int) -> None:
        if legs >= LEGS_A_SECOND and run not in self._rests:
            self._rests[run] = None
            asyncio.get_running_loop().call_later(legs / LEGS_A_SECOND, self._wake, run)

    def _wake(self, run: int) -> None:
        waiting = self._rests.pop(run, None)
        if waiting is not None:
            self.at_run(run, waiting[0])

    def at_body(self, run: int) -> None:
        """A body is to be read."""
        self._bodies[run] = None
        self._work.set()

    async def work(self) -> None:
        """Does it, without end."""
        workers = [asyncio.create_task(self._forever()) for _ in range(AT_ONCE)]
        try:
            await asyncio.gather(*workers)
        finally:
            for task in workers:
                task.cancel()

    async def _forever(self) -> None:
        while True:
            if self._runs:
                run, at = self._runs.popitem(last=False)
                await self._try(run, at)
            elif self._bodies:
                await self._try_body(self._bodies.popitem(last=False)[0])
            else:
                self._work.clear()
                await self._work.wait()

    async def _try(self, run: int, at: int | None) -> None:
        try:
            await self.look(run, at)
        except Away:
            self._runs.setdefault(run, None)
            await asyncio.sleep(1)
        except Exception as fault:  # a run that can't be read is no reason to stop
            say(f'run {run} can not be read: {fault!r}')

    async def _try_body(self, run: int) -> None:
        try:
            await self.learn(run)
        except Away:
            self._bodies.setdefault(run, None)
            await asyncio.sleep(1)
        except Exception as fault:  # as above
            say(f'the body of run {run} can not be read: {fault!r}')

    async def look(self, run: int, at: int | None) -> None:
        """Looks at a run; once it has ended, keeps what it did."""
        mirror = self.mirror
        found = await mirror.view.run_json(run) if run in mirror.runs else None
        known = mirror.runs.get(run)
        if known is None or found is None:
            return
        attempt, before = found['attempt'], mirror.snapshots.get(run)
        if attempt > known.row.attempt:                     # the lines of its end are still to come, and then it is looked at again
            return
        batch = Batch(mirror)
        self._note_legs(batch, found, at)
        if found['status'] == 'completed':
            note = mirror.attempts.note(run, attempt)
            note.skipped = is_skipped(found)
            if not mirror.attempts.has_whole(run, attempt):
                mirror.attempts.keep_whole(run, attempt, found)
            mirror.drop_snapshot(run)
            if known.row.attempt == attempt and known.skipped != note.skipped:
                mirror.put(dataclasses.replace(known, skipped=note.skipped))
        else:
            mirror.snapshot(run, found)
            self._rest(run, leg_count(found))
        batch.write()
        if before != found:
            mirror.moved({run})

    def _note_legs(self, batch: Batch, found: Json, at: int | None) -> None:
        """Notes what a look shows of legs: leases that nobody saw being claimed, and ends that nobody reported."""
        run, attempt = found['run'], found['attempt']
        known = self.mirror.attempts.legs(run, attempt)
        for (job, leg), shown in leg_states(found).items():
            note, has_ended = known.get((job, leg)), shown['state'] in ENDS
            if note is None and shown['lease'] is None and not has_ended:
                continue
            if note is not None and note.lease == shown['lease'] and note.state == (shown['state'] if has_ended else None):
                continue
            note = batch.leg(run, attempt, job, leg)
            if shown['lease'] is not None and shown['lease'] != note.lease:
                note.lease, note.runner, note.started_at, note.ended_at = shown['lease'], shown['runner'], None, None
                if at is None:                              # after an outage: else the lines of its claim and its end say more
                    self._note_lease(shown, (run, attempt, job, leg))
            note.combination, note.labels = shown['combination'], tuple(shown['labels'])
            if has_ended:
                note.state = shown['state']
                if shown['lease'] is None and note.ended_at is None:
                    note.ended_at = at
            elif at is None and note.state in ENDS:         # after a list: the service was restored to before the end
                note.state, note.ended_at = None, None

    def _note_lease(self, shown: Json, place: Place) -> None:
        self.leases.note(shown['lease'], place)
        if shown['state'] in ENDS:
            self.leases.end(shown['runner'], shown['lease'])
        elif shown['runner']:
            self.leases.held[shown['runner']] = shown['lease']

    def keep_past(self, run: int, attempt: int) -> None:
        """Keeps what was seen of an attempt that the service has forgotten, since another began."""
        mirror = self.mirror
        seen = mirror.snapshots.get(run)
        if seen is None or seen['attempt'] != attempt:
            return
        if not mirror.attempts.has_whole(run, attempt):
            mirror.attempts.keep_whole(run, attempt, mirror.rebuilt({**seen, 'attempt': attempt + 1}, attempt))
        mirror.drop_snapshot(run)

    async def learn(self, run: int) -> None:
        """Reads the body of a run."""
        text = await self.mirror.fetch_body(run) if run in self.mirror.runs else None
        if text is not None:
            self.take_body(run, text)

    def take_body(self, run: int, text: bytes) -> None:
        """Takes the body of a run. If it is another one than before, what is kept of the run is dropped."""
        mirror = self.mirror
        known = mirror.runs.get(run)
        if known is None:
            return
        digest = hashlib.sha256(text).hexdigest()
        if known.digest == digest:
            return
        batch, created, source = Batch(mirror), known.created_at, known.created_source
        if known.digest:
            say(f'run {run} has another body: what was kept of it is dropped')
            batch.forget(run)
            created, source = now(), 'listed'
            self.at_run(run, None)
        body = json.loads(text)
        facts = facts_of(body if isinstance(body, dict) else {})
        named = of_iso(facts.event_at) if facts.event_at is not None else None
        if source == 'listed' and named is not None and 0 < named <= created:
            created, source = named, 'payload'
        note = mirror.attempts.note(run, known.row.attempt)
        note.status, note.conclusion = known.row.status, known.row.conclusion
        mirror.put_row(known.row, facts, digest, created, source)
        batch.add(mirror.kept.keep(run, kept_of(known.row, facts, digest, created, source)))
        batch.keep_attempt(run, known.row.attempt)
        batch.write()
        mirror.moved({run})

    async def keep(self, run: int) -> None:
        """Keeps the present attempt, if it has ended and is not kept yet."""
        known = self.mirror.runs.get(run)
        if known is not None and not self.mirror.attempts.has_whole(run, known.row.attempt):
            await self.look(run, None)


def kept_of(row: Row, facts: Facts | None, digest: str | None, created_at: int, source: str) -> KeptRun:
    """What is kept of a run."""
    return KeptRun(row.repository, row.delivery, digest or None, facts.json() if facts is not None and digest else None, created_at, source)
