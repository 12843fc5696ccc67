"""Takes lines of /changes into the mirror."""
from __future__ import annotations

import asyncio
import dataclasses
import json
import time
from typing import TYPE_CHECKING

from ..times import now
from .batch import Batch
from .facts import Facts
from .http import Away
from .leases import Leases
from .looks import Looks, kept_of
from .models import Change, Entry, Forgotten, LegLine, Row, RunLine
from .whole import ENDS

if TYPE_CHECKING:
    from .mirror import Mirror

AT_ONCE = 8
CURSOR_SECONDS = 10


class Changes:
    """What lines say. `at` is when it happened: None where nobody knows, after an outage."""

    def __init__(self, mirror: Mirror, leases: Leases, looks: Looks) -> None:
        self.mirror, self.leases, self.looks = mirror, leases, looks
        self.has_leg_lines = False
        self.attempts: dict[int, int] = {}                  # run -> attempt at the line at hand: what was read otherwise may be later
        self._changed: set[int] = set()
        self._batch = Batch(mirror)
        self._wrote = 0.0

    async def take(self, lines: list[Change], seen: int | None, cursor: str) -> None:
        """Takes lines; `seen` is the present, or None if they may be older."""
        self._batch = Batch(self.mirror)
        fresh = self._fresh(lines)
        rows = await self._rows_of(set(fresh), lines) if fresh else {}
        made = [(rows[run], at if at is not None else seen) for run, at in sorted(fresh.items()) if run in rows]
        for start in range(0, len(made), AT_ONCE):
            await asyncio.gather(*(self._made(*one) for one in made[start:start + AT_ONCE]))
        for line in lines:
            at = line.at if line.at is not None else seen
            if isinstance(line, Entry):
                self._entry(line, at)
            elif isinstance(line, RunLine):
                self._run_line(line, at)
            elif isinstance(line, Forgotten):
                self._forgotten(line)
            else:
                self._leg_line(line, at)
        is_due = bool(self._changed) or (bool(lines) and time.monotonic() - self._wrote > CURSOR_SECONDS)
        self._batch.write(cursor if is_due else None)
        if is_due:
            self._wrote = time.monotonic()
        if self._changed:
            changed, self._changed = self._changed, set()
            self.mirror.moved(changed)

    def _fresh(self, lines: list[Change]) -> dict[int, int | None]:
        """The runs that lines say were made, and when."""
        found: dict[int, int | None] = {}
        for line in lines:
            if isinstance(line, Entry) and line.command.get('name') == 'admit' and line.reply[0] == 'created':
                run = int(line.reply[1])
                known = self.mirror.runs.get(run)
                if run <= self.mirror.forgotten:            # a list that was made since says so
                    continue
                self.attempts.setdefault(run, 1)
                if known is None:
                    found.setdefault(run, line.at)
                elif line.at is not None and known.created_source != 'seen' and line.at < known.created_at:
                    self._created(run, line.at)
        return found

    def _created(self, run: int, at: int) -> None:
        """A run that was listed has been seen being made."""
        known = self.mirror.runs[run]
        self.mirror.put(dataclasses.replace(known, created_at=at, created_source='seen', started_at=known.started_at if known.row.attempt > 1 else at))
        self._batch.add(self.mirror.kept.keep(run, kept_of(known.row, known.facts, known.digest, at, 'seen')))

    async def _rows_of(self, wanted: set[int], lines: list[Change]) -> dict[int, Row]:
        """The rows of new runs: from the lines that have them whole, else from the list."""
        rows = {line.row.run: line.row for line in lines if isinstance(line, RunLine) and line.row is not None}
        missing = wanted - rows.keys()
        before: int | None = max(missing, default=0) + 1
        while missing and before is not None and before > min(missing):
            page, before = await self.mirror.view.page(before)
            rows.update((row.run, row) for row in page if row.run in missing)
        return rows

    async def _made(self, row: Row, at: int | None) -> None:
        """Shows a new run, once its body is known."""
        mirror = self.mirror
        try:
            text = await mirror.fetch_body(row.run)
        except Away:
            text = None
        kept = mirror.kept.of(row.run)
        if kept is not None and (kept.repository, kept.delivery) != (row.repository, row.delivery):
            self._batch.forget(row.run)                     # a run of another store had this id
            kept = None
        note = mirror.attempts.note(row.run, row.attempt)
        note.status, note.conclusion = row.status, row.conclusion
        if row.attempt == 1 and note.started_at is None:
            note.started_at = at
        note.updated_at = at if note.updated_at is None else note.updated_at
        created, source = (kept.created_at, kept.created_source) if kept else (at, 'seen') if at is not None else (now(), 'listed')
        facts = Facts.of(kept.facts) if kept is not None and kept.facts is not None else None
        mirror.put_row(row, facts, kept.digest if kept else None, created, source)
        self._batch.keep_attempt(row.run, row.attempt)
        if text is None:
            self.looks.at_body(row.run)
        else:
            self.looks.take_body(row.run, text)
        self._touch(row.run, at)

    def _entry(self, line: Entry, at: int | None) -> None:
        command, reply = line.command, line.reply
        name = command.get('name')
        if name == 'claim':
            self._batch.extend(self.mirror.runner_store.claimed(command['runner'], command['labels'], at))
            if reply[0] == 'lease':
                self._claimed(command['runner'], reply, at)
        elif name == 'done' and reply[0] == 'ok':
            self._ended(command['lease'], command['result'], at)
        elif name == 'lost' and reply[0] == 'ok' and command['runner'] in self.leases.held:
            self._ended(self.leases.held[command['runner']], None, at)
        elif name == 'discharge' and reply[0] == 'ok':
            self._batch.add(self.mirror.runner_store.forget(command['runner']))
        elif reply[0] == 'again' and len(reply) >= 3:
            self._again(int(reply[1]), int(reply[2]), at)

    def _claimed(self, runner: str, reply: tuple[str, ...], at: int | None) -> None:
        """A runner got a lease: `lease LEASE RUN JOB LEG COMBO`. The answer to a line that was sent again is not another lease."""
        lease, run, job, leg = int(reply[1]), int(reply[2]), reply[3], int(reply[4])
        known = self.mirror.runs.get(run)
        if lease in self.leases or known is None:
            return
        attempt = self.attempts.get(run, known.row.attempt)
        note = self._batch.leg(run, attempt, job, leg)
        combination = json.loads(' '.join(reply[5:]) or '{}')
        note.lease, note.runner, note.started_at, note.ended_at, note.state = lease, runner, at, None, None
        note.combination = combination if isinstance(combination, dict) else {}
        self.leases.held[runner] = lease
        self.leases.note(lease, (run, attempt, job, leg))
        self._touch(run, at)

    def _ended(self, lease: int, result: str | None, at: int | None) -> None:
        """A leg was reported, or its runner is lost: then the next look says how it ended."""
        place = self.leases.place(lease)
        if place is None:
            return
        note = self._batch.leg(*place)
        if note.lease != lease or self.leases.has_ended(lease):
            return
        note.ended_at, note.state = at, result or note.state
        self.leases.end(note.runner, lease)
        self._touch(place[0], at)

    def _again(self, run: int, attempt: int, at: int | None) -> None:
        """A run was run again. The answer to a line that was sent again begins nothing."""
        if run not in self.mirror.runs or attempt <= self.attempts.get(run, 0):
            return
        note = self.mirror.attempts.note(run, attempt)
        note.started_at = note.updated_at = at
        self.attempts[run] = attempt
        self._batch.keep_attempt(run, attempt)
        self._touch(run, at)

    def _run_line(self, line: RunLine, at: int | None) -> None:
        known = self.mirror.runs.get(line.run)
        if known is None:
            return
        self.attempts[line.run] = line.attempt
        row = known.row
        is_old = line.attempt < row.attempt or (line.attempt == row.attempt and row.status == 'completed' != line.status)
        self._note_attempt(line, at, is_old)
        if is_old:                                          # the row was read later than this line was written
            return
        for earlier in range(row.attempt, line.attempt):
            self.past(self._batch, line.run, earlier)
        after = line.row or dataclasses.replace(row, attempt=line.attempt, status=line.status, conclusion=line.conclusion)
        self.mirror.put_row(after, known.facts if known.digest else None, known.digest, known.created_at, known.created_source)
        self._touch(line.run, at, is_end=line.status == 'completed')

    def _note_attempt(self, line: RunLine, at: int | None, is_old: bool) -> None:
        note = self.mirror.attempts.note(line.run, line.attempt)
        if line.attempt > 1 and note.started_at is None and note.status is None:
            note.started_at = at
        if line.status == 'completed':
            note.completed_at = at if note.completed_at is None else note.completed_at
            note.status, note.conclusion = line.status, line.conclusion
        elif not is_old:
            note.status, note.conclusion = line.status, line.conclusion
        note.updated_at = at if at is not None else note.updated_at
        self._batch.keep_attempt(line.run, line.attempt)

    def past(self, batch: Batch, run: int, attempt: int) -> None:
        """An attempt is over since another began: what was seen of it is kept now."""
        note = self.mirror.attempts.note(run, attempt)
        if note.status != 'completed':
            note.status, note.conclusion, note.completed_at = 'completed', None, None
        batch.keep_attempt(run, attempt)
        self.looks.keep_past(run, attempt)

    def _leg_line(self, line: LegLine, at: int | None) -> None:
        self.has_leg_lines = True
        if line.run not in self.mirror.runs:
            return
        self._touch(line.run, at)
        is_known = (line.job, line.leg) in self.mirror.attempts.legs(line.run, line.attempt)
        if not is_known and line.lease is None and line.state not in ENDS:
            return                                          # it waits: there is nothing to note
        note = self._batch.leg(line.run, line.attempt, line.job, line.leg)
        if line.lease is not None:
            if line.lease != note.lease:
                note.started_at, note.ended_at, note.state = None, None, None
            note.lease, note.runner = line.lease, line.runner or note.runner
            self.leases.note(line.lease, (line.run, line.attempt, line.job, line.leg))
        if line.state == 'running' and note.started_at is None:
            note.started_at = at
        if line.state in ENDS and note.ended_at is None:
            note.ended_at = at
        note.state = line.state if line.state in ENDS else None

    def _forgotten(self, line: Forgotten) -> None:
        """The service has these runs no more. A list that was made since may know of more."""
        last = max(line.through, self.mirror.forgotten)
        self._changed |= self.forget_through(last)
        self._batch.forget_through(last)

    def forget_through(self, last: int) -> set[int]:
        """The runs up to this one are forgotten. Says which were shown."""
        self.attempts = {run: attempt for run, attempt in self.attempts.items() if run > last}
        return self.mirror.forget_through(last)

    def _touch(self, run: int, at: int | None, is_end: bool = False) -> None:
        """A run has changed: it is looked at soon, unless lines of its legs say all."""
        self._changed.add(run)
        if is_end or not self.has_leg_lines:
            self.looks.at_run(run, at, is_end)
