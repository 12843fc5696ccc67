"""What is kept of attempts and their legs, also of earlier attempts, which the service forgets."""
from __future__ import annotations

import json
from collections import OrderedDict
from collections.abc import Iterable
from dataclasses import dataclass
from typing import Any

from .database import Database, Overlay, Statement

MAX_CACHED = 100_000
COLUMNS = 'run, attempt, started_at, updated_at, completed_at, status, conclusion, triggering_actor, skipped'
LEGS = 'job, leg, lease, runner, state, started_at, ended_at, combination, labels'
Attempt = tuple[int, int]
LegKey = tuple[str, int]


@dataclass(slots=True)
class AttemptNote:
    """An attempt; what nobody saw is None. `skipped` says that every job was skipped."""

    started_at: int | None = None
    updated_at: int | None = None
    completed_at: int | None = None
    status: str | None = None
    conclusion: str | None = None
    triggering_actor: str | None = None
    skipped: bool = False


@dataclass(slots=True)
class LegNote:
    """A leg of an attempt; what nobody saw is None."""

    job: str
    leg: int
    lease: int | None = None
    runner: str | None = None
    state: str | None = None
    started_at: int | None = None
    ended_at: int | None = None
    combination: dict[str, Any] | None = None
    labels: tuple[str, ...] = ()


class AttemptStore:
    """The tables `attempts` and `legs`. Notes of attempts are all in memory, legs and wholes as they are asked for."""

    def __init__(self, database: Database) -> None:
        self._database = database
        self.notes: dict[Attempt, AttemptNote] = {}
        self._legs: OrderedDict[Attempt, dict[LegKey, LegNote]] = OrderedDict()
        self._tickets: dict[Attempt, int] = {}
        self._wholes: Overlay[Attempt, dict[str, Any]] = Overlay(database)
        self._forgotten: dict[int, int | None] = {}         # run -> the number under which it is deleted, once that is known
        self._through = 0                                   # the runs up to this one are forgotten, whatever the file still has

    def load(self) -> None:
        """Reads the notes of all attempts."""
        for run, attempt, started, updated, completed, status, conclusion, actor, skipped in self._database.read(f'select {COLUMNS} from attempts'):
            self.notes.setdefault((run, attempt), AttemptNote(started, updated, completed, status, conclusion, actor, bool(skipped)))

    def note(self, run: int, attempt: int) -> AttemptNote:
        """The note of an attempt, to be changed and then kept."""
        return self.notes.setdefault((run, attempt), AttemptNote())

    def keep(self, run: int, attempt: int) -> Statement:
        """Keeps the note of an attempt."""
        note = self.note(run, attempt)
        return (f'insert into attempts ({COLUMNS}) values (?, ?, ?, ?, ?, ?, ?, ?, ?) on conflict do update set'
                ' started_at = coalesce(excluded.started_at, attempts.started_at), updated_at = coalesce(excluded.updated_at, attempts.updated_at),'
                ' completed_at = coalesce(excluded.completed_at, attempts.completed_at), status = excluded.status, conclusion = excluded.conclusion,'
                ' triggering_actor = coalesce(excluded.triggering_actor, attempts.triggering_actor), skipped = excluded.skipped',
                (run, attempt, note.started_at, note.updated_at, note.completed_at, note.status, note.conclusion, note.triggering_actor, int(note.skipped)))

    def keep_whole(self, run: int, attempt: int, whole: dict[str, Any]) -> int:
        """Keeps a whole attempt as the service shows it."""
        text = json.dumps(whole, separators=(',', ':'))
        ticket = self._database.write_all([
            self.keep(run, attempt), ('update attempts set whole = ? where run = ? and attempt = ?', (text, run, attempt))])
        self._wholes.put((run, attempt), whole, ticket)
        return ticket

    def whole(self, run: int, attempt: int) -> dict[str, Any] | None:
        """A whole attempt that was kept."""
        waiting = self._wholes.get((run, attempt))
        if waiting is not None:
            return waiting
        if self._is_forgotten(run):
            return None
        rows = self._database.read('select whole from attempts where run = ? and attempt = ?', (run, attempt))
        found = json.loads(rows[0][0]) if rows and rows[0][0] else None
        return found if isinstance(found, dict) else None

    def has_whole(self, run: int, attempt: int) -> bool:
        """Whether an attempt was kept as a whole."""
        return self._wholes.get((run, attempt)) is not None or not self._is_forgotten(run) and bool(
            self._database.read('select 1 from attempts where run = ? and attempt = ? and whole is not null', (run, attempt)))

    def legs(self, run: int, attempt: int) -> dict[LegKey, LegNote]:
        """The legs of an attempt, to be changed and then kept."""
        key = run, attempt
        found = self._legs.get(key)
        if found is None:
            rows = [] if self._is_forgotten(run) else self._database.read(f'select {LEGS} from legs where run = ? and attempt = ?', key)
            found = self._legs[key] = {(note.job, note.leg): note for note in map(_leg, rows)}
            self._shrink()
        self._legs.move_to_end(key)
        return found

    def leg(self, run: int, attempt: int, job: str, leg: int) -> LegNote:
        """The note of a leg, to be changed and then kept."""
        return self.legs(run, attempt).setdefault((job, leg), LegNote(job, leg))

    def _shrink(self) -> None:
        """Forgets what was not used for long and is in the file."""
        if len(self._legs) % 32:
            return
        left = len(self._legs) + sum(map(len, self._legs.values()))
        for key in list(self._legs)[:-1]:
            if left <= MAX_CACHED:
                return
            if self._tickets.get(key, 0) <= self._database.written:
                left -= 1 + len(self._legs.pop(key))
                self._tickets.pop(key, None)

    def keep_legs(self, run: int, attempt: int, notes: Iterable[LegNote]) -> list[Statement]:
        """Keeps legs of an attempt. The statements have to be written at once, and `written` told."""
        return [(f'insert or replace into legs (run, attempt, {LEGS}) values (?, ?, ?, ?, ?, ?, ?, ?, ?, ?, ?)', (
            run, attempt, note.job, note.leg, note.lease, note.runner, note.state, note.started_at, note.ended_at,
            None if note.combination is None else json.dumps(note.combination), json.dumps(note.labels))) for note in notes]

    def written(self, attempts: Iterable[Attempt], ticket: int) -> None:
        """Says under which number the legs of attempts are written."""
        for key in attempts:
            self._tickets[key] = ticket

    def leases(self, limit: int) -> list[tuple[int, int, int, str, int, str | None, bool]]:
        """The newest leases: lease, run, attempt, job, leg, runner, and whether it has ended."""
        rows = self._database.read('select lease, run, attempt, job, leg, runner, ended_at is not null or state is not null from legs'
                                   ' where lease is not null order by lease desc limit ?', (limit,))
        return [(lease, run, attempt, job, leg, runner, bool(ended)) for lease, run, attempt, job, leg, runner, ended in rows]

    def forget(self, run: int) -> None:
        """Forgets all of a run in memory."""
        for key in [key for key in self.notes if key[0] == run]:
            del self.notes[key]
        for key in [key for key in self._legs if key[0] == run]:
            del self._legs[key]
            self._tickets.pop(key, None)
        self._wholes.drop(lambda key: key[0] == run)
        self._forgotten[run] = None

    def forget_through(self, last: int) -> None:
        """Forgets all of the runs up to one in memory. Those behind it are shown: a store that was restored has fewer forgotten runs."""
        self._through = last
        for key in [key for key in self.notes if key[0] <= last]:
            del self.notes[key]
        for key in [key for key in self._legs if key[0] <= last]:
            del self._legs[key]
            self._tickets.pop(key, None)
        self._wholes.drop(lambda key: key[0] <= last)
        self._forgotten = {run: ticket for run, ticket in self._forgotten.items() if run > last}

    def deleted(self, runs: Iterable[int], ticket: int) -> None:
        """Says under which number forgotten runs are deleted: until then the file still has them."""
        for run in runs:
            self._forgotten[run] = ticket

    def _is_forgotten(self, run: int) -> bool:
        if run <= self._through:
            return True
        if run not in self._forgotten:
            return False
        ticket = self._forgotten[run]
        if ticket is not None and ticket <= self._database.written:
            del self._forgotten[run]
            return False
        return True


def _leg(row: tuple[Any, ...]) -> LegNote:
    job, leg, lease, runner, state, started, ended, combination, labels = row
    return LegNote(job, leg, lease, runner, state, started, ended, json.loads(combination) if combination else None, tuple(json.loads(labels or '[]')))
