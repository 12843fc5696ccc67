"""What is to be written together: statements, and the legs that were noted."""
from __future__ import annotations

from collections.abc import Iterable
from typing import TYPE_CHECKING

from ..ledger.attempts import LegNote
from ..ledger.database import Statement

if TYPE_CHECKING:
    from .mirror import Mirror


class Batch:
    """Collects, and then writes all as one."""

    def __init__(self, mirror: Mirror) -> None:
        self._mirror = mirror
        self._statements: list[Statement] = []
        self._legs: dict[tuple[int, int], dict[int, LegNote]] = {}
        self._forgotten: set[int] = set()

    def add(self, *statements: Statement) -> None:
        """Adds statements."""
        self._statements += statements

    def extend(self, statements: Iterable[Statement]) -> None:
        """Adds statements."""
        self._statements += statements

    def leg(self, run: int, attempt: int, job: str, leg: int) -> LegNote:
        """The note of a leg, to be changed: it is kept with the batch."""
        note = self._mirror.attempts.leg(run, attempt, job, leg)
        self._legs.setdefault((run, attempt), {})[id(note)] = note
        return note

    def keep_attempt(self, run: int, attempt: int) -> None:
        """Keeps the note of an attempt."""
        self.add(self._mirror.attempts.keep(run, attempt))

    def forget(self, run: int) -> None:
        """Drops all that is kept of a run."""
        for key in [key for key in self._legs if key[0] == run]:
            del self._legs[key]
        self.extend(self._mirror.forget(run))
        self._forgotten.add(run)

    def forget_through(self, last: int) -> None:
        """Leaves out what was noted of the legs of the runs up to one."""
        self._legs = {key: notes for key, notes in self._legs.items() if key[0] > last}

    def write(self, cursor: str | None = None) -> None:
        """Writes it, with the cursor from which to go on."""
        attempts = self._mirror.attempts
        for key, notes in self._legs.items():
            self._statements += attempts.keep_legs(*key, notes.values())
        if cursor is not None:
            self._statements.append(self._mirror.meta.set('cursor', cursor))
        if self._statements:
            ticket = self._mirror.database.write_all(self._statements)
            attempts.written(self._legs, ticket)
            attempts.deleted(self._forgotten, ticket)
        self._statements, self._legs, self._forgotten = [], {}, set()
