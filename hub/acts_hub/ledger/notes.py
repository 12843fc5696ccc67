"""Small JSON values of a run's attempt, such as outputs, annotations and approvals; run 0 stands for what is of no run."""
from __future__ import annotations

import json
from typing import Any

from ..times import now
from .database import Database, Overlay

MAX_VALUE = 1 << 20
Key = tuple[int, int, str, str]


class NoteError(ValueError):
    """A note is too long."""


class NoteStore:
    """Values by run, attempt, kind and name."""

    def __init__(self, database: Database) -> None:
        self._database = database
        self._overlay: Overlay[Key, str] = Overlay(database)

    def set(self, run: int, attempt: int, kind: str, name: str, value: Any) -> None:
        """Keeps a value under a name; None removes it."""
        text = json.dumps(value, separators=(',', ':'))
        if len(text) > MAX_VALUE:
            raise NoteError(f'a note has at most {MAX_VALUE} bytes')
        key = run, attempt, kind, name
        if value is None:
            ticket = self._database.write('delete from notes where run = ? and attempt = ? and kind = ? and name = ?', key)
        else:
            ticket = self._database.write('insert or replace into notes (run, attempt, kind, name, value, at) values (?, ?, ?, ?, ?, ?)', (*key, text, now()))
        self._overlay.put(key, text, ticket)

    def get(self, run: int, attempt: int, kind: str, name: str) -> Any:
        """A value; None if there is none."""
        waiting = self._overlay.get((run, attempt, kind, name))
        if waiting is not None:
            return json.loads(waiting)
        rows = self._database.read('select value from notes where run = ? and attempt = ? and kind = ? and name = ?', (run, attempt, kind, name))
        return json.loads(rows[0][0]) if rows else None

    def list(self, run: int, attempt: int, kind: str) -> dict[str, Any]:
        """All values of a kind, by name."""
        rows = self._database.read('select name, value from notes where run = ? and attempt = ? and kind = ? order by name', (run, attempt, kind))
        found = {name: json.loads(value) for name, value in rows}
        for key, text in self._overlay.items():
            if key[:3] == (run, attempt, kind):
                found[key[3]] = json.loads(text)
        return {name: value for name, value in found.items() if value is not None}

    def forget_through(self, last: int) -> None:
        """Forgets what waits to be written of the runs up to one; run 0 is none."""
        self._overlay.drop(lambda key: 0 < key[0] <= last)

    def drop(self, run: int) -> None:
        """Forgets all of a run."""
        self._overlay.drop(lambda key: key[0] == run)
        self._database.write('delete from notes where run = ?', (run,))
