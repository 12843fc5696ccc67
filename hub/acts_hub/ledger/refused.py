"""Events that made no run, with the reason."""
from __future__ import annotations

from dataclasses import dataclass

from ..times import now
from .database import Database, Overlay

MAX_TEXT = 4000
COLUMNS = 'id, at, repository, event, delivery, path, ref, sha, code, line, words, advice'


@dataclass(frozen=True, slots=True)
class Refused:
    """An event that made no run. `code` is the service's refusal, `line` that of the workflow's file."""

    id: int
    at: int
    repository: str
    event: str
    delivery: str
    path: str | None
    ref: str | None
    sha: str | None
    code: int | None
    line: int | None
    words: str
    advice: str


class RefusedStore:
    """The refused events of all repositories."""

    def __init__(self, database: Database) -> None:
        self._database = database
        self._overlay: Overlay[int, Refused] = Overlay(database)
        self._last = 0

    def add(self, at: int, repository: str, event: str, delivery: str, path: str | None, ref: str | None, sha: str | None,
            code: int | None, line: int | None, words: str, advice: str = '') -> Refused:
        """Keeps one."""
        self._last = max(self._last + 1, now() << 10)       # ascending, also over restarts, whether the ledger can be read or not
        made = Refused(self._last, at, repository, event, delivery, path, ref, sha, code, line, words[:MAX_TEXT], advice[:MAX_TEXT])
        ticket = self._database.write(
            f'insert or replace into refused ({COLUMNS}) values (?, ?, ?, ?, ?, ?, ?, ?, ?, ?, ?, ?)',
            (made.id, at, repository, event, delivery, path, ref, sha, code, line, made.words, made.advice))
        self._overlay.put(made.id, made, ticket)
        return made

    def list(self, repository: str | None = None, limit: int = 50, before: int | None = None) -> list[Refused]:
        """The newest first, of one repository or of all, with ids below `before`."""
        waiting = [one for _, one in self._overlay.items() if repository is None or one.repository.lower() == repository.lower()]
        below = 1 << 62 if before is None else before
        if repository is None:
            rows = self._database.read(f'select {COLUMNS} from refused where id < ? order by id desc limit ?', (below, limit))
        else:
            rows = self._database.read(f'select {COLUMNS} from refused where repository = ? and id < ? order by id desc limit ?', (repository, below, limit))
        found = {one.id: one for one in [Refused(*row) for row in rows] + [one for one in waiting if one.id < below]}
        return sorted(found.values(), key=lambda one: -one.id)[:limit]

    def expire(self, before: int) -> None:
        """Forgets those of before a time."""
        self._database.write('delete from refused where at < ?', (before,))
