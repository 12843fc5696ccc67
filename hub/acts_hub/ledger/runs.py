"""What is kept of runs: who they are, and when they were made. Statements are for `Database.write_all`."""
from __future__ import annotations

import json
from collections.abc import Sequence
from dataclasses import dataclass
from typing import Any

from .database import Database, Statement

MAX_FACTS = 64 << 10


@dataclass(frozen=True, slots=True)
class KeptRun:
    """What was known of a run. `created_source` is `seen`, `payload` or `listed`."""

    repository: str
    delivery: str
    digest: str | None
    facts: dict[str, Any] | None
    created_at: int
    created_source: str


class RunStore:
    """The table `runs`."""

    def __init__(self, database: Database) -> None:
        self._database = database

    def all(self) -> dict[int, KeptRun]:
        """All that is kept."""
        rows = self._database.read('select run, repository, delivery, digest, facts, created_at, created_source from runs')
        return {run: _kept(rest) for run, *rest in rows}

    def of(self, run: int) -> KeptRun | None:
        """What is kept of a run."""
        rows = self._database.read('select repository, delivery, digest, facts, created_at, created_source from runs where run = ?', (run,))
        return _kept(rows[0]) if rows else None

    def older(self, before: int) -> list[int]:
        """The runs that were made before a time."""
        return [run for run, in self._database.read('select run from runs where created_at < ?', (before,))]

    @staticmethod
    def keep(run: int, kept: KeptRun) -> Statement:
        """Keeps a run."""
        facts = None if kept.facts is None else json.dumps(kept.facts, separators=(',', ':'))
        same = ("runs.delivery = excluded.delivery and excluded.created_source <> 'seen' and"
                " (runs.created_source = 'seen' or excluded.created_source = 'listed')")
        return ('insert into runs (run, repository, delivery, digest, facts, created_at, created_source) values (?, ?, ?, ?, ?, ?, ?) on conflict do update set'
                f' created_at = case when {same} then runs.created_at else excluded.created_at end,'
                f' created_source = case when {same} then runs.created_source else excluded.created_source end,'
                ' repository = excluded.repository, delivery = excluded.delivery, digest = coalesce(excluded.digest, runs.digest),'
                ' facts = coalesce(excluded.facts, runs.facts)',
                (run, kept.repository, kept.delivery, kept.digest, facts, kept.created_at, kept.created_source))

    @staticmethod
    def drop(run: int) -> list[Statement]:
        """Forgets all that is kept of a run."""
        return [(f'delete from {table} where run = ?', (run,)) for table in ('runs', 'attempts', 'legs', 'notes')]


def _kept(row: Sequence[Any]) -> KeptRun:
    repository, delivery, digest, facts, created_at, source = row
    return KeptRun(repository, delivery, digest, json.loads(facts) if facts else None, created_at, source)


class Meta:
    """The table `meta`: single values by name."""

    def __init__(self, database: Database) -> None:
        self._database = database

    def get(self, name: str) -> str | None:
        """A value."""
        rows = self._database.read('select value from meta where name = ?', (name,))
        return str(rows[0][0]) if rows else None

    @staticmethod
    def set(name: str, value: str) -> Statement:
        """Keeps a value."""
        return 'insert or replace into meta (name, value) values (?, ?)', (name, value)
