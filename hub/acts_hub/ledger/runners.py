"""The labels that runners claimed with last."""
from __future__ import annotations

import json
import re
from collections.abc import Iterable

from .database import Database, Statement

HOUR = 3_600_000  # milliseconds
OWN = re.compile(r'life-[0-9a-f]{12}|approved-[0-9]+|no-leg-of-this-repository')


def given(labels: Iterable[str]) -> tuple[str, ...]:
    """The labels that a runner was given: without those that stand for a life of it, an approval, or no leg at all."""
    return tuple(label for label in labels if not OWN.fullmatch(label))


class RunnerStore:
    """The table `runners`, all of it in memory."""

    def __init__(self, database: Database) -> None:
        self._database = database
        self.labels: dict[str, tuple[str, ...]] = {}
        self.seen_at: dict[str, int] = {}
        self._asked: dict[str, tuple[str, ...]] = {}
        self._written: dict[str, int] = {}                  # when a runner was seen, as the file has it

    def load(self) -> None:
        """Reads all."""
        for name, labels, seen in self._database.read('select name, labels, seen_at from runners'):
            self.labels.setdefault(name, tuple(json.loads(labels)))
            self.seen_at.setdefault(name, seen)
            self._written[name] = seen

    def claimed(self, name: str, labels: list[str], at: int | None) -> list[Statement]:
        """Notes a claim that the service had. When that was is written now and then."""
        kept = given(labels)
        self.seen_at[name] = at if at is not None else self.seen_at.get(name, 0)
        if self.labels.get(name) == kept and self.seen_at[name] - self._written.get(name, 0) < HOUR:
            return []
        self.labels[name] = kept
        return [self._row(name)]

    def seen(self, name: str, at: int) -> Statement:
        """Notes when a runner was there, of which no claim was seen."""
        self.seen_at[name] = at
        return self._row(name)

    def _row(self, name: str) -> Statement:
        self._written[name] = seen = self.seen_at[name]
        return 'insert or replace into runners (name, labels, seen_at) values (?, ?, ?)', (name, json.dumps(self.labels.get(name, ())), seen)

    def names(self) -> set[str]:
        """All runners of which something is kept."""
        return self.labels.keys() | self.seen_at.keys()

    def forget(self, name: str) -> Statement:
        """Forgets a runner that was discharged."""
        for labels in self.labels, self._asked:
            labels.pop(name, None)
        for times in self.seen_at, self._written:
            times.pop(name, None)
        return 'delete from runners where name = ?', (name,)

    def asked(self, name: str, labels: Iterable[str]) -> None:
        """Notes with which labels a runner asked the gateway, which may send fewer to the service."""
        self._asked[name] = given(labels)

    def shown(self, name: str, labels: Iterable[str] | None) -> tuple[str, ...] | None:
        """The labels of a runner, for people: those it asked with, else those of its last claim at the service."""
        if name in self._asked:
            return self._asked[name]
        return self.labels.get(name) if labels is None else given(labels)
