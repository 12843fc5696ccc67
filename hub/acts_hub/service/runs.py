"""A run as the hub knows it, and lists of them."""
from __future__ import annotations

import asyncio
import dataclasses
from collections.abc import Iterator, Sequence
from dataclasses import dataclass
from typing import overload

from .facts import Facts
from .models import Row


@dataclass(frozen=True, slots=True)
class Run:
    """A run: another object after each change. `created_source` is `seen`, `payload` or `listed`; `skipped` says that every job was skipped."""

    row: Row
    facts: Facts
    created_at: int
    started_at: int
    updated_at: int
    completed_at: int | None
    triggering_actor: str | None
    digest: str
    created_source: str = 'seen'
    skipped: bool = False

    @property
    def id(self) -> int:
        """Its id."""
        return self.row.run

    @property
    def conclusion(self) -> str | None:
        """Its conclusion as GitHub has it: a run of which every job was skipped is skipped."""
        return 'skipped' if self.skipped and self.row.conclusion == 'success' else self.row.conclusion


class Runs(Sequence[Run]):
    """Runs by a list of their ids; the newest comes last."""

    def __init__(self, ids: Sequence[int], runs: dict[int, Run]) -> None:
        self.ids, self._runs = ids, runs

    def __len__(self) -> int:
        return len(self.ids)

    @overload
    def __getitem__(self, index: int) -> Run: ...

    @overload
    def __getitem__(self, index: slice) -> list[Run]: ...

    def __getitem__(self, index: int | slice) -> Run | list[Run]:
        if isinstance(index, slice):
            return [self._runs[number] for number in self.ids[index]]
        return self._runs[self.ids[index]]

    def __iter__(self) -> Iterator[Run]:
        return iter([self._runs[number] for number in self.ids])


class Watcher:
    """Says which runs changed."""

    def __init__(self) -> None:
        self._changed: set[int] = set()
        self._event = asyncio.Event()

    def note(self, runs: set[int]) -> None:
        """Notes runs that changed."""
        self._changed |= runs
        self._event.set()

    async def next(self) -> set[int]:
        """Waits for a change, and gives the ids of the runs that changed since the last call."""
        await self._event.wait()
        self._event.clear()
        found, self._changed = self._changed, set()
        return found


def values_of(run: Run) -> dict[str, str | None]:
    """What indexes go by."""
    row, facts = run.row, run.facts
    return {
        'path': row.path, 'branch': facts.branch, 'event': row.event, 'actor': facts.actor.lower() if facts.actor else None, 'status': row.status,
        'conclusion': run.conclusion, 'sha': facts.sha.lower() if facts.sha else None}


def value_of(run: Run, name: str) -> str | None:
    """The value of one of these names."""
    return values_of(run)[name]


def filled(row: Row, facts: Facts | None) -> tuple[Row, Facts]:
    """The row with what the facts know, and the facts with what the row knows, each where the other says nothing."""
    if facts is None:
        branch = row.head_ref or row.ref_name or (row.ref.removeprefix('refs/heads/').removeprefix('refs/tags/') if row.ref else None)
        return row, Facts(sha=row.sha, branch=branch, actor=row.actor, title=row.title)
    row = dataclasses.replace(row, sha=row.sha or facts.sha, ref_name=row.ref_name or facts.branch, actor=row.actor or facts.actor, title=row.title or facts.title)
    return row, facts
