"""A reader of `/changes` that lists the runs once, and from then on knows each row of `/runs` and each leg from the lines alone. docs/VIEWS.md."""
from __future__ import annotations

from collections.abc import Callable, Iterator, Mapping
from dataclasses import dataclass, field
from typing import Any, TypeVar

Key = TypeVar('Key')
Value = TypeVar('Value')
Json = dict[str, Any]
Get = Callable[[str], Json]
"""The JSON object at a path of the view port."""


@dataclass(frozen=True)
class Leg:
    """A leg as its row and its line say."""

    attempt: int
    state: str
    lease: int | None
    runner: str | None


LegKey = tuple[int, str, int]
"""A run, a job and the index of a leg."""


def listed_rows(get: Get) -> Iterator[Json]:
    """All rows of `/runs`."""
    before: int | None = None
    while True:
        page = get('/runs' if before is None else f'/runs?before={before}')
        yield from page['runs']
        before = page['before']
        if before is None:
            return


def listed_legs(get: Get, run: int) -> Iterator[tuple[LegKey, Leg]]:
    """All legs of a run."""
    first: int | None = 0
    while first is not None:
        page = get(f'/runs/{run}?from={first}')
        for job in page['jobs']:
            for leg in job['legs']:
                yield (run, job['id'], leg['leg']), Leg(page['attempt'], leg['state'], leg['lease'], leg['runner'])
        first = page['from']


@dataclass
class Known:
    """What is known of a service: the row of each run, by its id, and each leg."""

    rows: dict[int, Json] = field(default_factory=dict)
    legs: dict[LegKey, Leg] = field(default_factory=dict)

    @classmethod
    def of_listing(cls, get: Get) -> Known:
        """What a listing says now."""
        rows = {row['run']: row for row in listed_rows(get)}
        return cls(rows, dict(pair for run in rows for pair in listed_legs(get, run)))

    def legs_of(self, run: int) -> dict[LegKey, Leg]:
        """The legs of a run."""
        return {key: leg for key, leg in self.legs.items() if key[0] == run}

    def take(self, line: Json) -> None:
        """Takes a line of `/changes`, which is not the cursor's."""
        if 'entry' in line:
            return
        if line.get('type') == 'forgotten':
            self.rows = {run: row for run, row in self.rows.items() if run > line['through']}
            self.legs = {key: leg for key, leg in self.legs.items() if key[0] > line['through']}
        elif 'leg' in line:
            self.legs[line['run'], line['job'], line['leg']] = Leg(line['attempt'], line['state'], line['lease'], line['runner'])
        elif 'delivery' in line:
            self._begin({name: value for name, value in line.items() if name not in ('after', 'at')})
        elif 'status' in line:
            self.rows[line['run']].update({name: line[name] for name in ('attempt', 'status', 'conclusion')})

    def _begin(self, row: Json) -> None:
        """A run begins an attempt: the legs of the one before are gone."""
        for key in self.legs_of(row['run']):
            del self.legs[key]
        self.rows[row['run']] = row


def _first_difference(name: str, one: Mapping[Key, Value], other: Mapping[Key, Value]) -> str | None:
    for key in sorted({*one, *other}, key=str):
        if one.get(key) != other.get(key):
            return f'{name} {key}:\n followed {one.get(key)}\n listed   {other.get(key)}'
    return None


def difference(followed: Known, listed: Known) -> str | None:
    """Where what was followed is not what a listing says, or None."""
    return _first_difference('row', followed.rows, listed.rows) or _first_difference('leg', followed.legs, listed.legs)
