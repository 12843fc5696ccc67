"""Lists of ids by repository and by what runs are asked for, kept up to date with each change."""
from __future__ import annotations

import bisect
from collections import OrderedDict
from collections.abc import Hashable, Mapping, Sequence
from typing import TypeVar

Values = Mapping[str, str | None]
Asked = frozenset[tuple[str, str]]
MAX_COMBINED = 128
Key = TypeVar('Key', bound=Hashable)


class Index:
    """Ascending ids: of a repository, of a value of a field, and of several values at once once they were asked for."""

    def __init__(self) -> None:
        self._all: dict[str, list[int]] = {}
        self._fields: dict[tuple[str, str, str], list[int]] = {}
        self._combined: OrderedDict[tuple[str, Asked], list[int]] = OrderedDict()

    def repositories(self) -> list[str]:
        """The repositories, in lower case, that have a run."""
        return [name for name, ids in self._all.items() if ids]

    def of(self, repository: str) -> Sequence[int]:
        """The runs of a repository."""
        return self._all.get(repository, ())

    def select(self, repository: str, asked: Mapping[str, str]) -> Sequence[int]:
        """The runs of a repository that have all of these values."""
        if not asked:
            return self.of(repository)
        lists = [self._fields.get((repository, name, value), []) for name, value in asked.items()]
        shortest = min(lists, key=len)
        if len(asked) == 1 or not shortest:
            return shortest
        key = repository, frozenset(asked.items())
        found = self._combined.get(key)
        if found is None:
            found = sorted(set(shortest).intersection(*lists))
            if len(shortest) > 200:
                self._combined[key] = found
                if len(self._combined) > MAX_COMBINED:
                    self._combined.popitem(last=False)
        else:
            self._combined.move_to_end(key)
        return found

    def put(self, number: int, repository: str, before: Values | None, after: Values) -> None:
        """A run is there, or has other values than before."""
        if before is None:
            insert(self._all.setdefault(repository, []), number)
        for name, value in after.items():
            old = before.get(name) if before else None
            if old == value:
                continue
            if old is not None:
                self._remove((repository, name, old), number)
            if value is not None:
                insert(self._fields.setdefault((repository, name, value), []), number)
        for (where, asked), ids in self._combined.items():
            if where == repository:
                was, fit = before is not None and fits(before, asked), fits(after, asked)
                if was and not fit:
                    remove(ids, number)
                elif fit and not was:
                    insert(ids, number)

    def _remove(self, key: tuple[str, str, str], number: int) -> None:
        ids = self._fields[key]
        remove(ids, number)
        if not ids:
            del self._fields[key]

    def drop(self, number: int, repository: str, values: Values) -> None:
        """A run is gone."""
        remove(self._all[repository], number)
        if not self._all[repository]:
            del self._all[repository]
        for name, value in values.items():
            if value is not None:
                self._remove((repository, name, value), number)
        for (where, asked), ids in self._combined.items():
            if where == repository and fits(values, asked):
                remove(ids, number)

    def drop_through(self, last: int) -> None:
        """The runs with ids up to this one are gone."""
        cut(self._all, last)
        cut(self._fields, last)
        for ids in self._combined.values():
            del ids[:bisect.bisect_right(ids, last)]


def fits(values: Values, asked: Asked) -> bool:
    """Whether a run has all of these values."""
    return all(values.get(name) == value for name, value in asked)


def insert(ids: list[int], number: int) -> None:
    """Adds an id."""
    if not ids or ids[-1] < number:
        ids.append(number)
    elif ids[at := bisect.bisect_left(ids, number)] != number:
        ids.insert(at, number)


def remove(ids: list[int], number: int) -> None:
    """Takes an id away."""
    at = bisect.bisect_left(ids, number)
    if at < len(ids) and ids[at] == number:
        del ids[at]


def cut(lists: dict[Key, list[int]], last: int) -> None:
    """Takes the ids up to one away, and lists that have no other."""
    for key in [key for key, ids in lists.items() if ids[0] <= last]:
        ids = lists[key]
        del ids[:bisect.bisect_right(ids, last)]
        if not ids:
            del lists[key]
