"""The combinations of a matrix."""
from __future__ import annotations

import itertools
import json
import math
from typing import Any

from .values import Fault

MOST_COMBINATIONS, MOST_CHOICES = 256, 4096  # GitHub's limit of jobs, and the service's before `exclude`
Row = dict[str, Any]


def combinations(matrix: dict[str, Any]) -> list[Row]:
    """The combinations of a matrix, in the order of its lists, and what `include` adds behind them."""
    lists = {name: values for name, values in matrix.items() if name not in ('include', 'exclude')}
    if not lists and 'include' not in matrix or not all(isinstance(values, list) for values in matrix.values()):
        raise Fault('it is not known before the run')
    if not all(isinstance(item, dict) for name in ('include', 'exclude') for item in matrix.get(name, [])):
        raise Fault('an include or exclude is no list of objects')
    if math.prod(map(len, lists.values())) > MOST_CHOICES:
        raise Fault(f'it has over {MOST_CHOICES} choices')
    rows = [dict(zip(lists, values)) for values in itertools.product(*lists.values())] if lists else []
    excluded = matrix.get('exclude', [])
    left = [row for row in rows if not any(covers(out, row) for out in excluded)]
    made = with_included(left, matrix.get('include', []))
    if not 0 < len(made) <= MOST_COMBINATIONS:
        raise Fault(f'it has {"no combination" if not made else f"over {MOST_COMBINATIONS} combinations"}')
    return made


def covers(left_out: Row, row: Row) -> bool:
    """Whether an item of `exclude` leaves a combination out."""
    return left_out.keys() <= row.keys() and agree(row, left_out)


def with_included(rows: list[Row], included: list[Row]) -> list[Row]:
    """The combinations with what `include` adds to them, and those that it adds behind them."""
    made = [dict(row) for row in rows]
    for more in included:
        fitting = [new for row, new in zip(rows, made) if agree(row, more)]
        for new in fitting:
            new.update(more)
        if not fitting:
            made.append(dict(more))
    return made


def agree(row: Row, other: Row) -> bool:
    """Whether two combinations have the same values under the names that both have. `true` is not 1."""
    return all(json.dumps(row[name], sort_keys=True) == json.dumps(other[name], sort_keys=True)
               for name in row.keys() & other.keys())
