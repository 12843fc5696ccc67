"""Values of expressions: how they become texts, numbers and truth values, and how they compare."""
from __future__ import annotations

import json
import re
from dataclasses import dataclass
from typing import Any, Iterable, Union

Known = Union[None, bool, int, float, str, 'list[Any]', 'dict[str, Any]']

NUMBER = re.compile(r'-?(?:0x[0-9A-Fa-f]+|0o[0-7]+|[0-9]+(?:\.[0-9]+)?(?:[eE][-+]?[0-9]+)?)')
LONGEST_TEXT = 1 << 20  # characters of a text that an expression makes
LONGEST_NUMBER = 400  # characters: the largest number has 309 digits


class Fault(ValueError):
    """What is wrong with a workflow, or with what it is given: words, the place, its line, and the service's number."""

    def __init__(self, words: str, place: str = '', line: int | None = None, number: int | None = None) -> None:
        super().__init__(f'{place}: {words}' if place else words)
        self.words, self.place, self.line, self.number = words, place, line, number


@dataclass(frozen=True)
class Unknown:
    """A value that is not known here. `truth` is what is known of its truth: `true`, `false`, a condition of the
    service, or `?` for nothing. `text` is the expression for it, where there is one."""

    truth: str = '?'
    text: str | None = None


Value = Union[Known, Unknown]


class Each(list):  # type: ignore[type-arg]
    """The values that `.*` gives."""


def number(value: Known) -> int | float:
    """The value as a number, as GitHub converts it."""
    if isinstance(value, (list, dict)):
        return float('nan')
    if not isinstance(value, str):
        return value or 0
    text = value.strip()
    if not text:
        return 0
    if len(text) > LONGEST_NUMBER or not NUMBER.fullmatch(text):
        return float('nan')
    if re.match('-?0[xo]', text):
        return int(text, 0)
    return int(text) if re.fullmatch('-?[0-9]+', text) else float(text)


def text_of(value: Known) -> str:
    """The text as which GitHub prints a value: a number with 15 digits at most, a list or an object by its kind."""
    if value is None:
        return ''
    if isinstance(value, str):
        return value
    if isinstance(value, bool):
        return str(value).lower()
    if isinstance(value, (list, dict)):
        return 'Array' if isinstance(value, list) else 'Object'
    if abs(value) >= 1 << 1023:
        return 'Infinity' if value > 0 else '-Infinity'
    digits = f'{value:.15g}'
    return 'NaN' if digits == 'nan' else digits.replace('e', 'E')


def is_true(value: Known) -> bool:
    """Whether a value counts as true: all but null, false, 0, NaN and the empty text."""
    return isinstance(value, (list, dict)) or bool(value) and value == value


def truth(value: Value) -> bool | None:
    """Whether a value counts as true; None if that is not known."""
    if isinstance(value, Unknown):
        return {'true': True, 'always()': True, 'false': False}.get(value.truth)
    return is_true(value)


def compare(op: str, left: Known, right: Known) -> bool:
    """Texts compare without case, values of different kinds as numbers, and lists and objects by what they are."""
    if isinstance(left, (list, dict)) and isinstance(right, (list, dict)):
        return op in ('==', '!=') and (left is right) == (op == '==')
    if isinstance(left, str) and isinstance(right, str):
        return ordered(op, left.lower(), right.lower())
    return ordered(op, number(left), number(right))


def ordered(op: str, left: Any, right: Any) -> bool:
    """The comparison of two texts or of two numbers."""
    if op in ('==', '!='):
        return bool((left == right) == (op == '=='))
    if op[-1] == '=' and left == right:
        return True
    return bool(left < right) if op[0] == '<' else bool(left > right)


def bounded(pieces: Iterable[str]) -> str:
    """The pieces as one text, which may not be too long."""
    made, size = [], 0
    for piece in pieces:
        size += len(piece)
        if size > LONGEST_TEXT:
            raise Fault(f'a text of over {LONGEST_TEXT:,} characters')
        made.append(piece)
    return ''.join(made)


def to_json(value: Known) -> str:
    """The value as `toJSON` prints it."""
    return bounded(json.JSONEncoder(indent=2, ensure_ascii=False).iterencode(value))


def from_json(text: str) -> Known:
    """The value that a JSON text names."""
    try:
        value: Known = json.loads(text, parse_constant=refuse_constant)
    except (ValueError, RecursionError) as fault:
        raise Fault(f'fromJSON: {fault}') from None
    return value


def refuse_constant(name: str) -> None:
    """Faults what Python reads as JSON, and JSON does not have."""
    raise Fault(f'fromJSON: {name} is not JSON')
