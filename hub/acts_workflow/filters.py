"""Which workflows an event starts: the filters of `on`, by GitHub's patterns of branches, tags and paths."""
from __future__ import annotations

import functools
import re
from dataclasses import dataclass
from typing import Any, Iterable, Mapping

from .values import Fault

TOKEN = re.compile(r'(?<![^/])\*\*/|\*\*|\*|\?|\+|\[[A-Za-z0-9-]+\]|\\?.', re.S)
LONGEST_PATTERN = 1024  # characters
MOST_PATTERNS = 1000  # of a list
Filters = Mapping[str, Any]


@dataclass(frozen=True)
class Atom:
    """One character of a name. `accepts` lists what it may be, or is None for any character but those in `refuses`."""

    accepts: frozenset[str] | None
    refuses: str = ''
    may_lack: bool = False
    may_repeat: bool = False
    jumps: bool = False  # a name may have neither this one nor the one before

    def fits(self, character: str) -> bool:
        """Whether the character is one of those that it stands for."""
        return character not in self.refuses if self.accepts is None else character in self.accepts


class Pattern:
    """A pattern without its `!`. A name is matched in time by the product of both lengths, whatever they are."""

    def __init__(self, text: str) -> None:
        if len(text) > LONGEST_PATTERN:
            raise Fault(f'a pattern of over {LONGEST_PATTERN:,} characters')
        self.atoms: list[Atom] = []
        for token in TOKEN.findall(text):
            if token in ('?', '+'):
                self.atoms[-1:] = [self.repeated(text, token)]
            else:
                self.atoms += atoms_of(text, token)
        self.masks: dict[str, int] = {}
        self.lacking, self.repeating, self.jumping = (self.mask(name) for name in ('may_lack', 'may_repeat', 'jumps'))

    def repeated(self, text: str, sign: str) -> Atom:
        """The last atom with the `?` or `+` behind it."""
        last = self.atoms[-1] if self.atoms else None
        if last is None or last.may_lack or last.may_repeat or last.jumps:
            raise Fault(f'{text} is no pattern: nothing stands before {sign}')
        return Atom(last.accepts, last.refuses, may_lack=sign == '?', may_repeat=sign == '+')

    def mask(self, name: str) -> int:
        """A bit for each atom that has a property: bit N for the Nth, from 1."""
        return sum(2 << index for index, atom in enumerate(self.atoms) if getattr(atom, name))

    def fitting(self, character: str) -> int:
        """A bit for each atom that a character fits."""
        if character not in self.masks:
            self.masks[character] = sum(2 << index for index, atom in enumerate(self.atoms) if atom.fits(character))
        return self.masks[character]

    def closed(self, states: int) -> int:
        """The states that are reached without a character. State N is that the first N atoms are behind."""
        while True:
            more = states | states << 1 & self.lacking | states << 2 & self.jumping
            if more == states:
                return states
            states = more

    def matches(self, name: str) -> bool:
        """Whether the pattern is that of the whole name."""
        states = self.closed(1)
        for character in name:
            states = self.closed((states << 1 | states & self.repeating) & self.fitting(character))
            if not states:
                return False
        return bool(states >> len(self.atoms) & 1)


def atoms_of(text: str, token: str) -> list[Atom]:
    """What a token of a pattern stands for."""
    if token == '**/':
        return [Atom(None, may_lack=True, may_repeat=True), Atom(frozenset('/'), jumps=True)]
    if token in ('*', '**'):
        return [Atom(None, '/' if token == '*' else '', may_lack=True, may_repeat=True)]
    return [Atom(frozenset(characters(text, token[1:-1]) if len(token) > 2 else token[-1]))]


def characters(text: str, listed: str) -> Iterable[str]:
    """The characters that brackets list."""
    for first, last, single in re.findall(r'(\w)-(\w)|(.)', listed):
        if first > last:
            raise Fault(f'{text} is no pattern: {first}-{last} is no range')
        yield from single or map(chr, range(ord(first), ord(last) + 1))


pattern = functools.lru_cache(4096)(Pattern)


def as_list(value: Any) -> list[Any]:
    """A list, or a list of the one value."""
    return value if isinstance(value, list) else [value]


def chosen(name: str, patterns: Any) -> bool:
    """Whether the patterns select the name: the last one that matches decides, and one with `!` excludes it."""
    listed = as_list(patterns)
    if len(listed) > MOST_PATTERNS:
        raise Fault(f'over {MOST_PATTERNS:,} patterns')
    hit = False
    for text in map(str, listed):
        if pattern(text.removeprefix('!')).matches(name):
            hit = not text.startswith('!')
    return hit


def passes(filters: Filters, kind: str, names: Iterable[str]) -> bool:
    """Whether one of the names passes the filters of a kind: `branches`, `tags` or `paths`, or these with `-ignore`."""
    if kind in filters and kind + '-ignore' in filters:
        raise Fault(f'{kind} and {kind}-ignore together')
    if kind in filters:
        return any(chosen(name, filters[kind]) for name in names)
    return kind + '-ignore' not in filters or not all(chosen(name, filters[kind + '-ignore']) for name in names)


def has(filters: Filters, kind: str) -> bool:
    """Whether there are filters of a kind."""
    return kind in filters or kind + '-ignore' in filters


def triggers_of(on: Any) -> dict[str, Any]:
    """`on` by the names of its events, each with its filters: it may be a text, a list, or an object."""
    if isinstance(on, str):
        return {on: {}}
    if isinstance(on, list):
        return {str(event): {} for event in on}
    if not isinstance(on, dict):
        raise Fault('`on` is missing')
    for event, filters in on.items():
        if filters is not None and not isinstance(filters, list if event == 'schedule' else dict):
            raise Fault(f'on.{event} is no {"list" if event == "schedule" else "object"}')
    return {str(event): filters or {} for event, filters in on.items()}
