"""Pages of lists, their links, and entity tags."""
from __future__ import annotations

from collections.abc import Mapping, Sequence
from dataclasses import dataclass
from typing import TypeVar
from urllib.parse import urlencode

from .errors import Fault

MAX_SIZE = 100
DEFAULT_SIZE = 30
Item = TypeVar('Item')


def _number(query: Mapping[str, str], name: str, default: int) -> int:
    text = query.get(name, '')
    if not text:
        return default
    if not (text.isascii() and text.isdigit()):
        raise Fault(422, f'{name} is a whole number, at least 1.')
    return int(text[:18]) or default


@dataclass(frozen=True)
class Page:
    """Which part of a list is asked for: pages count from 1."""

    number: int
    size: int

    @classmethod
    def of(cls, query: Mapping[str, str], default_size: int = DEFAULT_SIZE) -> Page:
        """The page of `page` and `per_page`; more than 100 rows are cut to 100, as GitHub does."""
        return cls(_number(query, 'page', 1), min(_number(query, 'per_page', default_size), MAX_SIZE))

    def cut(self, items: Sequence[Item]) -> Sequence[Item]:
        """The items of this page."""
        return items[(self.number - 1) * self.size:self.number * self.size]

    def newest(self, items: Sequence[Item]) -> list[Item]:
        """The items of this page of a list that has its newest item last."""
        end = len(items) - (self.number - 1) * self.size
        return list(items[max(0, end - self.size):end])[::-1] if end > 0 else []

    def links(self, url: str, query: Mapping[str, str], total: int) -> str:
        """The field `Link` for a list of `total` items; empty if there is no other page."""
        last = max(1, -(-total // self.size))
        pages = []
        if self.number > 1:
            pages.append((min(self.number - 1, last), 'prev'))
        if self.number < last:
            pages += [(self.number + 1, 'next'), (last, 'last')]
        if self.number > 1:
            pages.append((1, 'first'))
        if not pages:
            return ''
        words = urlencode([(name, value) for name, value in query.items() if name != 'page'])
        return ', '.join(f'<{url}?{words}{"&" if words else ""}page={page}>; rel="{rel}"' for page, rel in pages)


def is_known(tag: str, if_none_match: str) -> bool:
    """Whether a client that sends this `If-None-Match` has what the tag names (weak comparison)."""
    bare = tag.removeprefix('W/')
    return any(given == '*' or given.removeprefix('W/') == bare for given in map(str.strip, if_none_match.split(',')))
