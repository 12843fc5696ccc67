"""Lines of a log: what each one is, and how groups fold."""
from __future__ import annotations

import dataclasses
import re
from collections.abc import Iterable, Iterator

MOST_SHOWN = 4_000  # characters of a line on a page; the file has all
_TIME = re.compile(r'(\d{4}-\d\d-\d\dT\d\d:\d\d:\d\d(?:\.\d+)?Z) ?')
_COMMAND = re.compile(r'(?:::|##\[)(group|endgroup|error|warning|notice|debug|command|section)'
                      r'(?: ([^\]:]*(?:[:\]](?![:\]])[^\]:]*)*))?(?:::|\])(.*)', re.DOTALL)
_ESCAPES = (('%0D', '\r'), ('%0A', '\n'), ('%3A', ':'), ('%2C', ','), ('%25', '%'))


@dataclasses.dataclass(frozen=True)
class Line:
    """A line of a step: its number in the step from 1, its time, and what it is."""

    number: int
    at: str
    kind: str  # plain, group, endgroup, error, warning, notice, debug, command
    text: str
    file: str = ''
    line: int | None = None
    title: str = ''


@dataclasses.dataclass
class Group:
    """Lines that fold below the line that names them; the outermost has none."""

    head: Line | None
    lines: list[Line | Group]


def unescaped(text: str) -> str:
    """The text that a workflow command stands for."""
    for escape, character in _ESCAPES:
        text = text.replace(escape, character)
    return text


def line_of(number: int, raw: str) -> Line:
    """A line of a log file, which begins with its time."""
    found = _TIME.match(raw)
    at, text = (found[1], raw[found.end():]) if found else ('', raw)
    if len(text) > MOST_SHOWN:
        text = f'{text[:MOST_SHOWN]}… {len(text) - MOST_SHOWN} more characters, see the raw log'
    if not text.startswith(('::', '##[')):
        return Line(number, at, 'plain', text)
    command = _COMMAND.match(text)
    if command is None:
        return Line(number, at, 'plain', text)
    given = dict(_property(word) for word in (command[2] or '').split(',') if '=' in word)
    where = given.get('line', '')
    kind = 'plain' if command[1] == 'section' else command[1]
    words = unescaped(command[3]) if text.startswith('::') else command[3]
    return Line(number, at, kind, words, given.get('file', ''),
                int(where) if where.isdecimal() and len(where) < 10 else None, given.get('title', ''))


def _property(word: str) -> tuple[str, str]:
    name, _, value = word.partition('=')
    return name.strip(), unescaped(value)


def lines_of(data: bytes, first: int) -> Iterator[Line]:
    """The lines in a piece of a log, the first of which has this number in its step."""
    text = data.decode('utf-8', 'replace')
    if text.endswith('\n'):
        text = text[:-1]
    if not data:
        return
    for place, raw in enumerate(text.split('\n')):
        yield line_of(first + place, raw)


def folded(lines: Iterable[Line]) -> Group:
    """Groups of lines: as at GitHub they do not nest, a new one ends the one before."""
    outer = Group(None, [])
    inner: Group | None = None
    for line in lines:
        if line.kind == 'group':
            inner = Group(line, [])
            outer.lines.append(inner)
        elif line.kind == 'endgroup':
            inner = None
        else:
            (inner or outer).lines.append(line)
    return outer
