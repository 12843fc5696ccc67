"""What a step hands on by what it prints (`::name key=value::text`, `##[name key=value;]text`) and by files
(`NAME=VALUE`)."""
from __future__ import annotations

import re
from collections.abc import Callable
from dataclasses import dataclass
from typing import Any

COMMAND = re.compile(r'::([^ :]+)(?: ([^:]*(?::(?!:)[^:]*)*))?::(.*)')
BRACKETED = re.compile(r'##\[([^ \]]+)(?: ([^\]]*))?\](.*)')
LEVELS = {'error': 'failure', 'warning': 'warning', 'notice': 'notice'}
NAMES = {*LEVELS, 'add-mask', 'add-matcher', 'add-path', 'debug', 'echo', 'endgroup', 'group', 'remove-matcher',
         'save-state', 'set-env', 'set-output', 'stop-commands'}
MAX_MESSAGE, MAX_TITLE, MAX_PATH = 4096, 256, 1024  # characters that the hub takes of an annotation


@dataclass(frozen=True)
class Command:
    """A command, with what stands in it unescaped. Its name and those of its properties are in small letters."""

    name: str
    properties: dict[str, str]
    value: str


def unescaped(text: str, *more: tuple[str, str]) -> str:
    """A value of a command as the step meant it."""
    for escape, plain in (('%0D', '\r'), ('%0A', '\n'), *more, ('%25', '%')):
        text = text.replace(escape, plain)
    return text


def command_in(line: str) -> Command | None:
    """The command that a line is. The form with brackets, which actions have kept, is one with a known name alone."""
    text = line.strip()
    for form, between, escapes in ((COMMAND, ',', (('%3A', ':'), ('%2C', ','))),
                                   (BRACKETED, ';', (('%3B', ';'), ('%5D', ']')))):
        found = form.match(text)
        if found and (form is COMMAND or found[1].lower() in NAMES):
            pairs = (item.partition('=') for item in (found[2] or '').split(between))
            given = {name.strip().lower(): unescaped(value, *escapes) for name, _, value in pairs if name.strip()}
            return Command(found[1].lower(), given, unescaped(found[3]))
    return None


def annotation(level: str, message: str, title: str = '', path: str = '', **numbers: int | None) -> dict[str, Any]:
    """An annotation, with GitHub's names. The numbers are `start_line`, `end_line`, `start_column`, `end_column`."""
    start, column = numbers.get('start_line'), numbers.get('start_column')
    return {'annotation_level': LEVELS[level], 'message': message[:MAX_MESSAGE], 'title': title[:MAX_TITLE] or None,
            'path': path[:MAX_PATH] or None, 'start_line': start, 'end_line': numbers.get('end_line') or start,
            'start_column': column, 'end_column': numbers.get('end_column') or column}


def annotation_of(command: Command, named: Callable[[str], str] = str) -> dict[str, Any] | None:
    """What `::error::`, `::warning::` and `::notice::` say. `named` makes a path what the repository calls it."""
    if command.name not in LEVELS:
        return None
    given = command.properties

    def number(name: str) -> int | None:
        return int(given[name]) if re.fullmatch('[0-9]{1,9}', given.get(name, '')) else None
    path = named(given['file']) if given.get('file') else ''
    return annotation(command.name, command.value, given.get('title', ''), path, start_line=number('line'),
                      end_line=number('endline'), start_column=number('col'), end_column=number('endcolumn'))


def assignments(text: str) -> dict[str, str]:
    """The names and values in a file of GITHUB_ENV, GITHUB_OUTPUT or GITHUB_STATE."""
    found: dict[str, str] = {}
    lines = iter(text.splitlines())
    for line in lines:
        equals, heredoc = line.find('='), line.find('<<')
        if heredoc >= 0 and (equals < 0 or heredoc < equals):
            name, last, value = line[:heredoc], line[heredoc + 2:], []
            for inner in lines:
                if inner == last:
                    break
                value.append(inner)
            else:
                raise ValueError(f'{name}<<{last} has no end')
            found[name] = '\n'.join(value)
        elif equals > 0:
            found[line[:equals]] = line[equals + 1:]
        elif line.strip():
            raise ValueError(f'no name and value: {line[:100]}')
    return found
