"""The problem matchers of a job: `::add-matcher::` adds those of a file, and what they find in the lines of steps is an
annotation."""
from __future__ import annotations

import contextlib
import json
import os
import re
import subprocess
import sys
import threading
from collections.abc import Mapping, Sequence
from dataclasses import dataclass
from typing import Any, Callable

from .legs import HELPERS, ROOT
from .matching import GROUPS, SEVERITIES, compiled

PROGRAM = f'import sys; sys.path.insert(0, {ROOT!r}); from acts_runner.matching import main; main()'
MAX_FILE = 1 << 20  # bytes
COLOUR = re.compile(r'\x1b\[[0-9;]*m?')
COMMENT = re.compile(r'("(?:\\.|[^"\\])*")|//[^\n]*|/\*.*?\*/', re.S)  # or a text, in which nothing is one


class BadMatcher(ValueError):
    """What is wrong with a file of matchers."""


@dataclass(frozen=True)
class Problem:
    """What a matcher has found in a line, which is without its colours here."""

    line: str
    found: Mapping[str, str]

    @property
    def severity(self) -> str:
        """`error`, `warning` or `notice`."""
        return self.found['severity']

    def number(self, name: str) -> int | None:
        """A line or a column."""
        text = self.found.get(name) or ''
        return int(text) if re.fullmatch('[0-9]{1,9}', text) else None

    @property
    def file(self) -> str:
        """The file, from the folder of what `fromPath` names if there is that."""
        file, project = self.found.get('file') or '', self.found.get('fromPath') or ''
        return os.path.join(os.path.dirname(project), file) if file.strip() and project.strip() else file


def matchers_of(path: str) -> list[dict[str, Any]]:
    """The matchers of a file; or a BadMatcher."""
    try:
        with open(path, encoding='utf-8-sig') as file:
            return matchers_in(file.read(MAX_FILE))
    except (OSError, UnicodeDecodeError) as fault:
        raise BadMatcher(str(fault)) from None


def matchers_in(text: str) -> list[dict[str, Any]]:
    """The matchers of a text, in which there may be comments; or a BadMatcher. Owners are in small letters."""
    try:
        said = json.loads(COMMENT.sub(lambda found: found[1] or '', text))
    except (ValueError, RecursionError) as fault:
        raise BadMatcher(f'no JSON: {fault}') from None
    listed = said.get('problemMatcher') if isinstance(said, dict) else None
    if not isinstance(listed, list) or not all(isinstance(each, dict) for each in listed):
        raise BadMatcher('it has no list problemMatcher of objects')
    owners = [str(each.get('owner') or '').lower() for each in listed]
    if not all(owners) or len(set(owners)) < len(owners):
        raise BadMatcher('each matcher has an owner of its own')
    for each, owner in zip(listed, owners):
        check(owner, each)
    return [{**each, 'owner': owner} for each, owner in zip(listed, owners)]


def check(owner: str, matcher: Mapping[str, Any]) -> None:
    """A BadMatcher for what is wrong with a matcher."""
    patterns = matcher.get('pattern')
    if str(matcher.get('severity') or 'error').lower() not in SEVERITIES:
        raise BadMatcher(f'{owner}: its severity is none of {", ".join(SEVERITIES)}')
    if not isinstance(patterns, list) or not patterns or not all(isinstance(each, dict) for each in patterns):
        raise BadMatcher(f'{owner}: it has no patterns')
    used = [name for pattern in patterns for name in GROUPS if pattern.get(name) is not None]
    if len(set(used)) < len(used):
        raise BadMatcher(f'{owner}: two of its patterns set the same')
    if 'message' not in used:
        raise BadMatcher(f'{owner}: none of its patterns sets the message')
    if any(pattern.get('loop') for pattern in patterns[:-1]) or len(patterns) == 1 and patterns[0].get('loop'):
        raise BadMatcher(f'{owner}: only the last one of several patterns may have loop')
    if patterns[-1].get('loop') and patterns[-1].get('message') is None:
        raise BadMatcher(f'{owner}: a pattern with loop has to set the message')
    for pattern in patterns:
        check_groups(owner, pattern)


def check_groups(owner: str, pattern: Mapping[str, Any]) -> None:
    """A BadMatcher for an expression that can't be read, or has fewer groups than are asked for."""
    try:
        most = compiled(str(pattern['regexp'])).groups
    except (KeyError, re.error, RecursionError, OverflowError) as fault:
        raise BadMatcher(f'{owner}: its regexp is not read: {fault}') from None
    for name in GROUPS:
        group = pattern.get(name, 0)
        if group is not None and not (type(group) is int and 0 <= group <= most):
            raise BadMatcher(f'{owner}: {name} is no group of its regexp')


class Matchers:
    """The matchers of a job, in a process of their own."""

    def __init__(self, warn: Callable[[str], None]) -> None:
        self.warn, self.lock = warn, threading.Lock()
        self.owners: set[str] = set()
        self.process: subprocess.Popen[str] | None = None

    def add(self, matchers: Sequence[Mapping[str, Any]]) -> None:
        """Adds matchers that are right. One of an owner that has one takes its place."""
        for each in matchers:
            with self.lock:
                self.owners.add(each['owner'])
                self.order('add', each['owner'], each.get('severity') or '', each['pattern'])

    def remove(self, owners: Sequence[str]) -> None:
        """Removes the matchers of owners, as far as there are any."""
        with self.lock:
            for owner in self.owners & {owner.lower() for owner in owners}:
                self.owners.discard(owner)
                self.order('remove', owner)

    def look(self, lines: Sequence[str]) -> list[Problem | None]:
        """What is found in each line."""
        with self.lock:
            if not self.owners or not lines:
                return [None] * len(lines)
            plain = [COLOUR.sub('', line) for line in lines]
            answer = self.order('lines', plain, answers=True)
        for owner in answer.get('slow', ()):
            self.owners.discard(owner)
            self.warn(f'the matcher {owner} is removed: it takes too long')
        found = answer.get('problems') or [None] * len(lines)
        return [Problem(line, each) if each else None for line, each in zip(plain, found)]

    def order(self, *order: Any, answers: bool = False) -> dict[str, Any]:
        """Gives an order to the process, and its answer. Without the process nothing is found any more."""
        try:
            process = self.running()
            assert process.stdin and process.stdout
            process.stdin.write(json.dumps(order) + '\n')
            process.stdin.flush()
            found: dict[str, Any] = json.loads(process.stdout.readline()) if answers else {}
            return found
        except (OSError, ValueError) as fault:
            self.owners.clear()
            self.close()
            self.warn(f'no problems are matched any more: {fault}')
            return {}

    def running(self) -> subprocess.Popen[str]:
        """The process, which begins with the first order."""
        if self.process is None:
            self.process = subprocess.Popen([sys.executable, '-I', '-c', PROGRAM], stdin=subprocess.PIPE, text=True,
                                            stdout=subprocess.PIPE, stderr=subprocess.DEVNULL)
            HELPERS.add(self.process.pid)
        return self.process

    def close(self) -> None:
        """Ends the process."""
        process, self.process = self.process, None
        if process and process.stdin and process.stdout:
            process.kill()
            process.wait()
            HELPERS.discard(process.pid)
            process.stdout.close()
            with contextlib.suppress(OSError):  # what it has not read
                process.stdin.close()
