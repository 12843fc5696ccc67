"""Finds problems in lines, in a process of its own: a pattern of an action may take for ever, and must not hold up a
leg. Reads orders from its input, a list of JSON a line, and answers those that have lines."""
from __future__ import annotations

import json
import re
import signal
import sys
from collections.abc import Iterable, Sequence
from typing import Any

SECONDS = 1.0  # of a processor that a pattern may take for a line
TRIES = 3
GROUPS = 'file', 'fromPath', 'line', 'column', 'severity', 'code', 'message'
SEVERITIES = 'error', 'warning', 'notice'
NAMED = re.compile(r'\(\?<(?=[A-Za-z_])')  # a group with a name, as .NET and JavaScript write it

Found = dict[str, str]


class TooSlow(Exception):
    """A pattern took too long."""


def compiled(text: str) -> re.Pattern[str]:
    """A pattern of a matcher. Its classes are of ASCII."""
    return re.compile(NAMED.sub('(?P<', text), re.ASCII)


class Matcher:
    """A matcher of one line, or of several: then what the patterns before have found is kept for the last one."""

    def __init__(self, severity: str, patterns: Iterable[dict[str, Any]]) -> None:
        self.severity, self.patterns = severity, list(patterns)
        self.forms = [compiled(pattern['regexp']) for pattern in self.patterns]
        self.running: list[Found | None] = [None] * len(self.patterns)

    def reset(self) -> None:
        """Forgets what was found so far."""
        self.running = [None] * len(self.patterns)

    def found(self, line: str) -> Found | None:
        """What the last pattern completes in a line."""
        last = len(self.patterns) - 1
        for at in range(last, -1, -1):  # from behind, since what a pattern finds is for the next line's
            before = self.running[at - 1] if at else {}
            if before is None:
                continue
            new = self.taken(at, before, line)
            if at < last:
                self.running[at] = new
            elif new is None and at:
                self.running[at - 1] = None
            elif new is not None:
                self.reset()
                if self.patterns[at].get('loop') and at:
                    self.running[at - 1] = before
                return new
        return None

    def taken(self, at: int, before: Found, line: str) -> Found | None:
        """What a pattern finds in a line besides what was found before it."""
        match = self.forms[at].search(line)
        if not match:
            return None
        groups = {name: match[self.patterns[at][name]] or '' for name in GROUPS if name in self.patterns[at]}
        return {**groups, **before}

    def problem(self, line: str) -> Found | None:
        """What was found, if it is a problem: with a message, and of a severity that there is."""
        found = self.found(line)
        if found is None or not found.get('message', '').strip():
            return None
        severity = (found.get('severity') or self.severity or 'error').lower()
        return {**found, 'severity': severity} if severity in SEVERITIES else None


class Matching:
    """All matchers, by their owners. The one that was added last has the first look."""

    def __init__(self) -> None:
        self.matchers: dict[str, Matcher] = {}
        self.slow: list[str] = []

    def obey(self, order: Sequence[Any]) -> dict[str, Any] | None:
        """Carries out an order; what is answered to lines."""
        if order[0] == 'lines':
            self.slow = []
            return {'problems': [self.problem(line) for line in order[1]], 'slow': self.slow}
        self.matchers.pop(order[1], None)
        if order[0] == 'add':
            self.matchers = {order[1]: Matcher(order[2], order[3]), **self.matchers}
        return None

    def problem(self, line: str) -> Found | None:
        """The problem that the first matcher finds in a line. The others begin anew then."""
        for owner, matcher in list(self.matchers.items()):
            found = self.in_time(owner, matcher, line)
            if found:
                for other in self.matchers.values():
                    if other is not matcher:
                        other.reset()
                return {**found, 'owner': owner}
        return None

    def in_time(self, owner: str, matcher: Matcher, line: str) -> Found | None:
        """What a matcher finds. One that is too slow is removed."""
        for _ in range(TRIES):
            try:
                signal.setitimer(signal.ITIMER_VIRTUAL, SECONDS)
                return matcher.problem(line)
            except TooSlow:
                continue
            finally:
                signal.setitimer(signal.ITIMER_VIRTUAL, 0)
        del self.matchers[owner]
        self.slow.append(owner)
        return None


def stop(*_: Any) -> None:
    """The time for a pattern is over."""
    raise TooSlow


def main() -> None:
    """Answers orders until there are no more."""
    signal.signal(signal.SIGVTALRM, stop)
    matching = Matching()
    for line in sys.stdin.buffer:
        answer = matching.obey(json.loads(line))
        if answer is not None:
            print(json.dumps(answer), flush=True)
