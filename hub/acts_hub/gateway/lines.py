"""Lines of runners, as far as the gateway has to understand them."""
from __future__ import annotations

import re
from dataclasses import dataclass, replace

MAX_LINE = 511  # bytes without the line feed: the service takes 512 with it
MAX_LABELS = 16
NUMBER = '0|[1-9][0-9]{0,8}'
NAME = '[A-Za-z0-9_.-]{1,64}'
LABEL = '[!-+.-~-]{1,64}'
FORM = re.compile(rf'(?:CLAIM (?P<claims>{NAME}) (?P<number>{NUMBER}) (?P<labels>{LABEL}(?:,{LABEL})*)'
                  rf'|DONE (?P<reports>{NAME}) (?P<turn>{NUMBER}) (?P<done>{NUMBER}) '
                  '(?P<result>success|failure|cancelled)'
                  rf'|BEAT (?P<beats>{NAME}) (?P<lease>{NUMBER})|FETCH (?P<run>{NUMBER}))')
LIFE = re.compile('life-[0-9a-f]{12}')
APPROVED = re.compile('approved-[0-9]+', re.I)


@dataclass(frozen=True, slots=True)
class Claim:
    """A runner asks for a leg."""

    runner: str
    number: int
    labels: tuple[str, ...]

    @property
    def own_labels(self) -> tuple[str, ...]:
        """The labels without the random one of a life."""
        return tuple(label for label in self.labels if not LIFE.fullmatch(label))

    @property
    def life(self) -> tuple[str, ...]:
        """The random label."""
        return tuple(label for label in self.labels if LIFE.fullmatch(label))

    def with_labels(self, labels: tuple[str, ...]) -> Claim:
        """The same with other labels."""
        return replace(self, labels=labels)

    def __str__(self) -> str:
        return f'CLAIM {self.runner} {self.number} {",".join(self.labels)}'


@dataclass(frozen=True, slots=True)
class Done:
    """A runner reports a leg."""

    runner: str
    number: int
    lease: int
    result: str


@dataclass(frozen=True, slots=True)
class Beat:
    """A runner asks how its leg stands."""

    runner: str
    lease: int


@dataclass(frozen=True, slots=True)
class Fetch:
    """A runner asks for the body of a run."""

    run: int


Line = Claim | Done | Beat | Fetch


def read_line(text: str) -> Line | None:
    """The line that a text is; None for what the service answers with `refused 75`."""
    found = FORM.fullmatch(text) if len(text) <= MAX_LINE and text.isascii() else None
    if not found:
        return None
    if found['claims']:
        labels = tuple(found['labels'].split(','))
        return Claim(found['claims'], int(found['number']), labels) if len(labels) <= MAX_LABELS else None
    if found['reports']:
        return Done(found['reports'], int(found['turn']), int(found['done']), found['result'])
    if found['beats']:
        return Beat(found['beats'], int(found['lease']))
    return Fetch(int(found['run']))


def fits(wanted: tuple[str, ...], labels: tuple[str, ...]) -> bool:
    """Whether a leg that asks for labels may go to a claim with others, without regard to case."""
    own = {label.lower() for label in labels}
    return all(label.lower() in own for label in wanted)
