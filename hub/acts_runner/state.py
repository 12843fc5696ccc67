"""What a runner keeps: its name, the line that it sends, and the leg that it runs."""
from __future__ import annotations

import json
import secrets
import sys
from dataclasses import asdict, dataclass, field, replace
from typing import Any

from .files import Slots, home, present

LIVES = 1 << 15  # characters of the list of lives


class Unusable(Exception):
    """Why a runner may not work with this folder and name."""


@dataclass(frozen=True)
class Held:
    """A leg for which the runner has a lease, the claim that got it, and the hash of the run's body."""

    lease: str
    run: str
    job: str
    leg: str
    combo: str
    claim: str
    present: str | None
    body: str | None

    def answer(self) -> str:
        """The answer that its claim gets."""
        return f'lease {self.lease} {self.run} {self.job} {self.leg} {self.combo}'


@dataclass(frozen=True)
class Life:
    """The time between two starts of the process, or between a start and a service that was restored. Each life has a
    label of its own, which all its claims have: so nobody else gets the answer of such a claim."""

    label: str
    labels: str
    first: int = 10 ** 9
    last: int = 0


@dataclass(frozen=True)
class Kept:
    """What is on disk."""

    name: str
    home: str
    line: str | None = None
    present: str | None = None
    last: int | None = None
    most: int = 0
    reported: int = 0
    leg: Held | None = None
    result: str | None = None
    lives: tuple[Life, ...] = field(default=())

    @classmethod
    def of(cls, value: dict[str, Any]) -> Kept:
        """What a file has."""
        members: dict[str, Any] = {**value, 'lives': tuple(Life(**life) for life in value['lives'])}
        members['leg'] = Held(**value['leg']) if value['leg'] else None
        return cls(**members)


class State:
    """The state of a runner, in the present folder."""

    def __init__(self, name: str, labels: str, exact: bool, take_over: bool) -> None:
        self.labels, self.take_over, self.slots = labels, take_over, Slots('state')
        found = self.slots.read()
        kept = Kept.of(found) if found else Kept(name if exact else f'{name}-{secrets.token_hex(6)}', home())
        self.old = kept.line is not None
        if kept.home != home():
            if not take_over:
                raise Unusable('its folder is a copy: remove it, or, if nothing else uses the name that is in it, '
                               'add --take-over')
            kept = replace(kept, home=home(), line=None, leg=None, result=None, last=None, lives=())
        if exact != (kept.name == name):
            raise Unusable(f'its folder is that of {kept.name}: use another --state, '
                           f'or {"leave out" if exact else "add"} --exact-name')
        self.kept = kept
        self.begin_life()

    @property
    def name(self) -> str:
        """The name by which the service knows this runner."""
        return self.kept.name

    @property
    def last(self) -> int:
        """The number of the last line that was carried out."""
        return self.kept.last or 0

    def keep(self, **members: Any) -> None:
        """Changes members, and writes all of it."""
        self.kept = replace(self.kept, **members)
        self.slots.write(asdict(self.kept))

    def begin_life(self) -> None:
        """A label that no claim had before. The first and the last number of a life are kept with it."""
        lives = [*self.kept.lives, Life(f'life-{secrets.token_hex(6)}', self.labels)]
        while len(json.dumps([asdict(life) for life in lives])) > LIVES:
            lives.pop(0)
        self.keep(lives=tuple(lives))

    def claim(self, number: int, life: Life | None = None) -> str:
        """The claim with a number, of the present life or another one."""
        life = life or self.kept.lives[-1]
        return f'CLAIM {self.name} {number} {life.labels},{life.label}'

    def next_claim(self) -> str:
        """Keeps the next claim before it is sent."""
        number, life = self.last + 1, self.kept.lives[-1]
        life = replace(life, first=min(life.first, number), last=max(life.last, number))
        line = self.claim(number)
        self.keep(line=line, present=present(), lives=(*self.kept.lives[:-1], life))
        return line

    def claims_at(self, number: int) -> list[str]:
        """The claims that this folder may have sent under a number, the newest first."""
        return [self.claim(number, life) for life in reversed(self.kept.lives) if life.first <= number <= life.last]

    def answered(self, number: int) -> None:
        """The line that is kept was carried out."""
        self.take_over = False
        self.kept = replace(self.kept, line=None, last=number, most=max(self.kept.most, number))

    def turn(self, number: int, last: int, is_own: bool) -> None:
        """The service does not take this number: its last one for this name is another. Everything that is known of a
        leg is forgotten. A number past all that this folder knows of is its own only if the service shows it."""
        if last > max(self.kept.most, self.kept.reported) and not is_own and not self.take_over:
            raise Unusable(f'the service knows {self.name} at number {last}, and this folder at {self.kept.most}: '
                           'either something else uses this name, or the folder is an old copy. Use an empty folder; '
                           'if nothing else uses the name, add --take-over')
        if last < number - 1:
            print(f'{self.name}: the service is at number {last} and this folder at {number}: its file was restored',
                  file=sys.stderr, flush=True)
        self.take_over = False
        self.kept = replace(self.kept, line=None, leg=None, result=None, last=last, most=max(self.kept.most, last))
        self.begin_life()
