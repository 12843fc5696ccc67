"""Runners that have registered, and their slots: a slot is a runner of the service's protocol, which holds one lease at
a time. What a slot has sent is kept before it is sent, so that a restart of the hub goes on with the same line."""
from __future__ import annotations

import re
import secrets
from dataclasses import asdict, dataclass, field
from typing import Any

from ...access.identity import Identity
from ...ledger.notes import NoteStore
from ...times import now
from ..lines import LABEL
from .calls import Refused

RUNNERS, SLOTS = 'connect-runner', 'connect-slot'
MAX_SLOTS = 16  # tasks that a runner has at a time
MAX_LABELS = 14
RUNNERS_A_TOKEN = 1000
HOUR = 3_600_000  # milliseconds
KEPT, KEPT_EPHEMERAL = 14 * 24 * HOUR, 24 * HOUR  # of a runner that says nothing, as at GitHub


@dataclass
class Slot:
    """A name at the service: its last number, the line that may not have been answered, and the task that it holds."""

    name: str
    life: str = field(default_factory=lambda: f'life-{secrets.token_hex(6)}')
    number: int = 0
    line: str | None = None
    task: dict[str, Any] | None = None
    ended: dict[str, Any] | None = None


@dataclass
class Runner:
    """A runner that has registered with a token of the hub."""

    uuid: str
    name: str
    token: int
    labels: list[str]
    version: str = ''
    slots: list[str] = field(default_factory=list)
    ephemeral: bool = False  # it has one task, and is known no more after that
    seen: int = 0  # when it was last heard, give or take an hour

    def is_forgotten(self, at: int) -> bool:
        """Whether it has said nothing for so long that it is taken to be gone for good."""
        return at - self.seen > (KEPT_EPHEMERAL if self.ephemeral else KEPT)


class Runners:
    """All of them, in the ledger."""

    def __init__(self, notes: NoteStore, a_token: int = RUNNERS_A_TOKEN) -> None:
        self.notes, self.a_token = notes, a_token

    def runner(self, uuid: str) -> Runner | None:
        """A runner by its id."""
        kept = self.notes.get(0, 0, RUNNERS, uuid) if re.fullmatch('[0-9a-f-]{36}', uuid) else None
        return Runner(**kept) if isinstance(kept, dict) else None

    def keep(self, runner: Runner) -> None:
        """Keeps a runner."""
        self.notes.set(0, 0, RUNNERS, runner.uuid, asdict(runner))

    def heard(self, runner: Runner) -> None:
        """Notes that a runner has said something, now and then."""
        if now() - runner.seen > HOUR:
            runner.seen = now()
            self.keep(runner)

    def register(self, runner: Runner) -> None:
        """Keeps a new runner, if its token has not too many."""
        listed = (Runner(**kept) for kept in self.notes.list(0, 0, RUNNERS).values())
        if sum(each.token == runner.token for each in listed) >= self.a_token:
            raise Refused('resource_exhausted', f'the token has {self.a_token} runners. One that says nothing is known no '
                          'more after 14 days, an ephemeral one after one')
        self.keep(runner)

    def remove(self, runner: Runner) -> None:
        """Forgets a runner."""
        for name in runner.slots:
            self.notes.set(0, 0, SLOTS, name, None)
        self.notes.set(0, 0, RUNNERS, runner.uuid, None)

    def is_spent(self, runner: Runner) -> bool:
        """Whether it was for one task, which has ended."""
        slots = self.slots(runner) if runner.ephemeral else []
        return any(slot.ended for slot in slots) and not any(slot.task for slot in slots)

    def slot(self, name: str) -> Slot:
        """A slot by its name."""
        kept = self.notes.get(0, 0, SLOTS, name)
        return Slot(**kept) if isinstance(kept, dict) else Slot(name)

    def keep_slot(self, slot: Slot) -> None:
        """Keeps a slot."""
        self.notes.set(0, 0, SLOTS, slot.name, asdict(slot))

    def slots(self, runner: Runner) -> list[Slot]:
        """The slots of a runner."""
        return [self.slot(name) for name in runner.slots]

    def free(self, runner: Runner) -> Slot | None:
        """A slot without a task, a new one if there are not too many."""
        found = next((slot for slot in self.slots(runner) if slot.task is None), None)
        if found is not None or len(runner.slots) >= (1 if runner.ephemeral else MAX_SLOTS):
            return found
        runner.slots.append(f'{runner.name}-{secrets.token_hex(6)}')
        self.keep(runner)
        return self.slot(runner.slots[-1])

    def drop(self, runner: Runner, slot: Slot) -> None:
        """Forgets a slot whose name the service knows more of than the ledger."""
        runner.slots.remove(slot.name)
        self.keep(runner)
        self.notes.set(0, 0, SLOTS, slot.name, None)


def labels_for(identity: Identity, given: list[str]) -> list[str]:
    """The labels of a runner, without what it says of how it runs them (`ubuntu-latest:docker://node:20`)."""
    labels = list(dict.fromkeys(label.partition(':')[0] for label in given))
    if not 0 < len(labels) <= MAX_LABELS or not all(re.fullmatch(LABEL, label) for label in labels):
        raise Refused('invalid_argument', f'1 to {MAX_LABELS} labels of printable characters are wanted')
    own = {label.lower() for label in identity.labels}
    foreign = [label for label in labels if label.lower() not in own]
    if foreign:
        raise Refused('permission_denied', f'the token does not allow the labels {", ".join(foreign)}')
    return labels


def name_for(identity: Identity, given: str) -> str:
    """How the names of a runner's slots begin."""
    plain = re.sub('[^A-Za-z0-9_.-]+', '-', given) or 'runner'
    return (plain if plain.startswith(identity.prefix) else identity.prefix + plain)[:48]
