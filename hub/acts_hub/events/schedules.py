"""`schedule`: workflows of the default branch at times of cron, in UTC. A time that was missed is said, not made up."""
from __future__ import annotations

import asyncio
import hashlib
import time
from dataclasses import dataclass
from typing import TYPE_CHECKING, Iterable

from acts_workflow import cron
from acts_workflow.values import Fault

from ..log import say
from ..times import iso, now
from .deliveries import Delivery
from .listing import Listed
from .mirrors import GitFault, NoCommit, TooSlow
from .settings import Repository
from .spool import name_of

if TYPE_CHECKING:
    from .intake import Events

KIND = 'schedule'
LATE = 5  # minutes after which a time is missed
MOST_MISSED = 1000  # times that are counted
MOST = 100  # schedules of a workflow


@dataclass(frozen=True)
class Entry:
    """One text of cron in a workflow."""

    path: str
    text: str
    cron: cron.Cron

    @property
    def name(self) -> str:
        """Under which its last time is kept."""
        return f'{self.path} {self.text}'


def entries_of(workflows: Iterable[Listed]) -> list[Entry]:
    """The schedules of workflows. One with a fault has none: `acts-hub check` says why."""
    made = []
    for workflow in workflows:
        items = workflow.on.get('schedule') or []
        for item in items[:MOST] if isinstance(items, list) else []:
            try:
                written = item.get('cron') if isinstance(item, dict) else None
                made.append(Entry(workflow.path, ' '.join(str(written).split()), cron.read(written)))
            except Fault:
                continue
    return made


@dataclass(frozen=True)
class Due:
    """What is due of a schedule: the time to start now, or None, and how many times were missed, the last of them."""

    start: int | None
    missed: int
    last_missed: int | None
    upto: int


def due_of(entry: Entry, last: int, started: int, minute: int) -> Due:
    """What is due at a minute, when all up to `last` was seen, and the last start was at `started`."""
    start, missed, last_missed, at = None, 0, None, last
    while (following := entry.cron.after(at)) is not None and following <= minute and missed < MOST_MISSED:
        at = following
        if at < started + cron.SHORTEST:
            continue  # nearer than GitHub's shortest interval
        if minute - at >= LATE:
            missed, last_missed = missed + 1, at
        else:
            start = started = at
    return Due(start, missed, last_missed, minute)


class Schedules:
    """Starts what is due, at most once for each time: its delivery has the time in its id."""

    def __init__(self, events: Events) -> None:
        self.events: Events = events

    async def follow(self) -> None:
        """Looks at each minute."""
        while True:
            for repository in self.events.settings.repositories.values():
                try:
                    await self.look(repository, int(time.time() // 60))
                except (GitFault, TooSlow, NoCommit, OSError) as fault:
                    say(f'events: schedules of {repository.name}: {fault}')
            await asyncio.sleep(60 - time.time() % 60 + 0.05)

    async def look(self, repository: Repository, minute: int) -> None:
        """Starts what is due in a repository, by what its mirror has now: the delivery fetches it."""
        mirror = self.events.handler.mirror(repository)
        if mirror is None:
            return
        entries = entries_of(await self.events.listing.read(repository, mirror))
        for entry in entries if self.events.settings.schedules else ():
            name = f'{repository.name} {entry.name}'
            kept = self.events.hub.notes.get(0, 0, KIND, name) or {}
            last, started = int(kept.get('seen', minute - 1)), int(kept.get('started', 0))
            due = due_of(entry, last, started, minute)
            if due.missed:
                self.say_missed(repository, entry, due)
            if due.start is not None:
                await self.start(repository, entry, due.start)
            if due.missed or due.start is not None or 'seen' not in kept or minute - last >= LATE - 1:
                self.events.hub.notes.set(0, 0, KIND, name, {'seen': minute, 'started': due.start or started})

    async def start(self, repository: Repository, entry: Entry, minute: int) -> None:
        """Keeps the delivery for a time."""
        key = hashlib.sha256(f'schedule {repository.name} {entry.name} {minute}'.encode()).hexdigest()
        payload = {'schedule': entry.text, 'repository': self.events.facts.of(repository.name)}
        await self.events.keep(Delivery(name_of(key[:36]), 'schedule', key[:36], key, payload, entry.path))

    def say_missed(self, repository: Repository, entry: Entry, due: Due) -> None:
        """Says which times were missed."""
        at = iso(60_000 * (due.last_missed or 0))
        times = 'time' if due.missed == 1 else 'times'
        words = f'{due.missed} {times} of {entry.text} passed while the hub was away, the last at {at}'
        say(f'events: {repository.name} {entry.path}: {words}')
        advice = 'Start the workflow by hand, if it has workflow_dispatch.'
        self.events.hub.refused.add(now(), repository.name, 'schedule', f'schedule-{due.last_missed}', entry.path, None,
                                    None, None, None, words, advice)
