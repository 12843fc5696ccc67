"""Legs that wait for a runner: those that no runner can take, and those that have waited for too long."""
from __future__ import annotations

import asyncio
import time
from typing import TYPE_CHECKING, Iterable

from ..access.identity import Right, matches
from ..access.tokens import Token
from ..log import say
from ..service.http import Away
from ..service.models import Ready, Whole
from ..times import now
from .statuses import row_of, status_of

if TYPE_CHECKING:
    from ..hub import Hub
    from .intake import Events

KIND = 'waits'
APPROVED = 'approved-'  # begins the label of a leg that waits for a person
SECONDS = 5  # between two looks


def unclaimable_labels(labels: Iterable[str], repository: str, tokens: Iterable[Token]) -> tuple[str, ...]:
    """The labels of a leg that no token of a runner has together; nothing if one token has all."""
    wanted = [label for label in labels if not label.startswith(APPROVED)]
    owned = [{label.lower() for label in token.labels} for token in tokens
             if token.right is Right.RUNNER and token.holds(now()) and matches(token.repositories, repository)]
    if any(all(label.lower() in own for label in wanted) for own in owned):
        return ()
    alone = tuple(label for label in wanted if not any(label.lower() in own for own in owned))
    return alone or tuple(wanted) or ('any label',)


def words_of(missing: tuple[str, ...]) -> str:
    """Why nobody can take a leg."""
    return f'no runner has {", ".join(label[:100] for label in missing)}'


def unclaimable_of(whole: Whole, tokens: Iterable[Token]) -> str | None:
    """Why a leg of a run can't be claimed by any runner; None if each can. Runs that have ended wait for none."""
    if whole.row.status == 'completed':
        return None
    listed = list(tokens)
    for job in whole.jobs:
        for leg in job.legs:
            if leg.state in ('ready', 'waiting'):
                if missing := unclaimable_labels(leg.labels, whole.row.repository, listed):
                    return words_of(missing)
    return None


class Waits:
    """Says at once that nobody can take a leg, and cancels runs whose legs wait for too long."""

    def __init__(self, events: Events) -> None:
        self.events: Events = events
        self.hub: Hub = events.hub
        self.first: dict[tuple[int, str, int, int], int] = {}  # when a leg of an attempt was first seen to wait
        self.said: dict[tuple[int, int], str] = {}

    async def follow(self) -> None:
        """Looks again and again."""
        while True:
            began = time.monotonic()
            try:
                await self.look(await self.hub.view.queue())
            except Away:
                pass
            await asyncio.sleep(max(SECONDS, 10 * (time.monotonic() - began)))  # a long queue is looked at less often

    async def look(self, queue: list[Ready]) -> None:
        """Looks at the legs that wait."""
        tokens = self.hub.access.tokens.all()
        present = {}
        lacking: dict[tuple[int, int], dict[str, None]] = {}  # the labels of all legs of an attempt, each once
        for ready in queue:
            run = self.hub.mirror.runs.get(ready.run)
            if run is None:
                continue
            key = ready.run, ready.job, ready.leg, run.row.attempt
            present[key] = self.first.get(key) or self.since(key)
            missing = unclaimable_labels(ready.labels, run.row.repository, tokens)
            if missing:
                lacking.setdefault((ready.run, run.row.attempt), {}).update(dict.fromkeys(missing))
            await self.check_time(ready, present[key])
        for (number, attempt), labels in lacking.items():
            await self.say(number, attempt, words_of(tuple(labels)))
        self.first = present
        runs = {(key[0], key[3]) for key in present}
        self.said = {key: words for key, words in self.said.items() if key in runs}

    def since(self, key: tuple[int, str, int, int]) -> int:
        """When a leg was first seen to wait, also in an earlier life of the hub."""
        if not self.events.settings.queue_timeout:
            return now()
        run, job, leg, attempt = key
        kept = self.hub.notes.get(run, attempt, KIND, f'{job}/{leg}')
        if isinstance(kept, int):
            return kept
        first = now()
        self.hub.notes.set(run, attempt, KIND, f'{job}/{leg}', first)
        return first

    async def say(self, number: int, attempt: int, words: str) -> None:
        """Says once for an attempt that nobody can take a leg: in the log, at the commit, and in a notice."""
        if self.said.get((number, attempt)) == words:
            return
        self.said[number, attempt] = words
        run = self.hub.mirror.runs[number]
        say(f'events: run {number}: {words}')
        await self.events.statuses.add(status_of(self.hub.config.url, run, None, words))
        id = f'{run.row.delivery[:40]}-{attempt}-unclaimable'
        await self.events.statuses.add_notice('leg_unclaimable', id, {'run': row_of(run, None), 'reason': words})

    async def check_time(self, ready: Ready, since: int) -> None:
        """Cancels a run one of whose legs has waited for too long. Waits for a person do not count."""
        limit = self.events.settings.queue_timeout
        if not limit or now() - since < 1000 * limit or any(label.startswith(APPROVED) for label in ready.labels):
            return
        words = f'{ready.job} has waited for a runner for over {limit:g} seconds'
        reply = await self.hub.hooks.cancel(ready.run)
        if reply.ok:
            say(f'events: run {ready.run} is cancelled: {words}')
            run = self.hub.mirror.runs.get(ready.run)
            if run is not None:
                self.hub.notes.set(ready.run, run.row.attempt, 'cancelled', 'queue_timeout', words)
