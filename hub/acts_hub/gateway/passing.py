"""What of a runner's lines passes to the service, and what of the answers comes back. A token names labels, the
beginning of names, and repositories: neither a body nor a leg of another repository goes to its runners."""
from __future__ import annotations

import asyncio
from collections.abc import AsyncIterator
from contextlib import asynccontextmanager
from typing import Any

from ..access.identity import Identity, Right
from ..ledger.database import Database
from ..ledger.logs import LogError, LogStore
from ..ledger.notes import NoteStore
from ..log import say
from ..service.hooks import HookPort
from ..service.http import Away
from ..service.lines import Answer, Lines
from ..service.models import Leg, Ready, Whole
from ..service.view import ViewPort
from ..times import iso_exact, now
from .environments import Environments
from .leases import Lease, Leases, lease_of
from .lines import APPROVED, MAX_LABELS, Beat, Claim, Done, Fetch, fits, read_line

REFUSED = Answer('refused 75')
NO_RUN = Answer('refused 40')
WORDS = 'A runner whose token does not allow this repository was given this leg, and did not run it. Run it again.'


class Forbidden(Exception):
    """What a token does not allow, in words."""


class TryAgain(Exception):
    """Nothing was passed, and another try may be."""


class Passing:
    """Lines of all runners."""

    def __init__(self, view: ViewPort, hooks: HookPort, database: Database, notes: NoteStore, logs: LogStore,
                 environments: Environments) -> None:
        self.view, self.hooks, self.database, self.notes, self.logs = view, hooks, database, notes, logs
        self.environments = environments
        self.leases = Leases(view, notes, logs)
        self.turn = asyncio.Lock()
        self.narrowing = 0  # claims of tokens for some repositories that look at the queue, or wait for it

    async def answer(self, identity: Identity, runner: str | None, text: str,
                     lines: Lines) -> tuple[str | None, Answer]:
        """The name of the runner, and the answer to its line. Raises `Forbidden`, `TryAgain` and `Away`."""
        line = read_line(text)
        if line is None:
            return runner, REFUSED
        if isinstance(line, Fetch):
            return runner, await self.fetch(identity, runner, line, lines)
        if runner is not None and line.runner != runner:
            raise Forbidden('one stream is for one name')
        if identity.right is not Right.RUNNER or not line.runner.startswith(identity.prefix):
            raise Forbidden(f'the token does not allow the name {line.runner}')
        if isinstance(line, Claim):
            return line.runner, await self.claim(identity, line, lines)
        if isinstance(line, Done):
            return line.runner, await self.done(line, lines)
        return line.runner, await self.beat(line, lines)

    async def beat(self, line: Beat, lines: Lines) -> Answer:
        """A beat passes for the name that holds the lease; others get what the service says of a lease not held."""
        if not await self.leases.holds(line.runner, lease=line.lease):
            return Answer('refused 44')
        answer = await lines.ask(f'BEAT {line.runner} {line.lease}')
        if answer.text in ('refused 44', 'refused 45'):
            self.leases.ended(line.runner)
        return answer

    async def done(self, line: Done, lines: Lines) -> Answer:
        """A report passes for the name that holds the lease, or as the last line once more, which gets its answer
        again."""
        async with self.in_turn():
            answer = await lines.ask(f'DONE {line.runner} {line.number} {line.lease} {line.result}')
        if answer.text == 'ok':
            self.leases.ended(line.runner)
        return answer

    async def fetch(self, identity: Identity, runner: str | None, line: Fetch, lines: Lines) -> Answer:
        """A body goes to a name that holds a lease of the run, in a repository that its token allows."""
        if runner is None or not await self.leases.holds(runner, run=line.run):
            return NO_RUN
        if not identity.may(Right.RUNNER, await self.repository(line.run)):
            return NO_RUN
        return await lines.ask(f'FETCH {line.run}')

    async def repository(self, run: int) -> str:
        """The repository of a run; the empty text if there is no such run."""
        whole = await self.view.run(run)
        return whole.row.repository if whole else ''

    async def is_approved(self, run: int) -> bool:
        """Whether the present attempt of a run is approved."""
        whole = await self.view.run(run)
        return whole is not None and self.environments.is_approved(run, whole.row.attempt)

    # Claims.

    async def claim(self, identity: Identity, claim: Claim, lines: Lines) -> Answer:
        """A claim passes with labels that the token allows. It is sent with another label where a run was approved, and
        with fewer where a leg of another repository would fit."""
        if not identity.may_claim(claim.runner, claim.own_labels) or any(map(APPROVED.fullmatch, claim.own_labels)):
            own = {label.lower() for label in identity.labels}
            words = ', '.join(label for label in claim.own_labels if label.lower() not in own) or 'an approval'
            raise Forbidden(f'the token does not allow the labels {words}')
        is_limited = '*' not in identity.repositories
        async with self.in_turn(is_limited):
            answer = await lines.ask(str(await self.sent(identity, claim, is_limited)))
            if not answer.text.startswith('refused '):
                self.environments.mirror.runner_store.asked(claim.runner, claim.own_labels)
            if not answer.text.startswith('lease '):
                return answer
            return await self.given(identity, claim, answer)

    @asynccontextmanager
    async def in_turn(self, is_limited: bool = False) -> AsyncIterator[None]:
        """While a claim of a token for some repositories looks at the queue, no other claim or report passes."""
        if not is_limited and not self.narrowing:
            yield
            return
        self.narrowing += is_limited
        try:
            async with self.turn:
                yield
        finally:
            self.narrowing -= is_limited

    async def sent(self, identity: Identity, claim: Claim, is_limited: bool) -> Claim:
        """The claim as the service gets it. What was sent once is sent so again, or it would be another claim."""
        kept: Any = self.notes.get(0, 0, 'claim', claim.runner)
        if isinstance(kept, dict) and kept.get('given') == str(claim):
            return claim.with_labels(tuple(kept['labels']))
        if not is_limited and not self.environments.has_some():
            return claim
        labels = await self.labels_for(identity, claim, is_limited)
        if labels == claim.labels:
            return claim
        self.notes.set(0, 0, 'claim', claim.runner, {'given': str(claim), 'labels': labels})
        if not await asyncio.get_running_loop().run_in_executor(None, self.database.flushed):
            self.notes.set(0, 0, 'claim', claim.runner, None)
            if is_limited:
                raise TryAgain('the ledger is not written')
            return claim
        return claim.with_labels(labels)

    async def labels_for(self, identity: Identity, claim: Claim, is_limited: bool) -> tuple[str, ...]:
        """The labels with which a claim can get nothing but what its runner may run."""
        queue = await self.view.queue()
        labels = claim.labels
        if len(labels) < MAX_LABELS:
            for leg in queue:
                added = self.environments.label_of(leg)
                if added and fits(leg.labels, (*claim.labels, added)) and await self.is_approved(leg.run):
                    labels = (*claim.labels, added)
                    break
        if not is_limited:
            return labels
        own: list[Ready] = []
        foreign: list[Ready] = []
        allowed: dict[int, bool] = {}
        for leg in queue:
            if fits(leg.labels, labels):
                if leg.run not in allowed:
                    allowed[leg.run] = identity.may(Right.RUNNER, await self.repository(leg.run))
                (own if allowed[leg.run] else foreign).append(leg)
        return narrowed(labels, claim.life, own, foreign)

    async def given(self, identity: Identity, claim: Claim, answer: Answer) -> Answer:
        """A lease is passed on for a repository that the token allows, and an attempt that was approved where that is
        asked for. Another one never reaches the runner: the leg ends as a failure, with a line in its log."""
        _, number, run, job, leg, _ = answer.text.split(' ', 5)
        whole = await self.view.run(int(run))
        if whole is None:
            raise Away(f'the service does not show run {run}')
        lease = lease_of(whole, int(number), job, int(leg), claim)
        is_allowed = identity.may(Right.RUNNER, lease.repository)
        shown = leg_in(whole, lease)
        if shown is None:  # an old answer: the leg has ended, and may be another attempt's by now
            return answer if is_allowed else Answer('nothing')
        if is_allowed and self.environments.allows(whole, shown.labels):
            known = self.leases.get(lease.run, lease.lease)
            self.leases.keep(known if known is not None and known.claim == lease.claim else lease)
            return answer
        await self.give_back(lease)
        return Answer('nothing')

    async def give_back(self, lease: Lease) -> None:
        """Ends a leg that its runner may not run."""
        say(f'run {lease.run} {lease.job} {lease.leg}: {WORDS} ({lease.runner})')
        try:
            self.logs.append(*lease.place, 0, f'{iso_exact(now())} {WORDS}\n'.encode())
        except LogError as fault:
            say(str(fault))
        await self.hooks.lost(lease.runner)
        self.leases.ended(lease.runner)


def leg_in(whole: Whole, lease: Lease) -> Leg | None:
    """The leg that a lease is at work on; None if it is not any more."""
    legs = [leg for job in whole.jobs if job.id == lease.job for leg in job.legs if leg.index == lease.leg]
    return next((leg for leg in legs if leg.lease == lease.lease and leg.runner == lease.runner
                 and leg.state in ('running', 'stopping')), None)


def narrowed(labels: tuple[str, ...], life: tuple[str, ...], own: list[Ready], foreign: list[Ready]) -> tuple[str, ...]:
    """Labels that fit a leg of one's own, and no foreign one; if there are none, labels that fit no leg. The random
    label alone fits none."""
    if not foreign:
        return labels
    for leg in own:
        wanted = {label.lower() for label in leg.labels}
        fewer = tuple(label for label in labels if label in life or label.lower() in wanted)
        if not any(fits(each.labels, fewer) for each in foreign):
            return fewer
    return life or ('no-leg-of-this-repository',)
