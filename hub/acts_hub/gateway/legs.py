"""What the runner of a leg may ask for and keep: only the holder of a lease, and for its own leg."""
from __future__ import annotations

import asyncio
import re
from collections.abc import Callable, Sequence
from typing import Any

from aiohttp import web

from ..access.identity import Identity, Right, require
from ..config import Config
from ..ledger.database import Database
from ..ledger.logs import JOB, OUTCOMES
from ..ledger.notes import NoteStore
from ..rest.numbers import JobNumber, number_of
from ..service.mirror import Mirror
from ..service.models import Whole
from ..service.view import ViewPort
from .environments import is_approval
from .leases import Lease, Leases
from .lines import Claim, read_line

DIGITS = re.compile('[1-9][0-9]{0,8}|0')
ID = re.compile('[1-9][0-9]{0,14}')  # of an artifact or a cache
OUTPUTS = 'outputs'
PATH = '/{run}/{attempt}/{job}/{leg}/{lease}'


def number_in(request: web.Request, name: str) -> int:
    """A number of an address."""
    text = request.match_info[name]
    if not (ID if name == 'id' else DIGITS).fullmatch(text):
        raise web.HTTPNotFound(text=f'no {name}')
    return int(text)


def claim_of(request: web.Request, identity: Identity) -> Claim:
    """The claim that a runner says it had its lease by, of a name that its token allows."""
    claim = read_line(request.headers.get('X-Acts-Claim', ''))
    if not isinstance(claim, Claim):
        raise web.HTTPBadRequest(text='X-Acts-Claim has the claim that got the lease')
    if not identity.may_claim(claim.runner, claim.own_labels):
        raise web.HTTPForbidden(text='the token does not allow this name with these labels')
    return claim


class Legs:
    """Who may do what with a leg, and what its runner is told."""

    def __init__(self, config: Config, view: ViewPort, notes: NoteStore, leases: Leases, database: Database,
                 free: Callable[[str], list[str]], mirror: Mirror) -> None:
        self.config, self.view, self.notes, self.leases = config, view, notes, leases
        self.database, self.free, self.mirror = database, free, mirror

    async def lease(self, request: web.Request, held: bool = True) -> Lease:
        """The lease that a request is about, if it is the runner's: 403 if not. `held`: it has to be so still;
        without it it may have been reported already."""
        identity = require(request, Right.RUNNER)
        claim = claim_of(request, identity)
        run, number = number_in(request, 'run'), number_in(request, 'lease')
        found = self.leases.get(run, number)
        if run <= self.mirror.forgotten:
            raise web.HTTPForbidden(text='the service has forgotten the run, and nothing more is kept of it')
        if found is not None and found.claim != str(claim):  # only a claim that passes as a line replaces another
            raise web.HTTPForbidden(text='the lease was got by another claim')
        if found is None:
            found = await self.leases.taken_up(run, number, claim)
            if found is None or not await self.leases.holds(claim.runner, lease=number):
                raise web.HTTPForbidden(text='the runner does not hold this lease')
            self.leases.keep(found)
        elif held and not await self.leases.holds(claim.runner, lease=number):
            raise web.HTTPForbidden(text='the runner does not hold this lease any more')
        if not identity.may(Right.RUNNER, found.repository):
            raise web.HTTPForbidden(text='the token does not allow this repository')
        return found

    async def leg(self, request: web.Request, held: bool = True) -> Lease:
        """The lease of an address with all of a leg."""
        if not JOB.fullmatch(request.match_info['job']):
            raise web.HTTPNotFound(text='no job')
        found = await self.lease(request, held)
        asked = (number_in(request, 'attempt'), request.match_info['job'], number_in(request, 'leg'))
        if asked != (found.attempt, found.job, found.leg):
            raise web.HTTPForbidden(text='the lease is for another leg')
        return found

    async def facts(self, request: web.Request) -> web.Response:
        """What a runner is told of its leg besides the body."""
        lease = await self.lease(request)
        whole = await self.view.run(lease.run)
        if whole is None or whole.row.attempt != lease.attempt:
            raise web.HTTPForbidden(text='the run is at another attempt')
        return web.json_response(self.told(lease, whole))

    def told(self, lease: Lease, whole: Whole) -> dict[str, Any]:
        """Attempt, results and outputs of jobs, and members of contexts."""
        row, url = whole.row, self.config.url
        job = next(job for job in whole.jobs if job.id == lease.job)
        labels = next(leg.labels for leg in job.legs if leg.index == lease.leg)
        owner, index = row.repository.partition('/')[0], whole.jobs.index(job)
        defaults = {'server_url': url, 'api_url': f'{url}/api/v3', 'graphql_url': f'{url}/api/graphql',
                'repository_owner_id': str(number_of('user', owner.lower())),
                    'repository_id': str(number_of('repo', row.repository.lower())), 'repository_owner': owner,
                    'workflow_ref': f'{row.repository}/{row.path}@{row.ref or ""}',
                    'retention_days': str(self.config.retention.logs_days)}
        ended = {each.id: each.state for each in whole.jobs if each.state in OUTCOMES}
        return {'attempt': lease.attempt, 'results': ended,
                'outputs': {each.id: self.outputs(whole, each.id) for each in whole.jobs if each.id in job.needs},
                'strategy': {'job-total': len(job.legs), 'max-parallel': job.max_parallel or len(job.legs)},
                'is_approved': is_approval(labels, row.run), 'free_environments': self.free(row.repository),
                'check_run_id': JobNumber(row.run, row.attempt, index, lease.leg).value,
                'github_defaults': defaults,
                'github': {'run_number': str(row.number), 'run_attempt': str(row.attempt), **self.by_whom(lease)}}

    def by_whom(self, lease: Lease) -> dict[str, str]:
        """Who has had an attempt made, if that went through the hub."""
        note = self.mirror.attempts.notes.get((lease.run, lease.attempt))
        return {'triggering_actor': note.triggering_actor} if note is not None and note.triggering_actor else {}

    def outputs(self, whole: Whole, job: str) -> dict[str, str]:
        """The outputs of a job: of the leases under which its legs ran, so those of no other attempt."""
        legs: Sequence[Any] = next((each.legs for each in whole.jobs if each.id == job), ())
        found: dict[str, str] = {}
        for leg in legs:
            if leg.lease is not None:
                kept = self.notes.get(whole.row.run, 0, OUTPUTS, str(leg.lease))
                found.update({name: value for name, value in kept.items() if value or name not in found}
                             if isinstance(kept, dict) else {})
        return found

    async def keep_outputs(self, request: web.Request) -> web.Response:
        """Keeps the outputs of a leg."""
        lease = await self.leg(request)
        try:
            given = await request.json()
        except (ValueError, RecursionError):
            raise web.HTTPBadRequest(text='no JSON') from None
        if not isinstance(given, dict) or not all(isinstance(value, str) for value in given.values()):
            raise web.HTTPBadRequest(text='an object of texts is wanted')
        try:
            self.notes.set(lease.run, 0, OUTPUTS, str(lease.lease), given)
        except ValueError as fault:
            raise web.HTTPRequestEntityTooLarge(1 << 20, 1 << 20, text=f'the outputs are too long: {fault}') from None
        await written(self.database)
        return web.json_response({})


async def written(database: Database) -> None:
    """Waits until what was noted is in the file, so that a runner may forget it; 503 if that takes too long."""
    if not await asyncio.get_running_loop().run_in_executor(None, database.flushed):
        words = database.fault or 'the ledger is not written'
        raise web.HTTPServiceUnavailable(text=words, headers={'Retry-After': '5'})
