"""Runners: those that are active and idle before those that are offline."""
from __future__ import annotations

from collections.abc import Mapping
from dataclasses import dataclass

from aiohttp import web

from ..access.identity import Right, identity_of, require
from ..service.http import Unsupported
from ..service.models import Runner, Whole
from . import moments, states
from .filters import words_of
from .names import leg_link, leg_name
from .site import Site, signed_in
from .waiting import AWAY, is_there

MOST_SHOWN, MOST_AWAY = 200, 50
BUSY, IDLE, GONE = states.Sign('running', 'Active'), states.Sign('success', 'Idle'), states.Sign('skipped', 'Offline')


@dataclass(frozen=True)
class RunnerRow:
    """A runner in a list."""

    name: str
    sign: states.Sign
    labels: tuple[str, ...]
    link: str
    leg: str
    repository: str
    heard: str
    remove: str  # where the button leads; empty without one


def _row(site: Site, request: web.Request, runner: Runner, wholes: Mapping[int, Whole]) -> RunnerRow:
    sign = BUSY if runner.lease else IDLE if is_there(runner) else GONE
    link = leg = repository = ''
    lease = runner.lease
    run = site.hub.mirror.runs.get(lease.run) if lease else None
    if lease is not None and run is not None and site.may(request, Right.READ, run.row.repository):
        whole = wholes.get(lease.run)
        for index, job in enumerate(whole.jobs if whole else ()):
            for one in job.legs:
                if (job.id, one.index) == (lease.job, lease.leg):
                    link, leg, repository = leg_link(run, run.row.attempt, index,
                                                     one.index), leg_name(run, job, one), run.row.repository
    may = lease is None and may_remove(request)
    return RunnerRow(runner.name, sign, runner.labels or (), link, leg, repository,
                     moments.seconds_ago(runner.heard_seconds_ago), f'/runners/{runner.name}/remove' if may else '')


def may_remove(request: web.Request) -> bool:
    """Whether who asks may discharge runners, which are of no one repository."""
    identity = identity_of(request)
    return identity is not None and identity.may(Right.ADMIN)


def _fits(runner: Runner, q: str) -> bool:
    return q in runner.name.casefold() or any(q in label.casefold() for label in runner.labels or ())


async def runners(site: Site, request: web.Request) -> web.StreamResponse:
    """The page of runners."""
    signed_in(request)
    q = words_of(request.query)
    every = [one for one in await site.runners() if _fits(one, q.casefold())]
    order = sorted(every, key=lambda one: (one.heard_seconds_ago is None, one.heard_seconds_ago, one.name))
    kinds = {'Active': [one for one in order if one.lease],
             'Idle': [one for one in order if not one.lease and is_there(one)],
             'Offline': [one for one in order if not is_there(one)]}
    wholes = await site.wholes(one.lease.run for one in kinds['Active'][:MOST_SHOWN] if one.lease
                               and one.lease.run in site.hub.mirror.runs)
    sections = []
    for title, found in kinds.items():
        most = MOST_AWAY if title == 'Offline' else MOST_SHOWN
        sections.append((title, [_row(site, request, one, wholes) for one in found[:most]], max(0, len(found) - most)))
    counts = {'busy': len(kinds['Active']), 'idle': len(kinds['Idle']), 'away': len(kinds['Offline']), 'all': len(every)}
    return site.page(request, 'runners.html', title='Runners', active='runners', q=q, counts=counts, sections=sections,
                     away_words=moments.span(AWAY), changes='/-/changes', every=10,
                     may_remove=may_remove(request))


async def remove(site: Site, request: web.Request) -> web.StreamResponse:
    """Discharges a runner that holds no lease."""
    require(request, Right.ADMIN)
    await site.check_form(request)
    name = request.match_info['name']
    if site.gateway is None:
        raise web.HTTPNotFound
    try:
        reply = await site.gateway.leaving.discharge(name)
    except Unsupported:
        return site.fault(request, 422, 'This version of the service can not do that yet.')
    if not reply.ok:
        return site.fault(request, 409, f'{name} was not removed: {reply.sentence}.')
    site.runners_lately.stale()
    raise web.HTTPSeeOther('/runners?did=remove')


def routes(site: Site) -> list[web.RouteDef]:
    """Runners."""
    return [site.get('/runners', runners), site.post('/runners/{name:[A-Za-z0-9_.-]{1,64}}/remove', remove)]
