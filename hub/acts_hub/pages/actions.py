"""Buttons: cancel, force-cancel, re-run, re-run failed jobs, approve. Each is a form with a token against forgery."""
from __future__ import annotations

from collections.abc import Awaitable, Callable

from aiohttp import web

from ..access.identity import Identity, Right, require
from ..gateway.environments import Environments
from ..service.hooks import Reply
from ..service.http import Unsupported
from ..service.mirror import Run
from .names import run_link
from .site import Site, number_of

Act = Callable[[Site, Run, Identity], Awaitable[Reply]]


async def acted(site: Site, request: web.Request, name: str, act: Act,
                seen: Callable[[Run], bool]) -> web.StreamResponse:
    """Does what a button says, waits till it is seen, and goes back to the run."""
    run = run_of(site, request)
    identity = require(request, Right.WRITE, run.row.repository)
    await site.check_form(request)
    try:
        reply = await act(site, run, identity)
    except Unsupported:
        return site.fault(request, 422, 'This version of the service can not do that yet.')
    if not reply.ok:
        return site.fault(request, 409, f'The service refused it: {reply.sentence}.')
    await site.hub.mirror.settled(lambda: seen(site.hub.mirror.runs.get(run.row.run, run)), 2)
    raise web.HTTPSeeOther(f'{run_link(run)}?did={name}')


def run_of(site: Site, request: web.Request) -> Run:
    """The run of an address, if who asks may see it."""
    repository = site.repository(request)
    number = number_of(request.match_info, 'run')
    run = site.hub.mirror.runs.get(number) if number is not None else None
    if run is None or run.row.repository.lower() != repository.lower():
        raise web.HTTPNotFound
    return run


async def cancel(site: Site, request: web.Request) -> web.StreamResponse:
    """Asks a run to stop."""
    async def act(site: Site, run: Run, identity: Identity) -> Reply:
        reply = await site.hub.hooks.cancel(run.row.run)
        if reply.ok:
            site.note_cancel(run, identity)
        return reply
    return await acted(site, request, 'cancel', act, lambda run: run.row.status == 'completed')


async def force_cancel(site: Site, request: web.Request) -> web.StreamResponse:
    """Ends a run whose cancellation was requested."""
    async def act(site: Site, run: Run, identity: Identity) -> Reply:
        return await site.hub.hooks.force(run.row.run)
    return await acted(site, request, 'force-cancel', act, lambda run: run.row.status == 'completed')


async def rerun(site: Site, request: web.Request) -> web.StreamResponse:
    """Runs all jobs again."""
    return await _again(site, request, 'rerun', site.hub.hooks.rerun)


async def rerun_failed(site: Site, request: web.Request) -> web.StreamResponse:
    """Runs the failed jobs again."""
    return await _again(site, request, 'rerun-failed', site.hub.hooks.retry)


async def _again(site: Site, request: web.Request, name: str,
                 command: Callable[[int, int], Awaitable[Reply]]) -> web.StreamResponse:
    before = run_of(site, request).row.attempt

    async def act(site: Site, run: Run, identity: Identity) -> Reply:
        await site.hub.mirror.keep(run.id)
        reply = await command(run.id, before + 1)
        if reply.ok:
            site.hub.mirror.note_actor(run.id, before + 1, identity.name)
        return reply
    return await acted(site, request, name, act, lambda run: run.row.attempt > before)


async def approve(site: Site, request: web.Request) -> web.StreamResponse:
    """Approves the environments of a run's present attempt."""
    run = run_of(site, request)
    identity = require(request, Right.WRITE, run.row.repository)
    await site.check_form(request)
    whole = await site.hub.mirror.whole(run.id)
    if site.gateway is None or whole is None or whole.row.attempt != run.row.attempt or not Environments.waiting(whole):
        return site.fault(request, 422, 'This run has no job that waits for an approval.')
    site.gateway.environments.approve(run.id, run.row.attempt, identity)
    raise web.HTTPSeeOther(f'{run_link(run)}?did=approve')


def routes(site: Site) -> list[web.RouteDef]:
    """Buttons of a run."""
    base = '/{owner}/{repo}/actions/runs/{run}'
    found = (('cancel', cancel), ('force-cancel', force_cancel), ('rerun', rerun), ('rerun-failed', rerun_failed),
             ('approve', approve))
    return [site.post(f'{base}/{name}', handler) for name, handler in found]
