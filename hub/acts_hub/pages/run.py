"""A run: why it failed, what it waits for, its graph, its legs, what it has kept."""
from __future__ import annotations

import asyncio
from dataclasses import dataclass, replace

from aiohttp import web

from ..times import now
from . import graph, steps
from .log import file_of, steps_in
from .notes import annotations_of, summaries_of
from .site import HEADERS, Site, number_of
from .waiting import Why, displaced_by, of_wait
from .whole import LegRow, Shown, awaited_jobs, buttons_of, crumbs_of, nodes_of, shown, side_of

MOST_REASONS, MOST_WAITS, MOST_LEGS = 5, 10, 300
PIECE = 1 << 18


@dataclass(frozen=True)
class Reason:
    """Why a leg failed: its step, and the last lines of that."""

    name: str
    link: str
    step: str
    step_link: str
    words: str
    lines: tuple[str, ...]


@dataclass(frozen=True)
class Waits:
    """Why a run or leg waits."""

    name: str
    why: Why


@dataclass(frozen=True)
class ArtifactRow:
    """An artifact in a list."""

    name: str
    link: str
    size: int
    at: int


def reason_of(site: Site, found: Shown, row: LegRow) -> Reason:
    """Why a leg failed, from its log. It reads files, so it is called in a thread of its own."""
    file = file_of(site, found, row)
    if file is None:
        return Reason(row.name, row.link, '', '', 'failed without a log: its runner was lost, or could not begin', ())
    every = steps_in(site, file, True)
    step = next((one for one in every if one.state == 'failure'), None)
    if step is None:
        return Reason(row.name, row.link, '', '', 'failed outside of a step',
                      tuple(steps.tail_of(file, 0, file.size())))
    link = f'{row.link}?step={step.number}#step:{step.number}'
    return Reason(row.name, row.link, step.name, link, '', tuple(steps.tail_of(file, step.offset, step.end)))


async def waits_of(site: Site, found: Shown) -> list[Waits]:
    """What the run itself waits for, or the first of its legs."""
    whole, row = found.whole, found.run.row
    if whole is None or found.attempt != row.attempt or row.status == 'completed':
        return []
    if whole.waits_for is not None:
        why = of_wait(whole.waits_for, (), found.repository, await site.facts(('group',)))
        return [Waits('This run', why)] if why else []
    waiting = [Waits(one.name, one.why) for one in found.legs if one.why is not None and one.leg is not None]
    if len({one.why for one in waiting}) == 1 and len(waiting) > 1:
        why = waiting[0].why
        return [Waits(f'{len(waiting)} legs', replace(why, words=why.words.replace('waits', 'wait', 1)))]
    return waiting[:MOST_WAITS]


async def run_page(site: Site, request: web.Request) -> web.StreamResponse:
    """The page of a run, in its present attempt or in an earlier one."""
    attempt = None
    if 'attempt' in request.match_info:
        attempt = number_of(request.match_info, 'attempt')
        if attempt is None:
            raise web.HTTPNotFound
    found = await shown(site, request, attempt)
    failed = [row for row in found.legs if row.state == 'failure']
    reasons = await asyncio.to_thread(lambda: [reason_of(site, found, row) for row in failed[:MOST_REASONS]])
    nodes, legs = nodes_of(found, now()), [row for row in found.legs if row.leg is not None or row.why is None
                                           or row.state != 'blocked']
    kept = site.hub.artifacts.list(found.run.row.run, found.attempt)
    artifacts = [ArtifactRow(one.name, f'{found.head.base}/artifacts/{one.id}', one.size, one.created_at)
                 for one in kept]
    return site.page(
        request, 'run.html', title=f'{found.head.title} #{found.head.number} · {found.repository}',
        active='repositories', crumbs=crumbs_of(found),
        run=found.head, can=await buttons_of(site, request, found), approvals=awaited_jobs(site, found), nodes=nodes,
        side=side_of(nodes),
        job_link='', reasons=reasons,
        reasons_left=max(0, len(failed) - MOST_REASONS), waits=await waits_of(site, found),
        displaced=displaced(site, found),
        wide=graph.drawing(nodes), narrow=graph.narrow(nodes), legs=legs[:MOST_LEGS],
        legs_left=max(0, len(legs) - MOST_LEGS),
        annotations=annotations_of(site, found), summaries=summaries_of(site, found), artifacts=artifacts,
        changes=f'/-/changes?run={found.head.id}')


def displaced(site: Site, found: Shown) -> Why | None:
    """Why the run was cancelled: who asked, or which run took its place."""
    if found.attempt != found.run.row.attempt or found.run.row.conclusion != 'cancelled':
        return None
    noted = site.cancelled(found.run)
    if 'by' in noted:
        return Why(f'Cancelled by {noted["by"]}.')
    if noted:
        return Why(f'Cancelled: {"; ".join(noted.values())}.')
    return displaced_by(found.run, site.hub.mirror.of(found.repository))


async def artifact(site: Site, request: web.Request) -> web.StreamResponse:
    """The zip of an artifact."""
    found = await shown(site, request)
    number = number_of(request.match_info, 'artifact', 2 ** 53)
    kept = site.hub.artifacts.get(number) if number is not None else None
    path = site.hub.artifacts.open(kept.id) if kept is not None and kept.run == found.run.row.run else None
    if kept is None or path is None:
        raise web.HTTPNotFound(text='There is no such artifact any more.')
    name = ''.join(one if one.isascii() and (one.isalnum() or one in '._-') else '_' for one in kept.name)[:100]
    return web.FileResponse(path, headers={**HEADERS, 'Content-Type': 'application/zip',
                                           'Content-Disposition': f'attachment; filename="{name}.zip"'})


def routes(site: Site) -> list[web.RouteDef]:
    """Pages of runs."""
    base = '/{owner}/{repo}/actions/runs/{run}'
    return [site.get(base, run_page), site.get(f'{base}/attempts/{{attempt}}', run_page),
            site.get(f'{base}/artifacts/{{artifact}}', artifact)]
