"""What waits: legs by the labels they ask for, and each with its reason."""
from __future__ import annotations

from collections import Counter
from dataclasses import dataclass, replace

from aiohttp import web

from ..access.identity import Right
from ..service.mirror import Run
from .names import leg_link, leg_name, run_link, title_of, workflow_of
from .site import Site, signed_in
from .waiting import Why, able, of_group, of_wait, own_labels

MOST_ROWS, MOST_LABELS, MOST_RUNS = 100, 50, 30


@dataclass(frozen=True)
class Waiting:
    """Something that waits."""

    name: str
    link: str
    title: str
    run_link: str
    repository: str
    workflow: str
    number: int
    why: Why
    since: int


@dataclass(frozen=True)
class Labels:
    """What legs ask for, how many ask, and who could take them."""

    labels: tuple[str, ...]
    count: int
    why: Why


def _waiting(run: Run, name: str, link: str, why: Why) -> Waiting:
    row = run.row
    since = run.created_at if row.status == 'pending' else run.started_at
    return Waiting(name, link, title_of(run), run_link(run), row.repository, workflow_of(run), row.number, why, since)


async def queue(site: Site, request: web.Request) -> web.StreamResponse:
    """The page of the queue."""
    identity = signed_in(request)
    runs = site.hub.mirror.runs
    ready = [one for one in await site.hub.view.queue() if one.run in runs
             and identity.may(Right.READ, runs[one.run].row.repository)]
    facts = await site.facts(('group', 'runner'))
    counts = Counter((own_labels(one.labels), runs[one.run].row.repository) for one in ready)
    labels = [Labels(asked, count, able(asked, repository, facts)) for (asked, repository),
              count in counts.most_common(MOST_LABELS)]
    rows: list[Waiting] = []
    wholes = await site.wholes(list(dict.fromkeys(one.run for one in ready))[:MOST_RUNS])
    for number, whole in wholes.items():
        for index, job in enumerate(whole.jobs):
            for leg in job.legs:
                run = runs[number]
                approved = site.is_approved(number, run.row.attempt)
                why = of_wait(leg.waits_for, leg.labels, run.row.repository, replace(facts, is_approved=approved))
                if why is not None:
                    rows.append(_waiting(run, leg_name(run, job, leg), leg_link(run, run.row.attempt, index, leg.index),
                                         why))
    pending = [run for run in runs.values() if run.row.status == 'pending'
               and identity.may(Right.READ, run.row.repository)]
    for run in pending[:MOST_ROWS]:
        rows.append(_waiting(run, 'the whole run', run_link(run),
                             of_group(run.row.group or '', run.row.repository, facts)))
    rows.sort(key=lambda row: row.since)
    count = len(ready) + len(pending)
    return site.page(request, 'queue.html', title='Queue', active='queue', labels=labels, rows=rows[:MOST_ROWS],
                     left=max(0, count - MOST_ROWS), count=count,
                     changes='/-/changes', every=10)


def routes(site: Site) -> list[web.RouteDef]:
    """The queue."""
    return [site.get('/queue', queue)]
