"""A run with its jobs as its pages show it: its head, its buttons, its legs by name, why they wait."""
from __future__ import annotations

from collections.abc import Sequence
from dataclasses import dataclass
from urllib.parse import urlencode

from aiohttp import web

from ..access.identity import Right
from ..gateway.environments import Environments
from ..rest.numbers import JobNumber
from ..service.mirror import Run
from ..service.models import Job, Leg, Whole
from . import graph, moments, states
from .names import (is_matrix, job_name, leg_link, leg_name, repository_link, run_link, title_of, workflow_link,
                    workflow_of)
from .site import Site, number_of
from .waiting import Facts, Why, of_blocked, of_wait, own_labels

MOST_BESIDE = 400  # legs that are listed beside a run


@dataclass(frozen=True)
class RunHead:
    """What the head of a run's pages shows."""

    id: int
    base: str
    link: str
    title: str
    number: int
    sign: states.Sign
    stopping: bool
    attempt: int
    attempts: int
    is_earlier: bool
    event: str
    triggering_actor: str
    created_at: int
    begun: int | None
    ended: int | None
    pull: int | None
    pull_title: str
    pull_link: str
    branch: str
    branch_link: str
    is_tag: bool
    base_ref: str
    sha: str
    workflow: str
    workflow_link: str
    path: str
    group: str
    group_link: str


@dataclass(frozen=True)
class LegRow:
    """A leg by its name."""

    job: Job
    leg: Leg | None
    job_index: int
    index: int
    name: str
    link: str
    state: str
    sign: states.Sign
    runner: str
    labels: tuple[str, ...]
    begun: int | None
    ended: int | None
    why: Why | None


@dataclass(frozen=True)
class SideJob:
    """A job in the list beside a run: the legs that are listed, and how many are not."""

    node: graph.Node
    legs: tuple[graph.Leg, ...]
    more: int


@dataclass(frozen=True)
class Buttons:
    """Which buttons a run has for who looks."""

    cancel: bool = False
    force: bool = False
    rerun: bool = False
    rerun_failed: bool = False
    approve: bool = False


@dataclass(frozen=True)
class Shown:
    """A run in one attempt, ready to be shown."""

    run: Run
    whole: Whole | None
    attempt: int
    head: RunHead
    legs: tuple[LegRow, ...]

    @property
    def repository(self) -> str:
        """Its repository."""
        return self.run.row.repository


async def shown(site: Site, request: web.Request, attempt: int | None = None) -> Shown:
    """The run of an address, if who asks may see it."""
    repository = site.repository(request)
    number = number_of(request.match_info, 'run')
    run = site.hub.mirror.runs.get(number) if number is not None else None
    if run is None or run.row.repository.lower() != repository.lower():
        raise web.HTTPNotFound
    chosen = attempt if attempt is not None else run.row.attempt
    if not 1 <= chosen <= run.row.attempt:
        raise web.HTTPNotFound(text=f'The run has no attempt {chosen}.')
    whole = await site.hub.mirror.whole(run.row.run, None if chosen == run.row.attempt else chosen)
    legs = await _legs(site, run, chosen, whole)
    return Shown(run, whole, chosen, _head(site, run, chosen, whole), legs)


def _head(site: Site, now_run: Run, attempt: int, whole: Whole | None) -> RunHead:
    run = site.hub.mirror.attempt(now_run.id, attempt) or now_run
    row, facts, is_now = run.row, run.facts, attempt == now_run.row.attempt
    link, base = run_link(run), repository_link(row.repository)
    branch, pull, is_over = facts.branch or '', facts.pull_number, row.status == 'completed'
    return RunHead(
        row.run, link, link if is_now else f'{link}/attempts/{attempt}', title_of(run), row.number,
        states.sign(states.of_run(run)),
        bool(is_now and whole and whole.stopping and not is_over), attempt, now_run.row.attempt, not is_now, row.event,
        run.triggering_actor or facts.actor or '', run.created_at, None if row.status == 'pending' else run.started_at,
        (run.completed_at or run.updated_at) if is_over else None, pull, facts.pull_title or '',
        f'{base}?{urlencode({"q": f"#{pull}"})}' if pull else '', branch, f'{base}?{urlencode({"branch": branch})}',
        (row.ref or '').startswith('refs/tags/'), facts.base_ref or '', facts.sha or '', workflow_of(run),
        workflow_link(row.repository, row.path),
        row.path, row.group or '', f'/groups?{urlencode({"q": row.group or ""})}')


async def _legs(site: Site, run: Run, attempt: int, whole: Whole | None) -> tuple[LegRow, ...]:
    if whole is None:
        return ()
    is_now = attempt == run.row.attempt
    waits = {leg.waits_for.kind for job in whole.jobs for leg in job.legs if leg.waits_for} if is_now else set[str]()
    facts = await site.facts(waits, run.id, attempt)
    return tuple(row for index, job in enumerate(whole.jobs) for row in _rows(run, attempt, whole, job, index, facts))


def _rows(run: Run, attempt: int, whole: Whole, job: Job, index: int, facts: Facts) -> list[LegRow]:
    is_now = attempt == run.row.attempt
    if not job.legs:
        state = job.state or 'unknown'
        why = of_blocked(job, whole.jobs, {one.id: job_name(one) for one in whole.jobs}) if is_now else None
        return [LegRow(job, None, index, 0, job_name(job), leg_link(run, attempt, index, 0), state, states.sign(state),
                       '', (), None, None, why)]
    rows = []
    for leg in job.legs:
        state = leg.state or 'unknown'
        why = of_wait(leg.waits_for, leg.labels, run.row.repository, facts) if is_now else None
        rows.append(LegRow(
            job, leg, index, leg.index, leg_name(run, job, leg), leg_link(run, attempt, index, leg.index), state,
            states.sign(state), leg.runner or '',
            own_labels(leg.labels), leg.started_at, leg.ended_at, why))
    return in_order(rows, run.facts.matrix_names.get(job.id, ()))


def in_order(rows: Sequence[LegRow], names: Sequence[str]) -> list[LegRow]:
    """Legs in the order in which GitHub lists them: the first variable of the file's matrix changes last."""
    ranks: dict[str, dict[str, int]] = {name: {} for name in names}
    for row in rows:
        for name, value in row.leg.combination.items() if row.leg else ():
            ranks.setdefault(name, {}).setdefault(repr(value), len(ranks[name]))

    def key(row: LegRow) -> list[int]:
        combination = row.leg.combination if row.leg else {}
        return [ranks[name].get(repr(combination.get(name)), len(rows)) for name in ranks]
    return sorted(rows, key=key)


def nodes_of(found: Shown, now: int) -> tuple[graph.Node, ...]:
    """The jobs of a run for its graph and the list beside it."""
    nodes: dict[str, graph.Node] = {}
    for row in found.legs:
        job = row.job
        note = moments.lasted((row.ended or now) - row.begun) if row.begun is not None else ''
        drawn = graph.Leg(row.name, row.state, row.link, note)
        known = nodes.get(job.id)
        legs = (*known.legs, drawn) if known else (drawn,)
        nodes[job.id] = graph.Node(job.id, job_name(job), states.of_job(job), job.needs, legs, is_matrix(job))
    return tuple(nodes.values())


def side_of(nodes: Sequence[graph.Node]) -> list[SideJob]:
    """The jobs of a run for the list beside it, of each as many legs as there is room for."""
    most = max(graph.MOST_LEGS, MOST_BESIDE // max(1, len(nodes)))
    return [SideJob(node, legs, len(node.legs) - len(legs)) for node in nodes
            for legs in (graph.chosen(node.legs, most),)]


def leg_of(found: Shown, number: JobNumber) -> LegRow:
    """The leg that the number of a job names."""
    for row in found.legs:
        if (row.job_index, row.index) == (number.job, number.leg):
            return row
    raise web.HTTPNotFound(text='The run has no such job in this attempt.')


async def buttons_of(site: Site, request: web.Request, found: Shown) -> Buttons:
    """The buttons that who looks may press, and the service can do."""
    row = found.run.row
    if not site.may(request, Right.WRITE, found.repository) or found.attempt != row.attempt:
        return Buttons()
    is_over, stopping = row.status == 'completed', bool(found.whole and found.whole.stopping)
    failed = row.conclusion in ('failure', 'cancelled')
    return Buttons(
        cancel=not is_over and not stopping, force=not is_over and stopping and await site.supports('force'),
        rerun=is_over,
        rerun_failed=is_over and failed and await site.supports('retry'), approve=bool(awaited_jobs(site, found)))


def awaited_jobs(site: Site, found: Shown) -> list[str]:
    """The names of the jobs whose environment was not approved yet."""
    if found.whole is None or found.attempt != found.run.row.attempt or site.is_approved(found.run.id, found.attempt):
        return []
    ids = Environments.waiting(found.whole)
    return [job_name(job) for job in found.whole.jobs if job.id in ids]


def crumbs_of(found: Shown) -> list[tuple[str, str]]:
    """Where a run is."""
    base = repository_link(found.repository)
    return [(found.repository, base), (found.head.workflow, found.head.workflow_link),
            (f'#{found.head.number}', found.head.link)]
