"""Lists of runs: of all repositories, of one, of a workflow."""
from __future__ import annotations

from collections.abc import Sequence
from dataclasses import dataclass
from typing import Any
from urllib.parse import quote, urlencode

from aiohttp import web

from ..access.identity import Right
from ..service.mirror import Run
from . import filters, states
from .dispatch import dispatched, form_of
from .names import file_of, repository_link, run_link, title_of, workflow_link, workflow_of
from .site import Site, number_of, signed_in
from .waiting import Why, of_group

MOST_REPOSITORIES, MOST_WORKFLOWS = 500, 200
NEVER = states.Sign('skipped', 'Never run')
MOST_COUNTED = 1_000  # runs that fit filters are counted up to here
HOW = {'push': 'pushed,', 'pull_request': '', 'workflow_dispatch': 'run by hand,', 'schedule': 'scheduled,'}


@dataclass(frozen=True)
class RunRow:
    """A run in a list."""

    id: int
    link: str
    title: str
    sign: states.Sign
    workflow: str
    number: int
    attempt: int
    how: str
    pull: int | None
    sha: str
    actor: str
    branch: str
    branch_link: str
    created_at: int
    begun: int | None
    ended: int | None
    why: Why | None


@dataclass(frozen=True)
class WorkflowRow:
    """A workflow of a repository, and how its last run stands."""

    name: str
    path: str
    link: str
    sign: states.Sign


@dataclass(frozen=True)
class RepositoryRow:
    """A repository, and how its last run stands."""

    name: str
    link: str
    count: int
    active: int
    waiting: int
    sign: states.Sign
    last: RunRow | None


def row_of(run: Run, state: str, why: Why | None = None) -> RunRow:
    """A run as a list shows it."""
    row, facts = run.row, run.facts
    branch = facts.branch or ''
    link = f'{repository_link(row.repository)}?{urlencode({"branch": branch})}'
    is_over = row.status == 'completed'
    return RunRow(
        row.run, run_link(run), title_of(run), states.sign(state), workflow_of(run), row.number, row.attempt,
        HOW.get(row.event, f'{row.event},'),
        facts.pull_number, facts.sha or '', facts.actor or '', branch, link, run.created_at,
        None if row.status == 'pending' else run.started_at,
        (run.completed_at or run.updated_at) if is_over else None, why)


async def workflows_of(site: Site, repository: str) -> list[WorkflowRow]:
    """The workflows that have runs, of each the newest counts, and those that a person can start; by name."""
    rows = {}
    for path in site.paths(repository):
        if runs := site.hub.mirror.select(repository, path=path):
            run = runs[-1]
            rows[path] = WorkflowRow(workflow_of(run), path, workflow_link(repository, path),
                                     states.sign(site.state_of(run)))
    for path, file in (await site.files.of(repository)).items():
        if file.inputs is not None and path not in rows:
            rows[path] = WorkflowRow(file.name, path, workflow_link(repository, path), NEVER)
    return sorted(rows.values(), key=lambda row: (row.name.casefold(), row.path))[:MOST_WORKFLOWS]


async def repositories(site: Site, request: web.Request) -> web.StreamResponse:
    """The first page: the repositories that one may read."""
    identity, q, mirror = signed_in(request), filters.words_of(request.query), site.hub.mirror
    rows = []
    for name in mirror.repositories():
        if not identity.may(Right.READ, name) or q.casefold() not in name.casefold():
            continue
        runs = mirror.of(name)
        active, queued, pending = (len(mirror.select(name, status=status))
                                   for status in ('in_progress', 'queued', 'pending'))
        last = runs[-1] if runs else None
        state = site.state_of(last) if last else 'skipped'
        rows.append(RepositoryRow(name, repository_link(name), len(runs), active, queued + pending, states.sign(state),
                                  row_of(last, state) if last else None))
    rows.sort(key=lambda row: -(row.last.created_at if row.last else 0))
    return site.page(request, 'repositories.html', title='Repositories', active='repositories',
                     rows=rows[:MOST_REPOSITORIES], q=q,
                     is_whole=mirror.is_whole, changes='/-/changes')


def path_of(paths: Sequence[str], name: str) -> str:
    """The path of the workflow that an address names, by its path or its file name."""
    for path in (name, f'.github/workflows/{name}'):
        if path in paths:
            return path
    found = next((path for path in paths if file_of(path) == name), None)
    if found is None:
        raise web.HTTPNotFound(text='There is no such workflow.')
    return found


async def runs_of_repository(site: Site, request: web.Request) -> web.StreamResponse:
    """The runs of a repository."""
    return await list_page(site, request, site.repository(request), '')


async def workflow_at(site: Site, request: web.Request, repository: str) -> str:
    """The path of the workflow of an address, which has had a run, or is in the mirror."""
    paths = dict.fromkeys([*site.paths(repository), *await site.files.of(repository)])
    return path_of(list(paths), request.match_info['file'])


async def runs_of_workflow(site: Site, request: web.Request) -> web.StreamResponse:
    """The runs of a workflow, with the form that starts it by hand."""
    repository = site.repository(request)
    return await list_page(site, request, repository, await workflow_at(site, request, repository))


async def dispatch(site: Site, request: web.Request) -> web.StreamResponse:
    """Starts a workflow by hand; what could not be taken is shown in its form."""
    repository = site.repository(request)
    path = await workflow_at(site, request, repository)
    sent, fault = await dispatched(site, request, repository, path)
    return await list_page(site, request, repository, path, sent=sent, faults=[fault], status=422)


async def list_page(site: Site, request: web.Request, repository: str, path: str, **sent: Any) -> web.StreamResponse:
    """A list of runs. `sent` is what a form of this page sent, where it could not be taken."""
    everything = site.hub.mirror.of(repository)
    if not everything and not site.knows(repository):
        raise web.HTTPNotFound
    runs = site.hub.mirror.select(repository, path=path) if path else everything
    wanted = filters.only_of(filters.wanted_of(request.query), path)
    tests = filters.tests_of(wanted, site.state_of)
    page = filters.page_of(runs, tests, number_of(request.query, 'before'), number_of(request.query, 'after'))
    here = workflow_link(repository, path) if path else repository_link(repository)
    workflows = await workflows_of(site, repository)
    workflow = next((one for one in workflows if one.path == path), None)
    return site.page(
        request, 'runs.html', sent.pop('status', 200), title=f'{workflow.name if workflow else "Runs"} · {repository}',
        active='repositories',
        crumbs=[(repository, '' if not path else repository_link(repository)),
                *([(workflow.name, '')] if workflow else [])],
        base=repository_link(repository), here=here, workflow=workflow, workflows=workflows, wanted=wanted,
        is_filtered=not wanted.is_empty,
        rows=await _rows(site, repository, page.runs), count_words=_counted(runs, tests, wanted),
        statuses=filters.STATUSES,
        events=sorted({run.row.event for run in runs[-1000:]}),
        changes=f'/-/changes?{urlencode({"repository": repository})}',
        newer=here + wanted.query(after=page.newer) if page.newer is not None else '',
        older=here + wanted.query(before=page.older) if page.older is not None else '',
        dispatch=await form_of(site, request, repository, path, **sent) if path else None)


def _counted(runs: Sequence[Run], tests: Sequence[Any], wanted: filters.Wanted) -> str:
    if wanted.is_empty:
        return f'{len(runs):,} run{"" if len(runs) == 1 else "s"}'
    count = 0
    for run in reversed(runs):
        if all(test(run) for test in tests):
            count += 1
            if count > MOST_COUNTED:
                return f'More than {MOST_COUNTED:,} runs fit'
    return f'{count:,} run{" fits" if count == 1 else "s fit"}'


async def _rows(site: Site, repository: str, runs: Sequence[Run]) -> list[RunRow]:
    pending = [run for run in runs if run.row.status == 'pending' and run.row.group is not None]
    facts = await site.facts(('group',) if pending else ())
    return [row_of(run, site.state_of(run), of_group(run.row.group or '', repository, facts) if run in pending
                   else None) for run in runs]


async def to_runs(site: Site, request: web.Request) -> web.StreamResponse:
    """From the address of a repository to its runs."""
    if request.match_info['owner'].startswith('-'):  # no owner is named so: it is an address of the hub's own
        raise web.HTTPNotFound
    raise web.HTTPSeeOther(f'/{quote(request.match_info["owner"])}/{quote(request.match_info["repo"])}/actions')


def routes(site: Site) -> list[web.RouteDef]:
    """Lists of runs."""
    return [
        site.get('/', repositories), site.get('/{owner}/{repo}', to_runs),
        site.get('/{owner}/{repo}/actions', runs_of_repository),
        site.post('/{owner}/{repo}/actions/workflows/{file:.+}/dispatch', dispatch),
        site.get('/{owner}/{repo}/actions/workflows/{file:.+}', runs_of_workflow)]
