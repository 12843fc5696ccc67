"""Checks and statuses of commits."""
from __future__ import annotations

from collections.abc import Sequence
from typing import Any

from aiohttp import web

from ..service.mirror import Run
from .api import Api
from .commits import commit_of, latest_at
from .conclusions import combined_state
from .errors import Fault
from .legs import JobView
from .pages import Page

MAX_REFUSED = 200
NO_COMMIT = 'No run of this commit is known.'


class CheckRequests:
    """Requests for checks and statuses."""

    def __init__(self, api: Api) -> None:
        self.api, self.hub = api, api.hub

    def routes(self) -> list[web.RouteDef]:
        """Their routes."""
        get = self.api.get
        return [get('/commits/{ref:.+}/check-runs', self.checks), get('/commits/{ref:.+}/check-suites', self.suites),
                get('/commits/{ref:.+}/status', self.combined), get('/commits/{ref:.+}/statuses', self.statuses),
                get('/statuses/{ref:.+}', self.statuses), get('/check-runs/{job}', self.one),
                get('/check-runs/{job}/annotations', self.annotations),
                get('/check-suites/{run}', self.suite), get('/check-suites/{run}/check-runs', self.of_suite)]

    # what a commit has

    def runs_at(self, repository: str, ref: str) -> tuple[str, list[Run]]:
        """A commit, and the latest run of each workflow and event at it; of a branch that of its latest run."""
        sha = commit_of(self.hub.mirror, repository, ref)
        runs = latest_at(self.hub.mirror, repository, sha) if sha else []
        if not sha or not runs:
            raise Fault(404, NO_COMMIT)
        return sha, runs

    async def checks(self, request: web.Request) -> web.Response:
        """The check runs of a commit."""
        repository = self.api.repository(request)
        _, runs = self.runs_at(repository, request.match_info['ref'])
        return await self.listed(request, runs)

    async def of_suite(self, request: web.Request) -> web.Response:
        """The check runs of a suite."""
        return await self.listed(request, [self.api.run(request, self.api.repository(request))])

    async def listed(self, request: web.Request, runs: Sequence[Run]) -> web.Response:
        """A page of the check runs of these runs, by `check_name` and `status` if they are given."""
        page = Page.of(request.query)
        name, status = request.query.get('check_name'), request.query.get('status')
        found = [(run, view) for run in runs for view in await self.api.jobs(run)
                 if (not name or view.name == name) and (not status or view.status == status)]
        shapes = [self.shape(run, view) for run, view in page.cut(found)]
        return self.api.some(request, page, 'check_runs', shapes, len(found))

    def shape(self, run: Run, view: JobView) -> dict[str, Any]:
        """A job as a check run."""
        return self.api.shapes.check_run(run, view, len(self.notes(view)))

    def notes(self, view: JobView) -> list[dict[str, Any]]:
        """The annotations of a job."""
        number, gateway = view.number, self.api.gateway
        return gateway.findings.annotations(number.run, number.attempt, view.id, number.leg) if gateway else []

    async def suites(self, request: web.Request) -> web.Response:
        """The check suites of a commit: its runs."""
        _, runs = self.runs_at(self.api.repository(request), request.match_info['ref'])
        page = Page.of(request.query)
        shapes = [self.api.shapes.check_suite(run, len(await self.api.jobs(run))) for run in page.cut(runs)]
        return self.api.some(request, page, 'check_suites', shapes, len(runs))

    async def suite(self, request: web.Request) -> web.Response:
        """A check suite."""
        run = self.api.run(request, self.api.repository(request))
        return self.api.answer(request, self.api.shapes.check_suite(run, len(await self.api.jobs(run))))

    # one check

    async def one(self, request: web.Request) -> web.Response:
        """A check run."""
        run, view = await self.api.job(request, self.api.repository(request))
        return self.api.answer(request, self.shape(run, view))

    async def annotations(self, request: web.Request) -> web.Response:
        """What the steps of a job said with `::error::` and the like."""
        _, view = await self.api.job(request, self.api.repository(request))
        return self.api.listed(request, '', [self.api.shapes.annotation(one) for one in self.notes(view)])

    # statuses

    def states_at(self, repository: str, ref: str) -> tuple[str, list[dict[str, Any]]]:
        """A commit and its statuses, newest first: of the latest run of each context, and of what was refused since."""
        sha = commit_of(self.hub.mirror, repository, ref)
        if sha is None:
            raise Fault(404, NO_COMMIT)
        runs = latest_at(self.hub.mirror, repository, sha)
        seen = {(run.row.path, run.row.event): run.created_at for run in runs}
        states = [self.api.shapes.status(run) for run in runs]
        for one in self.hub.refused.list(repository, MAX_REFUSED):
            key = one.path or '', one.event
            if one.sha == sha and one.at >= seen.get(key, -1):
                seen[key] = one.at + 1
                states.append(self.api.shapes.refused_status(one))
        if not states:
            raise Fault(404, NO_COMMIT)
        newest = {state['context']: state for state in sorted(states, key=lambda state: str(state['created_at']))}
        return sha, list(newest.values())[::-1]

    async def combined(self, request: web.Request) -> web.Response:
        """The state of a commit."""
        repository = self.api.repository(request)
        page = Page.of(request.query)
        sha, states = self.states_at(repository, request.match_info['ref'])
        return self.api.answer(request, {
            'state': combined_state(state['state'] for state in states), 'statuses': list(page.cut(states)), 'sha': sha,
            'total_count': len(states), 'repository': self.api.shapes.repository(repository),
            'commit_url': self.api.shapes.at(repository, f'commits/{sha}'),
            'url': self.api.shapes.at(repository, f'commits/{sha}/status')})

    async def statuses(self, request: web.Request) -> web.Response:
        """The statuses of a commit, newest first."""
        _, states = self.states_at(self.api.repository(request), request.match_info['ref'])
        return self.api.listed(request, '', states)
