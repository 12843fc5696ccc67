"""Runs: lists, one, its attempts, its time, and what is done with it."""
from __future__ import annotations

from collections.abc import Sequence

from aiohttp import web

from ..service.hooks import Reply
from ..service.mirror import Run

from .api import Api
from .errors import Fault
from .filters import runs_of
from .numbers import decimal
from .pages import Page

FAILED = (46, 47, 50, 51, 52, 60)  # refusals that are of no request
NOT_AGAIN = 'The service runs a whole run again; it can not yet run its failed jobs alone.'
NOT_ONE = 'The service runs a whole run again; it can not run one job again.'
NO_DEBUG = 'Debug logging can not be turned on for a re-run: set ACTIONS_STEP_DEBUG where the runner runs.'
NOT_FORCED = 'The service can not yet end a run whatever its runners do; cancel asks them to stop.'


class RunRequests:
    """Requests for runs."""

    def __init__(self, api: Api) -> None:
        self.api, self.hub = api, api.hub

    def routes(self) -> list[web.RouteDef]:
        """Their routes."""
        get, on = self.api.get, self.api.on
        return [get('/actions/runs', self.of_repository), get('/actions/runs/{run}', self.one),
                get('/actions/runs/{run}/attempts/{attempt}', self.attempt),
                get('/actions/runs/{run}/timing', self.timing),
                get('/actions/workflows/{workflow}/runs', self.of_workflow),
                on('POST', '/actions/runs/{run}/cancel', self.cancel),
                on('POST', '/actions/runs/{run}/force-cancel', self.force_cancel),
                on('POST', '/actions/runs/{run}/rerun', self.rerun),
                on('POST', '/actions/runs/{run}/rerun-failed-jobs', self.rerun_failed),
                on('POST', '/actions/jobs/{job}/rerun', self.rerun_job),
                on('DELETE', '/actions/runs/{run}', self.delete)]

    # what is read

    async def of_repository(self, request: web.Request) -> web.Response:
        """The runs of a repository."""
        return self.listed(request, self.api.repository(request))

    async def of_workflow(self, request: web.Request) -> web.Response:
        """The runs of a workflow."""
        repository = self.api.repository(request)
        return self.listed(request, repository, self.api.workflow(request, repository).path)

    def listed(self, request: web.Request, repository: str, path: str | None = None) -> web.Response:
        """A page of runs, newest first; its tag is that of the version of the mirror."""
        page = Page.of(request.query)
        tag = self.api.version_tag()
        runs = runs_of(self.hub.mirror, repository, request.query, path)
        return self.api.not_modified(request, tag) or self.api.page(
            request, page, 'workflow_runs', self.texts(request, page.newest(runs)), len(runs), tag)

    def texts(self, request: web.Request, runs: Sequence[Run]) -> list[str]:
        """The texts of runs."""
        with_pulls = request.query.get('exclude_pull_requests') != 'true'
        return [self.api.rows.of(run, with_pulls) for run in runs]

    async def one(self, request: web.Request) -> web.Response:
        """A run."""
        run = self.api.run(request, self.api.repository(request))
        return self.api.text(request, self.texts(request, [run])[0])

    async def attempt(self, request: web.Request) -> web.Response:
        """A run as an attempt of it was."""
        run = self.api.run(request, self.api.repository(request))
        found = self.api.attempt(run, decimal(request.match_info['attempt']))
        if found.row.attempt == run.row.attempt:
            return self.api.text(request, self.texts(request, [run])[0])
        return self.api.answer(request, self.api.shapes.run(found))

    async def timing(self, request: web.Request) -> web.Response:
        """How long a run took; nothing is billed here."""
        run = self.api.run(request, self.api.repository(request))
        end = run.completed_at if run.completed_at is not None else run.updated_at
        return self.api.answer(request, {'billable': {}, 'run_duration_ms': max(0, end - run.started_at)})

    # what is done

    async def cancel(self, request: web.Request) -> web.Response:
        """Cancels a run: its runners are asked to stop."""
        repository, identity = self.api.writable(request)
        run = self.api.run(request, repository)
        reply = await self.hub.hooks.cancel(run.row.run)
        if not reply.ok:
            raise self.refused(reply, 'Cannot cancel a workflow run that is completed.')
        self.hub.notes.set(run.row.run, run.row.attempt, 'cancelled', 'by', identity.name)
        return self.api.answer(request, {}, 202)

    async def force_cancel(self, request: web.Request) -> web.Response:
        """Ends a run whatever its runners do, once the service can."""
        repository, _ = self.api.writable(request)
        run = self.api.run(request, repository)
        reply = await self.api.newer(self.hub.hooks.force(run.row.run), NOT_FORCED)
        if not reply.ok:
            raise self.refused(reply, 'Cannot cancel a workflow run that is completed.')
        return self.api.answer(request, {}, 202)

    async def rerun(self, request: web.Request) -> web.Response:
        """Runs a completed run again."""
        return await self.again(request, failed=False)

    async def rerun_failed(self, request: web.Request) -> web.Response:
        """Runs the failed jobs of a completed run again, once the service can."""
        return await self.again(request, failed=True)

    async def again(self, request: web.Request, failed: bool) -> web.Response:
        """Begins the next attempt of a run."""
        repository, identity = self.api.writable(request)
        run = self.api.run(request, repository)
        if (await self.api.body(request)).get('enable_debug_logging'):
            raise Fault(422, NO_DEBUG)
        if run.row.status != 'completed':
            raise Fault(403, 'This workflow is already running')
        attempt = run.row.attempt + 1
        await self.hub.mirror.keep(run.row.run)
        if failed:
            reply = await self.api.newer(self.hub.hooks.retry(run.row.run, attempt), NOT_AGAIN)
        else:
            reply = await self.hub.hooks.rerun(run.row.run, attempt)
        if not reply.ok:
            raise self.refused(reply, 'This workflow is already running')
        self.hub.mirror.note_actor(run.row.run, attempt, identity.name)
        await self.hub.mirror.settled(lambda: self.at_attempt(run.row.run) >= attempt)
        return self.api.answer(request, {}, 201)

    def at_attempt(self, number: int) -> int:
        """The present attempt of a run."""
        run = self.hub.mirror.runs.get(number)
        return run.row.attempt if run else 0

    async def rerun_job(self, request: web.Request) -> web.Response:
        """Says that one job alone is not run again."""
        repository, _ = self.api.writable(request)
        await self.api.job(request, repository)
        raise Fault(422, NOT_ONE)

    async def delete(self, request: web.Request) -> web.Response:
        """Says who forgets runs."""
        repository, _ = self.api.writable(request)
        self.api.run(request, repository)
        raise Fault(422, 'A run is not deleted here: how long runs are kept is for the service to say.')

    def refused(self, reply: Reply, completed: str) -> Fault:
        """The error of a command that the service refuses."""
        if reply.refusal == 40:
            return Fault(404)
        if reply.refusal == 41:
            return Fault(409, completed)
        if reply.refusal in (43, 49):
            return Fault(403, completed)
        words = f'The service refuses: {reply.sentence}.'
        return Fault(503 if reply.refusal in FAILED or reply.status >= 500 else 422, words)
