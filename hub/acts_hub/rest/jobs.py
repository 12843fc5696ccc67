"""Jobs: lists, one, and logs."""
from __future__ import annotations

import asyncio
from collections.abc import Sequence
from typing import Any

from aiohttp import web

from ..service.mirror import Run
from .api import Api
from .archives import PIECE, archive_of, has_log, log_of, next_piece
from .errors import Fault
from .legs import JobView
from .numbers import decimal
from .pages import Page

MAX_ARCHIVES = 4  # that are made at a time
NO_LOG = 'There is no log of it: nothing was sent, or it was kept for its time.'


class JobRequests:
    """Requests for jobs and logs."""

    def __init__(self, api: Api) -> None:
        self.api, self.hub = api, api.hub
        self.archives = asyncio.Semaphore(MAX_ARCHIVES)

    def routes(self) -> list[web.RouteDef]:
        """Their routes."""
        get = self.api.get
        return [get('/actions/runs/{run}/jobs', self.of_run),
                get('/actions/runs/{run}/attempts/{attempt}/jobs', self.of_attempt),
                get('/actions/jobs/{job}', self.one), get('/actions/jobs/{job}/logs', self.log),
                get('/actions/runs/{run}/logs', self.logs),
                get('/actions/runs/{run}/attempts/{attempt}/logs', self.logs),
                self.api.on('DELETE', '/actions/runs/{run}/logs', self.drop_logs),
                self.api.download('/jobs/{job}', self.download_log),
                self.api.download('/runs/{run}/{attempt}', self.download_logs)]

    # objects

    async def of_run(self, request: web.Request) -> web.Response:
        """The jobs of a run: of its present attempt, or with `filter=all` of all attempts that are known."""
        run = self.api.run(request, self.api.repository(request))
        chosen = request.query.get('filter', 'latest')
        if chosen not in ('latest', 'all'):
            raise Fault(422, 'filter is latest or all.')
        views = await self.api.jobs(run) if chosen == 'latest' else await self.all(run)
        return await self.listed(request, run, views)

    async def all(self, run: Run) -> list[JobView]:
        """The jobs of all attempts that are known."""
        views: list[JobView] = []
        for attempt in range(1, run.row.attempt):
            try:
                views += await self.api.jobs(run, attempt)
            except Fault:
                continue
            await asyncio.sleep(0)
        return views + await self.api.jobs(run)

    async def of_attempt(self, request: web.Request) -> web.Response:
        """The jobs of an attempt."""
        run = self.api.run(request, self.api.repository(request))
        return await self.listed(request, run, await self.api.jobs(run, self.attempt_of(request)))

    def attempt_of(self, request: web.Request) -> int | None:
        """The attempt of an address; None if it names none."""
        text = request.match_info.get('attempt')
        if text is None:
            return None
        number = decimal(text)
        if number is None:
            raise Fault(404)
        return number

    async def listed(self, request: web.Request, run: Run, views: Sequence[JobView]) -> web.Response:
        """A page of jobs; the steps of each are in a file."""
        page = Page.of(request.query)
        cut = await asyncio.to_thread(lambda: [self.shape(run, view) for view in page.cut(views)])
        return self.api.some(request, page, 'jobs', cut, len(views))

    async def one(self, request: web.Request) -> web.Response:
        """A job."""
        run, view = await self.api.job(request, self.api.repository(request))
        return self.api.answer(request, self.shape(run, view))

    def shape(self, run: Run, view: JobView) -> dict[str, Any]:
        """A job with its steps, as the runner marked them in its log."""
        steps = []
        if view.lease is not None:
            for mark in self.hub.logs.steps(view.number.run, view.number.attempt, view.id, view.number.leg, view.lease):
                outcome = mark.outcome or (view.conclusion if view.status == 'completed' else None)
                status = 'completed' if outcome else 'in_progress'
                ended = mark.ended_at if mark.ended_at is not None or outcome is None else view.completed_at
                steps.append(self.api.shapes.step(mark.number, mark.name, status, outcome, mark.started_at, ended))
        return self.api.shapes.job(run, view, steps)

    # logs

    async def log(self, request: web.Request) -> web.StreamResponse:
        """The log of a job: a redirect to an address that holds for a minute."""
        _, view = await self.api.job(request, self.api.repository(request))
        if not has_log(self.hub.logs, view):
            raise Fault(404, NO_LOG)
        return self.api.redirect(f'/jobs/{view.value}')

    async def logs(self, request: web.Request) -> web.StreamResponse:
        """The ZIP of a run's logs: a redirect to an address that holds for a minute."""
        run = self.api.run(request, self.api.repository(request))
        attempt = self.attempt_of(request)
        views = await self.api.jobs(run, attempt)
        if not await asyncio.to_thread(lambda: any(has_log(self.hub.logs, view) for view in views)):
            raise Fault(404, NO_LOG)
        return self.api.redirect(f'/runs/{run.row.run}/{attempt or run.row.attempt}')

    async def download_log(self, request: web.Request) -> web.StreamResponse:
        """The text of a job's log."""
        self.api.signed(request)
        _, view = await self.api.job_of(decimal(request.match_info['job']))
        answer = web.StreamResponse(headers={'Content-Type': 'text/plain; charset=utf-8'})
        self.api.mark(request, answer)
        await answer.prepare(request)
        pieces = log_of(self.hub.logs, view)
        while piece := await asyncio.to_thread(next_piece, pieces):
            await answer.write(piece)
        await answer.write_eof()
        return answer

    async def download_logs(self, request: web.Request) -> web.StreamResponse:
        """The ZIP of a run's logs."""
        self.api.signed(request)
        run = self.hub.mirror.runs.get(decimal(request.match_info['run']) or 0)
        if run is None:
            raise Fault(404)
        views = await self.api.jobs(run, self.attempt_of(request))
        async with self.archives:
            try:
                file = await asyncio.to_thread(archive_of, self.hub.logs, views)
            except OSError as fault:
                raise Fault(503, f'The logs can not be put together: {fault.strerror}.') from None
        if file is None:
            raise Fault(404, NO_LOG)
        with file:
            answer = web.StreamResponse(headers={
                'Content-Type': 'application/zip',
                'Content-Disposition': f'attachment; filename="logs_{run.row.run}.zip"'})
            self.api.mark(request, answer)
            await answer.prepare(request)
            while piece := await asyncio.to_thread(file.read, PIECE):
                await answer.write(piece)
            await answer.write_eof()
        return answer

    async def drop_logs(self, request: web.Request) -> web.Response:
        """Removes the logs of a run that has completed."""
        repository, _ = self.api.writable(request)
        run = self.api.run(request, repository)
        if run.row.status != 'completed':
            raise Fault(409, 'The logs of a run that has not completed are not removed.')
        await asyncio.to_thread(self.hub.logs.drop, run.row.run)
        return web.Response(status=204)
