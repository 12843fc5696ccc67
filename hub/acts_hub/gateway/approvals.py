"""GitHub's REST of approvals: `GET` and `POST /repos/OWNER/REPO/actions/runs/ID/pending_deployments`."""
from __future__ import annotations

from typing import TYPE_CHECKING, Any

from aiohttp import web

from ..access.identity import Identity, Right, require
from ..service.models import Whole
from .environments import Environments

if TYPE_CHECKING:
    from ..hub import Hub

RUN = '/api/v3/repos/{owner}/{repo}/actions/runs/{run}'
MAX_COMMENT = 1000


class Approvals:
    """Requests about approvals."""

    def __init__(self, hub: Hub, environments: Environments) -> None:
        self.hub, self.environments = hub, environments

    def routes(self) -> list[web.RouteDef]:
        """The routes."""
        return [web.get(RUN + '/pending_deployments', self.pending, allow_head=False),
                web.post(RUN + '/pending_deployments', self.review),
                web.get(RUN + '/approvals', self.given, allow_head=False)]

    async def run(self, request: web.Request, right: Right) -> tuple[Identity, Whole]:
        """The run of an address, for somebody who may."""
        repository = f'{request.match_info["owner"]}/{request.match_info["repo"]}'
        identity = require(request, right, repository)
        text = request.match_info['run']
        is_number = text.isascii() and text.isdecimal() and 0 < len(text) < 10
        whole = await self.hub.view.run(int(text)) if is_number else None
        if whole is None or whole.row.repository.lower() != repository.lower():
            raise web.HTTPNotFound(text='Not Found')
        return identity, whole

    async def pending(self, request: web.Request) -> web.Response:
        """The jobs that wait for an approval, each as GitHub writes an environment that does."""
        identity, whole = await self.run(request, Right.READ)
        approved = self.environments.is_approved(whole.row.run, whole.row.attempt)
        names = [] if approved else self.environments.waiting(whole)
        may = identity.may(Right.WRITE, whole.row.repository)
        return web.json_response([{'environment': {'id': whole.row.run, 'name': name}, 'wait_timer': 0,
                                   'wait_timer_started_at': None, 'current_user_can_approve': may, 'reviewers': []}
                                  for name in names])

    async def given(self, request: web.Request) -> web.Response:
        """Who has approved the present attempt."""
        _, whole = await self.run(request, Right.READ)
        found = self.environments.approvals(whole.row.run, whole.row.attempt)
        return web.json_response([{'state': 'approved', 'comment': one['comment'], 'user': {'login': one['by']},
                                   'environments': []} for one in found])

    async def review(self, request: web.Request) -> web.Response:
        """Approves the present attempt, or rejects it, which cancels the run."""
        identity, whole = await self.run(request, Right.WRITE)
        if identity.is_browser:
            raise web.HTTPForbidden(text='This needs a token in the field Authorization: the page has a button.')
        try:
            said: Any = await request.json()
        except (ValueError, RecursionError):
            raise web.HTTPBadRequest(text='Problems parsing JSON') from None
        state = said.get('state') if isinstance(said, dict) else None
        comment = said.get('comment', '') if isinstance(said, dict) else ''
        if state not in ('approved', 'rejected') or not isinstance(comment, str) or len(comment) > MAX_COMMENT:
            raise web.HTTPUnprocessableEntity(text='state is "approved" or "rejected", and comment a text')
        if not self.environments.waiting(whole):
            raise web.HTTPUnprocessableEntity(text='the run has no job that waits for an approval')
        await self.settle(whole, identity, state == 'approved', comment)
        return web.json_response([])

    async def settle(self, whole: Whole, identity: Identity, approved: bool, comment: str = '') -> None:
        """Approves an attempt, or cancels its run. Who may is for the caller to see to."""
        if approved:
            self.environments.approve(whole.row.run, whole.row.attempt, identity, comment)
        else:
            await self.hub.hooks.cancel(whole.row.run)
