"""Runners of a repository and of an organisation: each that has claimed."""
from __future__ import annotations

from typing import Any

from aiohttp import web

from ..access.identity import Identity, Right, require
from ..service.models import Runner
from .api import Api
from .errors import Fault
from .numbers import decimal, number_of
from .pages import Page

ONLINE_SECONDS = 60
NOT_REGISTERED = ('A runner is not registered by the API: make a token with acts-hub token, '
                  'and start acts-runner with it.')


NOT_REMOVED = 'This version of the service keeps the names of runners for ever.'
OF_ALL = 'A runner is of no one repository: this needs an admin token for all of them.'
HAS_LEASE = 42


class RunnerRequests:
    """Requests for runners."""

    def __init__(self, api: Api) -> None:
        self.api, self.hub = api, api.hub

    def routes(self) -> list[web.RouteDef]:
        """Their routes."""
        get, on = self.api.get, self.api.on
        return [get('/actions/runners', self.of_repository), get('/actions/runners/{runner:[0-9]+}', self.one),
                get('/actions/runners/{runner:[0-9]+}/labels', self.labels),
                self.api.top('/orgs/{org}/actions/runners', self.of_organisation),
                on('DELETE', '/actions/runners/{runner:[0-9]+}', self.remove),
                self.api.act('DELETE', '/orgs/{org}/actions/runners/{runner:[0-9]+}', self.remove_of_organisation),
                on('POST', '/actions/runners/{kind:registration-token|remove-token|generate-jitconfig}', self.register)]

    async def of_repository(self, request: web.Request) -> web.Response:
        """The runners of a repository, by `name` if it is given."""
        self.api.repository(request)
        return await self.listed(request)

    async def of_organisation(self, request: web.Request) -> web.Response:
        """The runners of an organisation of which one may read a repository."""
        identity = require(request, Right.READ)
        owner = request.match_info['org'].lower()
        if not any(name.partition('/')[0].lower() == owner for name in self.api.repositories(identity)):
            raise Fault(404)
        return await self.listed(request)

    async def listed(self, request: web.Request) -> web.Response:
        """A page of runners."""
        page, name = Page.of(request.query), request.query.get('name')
        found = [one for one in await self.runners() if name in (None, '', one.name)]
        return self.api.some(request, page, 'runners', [self.shape(one) for one in page.cut(found)], len(found))

    async def runners(self) -> list[Runner]:
        """All runners."""
        return await self.hub.mirror.runners()

    def shape(self, one: Runner) -> dict[str, Any]:
        """A runner; one counts as online that was heard within a minute."""
        is_online = one.heard_seconds_ago is not None and one.heard_seconds_ago < ONLINE_SECONDS
        return self.api.shapes.runner(one.name, one.labels, is_online, one.lease is not None)

    async def remove(self, request: web.Request) -> web.Response:
        """Discharges a runner that runs no job."""
        _, identity = self.api.writable(request, Right.ADMIN)
        return await self.removed(request, identity)

    async def remove_of_organisation(self, request: web.Request) -> web.Response:
        """The same, below an organisation."""
        return await self.removed(request, self.api.acting(require(request, Right.ADMIN)))

    async def removed(self, request: web.Request, identity: Identity) -> web.Response:
        """204 once the service knows the runner no more. A runner is of no one repository, so a token for all is needed."""
        if not identity.may(Right.ADMIN):
            raise Fault(403, OF_ALL)
        gateway = self.api.gateway
        if gateway is None:
            raise Fault(404)
        runner = await self.of_number(request)
        reply = await self.api.newer(gateway.leaving.discharge(runner.name), NOT_REMOVED)
        if reply.refusal == HAS_LEASE:
            raise Fault(422, f'Runner "{runner.name}" is currently running a job and cannot be deleted.')
        if not reply.ok:
            raise Fault(503, f'The service refuses: {reply.sentence}.')
        return web.Response(status=204)

    async def named(self, request: web.Request) -> Runner:
        """The runner of an address."""
        self.api.repository(request)
        return await self.of_number(request)

    async def of_number(self, request: web.Request) -> Runner:
        """The runner of this number."""
        number = decimal(request.match_info['runner'])
        found = next((one for one in await self.runners() if number_of('runner', one.name) == number), None)
        if found is None:
            raise Fault(404)
        return found

    async def one(self, request: web.Request) -> web.Response:
        """A runner."""
        return self.api.answer(request, self.shape(await self.named(request)))

    async def labels(self, request: web.Request) -> web.Response:
        """The labels of a runner."""
        found = await self.named(request)
        return self.api.listed(request, 'labels', [self.api.shapes.label(label) for label in found.labels or ()])

    async def register(self, request: web.Request) -> web.Response:
        """Says how runners are registered here."""
        self.api.writable(request, Right.ADMIN)
        raise Fault(422, NOT_REGISTERED)
