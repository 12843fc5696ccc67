"""At which line of its file something of a run's workflow is: asked by a runner that refuses it."""
from __future__ import annotations

import json
from collections.abc import Awaitable, Callable
from typing import TYPE_CHECKING

from aiohttp import web

from ..events.mirrors import GitFault, NoCommit, TooSlow
from ..events.occasions import at
from ..events.refusals import line_in
from .leases import Lease
from .legs import Legs

if TYPE_CHECKING:
    from ..events.intake import Events

LONGEST_PLACE = 1000
FAULTS = GitFault, NoCommit, TooSlow, OSError, ValueError


class Places:
    """Requests about places, such as `jobs.build.steps[2].uses`."""

    def __init__(self, legs: Legs, body: Callable[[int], Awaitable[bytes | None]], events: Events) -> None:
        self.legs, self.body, self.events = legs, body, events

    async def find(self, request: web.Request) -> web.Response:
        """The line, from 1; null where the mirror does not have the file."""
        lease = await self.legs.leg(request)
        place = request.query.get('place', '')
        if not 0 < len(place) <= LONGEST_PLACE:
            raise web.HTTPBadRequest(text='place names a member, such as jobs.build.steps[2].uses')
        try:
            return web.json_response({'line': await self.line(lease, place)})
        except FAULTS:
            return web.json_response({'line': None})

    async def line(self, lease: Lease, place: str) -> int | None:
        """The line in the workflow of the commit that the run was made from."""
        body = json.loads(await self.body(lease.run) or b'null')
        path, commit = at(body, 'path'), at(body, 'github', 'workflow_sha')
        repository = self.events.settings.repository(lease.repository)
        mirror = self.events.handler.mirror(repository) if repository else None
        if mirror is None or not isinstance(path, str) or not isinstance(commit, str):
            return None
        return line_in(await mirror.texts(await mirror.commit(commit)), path, place)
