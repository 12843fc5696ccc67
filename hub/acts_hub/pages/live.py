"""Changes as they come, for pages that are open: server-sent events."""
from __future__ import annotations

import asyncio
import json
from collections import Counter
from collections.abc import AsyncIterator, Callable
from contextlib import asynccontextmanager

from aiohttp import web

from ..access.identity import Right, require
from .site import HEADERS, Site, number_of

MOST_STREAMS, MOST_OF_A_TOKEN = 2_000, 200
BEAT, LIFE, SLOW = 15, 600, 20  # seconds: between two signs of life, of a stream, and for one message
MOST_IDS = 100


class Stream:
    """A stream of events to one client."""

    def __init__(self, response: web.StreamResponse) -> None:
        self.response = response
        self.until = asyncio.get_running_loop().time() + LIFE

    @property
    def is_old(self) -> bool:
        """Whether the client has to come again, so that its rights are looked at again."""
        return asyncio.get_running_loop().time() > self.until

    async def send(self, event: str, data: str, id: str = '') -> None:
        """Sends an event. A client that does not take it in time is left."""
        head = f'id: {id}\n' if id else ''
        await asyncio.wait_for(self.response.write(f'{head}event: {event}\ndata: {data}\n\n'.encode()), SLOW)

    async def beat(self) -> None:
        """A sign of life."""
        await asyncio.wait_for(self.response.write(b':\n\n'), SLOW)


@asynccontextmanager
async def stream_of(site: Site, request: web.Request) -> AsyncIterator[Stream]:
    """A stream that has begun. When it ends for whatever reason, the client connects again by itself."""
    identity = require(request, Right.READ)
    if site.streams.total() >= MOST_STREAMS or site.streams[identity.token_id] >= MOST_OF_A_TOKEN:
        raise web.HTTPServiceUnavailable(text='Too many pages are open.')
    site.streams[identity.token_id] += 1
    try:
        response = web.StreamResponse(headers={**HEADERS, 'Content-Type': 'text/event-stream; charset=utf-8',
                                               'X-Accel-Buffering': 'no'})
        await response.prepare(request)
        await response.write(b'retry: 1000\n\n')
        yield Stream(response)
    finally:
        site.streams[identity.token_id] -= 1
        site.streams += Counter()  # forgets those without streams


def wanted_of(site: Site, request: web.Request) -> Callable[[int], bool]:
    """Which changed runs a page is about, of those that who asks may read."""
    run, repository = number_of(request.query, 'run'), request.query.get('repository', '')
    runs = site.hub.mirror.runs
    if run is not None:
        known = runs.get(run)
        if known is None:
            raise web.HTTPNotFound
        require(request, Right.READ, known.row.repository)
        return lambda changed: changed == run
    if repository:
        require(request, Right.READ, repository)
        name = repository.lower()
        return lambda changed: changed in runs and runs[changed].row.repository.lower() == name
    identity = require(request, Right.READ)
    return lambda changed: changed in runs and identity.may(Right.READ, runs[changed].row.repository)


async def changes(site: Site, request: web.Request) -> web.StreamResponse:
    """The runs that change, of one run, of a repository, or of all that one may read."""
    wanted = wanted_of(site, request)
    async with site.hub.mirror.watch() as watcher, stream_of(site, request) as stream:
        waiting = asyncio.ensure_future(watcher.next())
        try:
            while not stream.is_old:
                done, _ = await asyncio.wait({waiting}, timeout=BEAT)
                if not done:
                    await stream.beat()
                    continue
                changed = [run for run in waiting.result() if wanted(run)]
                waiting = asyncio.ensure_future(watcher.next())
                if changed:
                    await stream.send('changed', json.dumps(sorted(changed)[-MOST_IDS:]))
        except (ConnectionError, asyncio.TimeoutError):
            pass
        finally:
            waiting.cancel()
        return stream.response


def routes(site: Site) -> list[web.RouteDef]:
    """Where pages listen."""
    return [site.stream('/-/changes', changes)]
