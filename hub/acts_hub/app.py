"""The web application: routes of all parts, and what holds for each request."""
from __future__ import annotations

import traceback
from typing import TYPE_CHECKING

from aiohttp import web

from . import events, gateway, graphql, metrics, pages, rest
from .access.middleware import identify, secure
from .log import say
from .rest.errors import DOCUMENTATION
from .service.http import Away

if TYPE_CHECKING:
    from .access.middleware import Handler
    from .hub import Hub

MAX_BODY = 1 << 20


@web.middleware
async def faults(request: web.Request, handler: Handler) -> web.StreamResponse:
    """Answers faults in the form that the client reads."""
    try:
        return await handler(request)
    except web.HTTPException as fault:
        if fault.status < 400:
            raise
        return fault_answer(request, fault.status, fault.text or fault.reason, dict(fault.headers))
    except Away as fault:
        return fault_answer(request, 503, str(fault), {'Retry-After': '2'})
    except ConnectionError:
        raise
    except Exception as fault:
        say(f'{request.method} {request.path} fails: {fault!r} {traceback.format_exc(limit=-3)}')
        return fault_answer(request, 500, 'The hub has a fault. Its log says more.', {})


def fault_answer(request: web.Request, status: int, words: str, headers: dict[str, str]) -> web.Response:
    """JSON below /api, a page for a browser, else text."""
    kept = {name: value for name, value in headers.items() if name.lower() not in ('content-type', 'content-length')}
    if request.path.startswith('/api'):
        return web.json_response({'message': words, 'documentation_url': DOCUMENTATION}, status=status, headers=kept)
    page = request.app['hub'].fault_page
    if page is not None and request.method in ('GET', 'POST') and 'text/html' in request.headers.get('Accept', '') and not request.path.startswith('/runner/'):
        made: web.Response = page(request, status, words)
        made.headers.update(kept)
        return made
    return web.Response(text=words + '\n', status=status, headers=kept)


async def healthz(request: web.Request) -> web.Response:
    """Whether the hub is well: `ok` on the first line; the others say what it goes on without."""
    hub: Hub = request.app['hub']
    lines = ['ok', *(words for words in (hub.database.fault, hub.mirror.fault) if words is not None)]
    if hub.database.dropped:
        lines.append(f'{hub.database.dropped} writes to the ledger were left out')
    if not hub.mirror.is_whole:
        lines.append('the runs are being listed')
    return web.Response(text=''.join(f'{line}\n' for line in lines), headers={'Cache-Control': 'no-store'})


def make_app(hub: Hub) -> web.Application:
    """The application of a hub."""
    app = web.Application(middlewares=[faults, identify], client_max_size=MAX_BODY)
    app['hub'] = hub
    app.on_response_prepare.append(secure)
    app.add_routes([web.get('/healthz', healthz)])
    metrics.add(app)
    for part in events, gateway, graphql, rest, pages:
        app.add_routes(part.routes(hub))
    return app
