"""What holds for each request: who asks, forms, and security headers."""
from __future__ import annotations

from collections.abc import Awaitable, Callable

from aiohttp import web

Handler = Callable[[web.Request], Awaitable[web.StreamResponse]]

HEADERS = {
    'X-Content-Type-Options': 'nosniff',
    'Referrer-Policy': 'same-origin',
    'Content-Security-Policy': "default-src 'none'; script-src 'self'; style-src 'self'; img-src 'self' data:; connect-src 'self'; font-src 'self'; "
                               "form-action 'self'; base-uri 'none'; frame-ancestors 'none'",
    'X-Frame-Options': 'DENY',
    'Cross-Origin-Opener-Policy': 'same-origin',
    'Cross-Origin-Resource-Policy': 'same-origin',
}
TLS = {'Strict-Transport-Security': 'max-age=31536000'}


@web.middleware
async def identify(request: web.Request, handler: Handler) -> web.StreamResponse:
    """Says whose request it is: `request['identity']` is an Identity or None. A browser's request to act has to carry its form's token."""
    access = request.app['hub'].access
    request['identity'] = access.identify(request)
    await access.check(request)
    return await handler(request)


async def secure(request: web.Request, response: web.StreamResponse) -> None:
    """Adds the security headers."""
    for name, value in HEADERS.items():
        response.headers.setdefault(name, value)
    if request.app['hub'].config.is_secure:
        response.headers.setdefault('Strict-Transport-Security', TLS['Strict-Transport-Security'])
    if request.get('identity') is not None:
        response.headers.setdefault('Cache-Control', 'private, no-cache')
