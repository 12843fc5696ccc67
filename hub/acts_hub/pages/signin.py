"""Signing in with a token, and out."""
from __future__ import annotations

from aiohttp import web

from ..access.identity import identity_of
from .site import Site, local

WRONG = 'That is no token of this hub, or it was revoked.'


async def sign_in_page(site: Site, request: web.Request) -> web.StreamResponse:
    """The form for a token."""
    if identity_of(request) is not None:
        raise web.HTTPSeeOther(local(request.query.get('back', '/')))
    return _form(site, request, local(request.query.get('back', '/')), '', 200)


def _form(site: Site, request: web.Request, back: str, fault: str, status: int) -> web.Response:
    return site.page(request, 'signin.html', status, title='Sign in', back=back, fault=fault)


async def sign_in(site: Site, request: web.Request) -> web.StreamResponse:
    """Takes a token, and gives the browser a cookie."""
    sent = await request.post()
    back, secret = local(sent.get('back')), sent.get('token')
    answer = web.Response(status=303, headers={'Location': back})
    try:
        identity = site.hub.access.sign_in(request, answer, secret if isinstance(secret, str) else '')
    except web.HTTPTooManyRequests as fault:
        return _form(site, request, back, fault.text or '', 429)
    return answer if identity is not None else _form(site, request, back, WRONG, 401)


async def sign_out(site: Site, request: web.Request) -> web.StreamResponse:
    """Ends the session of this browser."""
    answer = web.Response(status=303, headers={'Location': '/sign-in'})
    site.hub.access.sign_out(request, answer)
    return answer


def routes(site: Site) -> list[web.RouteDef]:
    """Sign-in and sign-out."""
    return [site.get('/sign-in', sign_in_page), site.post('/sign-in', sign_in), site.post('/sign-out', sign_out)]
