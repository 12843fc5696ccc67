"""Who asks, and what they may."""
from __future__ import annotations

from aiohttp import web

from .rights import PATTERN, Identity, Right, matches

__all__ = ['PATTERN', 'Identity', 'Right', 'identity_of', 'matches', 'require']


def identity_of(request: web.Request) -> Identity | None:
    """Who asks; None without a valid token."""
    found = request.get('identity')
    return found if isinstance(found, Identity) else None


def require(request: web.Request, right: Right, repository: str | None = None) -> Identity:
    """Who asks, if they may: else 401 without a token, 404 for what they may not read, 403 for what they may not do."""
    found = identity_of(request)
    if found is None:
        words = 'Bad credentials' if 'Authorization' in request.headers else 'Requires authentication'
        raise web.HTTPUnauthorized(text=words, headers={'WWW-Authenticate': 'Bearer realm="acts-hub"'})
    if found.may(right, repository):
        return found
    if repository is not None and not matches(found.repositories, repository):
        raise web.HTTPNotFound(text='Not Found')
    if found.right is Right.RUNNER and right is Right.READ:
        raise web.HTTPNotFound(text='Not Found')
    raise web.HTTPForbidden(text='Resource not accessible by personal access token')
