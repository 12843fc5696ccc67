"""Forms carry a token that other sites can't know, since it is made from the session's secret, or from the hub's."""
from __future__ import annotations

import hashlib
import hmac
from urllib.parse import urlsplit

from aiohttp import web

FIELD = 'form_token'
HEADER = 'X-Form-Token'
SAFE = 'GET', 'HEAD', 'OPTIONS'
FORMS = 'application/x-www-form-urlencoded', 'multipart/form-data'


def form_token(secret: bytes, whose: str) -> str:
    """The token of a session, or of a name that a proxy gives."""
    return hmac.new(secret, b'acts-hub form\0' + whose.encode('utf-8', 'surrogateescape'), hashlib.sha256).hexdigest()


async def sent_token(request: web.Request) -> str:
    """The token that a request carries, in its form or in a header."""
    found: object = request.headers.get(HEADER)
    if found is None and request.content_type in FORMS:
        found = (await request.post()).get(FIELD)
    return found if isinstance(found, str) else ''


def is_same(sent: str, wanted: str) -> bool:
    """Whether a token is the right one."""
    return hmac.compare_digest(sent.encode('utf-8', 'surrogateescape'), wanted.encode())


def is_own_origin(request: web.Request, url: str) -> bool:
    """Whether a request comes from a page of the hub, as far as the browser says. One that says nothing is no browser of today."""
    origin = request.headers.get('Origin')
    if origin is not None:
        own = urlsplit(url)
        return origin in (f'{own.scheme}://{own.netloc}', f'{own.scheme}://{request.host}')
    return request.headers.get('Sec-Fetch-Site', 'none') in ('same-origin', 'none')
