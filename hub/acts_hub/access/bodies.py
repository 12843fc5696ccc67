"""Bodies of requests, bounded."""
from __future__ import annotations

from aiohttp import web


async def read_at_most(request: web.Request, limit: int) -> bytes:
    """The body of a request; 413 if it is longer."""
    if request.content_length is not None and request.content_length > limit:
        raise web.HTTPRequestEntityTooLarge(max_size=limit, actual_size=request.content_length)
    data = bytearray()
    async for piece in request.content.iter_any():
        data += piece
        if len(data) > limit:
            raise web.HTTPRequestEntityTooLarge(max_size=limit, actual_size=len(data))
    return bytes(data)
