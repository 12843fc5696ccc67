"""Logs of legs as runners send them: pieces at offsets, and marks of steps beside them."""
from __future__ import annotations

from aiohttp import web

from ..ledger.database import Database
from ..ledger.logs import LogError, LogStore
from .findings import MAX_MARK, Findings
from .legs import Legs, written

MAX_PIECE = 1 << 20  # bytes


def offset_of(request: web.Request) -> int:
    """The offset of a piece."""
    text = request.query.get('offset', '')
    if not (text.isascii() and text.isdecimal() and len(text) <= 15):
        raise web.HTTPBadRequest(text='offset is a number of bytes')
    return int(text)


async def piece_of(request: web.Request, most: int) -> bytes:
    """The bytes of a piece, bounded."""
    data = b''
    async for part in request.content.iter_chunked(1 << 16):
        data += part
        if len(data) > most:
            raise web.HTTPRequestEntityTooLarge(most, len(data), text=f'a piece has {most} bytes at most')
    return data


class Logs:
    """Requests about logs."""

    def __init__(self, legs: Legs, logs: LogStore, findings: Findings, database: Database) -> None:
        self.legs, self.logs, self.findings, self.database = legs, logs, findings, database

    async def put(self, request: web.Request) -> web.Response:
        """A piece of a log, at an offset. The answer says how much is there: where to go on."""
        lease = await self.legs.leg(request, held=False)
        offset, data = offset_of(request), await piece_of(request, MAX_PIECE)
        try:
            size = self.logs.append(*lease.place, offset, data) if data else self.logs.size(*lease.place)
        except LogError as fault:
            raise web.HTTPServiceUnavailable(text=str(fault), headers={'Retry-After': '5'}) from None
        return web.json_response({'size': size})

    async def put_marks(self, request: web.Request) -> web.Response:
        """Marks, at an offset."""
        lease = await self.legs.leg(request, held=False)
        offset, data = offset_of(request), await piece_of(request, MAX_MARK)
        try:
            size = self.findings.take(lease, offset, data) if data else self.findings.size(lease)
        except (LogError, ValueError) as fault:
            raise web.HTTPServiceUnavailable(text=str(fault), headers={'Retry-After': '5'}) from None
        if data:
            await written(self.database)
        return web.json_response({'size': size})

