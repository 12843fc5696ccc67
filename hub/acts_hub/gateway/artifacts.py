"""Artifacts of a run's attempt, as the legs of that attempt keep and read them."""
from __future__ import annotations

import asyncio
import re

from aiohttp import web

from ..ledger.artifacts import Artifact, ArtifactError, ArtifactStore, Upload
from .legs import Legs, number_in

NAME = re.compile(r'[^":<>|*?\r\n\\/\0]{1,255}')
PIECE = 1 << 18


class Artifacts:
    """Requests about artifacts."""

    def __init__(self, legs: Legs, store: ArtifactStore) -> None:
        self.legs, self.store = legs, store

    async def put(self, request: web.Request) -> web.Response:
        """Keeps an artifact: the zip is the body."""
        lease = await self.legs.leg(request)
        name, digest = request.query.get('name', ''), request.query.get('digest', '')
        if not NAME.fullmatch(name) or name in ('.', '..') or name != name.strip() or not name.isprintable():
            raise web.HTTPBadRequest(text='that is no name of an artifact')
        if not re.fullmatch('[0-9a-f]{64}', digest):
            raise web.HTTPBadRequest(text='digest is the SHA-256 of the zip')
        before = next((one for one in self.store.list(lease.run, lease.attempt) if one.name == name), None)
        if before is not None and before.digest.rpartition(':')[2] == digest:
            return web.json_response({'id': before.id})  # its answer was lost
        try:
            upload = self.store.begin(lease.run, lease.attempt, name, overwrite=request.query.get('overwrite') == '1')
        except ArtifactError as fault:
            raise web.HTTPConflict(text=str(fault)) from None
        except OSError as fault:
            raise web.HTTPServiceUnavailable(text=f'the artifact can not be kept: {fault.strerror}') from None
        try:
            made = await filled(request, upload, digest)
        except ArtifactError as fault:
            raise web.HTTPUnprocessableEntity(text=str(fault)) from None
        except OSError as fault:
            raise web.HTTPServiceUnavailable(text=f'the artifact can not be kept: {fault.strerror}') from None
        finally:
            upload.abandon()
        return web.json_response({'id': made.id}, status=201)

    async def list(self, request: web.Request) -> web.Response:
        """The artifacts of the run's attempt."""
        lease = await self.legs.leg(request)
        found = self.store.list(lease.run, lease.attempt)
        return web.json_response([{'id': one.id, 'name': one.name, 'size': one.size} for one in found])

    async def get(self, request: web.Request) -> web.StreamResponse:
        """The zip of one of them."""
        lease = await self.legs.leg(request)
        number = number_in(request, 'id')
        found = self.store.get(number)
        path = self.store.open(number) if found and (found.run, found.attempt) == (lease.run, lease.attempt) else None
        if found is None or path is None:
            raise web.HTTPNotFound(text='the run has no such artifact')
        return web.FileResponse(path, headers={'Content-Type': 'application/zip',
                                               'X-Acts-Digest': found.digest.rpartition(':')[2]})


async def filled(request: web.Request, upload: Upload, digest: str) -> Artifact:
    """Writes the body of a request."""
    loop = asyncio.get_running_loop()
    async for piece in request.content.iter_chunked(PIECE):
        await loop.run_in_executor(None, upload.write, piece)
    return await loop.run_in_executor(None, upload.finish, digest)
