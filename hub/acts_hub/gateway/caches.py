"""Caches of `actions/cache`: a run writes into the scope of its own ref, and reads that, its base's, and the default
branch's."""
from __future__ import annotations

import asyncio
import json
import re
from collections.abc import Awaitable, Callable

from aiohttp import web

from ..config import Config
from ..ledger.caches import Cache, CacheStore, CacheUpload
from .leases import Lease
from .legs import Legs, number_in

KEY = re.compile(r'[^,\0\r\n]{1,512}')
VERSION = re.compile('[0-9a-f]{64}')
MAX_KEYS = 10
PIECE = 1 << 18


class Caches:
    """Requests about caches."""

    def __init__(self, config: Config, legs: Legs, store: CacheStore,
                 body: Callable[[int], Awaitable[bytes | None]]) -> None:
        self.config, self.legs, self.store, self.body = config, legs, store, body

    async def scopes(self, lease: Lease) -> list[str]:
        """The refs whose caches a run may read; the first one is its own, into which it writes."""
        try:
            github = json.loads(await self.body(lease.run) or b'{}').get('github') or {}
        except (ValueError, AttributeError):
            github = {}
        given = [github.get('ref'), github.get('base_ref')]
        refs = [ref for ref in given if isinstance(ref, str) and ref]
        default = self.config.default_branch(lease.repository)
        named = [ref if ref.startswith('refs/') else f'refs/heads/{ref}' for ref in [*refs, default]]
        return list(dict.fromkeys(named))

    @staticmethod
    def asked(request: web.Request) -> tuple[list[str], str]:
        """The keys and the version of a request."""
        keys: list[str] = request.query.getall('key', [])
        version = request.query.get('version', '')
        if not 0 < len(keys) <= MAX_KEYS or not all(map(KEY.fullmatch, keys)) or not VERSION.fullmatch(version):
            raise web.HTTPBadRequest(text='a cache has 1 to 10 keys of 1 to 512 characters without a comma, '
                                          'and a version')
        return keys, version

    async def find(self, request: web.Request) -> web.Response:
        """The cache of the first key that is found, or that begins with a later one; 204 if there is none."""
        lease = await self.legs.leg(request)
        keys, version = self.asked(request)
        scopes = await self.scopes(lease)
        own = request.query.get('own') == '1'
        found = self.store.find(lease.repository, scopes[:1] if own else scopes, keys[0], keys[1:], version)
        if found is None or own and found.key != keys[0]:
            return web.Response(status=204)
        return web.json_response({'id': found.id, 'key': found.key, 'size': found.size})

    async def get(self, request: web.Request) -> web.StreamResponse:
        """The bytes of one of those that a run may read."""
        lease = await self.legs.leg(request)
        number, scopes = number_in(request, 'id'), await self.scopes(lease)
        there = self.store.list(lease.repository)
        found = next((one for one in there if one.id == number and one.scope in scopes), None)
        path = self.store.open(number) if found else None
        if found is None or path is None:
            raise web.HTTPNotFound(text='there is no such cache')
        return web.FileResponse(path, headers={'Content-Type': 'application/octet-stream',
                                               'X-Acts-Digest': found.digest.rpartition(':')[2]})

    async def put(self, request: web.Request) -> web.Response:
        """Keeps a cache in the scope of the run's ref."""
        lease = await self.legs.leg(request)
        keys, version = self.asked(request)
        digest = request.query.get('digest', '')
        if not VERSION.fullmatch(digest):
            raise web.HTTPBadRequest(text='digest is the SHA-256 of the cache')
        try:
            upload = self.store.begin(lease.repository, (await self.scopes(lease))[0], keys[0], version)
            if upload is None:
                raise web.HTTPConflict(text='there is a cache of this key already')
            made = await filled(request, upload, digest)
        except OSError as fault:
            raise web.HTTPServiceUnavailable(text=f'the cache can not be kept: {fault.strerror}') from None
        except ValueError as fault:
            raise web.HTTPUnprocessableEntity(text=str(fault)) from None
        return web.json_response({'id': made.id}, status=201)


async def filled(request: web.Request, upload: CacheUpload, digest: str) -> Cache:
    """Writes the body of a request."""
    loop = asyncio.get_running_loop()
    try:
        async for piece in request.content.iter_chunked(PIECE):
            await loop.run_in_executor(None, upload.write, piece)
        return await loop.run_in_executor(None, upload.finish, digest)
    finally:
        upload.abandon()
