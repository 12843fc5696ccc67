"""Artifacts and caches."""
from __future__ import annotations

import asyncio
from typing import Any
from urllib.parse import quote

from aiohttp import web

from ..ledger.artifacts import Artifact
from ..ledger.caches import Cache
from ..service.mirror import Run
from ..times import iso, now
from .api import Api
from .errors import Fault, invalid
from .numbers import decimal
from .pages import Page

GONE = 'Artifact has expired'
SORTS = {'last_accessed_at': 'used_at', 'created_at': 'created_at', 'size_in_bytes': 'size'}


class ArtifactRequests:
    """Requests for artifacts and caches."""

    def __init__(self, api: Api) -> None:
        self.api, self.hub = api, api.hub

    def routes(self) -> list[web.RouteDef]:
        """Their routes."""
        get, on = self.api.get, self.api.on
        return [get('/actions/runs/{run}/artifacts', self.of_run), get('/actions/artifacts', self.of_repository),
                get('/actions/artifacts/{artifact}', self.one), get('/actions/artifacts/{artifact}/zip', self.zip),
                on('DELETE', '/actions/artifacts/{artifact}', self.delete),
                self.api.download('/artifacts/{artifact}', self.download),
                get('/actions/caches', self.caches), on('DELETE', '/actions/caches', self.delete_caches),
                on('DELETE', '/actions/caches/{cache}', self.delete_cache), get('/actions/cache/usage', self.usage)]

    # artifacts

    async def of_run(self, request: web.Request) -> web.Response:
        """The artifacts of a run, of all its attempts."""
        run = self.api.run(request, self.api.repository(request))
        return self.listed(request, await self.found([run], request.query.get('name')))

    async def of_repository(self, request: web.Request) -> web.Response:
        """The artifacts of a repository, newest first."""
        repository = self.api.repository(request)
        return self.listed(request,
                           await self.found(list(self.hub.mirror.of(repository))[::-1], request.query.get('name')))

    async def found(self, runs: list[Run], name: str | None) -> list[tuple[Run, Artifact]]:
        """The artifacts of these runs, newest of each run first, of one name or of all."""
        def look() -> list[tuple[Run, Artifact]]:
            return [(run, one) for run in runs for one in reversed(self.hub.artifacts.list(run.row.run))
                    if name in (None, '', one.name)]
        return await asyncio.to_thread(look)

    def listed(self, request: web.Request, found: list[tuple[Run, Artifact]]) -> web.Response:
        """A page of artifacts."""
        page = Page.of(request.query)
        return self.api.some(request, page, 'artifacts', [self.shape(run, one) for run, one in page.cut(found)],
                             len(found))

    def shape(self, run: Run, one: Artifact) -> dict[str, Any]:
        """An artifact."""
        return self.api.shapes.artifact(run, one.id, one.name, one.size, one.digest, one.created_at, one.expires_at,
                                        one.expires_at <= now())

    def artifact(self, request: web.Request, repository: str) -> tuple[Run, Artifact]:
        """The artifact of an address, and its run."""
        number = decimal(request.match_info['artifact'])
        found = self.hub.artifacts.get(number) if number is not None else None
        if found is None:
            raise Fault(404)
        return self.api.run_of(repository, found.run), found

    async def one(self, request: web.Request) -> web.Response:
        """An artifact."""
        return self.api.answer(request, self.shape(*self.artifact(request, self.api.repository(request))))

    async def zip(self, request: web.Request) -> web.StreamResponse:
        """The ZIP of an artifact: a redirect to an address that holds for a minute."""
        _, found = self.artifact(request, self.api.repository(request))
        if found.expires_at <= now() or self.hub.artifacts.open(found.id) is None:
            raise Fault(410, GONE)
        return self.api.redirect(f'/artifacts/{found.id}')

    async def download(self, request: web.Request) -> web.StreamResponse:
        """The ZIP of an artifact."""
        self.api.signed(request)
        found = self.hub.artifacts.get(decimal(request.match_info['artifact']) or 0)
        path = self.hub.artifacts.open(found.id) if found else None
        if found is None or path is None:
            raise Fault(410, GONE)
        return web.FileResponse(path, headers={
            'Content-Type': 'application/zip',
            'Content-Disposition': f"attachment; filename*=UTF-8''{quote(found.name, safe='')}.zip"})

    async def delete(self, request: web.Request) -> web.Response:
        """Removes an artifact."""
        repository, _ = self.api.writable(request)
        _, found = self.artifact(request, repository)
        await asyncio.to_thread(self.hub.artifacts.delete, found.id)
        return web.Response(status=204)

    # caches

    async def caches(self, request: web.Request) -> web.Response:
        """The caches of a repository; `key` is how a key begins, `ref` the branch that made it."""
        repository, query = self.api.repository(request), request.query
        sort, direction = query.get('sort', 'last_accessed_at'), query.get('direction', 'desc')
        if sort not in SORTS or direction not in ('asc', 'desc'):
            raise invalid('ActionsCache', 'sort', f'sort is one of {", ".join(SORTS)}, direction asc or desc.')
        found = [one for one in self.hub.caches.list(repository)
                 if one.key.startswith(query.get('key', '')) and query.get('ref') in (None, '', one.scope)]
        found.sort(key=lambda one: int(getattr(one, SORTS[sort])), reverse=direction == 'desc')
        return self.api.listed(request, 'actions_caches', [self.cache_shape(one) for one in found])

    def cache_shape(self, one: Cache) -> dict[str, Any]:
        """A cache."""
        return {'id': one.id, 'ref': one.scope, 'key': one.key, 'version': one.version,
                'last_accessed_at': iso(one.used_at),
                'created_at': iso(one.created_at), 'size_in_bytes': one.size}

    async def delete_caches(self, request: web.Request) -> web.Response:
        """Removes the caches of a key, of one branch or of all."""
        repository, _ = self.api.writable(request)
        key, ref = request.query.get('key'), request.query.get('ref')
        if not key:
            raise invalid('ActionsCache', 'key', 'key is missing.')
        found = [one for one in self.hub.caches.list(repository) if one.key == key and ref in (None, '', one.scope)]
        if not found:
            raise Fault(404)
        for one in found:
            await asyncio.to_thread(self.hub.caches.delete, one.id)
        return self.api.answer(request,
                               {'total_count': len(found), 'actions_caches': [self.cache_shape(one) for one in found]})

    async def delete_cache(self, request: web.Request) -> web.Response:
        """Removes a cache."""
        repository, _ = self.api.writable(request)
        number = decimal(request.match_info['cache'])
        if number not in [one.id for one in self.hub.caches.list(repository)] or number is None:
            raise Fault(404)
        await asyncio.to_thread(self.hub.caches.delete, number)
        return web.Response(status=204)

    async def usage(self, request: web.Request) -> web.Response:
        """How much the caches of a repository take."""
        repository = self.api.repository(request)
        found = self.hub.caches.list(repository)
        return self.api.answer(request,
                               {'full_name': repository, 'active_caches_size_in_bytes': sum(one.size for one in found),
                                         'active_caches_count': len(found)})
