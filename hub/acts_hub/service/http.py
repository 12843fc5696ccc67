"""One HTTP client for the ports of the service, over TCP or a socket of the file system."""
from __future__ import annotations

import asyncio
import pathlib
from collections.abc import AsyncIterator, Mapping
from contextlib import asynccontextmanager

import aiohttp

from ..config import address_of


class Away(Exception):
    """The service does not answer, or answers that it can't."""


class Gone(Exception):
    """The cursor is not known any more: list again."""


class Unsupported(Exception):
    """This service does not have the command."""


class ServiceClient:
    """Requests to one port. A session of the service ends after 64 requests, and silent ones after a while."""

    def __init__(self, address: str, connections: int = 32) -> None:
        self.address = address_of(address)
        self.connections = connections
        self._session: aiohttp.ClientSession | None = None

    def _made(self) -> aiohttp.ClientSession:
        if self._session is None or self._session.closed:
            connector: aiohttp.BaseConnector
            if isinstance(self.address, pathlib.Path):
                connector = aiohttp.UnixConnector(str(self.address), limit=self.connections)
            else:
                connector = aiohttp.TCPConnector(limit=self.connections)
            self._session = aiohttp.ClientSession(connector=connector, auto_decompress=False, cookie_jar=aiohttp.DummyCookieJar())
        return self._session

    def _url(self, path: str) -> str:
        if isinstance(self.address, pathlib.Path):
            return f'http://acts{path}'
        host, port = self.address
        return f'http://[{host}]:{port}{path}' if ':' in host else f'http://{host}:{port}{path}'

    async def request(self, method: str, path: str, data: bytes | None = None, headers: Mapping[str, str] | None = None,
                      seconds: float | None = 30, repeat: bool = True) -> tuple[int, bytes]:
        """The status and body of an answer. With `repeat` a request that met the end of a session is sent again: it has to be one that may be."""
        timeout = aiohttp.ClientTimeout(total=seconds, sock_connect=10)
        sent = dict(headers or {}) if repeat else {**(headers or {}), 'Connection': 'close'}
        for left in (2, 1, 0):
            try:
                async with self._made().request(method, self._url(path), data=data, headers=sent, timeout=timeout) as answer:
                    return answer.status, await answer.read()
            except aiohttp.ClientConnectorError as fault:
                raise Away(f'the service is not reached: {fault}') from None
            except (aiohttp.ClientError, asyncio.TimeoutError, OSError) as fault:
                if not repeat or not left or isinstance(fault, asyncio.TimeoutError):
                    raise Away(f'the service does not answer {method} {path}: {fault!r}') from None
        raise Away('not reached')

    @asynccontextmanager
    async def stream(self, path: str, seconds: float = 3600) -> AsyncIterator[aiohttp.ClientResponse]:
        """An answer that is read in pieces, such as a copy of the store."""
        try:
            async with self._made().get(self._url(path), timeout=aiohttp.ClientTimeout(total=seconds, sock_connect=10)) as answer:
                yield answer
        except aiohttp.ClientError as fault:
            raise Away(f'the service does not answer GET {path}: {fault!r}') from None

    async def close(self) -> None:
        """Closes its connections."""
        if self._session is not None:
            await self._session.close()
            self._session = None
