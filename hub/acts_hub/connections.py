"""Connections that do nothing are closed: a client that sends or takes nothing for long holds no place."""
from __future__ import annotations

import asyncio
import resource
import time
from typing import Any

from aiohttp import web

SILENCE = 60.0
STEP = 5.0


def raise_limit() -> int:
    """As many descriptors as the system gives; says how many."""
    soft, hard = resource.getrlimit(resource.RLIMIT_NOFILE)
    wanted = min(hard, 65_536) if hard != resource.RLIM_INFINITY else 65_536
    if soft < wanted:
        resource.setrlimit(resource.RLIMIT_NOFILE, (wanted, hard))
    return max(soft, wanted)


class Connections:
    """Looks at all connections of a server, and closes those that have not moved for `silence` seconds."""

    def __init__(self, runner: web.AppRunner, silence: float = SILENCE) -> None:
        self._runner, self.silence = runner, silence
        self._seen: dict[Any, tuple[Any, float]] = {}

    async def watch(self) -> None:
        """Watches without end."""
        while True:
            await asyncio.sleep(min(STEP, self.silence / 4))
            self.look(time.monotonic())

    def look(self, at: float) -> int:
        """Looks once; says how many it closes."""
        server = self._runner.server
        protocols = list(server.connections) if server is not None else []
        before, self._seen, closed = self._seen, {}, 0
        for protocol in protocols:
            state = state_of(protocol)
            if state is None:                               # at work: its handler says how long it takes
                continue
            known = before.get(protocol)
            since = known[1] if known is not None and known[0] == state else at
            if at - since >= self.silence:
                if protocol.transport is not None:
                    protocol.transport.abort()
                closed += 1
            else:
                self._seen[protocol] = state, since
        return closed


def state_of(protocol: Any) -> Any:
    """What changes while a client sends or takes something; None while it waits for the hub."""
    transport = protocol.transport
    if transport is None:
        return None
    request = getattr(protocol, '_current_request', None)
    waits_to_be_taken = transport.get_write_buffer_size()
    if request is None:
        return 'silent', waits_to_be_taken
    if not request.content.is_eof():
        return id(request), request.content.total_bytes
    return (id(request), waits_to_be_taken) if waits_to_be_taken else None
