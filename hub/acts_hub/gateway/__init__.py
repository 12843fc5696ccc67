"""What runners on other hosts reach: their lines over a WebSocket, and where logs, artifacts, outputs and caches go."""
from __future__ import annotations

import asyncio
import resource
from collections.abc import Awaitable, Callable
from typing import TYPE_CHECKING

from aiohttp import web

from ..events.settings import settings_of
from .approvals import Approvals
from .artifacts import Artifacts
from .caches import Caches
from .connect.runners import RUNNERS_A_TOKEN
from .connect.service import SECONDS_OF_SILENCE as SILENCE_OF_TASKS
from .connect.service import RunnerService
from .environments import Environments
from .findings import Findings
from .leaving import DAYS, GRACE, SECONDS_OF_ALL, Leaving
from .legs import PATH, Legs
from .logs import Logs
from .passing import Passing
from .places import Places
from .websocket import CONNECTIONS_A_TOKEN, SECONDS_OF_SILENCE, Sockets

if TYPE_CHECKING:
    from ..hub import Hub

BASE = '/runner/v1'
Free = Callable[[str], list[str]]
Body = Callable[[int], Awaitable[bytes | None]]


class Gateway:
    """The parts of the gateway, made once with the hub."""

    def __init__(self, hub: Hub) -> None:
        table = hub.config.tables.get('gateway', {})
        self.environments = Environments(hub.database, hub.notes, hub.mirror)
        self.findings = Findings(hub.notes, hub.logs)
        self.passing = Passing(hub.view, hub.hooks, hub.database, hub.notes, hub.logs, self.environments)
        self.leaving = Leaving(hub, self.passing.leases, float(table.get('runner_days', DAYS)),
                               float(table.get('seconds_between_looks', SECONDS_OF_ALL)),
                               float(table.get('seconds_of_grace', GRACE)))
        self.sockets = Sockets(hub.runner_port, self.passing, self.leaving,
                               int(table.get('connections_a_token', CONNECTIONS_A_TOKEN)),
                               float(table.get('silence', SECONDS_OF_SILENCE)))
        self.legs = Legs(hub.config, hub.view, hub.notes, self.passing.leases, hub.database, free_environments(hub),
                         hub.mirror)
        self.logs = Logs(self.legs, hub.logs, self.findings, hub.database)
        self.artifacts = Artifacts(self.legs, hub.artifacts)
        self.caches = Caches(hub.config, self.legs, hub.caches, body_of(hub))
        self.places = Places(self.legs, body_of(hub), hub.events)
        self.approvals = Approvals(hub, self.environments)
        silence = float(table.get('silence_of_tasks', SILENCE_OF_TASKS))
        self.connect = RunnerService(hub, self.passing, self.leaving, self.legs, self.findings, silence,
                                     int(table.get('runners_a_token', RUNNERS_A_TOKEN)))
        self.watching: list[asyncio.Task[None]] = []

    async def start(self) -> None:
        """Takes up what an earlier life knew. Each runner takes descriptors: as many as there may be are asked for."""
        soft, hard = resource.getrlimit(resource.RLIMIT_NOFILE)
        resource.setrlimit(resource.RLIMIT_NOFILE, (max(soft, min(hard, 1 << 16)), hard))
        self.environments.load()
        self.leaving.load()
        self.watching += [asyncio.create_task(self.connect.watch(), name='tasks of runners that are gone'),
                          asyncio.create_task(self.leaving.watch(), name='runners that leave')]

    async def stop(self) -> None:
        """Closes all streams."""
        for task in self.watching:
            task.cancel()
        await asyncio.gather(*self.watching, return_exceptions=True)
        await self.sockets.stop()


def free_environments(hub: Hub) -> Free:
    """The environments of a repository whose jobs need no approval, as the operator says."""
    settings = settings_of(hub.config)

    def free(repository: str) -> list[str]:
        found = settings.repository(repository)
        return [name for name, waits in found.environments.items() if not waits] if found else []
    return free


def body_of(hub: Hub) -> Body:
    """The admitted body of a run."""
    async def body(run: int) -> bytes | None:
        found = await hub.view.body(run)
        return found if found is not None else await hub.hooks.body(run)
    return body


def routes(hub: Hub) -> list[web.RouteDef]:
    """The routes of this part."""
    gateway = hub.gateway
    if not isinstance(gateway, Gateway):
        return []
    legs, logs, artifacts, caches = gateway.legs, gateway.logs, gateway.artifacts, gateway.caches
    return [
        web.get(f'{BASE}/lines', gateway.sockets.handle),
        web.get(f'{BASE}/legs/{{run}}/{{lease}}', legs.facts, allow_head=False),
        web.put(f'{BASE}/outputs{PATH}', legs.keep_outputs),
        web.get(f'{BASE}/places{PATH}', gateway.places.find, allow_head=False),
        web.put(f'{BASE}/logs{PATH}', logs.put),
        web.put(f'{BASE}/marks{PATH}', logs.put_marks),
        web.put(f'{BASE}/artifacts{PATH}', artifacts.put),
        web.get(f'{BASE}/artifacts{PATH}', artifacts.list, allow_head=False),
        web.get(f'{BASE}/artifacts{PATH}/{{id}}', artifacts.get, allow_head=False),
        web.put(f'{BASE}/caches{PATH}', caches.put),
        web.get(f'{BASE}/caches{PATH}', caches.find, allow_head=False),
        web.get(f'{BASE}/caches{PATH}/{{id}}', caches.get, allow_head=False),
        *gateway.approvals.routes(), *gateway.connect.routes()]


def make(hub: Hub) -> Gateway:
    """This part, with `start` and `stop`."""
    return Gateway(hub)
