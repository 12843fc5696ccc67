"""The parts of the hub, made once."""
from __future__ import annotations

import asyncio
import pathlib
import secrets
from collections.abc import Callable

from aiohttp import web

from . import events, gateway
from .access.guard import Access
from .config import Config
from .events.intake import Events
from .ledger.artifacts import ArtifactStore
from .ledger.caches import CacheStore
from .ledger.database import Database
from .ledger.forgetting import Forgetting
from .ledger.logs import LogStore
from .ledger.notes import NoteStore
from .ledger.refused import RefusedStore
from .ledger.retention import Retention
from .log import say
from .part import Part
from .service.hooks import HookPort
from .service.lines import RunnerPort
from .service.mirror import Mirror
from .service.view import ViewPort


LEDGER_SECONDS = 5


class Hub:
    """All parts. Requests have it as `request.app['hub']`."""

    def __init__(self, config: Config) -> None:
        self.config = config
        self.folder = pathlib.Path(config.hub.folder)
        self.secret = secrets.token_bytes(32)               # of this life of the hub
        kept = config.retention
        self.database = Database(self.folder / 'ledger.sqlite')
        self.view = ViewPort(config.service.view)
        self.hooks = HookPort(config.service.hook)
        self.runner_port = RunnerPort(config.service.runner)
        self.mirror = Mirror(self.view, self.hooks, self.database)
        self.logs = LogStore(self.folder / 'logs', kept.log_bytes_a_leg)
        self.artifacts = ArtifactStore(self.folder / 'artifacts', self.database, kept.artifact_bytes, kept.artifacts_bytes_a_run, kept.artifacts_days)
        self.caches = CacheStore(self.folder / 'caches', self.database, kept.caches_bytes, kept.cache_days)
        self.refused = RefusedStore(self.database)
        self.notes = NoteStore(self.database)
        self.access = Access(config, self.database)
        self.mirror.dropped += [self.logs.drop, self.artifacts.drop, self.notes.drop]
        self.forgetting = Forgetting(self)
        self.fault_page: Callable[[web.Request, int, str], web.Response] | None = None      # set by the pages
        self.events: Events = events.make(self)
        self.gateway: Part | None = gateway.make(self)
        self._tasks: list[asyncio.Task[None]] = []

    async def start(self) -> None:
        """Opens the ledger, follows the service, and starts the parts."""
        try:
            self.folder.mkdir(mode=0o700, parents=True, exist_ok=True)
        except OSError as fault:
            say(f'the folder {self.folder} can not be made: {fault.strerror}')
        await asyncio.to_thread(self.database.open, LEDGER_SECONDS)
        self._tasks += [asyncio.create_task(self.mirror.follow(), name='mirror'), asyncio.create_task(Retention(self).watch(), name='retention'),
                        asyncio.create_task(self.forgetting.watch(), name='forgetting')]
        for part in self.events, self.gateway:
            if part is not None:
                await part.start()

    async def stop(self) -> None:
        """Stops the parts, and writes what waits."""
        for part in self.gateway, self.events:
            if part is not None:
                await part.stop()
        for task in self._tasks:
            task.cancel()
        await asyncio.gather(*self._tasks, return_exceptions=True)
        await self.view.close()
        await self.hooks.close()
        await asyncio.get_running_loop().run_in_executor(None, self.database.close)


def make_hub(config: Config) -> Hub:
    """The hub of a configuration, not started."""
    return Hub(config)
