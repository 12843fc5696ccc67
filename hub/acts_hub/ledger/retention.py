"""What is too old goes: logs, artifacts, caches, refused events, and what is kept of runs that the service has no more."""
from __future__ import annotations

import asyncio
from typing import TYPE_CHECKING

from ..log import say
from ..times import now

if TYPE_CHECKING:
    from ..hub import Hub

DAY = 86_400_000
FIRST_SECONDS = 60
SECONDS = 3600


class Retention:
    """Looks every hour."""

    def __init__(self, hub: Hub) -> None:
        self._hub = hub

    async def watch(self) -> None:
        """Removes what is too old, without end."""
        await asyncio.sleep(FIRST_SECONDS)
        while True:
            try:
                self._hub.mirror.expire(now() - self._hub.config.retention.logs_days * DAY)
                await asyncio.to_thread(self.expire, now(), {run.id for run in self._hub.mirror.runs.values() if run.row.status != 'completed'})
            except Exception as fault:  # a disk that fails is no reason to stop
                say(f'what is too old can not be removed: {fault!r}')
            await asyncio.sleep(SECONDS)

    def expire(self, at: int, ongoing: set[int]) -> None:
        """Removes what is too old. Logs of runs that go on stay. It takes long: in a loop, call it in a thread."""
        hub, kept = self._hub, self._hub.config.retention
        logs = hub.logs.expire(at - kept.logs_days * DAY, lambda run: run in ongoing)
        artifacts, caches = hub.artifacts.expire(at), hub.caches.expire(at)
        hub.refused.expire(at - kept.logs_days * DAY)
        if logs or artifacts or caches:
            say(f'removed the logs of {logs} runs, {artifacts} artifacts and {caches} caches, which were too old')
