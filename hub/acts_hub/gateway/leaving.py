"""Runners that leave: the service keeps a name until it is discharged. That is done once the name holds no lease; what is to be done is in the ledger, and done again
it does nothing."""
from __future__ import annotations

import asyncio
import time
from collections.abc import Mapping
from typing import TYPE_CHECKING, Any

from ..access.tokens import Token
from ..log import say
from ..service.hooks import Reply
from ..service.http import Away, Unsupported
from ..service.models import Runner
from ..times import now
from .connect.runners import SLOTS
from .leases import Leases

if TYPE_CHECKING:
    from ..access.identity import Identity
    from ..hub import Hub

LEAVING, KNOWN, CLAIM = 'leaving', 'runner', 'claim'
UNKNOWN = 45
DAY = 86_400_000  # milliseconds
DAYS, DAYS_OF_EPHEMERAL = 14.0, 1.0  # after which a runner that says nothing is taken to be gone for good, as at GitHub
SECONDS, SECONDS_OF_ALL = 5.0, 300.0  # between two looks at those that leave, and at all
GRACE = 60.0  # seconds in which an ephemeral runner whose stream has ended may come again


class Leaving:
    """All runners of the service, whatever protocol they speak."""

    def __init__(self, hub: Hub, leases: Leases, days: float = DAYS, every: float = SECONDS_OF_ALL, grace: float = GRACE) -> None:
        self.hub, self.leases, self.days, self.every, self.grace = hub, leases, days, every, grace
        self.known: dict[str, dict[str, Any]] = {}  # by name: the token of its last claim, and whether it is ephemeral
        self.going: dict[str, int] = {}  # by name: when it may be discharged

    def load(self) -> None:
        """Takes up what an earlier life knew."""
        self.known = {name: value for name, value in self.hub.notes.list(0, 0, KNOWN).items() if isinstance(value, dict)}
        self.going = {name: at for name, at in self.hub.notes.list(0, 0, LEAVING).items() if isinstance(at, int)}

    def came(self, identity: Identity, name: str, is_ephemeral: bool = False) -> None:
        """A runner has claimed: it does not leave, and is known by this token."""
        if self.going.pop(name, None) is not None:
            self.hub.notes.set(0, 0, LEAVING, name, None)
        value = {'token': identity.token_id, 'ephemeral': is_ephemeral}
        if self.known.get(name) != value:
            self.known[name] = value
            self.hub.notes.set(0, 0, KNOWN, name, value)

    def leave(self, name: str, seconds: float = 0) -> None:
        """A runner is gone, and is to be discharged after this time, unless it claims again."""
        self.going[name] = now() + int(1000 * seconds)
        self.hub.notes.set(0, 0, LEAVING, name, self.going[name])

    async def discharge(self, name: str) -> Reply:
        """Discharges a runner. One that the service does not know any more was discharged."""
        reply = await self.hub.hooks.discharge(name)
        if not reply.ok and reply.refusal != UNKNOWN:
            return reply
        if reply.ok:
            say(f'{name} is discharged')
        self.forget(name)
        return Reply(True, None, 'ok', 202)

    def forget(self, name: str) -> None:
        """Forgets what is kept of a name."""
        self.going.pop(name, None)
        self.known.pop(name, None)
        for kind in LEAVING, KNOWN, CLAIM:
            if self.hub.notes.get(0, 0, kind, name) is not None:
                self.hub.notes.set(0, 0, kind, name, None)
        self.leases.held.pop(name, None)
        self.hub.database.write(*self.hub.mirror.runner_store.forget(name))

    async def watch(self) -> None:
        """Looks without end."""
        late = time.monotonic() + min(self.every, GRACE)
        while True:
            await asyncio.sleep(min(SECONDS, self.every))
            try:
                await self.look_at_going()
                if time.monotonic() >= late:
                    began = time.monotonic()
                    await self.look_at_all()
                    late = time.monotonic() + max(self.every, 20 * (time.monotonic() - began))
            except (Away, Unsupported):
                continue
            except Exception as fault:  # of whatever kind, others are looked at later
                say(f'runners that are gone are not discharged: {fault!r}')

    async def look_at_going(self) -> None:
        """Discharges those that leave and hold no lease."""
        for name, at in list(self.going.items()):
            found = await self.hub.view.runners(name) if at <= now() else []
            if found and found[0].lease is None and name in self.going:
                await self.discharge(name)
            elif at <= now() and not found:
                self.forget(name)

    async def look_at_all(self) -> None:
        """Discharges those that are gone and hold no lease, and forgets names that the service does not have. A name of a
        runner of Gitea's protocol goes with that runner."""
        before = self.hub.mirror.runner_store.names() | self.known.keys()
        runners = await self.hub.view.runners()
        tokens = {each.id: each for each in self.hub.access.tokens.all()}
        for one in runners:
            if one.lease is None and one.name not in self.going and self.is_gone(one, tokens):
                if self.hub.notes.get(0, 0, SLOTS, one.name) is None:
                    await self.discharge(one.name)
        for name in before - {one.name for one in runners} - self.going.keys():
            self.forget(name)

    def is_gone(self, one: Runner, tokens: Mapping[int, Token]) -> bool:
        """Whether a runner can't come any more, since its token holds no longer, or was not heard for days."""
        known = self.known.get(one.name, {})
        token = tokens.get(known.get('token', 0))
        if token is not None and not token.holds(now()):
            return True
        store = self.hub.mirror.runner_store
        heard = max(store.seen_at.get(one.name, 0), now() - 1000 * one.heard_seconds_ago if one.heard_seconds_ago is not None else 0)
        if not heard:
            self.hub.database.write(*store.seen(one.name, now()))
            return False
        days = min(self.days, DAYS_OF_EPHEMERAL) if known.get('ephemeral') else self.days
        return now() - heard > days * DAY
