"""The part of the hub that makes runs of events: webhooks, schedules, dispatches, and runs that have ended."""
from __future__ import annotations

import asyncio
import traceback
from collections import Counter
from dataclasses import dataclass
from typing import TYPE_CHECKING, Any, Coroutine, Mapping

from ..log import say
from ..service.models import Whole
from ..times import now
from .deliveries import Delivery, Handler, Outcome
from .dispatch import Dispatched, Dispatcher
from .facts import RepositoryFacts
from .following import Follower
from .listing import Listed, Listing
from .mirrors import GitFault, NoCommit, TooSlow
from .occasions import Malformed
from .queues import NotNow, Queues
from .refusals import Refusal
from .receive import Receiver
from .room import Room
from .schedules import Schedules
from .settings import Repository, Settings, settings_of
from .spool import Spool, age
from .starts import NOT_TAKEN
from .statuses import Statuses, refused_status
from .waits import Waits, unclaimable_of

if TYPE_CHECKING:
    from ..hub import Hub

ACCEPTED = 'accepted: what becomes of it is in the log'
MOST_NAMES = 200  # of events that are counted


@dataclass(frozen=True)
class State:
    """What pages show of events: why they are held back, how many wait in which repository and why, how many were put
    aside, and how many came of each kind that starts nothing, by repository and event."""

    held: str | None
    waiting: Mapping[str, tuple[int, str]]
    aside: int
    untaken: Mapping[tuple[str, str], int]


class Events:
    """Made once with the hub, started and stopped with it."""

    def __init__(self, hub: Hub) -> None:
        self.hub: Hub = hub
        self.settings: Settings = settings_of(hub.config)
        self.spool: Spool = Spool(self.settings.folder / 'spool')
        self.room: Room = Room(hub.view, self.settings.held_over)
        self.handler: Handler = Handler(self.settings, hub.hooks, self.room, hub.config.url, hub.config.default_branch)
        self.queues: Queues = Queues(self.handle, self.settings.pause)
        self.facts: RepositoryFacts = RepositoryFacts(hub.notes)
        self.listing: Listing = Listing(hub.config.default_branch)
        self.receiver: Receiver = Receiver(self)
        self.statuses: Statuses = Statuses(self.settings, hub)
        self.schedules: Schedules = Schedules(self)
        self.dispatcher: Dispatcher = Dispatcher(self)
        self.follower: Follower = Follower(self)
        self.waits: Waits = Waits(self)
        self.answers: dict[str, asyncio.Future[list[str]]] = {}
        self.counts: Counter[tuple[str, str]] = Counter()
        self.tasks: list[asyncio.Task[None]] = []

    async def start(self) -> None:
        """Takes up what waits, and begins to follow runs and schedules."""
        try:
            await asyncio.to_thread(self.spool.begin)
        except OSError as fault:
            say(f'events: the spool {self.spool.folder} can not be used: {fault}')
        self.facts.begin()
        for work in self.watch(), self.refresh(), self.schedules.follow(), self.follower.follow(), self.waits.follow():
            self.tasks.append(asyncio.create_task(endless(work)))
        await self.statuses.start()

    async def stop(self) -> None:
        """Ends all work; what is not done is in the spool."""
        for task in self.tasks:
            task.cancel()
        await asyncio.gather(*self.tasks, return_exceptions=True)
        await self.queues.stop()
        await self.statuses.stop()

    async def refresh(self) -> None:
        """Fetches each mirror once, so that workflows are known that have had no event yet."""
        for repository in self.settings.repositories.values():
            mirror = self.handler.mirror(repository)
            try:
                if mirror is not None:
                    await self.handler.fetch(mirror)
                    await self.listing.read(repository, mirror)
            except (GitFault, TooSlow, NoCommit, OSError) as fault:
                say(f'events: {repository.name}: {fault}')

    async def watch(self) -> None:
        """Takes up what waits in the spool and no queue has: of an earlier life, or what is to be tried again."""
        while True:
            try:
                await self.take_up()
                await self.look_for_room()
                await asyncio.to_thread(self.spool.forget, 86400 * self.settings.aside_days)
            except OSError as fault:
                say(f'events: the spool: {fault}')
            await asyncio.sleep(min(self.settings.pause, 5))

    async def look_for_room(self) -> None:
        """While events are held back, looks whether there is room again: then they go on at once."""
        if self.room.reason is not None and await self.room.held() is None:
            self.queues.wake()

    async def take_up(self) -> None:
        """Adds to the queues what is in the spool alone."""
        waiting = set(await asyncio.to_thread(self.spool.waiting))
        for name in sorted(waiting - self.queues.names() - self.answers.keys()):
            try:
                repository = Delivery.of(name, await asyncio.to_thread(self.spool.read, name)).repository
            except FileNotFoundError:
                continue  # it was done meanwhile
            except (Malformed, ValueError, KeyError, RecursionError):
                repository = ''
            self.queues.add(repository.lower(), name)

    def untaken(self, repository: str, event: str) -> str:
        """Counts an event that no rule takes, and says so."""
        key = repository.lower(), event or 'other'
        if key not in self.counts and len(self.counts) >= MOST_NAMES:
            key = '', 'other'
        self.counts[key] += 1
        why = NOT_TAKEN.get(event)
        return f'not taken: the event {event or "without a name"}' + (f': {why}' if why else '')

    async def accept(self, delivery: Delivery) -> list[str]:
        """Keeps a delivery durably, and waits a while for its outcome."""
        if self.settings.repository(delivery.repository) is None:
            return [f'not taken: {delivery.repository} is not configured']
        answer = self.answers[delivery.name] = asyncio.get_running_loop().create_future()
        try:
            await asyncio.to_thread(self.spool.add, delivery.name, delivery.kept)
            self.queues.add(delivery.repository.lower(), delivery.name)
            return await asyncio.wait_for(asyncio.shield(answer), self.settings.wait)
        except asyncio.TimeoutError:
            held = self.queues.why.get(delivery.repository.lower())
            return [f'{ACCEPTED}: it waits: {held}' if held else ACCEPTED]
        finally:
            self.answers.pop(delivery.name, None)

    async def keep(self, delivery: Delivery) -> None:
        """Keeps a delivery that nobody waits for."""
        await asyncio.to_thread(self.spool.add, delivery.name, delivery.kept)
        self.queues.add(delivery.repository.lower(), delivery.name)

    async def handle(self, name: str) -> bool:
        """Whether a delivery is done: each of its workflows was answered, or it is put aside."""
        title, outcome, reasons, delivery, repository = 'not of the form of a delivery', Outcome(), [], None, None
        try:
            delivery = Delivery.of(name, await asyncio.to_thread(self.spool.read, name))
            title = f'{delivery.repository} {delivery.event}'
            repository = self.settings.repository(delivery.repository)
            outcome = await self.outcome_of(delivery, repository)
            reasons = [refusal.text for refusal in outcome.refused]
        except FileNotFoundError:
            return True  # it was done meanwhile
        except NotNow:
            raise
        except NoCommit as fault:
            if age(name) < self.settings.keep:
                return False
            outcome = put_aside(str(fault))
            reasons = outcome.lines
        except Exception as fault:
            traceback.print_exc()
            outcome = put_aside(repr(fault))
            reasons = outcome.lines
        if delivery is not None and repository is not None:
            await self.tell(delivery, repository, outcome)
        await self.finish(name, title, outcome, reasons)
        return True

    async def outcome_of(self, delivery: Delivery, repository: Repository | None) -> Outcome:
        """What becomes of a delivery."""
        if repository is None:
            return Outcome([f'not taken: {delivery.repository} is not configured'])
        self.facts.note(repository.name, delivery.payload)
        outcome = await self.handler.handle(delivery, repository)
        if mirror := self.handler.mirror(repository):
            await self.listing.read(repository, mirror)
        return outcome

    async def tell(self, delivery: Delivery, repository: Repository, outcome: Outcome) -> None:
        """Notes refusals in the ledger, and at the commit."""
        occasion = outcome.occasion
        known = {(one.delivery, one.path) for one in self.hub.refused.list(repository.name, 100)}
        for refusal in outcome.refused:
            if (delivery.id, refusal.path or None) in known:
                continue
            event = occasion.happening.event if occasion else delivery.event
            ref, sha = (occasion.ref, occasion.head) if occasion else (None, None)
            self.hub.refused.add(now(), repository.name, event, delivery.id, refusal.path or None, ref, sha,
                                 refusal.code, refusal.line, refusal.words, refusal.advice)
            if sha:
                await self.statuses.add(refused_status(self.hub.config.url, repository.name, sha, event, refusal))

    async def finish(self, name: str, title: str, outcome: Outcome, reasons: list[str]) -> None:
        """Removes a delivery from the spool, or puts it aside, and tells who waits."""
        if reasons:
            await asyncio.to_thread(self.spool.put_aside, name, title, reasons)
        else:
            await asyncio.to_thread(self.spool.done, name)
        for line in outcome.lines:
            say(f'events: {name} {line}')
        answer = self.answers.get(name)
        if answer and not answer.done():
            answer.set_result(outcome.lines)

    async def dispatch(self, repository: str, workflow: str, ref: str, inputs: Mapping[str, Any] | None,
                       actor: str) -> Dispatched:
        """Starts a workflow by hand: the run that was made, or why there is none."""
        return await self.dispatcher.workflow(repository, workflow, ref, inputs or {}, actor)

    async def repository_dispatch(self, repository: str, event_type: str, client_payload: Mapping[str, Any] | None,
                                  actor: str) -> Dispatched:
        """Starts the workflows that ask for `repository_dispatch` of a type."""
        return await self.dispatcher.repository(repository, event_type, client_payload or {}, actor)

    def workflows(self, repository: str) -> tuple[Listed, ...]:
        """The workflows of a repository's default branch."""
        return self.listing.of(repository)

    def free_environments(self, repository: str) -> list[str]:
        """The environments of a repository whose jobs wait for no approval."""
        known = self.settings.repository(repository)
        return [name for name, waits in known.environments.items() if not waits] if known else []

    def unclaimable(self, whole: Whole) -> str | None:
        """Why a leg of a run can't be claimed by any runner; None if each can."""
        return unclaimable_of(whole, self.hub.access.tokens.all())

    def state(self) -> State:
        """What pages show."""
        why = self.queues.why
        waiting = {name: (len(names), why.get(name, '')) for name, names in self.queues.queues.items() if names}
        try:
            aside = len(self.spool.aside())
        except OSError:
            aside = 0
        return State(self.room.reason, waiting, aside, dict(self.counts))


def put_aside(words: str) -> Outcome:
    """What becomes of a delivery that can't be handled."""
    return Outcome([f'put aside: {words}'], refused=[Refusal('', f'put aside: {words}')])


async def endless(work: Coroutine[Any, Any, None]) -> None:
    """Work that goes on as long as the hub; a fault of it is said."""
    try:
        await work
    except Exception:
        traceback.print_exc()
        say('events: a part has ended by a fault')
