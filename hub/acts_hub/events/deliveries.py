"""Handles one delivery: which workflows it starts, and what becomes of each."""
from __future__ import annotations

import asyncio
import hashlib
from concurrent.futures import ThreadPoolExecutor
from dataclasses import dataclass, field
from typing import Any, Callable, Mapping, TypeVar

from acts_workflow.values import Fault, text_of

from ..service.hooks import HookPort, Reply
from ..service.http import Away
from ..times import now
from . import refusals, starts
from .bodies import Sent, Server, Source
from .mirrors import GitFault, Mirror, TooSlow
from .occasions import Malformed, NotTaken, Occasion, at, is_skipped, occasion_of
from .queues import NotNow
from .refusals import Refusal
from .room import Room
from .settings import NotReadable, Repository, Settings

Made = TypeVar('Made')
JUDGES = 2  # workflows that are read and folded at a time
FULL = 47, 48  # the file is full, or a counter is at its last value
NEVER_AGAIN = 422, 409, 404, 413, 411, 400


@dataclass(frozen=True)
class Delivery:
    """An event that came. `key` stands for what is in it: the same again makes no other run. `path` is the one workflow
    that it may start, or None."""

    name: str
    event: str
    id: str
    key: str
    payload: Mapping[str, Any]
    path: str | None = None

    @classmethod
    def of(cls, name: str, kept: Any) -> Delivery:
        """From what the spool kept."""
        if not isinstance(kept, dict) or not isinstance(kept.get('payload'), dict):
            raise Malformed('not of the form of a delivery')
        path = kept.get('path')
        return cls(name, str(kept['event']), str(kept['delivery']), str(kept['key']), kept['payload'],
                   path if isinstance(path, str) else None)

    @property
    def kept(self) -> dict[str, Any]:
        """What the spool keeps."""
        return {'event': self.event, 'delivery': self.id, 'key': self.key, 'payload': self.payload, 'path': self.path}

    @property
    def repository(self) -> str:
        """The repository that the payload names; an empty text if it names none."""
        name = at(self.payload, 'repository', 'full_name')
        return name if isinstance(name, str) else ''

    def of_workflow(self, repository: str, path: str, event: str) -> str:
        """The id at the service: the same event for the same workflow has the same one."""
        derived = ' target' if event == 'pull_request_target' else ''
        return hashlib.sha256(f'{self.key} {repository.lower()} {path}{derived}'.encode(errors='replace')).hexdigest()


@dataclass
class Outcome:
    """What became of a delivery: a line for each workflow, the runs that were made, and the refusals."""

    lines: list[str] = field(default_factory=list)
    runs: dict[str, int] = field(default_factory=dict)
    refused: list[Refusal] = field(default_factory=list)
    occasion: Occasion | None = None

    def add(self, other: Outcome) -> None:
        """Adds what became of it as another event."""
        self.lines += other.lines
        self.runs |= other.runs
        self.refused += other.refused
        self.occasion = self.occasion or other.occasion


class Handler:
    """Handles deliveries, one at a time for each repository."""

    def __init__(self, settings: Settings, hooks: HookPort, room: Room, hub_url: str,
                 branch_of: Callable[[str], str]) -> None:
        self.settings, self.hooks, self.room, self.branch_of = settings, hooks, room, branch_of
        self.server = Server(hub_url, settings)
        self.pool = ThreadPoolExecutor(JUDGES, 'judge of workflows')
        self.locks: dict[str, asyncio.Lock] = {}  # of mirrors that are fetched
        self.full_since: dict[str, int] = {}  # when a delivery was first refused for want of room

    def events_of(self, delivery: Delivery, repository: Repository) -> list[str]:
        """The events that a delivery stands for: a pull request may start workflows of its base too."""
        if delivery.event == 'pull_request' and repository.pull_request_target:
            return ['pull_request', 'pull_request_target']
        return [delivery.event]

    async def judged(self, function: Callable[..., Made], *given: Any) -> Made:
        """What a function makes of a workflow, which may take seconds: on threads that nothing else needs."""
        return await asyncio.get_running_loop().run_in_executor(self.pool, function, *given)

    def mirror(self, repository: Repository) -> Mirror | None:
        """The mirror of a repository; None if there is none."""
        folder = (self.settings.mirrors or self.settings.folder / 'mirrors') / f'{repository.name}.git'
        return Mirror(folder) if folder.is_dir() else None

    async def fetch(self, mirror: Mirror) -> None:
        """Fetches a mirror, one fetch at a time."""
        async with self.locks.setdefault(str(mirror.folder), asyncio.Lock()):
            await mirror.fetch(self.settings.fetch_limit)

    async def handle(self, delivery: Delivery, repository: Repository, is_fetched: bool = False) -> Outcome:
        """What becomes of a delivery. `NotNow` and `NoCommit` say that it is to be tried again."""
        mirror, outcome = self.mirror(repository), Outcome()
        if mirror is None:
            return Outcome(['not taken: there is no mirror of the repository'])
        try:
            if not is_fetched and delivery.event != 'workflow_run':  # what a run here was made from has been fetched
                await self.fetch(mirror)
            if isinstance(branch := at(delivery.payload, 'repository', 'default_branch'), str):
                await mirror.note_default(branch)
            for event in self.events_of(delivery, repository):
                outcome.add(await self.as_event(event, delivery, repository, mirror))
        except (GitFault, TooSlow) as fault:
            raise NotNow(str(fault)) from None
        return outcome

    async def as_event(self, event: str, delivery: Delivery, repository: Repository, mirror: Mirror) -> Outcome:
        """What becomes of a delivery as one event."""
        try:
            refuse_forks(event, delivery.payload, repository)
            occasion = await occasion_of(event, delivery.payload, mirror, self.branch_of(repository.name))
            if await is_skipped(occasion, mirror):
                raise NotTaken('the commit asks to be skipped')
        except (NotTaken, Malformed) as fault:
            return Outcome([f'not taken: {fault}'])
        outcome, entries = Outcome(occasion=occasion), await mirror.workflows(occasion.commit)
        texts = await mirror.read(entries)
        for entry in entries:
            if entry.fault and delivery.path in (None, entry.path):
                outcome.lines.append(f'{entry.path}: not read: {entry.fault}')
        source = Source(repository, occasion, delivery.payload, texts, await self.variables(repository), self.server)
        files = Files(mirror, occasion)
        for path in texts:
            if delivery.path in (None, path):
                await self.start(path, delivery, source, files, outcome)
        if not outcome.lines:
            outcome.lines.append('not taken: there is no workflow')
        return outcome

    async def variables(self, repository: Repository) -> dict[str, Any]:
        """The variables of a repository."""
        try:
            return await asyncio.to_thread(self.settings.variables, repository.name)
        except NotReadable as fault:
            raise NotNow(f'the variables: {fault}') from None

    async def start(self, path: str, delivery: Delivery, source: Source, files: Files, outcome: Outcome) -> None:
        """Posts the event of one workflow if `on` starts it."""
        event, name = source.occasion.happening.event, ''
        try:
            workflow = await self.judged(source.read, path)
            name = name_of(workflow)
            changed = await files.changed() if starts.asks_for_files(workflow.get('on'), event) else None
            why = starts.not_wanted(workflow.get('on'), with_files(source.occasion, changed))
            if why:
                outcome.lines.append(f'{path}: not started: {why}')
                return
            sent = await self.judged(source.event, path, workflow)
        except Fault as fault:
            self.refuse(outcome, refusals.of_fault(fault, path, source.texts, name))
            return
        except (TypeError, KeyError, AttributeError, RecursionError) as fault:
            self.refuse(outcome, Refusal(path, f'not sent: not of the form of a workflow ({fault!r})', name=name))
            return
        await self.post(path, delivery, source, sent, outcome)

    def refuse(self, outcome: Outcome, refusal: Refusal) -> None:
        """Notes a refusal."""
        outcome.refused.append(refusal)
        outcome.lines.append(refusal.text)

    async def post(self, path: str, delivery: Delivery, source: Source, sent: Sent, outcome: Outcome) -> None:
        """Posts an event until it is answered."""
        if held := await self.room.held():
            raise NotNow(held)
        event = source.occasion.happening.event
        id = delivery.of_workflow(source.repository.name, path, event)
        try:
            reply = await self.hooks.admit(id, event, sent.body)
        except Away as fault:
            raise NotNow(str(fault)) from None
        if reply.run is not None:
            self.room.note(len(sent.body))
            outcome.runs[path] = reply.run
            outcome.lines.append(f'{path}: created {reply.run}')
        elif reply.status in NEVER_AGAIN or reply.refusal in FULL and self.is_old(delivery):
            name = name_of(sent.workflow)
            self.refuse(outcome, refusals.of_reply(words_of(reply), reply.refusal, sent.notes, path, source.texts, name))
        else:
            raise NotNow(f'the service answers {reply.status}, {reply.words}')

    def is_old(self, delivery: Delivery) -> bool:
        """Whether a delivery that does not fit the store has been tried for long enough."""
        first = self.full_since.setdefault(delivery.name, now())
        if now() - first < 1000 * self.settings.full_limit:
            return False
        self.full_since.pop(delivery.name, None)
        return True


class Files:
    """The files that an event changed, which are asked of the mirror once."""

    def __init__(self, mirror: Mirror, occasion: Occasion) -> None:
        self.mirror, self.occasion = mirror, occasion
        self.known: list[str] | None = None
        self.asked = False

    async def changed(self) -> list[str] | None:
        """The files; None if that is not known."""
        if not self.asked:
            self.known = await self.mirror.changed(*self.occasion.span) if self.occasion.span else None
            self.asked = True
        return self.known


def with_files(occasion: Occasion, files: list[str] | None) -> starts.Happening:
    """What the filters of `on` ask of an event."""
    at = occasion.happening
    return starts.Happening(at.event, at.action, at.kind, at.name, files, at.workflow)


def name_of(workflow: Mapping[str, Any]) -> str:
    """The name of a workflow; an empty text if it has none."""
    name = workflow.get('name')
    return text_of(name) if isinstance(name, (str, int)) else ''


def words_of(reply: Reply) -> str:
    """What the service answers, with what that means."""
    return reply.words if reply.sentence == reply.words else f'{reply.words}: {reply.sentence}'


def refuse_forks(event: str, payload: Mapping[str, Any], repository: Repository) -> None:
    """A pull request of a fork would run strangers' steps on the runners: it starts what its base says, or nothing."""
    if not event.startswith('pull_request') or event == 'pull_request_target' or repository.forks:
        return
    head = at(payload, 'pull_request', 'head', 'repo', 'full_name')
    if not isinstance(head, str) or head.lower() != repository.name.lower():
        raise NotTaken('the pull request is of a fork')
