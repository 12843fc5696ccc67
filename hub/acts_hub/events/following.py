"""Follows the runs: tells others how they are, and starts workflows that ask for `workflow_run`."""
from __future__ import annotations

import asyncio
import hashlib
import json
from typing import TYPE_CHECKING, Any

from ..log import say
from ..service.http import Away
from ..service.mirror import Run, Watcher
from ..times import iso, iso_or_none
from .deliveries import Delivery
from .mirrors import GitFault, Mirror, NoCommit, TooSlow
from .occasions import at
from .settings import Repository
from .spool import name_of
from .statuses import is_skipped, row_of, status_of

if TYPE_CHECKING:
    from ..hub import Hub
    from .intake import Events

KIND, BASE = 'told', 'base'
ACTIONS = {'queued': 'requested', 'pending': 'requested', 'in_progress': 'in_progress', 'completed': 'completed'}
ORDER = {'requested': 1, 'in_progress': 2, 'completed': 3}
PAUSE = 2  # seconds after which a run is told of again
DEEPEST = 3  # workflows that `workflow_run` starts one after the other: GitHub's limit


class Follower:
    """Tells of each run once for each of its attempts and states, also over restarts: at least once."""

    def __init__(self, events: Events) -> None:
        self.events: Events = events
        self.hub: Hub = events.hub
        self.again: set[int] = set()  # runs that could not be told of
        self.states: dict[int, dict[int, str]] = {}  # what was told of each attempt of each run
        self.base: dict[str, Any] | None = None  # the newest run up to which all were told of

    async def follow(self) -> None:
        """Follows without end."""
        async with self.hub.mirror.watch() as watcher:
            while not self.hub.mirror.is_whole:
                await asyncio.sleep(0.1)
            await self.take_up()
            while True:
                again, self.again = self.again, set()
                for number in sorted(again | await self.changed(watcher, bool(again))):
                    await self.tell(number)

    async def changed(self, watcher: Watcher, is_due: bool) -> set[int]:
        """The runs that changed. With something to tell again it waits a while at most."""
        try:
            return await asyncio.wait_for(watcher.next(), PAUSE if is_due else None)
        except asyncio.TimeoutError:
            return set()

    async def take_up(self) -> None:
        """At the first start what is there counts as told; later what was missed is told."""
        asked = 'select run, attempt, value from notes where kind = ? and name = ?'
        rows = self.hub.database.read(asked, (KIND, 'state'))
        for number, attempt, value in rows:
            if number in self.hub.mirror.runs:
                self.states.setdefault(number, {})[attempt] = json.loads(value)
        self.hub.mirror.dropped.append(self.forget)
        self.hub.mirror.forgot.append(self.forget_through)
        base = self.base = self.hub.notes.get(0, 0, KIND, BASE)
        newest = max(self.hub.mirror.runs, default=0)
        run = self.hub.mirror.runs.get(base['run']) if base and base['run'] else None
        is_forgotten = base is not None and base['run'] <= self.hub.mirror.forgotten
        if base is None or base['run'] and not is_forgotten and (run is None or run.row.delivery != base['delivery']):
            if base is not None:
                say('events: this is another store, or an older copy: what has completed there is not told of')
            self.note_base(newest)
            for number, run in self.hub.mirror.runs.items():
                if run.row.status != 'completed' or run.row.attempt > 1:
                    self.note(run)
                if run.row.attempt > 1:
                    self.set(number, run.row.attempt - 1, 'completed')
            return
        for number in sorted(self.hub.mirror.runs):
            await self.tell(number)

    def note_base(self, newest: int) -> None:
        """Notes the newest run that was told of, by which another store is known."""
        run = self.hub.mirror.runs.get(newest)
        self.base = {'run': newest, 'delivery': run.row.delivery if run else ''}
        self.hub.notes.set(0, 0, KIND, BASE, self.base)

    def note(self, run: Run) -> None:
        """Notes that the present state of a run was told."""
        self.set(run.id, run.row.attempt, ACTIONS.get(run.row.status, 'requested'))

    def set(self, run: int, attempt: int, state: str) -> None:
        """Notes what was told of an attempt."""
        self.states.setdefault(run, {})[attempt] = state
        self.hub.notes.set(run, attempt, KIND, 'state', state)

    def forget(self, run: int) -> None:
        """Forgets a run that is gone, or that another one has taken the place of."""
        self.states.pop(run, None)

    def forget_through(self, last: int) -> None:
        """Forgets the runs up to one, which the service has forgotten."""
        self.states = {run: states for run, states in self.states.items() if run > last}

    def told(self, run: Run) -> str | None:
        """The state of a run's attempt that was told."""
        found = self.states.get(run.id, {}).get(run.row.attempt)
        return 'completed' if found is None and run.id <= self.newest and run.row.attempt == 1 else found

    @property
    def newest(self) -> int:
        """The newest run up to which all were told of."""
        return int(self.base['run']) if self.base else 0

    async def tell(self, number: int) -> None:
        """Tells of a run, if it is not as it was told."""
        run = self.hub.mirror.runs.get(number)
        if run is None:
            return
        before = self.hub.mirror.attempt(number, run.row.attempt - 1) if run.row.attempt > 1 else None
        try:
            if before is not None and before.row.conclusion is not None:
                await self.tell_attempt(before)
            await self.tell_attempt(run)
        except (Away, OSError) as fault:
            say(f'events: run {number} is told later: {fault}')
            self.again.add(number)
            return
        self.move_base(number)

    async def tell_attempt(self, run: Run) -> None:
        """Tells of an attempt of a run: of the present one, or of the one before, which nobody may have seen end."""
        told, action = self.told(run), ACTIONS.get(run.row.status, 'requested')
        if told is None or ORDER[told] < ORDER[action]:
            await self.tell_status(run, told, action)
            await self.start_listeners(run, told, action)
            self.note(run)

    def move_base(self, number: int) -> None:
        """Notes that a run is the newest that was told of, once all before it were."""
        runs = self.hub.mirror.runs
        between = range(self.newest + 1, number)
        if number > self.newest and all(self.told(runs[each]) for each in between if each in runs):
            self.note_base(number)

    async def tell_status(self, run: Run, told: str | None, action: str) -> None:
        """Sets the status of the commit when an attempt begins and when it ends, and posts a notice of its end."""
        settings = self.events.settings
        if not settings.statuses and not settings.post or told is not None and action != 'completed':
            return
        conclusion = run.row.conclusion
        if conclusion == 'success' and is_skipped(await self.hub.mirror.whole(run.id, run.row.attempt)):
            conclusion = 'skipped'
        await self.events.statuses.add(status_of(self.hub.config.url, run, conclusion))
        if action == 'completed':
            id = f'{run.row.delivery}-{run.row.attempt}'
            await self.events.statuses.add_notice('run_completed', id, {'run': row_of(run, conclusion)})

    async def start_listeners(self, run: Run, told: str | None, action: str) -> None:
        """Keeps an event `workflow_run` for each state that the run has come to."""
        repository = self.events.settings.repository(run.row.repository)
        mirror = self.events.handler.mirror(repository) if repository else None
        if repository is None or mirror is None or not await self.is_listened(repository, mirror):
            return
        if await self.depth(run) >= DEEPEST:
            return
        for each, order in ORDER.items():
            if (ORDER[told] if told else 0) < order <= ORDER[action] and (each != 'in_progress' or action == each):
                await self.events.keep(self.delivery(run, each, repository))

    async def is_listened(self, repository: Repository, mirror: Mirror) -> bool:
        """Whether a workflow of the default branch asks for runs."""
        try:
            return any('workflow_run' in each.on for each in await self.events.listing.read(repository, mirror))
        except (NoCommit, GitFault, TooSlow):
            return False

    async def depth(self, run: Run) -> int:
        """How many workflows started one another by `workflow_run`, up to this one; too many if that is not known."""
        depth, number = 0, run.id
        while depth < DEEPEST:
            known = self.hub.mirror.runs.get(number)
            if known is None:
                return DEEPEST
            if known.row.event != 'workflow_run':
                return depth
            body = json.loads(await self.hub.mirror.body(number) or b'null')
            before = at(body, 'github', 'event', 'workflow_run', 'id')
            if not isinstance(before, int) or before >= number:
                return DEEPEST
            depth, number = depth + 1, before
        return depth

    def delivery(self, run: Run, action: str, repository: Repository) -> Delivery:
        """The event of a run's state. The same state of the same run has the same key."""
        key = hashlib.sha256(f'workflow_run {run.row.delivery} {run.row.attempt} {action}'.encode()).hexdigest()
        payload = {'action': action, 'workflow_run': self.object_of(run, action),
                   'workflow': {'name': run.row.workflow or run.row.path, 'path': run.row.path},
                   'repository': self.events.facts.of(repository.name), 'sender': {'login': run.facts.actor or ''}}
        return Delivery(name_of(key[:36]), 'workflow_run', key[:36], key, payload)

    def object_of(self, run: Run, action: str) -> dict[str, Any]:
        """A run as the payload of `workflow_run` has it."""
        row, facts, is_over = run.row, run.facts, action == 'completed'
        return {
            'id': row.run, 'name': row.workflow or row.path, 'path': row.path, 'event': row.event,
            'run_number': row.number, 'run_attempt': row.attempt, 'status': 'completed' if is_over else row.status,
            'conclusion': row.conclusion if is_over else None, 'head_branch': facts.branch or '', 'head_sha': facts.sha,
            'display_title': facts.run_name or facts.title,
            'html_url': f'{self.hub.config.url}/{row.repository}/actions/runs/{row.run}',
            'created_at': iso(run.created_at), 'run_started_at': iso(run.started_at), 'updated_at': iso_or_none(run.updated_at),
            'actor': {'login': facts.actor or ''},
            'triggering_actor': {'login': run.triggering_actor or facts.actor or ''},
            'repository': {'full_name': row.repository},
            'head_repository': {'full_name': facts.head_repository or row.repository},
            'pull_requests': [{'number': facts.pull_number}] if facts.pull_number else []}
