"""Runs that someone starts: `workflow_dispatch` and `repository_dispatch`."""
from __future__ import annotations

import json
import re
import uuid
from dataclasses import dataclass
from typing import TYPE_CHECKING, Any, Mapping

from acts_workflow.filters import triggers_of
from acts_workflow.reading import read
from acts_workflow.values import Fault

from .deliveries import Delivery, Outcome
from .mirrors import GitFault, Mirror, NoCommit, TooSlow
from .occasions import Malformed, ref_of
from .queues import NotNow
from .settings import Repository
from .spool import name_of

if TYPE_CHECKING:
    from .intake import Events

FILE = re.compile(r'(?:\.github/workflows/)?([^/]{1,200}\.ya?ml)')
TYPE = re.compile(r'[^\x00-\x1f\x7f]{1,100}')  # GitHub's limit
MOST_MEMBERS, LONGEST_PAYLOAD = 10, 65_535  # of a `client_payload`: GitHub's limits


@dataclass(frozen=True)
class Dispatched:
    """The run that was made, or None and why in `words`; `status` is what REST answers. `runs` has all of them."""

    run: int | None
    words: str
    status: int
    runs: tuple[int, ...] = ()

    @property
    def ok(self) -> bool:
        """Whether it was done."""
        return self.status < 300


def refused(words: str, status: int = 422) -> Dispatched:
    """An answer without a run."""
    return Dispatched(None, words, status)


class Dispatcher:
    """Starts workflows for people."""

    def __init__(self, events: Events) -> None:
        self.events: Events = events

    async def workflow(self, name: str, workflow: str, ref: str, inputs: Mapping[str, Any], actor: str) -> Dispatched:
        """Starts one workflow, which is named by its file."""
        repository, file = self.events.settings.repository(name), FILE.fullmatch(workflow)
        if repository is None or not file:
            return refused('there is no such repository or workflow', 404)
        path = f'.github/workflows/{file[1]}'
        mirror = self.events.handler.mirror(repository)
        if mirror is None:
            return refused('there is no mirror of the repository')
        try:
            await self.events.handler.fetch(mirror)
            full = await full_ref(mirror, ref)
            if fault := await self.fault(mirror, full, path):
                return refused(fault)
            payload = self.payload(repository, actor) | {'ref': full, 'workflow': path, 'inputs': dict(inputs)}
            return self.answer(await self.started('workflow_dispatch', payload, repository, path, True))
        except (NoCommit, Malformed):
            return refused(f'No ref found for: {ref[:200]}')
        except (NotNow, GitFault, TooSlow) as fault_of_others:
            return refused(str(fault_of_others), 503)

    async def fault(self, mirror: Mirror, ref: str, path: str) -> str | None:
        """Why a workflow can't be started by hand; None if it can."""
        if not mirror.is_fetched:
            return f'the mirror could not be fetched, so {ref} may be another commit by now'
        text = (await mirror.texts(await mirror.commit(ref))).get(path)
        if text is None:
            return f'{path} is not there at {ref}'
        try:
            if 'workflow_dispatch' not in triggers_of(read(text).get('on')):
                return "Workflow does not have 'workflow_dispatch' trigger"
        except Fault as fault:
            return f'{path}: {fault}'
        return None

    async def repository(self, name: str, event_type: str, client_payload: Mapping[str, Any], actor: str) -> Dispatched:
        """Starts the workflows of the default branch that ask for a type of event."""
        repository = self.events.settings.repository(name)
        if repository is None:
            return refused('there is no such repository', 404)
        if not TYPE.fullmatch(event_type):
            return refused('event_type is a text of 1 to 100 characters')
        if len(client_payload) > MOST_MEMBERS or len(json.dumps(client_payload)) > LONGEST_PAYLOAD:
            return refused(f'client_payload has at most {MOST_MEMBERS} members, and {LONGEST_PAYLOAD:,} characters')
        facts = self.payload(repository, actor)
        payload = facts | {'action': event_type, 'branch': facts['repository'].get('default_branch'),
                           'client_payload': dict(client_payload)}
        try:
            outcome = await self.started('repository_dispatch', payload, repository, None)
        except NoCommit as fault:
            return refused(str(fault))
        except NotNow as fault:
            return refused(str(fault), 503)
        if outcome.refused and not outcome.runs:
            return self.answer(outcome)
        runs = tuple(outcome.runs.values())
        return Dispatched(runs[0] if runs else None, '\n'.join(outcome.lines), 204, runs)

    def payload(self, repository: Repository, actor: str) -> dict[str, Any]:
        """What the payloads have in common."""
        return {'repository': self.events.facts.of(repository.name), 'sender': {'login': actor}}

    async def started(self, event: str, payload: dict[str, Any], repository: Repository, path: str | None,
                      is_fetched: bool = False) -> Outcome:
        """What becomes of an event, which is posted at once: who asked is told if it can't be."""
        id = str(uuid.uuid4())
        delivery = Delivery(name_of(id), event, id, id, payload, path)
        outcome = await self.events.handler.handle(delivery, repository, is_fetched)
        await self.events.tell(delivery, repository, outcome)
        return outcome

    def answer(self, outcome: Outcome) -> Dispatched:
        """The run that was made, or why there is none."""
        run = next(iter(outcome.runs.values()), None)
        if run is not None:
            return Dispatched(run, f'created {run}', 204, (run,))
        said = [refusal.text for refusal in outcome.refused] or outcome.lines
        return refused('\n'.join(said)[:2000] or 'nothing was started')


async def full_ref(mirror: Mirror, ref: str) -> str:
    """The full name of a branch or tag, of which the branch counts first."""
    for kind in ('heads',) if ref.startswith('refs/') else ('heads', 'tags'):
        full = ref_of(ref, kind)
        if full.startswith(('refs/heads/', 'refs/tags/')) and await mirror.has(full):
            return full
    raise NoCommit(f'there is no branch or tag {ref[:200]}')
