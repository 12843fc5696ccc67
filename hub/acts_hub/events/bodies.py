"""The event for one workflow, as it is sent to the service."""
from __future__ import annotations

import json
import re
from dataclasses import dataclass
from typing import Any, Callable, Mapping

from acts_workflow import filters, inputs, members, profile, reading
from acts_workflow.filters import chosen
from acts_workflow.values import Fault, Known, text_of

from .occasions import Occasion, at
from .settings import Repository, Settings
from .templates import Folding, Note

Tree = dict[str, Any]
KEPT = 'html_url', 'clone_url'  # addresses of a payload that are passed on; the others are those of an API
LEFT_OUT = '', 'addresses of the API', 'addresses of the API, lists', 'all but texts and numbers', 'all'


@dataclass(frozen=True)
class Server:
    """The addresses that `github` names."""

    hub_url: str
    settings: Settings

    def urls(self, payload: Mapping[str, Any]) -> dict[str, str]:
        """`server_url` is where the runs are, this hub; the others are those of the server that sent the event."""
        page, name = at(payload, 'repository', 'html_url'), at(payload, 'repository', 'full_name')
        sender = ''
        if isinstance(page, str) and isinstance(name, str) and page.endswith('/' + name):
            sender = page[:-len(name) - 1]
        made = {'server_url': self.settings.server_url or self.hub_url}
        api = self.settings.api_url or api_of(sender)
        if api:
            made |= {'api_url': api, 'graphql_url': re.sub('/v3$', '', api) + '/graphql'}
        return made


def api_of(server: str) -> str:
    """The address of the REST API of a server; nothing if there is no server."""
    if not server:
        return ''
    scheme, _, host = server.partition('://')
    return f'{scheme}://api.{host}' if host == 'github.com' else f'{server}/api/v3'


def identified(payload: Mapping[str, Any]) -> dict[str, str]:
    """The ids that a payload has."""
    found = {'repository_id': at(payload, 'repository', 'id'),
             'repository_owner_id': at(payload, 'repository', 'owner', 'id'), 'actor_id': at(payload, 'sender', 'id')}
    return {name: str(value) for name, value in found.items() if isinstance(value, int) and not isinstance(value, bool)}


def context(occasion: Occasion, payload: Mapping[str, Any], workflow: Tree, path: str, repository: Repository,
            server: Server) -> Tree:
    """`github` for one workflow."""
    name, actor = repository.name, str(at(payload, 'sender', 'login') or '')
    made: Tree = {**occasion.github, **server.urls(payload), **identified(payload), 'event': dict(payload)}
    made |= {'event_name': occasion.happening.event, 'repository': name, 'repository_owner': name.split('/')[0],
             'workflow': text_of(workflow.get('name')) or path, 'workflow_ref': f'{name}/{path}@{occasion.ref}',
             'workflow_sha': occasion.commit, 'actor': actor, 'triggering_actor': actor}
    if isinstance(address := at(payload, 'repository', 'git_url'), str):
        made['repositoryUrl'] = address
    if repository.protected is not None:
        is_branch = occasion.ref.startswith('refs/heads/')
        made['ref_protected'] = is_branch and chosen(made['ref_name'], list(repository.protected))
    return made


def trimmed(value: Any, without_lists: bool) -> Any:
    """The value without addresses of an API, and without lists if asked."""
    if isinstance(value, list):
        return [trimmed(item, without_lists) for item in value]
    if not isinstance(value, dict):
        return value
    return {name: trimmed(item, without_lists) for name, item in value.items()
            if name in KEPT or not name.endswith(('url', '_links')) and not (without_lists and isinstance(item, list))}


def encoded(envelope: Tree) -> bytes | None:
    """The bytes of an event; None if they are more than the service takes."""
    made, size = [], 0
    try:
        for piece in json.JSONEncoder(ensure_ascii=False, allow_nan=False, separators=(',', ':')).iterencode(envelope):
            data = piece.encode(errors='replace')
            size += len(data)
            if size > profile.LONGEST_BODY:
                return None
            made.append(data)
    except (ValueError, RecursionError) as fault:
        raise Fault(f'not of the kinds of JSON: {fault}') from None
    return b''.join(made)


def body_of(envelope: Tree, payload: Mapping[str, Any]) -> bytes:
    """The bytes of an event, with as much of the payload as fits. What is left out is said in `left_out`."""
    scalars = {name: value for name, value in payload.items() if not isinstance(value, (dict, list))}
    forms: tuple[Callable[[], Any], ...] = (lambda: trimmed(payload, False), lambda: trimmed(payload, True),
                                            lambda: scalars, dict)
    for form, left_out in zip(forms, LEFT_OUT[1:]):
        body = encoded({**envelope, 'github': {**envelope['github'], 'event': form()}, 'left_out': left_out})
        if body is not None:
            return body
    raise Fault(f'the workflow is over {profile.LONGEST_BODY:,} bytes as JSON', number=24)


@dataclass(frozen=True)
class Sent:
    """The event for one workflow, and what the service is known not to take of it."""

    body: bytes
    notes: tuple[Note, ...]
    workflow: Tree


@dataclass(frozen=True)
class Source:
    """What an event is made from: the texts of its commit's workflows, the variables, and where it is sent from."""

    repository: Repository
    occasion: Occasion
    payload: Mapping[str, Any]
    texts: Mapping[str, str]
    variables: Tree
    server: Server

    def read(self, path: str) -> Tree:
        """The workflow in a file."""
        return reading.read(self.texts[path])

    def inputs(self, workflow: Tree) -> dict[str, Known]:
        """The inputs of a run that is started by hand."""
        event = self.occasion.happening.event
        if event != 'workflow_dispatch':
            return {}
        form = filters.triggers_of(workflow.get('on')).get(event) or {}
        return inputs.dispatched(form.get('inputs'), self.payload.get('inputs'))

    def event(self, path: str, workflow: Tree) -> Sent:
        """The event for a workflow. What must not be sent is a `Fault`."""
        members.check(workflow)
        given = self.inputs(workflow)
        payload = {**self.payload, 'inputs': {name: text_of(value) for name, value in given.items()}} if given \
            else self.payload  # GitHub has them there as texts
        github = context(self.occasion, payload, workflow, path, self.repository, self.server)
        contexts: Tree = {'github': github, 'inputs': given, 'vars': self.variables}
        known = Folding(contexts, self.repository.environments, self.texts.get)
        try:
            folded = known.sent(workflow)
        except (TypeError, KeyError, AttributeError, RecursionError) as fault:
            raise Fault(f'not of the form of a workflow ({fault!r})') from None
        if isinstance(folded.get('run-name'), str) and '${{' not in folded['run-name']:
            github['run_name'] = folded['run-name']
        envelope = {'repo': self.repository.name, 'path': path, 'workflow': folded, **contexts}
        return Sent(body_of(envelope, payload), tuple(known.notes), folded)
