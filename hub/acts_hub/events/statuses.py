"""Statuses of commits at GitHub, and notices of runs that have completed."""
from __future__ import annotations

import dataclasses
import json
import re
import urllib.parse
from typing import TYPE_CHECKING, Any, Mapping

import aiohttp

from ..service.mirror import Run
from ..service.models import Whole
from .mirrors import COMMIT
from .outbox import Later, Outbox, post
from .refusals import Refusal
from .settings import Settings, read_secret
from .signatures import signature

if TYPE_CHECKING:
    from ..hub import Hub

STATES = {'success': 'success', 'skipped': 'success', 'failure': 'failure', 'cancelled': 'error', None: 'pending'}
LONGEST = 140  # characters of a description: GitHub's limit
LONGEST_CONTEXT = 255
ID = re.compile('[^A-Za-z0-9-]')


def context_of(workflow: str, path: str, event: str) -> str:
    """The context of a status: one for each workflow and event."""
    return f'{(workflow or path)[:LONGEST_CONTEXT - 70]} ({event})'


def page_of(url: str, repository: str, rest: str) -> str:
    """The address of a page of the hub."""
    return f'{url}/{urllib.parse.quote(repository)}/actions/{rest}'


def is_skipped(whole: Whole | None) -> bool:
    """Whether every job of a run was skipped."""
    return whole is not None and bool(whole.jobs) and all(job.state == 'skipped' for job in whole.jobs)


def status_of(url: str, run: Run, conclusion: str | None, reason: str | None = None) -> dict[str, Any] | None:
    """The status of a run's commit; None if the commit is not known. `reason` says why nobody can take a leg of it."""
    row = run.row
    if not run.facts.sha or not COMMIT.fullmatch(run.facts.sha):
        return None
    attempt = f', attempt {row.attempt}' if row.attempt > 1 else ''
    said = f'Run {row.run}{attempt}: {reason or conclusion or row.status}'
    return {'repository': row.repository, 'sha': run.facts.sha, 'status': {
        'state': STATES.get(conclusion, 'error'), 'context': context_of(row.workflow, row.path, row.event),
        'description': said[:LONGEST], 'target_url': page_of(url, row.repository, f'runs/{row.run}')}}


def refused_status(url: str, repository: str, sha: str, event: str, refusal: Refusal) -> dict[str, Any]:
    """The status of a commit whose workflow made no run."""
    where = f'line {refusal.line}: ' if refusal.line else ''
    return {'repository': repository, 'sha': sha, 'status': {
        'state': 'error', 'context': context_of(refusal.name, refusal.path, event),
        'description': (where + refusal.words)[:LONGEST], 'target_url': page_of(url, repository, 'refused')}}


class Statuses:
    """Sends both, if the operator wants them."""

    def __init__(self, settings: Settings, hub: Hub) -> None:
        self.settings, self.hub = settings, hub
        self.statuses = Outbox(settings.folder / 'statuses', settings.notice_pause, self.send_status)
        self.notices = Outbox(settings.folder / 'notices', settings.notice_pause, self.send_notice)
        self.session: aiohttp.ClientSession | None = None

    async def start(self) -> None:
        """Begins to send."""
        self.session = aiohttp.ClientSession()
        if self.settings.statuses:
            await self.statuses.start()
        if self.settings.post:
            await self.notices.start()

    async def stop(self) -> None:
        """Ends; what waits is kept."""
        await self.statuses.stop()
        await self.notices.stop()
        if self.session:
            await self.session.close()

    async def add(self, status: Mapping[str, Any] | None) -> None:
        """Keeps a status to be set."""
        if self.settings.statuses and status:
            await self.statuses.add(status['sha'], status)

    async def add_notice(self, kind: str, id: str, value: Mapping[str, Any]) -> None:
        """Keeps a notice to be posted."""
        if self.settings.post:
            await self.notices.add(ID.sub('-', id)[:64], {'event': kind, 'id': id, **value})

    async def send_status(self, name: str, kept: Any) -> None:
        """Sets one status, in the form of GitHub's REST API, "Create a commit status"."""
        token = read_secret(self.settings.token_file).decode(errors='replace')
        if not token or self.session is None:
            raise Later('the token can not be read')
        url = f'{self.settings.statuses}/repos/{urllib.parse.quote(kept["repository"])}/statuses/{kept["sha"]}'
        await post(self.session, url, json.dumps(kept['status']).encode(), {
            'Authorization': f'Bearer {token}', 'Accept': 'application/vnd.github+json',
            'X-GitHub-Api-Version': '2022-11-28'})

    async def send_notice(self, name: str, kept: Any) -> None:
        """Posts one notice. The signature is the HMAC with SHA-256 of the body under the secret."""
        secret = read_secret(self.settings.post_secret_file)
        if not secret or self.session is None:
            raise Later('the secret can not be read')
        kind, id = str(kept.pop('event')), str(kept.pop('id'))
        body = json.dumps({'event': kind, **kept}, ensure_ascii=False, separators=(',', ':')).encode(errors='replace')
        await post(self.session, self.settings.post, body, {
            'X-Acts-Event': kind, 'X-Acts-Delivery': id, 'X-Acts-Signature-256': signature(secret, body)})


def row_of(run: Run, conclusion: str | None) -> dict[str, Any]:
    """A run in a notice."""
    return {**dataclasses.asdict(run.row), 'conclusion': conclusion}
