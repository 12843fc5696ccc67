"""The objects of GitHub's REST API for Actions."""
from __future__ import annotations

import json
from collections.abc import Mapping
from typing import Any
from urllib.parse import quote

from ..events.statuses import context_of
from ..ledger.refused import Refused
from ..service.mirror import Run
from ..times import iso, iso_or_none
from .conclusions import commit_state, suite_status
from .legs import JobView
from .numbers import node_of, number_of

Shape = dict[str, Any]
MAX_DESCRIPTION = 140
SYSTEMS = ('linux', 'windows', 'macos')


def dumps(value: object) -> str:
    """JSON without spaces."""
    return json.dumps(value, separators=(',', ':'))


class Shapes:
    """Makes objects whose addresses begin with the address of this hub."""

    def __init__(self, url: str) -> None:
        self.web = url.rstrip('/')
        self.api = f'{self.web}/api/v3'

    def user(self, login: str) -> Shape:
        """A simple user."""
        name = quote(login)
        return {'login': login, 'id': number_of('user', login.lower()), 'node_id': node_of('User', login),
                'avatar_url': '',
                'gravatar_id': '', 'url': f'{self.api}/users/{name}', 'html_url': f'{self.web}/{name}', 'type': 'User',
                'site_admin': False}

    def user_or_none(self, login: str | None) -> Shape | None:
        """A simple user, or null if the event did not name one."""
        return self.user(login) if login else None

    def repository(self, name: str) -> Shape:
        """A minimal repository."""
        owner, _, short = name.partition('/')
        return {'id': number_of('repo', name.lower()), 'node_id': node_of('Repository', name), 'name': short,
                'full_name': name,
                'private': True, 'owner': self.user(owner), 'html_url': f'{self.web}/{name}', 'description': None,
                'fork': False,
                'url': self.at(name), 'statuses_url': self.at(name, 'statuses/{sha}'),
                'commits_url': self.at(name, 'commits{/sha}'),
                'contents_url': self.at(name, 'contents/{+path}'), 'deployments_url': self.at(name, 'deployments')}

    def at(self, repository: str, path: str = '') -> str:
        """An address of the API below a repository."""
        return f'{self.api}/repos/{repository}' + (f'/{path}' if path else '')

    def run_page(self, run: Run) -> str:
        """The page of a run for people."""
        return f'{self.web}/{run.row.repository}/actions/runs/{run.row.run}'

    def workflow_number(self, repository: str, path: str) -> int:
        """The number of a workflow."""
        return number_of('workflow', repository.lower(), path)

    def run(self, run: Run) -> Shape:
        """A run."""
        row, facts = run.row, run.facts
        name, here = row.repository, self.at(row.repository, f'actions/runs/{row.run}')
        workflow = self.workflow_number(name, row.path)
        title = facts.run_name or facts.title or row.workflow or row.path
        return {
            'id': row.run, 'name': row.workflow or row.path, 'node_id': node_of('WorkflowRun', row.run),
            'head_branch': facts.branch, 'head_sha': facts.sha or '', 'path': row.path, 'display_title': title,
            'run_number': row.number, 'event': row.event, 'status': row.status, 'conclusion': run.conclusion,
            'workflow_id': workflow, 'check_suite_id': row.run, 'check_suite_node_id': node_of('CheckSuite', row.run),
            'url': here, 'html_url': self.run_page(run), 'pull_requests': self.pulls(run),
            'created_at': iso(run.created_at),
            'updated_at': iso(run.updated_at), 'actor': self.user_or_none(facts.actor), 'run_attempt': row.attempt,
            'referenced_workflows': [], 'run_started_at': iso(run.started_at),
            'triggering_actor': self.user_or_none(run.triggering_actor or facts.actor), 'jobs_url': f'{here}/jobs',
            'logs_url': f'{here}/logs', 'check_suite_url': self.at(name, f'check-suites/{row.run}'),
            'artifacts_url': f'{here}/artifacts', 'cancel_url': f'{here}/cancel', 'rerun_url': f'{here}/rerun',
            'previous_attempt_url': f'{here}/attempts/{row.attempt - 1}' if row.attempt > 1 else None,
            'workflow_url': self.at(name, f'actions/workflows/{workflow}'), 'head_commit': self.commit(run),
            'repository': self.repository(name), 'head_repository': self.repository(facts.head_repository or name)}

    def pulls(self, run: Run) -> list[Shape]:
        """The pull request of a run, as far as its event names it."""
        number, facts, name = run.facts.pull_number, run.facts, run.row.repository
        if number is None:
            return []
        home, head = self.brief_repository(name), self.brief_repository(facts.head_repository or name)
        return [{'id': number_of('pull', name.lower(), str(number)), 'number': number,
                 'url': self.at(name, f'pulls/{number}'),
                 'head': {'ref': facts.branch, 'sha': facts.sha or '', 'repo': head},
                 'base': {'ref': facts.base_ref or '', 'sha': '', 'repo': home}}]

    def brief_repository(self, name: str) -> Shape:
        """A repository as pull requests of runs name it."""
        return {'id': number_of('repo', name.lower()), 'url': self.at(name), 'name': name.partition('/')[2]}

    def commit(self, run: Run) -> Shape | None:
        """The commit of a run; null if its event told nothing of it."""
        facts = run.facts
        if facts.sha is None or facts.message is None:
            return None
        person = {'name': facts.author or '', 'email': facts.author_email or ''}
        return {'id': facts.sha, 'tree_id': '', 'message': facts.message, 'timestamp': iso(run.created_at),
                'author': person,
                'committer': person}

    def job(self, run: Run, view: JobView, steps: list[Shape]) -> Shape:
        """A job with its steps."""
        row = run.row
        name = row.repository
        return {
            'id': view.value, 'run_id': row.run, 'run_url': self.at(name, f'actions/runs/{row.run}'),
            'run_attempt': view.number.attempt, 'node_id': node_of('CheckRun', view.value),
            'head_sha': run.facts.sha or '',
            'url': self.at(name, f'actions/jobs/{view.value}'), 'html_url': self.job_page(run, view),
            'status': view.status,
            'conclusion': view.conclusion, 'created_at': iso(view.created_at), 'started_at': iso(view.started_at),
            'completed_at': iso_or_none(view.completed_at), 'name': view.name, 'steps': steps,
            'check_run_url': self.at(name, f'check-runs/{view.value}'), 'labels': list(view.labels),
            'runner_id': number_of('runner', view.runner) if view.runner else None, 'runner_name': view.runner,
            'runner_group_id': 1 if view.runner else None, 'runner_group_name': 'Default' if view.runner else None,
            'workflow_name': row.workflow or row.path, 'head_branch': run.facts.branch}

    def job_page(self, run: Run, view: JobView) -> str:
        """The page of a job for people."""
        return f'{self.run_page(run)}/job/{view.value}'

    def step(self, number: int, name: str, status: str, conclusion: str | None, started_at: int | None,
             completed_at: int | None) -> Shape:
        """A step of a job."""
        return {'name': name, 'status': status, 'conclusion': conclusion, 'number': number,
                'started_at': iso_or_none(started_at),
                'completed_at': iso_or_none(completed_at)}

    @property
    def app(self) -> Shape:
        """The app that makes checks."""
        return {'id': number_of('app', 'acts'), 'slug': 'acts', 'node_id': node_of('App', 'acts'), 'name': 'acts',
                'description': 'Runs of workflows', 'external_url': self.web, 'html_url': self.web, 'permissions': {},
                'events': []}

    def check_run(self, run: Run, view: JobView, annotations: int) -> Shape:
        """A job as a check run."""
        here = self.at(run.row.repository, f'check-runs/{view.value}')
        output = {'title': None, 'summary': None, 'text': None, 'annotations_count': annotations,
                  'annotations_url': f'{here}/annotations'}
        return {'id': view.value, 'name': view.name, 'node_id': node_of('CheckRun', view.value),
                'head_sha': run.facts.sha or '',
                'external_id': str(view.value), 'url': here, 'html_url': self.job_page(run, view),
                'details_url': self.job_page(run, view), 'status': view.status, 'conclusion': view.conclusion,
                'started_at': iso(view.started_at), 'completed_at': iso_or_none(view.completed_at), 'output': output,
                'check_suite': {'id': run.row.run}, 'app': self.app, 'pull_requests': self.pulls(run)}

    def check_suite(self, run: Run, jobs: int) -> Shape:
        """A run as a check suite."""
        row, here = run.row, self.at(run.row.repository, f'check-suites/{run.row.run}')
        return {'id': row.run, 'node_id': node_of('CheckSuite', row.run), 'head_branch': run.facts.branch,
                'head_sha': run.facts.sha or '', 'status': suite_status(row.status), 'conclusion': run.conclusion,
                'url': here,
                'before': None, 'after': run.facts.sha, 'pull_requests': self.pulls(run), 'app': self.app,
                'repository': self.repository(row.repository), 'created_at': iso(run.created_at),
                'updated_at': iso(run.updated_at),
                'head_commit': self.commit(run), 'latest_check_runs_count': jobs,
                'check_runs_url': f'{here}/check-runs',
                'rerequestable': False, 'runs_rerequestable': False}

    def status(self, run: Run) -> Shape:
        """A run as a status of its commit."""
        row = run.row
        return {'id': row.run, 'node_id': node_of('StatusContext', row.run), 'avatar_url': None,
                'state': commit_state(run.conclusion),
                'description': run.conclusion or row.status, 'target_url': self.run_page(run),
                'context': context_of(row.workflow, row.path, row.event), 'created_at': iso(run.created_at),
                'updated_at': iso(run.updated_at), 'url': self.at(row.repository, f'statuses/{run.facts.sha or ""}'),
                'creator': self.user_or_none(run.facts.actor)}

    def refused_status(self, one: Refused) -> Shape:
        """An event that made no run as a status of its commit."""
        where = f'line {one.line}: ' if one.line else ''
        return {'id': one.id, 'node_id': node_of('Refused', one.id), 'avatar_url': None, 'state': 'error',
                'description': (where + one.words)[:MAX_DESCRIPTION],
                'target_url': f'{self.web}/{one.repository}/actions/refused',
                'context': context_of('', one.path or '', one.event), 'created_at': iso(one.at),
                'updated_at': iso(one.at),
                'url': self.at(one.repository, f'statuses/{one.sha or ""}'), 'creator': None}

    def annotation(self, given: Mapping[str, Any]) -> Shape:
        """What a step said of a file, or of the run: then the file is `.github`, as at GitHub."""
        line = given.get('start_line') or 1
        return {'path': given.get('path') or '.github', 'blob_href': '', 'start_line': line,
                'start_column': given.get('start_column'),
                'end_line': given.get('end_line') or line, 'end_column': given.get('end_column'), 'raw_details': '',
                'annotation_level': given.get('annotation_level'), 'title': given.get('title') or '',
                'message': given.get('message') or ''}

    def workflow(self, repository: str, path: str, name: str, created_at: int | None, updated_at: int | None) -> Shape:
        """A workflow."""
        number, short = self.workflow_number(repository, path), quote(path.rpartition('/')[2])
        return {'id': number, 'node_id': node_of('Workflow', number), 'name': name or path, 'path': path,
                'state': 'active',
                'created_at': iso_or_none(created_at), 'updated_at': iso_or_none(updated_at),
                'url': self.at(repository, f'actions/workflows/{number}'),
                'html_url': f'{self.web}/{repository}/actions/workflows/{short}',
                'badge_url': f'{self.web}/{repository}/actions/workflows/{short}/badge.svg'}

    def runner(self, name: str, labels: tuple[str, ...] | None, is_online: bool, is_busy: bool) -> Shape:
        """A runner; its system is known if a label says it."""
        known = labels or ()
        system = next((label.lower() for label in known if label.lower() in SYSTEMS), 'unknown')
        return {'id': number_of('runner', name), 'name': name, 'os': system,
                'status': 'online' if is_online else 'offline',
                'busy': is_busy, 'runner_group_id': 1, 'labels': [self.label(label) for label in known]}

    def label(self, name: str) -> Shape:
        """A label of a runner."""
        return {'id': number_of('label', name.lower()), 'name': name, 'type': 'custom'}

    def artifact(self, run: Run, number: int, name: str, size: int, digest: str, created_at: int, expires_at: int,
                 expired: bool) -> Shape:
        """An artifact of a run."""
        here = self.at(run.row.repository, f'actions/artifacts/{number}')
        repository = number_of('repo', run.row.repository.lower())
        return {'id': number, 'node_id': node_of('Artifact', number), 'name': name, 'size_in_bytes': size, 'url': here,
                'archive_download_url': f'{here}/zip', 'expired': expired, 'digest': f'sha256:{digest}',
                'created_at': iso(created_at),
                'updated_at': iso(created_at), 'expires_at': iso(expires_at),
                'workflow_run': {'id': run.row.run, 'repository_id': repository, 'head_repository_id': repository,
                                 'head_branch': run.facts.branch, 'head_sha': run.facts.sha or ''}}
