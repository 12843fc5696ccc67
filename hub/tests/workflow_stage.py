"""Plays the rows of a table of workflows: each in a repository of its own, by a real service, hub and runners."""
from __future__ import annotations

import json
import os
import pathlib
import re
import time
import urllib.parse
from collections.abc import Callable, Mapping
from typing import Any

from harness import HUB, Answer, HubProcess, Service
from repositories import Repository, Sender, tables
from runner_trials import Host, kill_all, until
from workflow_table import ROWS, VARIABLES, Event, Row
from workflow_tools import make_actions, make_docker, make_tool_cache, make_tools, put

EXAMPLES = HUB.parent / 'examples'
LABELS = 'ubuntu-latest', 'ubuntu-22.04', 'ubuntu-24.04'
ELSEWHERE = tuple(sorted({label for row in ROWS for label in row.elsewhere}))
SECRETS = {'NPM_TOKEN': 'npm-hush', 'RELEASE_TOKEN': 'release-hush', 'TRIAGE_TOKEN': 'triage-hush', 'MERGE_TOKEN': 'merge-hush', 'REPORT_TOKEN': 'report-hush',
           'CODECOV_TOKEN': 'codecov-hush', 'REGISTRY_USER': 'robot-hush', 'REGISTRY_PASSWORD': 'password-hush',
           'environments': {name: {'DEPLOY_PLACE': f'place-{name}'} for name in ('staging', 'production')}}
FILES = {
    'hello.py': '', 'deep/other.py': '', 'manage.py': '', 'requirements.txt': 'django==4.2\npytest\n', 'package.json': '{}', 'package-lock.json': '{}',
    'client.js': 'const at = process.env; console.log(`asks ${at.POSTGRES_HOST || at.REDIS_HOST}:${at.POSTGRES_PORT || at.REDIS_PORT}`)\n', 'go.mod': 'module octo/app\n\ngo 1.22\n', 'pom.xml': '',
    'Cargo.toml': '', 'Gemfile': '', 'Makefile': '', 'Dockerfile': '', 'index.html': '', 'packages/api/.nvmrc': '20\n', 'packages/api/package.json': '{}',
    'packages/api/package-lock.json': '{}', 'packages/shared/package.json': '{}', '.github/actions/greet/action.yml': '''name: Greet
inputs:
  who: {description: who is greeted, required: true}
  from: {description: by whom, default: deep}
runs:
  using: composite
  steps:
    - run: echo "greets ${{ inputs.who }} from ${{ inputs.from }}"
      shell: bash
''', '.github/actions/count/action.yml': '''name: Count
inputs: {file: {description: whose lines are counted, required: true}}
outputs: {lines: {description: how many there are}}
runs: {using: docker, image: Dockerfile, args: ["${{ inputs.file }}"]}
''', '.github/actions/count/Dockerfile': 'FROM alpine:3.20\nCOPY entrypoint.sh /entrypoint.sh\nENTRYPOINT ["/entrypoint.sh"]\n'}
PROGRAMS = {'configure': '#!/bin/sh\necho "called ./configure"\n', 'e2e.sh': '#!/bin/sh\n[ "$*" = --retry ] || exit 1\necho "called ./e2e.sh $*"\n',
            '.github/actions/count/entrypoint.sh': '#!/bin/sh\necho "counts $1 of $GITHUB_REPOSITORY"\necho "lines=$(wc -l < "$1")" >> "$GITHUB_OUTPUT"\n',
            'gradlew': '#!/bin/sh\n[ -n "$JAVA_HOME" ] && [ -n "$GRADLE_STANDS_IN" ] || exit 1\necho "called ./gradlew $*"\n'}
STAMP = re.compile(r'^[0-9-]{10}T[0-9:.]{16}Z ')


class Stage:
    """A service, a hub with a repository for each row, and hosts of runners with stand-ins for tools."""

    def __init__(self, folder: pathlib.Path) -> None:
        self.folder, self.mirrors, self.notes = folder, folder / 'mirrors', str(folder / 'notes')
        self.service = Service(folder / 'service')
        configured: dict[str, dict[str, Any]] = {f'octo/{row.name}': {'environments': row.environments} for row in ROWS}
        (folder / 'vars').write_text(json.dumps({f'octo/{row.name}': VARIABLES for row in ROWS}))
        made, lines = tables(folder, self.mirrors, configured, vars=str(folder / 'vars'))
        self.hub = HubProcess(folder / 'hub', self.service, tables=made, more=lines)
        self.hosts: list[Host] = []
        self.token = ''
        self.early: dict[str, list[str]] = {}  # what the hub answered to events that are made before their test

    def start(self) -> Stage:
        """Starts all of it, and what has to wait for its time."""
        for make, name in ((make_tools, 'bin'), (make_docker, 'bin'), (make_tool_cache, 'tools'), (make_actions, 'github')):
            make(self.folder / name)
        self.service.start()
        self.hub.start()
        self.token = self.hub.token('maintainer', 'write')
        self.early = {row.name: self.happen(row) for row in ROWS if row.event.name == 'schedule'}
        for name, labels in (('one', LABELS), ('two', LABELS), ('elsewhere', ELSEWHERE)):
            self.start_host(name, labels)
        return self

    def start_host(self, name: str, labels: tuple[str, ...]) -> None:
        """Starts a runner."""
        token, secrets = self.folder / f'token-{name}', self.folder / 'secrets'
        token.write_text(self.hub.token(f'runner-{name}', 'runner', prefix='', labels=labels) + '\n')
        secrets.write_text(json.dumps(SECRETS))
        for file in token, secrets:
            file.chmod(0o600)
        host = Host(['--hub', self.hub.url, '--token-file', str(token)], str(self.folder / name), self.notes, name, ','.join(labels))
        self.hosts.append(host)
        host.start('--mirrors', str(self.mirrors), '--actions-from', f'file://{self.folder}/github/{{owner}}/{{repo}}.git', '--tool-cache',
                   str(self.folder / 'tools'), '--secrets', str(secrets), pause=0.3, beat=5, PATH=f'{self.folder}/bin:{os.environ["PATH"]}')

    def end(self) -> None:
        """Ends all of it."""
        for host in self.hosts:
            if host.running:
                host.kill()
        kill_all(self.notes)
        self.hub.kill()
        self.service.kill()

    # Events.

    def happen(self, row: Row) -> list[str]:
        """Makes the event of a row happen, and gives what the hub answers: a line for each workflow, or nothing to who starts it by hand."""
        repository = self.repository(row)
        by_name: Mapping[str, Callable[[Row, Repository], list[str]]] = {
            'push': self.push, 'pull_request': self.pull, 'release': self.release, 'merge_group': self.group, 'workflow_dispatch': self.by_hand,
            'repository_dispatch': self.by_another, 'schedule': self.push, 'workflow_run': self.push}
        return by_name.get(row.event.name, self.other)(row, repository)

    def repository(self, row: Row) -> Repository:
        """A repository with the workflow and what it needs, and with two tags."""
        made = Repository(self.folder, self.mirrors, f'octo/{row.name}')
        for name, text in PROGRAMS.items():
            put((made.work / name).parent, pathlib.PurePath(name).name, text)
        files = {f'.github/workflows/{file.rpartition("/")[2]}': timed((EXAMPLES / file).read_text(), row.event) for file in (row.file, *row.others)}
        made.push('refs/heads/main', 'first', {**FILES, **files})
        made.git('push', '-q', 'origin', 'HEAD:refs/tags/v1.1')
        made.push('refs/heads/main', 'second', {'second': ''})
        made.git('push', '-q', 'origin', 'HEAD:refs/tags/v1.2')
        return made

    def send(self, row: Row, event: str, payload: Mapping[str, Any]) -> list[str]:
        """Sends a webhook, and gives the lines."""
        status, lines = Sender(self.hub, f'octo/{row.name}').send(event, payload)
        assert status == 202, lines
        return lines

    def push(self, row: Row, repository: Repository) -> list[str]:
        """A push to a branch, or of a tag."""
        is_tag = row.event.ref.startswith('refs/tags/')
        return self.send(row, 'push', repository.push(row.event.ref or 'refs/heads/main', 'third', None if is_tag else row.event.files))

    def pull(self, row: Row, repository: Repository) -> list[str]:
        """A pull request of the repository itself."""
        base, head = repository.git('rev-parse', 'HEAD'), repository.commit('change', row.event.files)
        repository.git('push', '-q', 'origin', 'HEAD:refs/pull/7/head', 'HEAD:refs/heads/change')
        ends = {'base': {'ref': 'main', 'sha': base}, 'head': {'ref': 'change', 'sha': head, 'repo': {'full_name': repository.name}}}
        pull = {**row.event.given['pull_request'], **ends, 'number': 7, 'html_url': f'https://git.example.org/{repository.name}/pull/7'}
        return self.send(row, 'pull_request', {**row.event.given, 'number': 7, 'pull_request': pull})

    def release(self, row: Row, repository: Repository) -> list[str]:
        """A release of a tag."""
        repository.git('push', '-q', 'origin', f'HEAD:{row.event.ref}')
        release = {'tag_name': row.event.ref.removeprefix('refs/tags/'), 'draft': False, 'prerelease': False}
        return self.send(row, 'release', {'release': release, **row.event.given})

    def group(self, row: Row, repository: Repository) -> list[str]:
        """A group of pull requests that is to be merged."""
        base, head = repository.git('rev-parse', 'HEAD'), repository.commit('change', row.event.files)
        ref = 'refs/heads/gh-readonly-queue/main/pr-7'
        repository.git('push', '-q', 'origin', f'HEAD:{ref}')
        group = {'head_sha': head, 'head_ref': ref, 'base_sha': base, 'base_ref': 'refs/heads/main'}
        return self.send(row, 'merge_group', {'action': 'checks_requested', 'merge_group': group})

    def by_hand(self, row: Row, repository: Repository) -> list[str]:
        """Somebody starts the workflow, which a push has brought."""
        self.push(row, repository)
        place = f'/actions/workflows/{row.path.rpartition("/")[2]}/dispatches'
        return self.posted(row, place, {'ref': 'main', 'inputs': row.event.given})

    def by_another(self, row: Row, repository: Repository) -> list[str]:
        """Another program starts it."""
        self.push(row, repository)
        return self.posted(row, '/dispatches', row.event.given)

    def posted(self, row: Row, place: str, given: Mapping[str, Any]) -> list[str]:
        """A request that has to be taken."""
        answer = self.hub.post(self.place(row) + place, json.dumps(given), self.token)
        assert answer.status == 204, answer.text
        return []

    def other(self, row: Row, _: Repository) -> list[str]:
        """An event of which the test says all."""
        return self.send(row, row.event.name, row.event.given)

    # What becomes of it.

    @staticmethod
    def place(row: Row) -> str:
        """Its repository over REST."""
        return f'/api/v3/repos/octo/{row.name}'

    def get(self, row: Row, place: str) -> Any:
        """What REST says."""
        answer = self.hub.get(self.place(row) + place, self.token)
        assert answer.status == 200, f'{place}: {answer.status} {answer.text}'
        return answer.json()

    def runs(self, row: Row) -> list[dict[str, Any]]:
        """The runs of its workflow."""
        found: list[dict[str, Any]] = self.get(row, '/actions/runs?per_page=100')['workflow_runs']
        return [run for run in found if run['path'].partition('@')[0] == row.path]

    def ended(self, row: Row) -> dict[str, Any]:
        """Its run, once it has ended. What waits for an approval gets one."""
        run = until(lambda: self.runs(row))[0]

        def look() -> dict[str, Any] | None:
            time.sleep(0.2)
            place = f'/actions/runs/{run["id"]}'
            if 'approval' in row.environments.values() and self.get(row, f'{place}/pending_deployments'):
                given = json.dumps({'state': 'approved', 'environment_ids': [], 'comment': ''})
                assert self.hub.post(self.place(row) + f'{place}/pending_deployments', given, self.token).status == 200
            found: dict[str, Any] = self.get(row, place)
            return found if found['status'] == 'completed' else None
        found: dict[str, Any] = until(look)
        return found

    def jobs(self, row: Row, run: Mapping[str, Any]) -> dict[str, dict[str, Any]]:
        """The jobs of a run by their names."""
        found = self.get(row, f'/actions/runs/{run["id"]}/jobs?per_page=100')['jobs']
        return {job['name']: job for job in found}

    def log(self, row: Row, job: Mapping[str, Any]) -> list[str]:
        """The lines of the log of a job, without times and hashes; none before it is there."""
        answer = self.hub.get(self.place(row) + f'/actions/jobs/{job["id"]}/logs', self.token)
        if answer.status != 302:
            return []
        text = self.followed(answer).text
        return [re.sub('[0-9a-f]{64}', 'HASH', STAMP.sub('', line)) for line in text.splitlines()]

    def followed(self, answer: Answer) -> Answer:
        """Where an answer leads."""
        there = urllib.parse.urlsplit(answer.headers['Location'])
        return self.hub.get(f'{there.path}?{there.query}')

    def annotations(self, row: Row, job: Mapping[str, Any]) -> list[dict[str, Any]]:
        """The annotations of a job."""
        found: list[dict[str, Any]] = self.get(row, f'/check-runs/{job["id"]}/annotations')
        return found


def timed(text: str, event: Event) -> str:
    """A workflow whose time of a day comes soon, if it has one and waits for it."""
    soon = time.gmtime(time.time() + 120)
    return re.sub("cron: '[^']*'", f"cron: '{soon.tm_min} {soon.tm_hour} * * *'", text) if event.name == 'schedule' else text


def has_in_order(lines: list[str], wanted: tuple[str, ...]) -> bool:
    """Whether these are among the lines, one after the other."""
    rest = iter(lines)
    return all(any(line == one for line in rest) for one in wanted)
