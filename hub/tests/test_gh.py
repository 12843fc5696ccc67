"""The real `gh` over TLS against the hub and the service: what people type."""
from __future__ import annotations

import hashlib
import io
import json
import os
import pathlib
import subprocess
import zipfile
from collections.abc import Iterator, Mapping
from dataclasses import dataclass, field
from typing import Any

import pytest
from harness import HubProcess, Service, body_of, until
from repositories import Repository, tables
from wires import Wire

from acts_hub.rest.numbers import JobNumber
from acts_hub.times import now

REPO = 'octo/hello'
BY_HAND = '''name: By hand
on:
  workflow_dispatch:
    inputs:
      where: {type: choice, options: [staging, production], default: staging}
jobs:
  go: {runs-on: linux, steps: [{run: 'echo ${{ inputs.where }}'}]}
'''
BUILD = {'build': {'runs-on': 'linux',
                   'steps': [{'name': 'Compile', 'run': 'echo compiled'}, {'name': 'Test', 'run': 'exit 3'}]}}


@dataclass
class Desk:
    """The service, the hub, a runner by hand and `gh`."""

    service: Service
    hub: HubProcess
    wire: Wire
    home: pathlib.Path
    tokens: dict[str, str] = field(default_factory=dict)

    @property
    def repository(self) -> str:
        """The repository with its host, as `gh` takes it."""
        return f'localhost:{self.hub.port}/{REPO}'

    def env(self, token: str = 'write') -> dict[str, str]:
        """The environment of `gh`: nothing of this machine's own settings."""
        return {'PATH': os.environ['PATH'], 'HOME': str(self.home), 'TMPDIR': str(self.home),
                'GH_HOST': f'localhost:{self.hub.port}', 'NO_COLOR': '1',
                'GH_ENTERPRISE_TOKEN': self.tokens.get(token, token), 'GH_REPO': self.repository,
                'SSL_CERT_FILE': str(self.hub.ca),
                'GH_PROMPT_DISABLED': '1', 'GH_NO_UPDATE_NOTIFIER': '1'}

    def gh(self, *words: object, token: str = 'write',
           env: Mapping[str, str] | None = None) -> subprocess.CompletedProcess[str]:
        """Runs `gh`."""
        return subprocess.run(['gh', *map(str, words)], cwd=self.home, env={**self.env(token), **(env or {})},
                              capture_output=True, text=True, timeout=120)

    def says(self, *words: object, status: int = 0, token: str = 'write') -> str:
        """What `gh` prints, on both streams, when it ends with this status."""
        made = self.gh(*words, token=token)
        assert made.returncode == status, (words, made.returncode, made.stdout, made.stderr)
        return made.stdout + made.stderr

    def json(self, *words: object) -> Any:
        """The JSON that `gh` prints."""
        made = self.gh(*words)
        assert made.returncode == 0, (words, made.stderr)
        return json.loads(made.stdout)

    def api(self, path: str, token: str = 'write') -> Any:
        """What the hub answers below the repository."""
        answer = self.hub.get(f'/api/v3/repos/{REPO}/{path}', self.tokens[token])
        return answer.json() if answer.status == 200 else None

    def admit(self, body: bytes | None = None, event: str = 'push') -> int:
        """Admits an event, and waits till the hub shows its run with its commit."""
        number = self.service.admit(body_of('CI', BUILD) if body is None else body, event)
        until(lambda: (self.api(f'actions/runs/{number}') or {}).get('head_sha'), what=f'run {number}')
        return number

    def claim(self, run: int) -> str:
        """Claims the leg of a run; gives the lease."""
        words = self.wire.claim('by-hand')
        assert words[0] == 'lease' and int(words[2]) == run, words
        return words[1]

    def log(self, run: int, attempt: int, lease: str, outcome: str) -> None:
        """Sends the log of two steps, of which the second ends as it is said, with an annotation."""
        place, claim = f'{run}/{attempt}/build/0/{lease}', self.wire.claims[lease]
        first, second = b'2026-11-30T19:30:11.000Z compiled\n', b'2026-11-30T19:30:12.000Z a lot went on\n'
        ends = len(first), len(first + second)
        marks = [{'step': 1, 'begins': True, 'name': 'Compile', 'bytes': 0},
                 {'step': 1, 'ends': True, 'conclusion': 'success', 'bytes': ends[0]},
                 {'step': 2, 'begins': True, 'name': 'Test', 'bytes': ends[0]},
                 {'step': 2, 'bytes': ends[0],
                  'annotation': {'annotation_level': 'failure', 'message': 'wrong by one', 'path': 'src/a.py',
                                 'start_line': 7}},
                 {'step': 2, 'ends': True, 'conclusion': outcome, 'bytes': ends[1]},
                 {'complete': True, 'bytes': ends[1]}]
        assert self.wire.put('logs', place, first + second, claim, offset=0).status == 200
        text = ''.join(json.dumps({**mark, 'at': now()}) + '\n' for mark in marks)
        assert self.wire.put('marks', place, text.encode(), claim, offset=0).status == 200

    def finish(self, run: int, outcome: str = 'success', attempt: int = 1) -> str:
        """Runs the one leg of a run to its end."""
        lease = self.claim(run)
        self.log(run, attempt, lease, outcome)
        self.done(run, lease, outcome, attempt)
        return lease

    def done(self, run: int, lease: str, outcome: str = 'success', attempt: int = 1) -> None:
        """Reports a leg, and waits till the hub shows it."""
        assert self.wire.done('by-hand', lease, outcome) == 'ok'
        self.wait(run, 'completed', attempt)

    def wait(self, run: int, status: str, attempt: int = 1) -> None:
        """Waits till the hub shows a run so."""
        def is_so() -> bool:
            found = self.api(f'actions/runs/{run}')
            return bool(found and found['status'] == status and found['run_attempt'] == attempt)
        until(is_so, what=f'run {run} {status}')

    def cancel_all(self) -> None:
        """Ends what tests left, so that the next finds no leg but its own."""
        for run in (self.api('actions/runs?per_page=100') or {'workflow_runs': []})['workflow_runs']:
            if run['status'] != 'completed':
                self.service.post(f'/runs/{run["id"]}/cancel')


@pytest.fixture(scope='module')
def made(tmp_path_factory: pytest.TempPathFactory) -> Iterator[Desk]:
    folder = tmp_path_factory.mktemp('gh')
    service = Service(folder / 'service')
    repository = Repository(folder, folder / 'mirrors')
    repository.only({'by_hand.yml': BY_HAND})
    given, lines = tables(folder, folder / 'mirrors', {REPO: {}})
    hub = HubProcess(folder / 'hub', service, tls=True, tables=given, more=lines)
    (folder / 'home').mkdir()
    try:
        service.start()
        hub.start()
        wire = Wire(hub, hub.token('host', 'runner', prefix='by-hand', labels=('linux',)))
        tokens = {'write': hub.token('mona', 'write'), 'read': hub.token('reader', 'read', repositories=('octo/*',)),
                  'other': hub.token('other', 'write', repositories=('other/*',))}
        yield Desk(service, hub, wire, folder / 'home', tokens)
        wire.close()
    finally:
        hub.kill()
        service.kill()


@pytest.fixture
def desk(made: Desk) -> Iterator[Desk]:
    yield made
    made.cancel_all()


def test_auth_status(desk: Desk) -> None:
    said = desk.says('auth', 'status')
    assert f'Logged in to localhost:{desk.hub.port} as mona' in said and 'X' not in said
    assert 'Logged in' in desk.says('auth', 'status', token='read')
    assert 'authentication failed' in desk.says('auth', 'status', token='wrong', status=1)


def test_run_list_with_its_filters(desk: Desk) -> None:
    first = desk.admit(body_of('CI', BUILD, message='Say it\n\nMore',
                               github={'ref_name': 'topic/a', 'ref': 'refs/heads/topic/a', 'actor': 'hubot'}))
    desk.finish(first, 'failure')
    second = desk.admit(body_of('Lint', path='.github/workflows/lint.yml', message='Lint it'))
    said = desk.says('run', 'list')
    row = next(line for line in said.splitlines() if f'\t{first}\t' in line).split('\t')
    assert row[:7] == ['completed', 'failure', 'Say it', 'CI', 'topic/a', 'push', str(first)]
    assert f'queued\t\tLint it\tLint\tmain\tpush\t{second}\t' in said

    def ids(*words: str) -> set[int]:
        return {run['databaseId'] for run in desk.json('run', 'list', '--limit', 100, '--json', 'databaseId', *words)}
    assert first in ids('--branch', 'topic/a') and second not in ids('--branch', 'topic/a')
    assert first in ids('--user', 'hubot') and second not in ids('--user', 'hubot')
    assert second in ids('--workflow',
                         'lint.yml') and first not in ids('--workflow', 'Lint') and second in ids('--workflow', 'Lint')
    found, = [run for run in desk.json('run', 'list', '--json',
                                       'conclusion,createdAt,databaseId,displayTitle,event,headBranch,headSha,name,number,startedAt,status,'
                                                                'updatedAt,url,workflowDatabaseId,workflowName')
                                                                if run['databaseId'] == first]
    assert (found['conclusion'], found['displayTitle'], found['headBranch'], found['workflowName'],
            found['event']) == ('failure', 'Say it', 'topic/a', 'CI', 'push')
    assert found['url'] == f'https://localhost:{desk.hub.port}/{REPO}/actions/runs/{first}' and not found[
        'createdAt'].startswith('0001')


def test_run_view_log_and_job(desk: Desk) -> None:
    run = desk.admit()
    desk.finish(run, 'failure')
    job = JobNumber(run, 1, 0, 0).value
    said = desk.says('run', 'view', run)
    assert f'X main CI · {run}' in said and f'X build in' in said and f'(ID {job})' in said
    assert 'X wrong by one' in said and 'build: src/a.py#7' in said
    assert 'X Test' in desk.says('run', 'view', '--job', job) and 'X Test' in desk.says('run', 'view', run, '--verbose')
    desk.says('run', 'view', run, '--exit-status', status=1)
    lines = desk.says('run', 'view', run, '--log').splitlines()
    assert [line.split('\t')[:2] for line in lines] == [['build', 'Compile'],
                                                        ['build', 'Test']] and lines[0].endswith('Z compiled')
    assert [line.split('\t')[1:] for line in desk.says('run', 'view', run,
                                                       '--log-failed').splitlines()] == [['Test',
                                                                                          '2026-11-30T19:30:12.000Z a lot went on']]
    assert 'a lot went on' in desk.says('run', 'view', '--job', job, '--log')
    found = desk.json('run', 'view', run, '--json', 'jobs,conclusion')
    assert [(one['name'], one['conclusion'], [step['name'] for step in one['steps']])
            for one in found['jobs']] == [('build', 'failure', ['Compile', 'Test'])]


def test_a_run_of_skipped_jobs_is_skipped(desk: Desk) -> None:
    """GitHub Docs, "Using conditions to control job execution": a job whose condition is false is skipped."""
    run = desk.admit(body_of('Skipped',
                             {'a': {'runs-on': 'linux', 'if': False}, 'b': {'runs-on': 'linux', 'needs': 'a'}}))
    until(lambda: desk.api(f'actions/runs/{run}')['conclusion'] == 'skipped', what='the conclusion')
    assert f'completed\tskipped\tSay hello\tSkipped\tmain\tpush\t{run}\t' in desk.says('run', 'list')
    assert run in [one['id'] for one in desk.api('actions/runs?status=skipped')['workflow_runs']]
    assert run not in [one['id'] for one in desk.api('actions/runs?status=success&per_page=100')['workflow_runs']]
    assert [one['conclusion'] for one in desk.api(f'actions/runs/{run}/jobs')['jobs']] == ['skipped', 'skipped']
    sha = desk.api(f'actions/runs/{run}')['head_sha']
    assert desk.api(f'commits/{sha}/status')['state'] == 'success'
    assert [one['conclusion'] for one in desk.api(f'commits/{sha}/check-runs')['check_runs']] == ['skipped', 'skipped']


def test_run_watch(desk: Desk) -> None:
    run = desk.admit()
    lease = desk.claim(run)
    desk.wait(run, 'in_progress')
    desk.log(run, 1, lease, 'success')
    output = desk.home / 'watch.out'
    with open(output, 'wb') as file:
        watching = subprocess.Popen(['gh', 'run', 'watch', str(run), '-i', '1', '--exit-status'], cwd=desk.home,
                                    env=desk.env(), stdout=file, stderr=file)
    try:
        until(lambda: 'build' in output.read_text(), what='the first look')
        desk.done(run, lease)
        status = watching.wait(60)
    finally:
        watching.kill()
    said = output.read_text()
    assert status == 0 and '* build' in said and '✓ build in' in said and '✓ Compile' in said


def test_run_cancel(desk: Desk) -> None:
    run = desk.admit()
    desk.says('run', 'cancel', run)
    desk.wait(run, 'completed')
    assert desk.json('run', 'view', run, '--json', 'conclusion') == {'conclusion': 'cancelled'}
    assert 'completed' in desk.says('run', 'cancel', run, status=1)
    assert 'HTTP 403' in desk.says('run', 'cancel', run, token='read', status=1)


def test_run_rerun(desk: Desk) -> None:
    run = desk.admit()
    desk.finish(run, 'failure')
    before = desk.api(f'actions/runs/{run}/attempts/1/jobs')['jobs']
    desk.says('run', 'rerun', run)
    desk.wait(run, 'queued', 2)
    lease = desk.claim(run)
    desk.log(run, 2, lease, 'success')
    desk.done(run, lease, 'success', 2)
    found = desk.api(f'actions/runs/{run}')
    assert (found['run_attempt'], found['conclusion'], found['triggering_actor']['login']) == (2, 'success', 'mona')
    after = desk.api(f'actions/runs/{run}/attempts/1/jobs')['jobs']
    assert [(one['name'], one['conclusion'], one['runner_name'])
            for one in after] == [('build', 'failure', 'by-hand')] == [
        (one['name'], one['conclusion'], one['runner_name']) for one in before]
    assert '✓ build in' in desk.says('run', 'view', run)
    assert [one['run_attempt'] for one in desk.api(f'actions/runs/{run}/jobs?filter=all')['jobs']] == [1, 2]


def test_rerun_of_what_the_service_can_t_says_so(desk: Desk) -> None:
    run = desk.admit()
    desk.finish(run, 'failure')
    assert 'whole run again' in desk.says('run', 'rerun', run, '--failed', status=1)
    assert 'whole run again' in desk.says('run', 'rerun', '--job', JobNumber(run, 1, 0, 0).value, status=1)
    assert desk.api(f'actions/runs/{run}')['run_attempt'] == 1


def test_workflows(desk: Desk) -> None:
    run = desk.admit(body_of('Deploy', path='.github/workflows/deploy.yml'))
    until(lambda: 'Deploy\tactive\t' in desk.says('workflow', 'list'), what='the workflow')
    assert f'\t{run}' in desk.says('workflow', 'view',
                                   'deploy.yml') and 'Deploy' in desk.says('workflow', 'view', 'Deploy')
    assert '"runs-on": "linux"' in desk.says('workflow', 'view', 'deploy.yml', '--yaml')
    assert 'as long as' in desk.says('workflow', 'disable', 'deploy.yml', status=1)
    assert desk.says('workflow', 'view', 'by_hand.yml', '--yaml') == BY_HAND  # of the mirror, without a run
    assert 'workflow_dispatch' in desk.says('workflow', 'view', 'by_hand.yml', '--yaml', '--ref', 'main')
    desk.says('workflow', 'view', 'by_hand.yml', '--yaml', '--ref', 'none', status=1)


def test_workflow_run(desk: Desk) -> None:
    before = desk.api('actions/runs?event=workflow_dispatch')['total_count']
    desk.says('workflow', 'run', 'by_hand.yml', '-f', 'where=production')
    until(lambda: desk.api('actions/runs?event=workflow_dispatch')['total_count'] == before + 1, what='the run')
    run = desk.api('actions/runs?event=workflow_dispatch')['workflow_runs'][0]
    assert (run['name'], run['head_branch'], run['actor']['login'],
            run['path']) == ('By hand', 'main', 'mona', '.github/workflows/by_hand.yml')
    admitted = json.loads(desk.service.lines().ask(f'FETCH {run["id"]}'))
    assert admitted['inputs'] == {'where': 'production'}
    assert f'\tworkflow_dispatch\t{run["id"]}\t' in desk.says('run', 'list', '--workflow', 'By hand')
    for words, said in ((('-f', 'where=nowhere'), 'no option nowhere'), (('--ref', 'none'), 'No ref found for'),
                        (('-f', 'other=1'), 'no input other')):
        assert said in desk.says('workflow', 'run', 'by_hand.yml', *words, status=1)
    assert 'HTTP 403' in desk.says('workflow', 'run', 'by_hand.yml', token='read', status=1)
    assert desk.api('actions/runs?event=workflow_dispatch')['total_count'] == before + 1


def test_run_download(desk: Desk) -> None:
    run = desk.admit()
    lease = desk.claim(run)
    file = io.BytesIO()
    with zipfile.ZipFile(file, 'w') as packed:
        packed.writestr('out/a.txt', 'made\n')
    data = file.getvalue()
    kept = desk.wire.put('artifacts', f'{run}/1/build/0/{lease}', data, desk.wire.claims[lease], name='things',
                         digest=hashlib.sha256(data).hexdigest())
    assert kept.status == 201, kept
    desk.done(run, lease)
    assert 'things' in desk.says('run', 'view', run)
    desk.says('run', 'download', run, '--name', 'things', '--dir', 'got')
    assert (desk.home / 'got' / 'out' / 'a.txt').read_text() == 'made\n'
    desk.says('run', 'download', run, '--dir', 'every')
    assert (desk.home / 'every' / 'things' / 'out' / 'a.txt').read_text() == 'made\n'
    assert 'no artifact matches' in desk.says('run', 'download', run, '--name', 'none', status=1)
    assert 'HTTP 404' in desk.says('run', 'download', run, token='other', status=1)


def test_pr_checks(desk: Desk) -> None:
    event = {'pull_request': {'number': 7, 'title': 'A feature', 'head': {'sha': 'b' * 40, 'repo': {'full_name': REPO}},
                              'base': {'ref': 'main'}}}
    run = desk.admit(body_of('CI', BUILD,
                             github={'ref': 'refs/pull/7/merge', 'ref_name': '7/merge', 'head_ref': 'feature',
                                     'base_ref': 'main', 'sha': 'c' * 40,
                                                  'event': event}), 'pull_request')
    assert desk.says('pr', 'checks', 7, status=1).startswith('build\tpending\t')
    desk.finish(run)
    assert desk.says('pr', 'checks', 7).startswith('build\tpass\t')
    assert 'feature CI #7' in desk.says('run', 'view', run)
    assert desk.api(f'commits/{"b" * 40}/status')['state'] == 'success' and desk.api(
        f'commits/{"c" * 40}/status') is None
    assert 'PullRequest with the number of 99' in desk.says('pr', 'checks', 99, status=1)


def test_repo_view(desk: Desk) -> None:
    desk.admit()
    found = desk.json('repo', 'view', desk.repository, '--json', 'name,owner,defaultBranchRef,viewerPermission')
    assert (found['name'], found['owner']['login'], found['defaultBranchRef'],
            found['viewerPermission']) == ('hello', 'octo', {'name': 'main'}, 'WRITE')
    assert f'name:\t{REPO}' in desk.says('repo', 'view', desk.repository)


def test_api_with_pages(desk: Desk) -> None:
    for _ in range(3):
        desk.admit()
    every = [int(word) for word in desk.says('api', f'repos/{REPO}/actions/runs?per_page=2', '--paginate', '--jq',
                                             '.workflow_runs[].id').split()]
    assert len(every) >= 3 and every == sorted(every,
                                               reverse=True) and len(set(every)) == len(every) == desk.api(
                                                   'actions/runs')['total_count']
    assert desk.says('api', 'user', '--jq', '.login') == 'mona\n'


def test_what_a_token_may(desk: Desk) -> None:
    run = desk.admit()
    assert f'\t{run}\t' in desk.says('run', 'list', token='read')
    assert 'HTTP 404' in desk.says('run', 'list', token='other', status=1)
    assert 'HTTP 401' in desk.says('run', 'list', token='wrong', status=1)
    assert 'HTTP 401' in desk.says('api', 'graphql', '-f', 'query={viewer{login}}', token='wrong', status=1)
    made = desk.gh('run', 'list', env={'SSL_CERT_FILE': '/dev/null'})
    assert made.returncode == 1 and 'certificate' in made.stderr


def test_what_can_t_be_had_says_why(desk: Desk) -> None:
    desk.admit()
    assert 'Secrets are with the runners' in desk.says('secret', 'list', status=1)
    assert 'pull request is open is not known here' in desk.says('pr', 'list', status=1)
    assert 'Pull requests are not kept here' in desk.says('api', f'repos/{REPO}/pulls', status=1)
    assert 'changes nothing by GraphQL' in desk.says('api', 'graphql', '-f', 'query=mutation { a { b } }', status=1)
    assert 'HTTP 404' in desk.says('run', 'view', 99999, status=1)
