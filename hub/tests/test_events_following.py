"""What is told of runs: statuses of commits, notices, `workflow_run`, legs that nobody can take, runs that wait for too long."""
from __future__ import annotations

import asyncio
import hashlib
import hmac
import http.server
import json
import pathlib
import threading
from collections.abc import Iterator
from types import SimpleNamespace
from typing import Any

import pytest
from harness import HubProcess, RunnerLines, request, until
from repositories import created
from test_events import ONE, Place

SECRET, TOKEN = b'hush', 'a-token'
SKIPPED = '{name: Skipped, on: push, jobs: {one: {runs-on: linux, if: "false"}}}'
NAMED = '{name: CI, on: [push, pull_request], jobs: {one: {runs-on: linux, steps: [{run: "true"}]}}}'
AFTER = '{on: {workflow_run: {workflows: [CI], types: [completed]}}, jobs: {a: {runs-on: "${{ github.event.workflow_run.conclusion }}"}}}'
CHAIN = '{name: LETTER, on: {workflow_run: {workflows: [BEFORE], types: [requested]}}, jobs: {a: {runs-on: linux}}}'


class Receiver(http.server.ThreadingHTTPServer):
    """Receives what a hub sends. `faults` are the statuses of its next answers by the first part of the path; 1 ends the stream."""

    daemon_threads = True

    def __init__(self) -> None:
        super().__init__(('127.0.0.1', 0), Handler)
        self.received: list[tuple[str, dict[str, str], bytes]] = []
        self.faults: dict[str, list[int]] = {'api': [], 'notices': []}
        threading.Thread(target=self.serve_forever, daemon=True).start()

    @property
    def url(self) -> str:
        return f'http://127.0.0.1:{self.server_address[1]}'

    def statuses(self) -> list[tuple[str, dict[str, Any]]]:
        return [(path, json.loads(body)) for path, _, body in self.received if path.startswith('/api')]

    def notices(self) -> list[dict[str, Any]]:
        found = []
        for path, head, body in self.received:
            if path == '/notices':
                assert head['X-Acts-Signature-256'] == 'sha256=' + hmac.new(SECRET, body, hashlib.sha256).hexdigest()
                assert head['X-Acts-Event'] == json.loads(body)['event'] and head['X-Acts-Delivery']
                found.append(json.loads(body))
        return found

    def handle_error(self, *_: Any) -> None:
        """A hub that is killed leaves a request behind."""


class Handler(http.server.BaseHTTPRequestHandler):
    server: Receiver

    def do_POST(self) -> None:
        body = self.rfile.read(int(self.headers['Content-Length']))
        faults = self.server.faults[self.path.split('/')[1]]
        status = faults.pop(0) if faults else 201
        if status == 1:
            return
        if status == 201:
            self.server.received.append((self.path, dict(self.headers), body))
        self.send_response(status)
        if status == 302:
            self.send_header('Location', '/api/elsewhere')
        self.send_header('Content-Length', '0')
        self.end_headers()

    def log_message(self, *_: Any) -> None:
        """Nothing."""


class Told(Place):
    """A place whose hub tells a receiver."""

    def __init__(self, folder: pathlib.Path, **more: Any) -> None:
        self.receiver = Receiver()
        folder.mkdir(exist_ok=True)
        (folder / 'token').write_text(TOKEN + '\n')
        (folder / 'post').write_bytes(SECRET + b'\n')
        super().__init__(folder, statuses=f'{self.receiver.url}/api', token_file=str(folder / 'token'), post=f'{self.receiver.url}/notices',
                         post_secret_file=str(folder / 'post'), notice_pause=0.5, **more)

    def end(self) -> None:
        super().end()
        self.receiver.shutdown()

    def work(self, result: str = 'success', labels: str = 'linux') -> None:
        """Runs all legs that are ready."""
        lines: RunnerLines = self.service.lines()
        lines.numbers['w1'] = getattr(self, 'number', 0)
        while (answer := lines.claim('w1', labels))[0] == 'lease':
            lines.done('w1', answer[1], result)
        self.number = lines.numbers['w1']

    def status_of(self, run: int, state: str) -> tuple[str, dict[str, Any]]:
        """The status of a run that has come to a state."""
        def found() -> Any:
            return next((each for each in self.receiver.statuses() if each[1]['target_url'].endswith(f'/runs/{run}') and each[1]['state'] == state), None)
        return until(found, what=f'the status {state} of run {run}: {self.receiver.statuses()}')  # type: ignore[no-any-return]


@pytest.fixture(scope='module')
def told(tmp_path_factory: pytest.TempPathFactory) -> Iterator[Told]:
    made = Told(tmp_path_factory.mktemp('told') / 'x')
    try:
        made.start()
        made.hub.token('linux', 'runner', prefix='w', labels=('linux',))  # so that no status says that nobody can take a leg
        yield made
    finally:
        made.end()


@pytest.mark.quick
def test_the_status_of_a_push_is_pending_and_then_how_it_ended(told: Told) -> None:
    """GitHub Docs, "Create a commit status": state, context, description, target_url."""
    pushed = told.repository.only({'ci.yml': NAMED, 'one.yml': ONE, 'skipped.yml': SKIPPED})
    runs = created(told.sender.push(pushed))
    path, status = told.status_of(runs['ci.yml'], 'pending')
    assert path == f'/api/repos/octo/hello/statuses/{pushed["after"]}'
    assert status == {'state': 'pending', 'context': 'CI (push)', 'description': f'Run {runs["ci.yml"]}: queued',
                      'target_url': f'{told.hub.url}/octo/hello/actions/runs/{runs["ci.yml"]}'}
    assert next(head for where, head, _ in told.receiver.received if where == path)['Authorization'] == f'Bearer {TOKEN}'
    told.work('failure')
    assert told.status_of(runs['ci.yml'], 'failure')[1]['description'] == f'Run {runs["ci.yml"]}: failure'
    assert told.status_of(runs['one.yml'], 'failure')[1]['context'] == '.github/workflows/one.yml (push)'
    assert told.status_of(runs['skipped.yml'], 'success')[1]['description'] == f'Run {runs["skipped.yml"]}: skipped'


def test_the_status_of_a_pull_request_goes_to_its_head_commit_under_its_own_context(told: Told) -> None:
    base = told.repository.only({'ci.yml': NAMED})['after']
    head = told.repository.commit('a change', {'src/a': ''})
    told.repository.git('push', '-q', 'origin', 'HEAD:refs/pull/3/head')
    merge = told.repository.git('commit-tree', '-p', base, '-p', head, '-m', 'merge', 'HEAD^{tree}')
    told.repository.git('push', '-q', 'origin', f'{merge}:refs/pull/3/merge')
    ends = {'base': {'ref': 'main', 'sha': base}, 'head': {'ref': 'change', 'sha': head, 'repo': {'full_name': 'octo/hello'}}}
    run = created(told.sender.send('pull_request', {'action': 'opened', 'number': 3, 'pull_request': ends})[1])['ci.yml']
    path, status = told.status_of(run, 'pending')
    assert (path, status['context']) == (f'/api/repos/octo/hello/statuses/{head}', 'CI (pull_request)')
    assert told.body(run)['github']['sha'] == merge
    told.work()
    told.status_of(run, 'success')


def test_a_workflow_that_makes_no_run_is_an_error_at_its_commit(told: Told) -> None:
    pushed = told.repository.only({'broken.yml': 'name: Broken\non: push\njobs:\n  a: {runs-on: linux, if: "needs.b.outputs.x"}\n'})
    told.sender.push(pushed)
    found = until(lambda: [each for each in told.receiver.statuses() if each[0].endswith(pushed['after'])], what='the status')
    state = found[0][1]
    assert state['state'] == 'error' and state['context'] == 'Broken (push)'
    assert state['description'].startswith('line 4: refused 26: ') and len(state['description']) <= 140
    assert state['target_url'] == f'{told.hub.url}/octo/hello/actions/refused'


def test_notices_of_runs_that_have_completed_and_of_attempts(told: Told) -> None:
    run = created(told.sender.push(told.repository.only({'one.yml': ONE})))['one.yml']
    told.work()

    def of_run() -> list[tuple[int, str]]:
        return [(each['run']['attempt'], each['run']['conclusion']) for each in told.receiver.notices()
                if each['run']['run'] == run and each['event'] == 'run_completed']
    until(lambda: of_run() == [(1, 'success')], what='a notice')
    told.receiver.faults['notices'] = [500, 1, 302]
    told.service.post(f'/runs/{run}/attempts/2')
    told.work('failure')
    until(lambda: of_run() == [(1, 'success'), (2, 'failure')], what='the second')
    assert told.status_of(run, 'failure')[1]['description'] == f'Run {run}, attempt 2: failure'
    told.receiver.faults['notices'] = [422]
    other = created(told.sender.push(told.repository.push('refs/heads/main', 'x', {'src/y': ''})))['one.yml']
    told.work()
    told.status_of(other, 'success')
    aside = told.hub.state / 'events/notices'
    until(lambda: any(path.suffix == '.why' and '422' in path.read_text() for path in aside.iterdir()), what='what is put aside')


def test_an_attempt_that_is_followed_at_once_is_told_too(told: Told) -> None:
    run = created(told.sender.push(told.repository.only({'one.yml': ONE})))['one.yml']
    told.status_of(run, 'pending')
    lines = told.service.lines()
    lines.numbers['w1'] = getattr(told, 'number', 0)
    lines.done('w1', lines.claim('w1')[1], 'failure')
    told.service.post(f'/runs/{run}/attempts/2')
    told.number = lines.numbers['w1']
    told.work()

    def of_run() -> list[tuple[int, str]]:
        return [(each['run']['attempt'], each['run']['conclusion']) for each in told.receiver.notices() if each['run']['run'] == run]
    until(lambda: of_run() == [(1, 'failure'), (2, 'success')], what='both notices')


def test_a_redirection_takes_no_token_elsewhere(told: Told) -> None:
    told.receiver.faults['api'] = [302]
    run = created(told.sender.push(told.repository.only({'one.yml': ONE})))['one.yml']
    told.status_of(run, 'pending')
    assert not any(path.startswith('/api/elsewhere') for path, _, _ in told.receiver.received)
    told.work()


def test_workflow_run_starts_what_asks_for_the_end_of_a_workflow(told: Told) -> None:
    """GitHub Docs, "Events that trigger workflows", `workflow_run`: workflows, types, the default branch."""
    told.repository.only({'ci.yml': NAMED, 'after.yml': AFTER, 'one.yml': ONE})
    pushed = told.repository.push('refs/heads/topic', 'x', {'src/z': ''})
    runs = created(told.sender.push(pushed))
    before = told.count()
    told.work('failure')
    until(lambda: told.count() > before, what='the run that follows')
    body = told.body(before + 1)
    assert (body['path'], body['github']['event_name'], body['github']['ref']) == ('.github/workflows/after.yml', 'workflow_run', 'refs/heads/main')
    at = body['github']['event']['workflow_run']
    assert (at['id'], at['conclusion'], at['head_branch'], at['head_sha'], at['event']) == (runs['ci.yml'], 'failure', 'topic', pushed['after'], 'push')
    assert body['workflow']['jobs']['a']['runs-on'] == 'failure'
    told.work(labels='failure')
    assert told.count() == before + 1  # neither the run of one.yml nor its own starts another


def test_workflow_run_goes_three_workflows_deep(told: Told) -> None:
    """GitHub Docs: no more than three levels are chained."""
    letters = 'ABCDEF'
    files = {'a.yml': '{name: A, on: push, jobs: {a: {runs-on: linux}}}'}
    files |= {f'{letter.lower()}.yml': CHAIN.replace('LETTER', letter).replace('BEFORE', before) for before, letter in zip(letters, letters[1:])}
    before = told.count()
    told.sender.push(told.repository.only(files))
    until(lambda: told.count() == before + 4, what='A, B, C and D')
    told.work()
    run = created(told.sender.push(told.repository.push('refs/heads/main', 'x', {'src/w': ''})))['a.yml']
    until(lambda: told.count() == run + 3, what='the second chain')
    assert [told.body(run + more)['path'][-5:] for more in range(4)] == ['a.yml', 'b.yml', 'c.yml', 'd.yml']
    told.work()


def test_restarts_tell_what_was_missed_and_nothing_of_before_the_first_start(tmp_path: pathlib.Path) -> None:
    told = Told(tmp_path / 'x')
    try:
        told.service.start()
        old = told.service.admit()
        told.work()
        told.hub.start()
        told.repository.only({'one.yml': ONE})
        first = created(told.sender.push(told.repository.push('refs/heads/main', 'x', {'src/1': ''})))['one.yml']
        told.status_of(first, 'pending')
        told.hub.kill()
        told.work()
        told.service.restart()
        told.hub.start()
        told.status_of(first, 'success')
        until(lambda: [each['run']['run'] for each in told.receiver.notices()] == [first], what='the notice')
        assert old < first
    finally:
        told.end()


def test_a_leg_that_nobody_can_take_is_said_and_a_run_that_waits_too_long_is_cancelled(tmp_path: pathlib.Path) -> None:
    told = Told(tmp_path / 'x', queue_timeout=8)
    try:
        told.start()
        told.hub.token('linux', 'runner', prefix='r', labels=('linux', 'x64'))
        windows = '{on: push, jobs: {a: {runs-on: windows-latest}, b: {runs-on: [linux, x64]}}}'
        approved = '{on: push, jobs: {a: {runs-on: linux, environment: production}}}'
        runs = created(told.sender.push(told.repository.only({'w.yml': windows, 'a.yml': approved})))
        until(lambda: any(each['event'] == 'leg_unclaimable' and each['reason'] == 'no runner has windows-latest' for each in told.receiver.notices()),
              what='the notice')
        until(lambda: any(each[1]['description'].endswith('no runner has windows-latest') for each in told.receiver.statuses()), what='the status')

        def status(run: int) -> Any:
            return request(told.service.view, 'GET', f'/runs/{run}').json()
        until(lambda: status(runs['w.yml'])['conclusion'] == 'cancelled', what='the end of its wait')
        assert status(runs['a.yml'])['status'] == 'queued'  # it waits for a person
        until(lambda: told.hub.process and 'has waited for a runner for over 8 seconds' in told.hub.process.said(), what='what it says')
    finally:
        told.end()


@pytest.mark.quick
def test_unclaimable_by_tokens() -> None:
    from acts_hub.access.identity import Right
    from acts_hub.access.tokens import Token
    from acts_hub.events.waits import unclaimable_labels

    def token(labels: tuple[str, ...], repositories: tuple[str, ...] = ('*',), right: Right = Right.RUNNER, revoked: int | None = None) -> Token:
        return Token(1, b'', 'r', right, repositories, '', labels, 0, None, revoked)
    linux, windows = token(('Linux', 'x64')), token(('windows',), ('octo/*',))
    assert unclaimable_labels(('linux',), 'octo/hello', [linux, windows]) == ()
    assert unclaimable_labels(('LINUX', 'X64', 'approved-7'), 'octo/hello', [linux]) == ()
    assert unclaimable_labels(('windows',), 'octo/hello', [windows]) == () and unclaimable_labels(('windows',), 'mona/x', [windows]) == ('windows',)
    assert unclaimable_labels(('linux', 'gpu'), 'octo/hello', [linux]) == ('gpu',)
    assert unclaimable_labels(('linux', 'windows'), 'octo/hello', [linux, windows]) == ('linux', 'windows')
    assert unclaimable_labels(('linux',), 'octo/hello', [token(('linux',), right=Right.ADMIN), token(('linux',), revoked=1)]) == ('linux',)


@pytest.mark.quick
def test_a_run_whose_legs_lack_several_labels_is_told_of_once(monkeypatch: pytest.MonkeyPatch) -> None:
    """Two legs that lack different labels make one message, and the next looks at the same queue make none."""
    from acts_hub.events import waits
    from acts_hub.service.models import Ready

    told: list[str] = []

    async def say(self: waits.Waits, number: int, attempt: int, words: str) -> None:
        if self.said.get((number, attempt)) != words:
            self.said[number, attempt] = words
            told.append(words)
    monkeypatch.setattr(waits.Waits, 'say', say)
    run = SimpleNamespace(row=SimpleNamespace(attempt=1, repository='octo/hello'))
    hub = SimpleNamespace(access=SimpleNamespace(tokens=SimpleNamespace(all=list)), mirror=SimpleNamespace(runs={7: run}))
    looked: Any = waits.Waits(SimpleNamespace(hub=hub, settings=SimpleNamespace(queue_timeout=0)))  # type: ignore[arg-type]
    for _ in range(3):
        asyncio.run(looked.look([Ready(7, 'a', 0, ('gpu',)), Ready(7, 'b', 0, ('windows', 'gpu'))]))
    assert told == ['no runner has gpu, windows']


def test_what_was_forgotten_while_the_hub_was_away_makes_no_other_store(tmp_path: pathlib.Path) -> None:
    """The newest run that was told of is forgotten: what came behind it is told of all the same."""
    told = Told(tmp_path / 'x')
    try:
        told.start()
        told.repository.only({'one.yml': ONE})
        first = created(told.sender.push(told.repository.push('refs/heads/main', 'x', {'src/1': ''})))['one.yml']
        told.work()
        told.status_of(first, 'success')
        told.hub.kill()
        later = told.service.admit()
        told.work()
        assert told.service.post(f'/runs/{first}/forget').text == f'forgotten {first}\n'
        told.hub.start()
        told.status_of(later, 'success')
        assert told.hub.process and 'this is another store' not in told.hub.process.said()
    finally:
        told.end()


def test_another_store_is_taken_up_without_a_word(tmp_path: pathlib.Path) -> None:
    """A hub that finds another store in place of its own tells nothing of what is there, and of what comes then."""
    told = Told(tmp_path / 'x')
    try:
        told.start()
        told.repository.only({'one.yml': ONE})
        first = created(told.sender.push(told.repository.push('refs/heads/main', 'x', {'src/1': ''})))['one.yml']
        told.work()
        told.status_of(first, 'success')
        told.hub.kill()
        told.service.kill()
        told.service.store.unlink()
        told.service.start()
        told.number = 0
        for _ in range(3):
            told.service.admit()
        told.work()
        before = len(told.receiver.received)
        told.hub.start()
        until(lambda: told.hub.process and 'this is another store' in told.hub.process.said(), what='what it says')
        run = created(told.sender.push(told.repository.push('refs/heads/main', 'y', {'src/2': ''})))['one.yml']
        told.status_of(run, 'pending')
        assert run == 4
        later = [json.loads(body) for path, _, body in told.receiver.received[before:] if path.startswith('/api')]
        ends = {each['target_url'].rpartition('/')[2] for each in later if each['description'] != f'Run {first}: success'}  # sent again
        assert ends == {'4'}
    finally:
        told.end()
