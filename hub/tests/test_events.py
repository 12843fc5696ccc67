"""Webhooks from end to end: a repository is pushed to, its mirror is fetched, signed deliveries come, and the service makes runs."""
from __future__ import annotations

import json
import pathlib
from collections.abc import Callable, Iterator
from typing import Any

import pytest
from harness import HubProcess, Service, until
from repositories import SECRET, Repository, Sender, created, tables

pytestmark = pytest.mark.quick
CI = '''
name: CI
run-name: ${{ github.event_name }} of ${{ github.ref_name }}
on:
  push: {branches: [main, 'release/**'], paths-ignore: ['docs/**']}
  pull_request: {branches: [main]}
concurrency: {group: "${{ github.workflow }}-${{ github.ref }}", cancel-in-progress: "${{ github.ref != 'refs/heads/main' }}"}
jobs:
  build: {runs-on: linux, steps: [{run: 'echo "$GREETING" > built', env: {GREETING: yes}}]}
  deploy: {needs: build, if: github.ref == 'refs/heads/main' && !cancelled(), runs-on: linux, steps: [{run: 'true'}]}
  tell: {needs: build, if: "startsWith(github.ref, 'refs/heads/release/')", runs-on: "${{ format('{0}', vars.LABEL) }}", steps: [{run: 'true'}]}
'''
DOCS = '{on: {push: {paths: [docs/**]}}, jobs: {pages: {runs-on: linux, steps: [{run: "true"}]}}}'
TAG = '{on: {push: {tags: ["v[0-9]+"]}}, jobs: {release: {runs-on: linux, steps: [{run: "true"}]}}}'
ONE = '{on: push, jobs: {one: {runs-on: linux, steps: [{run: "true"}]}}}'
BY_HAND = '''
on: {workflow_dispatch: {inputs: {size: {type: choice, options: [small, large], default: small}, dry: {type: boolean, default: true},
     name: {required: true}, many: {type: number}}}}
jobs:
  dry: {if: inputs.dry, runs-on: "${{ inputs.size }}", steps: [{run: 'true'}]}
  wet: {if: '!inputs.dry', runs-on: "${{ inputs.size }}", steps: [{run: 'true'}]}
'''


class Place:
    """A service, a hub, and a repository with a mirror."""

    def __init__(self, folder: pathlib.Path, **more: Any) -> None:
        self.folder, self.mirrors = folder, folder / 'mirrors'
        self.repository = Repository(folder, self.mirrors)
        self.other = Repository(folder, self.mirrors, 'octo/other')
        (folder / 'vars').write_text('{"octo/hello": {"LABEL": "linux"}}')
        self.service = Service(folder / 'service')
        names: dict[str, dict[str, Any]] = {
            'octo/hello': {'environments': {'staging': 'free', 'production': 'approval'}, 'protected': ['main']}, 'octo/other': {'pull_request_target': True},
            'octo/unmirrored': {}}
        made, lines = tables(folder, self.mirrors, names, vars=str(folder / 'vars'), **{'forks': False, **more})
        self.hub = HubProcess(folder / 'hub', self.service, tables=made, more=lines)
        self.sender, self.of_other = Sender(self.hub), Sender(self.hub, 'octo/other')

    def start(self) -> Place:
        self.service.start()
        self.hub.start()
        return self

    def end(self) -> None:
        self.hub.kill()
        self.service.kill()

    def body(self, run: int) -> Any:
        """The admitted body of a run."""
        return self.service.lines().ask(f'FETCH {run}') and json.loads(self.service.lines().ask(f'FETCH {run}'))

    def count(self) -> int:
        """How many runs there are."""
        from harness import request
        rows = request(self.service.view, 'GET', '/runs?limit=1').json()['runs']
        return int(rows[0]['run']) if rows else 0

    def refused(self) -> list[tuple[Any, ...]]:
        """The refused events that the ledger keeps: event, path, code, line, words, advice; the newest first."""
        import sqlite3
        connection = sqlite3.connect(f'file:{self.hub.state}/ledger.sqlite?mode=ro', uri=True)
        try:
            return connection.execute('select event, path, code, line, words, advice from refused order by id desc').fetchall()
        finally:
            connection.close()


@pytest.fixture(scope='module')
def place(tmp_path_factory: pytest.TempPathFactory) -> Iterator[Place]:
    made = Place(tmp_path_factory.mktemp('events'))
    try:
        yield made.start()
    finally:
        made.end()


def test_the_signature_of_the_documentation(place: Place) -> None:
    """GitHub Docs, "Validating webhook deliveries": secret, payload and signature of its test values."""
    from acts_hub.events.signatures import is_signed, signature
    signed = 'sha256=757107ea0eb2509fc211221cce984b8a37570b6d7586c22c46f4379c8b043e17'
    assert signature(SECRET, b'Hello, World!') == signed and is_signed(SECRET, b'Hello, World!', signed)
    assert place.sender.post('push', b'Hello, World!', signed).status == 400  # signed, and no JSON


@pytest.mark.parametrize('wrong', [None, '', 'sha256=', 'sha256=757107', 'sha1=x', 'sha256=é'.encode().decode('latin-1')])
def test_without_a_right_signature_nothing_is_taken(place: Place, wrong: str | None) -> None:
    before = place.count()
    body = json.dumps(place.sender.payload(place.repository.only({'one.yml': ONE}))).encode()
    answer = place.sender.post('push', body, wrong)
    assert (answer.status, answer.text) == (401, 'the signature is missing or wrong\n')
    right = place.sender.signed(body)
    assert place.sender.post('push', body, right[:-1] + ('0' if right[-1] != '0' else '1')).status == 401
    assert place.sender.post('push', body, right.removeprefix('sha256=')).status == 401
    assert place.sender.post('push', body + b' ', right).status == 401
    assert place.count() == before


def test_a_secret_signs_for_its_own_repository_alone(tmp_path: pathlib.Path, place: Place) -> None:
    """A payload that names another repository than the one whose secret signed it."""
    body = json.dumps({**place.sender.payload({}), 'repository': {'full_name': 'octo/elsewhere'}}).encode()
    answer = place.sender.post('push', body, place.sender.signed(body))
    assert (answer.status, answer.text) == (401, 'the signature is not that of the repository which the payload names\n')


def test_what_is_no_payload(place: Place) -> None:
    for body, status in ((b'[1]', 400), (b'payload=%7B%7D', 400), (b'{}', 400), (b'{"repository": {"full_name": 5}}', 400), (b'[' * 100000, 400)):
        assert place.sender.post('push', body, place.sender.signed(body)).status == status
    assert place.hub.request('GET', '/webhooks/github').status in (303, 404, 405)  # sign in first, as for any page
    body = json.dumps(place.sender.payload({})).encode()
    for id in '', 'x' * 65, '../../x', 'a b':
        assert place.sender.post('push', body, place.sender.signed(body), id or ' ').status == 400


def test_a_payload_that_is_too_long_is_not_read(place: Place) -> None:
    import socket
    for head in f'Content-Length: {26 << 20}', 'Content-Length: 99999999999', 'Transfer-Encoding: chunked', 'Content-Length: -1':
        with socket.create_connection(('127.0.0.1', place.hub.port), 180) as stream:
            stream.sendall(f'POST /webhooks/github HTTP/1.1\r\nHost: x\r\nX-GitHub-Event: push\r\n{head}\r\n\r\n'.encode())
            assert stream.recv(100).split()[1] in (b'413', b'400'), head


def test_clients_that_announce_much_and_send_nothing_hold_up_no_delivery(place: Place) -> None:
    import contextlib
    import socket
    import time
    pushed = place.repository.only({'one.yml': ONE})
    with contextlib.ExitStack() as stack:
        for _ in range(50):
            stream = stack.enter_context(socket.create_connection(('127.0.0.1', place.hub.port), 180))
            stream.sendall(f'POST /webhooks/github HTTP/1.1\r\nHost: x\r\nX-GitHub-Event: push\r\nContent-Length: {25 << 20}\r\n\r\n['.encode())
        time.sleep(0.5)
        assert list(created(place.sender.push(pushed))) == ['one.yml']


def test_a_ping_and_an_event_that_no_rule_takes(place: Place) -> None:
    assert place.sender.send('ping', {}) == (200, ['not taken: the event ping'])
    assert place.sender.send('star', {}) == (202, ['not taken: the event star'])
    status, lines = place.sender.send('workflow_dispatch', {'ref': 'main'})
    assert status == 202 and lines[0].startswith('not taken: the event workflow_dispatch: start it from the page')


def test_a_push_makes_a_run_of_each_workflow_that_wants_it_and_the_same_delivery_no_other(place: Place) -> None:
    pushed = place.repository.only({'ci.yml': CI, 'docs.yaml': DOCS, 'tag.yml': TAG, 'by_hand.yml': BY_HAND})
    before = place.count()
    lines = place.sender.push(pushed, 'd-1')
    assert [line.replace(str(before + 1), 'N') for line in lines] == [
        'by_hand.yml: not started: `on` does not name push', 'ci.yml: created N',
        'docs.yaml: not started: its `paths` leave out all files that changed', 'tag.yml: not started: it asks for tags alone']
    assert place.sender.push(pushed, 'd-1') == lines  # GitHub's redelivery
    assert place.sender.push(pushed, 'd-2') == lines  # the same signed bytes under another id: a replay
    assert place.count() == before + 1
    body = place.body(before + 1)
    workflow, jobs, github = body['workflow'], body['workflow']['jobs'], body['github']
    assert (body['repo'], body['path'], github['sha'], github['ref_name']) == ('octo/hello', '.github/workflows/ci.yml', pushed['after'], 'main')
    assert workflow['concurrency'] == {'group': 'CI-refs/heads/main', 'cancel-in-progress': 'false'}
    assert (jobs['deploy']['if'], jobs['tell']['if'], jobs['tell']['runs-on']) == ('!cancelled()', False, 'linux')
    assert jobs['build']['steps'][0]['env'] == {'GREETING': 'yes'}
    assert (workflow['run-name'], github['run_name']) == ('push of main', 'push of main')


def test_what_github_documents_is_in_the_context(place: Place) -> None:
    """GitHub Docs, "Contexts reference", `github`: the members, by the payload that came."""
    pushed = place.repository.only({'one.yml': ONE})
    github = place.body(created(place.sender.push(pushed))['one.yml'])['github']
    wanted = {
        'event_name': 'push', 'ref': 'refs/heads/main', 'ref_type': 'branch', 'ref_protected': True, 'actor': 'octocat', 'actor_id': '583231',
        'triggering_actor': 'octocat', 'repository': 'octo/hello', 'repository_id': '1296269', 'repository_owner': 'octo', 'repository_owner_id': '21031067',
        'workflow': '.github/workflows/one.yml', 'workflow_ref': 'octo/hello/.github/workflows/one.yml@refs/heads/main', 'workflow_sha': pushed['after'],
        'server_url': place.hub.url, 'api_url': 'https://git.example.org/api/v3', 'graphql_url': 'https://git.example.org/api/graphql',
        'base_ref': '', 'head_ref': ''}
    assert {name: github.get(name) for name in wanted} == wanted
    assert github['event']['sender']['html_url'] == 'https://git.example.org/octocat'
    assert github['event']['repository']['html_url'] == 'https://git.example.org/octo/hello'
    assert 'url' not in github['event']['repository']


def test_filters_of_branches_tags_and_paths(place: Place) -> None:
    repository, sender = place.repository, place.sender
    repository.only({'ci.yml': CI, 'docs.yaml': DOCS, 'tag.yml': TAG})
    assert list(created(sender.push(repository.push('refs/heads/main', 'docs alone', {'docs/a/b.md': ''})))) == ['docs.yaml']
    release = repository.push('refs/heads/release/1', 'a release', {'src/b.c': ''})
    assert list(created(sender.push(release))) == ['ci.yml']
    assert sender.push(repository.push('refs/heads/other', 'another', {'src/c.c': ''}))[0] == 'ci.yml: not started: its `branches` leave out other'
    moved = {**repository.push('refs/tags/v12', '', None), 'before': release['after']}
    assert sender.push(moved)[0] == 'ci.yml: not started: it asks for branches alone'
    assert list(created(sender.push({**moved, 'again': 1}))) == ['docs.yaml', 'tag.yml']
    assert sender.push(repository.push('refs/tags/v1.2', '', None))[2] == 'tag.yml: not started: its `tags` leave out v1.2'
    gone = {'ref': 'refs/heads/other', 'before': release['after'], 'after': 40 * '0', 'deleted': True, 'commits': []}
    assert sender.push(gone) == ['not taken: the branch or tag was deleted']
    quiet = repository.push('refs/heads/main', 'quiet [skip ci]', {'src/d.c': ''})
    assert sender.push(quiet) == ['not taken: the commit asks to be skipped']
    repository.push('refs/heads/main', 'loud', {'src/g.c': ''})
    assert list(created(sender.push(repository.push('refs/heads/same', '', None)))) == ['docs.yaml']  # nothing to compare with
    repository.git('mv', 'docs/a/b.md', 'src/b.md')
    assert list(created(sender.push(repository.push('refs/heads/same', 'moved', {'src/f.c': ''})))) == ['docs.yaml']  # both names count


def test_pull_requests(place: Place) -> None:
    repository, sender = place.repository, place.sender
    base = repository.only({'ci.yml': CI})['after']
    head = repository.commit('a change', {'src/e.c': ''})
    repository.git('push', '-q', 'origin', 'HEAD:refs/pull/7/head')
    ends = {'base': {'ref': 'main', 'sha': base}, 'head': {'ref': 'change', 'sha': head, 'repo': {'full_name': 'octo/hello'}}}
    pull: dict[str, Any] = {'action': 'opened', 'number': 7, 'pull_request': ends}
    github = place.body(created(sender.send('pull_request', pull)[1])['ci.yml'])['github']
    assert {name: github[name] for name in ('ref', 'ref_name', 'base_ref', 'head_ref', 'sha')} == {
        'ref': 'refs/pull/7/merge', 'ref_name': '7/merge', 'base_ref': 'main', 'head_ref': 'change', 'sha': head}
    assert sender.send('pull_request', {**pull, 'action': 'closed'})[1] == ['ci.yml: not started: its `types` are without closed']
    other = {**ends, 'base': {'ref': 'release/1', 'sha': base}}
    assert sender.send('pull_request', {**pull, 'pull_request': other})[1] == ['ci.yml: not started: its `branches` leave out release/1']
    fork = {**ends, 'head': {**ends['head'], 'repo': {'full_name': 'mona/hello'}}}
    assert sender.send('pull_request', {**pull, 'pull_request': fork}) == (202, ['not taken: the pull request is of a fork'])
    gone = {**ends, 'head': {**ends['head'], 'repo': None}}
    assert sender.send('pull_request', {**pull, 'pull_request': gone}) == (202, ['not taken: the pull request is of a fork'])


def test_the_merge_of_a_pull_request_counts_if_it_is_of_its_newest_push(place: Place) -> None:
    repository, sender = place.repository, place.sender
    base = repository.only({'ci.yml': CI})['after']
    head = repository.commit('a change', {'src/merged.c': ''})
    repository.git('push', '-q', 'origin', 'HEAD:refs/pull/8/head')
    merge = repository.git('commit-tree', '-p', base, '-p', head, '-m', 'merge', 'HEAD^{tree}')
    repository.git('push', '-q', 'origin', f'{merge}:refs/pull/8/merge')
    ends = {'base': {'ref': 'main', 'sha': base}, 'head': {'ref': 'change', 'sha': head, 'repo': {'full_name': 'octo/hello'}}}
    run = created(sender.send('pull_request', {'action': 'opened', 'number': 8, 'pull_request': ends})[1])['ci.yml']
    assert place.body(run)['github']['sha'] == merge
    later = repository.commit('another', {'src/later.c': ''})
    repository.git('push', '-q', 'origin', 'HEAD:refs/pull/8/head')
    ends['head'] = {**ends['head'], 'sha': later}
    run = created(sender.send('pull_request', {'action': 'synchronize', 'number': 8, 'pull_request': ends})[1])['ci.yml']
    assert place.body(run)['github']['sha'] == later


def test_what_the_service_refuses_is_in_the_ledger_with_its_line_and_what_to_write(place: Place) -> None:
    outside = '''on: [push]
jobs:
  a: {runs-on: linux}
  b:
    needs: a
    runs-on: linux
    if: needs.a.result == 'success'
'''
    lines = place.sender.push(place.repository.only({'outside.yml': outside, 'broken.yml': 'on: push\njobs: [', 'one.yml': ONE}))
    assert lines[1].startswith('one.yml: created ')
    assert lines[2].startswith("outside.yml:7: refused 26: jobs.b.if: needs.a.result == 'success' Write always()")
    assert lines[0].startswith('broken.yml:2: not sent: not YAML')
    def found() -> dict[str, list[Any]]:
        return {path: rest for event, path, *rest in place.refused()}
    until(lambda: {f'.github/workflows/{name}.yml' for name in ('outside', 'broken')} <= found().keys(), what='the ledger')
    code, line, words, advice = found()['.github/workflows/outside.yml']
    assert (code, line, words) == (26, 7, "refused 26: jobs.b.if: needs.a.result == 'success'") and 'the `if` of its steps' in advice
    assert found()['.github/workflows/broken.yml'][1] == 2
    assert place.hub.get('/healthz').status == 200


def test_environments_wait_for_approval_or_are_free_or_are_refused(place: Place) -> None:
    jobs = '''on: push
jobs:
  a: {runs-on: linux, environment: NAME}
'''
    made = {name: jobs.replace('NAME', name) for name in ('staging', 'production', 'other')}
    lines = place.sender.push(place.repository.only({f'{name}.yml': text for name, text in made.items()}))
    runs = created(lines)
    assert lines[0] == 'other.yml:3: not sent: jobs.a.environment: other is not named as an environment'
    assert place.body(runs['production.yml'])['workflow']['jobs']['a']['runs-on'] == ['linux', 'approved-${{ github.run_id }}']
    assert place.body(runs['staging.yml'])['workflow']['jobs']['a'] == {'runs-on': 'linux', 'environment': 'staging'}
    from harness import request
    leg = request(place.service.view, 'GET', f'/runs/{runs["production.yml"]}').json()['jobs'][0]['legs'][0]
    assert leg['labels'] == ['linux', f'approved-{runs["production.yml"]}']


def test_hostile_names_and_files_of_a_repository(place: Place) -> None:
    """Symbolic links, an enormous file, markup, refs that look like options, paths that leave the folder."""
    repository, sender = place.repository, place.sender
    repository.only({'one.yml': ONE})
    folder = repository.work / '.github/workflows'
    (folder / 'link.yml').symlink_to('/etc/passwd')
    (folder / 'huge.yml').write_text('on: push\n#' + 'x' * (2 << 20))
    (folder / '<script>alert(1)<script>.yml').write_text(ONE)
    (folder / 'folder.yml').mkdir()
    (folder / 'folder.yml/x').write_text('x')
    lines = sender.push(repository.push('refs/heads/main', 'hostile', {}))
    assert 'link.yml: not read: it is a symbolic link' in lines and 'huge.yml: not read: it has over 1,048,576 bytes' in lines
    assert set(created(lines)) == {'one.yml', '<script>alert(1)<script>.yml'}
    for ref in '--upload-pack=touch /tmp/owned', '-x', 'refs/heads/--help', 'refs/heads/../../x', 'refs/heads/a..b', 'refs/heads/a\nb', 'refs/heads/', 'x' * 5000:
        answer = sender.push({'ref': ref, 'before': 40 * '0', 'after': repository.git('rev-parse', 'HEAD'), 'commits': []})
        assert len(answer) == 1 and answer[0].startswith('not taken: '), (ref, answer)
    for after in '--output=/tmp/owned', 'HEAD', 'main', 40 * 'g', 'a' * 39:
        status, answer = sender.send('push', {'ref': 'refs/heads/main', 'before': 40 * '0', 'after': after, 'commits': []})
        assert status == 202 and not created(answer)
    for name in '../../etc', 'octo/../hello', 'octo/hello/../../x', '/etc/passwd', 'octo/hello\n':
        body = json.dumps({**sender.payload({}), 'repository': {'full_name': name}}).encode()
        assert sender.post('push', body, sender.signed(body)).status == 401


def test_a_repository_without_a_mirror(place: Place) -> None:
    assert Sender(place.hub, 'octo/unmirrored').push({'ref': 'refs/heads/main'}) == ['not taken: there is no mirror of the repository']


def test_variables_are_read_again_and_wait_till_they_are_whole(place: Place) -> None:
    place.repository.only({'ci.yml': CI})
    (place.folder / 'vars').write_text('{')
    pushed = place.repository.push('refs/heads/main', 'x', {'src/vars.c': ''})
    import threading
    answers: list[list[str]] = []
    waiting = threading.Thread(target=lambda: answers.append(place.sender.push(pushed)))
    waiting.start()
    until(lambda: 'is tried again: the variables:' in (place.hub.process.said() if place.hub.process else ''), what='another try')
    (place.folder / 'vars').write_text('{"octo/hello": {"LABEL": "linux"}}')
    waiting.join()
    assert list(created(answers[0])) == ['ci.yml']


TARGET = '''
name: Greet
on: {pull_request_target: {branches: [main]}, pull_request: {}}
jobs: {greet: {runs-on: linux, steps: [{run: 'true'}]}}
'''


def test_pull_request_target_of_a_fork_runs_what_the_default_branch_says_where_the_operator_allows_it(place: Place) -> None:
    """`octo/other` allows it, `octo/hello` does not; the pull request's own workflow says something else."""
    def ends(repository: Repository) -> dict[str, Any]:
        base = repository.only({'greet.yml': TARGET})['after']
        head = repository.commit('evil', {'.github/workflows/greet.yml': TARGET.replace("'true'", "'evil'")})
        repository.git('push', '-q', 'origin', 'HEAD:refs/pull/4/head')
        return {'action': 'opened', 'number': 4, 'pull_request': {
            'base': {'ref': 'main', 'sha': base}, 'head': {'ref': 'evil', 'sha': head, 'repo': {'full_name': 'mallory/other'}}}}
    payload = ends(place.other)
    status, lines = place.of_other.send('pull_request', payload)
    assert status == 202 and lines[0] == 'not taken: the pull request is of a fork' and list(created(lines)) == ['greet.yml']
    body = place.body(created(lines)['greet.yml'])
    github = body['github']
    assert (github['event_name'], github['ref'], github['sha']) == ('pull_request_target', 'refs/heads/main', payload['pull_request']['base']['sha'])
    assert (github['base_ref'], github['head_ref'], github['event']['pull_request']['head']['ref']) == ('main', 'evil', 'evil')
    assert body['workflow']['jobs']['greet']['steps'] == [{'run': 'true'}]
    assert place.of_other.send('pull_request', payload)[1] == lines
    assert place.sender.send('pull_request', ends(place.repository)) == (202, ['not taken: the pull request is of a fork'])


def test_both_events_of_an_own_pull_request_make_a_run_each(place: Place) -> None:
    base = place.other.only({'greet.yml': TARGET})['after']
    head = place.other.commit('own', {'src/own': ''})
    place.other.git('push', '-q', 'origin', 'HEAD:refs/pull/6/head')
    before = place.count()
    lines = place.of_other.send('pull_request', {'action': 'opened', 'number': 6, 'pull_request': {
        'base': {'ref': 'main', 'sha': base}, 'head': {'ref': 'own', 'sha': head, 'repo': {'full_name': 'octo/other'}}}})[1]
    assert lines == [f'greet.yml: created {before + 1}', f'greet.yml: created {before + 2}']
    assert [place.body(run)['github']['event_name'] for run in (before + 1, before + 2)] == ['pull_request', 'pull_request_target']


def test_the_page_and_the_metrics_say_what_starts_nothing(place: Place) -> None:
    place.sender.send('star', {})
    admin, other = place.hub.token('page', 'admin'), place.hub.token('of-other', 'read', repositories=('octo/other',))
    page = place.hub.get('/octo/hello/actions/refused', admin)
    assert page.status == 200 and 'Events that start nothing here' in page.text and 'star' in page.text
    assert 'star' not in place.hub.get('/refused', other).text
    assert 'acts_hub_events_untaken_total{event="star"}' in place.hub.get('/metrics', admin).text


def test_what_a_workflow_says_is_escaped_on_the_page(place: Place) -> None:
    """Markup in the name of a file, and in a text that is refused."""
    place.sender.push(place.repository.only({'<img src=x onerror=alert(1)>.yml': 'on: push\njobs: {a: {runs-on: x, if: "needs.b.outputs[\'<script>alert(1)</script>\']"}}'}))
    until(lambda: any('<script>' in row[4] for row in place.refused()), what='the ledger')
    page = place.hub.get('/octo/hello/actions/refused', place.hub.token('markup', 'read')).text
    assert '<script>alert' not in page and '<img src=x' not in page and '&lt;script&gt;alert(1)' in page
