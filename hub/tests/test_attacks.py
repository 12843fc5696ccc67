"""What a step, a runner and a stranger can do: over the plain ports of the service, and behind doors and gateway."""
from __future__ import annotations

import contextlib
import hashlib
import hmac
import json
import os
import pathlib
import random
import resource
import shutil
import signal
import socket
import ssl
import subprocess
import tempfile
import time
from collections.abc import Callable, Iterator
from typing import Any

import pytest
from harness import HUB, PYTHON, HubProcess, Process, Service, body_of, request, until
from up_stage import Up
from wires import Wire

from acts_hub.doors import namespace

WHY_NOT = namespace.missing() or ('needs root, so that steps are another user' if os.geteuid() else None)
closed_alone = pytest.mark.skipif(WHY_NOT is not None, reason=str(WHY_NOT))
KILLS = int(os.environ.get('HUB_KILLS', '4'))
LOG_BYTES = 100_000_000
SECRET = 'the-key-of-production'
DEPLOY = {'repo': 'octo/hello', 'path': '.github/workflows/deploy.yml', 'github': {'ref': 'refs/heads/main', 'ref_name': 'main', 'actor': 'mona'},
          'workflow': {'jobs': {'deploy': {'runs-on': 'linux', 'environment': 'production', 'steps': [
              {'run': 'printf %s "$KEY" > "$STOLEN"', 'env': {'KEY': '${{ secrets.DEPLOY_KEY }}', 'STOLEN': ''}}]}}}}


def fork(script: str) -> bytes:
    """A run as a pull request of a fork gets it: no secret, and a script of a stranger."""
    pull = {'number': 7, 'title': 'Mend a typo', 'head': {'repo': {'full_name': 'stranger/hello', 'fork': True}}, 'base': {'repo': {'full_name': 'octo/hello'}}}
    github = {'ref': 'refs/pull/7/merge', 'ref_name': '7/merge', 'head_ref': 'typo', 'base_ref': 'main', 'actor': 'stranger', 'event': {'pull_request': pull}}
    return body_of(jobs={'test': {'runs-on': 'linux', 'steps': [{'run': script}]}}, github=github)


def deploy(stolen: pathlib.Path) -> str:
    """The body of a push to main that deploys, which the stranger has made up."""
    made = json.loads(json.dumps(DEPLOY))
    made['workflow']['jobs']['deploy']['steps'][0]['env']['STOLEN'] = str(stolen)
    return json.dumps(made)


@pytest.fixture
def runner(service: Service, tmp_path: pathlib.Path) -> Iterator[Process]:
    """A runner at the plain runner port, with the secrets of production, as the files of before start it."""
    secrets = tmp_path / 'secrets.json'
    secrets.write_text(json.dumps({'DEPLOY_KEY': SECRET}))
    secrets.chmod(0o600)
    made = Process([PYTHON, '-m', 'acts_runner', '--port', str(service.runner), '--name', 'r', '--labels', 'linux', '--state', str(tmp_path / 'runner'),
                    '--secrets', str(secrets), '--environment', 'production', '--pause', '0.2', '--beat', '0.5'], tmp_path, 'runner', {'PYTHONPATH': str(HUB)})
    made.start()
    yield made
    made.kill(signal.SIGTERM)


# ---- over the plain ports of the service: each of these is seen to succeed

def test_plain_ports_a_step_takes_a_secret(service: Service, runner: Process, tmp_path: pathlib.Path) -> None:
    """A step of a fork's pull request posts a 'push to main', and the same runner writes the secret of production out for it."""
    stolen = tmp_path / 'stolen'
    run = service.admit(fork(f"""
        curl -sf -H 'X-GitHub-Delivery: forged' -H 'X-GitHub-Event: push' --data-binary @- http://127.0.0.1:{service.hook}/events <<'END'\n{deploy(stolen)}\nEND
        """), 'pull_request')
    until(lambda: stolen.exists() and stolen.read_text() == SECRET, what='the secret')
    until(lambda: service.run(run)['conclusion'] == 'success')


def test_plain_ports_a_step_cancels_and_reads_all(service: Service, runner: Process, tmp_path: pathlib.Path) -> None:
    """It cancels a run, runs another again, takes a copy of the store with all bodies, and reports a runner lost."""
    done = service.admit(body_of())
    until(lambda: service.run(done)['conclusion'] == 'success')
    waiting = service.admit(body_of(jobs={'wait': {'runs-on': 'nobody', 'steps': []}}, message='a private message'))
    run = service.admit(fork(f"""
        curl -sf -X POST http://127.0.0.1:{service.hook}/runs/{waiting}/cancel
        curl -sf -X POST http://127.0.0.1:{service.hook}/runs/{done}/attempts/2
        curl -sf http://127.0.0.1:{service.view}/backup -o {tmp_path}/copy
        """), 'pull_request')
    until(lambda: service.run(run)['conclusion'] == 'success')
    assert service.run(waiting)['conclusion'] == 'cancelled'
    assert service.run(done)['attempt'] == 2
    assert b'a private message' in (tmp_path / 'copy').read_bytes()


def test_plain_ports_any_runner_claims_any_label(service: Service) -> None:
    """Who reaches the runner port claims `vault`, fetches any body, and reports a success of what nobody ran."""
    run = service.admit(body_of(jobs={'deploy': {'runs-on': ['production', 'vault'], 'steps': [{'run': 'exit 1'}]}}))
    private = service.admit(body_of(message='a private message', jobs={'wait': {'runs-on': 'nobody', 'steps': []}}))
    lines = service.lines()
    lease = lines.claim('build-evil', 'production,vault')
    assert lease[0] == 'lease' and int(lease[2]) == run
    assert 'a private message' in lines.ask(f'FETCH {private}')
    assert lines.done('build-evil', lease[1]) == 'ok'
    assert service.run(run)['conclusion'] == 'success'


# ---- behind doors and gateway: the same fails

@pytest.fixture(scope='module')
def up() -> Iterator[Up]:
    """All of it in a folder, begun by root: the runner's steps are another user's."""
    place = pathlib.Path(tempfile.mkdtemp(prefix='attacks.', dir='/tmp'))
    place.chmod(0o755)
    made = Up(place)
    try:
        yield made.start()
    finally:
        made.end(signal.SIGTERM)
        shutil.rmtree(place)


@pytest.fixture
def loot() -> Iterator[pathlib.Path]:
    """A folder that a step may write into."""
    made = pathlib.Path(tempfile.mkdtemp(prefix='loot.', dir='/tmp'))
    made.chmod(0o777)
    yield made
    shutil.rmtree(made)


ATTACK = r'''
set +e
cat > {loot}/forged.json <<'END'
{body}
END
say() {{ echo "$1: $2" >> {loot}/said; }}
for port in 8080 8081 8083; do
    curl -s -m 5 http://127.0.0.1:$port/runs/1 > /dev/null; say "port $port" $?
done
for door in hook runner view; do
    curl -s -m 5 --unix-socket {folder}/doors/$door http://acts/runs/1 > /dev/null; say "door $door" $?
done
post() {{ curl -s -m 5 -k -o /dev/null -w '%{{http_code}}' -X POST "$@"; }}
say webhook "$(post -H 'X-GitHub-Event: push' -H 'X-GitHub-Delivery: forged' --data-binary @{loot}/forged.json {url}/webhooks/github)"
say cancel "$(post {url}/api/v3/repos/octo/hello/actions/runs/1/cancel)"
say rerun "$(post {url}/api/v3/repos/octo/hello/actions/runs/1/rerun)"
say dispatch "$(post {url}/api/v3/repos/octo/hello/actions/workflows/example.yml/dispatches)"
for file in admin.token key.pem webhook.secret runs.store hub.toml hub/ledger.sqlite; do
    cat {folder}/$file > /dev/null 2>&1; say "file $file" $?
done
entered=0
for other in /proc/[0-9]*; do
    nsenter --net=$other/ns/net true 2> /dev/null && [ "$(readlink $other/ns/net)" != "$(readlink /proc/self/ns/net)" ] && entered=1
    nsenter --user=$other/ns/user --net=$other/ns/net true 2> /dev/null && [ "$(readlink $other/ns/net)" != "$(readlink /proc/self/ns/net)" ] && entered=1
done
say entered $entered
echo all >> {loot}/said
'''


@closed_alone
def test_behind_doors_a_step_gets_nowhere(up: Up, loot: pathlib.Path) -> None:
    """The step tries the ports, the doors, the hub without a token, the files and the namespaces of others: nothing gives."""
    script = ATTACK.format(loot=loot, body=deploy(loot / 'stolen'), folder=up.folder, url=up.url)
    run = up.admit(fork(script), 'the-fork')
    until(lambda: up.conclusion(run) is not None, 180, 'the end of the run')
    said = (loot / 'said').read_text().splitlines()
    assert said.pop() == 'all'
    assert up.conclusion(run) == 'success'
    found = dict(line.split(': ') for line in said)
    assert {name: found[f'port {name}'] for name in ('8080', '8081', '8083')} == {'8080': '7', '8081': '7', '8083': '7'}  # curl: failed to connect
    assert {found[f'door {name}'] for name in ('hook', 'runner', 'view')} == {'7'}
    assert found['webhook'] in ('401', '403')
    assert {found[name] for name in ('cancel', 'rerun', 'dispatch')} == {'401'}
    assert {value for name, value in found.items() if name.startswith('file ')} == {'1'}
    assert found['entered'] == '0'
    assert not (loot / 'stolen').exists()
    runs = request(up.view, 'GET', '/runs').json()['runs']
    assert {one['path'] for one in runs} == {'.github/workflows/example.yml', '.github/workflows/ci.yml'}
    assert next(one for one in runs if one['run'] == 1)['attempt'] == 1


@closed_alone
def test_behind_the_gateway_a_stolen_runner_token_is_bounded(up: Up, loot: pathlib.Path) -> None:
    """A step may read its runner's token, as at GitHub: it claims no other label or name, reads no other body, and can do nothing else."""
    waiting = up.admit(body_of(jobs={'deploy': {'runs-on': ['production', 'vault'], 'steps': []}}, message='a private message'), 'deploy-1')
    run = up.admit(fork(f'cat {up.folder}/runner/token > {loot}/token; chmod 644 {loot}/token'), 'the-thief')
    until(lambda: up.conclusion(run) is not None, what='the end of the run')
    token = (loot / 'token').read_text().strip()
    for method, path in (('GET', '/api/v3/repos/octo/hello/actions/runs'), ('POST', f'/api/v3/repos/octo/hello/actions/runs/{waiting}/cancel'),
                         ('POST', '/api/v3/repos/octo/hello/actions/workflows/example.yml/dispatches'), ('GET', '/metrics'), ('GET', '/octo/hello/actions')):
        context = ssl.create_default_context(cafile=str(up.folder / 'certificate.pem'))
        answer = request(up.port, method, path, b'{"ref": "main"}' if method == 'POST' else None, {'Authorization': f'Bearer {token}'}, context)
        assert answer.status in (401, 403, 404), (path, answer.status)
        assert 'private' not in answer.text
    assert up.conclusion(waiting) is None


def test_behind_the_gateway_a_runner_claims_its_own(hub: HubProcess, service: Service) -> None:
    """What a certificate `build` did over the plain port, a token of `build` does not: other labels, foreign bodies, foreign leases."""
    deploy_run = service.admit(body_of(jobs={'deploy': {'runs-on': ['production', 'vault'], 'steps': []}}))
    token = hub.token('build', 'runner', prefix='build', labels=('linux',))

    def forbidden(line: str) -> None:
        wire = Wire(hub, token, '')
        with contextlib.suppress(ConnectionError):
            assert wire.ask(line) == 'refused 75'
            wire.close()
    forbidden('CLAIM build-evil 1 production,vault')
    forbidden('CLAIM other 1 linux')
    wire = Wire(hub, token, '')
    assert wire.ask(f'FETCH {deploy_run}') != service.lines().ask(f'FETCH {deploy_run}')
    held = service.lines().claim('holder', 'production,vault')
    with contextlib.suppress(ConnectionError):
        wire = Wire(hub, token, '')
        assert wire.ask(f'DONE build-evil 1 {held[1]} success').startswith('refused')
    assert service.run(deploy_run)['jobs'][0]['legs'][0]['state'] == 'running'


# ---- faults and strangers around the hub

def start_runner(hub: HubProcess, folder: pathlib.Path, name: str = 'up') -> Process:
    """A runner of the hub."""
    token = folder / f'{name}.token'
    token.write_text(hub.token(name, 'runner', prefix=name, labels=('linux',)))
    token.chmod(0o600)
    made = Process([PYTHON, '-m', 'acts_runner', '--hub', hub.url, '--token-file', str(token), '--name', name, '--labels', 'linux', '--pause', '0.2',
                    '--beat', '1', '--state', str(folder / 'state')], folder, name, {'PYTHONPATH': str(HUB)})
    made.start()
    return made


def test_a_loud_step_is_bounded(make_hub: Callable[..., HubProcess], service: Service, tmp_path: pathlib.Path) -> None:
    """A step that prints far more than a leg may keep: the run ends well, the hub keeps its bound, and stays small. A gigabyte of a runner that bounds nothing:
    test_hostile_logs.py."""
    hub = make_hub(tables={'retention': {'log_bytes_a_leg': 1 << 20}})
    runner = start_runner(hub, tmp_path)
    try:
        step = {'run': f'head -c {LOG_BYTES} /dev/zero | tr "\\0" x | fold -w 50000'}
        run = service.admit(body_of(jobs={'build': {'runs-on': 'linux', 'steps': [step]}}))
        until(lambda: service.run(run)['conclusion'] == 'success', 400, 'the loud run')
        kept = sum(path.stat().st_size for path in (hub.state / 'logs').rglob('*') if path.is_file())
        assert 1 << 18 < kept < 4 << 20
        assert hub.process
        kilobytes = pathlib.Path(f'/proc/{hub.process.id}/status').read_text().split('VmRSS:')[1].split()[0]
        assert int(kilobytes) < 300_000
        assert hub.get('/healthz').text == 'ok\n'
    finally:
        runner.kill(signal.SIGTERM)


def test_a_thousand_slow_clients_of_pages(hub: HubProcess, service: Service) -> None:
    """A thousand clients that send half a head and go silent: others are answered within seconds."""
    resource.setrlimit(resource.RLIMIT_NOFILE, (4096, resource.getrlimit(resource.RLIMIT_NOFILE)[1]))
    token = hub.token()
    slow = []
    try:
        for _ in range(1000):
            slow.append(socket.create_connection(('127.0.0.1', hub.port), 10))
            slow[-1].sendall(b'GET /healthz HTTP/1.1\r\nHost: x\r\nX-Slow: ')
        run = service.admit()
        began = time.monotonic()
        assert hub.get('/healthz').status == 200
        until(lambda: hub.get(f'/api/v3/repos/octo/hello/actions/runs/{run}', token).status == 200, 20, 'the run')
        assert time.monotonic() - began < 20
    finally:
        for one in slow:
            one.close()


@pytest.mark.parametrize('who', ['hub', 'service', 'both'])
def test_kills_at_any_moment(hub: HubProcess, service: Service, tmp_path: pathlib.Path, who: str) -> None:
    """kill -9 of hub, service or both while runs go on: each leg runs once, each run ends well, and the hub tells the same. HUB_KILLS says how often."""
    notes = tmp_path / 'notes'
    runner = start_runner(hub, tmp_path)
    token = hub.token()
    try:
        runs = []
        for number in range(KILLS):
            step = {'run': f'echo {number} >> {notes}; sleep 0.3'}
            runs.append(service.admit(body_of(jobs={'build': {'runs-on': 'linux', 'steps': [step]}}), delivery=f'{who}-{number}'))
            if who in ('service', 'both'):
                service.kill()
            if who in ('hub', 'both'):
                hub.kill()
                time.sleep(random.random())
                hub.start(wait=False)
            if who in ('service', 'both'):
                service.start()
        until(lambda: [service.run(run)['conclusion'] for run in runs] == KILLS * ['success'], 60 + 15 * KILLS, 'the runs')
        assert sorted(map(int, notes.read_text().split())) == list(range(KILLS))
        until(lambda: hub.get('/healthz').status == 200)
        until(lambda: [one['conclusion'] for one in hub.get('/api/v3/repos/octo/hello/actions/runs?per_page=100', token).json()['workflow_runs']] == KILLS * ['success'], 60,
              'the same of the hub')
    finally:
        runner.kill(signal.SIGTERM)


def signed(body: bytes, secret: bytes, delivery: str) -> dict[str, str]:
    """The headers of a webhook, as GitHub's documentation has them."""
    digest = hmac.new(secret, body, hashlib.sha256).hexdigest()
    return {'X-GitHub-Event': 'push', 'X-GitHub-Delivery': delivery, 'X-Hub-Signature-256': f'sha256={digest}', 'Content-Type': 'application/json'}


@closed_alone
def test_a_replayed_delivery_makes_no_second_run(up: Up) -> None:
    """A delivery that was overheard, with its right signature, comes again, under another id too: no other run. With another secret or body it is refused."""
    secret = (up.folder / 'webhook.secret').read_text().strip().encode()
    mirror = up.folder / 'mirrors/octo/hello.git'
    sha = subprocess.check_output(['git', '-C', str(mirror), 'rev-parse', 'main'], text=True).strip()
    event: dict[str, Any] = {
        'ref': 'refs/heads/main', 'before': 40 * '0', 'after': sha, 'created': False, 'deleted': False, 'forced': False, 'commits': [],
        'head_commit': {'id': sha, 'message': 'Build and test hello', 'author': {'name': 'octocat', 'email': 'o@example.org'}},
        'repository': {'full_name': 'octo/hello', 'name': 'hello', 'owner': {'login': 'octo'}, 'default_branch': 'main'}, 'sender': {'login': 'octocat'}}
    body = json.dumps(event).encode()
    context = ssl.create_default_context(cafile=str(up.folder / 'certificate.pem'))

    def post(headers: dict[str, str], sent: bytes = body) -> int:
        return request(up.port, 'POST', '/webhooks/github', sent, headers, context).status

    def runs() -> int:
        return len(request(up.view, 'GET', '/runs?path=.github/workflows/example.yml').json()['runs'])
    before = runs()
    headers = signed(body, secret, 'overheard')
    assert post(headers) in (200, 201, 202)
    until(lambda: runs() == before + 1, what='its run')
    assert post(headers) in (200, 201, 202)
    assert post(signed(body, secret, 'under-another-id')) in (200, 201, 202)
    assert post(signed(body, b'wrong', 'other')) in (401, 403)
    assert post(headers, body + b' ') in (401, 403)
    time.sleep(1)
    assert runs() == before + 1


MARKUP = '<script>alert(1)</script><img src=x onerror=alert(2)>"\'&'


def test_markup_in_names_and_titles(hub: HubProcess, service: Service) -> None:
    """Names of workflows, jobs, branches, people and messages with markup are shown as text, on the pages and in JSON."""
    jobs = {'build': {'name': MARKUP, 'runs-on': MARKUP[:60], 'steps': [{'run': 'true', 'name': MARKUP}]}}
    run = service.admit(body_of(MARKUP, jobs, message=MARKUP, github={'ref_name': MARKUP, 'head_ref': MARKUP, 'actor': MARKUP}))
    token = hub.token()
    until(lambda: hub.get(f'/api/v3/repos/octo/hello/actions/runs/{run}', token).status == 200, what='the run')
    for path in ('/', '/octo/hello/actions', f'/octo/hello/actions/runs/{run}', '/queue', '/runners', '/groups', '/refused'):
        answer = hub.get(path, token)
        assert answer.status == 200, path
        assert '<script>alert' not in answer.text and '<img src=x' not in answer.text and 'onerror=alert(2)>"' not in answer.text, path
    shown = hub.get(f'/octo/hello/actions/runs/{run}', token).text
    assert '&lt;script&gt;alert(1)&lt;/script&gt;' in shown
    assert hub.get(f'/api/v3/repos/octo/hello/actions/runs/{run}', token).json()['display_title'] == MARKUP


@pytest.mark.parametrize('path', [
    '/../../../etc/passwd', '/..%2f..%2f..%2fetc%2fpasswd', '/static/../../config.py', '/static/..%2f..%2fconfig.py', '/-/static/../../app.py',
    '/octo/../../etc/passwd/actions', '/octo/hello/actions/runs/..%2f..%2f..%2fetc%2fpasswd', '/api/v3/repos/../../etc/passwd/actions/runs',
    '/api/v3/repos/octo/hello/actions/artifacts/..%2f..%2fledger.sqlite/zip', '/runner/v1/logs/..%2f..%2fledger.sqlite', '/%00', '/octo/hello/actions/runs/1%00'])
def test_paths_lead_nowhere(hub: HubProcess, path: str) -> None:
    """Paths with `..`, plain or encoded, and with a zero byte: no file is shown, and no fault of the hub's."""
    answer = hub.get(path, hub.token())
    assert answer.status in (301, 303, 400, 401, 403, 404, 405), answer.status
    for text in (b'root:', b'SQLite', b'import '):
        assert text not in answer.body


def test_wrong_tokens_do_nothing(hub: HubProcess, service: Service) -> None:
    """No token, a wrong one, one that was revoked, one with a wrong end: no run is cancelled, and no page says that it is there."""
    run = service.admit()
    right = hub.token()
    until(lambda: hub.get(f'/api/v3/repos/octo/hello/actions/runs/{run}', right).status == 200)
    revoked = hub.token('gone', 'admin')
    assert hub.command('token', '--config', str(hub.config), 'revoke', 'gone').returncode == 0
    for token in (None, 'acts_', 'acts_' + 43 * 'A', right[:-1], right + 'x', revoked, '\x7f', 'x' * 5000):
        for method, path in (('GET', f'/api/v3/repos/octo/hello/actions/runs/{run}'), ('POST', f'/api/v3/repos/octo/hello/actions/runs/{run}/cancel'),
                             ('GET', '/metrics')):
            assert hub.request(method, path, token=token).status in (400, 401, 429), (method, path, token)
    assert service.run(run)['conclusion'] is None
    assert hub.get(f'/api/v3/repos/octo/hello/actions/runs/{run}', right).status in (200, 429)
