"""The hub starts, answers, outlives the service, is killed and started again, and ends; silent clients hold no place."""
from __future__ import annotations

import contextlib
import json
import os
import pathlib
import re
import socket
import time
from collections.abc import Callable

import pytest
from harness import HubProcess, Service, request, until

RUNS = '/api/v3/repos/octo/hello/actions/runs'


@pytest.mark.quick
def test_serves_on_a_port_and_a_socket_of_the_file_system_and_ends_on_sigterm(hub: HubProcess) -> None:
    assert hub.get('/healthz').text == 'ok\n'
    assert request(hub.unix, 'GET', '/healthz').status == 200
    assert hub.unix.stat().st_mode & 0o777 == 0o660
    assert hub.stop() == 0


@pytest.mark.quick
def test_serves_by_tls(make_hub: Callable[..., HubProcess]) -> None:
    hub = make_hub(tls=True)
    answer = hub.get('/healthz')
    assert answer.status == 200 and answer.headers['Strict-Transport-Security']


def test_ends_on_sigterm_whatever_clients_do(hub: HubProcess, service: Service) -> None:
    token = hub.token()
    with contextlib.ExitStack() as stack:
        streams = [stack.enter_context(socket.create_connection(('127.0.0.1', hub.port))) for _ in range(20)]
        for number, stream in enumerate(streams):
            head = f'GET /-/changes HTTP/1.1\r\nHost: x\r\nAuthorization: Bearer {token}\r\nAccept: text/event-stream\r\n\r\n'.encode()
            stream.sendall((head, head[:20], b'')[number % 3])
        time.sleep(0.5)
        began = time.monotonic()
        assert hub.stop() == 0 and time.monotonic() - began < 20


def test_a_fault_of_the_configuration_ends_it_in_words(tmp_path: pathlib.Path) -> None:
    hub = HubProcess(tmp_path / 'hub', None, tables={'hub': {'certificate': '/nowhere.pem', 'key': '/nowhere.key'}})
    hub.start(wait=False)
    assert hub.process is not None
    until(lambda: not hub.process.is_running())             # type: ignore[union-attr]
    assert hub.process.kill() == 1 and 'No such file' in hub.process.said() and 'Traceback' not in hub.process.said()


def test_kills_of_the_hub_and_of_the_service_lose_no_run(hub: HubProcess, service: Service) -> None:
    token = hub.token()
    hub.restart()
    made: list[int] = []
    for turn in range(4):
        made += [service.admit() for _ in range(3)]
        lines = service.lines()
        last = lines.ask('CLAIM r1 999999999 linux').split()
        lines.numbers['r1'] = int(last[2])
        lease = lines.claim('r1')
        assert lease[0] == 'lease' and lines.done('r1', lease[1]) == 'ok'
        lines.close()
        if turn % 2:
            service.kill()
        hub.kill()
        if turn % 2:
            hub.start(wait=False)                           # the service comes later than the hub
            service.start()
            until(hub._answers)
        else:
            hub.start()
        until(lambda: hub.get(RUNS, token).json().get('total_count') == len(made))
        found = {run['id']: (run['status'], run['conclusion']) for run in hub.get(RUNS + '?per_page=100', token).json()['workflow_runs']}
        assert sorted(found) == made
        assert found == {number: (row['status'], row['conclusion']) for number, row in ((number, service.run(number)) for number in made)}


def test_the_hub_answers_while_the_service_is_away(hub: HubProcess, service: Service) -> None:
    token = hub.token()
    run = service.admit()
    until(lambda: hub.get(f'{RUNS}/{run}', token).status == 200)
    service.kill()
    until(lambda: 'not reached' in hub.get('/healthz').text)
    assert hub.get(f'{RUNS}/{run}', token).status == 200 and hub.get(RUNS, token).json()['total_count'] == 1
    assert hub.post(f'{RUNS}/{run}/cancel', None, token).status == 503
    service.start()
    until(lambda: hub.get('/healthz').text == 'ok\n')
    assert hub.post(f'{RUNS}/{run}/cancel', None, token).status == 202


def test_a_thousand_silent_clients_hold_up_nobody_and_go(make_hub: Callable[..., HubProcess]) -> None:
    hub = make_hub(tables={'access': {'silence_seconds': 12}})
    head = b'GET /healthz HTTP/1.1\r\nHost: x\r\nX-Slow: '
    with contextlib.ExitStack() as stack:
        streams = []
        for number in range(1000):
            stream = stack.enter_context(socket.socket())
            stream.connect(('127.0.0.1', hub.port))
            stream.sendall((b'', head, b'POST /sign-in HTTP/1.1\r\nHost: x\r\nContent-Type: application/x-www-form-urlencoded\r\nContent-Length: 999\r\n\r\nx')[number % 3])
            streams.append(stream)
        began = time.monotonic()
        assert hub.get('/healthz').status == 200
        waited = time.monotonic() - began
        assert hub.process is not None
        folder = pathlib.Path(f'/proc/{hub.process.id}/fd')
        assert until(lambda: len(os.listdir(folder)) > 900)
        until(lambda: len(os.listdir(folder)) < 100, 60, 'silent clients are closed')
        for stream in streams[:3]:
            stream.settimeout(10)
            with contextlib.suppress(ConnectionResetError):
                while stream.recv(4096):
                    pass
    print(f'\na request beside 1,000 silent clients: {waited * 1e3:.0f} ms')


@pytest.mark.quick
def test_requests_that_are_none_get_an_answer_and_harm_nothing(hub: HubProcess) -> None:
    for text in (b'nonsense\r\n\r\n', b'GET / HTTP/9.9\r\n\r\n', b'GET /' + b'x' * 20_000 + b' HTTP/1.1\r\nHost: x\r\n\r\n', b'\x16\x03\x01\x02\x00' * 20,
                 b'GET / HTTP/1.1\r\nHost: x\r\n' + b'A: ' + b'x' * 20_000 + b'\r\n\r\n', b'POST /sign-in HTTP/1.1\r\nHost: x\r\nContent-Length: -1\r\n\r\n',
                 b'POST /sign-in HTTP/1.1\r\nHost: x\r\nContent-Length: 1\r\nTransfer-Encoding: chunked\r\n\r\n0\r\n\r\n'):
        with socket.create_connection(('127.0.0.1', hub.port), 180) as stream:
            stream.sendall(text)
            stream.shutdown(socket.SHUT_WR)
            found = b''
            with contextlib.suppress(ConnectionResetError):
                while piece := stream.recv(65536):
                    found += piece
            assert found == b'' or found.split(b' ')[1][:1] in (b'4', b'5', b'3'), (text[:40], found[:200])
    for path in '/../../etc/passwd', '/%2e%2e/%2e%2e/etc/passwd', '/-/static/../site.py', '/%00', '/octo/hello/actions/runs/' + '9' * 400, '/%ff', '/%ed%a0%80':
        status = hub.get(path, hub.token()).status
        assert status in (303, 400, 404), (path, status)
    assert hub.get('/healthz').text == 'ok\n' and hub.process is not None and 'Traceback' not in hub.process.said()
    assert json.loads(hub.get('/api/v3/nowhere').body)['message']


def test_a_browser_signs_in_by_tls_acts_and_is_out_once_its_token_is_revoked(make_hub: Callable[..., HubProcess], service: Service) -> None:
    hub = make_hub(tls=True)
    token, run = hub.token('mona', 'write', repositories=('octo/*',)), service.admit()
    page, kind = f'/octo/hello/actions/runs/{run}', {'Content-Type': 'application/x-www-form-urlencoded', 'Origin': hub.url}
    until(lambda: hub.get('/api/v3' + f'/repos/octo/hello/actions/runs/{run}', token).status == 200)
    refused = hub.get(page, headers={'Accept': 'text/html'})
    assert refused.status == 303 and refused.headers['Location'].startswith('/sign-in')
    assert hub.post('/sign-in', 'token=acts_wrong', headers=kind).status == 401
    answer = hub.post('/sign-in', f'token={token}&back=//evil.example/', headers=kind)
    assert answer.status == 303 and not answer.headers['Location'].startswith('//')
    cookie = answer.headers['Set-Cookie']
    assert all(part in cookie for part in ('__Host-acts_session=', 'Secure', 'HttpOnly', 'SameSite=Lax'))
    signed = {'Cookie': cookie.partition(';')[0]}
    text = hub.get(page, headers=signed).text
    form = re.search(r'name="form_token" value="([0-9a-f]{64})"', text)
    assert form is not None and token not in text
    assert hub.post(f'{page}/cancel', 'form_token=' + '0' * 64, headers={**kind, **signed}).status == 403
    assert hub.post(f'{page}/cancel', f'form_token={form[1]}', headers={**kind, **signed, 'Origin': 'https://evil.example'}).status == 403
    assert service.run(run)['status'] == 'queued'
    assert hub.post(f'{page}/cancel', f'form_token={form[1]}', headers={**kind, **signed}).status == 303
    until(lambda: service.run(run)['conclusion'] == 'cancelled')
    hub.restart()
    assert hub.get(page, headers=signed).status == 200      # a restart signs nobody out
    assert hub.command('token', '--config', str(hub.config), 'revoke', 'mona').returncode == 0
    assert hub.get(page, headers={**signed, 'Accept': 'text/html'}).status == 303
