"""Hostile input to the REST API: answers of 4xx, never 5xx, and nothing of another folder."""
from __future__ import annotations

import random
import socket
from urllib.parse import quote

import pytest
from rest_stand import Stand, job_of, leg_of, run_of

pytestmark = pytest.mark.quick
BASE = '/repos/octo/hello'
PARTS = ['repos', 'octo', 'hello', 'actions', 'runs', '1', '2', 'jobs', 'attempts', '0', '-1', '99999999999999999999',
         'logs', 'workflows', 'ci.yml', '%2e%2e', '..',
         '%00', '%ff', '%C3%BC', 'commits', 'main', 'status', 'check-runs', 'artifacts', 'zip', '67174400', 'contents',
         '.github', 'runners', '', 'statuses',
         'check-suites', 'caches', 'acts', 'refused', 'downloads', 'timing', 'annotations', '%2F', '%252e', '<script>',
         "'", '%0d%0aX-Evil:1', 'secrets', 'approvals',
         'pending_deployments']
QUERIES = ['', '?per_page=0', '?per_page=-1&page=0', '?page=99999999999999999999999', '?created=x',
           '?created=%3E%3D2026-11-30', '?created=2026-11-30..*', '?status=success',
           '?status=zz&branch=%ff', '?per_page=%D9%A1', '?a', '?&&==', '?filter=all', '?filter=%00', '?name=%00',
           '?before=x', '?until=1&signature=%ff', '?key=%ff&sort=x']


def raw(stand: Stand, method: str, target: str, token: str = 'write') -> tuple[int, bytes]:
    """A request whose target is sent as it is."""
    with socket.create_connection(('127.0.0.1', stand.port), 180) as made:
        made.sendall(
            f'{method} {target} HTTP/1.1\r\nHost: hub\r\nAuthorization: token {stand.tokens[token]}\r\nConnection: close\r\n\r\n'.encode('latin-1'))
        text = b''
        try:
            while piece := made.recv(65536):
                text += piece
        except ConnectionResetError:
            pass  # the rest of a target that is too long was not read
    return int(text[9:12] or 400), text


def fill(stand: Stand) -> None:
    stand.mirror.put(run_of(1), job_of('build', leg_of()))
    stand.mirror.put(run_of(2, status='in_progress'), job_of('build', leg_of('running', ended_at=None), state='open'))


@pytest.mark.parametrize('seed', range(4))
def test_paths_made_of_anything(stand: Stand, seed: int) -> None:
    fill(stand)
    chosen = random.Random(seed)
    for _ in range(150):
        path = BASE + '/' + '/'.join(chosen.choice(PARTS) for _ in range(chosen.randint(1, 6)))
        method = chosen.choice(['GET', 'GET', 'HEAD', 'PUT', 'DELETE', 'PATCH'])
        status, text = raw(stand, method, '/api/v3' + path + chosen.choice(QUERIES))
        assert status < 500, (method, path, text[:500])
        assert b'X-Evil' not in text.partition(b'\r\n\r\n')[0] and b'Traceback' not in text
    assert set(stand.mirror.runs) == {1, 2}


@pytest.mark.parametrize('path',
                         ['actions/runs', 'actions/workflows', 'actions/runners', 'actions/caches',
                          'actions/runs/1/jobs', 'actions/acts/refused', 'commits/main/status',
                                  'commits/main/check-runs', 'actions/workflows/ci.yml/runs'])
def test_numbers_of_pages(stand: Stand, path: str) -> None:
    fill(stand)
    for query in ('per_page=1000000000000000000000000', 'page=1000000000000000000000000', 'per_page=0&page=0'):
        assert stand.get(f'{BASE}/{path}?{query}').status == 200
    for query in ('per_page=-1', 'page=-1', 'page=x', 'per_page=1.5', 'page=%00', 'per_page=1&per_page=2&page=y'):
        answer = stand.get(f'{BASE}/{path}?{query}')
        assert answer.status == 422 and 'whole number' in answer.json()['message'], (path, query)


def test_a_query_of_a_megabyte(stand: Stand) -> None:
    fill(stand)
    status, _ = raw(stand, 'GET', f'/api/v3{BASE}/actions/runs?branch=' + 'x' * (1 << 20))
    assert 400 <= status < 500
    status, _ = raw(stand, 'GET', '/api/v3/' + 'x' * (1 << 20))
    assert 400 <= status < 500
    status, _ = raw(stand, 'GET', f'/api/v3{BASE}/actions/runs?branch=' + 'x' * 8000)
    assert status == 422
    assert raw(stand, 'GET', f'/api/v3{BASE}/actions/runs')[0] == 200


@pytest.mark.parametrize('owner, name',
                         [('..', '..'), ('%2e%2e', '%2e%2e'), ('octo', '..'), ('octo%2Fhello', 'x'),
                          ('octo', 'hello%2F..'), ('<b>', 'x'), ('%00', 'x'),
                                         ('octo', 'x' * 101), ('octo', '%ff'), ("octo'--", 'hello'), ('*', '*'),
                                         ('octo', '*')])
def test_names_of_repositories_that_can_t_be(stand: Stand, owner: str, name: str) -> None:
    fill(stand)
    for path in ('', '/actions/runs', '/contents/.github/workflows/ci.yml'):
        status, text = raw(stand, 'GET', f'/api/v3/repos/{owner}/{name}{path}', 'admin')
        assert status == 404, text[:300]


def test_a_branch_of_anything_does_not_leave_its_field(stand: Stand) -> None:
    """A list with links, below a path that has line feeds and brackets."""
    evil = 'a>; rel="x"\r\nX-Evil: 1 \xe9'
    for number in (1, 2):
        stand.mirror.put(run_of(number, branch=evil, sha='a' * 40, path=f'.github/workflows/{number}.yml'),
                         job_of('build', leg_of()))
    answer = stand.get(f'{BASE}/commits/{quote(evil, safe="")}/check-runs?per_page=1&check_name=build')
    assert answer.status == 200 and 'X-Evil' not in answer.headers and answer.json()['total_count'] == 2
    assert answer.headers['Link'].count('>; rel=') == 2 and '\n' not in answer.headers['Link']
    following = answer.headers['Link'].partition('>')[0][1:].removeprefix(stand.hub.config.url)
    assert stand.get(following).json()['check_runs'] != answer.json()['check_runs']


def test_names_with_markup_stay_json(stand: Stand) -> None:
    evil = '</script><img src=x onerror=alert(1)>"\r\nX-Evil: 1\u2028\x00'
    stand.mirror.put(run_of(1, workflow=evil, branch=evil, actor=evil, title=evil, message=evil, head_repository=evil,
                            run_name=evil, pull_number=1),
                     job_of('build', leg_of(labels=(evil,), runner='r1', combination={'a': evil}), title=evil))
    for path in ('actions/runs', 'actions/runs/1', 'actions/runs/1/jobs', 'actions/workflows',
                 f'commits/{stand.mirror.runs[1].facts.sha}/status',
                 f'commits/{stand.mirror.runs[1].facts.sha}/check-runs'):
        answer = stand.get(f'{BASE}/{path}')
        assert answer.status == 200 and answer.headers['Content-Type'].startswith(
            'application/json') and 'X-Evil' not in answer.headers
        assert b'\x00' not in answer.body and answer.json()
    assert stand.json(f'{BASE}/actions/runs/1')['name'] == evil
