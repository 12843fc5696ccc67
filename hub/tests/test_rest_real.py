"""Hostile input to the real hub beside the real service, over TLS: answers of 4xx, never 5xx."""
from __future__ import annotations

import random
import socket
import ssl

import pytest
from harness import body_of
from test_gh import BUILD, Desk, desk, made
from test_rest_hostile import BASE, PARTS, QUERIES

__all__ = ['desk', 'made']  # fixtures
COUNT = 150
EVIL = '</script>"\r\nX-Evil: 1\u2028'
FIXED = ('', 'actions/runs', 'actions/workflows', 'actions/workflows/ci.yml/runs', 'actions/runners', 'actions/caches',
         'actions/artifacts', 'actions/cache/usage', 'commits/main/status', 'commits/main/check-runs',
         'commits/main/check-suites', 'actions/acts/refused', 'contents/.github/workflows/by_hand.yml')
OF_A_RUN = ('', '/jobs', '/attempts/1/jobs', '/logs', '/approvals', '/pending_deployments', '/timing', '/artifacts')
BODIES = (b'', b'{', b'[]', b'null', b'\xff', b'{"ref":"main","inputs":{"where":5}}', b'{"ref":"../../x"}',
          b'{"ref":"main","inputs":{"where":"' + b'x' * 70000 + b'"}}', b'{"event_type":5}', b'{"event_type":"\\u0000"}',
          b'{"ref":"\\ud800"}', b'{"event_type":"\\ud800"}', b'{"ref":"main","inputs":{"where":"\\ud800"}}',
          b'{"ref":"main","inputs":{"\\ud800":"\\ud800"}}', b'{"state":"approved","comment":"\\ud800"}')


def raw(there: Desk, method: str, target: str, body: bytes = b'') -> tuple[int, bytes]:
    """A request whose target is sent as it is; the status and the head of the answer."""
    context = there.hub.context
    assert context is not None
    head = (f'{method} {target} HTTP/1.1\r\nHost: hub\r\nAuthorization: token {there.tokens["write"]}\r\n'
            f'Content-Length: {len(body)}\r\nConnection: close\r\n\r\n')
    with socket.create_connection(('127.0.0.1', there.hub.port), 20) as plain:
        with context.wrap_socket(plain, server_hostname='localhost') as wrapped:
            wrapped.sendall(head.encode('latin-1') + body)
            text = b''
            try:
                while piece := wrapped.recv(65536):
                    text += piece
            except (ConnectionResetError, ssl.SSLError):
                pass
    return int(text[9:12] or 400), text.partition(b'\r\n\r\n')[0]


@pytest.fixture
def runs(desk: Desk) -> list[int]:
    """A run that has ended, and one whose event is full of markup and of values of other kinds."""
    ended = desk.admit()
    desk.finish(ended, 'failure')
    github = {'ref_name': EVIL, 'actor': EVIL, 'event': {'head_commit': {
        'message': EVIL, 'timestamp': '9999-12-31T23:59:59-23:59', 'author': {'name': 5, 'email': []}}}}
    return [ended, desk.admit(body_of(EVIL, BUILD, message=EVIL, github=github))]


def test_paths_made_of_anything(desk: Desk, runs: list[int]) -> None:
    chosen = random.Random(5)
    parts = PARTS + [str(runs[0]), str(runs[1]), str(runs[0] << 26 | 1 << 16), str(runs[1] << 26 | 1 << 16)]
    known = [*FIXED, *(f'actions/runs/{run}{rest}' for run in runs for rest in OF_A_RUN)]
    statuses = set()
    for number in range(COUNT):
        path = known[number] if number < len(known) else '/'.join(chosen.choice(parts) for _ in range(chosen.randint(1, 6)))
        method = 'GET' if number < len(known) else chosen.choice(['GET', 'GET', 'HEAD', 'PUT', 'PATCH'])
        status, head = raw(desk, method, f'/api/v3{BASE}/{path}{chosen.choice(QUERIES)}')
        assert status < 500 and b'X-Evil' not in head, (method, path, head)
        statuses.add(status)
    assert {200, 302, 404, 422} <= statuses


def test_bodies_made_of_anything(desk: Desk, runs: list[int]) -> None:
    places = ('actions/workflows/by_hand.yml/dispatches', 'dispatches', f'actions/runs/{runs[0]}/pending_deployments',
              f'actions/runs/{runs[0]}/rerun-failed-jobs', f'actions/runs/{runs[0]}/force-cancel')
    for place in places:
        for body in BODIES:
            status, head = raw(desk, 'POST', f'/api/v3{BASE}/{place}', body)
            assert 400 <= status < 500, (place, body[:50], head)


def test_texts_that_are_no_unicode(desk: Desk, runs: list[int]) -> None:
    for target in ('contents/.github/workflows/by_hand.yml?ref=%ed%a0%80', 'commits/%ed%a0%80/status', 'actions/runs?branch=%ed%a0%80',
                   'actions/workflows/%ed%a0%80', 'contents/%ff', 'actions/caches?key=%ed%a0%80', 'actions/artifacts?name=%ff'):
        status, head = raw(desk, 'GET', f'/api/v3{BASE}/{target}')
        assert status < 500, (target, head)
    for query in (b'{ repository(owner: \\"\\ud800\\", name: \\"x\\") { id } }', b'{ node(id: \\"\\ud800\\") { id } }', b'{ \\ud800 }'):
        status, head = raw(desk, 'POST', '/api/graphql', b'{"query":"' + query + b'"}')
        assert status in (200, 400), (query, head)
