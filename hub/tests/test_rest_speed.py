"""How fast the REST API is over 20,000 runs: the processor's time of the hub for a request, and requests a second."""
from __future__ import annotations

import dataclasses
import subprocess
import sys
import time
from collections.abc import Iterator

import pytest
from rest_stand import Stand, run_of

from acts_hub.service.hooks import HookPort
from acts_hub.service.mirror import Mirror
from acts_hub.service.view import ViewPort

COUNT, ASKED = 20_000, 200
CLIENT = '''
import http.client, sys, time
port, token, count, known, path = int(sys.argv[1]), sys.argv[2], int(sys.argv[3]), sys.argv[4], sys.argv[5]
made = http.client.HTTPConnection('127.0.0.1', port)
walls, fields = [], {'Authorization': f'token {token}'}
for number in range(count):
    began = time.perf_counter()
    made.request('GET', path, headers=fields)
    answer = made.getresponse()
    answer.read()
    walls.append(time.perf_counter() - began)
    assert answer.status in (200, 304), answer.status
    if known == 'known':
        fields['If-None-Match'] = answer.headers['ETag']
walls.sort()
print(walls[count // 2] * 1000, walls[0] * 1000, sum(walls))
'''


@pytest.fixture(scope='module')
def full(standing_hub: Stand) -> Iterator[Stand]:
    """The hub with the real mirror, filled by hand."""
    before, hub = standing_hub.mirror, standing_hub.hub
    mirror = Mirror(ViewPort('127.0.0.1:1'), HookPort('127.0.0.1:1'), hub.database)
    for number in range(1, COUNT + 1):
        run = run_of(number, branch=('main', 'topic/a', 'release')[number % 3],
                     actor=('mona', 'hubot')[number % 5 == 0],
                     conclusion=('success', 'success', 'failure')[number % 3],
                     path=f'.github/workflows/{("ci", "deploy", "nightly")[number % 3]}.yml')
        mirror.put(run)
    leg = {'leg': 0, 'combination': {}, 'state': 'success', 'lease': 7, 'runner': 'r1', 'labels': ['linux'],
           'group': None, 'waits_for': None}
    row = dataclasses.asdict(mirror.runs[777].row)
    mirror.attempts.keep_whole(777, 1, {**row, 'stopping': False, 'waits_for': None, 'from': None, 'jobs': [
        {'id': 'build', 'state': 'success', 'needs': [], 'max_parallel': None, 'legs': [leg]}]})
    mirror.is_whole = True
    hub.mirror = mirror
    yield standing_hub
    hub.mirror = before  # type: ignore[assignment]


def measured(stand: Stand, path: str, most: float, known: str = '', clients: int = 1) -> float:
    """Milliseconds of the hub's processor time for a request: the best of up to five rounds, since other programs share the machine."""
    words = [sys.executable, '-c', CLIENT, str(stand.port), stand.tokens['read'], str(ASKED // clients), known,
             f'/api/v3/repos/octo/hello/{path}']
    best = float('inf')
    for _ in range(5):
        used = time.process_time()
        running = [subprocess.Popen(words, stdout=subprocess.PIPE, text=True) for _ in range(clients)]
        said = [list(map(float, one.communicate(timeout=300)[0].split())) for one in running]
        used = (time.process_time() - used) / ASKED * 1000
        assert all(one.returncode == 0 for one in running)
        best = min(best, used)
        print(
            f'{path} {known} {clients} clients: {used:.2f} ms of the processor, wall median {max(one[0] for one in said):.2f} ms, best '
              f'{min(one[1] for one in said):.2f} ms, {ASKED / max(one[2] for one in said):.0f}/s')
        if best < most:
            break
    return best


@pytest.mark.parametrize('path, most', [
    ('actions/runs?per_page=20', 2.0), ('actions/runs?per_page=100', 4.0), ('actions/runs/777', 2.0),
    ('actions/runs/777/jobs', 3.0), ('actions/workflows', 2.0),
    ('actions/runs?per_page=20&branch=topic/a&status=failure', 2.0), ('actions/runs?per_page=20&status=success', 2.0),
    ('actions/runs?per_page=20&created=%3E2026-11-30', 20.0)])
def test_processor_time_of_a_request(full: Stand, path: str, most: float) -> None:
    assert measured(full, path, most) < most


def test_what_has_not_changed_costs_less(full: Stand) -> None:
    assert measured(full, 'actions/runs?per_page=20', 2.0, 'known') < 2.0


def test_five_hundred_lists_of_twenty_a_second(full: Stand) -> None:
    """Less than 2 ms each: so 500 a second of one processor."""
    assert measured(full, 'actions/runs?per_page=20', 2.0, clients=4) < 2.0
