"""Runners on two hosts, which are network namespaces: they reach the hub alone, and kills of either side lose no leg and no line."""
from __future__ import annotations

import json
import os
import pathlib
import random
import re
import shutil
import signal
import subprocess
import tempfile
import time
from collections.abc import Iterator

import pytest
from harness import HUB, PYTHON, Process, acts, body_of, request, until

from acts_hub.doors import namespace

LACKS = [name for name in ('ip',) if not shutil.which(name, path=os.environ['PATH'] + ':/usr/sbin:/sbin')] + ['root'] * (os.geteuid() != 0)
pytestmark = pytest.mark.skipif(bool(LACKS) or namespace.missing() is not None, reason=f'not here: {" ".join(LACKS) or namespace.missing()}')
KILLS = int(os.environ.get('HUB_KILLS', '6'))
RUNNERS = 3
NET = '10.231.7.'


def ip(*words: str) -> None:
    subprocess.run(['ip', *words], check=True, capture_output=True, text=True, env={**os.environ, 'PATH': os.environ['PATH'] + ':/usr/sbin:/sbin'})


class Hosts:
    """A host with `acts-hub up`, and two with runners. Each is linked to the first alone, and none to this machine's network."""

    def __init__(self, place: pathlib.Path) -> None:
        self.place, self.folder, self.tag = place, place / 'up', f'acts{os.getpid()}'
        self.names = [f'{self.tag}-{name}' for name in ('hub', 'a', 'b')]
        for name in self.names:
            ip('netns', 'add', name)
            ip('-n', name, 'link', 'set', 'lo', 'up')
        for index, name in enumerate(self.names[1:]):
            link, here, there = f'v{os.getpid() % 100000}{index}', f'{NET}{4 * index + 1}', f'{NET}{4 * index + 2}'
            ip('link', 'add', link, 'netns', self.names[0], 'type', 'veth', 'peer', 'name', 'eth0', 'netns', name)
            ip('-n', self.names[0], 'addr', 'add', f'{here}/30', 'dev', link)
            ip('-n', self.names[0], 'link', 'set', link, 'up')
            ip('-n', name, 'addr', 'add', f'{there}/30', 'dev', 'eth0')
            ip('-n', name, 'link', 'set', 'eth0', 'up')
            ip('-n', name, 'route', 'add', 'default', 'via', here)
        self.url = f'https://{NET}1:8443'
        self.up = self.process(0, 'up', 'acts_hub', 'up', str(self.folder), '--acts', acts(), '--listen', f'{NET}1:8443', '--no-runner')
        self.runners: list[Process] = []

    def process(self, host: int, name: str, package: str, *words: str) -> Process:
        """A program on a host, not yet started."""
        return Process([shutil.which('ip') or '/sbin/ip', 'netns', 'exec', self.names[host], PYTHON, '-m', package, *words], self.place, name, {'PYTHONPATH': str(HUB)})

    def start(self) -> None:
        self.up.start()
        until(lambda: 'Ctrl-C ends all' in self.up.said(), 90, 'the hub')
        for host, letter in ((1, 'a'), (2, 'b')):
            made = subprocess.run([PYTHON, '-m', 'acts_hub', 'token', '--config', str(self.folder / 'hub.toml'), 'create', letter, 'runner', '--prefix', letter,
                                   '--labels', 'linux'], env={**os.environ, 'PYTHONPATH': str(HUB)}, capture_output=True, text=True, check=True)
            token = self.place / f'{letter}.token'
            token.write_text(made.stdout)
            token.chmod(0o600)
            for number in range(RUNNERS):
                name = f'{letter}{number}'
                self.runners.append(self.process(
                    host, name, 'acts_runner', '--hub', self.url, '--token-file', str(token), '--ca', str(self.folder / 'certificate.pem'), '--name', name,
                    '--labels', 'linux', '--pause', '0.3', '--beat', '1', '--state', str(self.place / f'state-{letter}')))
                self.runners[-1].start()

    def get(self, path: str) -> subprocess.CompletedProcess[str]:
        """From the hub, on its host, by curl with the token of an administrator."""
        token = (self.folder / 'admin.token').read_text().strip()
        return subprocess.run(['ip', 'netns', 'exec', self.names[0], 'curl', '-sSL', '-m', '20', '--cacert', str(self.folder / 'certificate.pem'), '-H',
                               f'Authorization: Bearer {token}', f'{self.url}{path}'], capture_output=True, text=True,
                              env={**os.environ, 'PATH': os.environ['PATH'] + ':/usr/sbin:/sbin'})

    def hub(self) -> int:
        """The hub's process."""
        for child in pathlib.Path(f'/proc/{self.up.id}/task/{self.up.id}/children').read_text().split():
            if b'\0serve\0--config\0' in pathlib.Path(f'/proc/{child}/cmdline').read_bytes():
                return int(child)
        return 0

    def end(self) -> None:
        for one in self.runners:
            one.kill(signal.SIGKILL)
        self.up.kill(signal.SIGTERM)
        for name in self.names:
            ip('netns', 'delete', name)


@pytest.fixture(scope='module')
def hosts() -> Iterator[Hosts]:
    place = pathlib.Path(tempfile.mkdtemp(prefix='hosts.', dir='/tmp'))
    made = Hosts(place)
    try:
        made.start()
        yield made
    finally:
        made.end()
        shutil.rmtree(place, ignore_errors=True)


def admit(hosts: Hosts, body: bytes, delivery: str) -> int:
    answer = request(hosts.folder / 'doors/hook', 'POST', '/events', body, {'X-GitHub-Delivery': delivery, 'X-GitHub-Event': 'push'})
    assert answer.status == 201, answer.text
    return int(answer.text.split()[1])


def conclusion(hosts: Hosts, run: int) -> str | None:
    found: str | None = request(hosts.folder / 'doors/view', 'GET', f'/runs/{run}').json()['conclusion']
    return found


def whole_log(hosts: Hosts, job: int, end: str) -> str:
    """The log of a job, once it has its end."""
    text = hosts.get(f'/api/v3/repos/octo/hello/actions/jobs/{job}/logs').stdout
    return text if end in text else ''


def test_runners_of_both_hosts_take_legs(hosts: Hosts) -> None:
    """A matrix of twelve legs is shared by both hosts, which reach no port of the service."""
    run = admit(hosts, body_of(jobs={'build': {'runs-on': 'linux', 'strategy': {'matrix': {'part': list(range(12))}}, 'steps': [{'run': 'sleep 1'}]}}), 'both')
    until(lambda: conclusion(hosts, run) == 'success', 120, 'the run')
    jobs = json.loads(hosts.get(f'/api/v3/repos/octo/hello/actions/runs/{run}/jobs?per_page=100').stdout)['jobs']
    assert len(jobs) == 12 and {job['runner_name'][0] for job in jobs} == {'a', 'b'}
    for host in hosts.names[1:]:
        for port in 8080, 8081, 8083:
            tried = subprocess.run(['ip', 'netns', 'exec', host, 'curl', '-s', '-m', '3', f'http://{NET}1:{port}/healthz'], capture_output=True)
            assert tried.returncode in (7, 28)


def test_kills_of_hub_and_runners(hosts: Hosts) -> None:
    """kill -9 of the hub and of runners while legs go on: each leg runs once, ends well, and its log is whole. HUB_KILLS says how often."""
    notes = hosts.place / 'notes'
    runs = []
    for number in range(KILLS):
        steps = [{'run': f'echo {number} >> {notes}; echo begin-{number}; sleep 1; echo end-{number}'}]
        runs.append(admit(hosts, body_of(jobs={'build': {'runs-on': 'linux', 'steps': steps}}), f'kill-{number}'))
        time.sleep(random.random())
        if number % 2:
            victim = random.choice(hosts.runners)
            victim.kill()
            victim.start()
        elif hub := hosts.hub():
            os.kill(hub, signal.SIGKILL)
    until(lambda: [conclusion(hosts, run) for run in runs] == KILLS * ['success'], 120 + 10 * KILLS, 'the runs')
    assert sorted(map(int, notes.read_text().split())) == list(range(KILLS))
    for number, run in enumerate(runs):
        job = until(lambda: re.search(r'"id": ?([0-9]+), ?"run_id"', hosts.get(f'/api/v3/repos/octo/hello/actions/runs/{run}/jobs').stdout), what='its job')
        log = until(lambda: whole_log(hosts, int(job[1]), f'Z end-{number}\n'), 60, 'its log')
        assert log.count(f'Z begin-{number}\n') == log.count(f'Z end-{number}\n') == 1
