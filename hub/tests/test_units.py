"""The units under systemd, which is process 1 of namespaces over a copy of this machine: set up as docs/OPERATING.md says."""
from __future__ import annotations

import json
import pathlib
import sys
import tempfile
from collections.abc import Iterator
from typing import Any

import pytest
from harness import HUB, acts, body_of, until

ROOT = HUB.parent
sys.path.insert(0, str(ROOT / 'sweeps/engine'))
booted = pytest.importorskip('booted')
LACKS = booted.missing()
pytestmark = pytest.mark.skipif(bool(LACKS), reason=f'not here: {" ".join(LACKS)}')
CONFIG = '''
[service]
view = "unix:/run/acts/8083"
hook = "unix:/run/acts/8080"
runner = "unix:/run/acts/8081"
[hub]
listen = "127.0.0.1:8443"
folder = "/var/lib/acts-hub"
'''
FENCE = '''#!/bin/sh
echo "$1 $ACTS_WHY" >> /var/lib/acts-watchdog/fenced
'''
ORDER = '/usr/local/bin/acts-hub token --config /etc/acts/hub.toml create'


class Host:
    """A machine with systemd, on which service, doors, hub and watchdog are installed."""

    def __init__(self, folder: pathlib.Path) -> None:
        self.machine: Any = booted.Booted(str(folder / 'host'))

    def set_up(self) -> None:
        """As the page says."""
        self.machine.install(acts(), str(ROOT))
        self.machine.do('make', '--silent', '-f', f'{ROOT}/hub/targets.mk', 'hub-install')
        for name in 'acts', 'acts-hub', 'acts-watchdog':
            self.machine.do('useradd', '--system', '--user-group', '--home-dir', f'/var/lib/{name}', name)
        self.machine.write('/etc/acts/hub.toml', CONFIG)
        self.machine.write('/etc/acts/watchdog.conf', 'OPTIONS=--after 5 --again 1 --fence /usr/local/sbin/fence_runner\n')
        self.machine.write('/usr/local/sbin/fence_runner', FENCE, 0o755)
        self.machine.do('systemctl', 'daemon-reload')
        self.start('acts', *(f'acts-door@{port}.socket' for port in (8080, 8081, 8083)), 'acts-hub', 'acts-watchdog')

    def start(self, *units: str) -> None:
        self.machine.do('systemctl', 'enable', '--now', *units)
        for unit in units:
            until(lambda: self.machine.show(unit, 'ActiveState') == 'active', what=unit)

    def door(self, port: int, path: str, user: str = 'acts-hub', *words: str, text: str | None = None) -> tuple[int, str]:
        """Curl by a door, as a user."""
        return self.ask('runuser', '-u', user, '--', 'curl', '-sS', '--unix-socket', f'/run/acts/{port}', *words, f'http://acts{path}', text=text)

    def ask(self, *words: str, text: str | None = None) -> tuple[int, str]:
        found: tuple[int, str] = self.machine.ask(*words, text=text)
        return found

    def admit(self, delivery: str, **job: Any) -> str:
        """Admits an event by the door; the run."""
        body = body_of(jobs={'build': {'runs-on': 'linux', 'steps': [], **job}}).decode()
        headers = '-H', f'X-GitHub-Delivery: {delivery}', '-H', 'X-GitHub-Event: push', '--data-binary', '@-'
        status, said = self.door(8080, '/events', 'acts-hub', *headers, text=body)
        assert status == 0, said
        return said.split()[-1]

    def lines(self, *said: str) -> list[str]:
        """What the runner port answers to lines, by its door."""
        script = ('import socket, sys; s = socket.socket(socket.AF_UNIX); s.connect("/run/acts/8081"); f = s.makefile("rw")\n'
                  'for line in sys.argv[1:]:\n    f.write(line + "\\n"); f.flush(); print(f.readline().strip())')
        status, found = self.ask('runuser', '-u', 'acts-hub', '--', '/usr/bin/python3', '-c', script, *said)
        assert status == 0, found
        return found.splitlines()


@pytest.fixture(scope='module')
def host() -> Iterator[Host]:
    with tempfile.TemporaryDirectory(dir='/tmp') as folder:
        made = Host(pathlib.Path(folder))
        try:
            made.set_up()
            yield made
        finally:
            made.machine.end()


def test_systemd_takes_the_units(host: Host) -> None:
    """No unit has a line that systemd does not know."""
    units = sorted(path.name.replace('@.', '@8080.') for path in (HUB / 'units').iterdir() if 'runner' not in path.name)
    status, said = host.ask('systemd-analyze', 'verify', *units)
    ours = [line for line in said.splitlines() if 'acts' in line]
    assert (status, ours) == (0, []), said


def test_the_doors_lead_to_the_service(host: Host) -> None:
    """The group acts-hub uses them; another user does not, and nothing listens on the machine's loopback but the hub."""
    until(lambda: host.door(8083, '/healthz') == (0, 'ok'), what='the service')
    assert host.door(8080, '/runs/999') == (0, 'refused 40')
    status, said = host.door(8080, '/runs/999', 'nobody')
    assert status == 7, said  # curl: failed to connect
    for port in 8080, 8081, 8083:
        assert host.ask('curl', '-s', f'http://127.0.0.1:{port}/healthz')[0] == 7
    mine = host.ask('readlink', '/proc/1/ns/net')[1]
    assert host.ask('readlink', f'/proc/{host.machine.show("acts", "MainPID")}/ns/net')[1] != mine


def test_the_hub_serves_by_the_doors(host: Host) -> None:
    """The hub answers, knows a run that is admitted, and needs a token; within the limits of its unit."""
    until(lambda: host.ask('curl', '-s', 'http://127.0.0.1:8443/healthz') == (0, 'ok'), what='the hub')
    status, token = host.ask('runuser', '-u', 'acts-hub', '--', *ORDER.split(), 'mona', 'admin')
    assert status == 0, token
    run = host.admit('units-1')
    address = f'http://127.0.0.1:8443/api/v3/repos/octo/hello/actions/runs/{run}'
    until(lambda: host.ask('curl', '-s', '-H', f'Authorization: Bearer {token}', address)[1].startswith('{'), what='the run')
    found = json.loads(host.ask('curl', '-s', '-H', f'Authorization: Bearer {token}', address)[1])
    assert (found['id'], found['status']) == (int(run), 'queued')
    assert json.loads(host.ask('curl', '-s', address)[1])['message'] == 'Requires authentication'


def test_a_killed_service_is_found_again(host: Host) -> None:
    """After kill -9 the next process is in the same namespace: the doors, which went on, lead to it."""
    run = host.admit('units-2')
    before = host.machine.show('acts', 'MainPID')
    host.machine.do('kill', '-9', before)
    until(lambda: host.machine.show('acts', 'MainPID') not in ('0', before), what='another process')
    until(lambda: host.door(8080, f'/runs/{run}')[1].endswith(' queued - build:open(ready)'), what='the run')
    doors = host.machine.show('acts-door@8080', 'MainPID')
    host.machine.do('systemctl', 'restart', 'acts')
    until(lambda: host.door(8080, f'/runs/{run}')[1].endswith(' queued - build:open(ready)'), what='the run after a restart')
    assert host.machine.show('acts-door@8080', 'MainPID') == doors != '0'


def test_the_watchdog_reports_a_silent_runner(host: Host) -> None:
    """By the doors, within the limits of its unit."""
    run = host.admit('units-3', **{'runs-on': 'silent'})
    assert host.lines('CLAIM quiet 1 silent')[0].split()[:3:2] == ['lease', run]
    until(lambda: 'build:failure(failure)' in host.door(8080, f'/runs/{run}')[1], 90, 'the loss')
    assert host.machine.do('cat', '/var/lib/acts-watchdog/fenced').splitlines()[0] == 'quiet silent'


def test_a_runner_finishes_its_leg_when_its_unit_is_stopped(host: Host) -> None:
    """By the hub, with its token as a credential, and steps of the unit's user."""
    place = '/var/lib/acts-runner'
    host.machine.do('useradd', '--system', '--user-group', '--home-dir', place, 'acts-runner')
    status, token = host.ask('runuser', '-u', 'acts-hub', '--', *ORDER.split(), 'build', 'runner', '--prefix', 'build', '--labels', 'unit')
    assert status == 0, token
    host.machine.write('/etc/acts/runner-build.conf', 'OPTIONS=--hub http://127.0.0.1:8443 --pause 0.2 --beat 1\nLABELS=unit\n')
    host.machine.write('/etc/acts/runner-build.token', f'{token}\n', 0o600)
    host.start('acts-runner@build')
    step = f'id -un > {place}/who; until test -e {place}/go; do sleep 0.1; done; cat /etc/acts/runner-build.token || echo closed >> {place}/who'
    run = host.admit('units-4', **{'runs-on': 'unit', 'steps': [{'run': step}]})
    until(lambda: '(running)' in host.door(8080, f'/runs/{run}')[1], what='the leg')
    until(lambda: host.ask('test', '-s', f'{place}/who')[0] == 0, what='the step')
    host.machine.do('systemctl', 'stop', '--no-block', 'acts-runner@build')
    until(lambda: host.machine.show('acts-runner@build', 'ActiveState') == 'deactivating', what='the stop')
    host.machine.write(f'{place}/go', '')
    until(lambda: host.machine.show('acts-runner@build', 'ActiveState') == 'inactive', what='the end of the runner')
    assert host.door(8080, f'/runs/{run}')[1].endswith(' completed success build:success(success)')
    assert host.machine.show('acts-runner@build', 'Result') == 'success'
    assert host.ask('cat', f'{place}/who')[1].split() == ['acts-runner', 'closed']


@pytest.mark.parametrize(('unit', 'most'), [('acts', 1.0), ('acts-door@8080', 1.5), ('acts-hub', 2.5)])
def test_the_units_take_away_what_is_not_needed(host: Host, unit: str, most: float) -> None:
    """By systemd's own mark, which is 9 and more for a unit without limits."""
    said = host.ask('systemd-analyze', 'security', '--no-pager', f'{unit}.service')[1]
    mark = float(said.rsplit('service: ', 1)[1].split()[0])
    assert mark <= most, said[-3000:]
