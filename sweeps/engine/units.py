"""Two machines that run systemd over a CephFS or an image of RBD: the units of examples/two_machines, set up by the commands of docs/OPERATING.md, take the file
over from one another."""

import json
import os
import re
import time

from booted import Booted, missing
from processes import expect, say, until

ROOT = os.path.realpath(os.path.join(os.path.dirname(os.path.abspath(__file__)), '../..'))
HEAD = '### Take the file over'
EVENT = {'repo': 'o/r', 'path': 'ci.json', 'workflow': {'jobs': {'build': {'runs-on': 'linux'}}}}


def commands_of_page():
    """The blocks of commands below the head of the page: to install, and to make the store."""
    with open(os.path.join(ROOT, 'docs/OPERATING.md')) as file:
        part = file.read().partition(f'\n{HEAD}\n')[2].partition('\n#')[0]
    blocks = re.findall(r'(?:^    .*\n)+', part, re.M)
    expect(len(blocks) == 2, 'the page has', len(blocks), 'blocks of commands')
    return [block.replace('\n    ', '\n').strip() for block in blocks]


class Machines:
    """ENGINE is `cephfs` or `rbd`, SETTINGS gives what /etc/acts/file says beside the names of the page, for a machine."""

    def __init__(self, cluster, folder, acts, engine, settings):
        self.cluster, self.network, self.folder, self.acts, self.hosts, self.boots = cluster, cluster.network, folder, acts, {}, 0
        self.engine, self.settings = engine, settings

    def boot(self, name):
        """A machine starts, with everything set up but the store."""
        self.boots += 1
        host = self.hosts[name] = Booted(os.path.join(self.folder, f'{self.engine}{self.boots}'), self.network.enter(name))
        host.install(self.acts, ROOT)
        host.do('useradd', '--system', '--uid', '900', '--home-dir', '/var/lib/acts', 'acts')
        host.do('sh', '-euc', f'cd {ROOT}\n{commands_of_page()[0]}')
        host.do('sed', '-i', f's,/cephfs ,/{self.engine} ,', '/etc/systemd/system/acts-file.service')
        self.set(name, CEPH_CONF=self.cluster.settings, **self.settings(name))
        host.do('systemctl', 'daemon-reload')

    def set(self, name, **settings):
        with open(self.hosts[name].path('/etc/acts/file'), 'a') as file:
            file.writelines(f'{setting}="{value}"\n' for setting, value in settings.items())

    def crash(self, name):
        self.hosts.pop(name).end()
        self.network.restart(name)

    def make_store(self, name):
        self.hosts[name].do('sh', '-euc', commands_of_page()[1].replace('67108864', '1048576').replace('/cephfs ', f'/{self.engine} '))

    def start(self, name):
        """The unit takes the file over and serves it. How long that took."""
        begun, host = time.monotonic(), self.hosts[name]
        status, _ = host.ask('systemctl', 'start', 'acts', timeout=300)
        expect(status == 0, 'the unit of', name, 'has not started:', self.journal(name)[-1000:])
        until(lambda: self.look(name, 1) is not None, 60, f'the service of {name}')
        return time.monotonic() - begun

    def journal(self, name):
        return self.hosts[name].do('journalctl', '--unit=acts-file', '--unit=acts', '--no-pager', '--output=cat')

    def look(self, name, run):
        """What the service says of a run, or None if it does not answer."""
        status, said = self.hosts[name].ask('curl', '-s', '--max-time', '5', f'http://127.0.0.1:8080/runs/{run}')
        return None if status else said

    def post(self, name, delivery):
        said = self.hosts[name].do('curl', '-s', '-H', f'X-GitHub-Delivery: {delivery}', '-H', 'X-GitHub-Event: push', '--data-binary', '@-',
                                   'http://127.0.0.1:8080/events', text=json.dumps(EVENT))
        expect(said.startswith('created '), 'an event is answered', said)

    def runs(self, name, count):
        """All runs are there, and no more."""
        seen = [self.look(name, run) for run in range(1, count + 2)]
        expect(seen == [f'run {run} {run} queued - build:open(ready)' for run in range(1, count + 1)] + ['refused 40'], name, 'shows', seen)

    def state(self, name, unit):
        return self.hosts[name].show(unit, 'ActiveState')

    def end(self):
        for host in self.hosts.values():
            host.end()


def moved(machines):
    """Stopped here and started there."""
    machines.post('a', 'd1')
    machines.hosts['a'].do('systemctl', 'stop', 'acts')
    until(lambda: machines.state('a', 'acts-file') == 'inactive', 60, 'the end of the mount')
    took = machines.start('b')
    machines.runs('b', 1)
    return f'moved after {took:.1f} s'


def crashed(machines):
    """The machine that serves loses power."""
    machines.post('b', 'd2')
    machines.crash('b')
    took = machines.start('a')
    machines.runs('a', 2)
    return f'taken over after a crash in {took:.1f} s'


def cut(machines):
    """The machine that serves is cut off. It answers nothing more, and its units end once the link is back."""
    machines.boot('b')
    machines.post('a', 'd3')
    machines.network.cut('a')
    took = machines.start('b')
    machines.runs('b', 3)
    expect(machines.look('a', 1) is None, 'the machine that is cut off answers')
    machines.network.heal('a')
    until(lambda: machines.state('a', 'acts') in ('failed', 'inactive'), 60, 'the end of the unit of the machine that was cut off')
    until(lambda: machines.state('a', 'acts-file') in ('failed', 'inactive'), 130, 'the end of its mount')
    machines.runs('b', 3)
    return f'after a cut in {took:.1f} s'


def refused(machines):
    """A machine that does not reach the cluster does not serve, and says why."""
    machines.set('a', ACTS_SECONDS=15)
    machines.network.cut('a')
    status, _ = machines.hosts['a'].ask('systemctl', 'start', 'acts', timeout=300)
    machines.network.heal('a')
    expect(status and machines.state('a', 'acts') != 'active', 'the unit of a machine that does not reach the cluster has started')
    said = machines.journal('a')
    expect(f'{machines.engine} acquire: refused: ' in said, 'its journal does not say why:', said[-300:])
    machines.runs('b', 3)


def tried(cluster, folder, acts, engine='cephfs', settings=lambda name: {}):
    """The units under systemd, where it is here."""
    if missing():
        return say('units: systemd is not here, so the units were not tried')
    machines = Machines(cluster, folder, acts, engine, settings)
    try:
        machines.boot('a')
        machines.boot('b')
        machines.make_store('a')
        first = machines.start('a')
        words = [moved(machines), crashed(machines), cut(machines)]
        refused(machines)
        say(f'units of {engine} under systemd: first started in {first:.1f} s,', *(f'{it},' for it in words), 'and refused without the cluster: nothing is lost')
    finally:
        machines.end()
