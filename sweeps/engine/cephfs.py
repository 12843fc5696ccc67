"""The sweep over CephFS, mounted by `ceph-fuse`."""

import random
import threading
import time

from failovers import Trial, fault_in, say_control
from hosts import Host
from processes import expect, run, say, until

# The most that clients wait for an answer once the engine is whole again.
SECONDS = 300
SETTINGS = {'ACTS_CEPH_USER': 'acts', 'ACTS_FS': 'acts'}


def hosts_over(cluster, folder, acts, names='ab'):
    settings = {**SETTINGS, 'CEPH_CONF': cluster.settings}
    return [Host(cluster.network, name, 'cephfs', folder, acts, settings) for name in names]


def mount_unfenced(host):
    """Mounts as somebody does who shuts nobody out."""
    host.release()
    words = ['ceph-fuse', '--name', 'client.acts', '--client_fs', 'acts', host.mount]
    run(*host.network.enter(host.name), *words, env=host.settings)


def second_server(trial):
    """A second service, on a host that has shut nobody out, is refused while the first one lives."""
    mount_unfenced(trial.there)
    trial.there.serve()
    ended = trial.there.ended(30)
    expect(ended == trial.there.locked_out(), 'a second service on the other host:', ended)
    trial.there.release()
    say('    a second service on the other host, which has shut nobody out:', ended[1].splitlines()[0])


def refused_without_cluster(trial):
    """A host that can't reach the cluster does not get the file."""
    trial.network.cut(trial.there.name)
    say('    acquire on a host that does not reach the cluster:', trial.there.refusal('the cluster'))
    trial.network.heal(trial.there.name)


def refused_without_server(trial, cluster):
    """Nor does one when no server of the file system can say who holds it. The monitor may not know yet that they are gone."""
    names = [place for kind, place in cluster.children if kind == 'mds']
    for name in names:
        cluster.kill('mds', name)
    say('    acquire without a server of CephFS:', trial.there.refusal('a server of each rank', 'session ls'))
    for name in names:
        cluster.start('mds', name)
    until(cluster.active_server, SECONDS, 'a server of CephFS', 1)
    trial.load.first.clear()
    expect(trial.load.first.wait(SECONDS), 'no answer with the servers of CephFS back')


def unfenced(trial):
    """The host that serves is cut off, and nobody shuts it out: the service of the other one says that it waits, until CephFS does so itself, by its
    session timeout."""
    old, other = trial.here, trial.there
    mount_unfenced(other)
    failed = time.monotonic()
    trial.network.cut(old.name)
    trial.take_over('cut off without a fence', failed, lambda: None)
    said = other.said()
    expect(said == other.waits(), 'a service that waits for the lock of a host that is away says', repr(said))
    trial.network.heal(old.name)
    say('    it said that it waits for the lock; the host that was cut off ended with', old.ended(30))
    old.crash()


class Faults:
    """Parts of the cluster that fail between failovers."""

    def __init__(self, cluster):
        self.cluster, self.down = cluster, []

    def osd_killed(self, trial):
        self.down.append(trial.dice.choice('012'))
        trial.outlive(f'OSD {self.down[-1]} killed', lambda: self.cluster.kill('osd', self.down[-1]), 8)

    def osds_back(self, _=None):
        while self.down:
            self.cluster.start('osd', self.down.pop())

    def mds_killed(self, trial):
        trial.outlive('the server of CephFS killed', self.mds_fails, 6)

    def mds_fails(self):
        """The active server is killed; the one that stands by takes over, and the first comes back to stand by."""
        name = self.cluster.active_server()
        self.cluster.kill('mds', name)
        took = until(lambda: self.cluster.active_server() not in (None, name), 90, 'the other server of CephFS', 0.2)
        self.cluster.start('mds', name)
        return f'the other one active after {took:.1f} s; '

    def two_osds_killed(self, trial):
        """Without two of three there are no answers, and none is lost."""
        self.osds_back()
        until(lambda: self.cluster.osds_up() == 3, 120, 'three OSDs', 0.5)
        for place in '01':
            self.cluster.kill('osd', place)
        time.sleep(8)
        start = time.monotonic()
        time.sleep(4)
        answers = trial.load.answers.since(start)
        trial.load.first.clear()
        self.cluster.start('osd', '0')
        started = time.monotonic()
        expect(trial.load.first.wait(SECONDS), 'no answer with two of three OSDs')
        say(f'    two of three OSDs killed: {answers} answers in seconds 8 to 12; the first one {time.monotonic() - started:.1f} s after one was started again')
        self.cluster.start('osd', '1')
        until(lambda: self.cluster.osds_up() == 3, 120, 'three OSDs', 0.5)


def short_cut(trial):
    trial.short_cut()


def sweep(cluster, hosts, folder, seed, dice, times):
    trial, faults = Trial(cluster.network, hosts, seed, dice), Faults(cluster)
    trial.begin()
    second_server(trial)
    trial.play(times, [faults.osd_killed, faults.osds_back, faults.mds_killed, short_cut])
    refused_without_cluster(trial)
    refused_without_server(trial, cluster)
    faults.two_osds_killed(trial)
    unfenced(trial)
    trial.spell()
    found = trial.close(folder)
    cluster.check()
    trial.report('CephFS', found)


def lying_sync(cluster, hosts, folder, seed, library):
    """The control: a sync that does nothing, on a machine that crashes. Whether it was found in one crash."""
    trial = Trial(cluster.network, hosts, seed, random.Random(seed), preload=library)

    def play():
        trial.begin()
        trial.spell()
        trial.crash()
        trial.spell()
        trial.close(folder)

    return say_control('a sync that does nothing', fault_in(trial, play))


def lifted_early(cluster, hosts, folder, seed):
    """A fence by the address of the machine, which is lifted once the old mount has ended, while its sockets still hold what it had not sent. Whether
    that did harm in one cut."""
    trial, network = Trial(cluster.network, hosts, seed, random.Random(seed)), cluster.network
    old, address = hosts[0], cluster.network.addresses[hosts[0].name]

    def play():
        trial.begin()
        trial.spell()
        failed = cut_and_fence_by_address(trial, cluster, address)
        old.crash()
        say(f'    the fence is lifted with {network.unsent(old.name)} bytes in the sockets of a mount that has ended')
        cluster.ask('osd', 'blocklist', 'rm', address)
        network.heal(old.name)
        # The kernel sends again after about as long as it has waited.
        time.sleep(min(60, 5 + time.monotonic() - failed))
        trial.close(folder)

    return say_control('a fence that is lifted early', fault_in(trial, play))


def cut_and_fence_by_address(trial, cluster, address):
    """The other host takes over behind a fence of its own. Gives the moment of the cut."""
    old, other, stop = trial.here, trial.there, threading.Event()

    def acquire():
        cluster.ask('osd', 'blocklist', 'add', address)
        mount_unfenced(other)

    threads = trial.strays(stop, old)
    time.sleep(0.3)
    failed = time.monotonic()
    cluster.network.cut(old.name)
    trial.take_over('cut, fenced by address', failed, acquire)
    stop.set()
    for thread in threads:
        thread.join(30)
    return failed
