"""GlusterFS, replica 3: a cut that is longer than its timeouts, with its default options and with `client.strict-locks`."""

import os
import random
import signal
import threading
import time

from failovers import Trial, fault_in, say_control
from hosts import Host
from processes import end, expect, run, say, start, until

# The defaults of network.ping-timeout and server.tcp-user-timeout are 42 seconds: then the bricks let go of a lock.
SECONDS = 50
BEGIN = '''mount --bind "$0/state" /var/lib/glusterd && mount --bind "$0/log" /var/log/glusterfs && mount --bind "$0/run" /run && exec glusterd -N'''


class Volume:
    """A glusterd with three bricks, in a process namespace of its own, which ends with it."""

    def __init__(self, network, folder):
        self.network, self.folder = network, os.path.join(folder, 'gluster')
        for name in ('state', 'log', 'run', 'run/gluster', 'b0', 'b1', 'b2'):
            os.makedirs(os.path.join(self.folder, name))
        self.child = start([*network.enter('engine'), 'unshare', '--mount', '--pid', '--fork', '--kill-child', '--mount-proc', 'sh', '-c', BEGIN, self.folder],
                           os.path.join(self.folder, 'glusterd.out'))
        self.socket = os.path.join(self.folder, 'run/glusterd.socket')
        until(lambda: os.path.exists(self.socket), 60, 'glusterd')

    def ask(self, *words):
        return run(*self.network.enter('engine'), 'gluster', '--mode=script', f'--glusterd-sock={self.socket}', 'volume', *words)

    def begin(self, name, options):
        address = self.network.addresses['engine']
        self.ask('create', name, 'replica', '3', *(f'{address}:{self.folder}/{brick}/{name}' for brick in ('b0', 'b1', 'b2')), 'force')
        for option in options:
            self.ask('set', name, option, 'on')
        self.ask('start', name)

    def stop(self):
        end(self.child)


class Mounted(Host):
    """A host that mounts a volume, and shuts nobody out: GlusterFS has no fence of its own."""

    def __init__(self, network, name, folder, acts, volume, log):
        super().__init__(network, name, '', os.path.join(folder, volume), acts, {})
        self.volume, self.log = volume, log

    def acquire(self):
        self.release()
        words = ['glusterfs', f'--volfile-server={self.network.addresses["engine"]}', f'--volfile-id=/{self.volume}', f'--log-file={self.log}', self.mount]
        run(*self.network.enter(self.name), *words)
        until(lambda: os.path.ismount(self.mount), 30, 'the mount')

    def release(self):
        for pid in self.engines():
            os.kill(pid, signal.SIGKILL)
        until(lambda: not list(self.engines()), 10, 'the end of the mount')
        while self.mount in open('/proc/mounts').read():
            run('umount', '--force', '--lazy', '--no-canonicalize', self.mount)

    def is_connected(self):
        """Whether a majority of the bricks answers: a file can be made."""
        try:
            with open(os.path.join(self.mount, 'probe'), 'w') as file:
                os.fsync(file)
            return True
        except OSError:
            return False


def long_cut(network, folder, acts, seed, name):
    """A host is cut off for longer than the timeouts, and the other one takes over once it gets the lock; then the link comes back. What was wrong, or None."""
    hosts = [Mounted(network, host, folder, acts, name, os.path.join(folder, 'gluster/log', f'{host}.{name}.log')) for host in 'ab']
    trial = Trial(network, hosts, seed, random.Random(seed))

    def play():
        trial.begin()
        trial.spell()
        cut_and_heal(trial, name)
        trial.close(folder)

    return fault_in(trial, play)


def cut_and_heal(trial, name):
    """Nobody asks the host while it is cut off, so none of its writes fails; clients of its own come once the link is back."""
    old, stop = trial.here, threading.Event()
    trial.load.serve_by(None)
    until(lambda: trial.is_healthy(old), 60, 'a durable answer')
    time.sleep(2)
    failed = time.monotonic()
    trial.network.cut(old.name)
    time.sleep(SECONDS)
    acquired = trial.take_over(f'cut off, {name}', failed)
    trial.network.heal(old.name)
    took = until(old.is_connected, 90, 'the bricks to the host that was cut off', 0.5)
    time.sleep(4)
    threads = trial.strays(stop, old)
    ended = old.ended(10)
    stop.set()
    for thread in threads:
        thread.join(30)
    say(f'    {name}: connected again after {took:.1f} s; {trial.load.answers.since(acquired, old.name)} answers of the host that was cut off after the',
        'other one was ready; it', f'ended with {ended[1]!r}' if ended else 'did not end')
    old.crash()


def tried(network, folder, acts, seed, name, options):
    """What was wrong over a volume with these options, under a glusterd of its own."""
    below = os.path.join(folder, name)
    volume = Volume(network, below)
    try:
        volume.begin(name, options)
        return long_cut(network, below, acts, seed, name)
    finally:
        volume.stop()


def by_default(network, folder, acts, seed, attempt):
    """The control: the default options. Whether they were found out in one cut."""
    return say_control('GlusterFS with its default options', tried(network, folder, acts, seed + attempt, f'default{attempt}', []))


def strict(network, folder, acts, seed):
    """With `client.strict-locks on` nothing is lost."""
    wrong = tried(network, folder, acts, seed, 'strict', ['client.strict-locks'])
    expect(not wrong, 'GlusterFS with client.strict-locks:', wrong)
    say('GlusterFS with client.strict-locks: nothing is lost or doubled in one cut')
