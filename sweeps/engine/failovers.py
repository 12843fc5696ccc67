"""What befalls two hosts over one file: each method is one kind of failover, or one fault that the service has to outlive."""

import collections
import os
import shutil
import statistics
import threading
import time

from checking import check, send_again
from load import Load, Runner, Sender
from processes import Broken, Wrong, expect, run, say, until

AREA, CLIENTS, STRAYS = 8 << 20, 4, 2
# Answers before each failover, and the most that clients get at full speed until it has begun.
ANSWERS, MOST = 50, 120
UNREADABLE = ('acts: refused 53', 'acts: refused 54')
# How long the lock of `acts init` may outlive it: an engine in user space hears of the end of a process a moment later.
LET_GO = 10


class Trial:
    """Two hosts and their load. `here` serves, `there` takes over."""

    def __init__(self, network, hosts, seed, dice, preload=None):
        self.network, self.dice, self.preload = network, dice, preload
        self.load = Load(network, seed)
        self.here, self.there = hosts
        self.count, self.took = 0, collections.defaultdict(list)

    def make_store(self):
        """A new store, on the first host."""
        self.here.acquire()
        if os.path.exists(self.here.file):
            os.remove(self.here.file)
        run(self.here.acts, 'init', self.here.file, str(AREA))

    def begin(self):
        """A new store, served, with clients."""
        self.make_store()
        self.begin_service(self.here, LET_GO)
        for place in range(CLIENTS):
            self.load.add(Sender, f's{place}')
            self.load.add(Runner, f'r{place}')
        expect(self.load.first.wait(60), 'no first answer')
        self.load.hurry(0)

    def play(self, times, faults):
        """So many failovers of all kinds, in an order of chance, and some of these faults between them."""
        kinds = [self.handover, self.crash, self.healed, self.ended_first]
        plan = [kinds[place % len(kinds)] for place in range(times)]
        self.dice.shuffle(plan)
        for place, kind in enumerate(plan):
            self.spell()
            kind()
            faults[place % len(faults)](self)

    def close(self, folder):
        """Sends everything again, ends the service, and checks a copy of the file."""
        self.load.stop()
        send_again(self.load, self.here)
        expect(self.here.end_service() is None, 'the service has ended by itself')
        copy = os.path.join(folder, 'copy')
        shutil.copyfile(self.here.file, copy)
        return check(self.load, self.here.acts, copy)

    def begin_service(self, host, patience=0):
        """Starts a service, which clients go to."""
        self.start(host, patience)
        self.load.serve_by(host.name)

    def start(self, host, patience=0):
        """Starts a service, for so many seconds again while another process has the lock."""
        begun, locked = time.monotonic(), None
        while ended := self.not_ready(host):
            locked = time.monotonic() - begun
            expect(locked < patience and ended == host.locked_out(), host.name, 'did not get ready:', ended,
                   kind=Broken if ended[1].startswith(UNREADABLE) else Wrong)
        if locked is not None:
            say(f'    the lock of a process that had ended was still held {locked:.2f} s after the next one began')

    def not_ready(self, host):
        """Starts a service, and gives how it ended if it is not ready."""
        host.serve(preload=self.preload)
        if host.is_ready():
            return None
        ended = host.ended(20)
        expect(ended, host.name, 'closed its standard output')
        return ended

    def spell(self):
        """All clients ask as fast as they can, until there are so many answers more, and go on so. The service has to live on."""
        before = self.load.answers.count()
        self.load.hurry(MOST)
        until(lambda: self.load.answers.count() >= before + ANSWERS or self.here.service.poll() is not None, 300, f'{ANSWERS} answers')
        expect(self.here.service.poll() is None, self.here.name, 'has ended:', self.here.ended(5))

    def take_over(self, kind, failed, acquire=None):
        """The other host takes the file, by its script or by ACQUIRE; FAILED is when the first one failed."""
        self.load.serve_by(None)
        (acquire or self.there.acquire)()
        acquired = time.monotonic()
        self.begin_service(self.there)
        ready = time.monotonic()
        expect(self.load.first.wait(120), 'no answer after', kind)
        self.load.hurry(0)
        first = time.monotonic()
        self.count += 1
        self.took[kind].append(first - failed)
        self.here, self.there = self.there, self.here
        say(f'{self.count:3d} {kind}: acquired after {acquired - failed:.1f} s, ready {ready - acquired:.1f} s later,',
            f'the first answer after {first - failed:.1f} s; {self.load.answers.count()} answers so far')
        return acquired

    def handover(self):
        """An operator moves the service."""
        failed = time.monotonic()
        self.here.end_service()
        self.here.release()
        self.take_over('handover', failed)

    def crash(self):
        """The machine loses power, and starts again. What the trial takes to end it is not counted."""
        self.here.crash()
        self.network.restart(self.here.name)
        self.take_over('crash', time.monotonic())

    def strays(self, stop, host):
        """Clients that stay with a host that is cut off, as those on the same machine do. All ask as fast as they can."""
        self.load.hurry(MOST)
        names = [(kind, f'{kind.port}-{host.name}-{self.count}-{place}') for kind in (Sender, Runner) for place in range(STRAYS)]
        return [self.load.add(kind, name, host.name, stop) for kind, name in names]

    def cut(self, lives):
        """The machine is cut off, and its service, mount and clients live on; later the link comes back, before the mount has ended or after that."""
        stop = threading.Event()
        threads = self.strays(stop, self.here)
        time.sleep(0.3)
        failed, old = time.monotonic(), self.here
        self.network.cut(old.name)
        acquired = self.take_over('cut', failed)
        expect(self.is_healthy(self.here), 'the host that took over is not healthy')
        expect(not self.is_healthy(old), 'the host that is cut off is healthy')
        if lives:
            self.network.heal(old.name)
            ended = old.ended(20)
            said = 'it had not ended 20 s after the link came back' if ended is None else f'it ended with {ended[0]}, {ended[1]!r} once the link was back'
        else:
            said = f'its mount ended first; {self.network.unsent(old.name)} bytes in its sockets'
        stop.set()
        for thread in threads:
            thread.join(30)
        old.crash()
        if not lives:
            said += f', {self.network.unsent(old.name)} after it ended'
            self.network.heal(old.name)
        say(f'    the host that was cut off: {self.load.answers.since(acquired, old.name)} answers after the fence; {said}')

    def healed(self):
        self.cut(True)

    def ended_first(self):
        self.cut(False)

    def is_healthy(self, host):
        """What the operator's check says of a host. It looks at the first run."""
        with self.load.answers.lock:
            self.load.answers.sent[b'look 1'] += 1
        return host.is_healthy()

    def short_cut(self, seconds=2):
        """The link is down for a moment, and nobody takes over."""
        self.load.first.clear()
        self.network.cut(self.here.name)
        time.sleep(seconds)
        self.load.first.clear()
        self.network.heal(self.here.name)
        healed = time.monotonic()
        expect(self.load.first.wait(60), 'no answer after a short cut')
        say(f'    cut off for {seconds} s: the first answer {time.monotonic() - healed:.1f} s after the link was back')

    def outlive(self, what, fail, seconds):
        """A part of the engine fails, and the service goes on. FAIL gives what is to be said of it."""
        start = time.monotonic()
        words = fail()
        time.sleep(max(0, start + seconds - time.monotonic()))
        since = self.load.answers.since(start)
        say(f'    {what}: {words or ""}{since} answers in {time.monotonic() - start:.0f} s, the longest gap {self.load.answers.longest_gap(start):.1f} s')
        expect(since, 'no answer after', what)

    def report(self, engine, found):
        """What was found at the end, and how long the failovers took."""
        for kind, took in sorted(self.took.items()):
            say(f'{kind}: {len(took)} times, from the failure to the first answer {min(took):.1f} to {max(took):.1f} s, median {statistics.median(took):.1f}')
        entries, runs, leases = found
        refused = {answer.decode(): count for answer, count in self.load.answers.refused.items()}
        say(f'{engine}: {self.count} failovers, {self.load.answers.count()} answers, {entries} entries, {runs} runs, {leases} leases;',
            f'refused meanwhile {refused}: nothing is lost or doubled, and the plain model agrees with the history and with acts show')


def fault_in(trial, play):
    """What comes out wrong in a play over an engine that loses or shares, or None. Its clients and hosts end with it."""
    try:
        play()
    except Broken as broken:
        return str(broken)[:200]
    finally:
        trial.load.end()
        for host in (trial.here, trial.there):
            host.crash()
    return None


def say_control(name, fault):
    """Whether a control was found."""
    say(f'control, {name}:', f'found: {fault}' if fault else 'not found this time')
    return fault is not None
