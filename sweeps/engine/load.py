"""Senders and runners over whichever machine serves, what they sent, and what they were answered.

A client repeats its request or line until it is answered, on the next machine if the first is gone. `answered` counts each command with its answer,
`sent` each time that a command was sent: an answer is one entry of the history, and what was not answered is at most one."""

import collections
import json
import random
import re
import threading
import time

from processes import Wrong, expect

HOOKS, RUNNERS = 8080, 8081
PAUSE = 3
UNKNOWN = re.compile(rb'refused (46|47|50|51|52|60)')


def body(jobs, **more):
    return json.dumps({'repo': 'o/r', 'path': 'ci.json', 'workflow': {**more, 'jobs': jobs}}, separators=(',', ':')).encode()


LINUX = {'runs-on': 'linux'}
BODIES = (body({'build': LINUX}),
          body({'build': LINUX, 'tests': {**LINUX, 'needs': 'build', 'strategy': {'matrix': {'part': [1, 2]}}}}),
          body({'deploy': {**LINUX, 'concurrency': 'production'}}),
          body({'build': LINUX}, concurrency={'group': 'branch', 'cancel-in-progress': True}))


class Cut(Exception):
    """No answer came."""


class Answers:
    """What all clients sent and were answered, by commands as lines of a script."""

    def __init__(self):
        self.lock, self.sent, self.answered = threading.Lock(), collections.Counter(), collections.Counter()
        self.times, self.refused, self.faults = [], collections.Counter(), []

    def note(self, machine, line, answer):
        with self.lock:
            self.answered[line, answer] += 1
            self.times.append((time.monotonic(), machine))

    def count(self):
        return len(self.times)

    def since(self, start, machine=None):
        return sum(at > start and machine in (None, where) for at, where in self.times)

    def longest_gap(self, start):
        moments = [start, *sorted(at for at, _ in self.times if at > start), time.monotonic()]
        return max(after - before for before, after in zip(moments, moments[1:]))


class Load:
    """Clients ask as fast as they can until there are so many answers, and then wait after each one, up to PAUSE seconds. So a machine that is slow to let
    a failover begin has no more commands to check."""

    def __init__(self, network, seed):
        self.network, self.seed, self.fast_until = network, seed, float('inf')
        self.answers, self.over, self.first = Answers(), threading.Event(), threading.Event()
        self.machine, self.epoch, self.clients, self.threads, self.events = None, 0, [], [], {self.over}

    def hurry(self, answers):
        self.fast_until = self.answers.count() + answers

    def pause(self):
        return 0 if self.answers.count() < self.fast_until else PAUSE

    def serve_by(self, machine):
        """From now on this machine serves; with None, none does."""
        self.epoch += 1
        self.first.clear()
        self.machine = machine

    def add(self, kind, name, machine=None, stop=None):
        """A client, which stays with a machine if one is named, until an event."""
        client = kind(self, name, machine, stop or self.over)
        self.events.add(client.stop)
        thread = threading.Thread(target=client.live, daemon=True)
        thread.start()
        if not machine:
            self.clients.append(client)
        self.threads.append(thread)
        return thread

    def end(self):
        """All clients end, also those that wait for an event of which nobody thinks any more."""
        for event in self.events:
            event.set()
        for thread in self.threads:
            thread.join(30)

    def stop(self):
        self.end()
        expect(not any(thread.is_alive() for thread in self.threads), 'a client did not end')


class Client:
    """One client, over one stream after the other."""

    def __init__(self, load, name, machine, stop):
        self.load, self.name, self.fixed, self.stop = load, name, machine, stop
        self.dice = random.Random(f'{load.seed} {name}')
        self.line = self.where = None

    def live(self):
        try:
            while not self.stop.is_set():
                self.where, self.epoch = self.fixed or self.load.machine, self.load.epoch
                if self.where:
                    self.visit()
                self.stop.wait(0.02)
        except Exception as fault:
            self.load.answers.faults.append(fault)

    def visit(self):
        """Asks over one stream until that ends."""
        try:
            stream = self.load.network.connect(self.where, self.port, 1)
        except (OSError, Wrong):
            return
        try:
            self.held = b''
            while not self.stop.is_set() and self.ask(stream):
                self.stop.wait(self.load.pause() * self.dice.random())
        except (Cut, OSError):
            pass
        finally:
            stream.close()

    def ask(self, stream):
        """Sends its current command, or the next one, and takes the answer. Whether the stream goes on."""
        if self.line is None:
            self.line = self.next()
        answers = self.load.answers
        with answers.lock:
            answers.sent[self.line] += 1
        stream.settimeout(5)
        stream.sendall(self.encoded(self.line))
        stream.settimeout(0.2)
        while (found := self.answer_in(self.held)) is None:
            if self.stop.is_set() or not self.fixed and self.load.epoch != self.epoch:
                raise Cut
            try:
                more = stream.recv(65536)
            except TimeoutError:
                continue
            if not more:
                raise Cut
            self.held += more
        answer, self.held, goes_on = found
        if UNKNOWN.match(answer):
            answers.refused[answer] += 1
            raise Cut
        self.take(answer)
        return goes_on

    def take(self, answer):
        line, self.line = self.line, None
        self.load.answers.note(self.where, line, answer)
        if not self.fixed and self.load.epoch == self.epoch:
            self.load.first.set()
        self.learn(line, answer)


class Sender(Client):
    """Posts events, and some of them again; looks at runs and cancels some."""

    port = HOOKS

    def __init__(self, *given):
        super().__init__(*given)
        self.deliveries, self.runs = {}, []

    def next(self):
        chance = self.dice.random()
        if self.runs and chance < 0.25:
            return b'look %d' % self.dice.choice(self.runs)
        if self.runs and chance < 0.3:
            return b'cancel %d' % self.dice.choice(self.runs)
        if self.deliveries and chance < 0.5:
            return self.dice.choice(list(self.deliveries.values()))
        delivery = f'{self.name}-{len(self.deliveries)}'
        self.deliveries[delivery] = b'admit %s push %s' % (delivery.encode(), self.dice.choice(BODIES))
        return self.deliveries[delivery]

    def encoded(self, line):
        word, rest = line.split(b' ', 1)
        if word != b'admit':
            return (b'GET /runs/%s' if word == b'look' else b'POST /runs/%s/cancel') % rest + b' HTTP/1.1\r\n\r\n'
        delivery, event, sent = rest.split(b' ', 2)
        head = b'POST /events HTTP/1.1\r\nX-GitHub-Delivery: %s\r\nX-GitHub-Event: %s\r\nContent-Length: %d\r\n\r\n'
        return head % (delivery, event, len(sent)) + sent

    def answer_in(self, held):
        head, end, rest = held.partition(b'\r\n\r\n')
        length = int(re.search(rb'Content-Length: (\d+)', head)[1]) if end else 0
        if not end or len(rest) < length:
            return None
        return rest[:length].removesuffix(b'\n'), rest[length:], b'Connection: close' not in head

    def learn(self, line, answer):
        if line.startswith(b'admit '):
            found = re.fullmatch(rb'created (\d+)', answer)
            expect(found, line, 'is answered', answer)
            self.runs.append(int(found[1]))


class Runner(Client):
    """Claims, asks whether to go on, and reports."""

    port = RUNNERS

    def __init__(self, *given):
        super().__init__(*given)
        self.number, self.lease = 0, None

    def next(self):
        if self.lease and self.dice.random() < 0.2:
            return b'beat %s %d' % (self.name.encode(), self.lease)
        self.number += 1
        if self.lease:
            return b'done %s %d %d %s' % (self.name.encode(), self.number, self.lease, self.dice.choice((b'success', b'success', b'success', b'failure')))
        return b'claim %s %d linux' % (self.name.encode(), self.number)

    def encoded(self, line):
        word, rest = line.split(b' ', 1)
        return word.upper() + b' ' + rest + b'\n'

    def answer_in(self, held):
        line, end, rest = held.partition(b'\n')
        return (line, rest, True) if end else None

    def learn(self, line, answer):
        if line.startswith(b'done '):
            expect(answer == b'ok', line, 'is answered', answer)
            self.lease = None
        elif line.startswith(b'claim '):
            found = re.match(rb'lease (\d+) ', answer)
            expect(found or answer == b'nothing', line, 'is answered', answer)
            self.lease = int(found[1]) if found else None
        else:
            expect(answer in (b'go on', b'stop'), line, 'is answered', answer)
