"""Clients of a service, and what each of them asked and was answered, with the times.

Each command in the journal shows which client has asked it: the deliveries of a sender begin with its name, it asks for runs of its own alone, and a
runner's lines have its name. A client repeats what was not answered when the next service comes, or goes on with something else.
"""

import os
import sys
import threading
import time

sys.path.insert(0, os.path.join(os.path.dirname(os.path.abspath(__file__)), '..'))
import service as served

REQUESTS, LINES = 64, 1024
# The most commands that a client sends before it reads their answers.
AHEAD = 4


class Try:
    """A command that was sent: when, and, if it was answered, when and what."""

    def __init__(self, command, data):
        self.command, self.data, self.sent, self.answered, self.answer = command, data, None, None, None


class Client:
    """A client over one service after the other. `tries` are what it has sent to the present one, in order."""

    def __init__(self, name, dice, log):
        self.name, self.dice, self.log, self.tries = name, dice, log, []

    def come(self, service):
        """Sends until the service is gone."""
        self.tries = []
        try:
            while not self.log.over.is_set():
                stream = self.connect(service)
                try:
                    self.talk(stream)
                finally:
                    stream.close()
        except (served.Ended, OSError):
            pass

    def talk(self, stream):
        left = self.most
        while left and not self.log.over.is_set():
            tries = [Try(*it) for it in self.next(min(left, self.dice.randint(1, AHEAD)))]
            left -= len(tries)
            self.tries += tries
            for it in tries:
                it.sent = time.monotonic()
            stream.send(b''.join(it.data for it in tries))
            for it in tries:
                status, it.answer = stream.answer()
                it.answered = time.monotonic()
                self.log.count(it.answer)
                self.hear(it.command, it.answer)


class Sender(Client):
    most = REQUESTS

    def __init__(self, *given):
        super().__init__(*given)
        self.runs, self.attempts, self.last = [], {}, 0

    def connect(self, service):
        return service.hook()

    def next(self, count):
        return [self.one() for _ in range(count)]

    def one(self):
        kind = self.dice.random()
        if not self.runs or kind < 0.4:
            self.last += kind < 0.35 or not self.last
            return self.event(f'{self.name}-{self.last}')
        run = self.dice.choice(self.runs)
        if kind < 0.5:
            return self.event(f'{self.name}-{self.dice.randint(1, self.last)}')
        if kind < 0.75:
            return ('look', run), served.look(run)
        if kind < 0.85:
            return ('cancel', run), f'POST /runs/{run}/cancel HTTP/1.1\r\n\r\n'.encode()
        attempt = self.attempts.get(run, 1) + self.dice.randint(0, 1)
        return ('rerun', run, attempt), served.rerun(run, attempt)

    def event(self, delivery):
        return ('admit', delivery.encode(), b'push', served.BODY), served.event(delivery)

    def hear(self, command, answer):
        word, *fields = answer.split(' ')
        if word == 'created' and int(fields[0]) not in self.runs:
            self.runs.append(int(fields[0]))
        if word == 'again':
            self.attempts[int(fields[0])] = int(fields[1])


class Runner(Client):
    most = LINES

    def __init__(self, *given):
        super().__init__(*given)
        self.number, self.lease, self.line = 0, None, None

    def connect(self, service):
        return service.runner()

    def next(self, count):
        """Its claim or report, for the first time or again, and then beats."""
        if self.line is None:
            self.number += 1
            self.line = self.report() if self.lease else self.claim()
        return [self.line] + [self.beat() for _ in range(count - 1)]

    def claim(self):
        return ('claim', self.name.encode(), self.number, b'linux'), f'CLAIM {self.name} {self.number} linux\n'.encode()

    def report(self):
        result = self.dice.choice(('success', 'failure', 'cancelled'))
        words = f'DONE {self.name} {self.number} {self.lease} {result}\n'
        return ('done', self.name.encode(), self.number, self.lease, result.encode()), words.encode()

    def beat(self):
        lease = self.lease or 999_999_999
        return ('beat', self.name.encode(), lease), f'BEAT {self.name} {lease}\n'.encode()

    def hear(self, command, answer):
        if command[0] == 'beat':
            return
        self.line, self.lease = None, None
        word, *fields = answer.split(' ')
        if word == 'lease':
            self.lease = int(fields[0])
        if word == 'nothing':
            time.sleep(0.002)


class Log:
    """How many answers there were, and the first that no service may give."""

    def __init__(self):
        self.lock, self.answers, self.over, self.strange = threading.Lock(), 0, threading.Event(), None

    def count(self, answer):
        with self.lock:
            self.answers += 1
            if answer.startswith('refused 5'):
                self.strange = self.strange or answer
