"""Senders and runners that go on over one service after the other, and what they were answered. All answers have to hold.

A sender posts events, looks at their runs, posts some once more, and re-runs some. A runner claims, asks whether to go on, and reports. If a service
ends before an answer, both repeat their request to the next one: a delivery gets the run that it has, an attempt is answered as before, and a
runner's last command gets its reply again. So no delivery makes two runs, no attempt begins twice, each leg is leased once, and no number of a
runner is out of turn.
"""

import collections
import random
import re
import threading
import time

from checking import Wrong, at_once, expect, served

SENDERS = RUNNERS = 8
REQUESTS, LINES = 64, 1024
REFUSED = ('refused 51', 'refused 52')


def attempt_in(view):
    """The attempt at which a view shows its run."""
    return int(re.match(r'run \d+ \d+(?:\.(\d+))? ', view)[1] or 1)


def succeeded(run, attempt):
    """The view of a run whose leg has ended in this attempt."""
    number = run if attempt == 1 else f'{run}.{attempt}'
    return f'run {run} {number} completed success build:success(success)'


class AnswerLog:
    """What all clients were answered."""

    def __init__(self):
        self.lock, self.runs, self.leases, self.done = threading.Lock(), {}, {}, collections.Counter()
        self.wanted, self.begun = {}, {} # of re-runs: the last attempt that was asked for, and the last that was answered
        self.enough, self.answers, self.over, self.ends = 0, 0, threading.Event(), threading.Event()

    def begin(self, enough):
        """Counts answers, and sets `over` after so many."""
        self.enough, self.answers = enough, 0
        self.over.clear()
        self.ends.clear()

    def count(self):
        with self.lock:
            self.answers += 1
            if self.answers >= self.enough:
                self.over.set()

    def created(self, delivery, run):
        with self.lock:
            expect(self.runs.get(delivery, run) == run, 'the delivery', delivery, 'had run', self.runs.get(delivery), 'and has now run', run)
            if delivery not in self.runs:
                expect(run not in self.runs.values(), 'run', run, 'is that of two deliveries')
                self.runs[delivery] = run

    def leased(self, lease, run, claim):
        with self.lock:
            expect(self.leases.get(lease, (run, claim)) == (run, claim), 'lease', lease, 'was given to', self.leases.get(lease), 'and to', (run, claim))
            if lease not in self.leases:
                self.leases[lease] = (run, claim)
                times = sum(run == other for other, _ in self.leases.values())
                expect(times <= self.wanted.get(run, 1), 'run', run, 'is leased', times, 'times in', self.wanted.get(run, 1), 'attempts')

    def ended(self, run):
        with self.lock:
            self.done[run] += 1

    def wants(self, run, attempt):
        with self.lock:
            self.wanted[run] = max(attempt, self.wanted.get(run, 1))

    def again(self, run, attempt):
        with self.lock:
            self.begun[run] = max(attempt, self.begun.get(run, 1))


class Client:
    """A client over one stream after the other. `asked` is the time at which it sent what is not answered yet."""

    def __init__(self, log, name, dice):
        self.log, self.name, self.dice, self.asked, self.refused = log, name, dice, None, None

    def come(self, service):
        """Sends requests until the service is gone or refuses, or nothing is left to send."""
        self.refused, self.asked = None, None
        try:
            while not self.log.ends.is_set() and not self.refused:
                client = self.connect(service)
                try:
                    self.talk(client)
                finally:
                    client.close()
        except TimeoutError:
            raise Wrong(self.name, 'was not answered for 20 seconds') from None
        except (served.Ended, OSError):
            pass

    def ask(self, client, what):
        """The answer, or None if the device has failed."""
        client.send(what)
        self.asked = time.monotonic()
        status, answer = client.answer()
        self.asked = None
        self.log.count()
        if answer in REFUSED:
            expect(status in (None, 503), self.name, 'was answered', status, answer)
            self.refused = answer
            return None
        return answer


class Sender(Client):
    def __init__(self, *given):
        super().__init__(*given)
        self.next, self.sent = 0, 0

    def connect(self, service):
        return service.hook()

    def talk(self, client):
        for _ in range(REQUESTS):
            if self.log.ends.is_set():
                return
            mine = self.dice.randrange(self.next) if self.next and self.dice.random() < 0.2 else self.next
            delivery = f'{self.name}-{mine}'
            if mine == self.next and self.next and self.dice.random() < 0.3:
                answer = self.ask(client, served.look(self.log.runs[f'{self.name}-{self.next - 1}']))
                expect(answer is None or answer.startswith('run '), self.name, 'looks and is answered', answer)
            elif self.next and self.dice.random() < 0.3:
                answer = self.rerun(client, self.log.runs[f'{self.name}-{self.dice.randrange(self.next)}'])
            else:
                self.sent = max(self.sent, mine + 1)
                answer = self.ask(client, served.event(delivery))
                if answer is not None:
                    found = re.fullmatch(r'created (\d+)', answer)
                    expect(found, 'the delivery', delivery, 'is answered', answer)
                    self.log.created(delivery, int(found[1]))
                    self.next = max(self.next, mine + 1)
            if answer is None:
                return

    def rerun(self, client, run):
        """Re-runs a run of its own, or asks for its current attempt again."""
        present = self.log.begun.get(run, 1)
        attempt = present if self.dice.random() < 0.3 else present + 1
        self.log.wants(run, attempt)
        answer = self.ask(client, served.rerun(run, attempt))
        if answer == f'again {run} {attempt}':
            self.log.again(run, attempt)
        else:
            # if an answer was lost, the run may be at the next attempt already
            allowed = ('refused 49',) if attempt > present else (f'refused 43 {present + 1}',)
            expect(answer is None or answer in allowed, 'attempt', attempt, 'of run', run, 'is answered', answer)
        return answer


class Runner(Client):
    def __init__(self, *given):
        super().__init__(*given)
        self.number, self.lease, self.run, self.line = 0, None, None, None

    def connect(self, service):
        return service.runner()

    def talk(self, client):
        for _ in range(LINES):
            if self.log.ends.is_set() and self.line is None:
                return
            if self.line is None and self.lease and self.dice.random() < 0.3:
                answer = self.ask(client, f'BEAT {self.name} {self.lease}\n'.encode())
                expect(answer in (None, 'go on'), self.name, 'beats and is answered', answer)
            else:
                answer = self.command(client)
            if answer is None:
                return

    def command(self, client):
        """Its current claim or report, for the first time or again."""
        if self.line is None:
            self.number += 1
            self.line = f'DONE {self.name} {self.number} {self.lease} success\n' if self.lease else f'CLAIM {self.name} {self.number} linux\n'
        answer = self.ask(client, self.line.encode())
        if answer is None:
            return None
        if self.lease:
            expect(answer == 'ok', self.line, 'is answered', answer)
            self.log.ended(self.run)
            self.lease = self.run = None
        elif found := re.fullmatch(r'lease (\d+) (\d+) build 0 {}', answer):
            self.lease, self.run = int(found[1]), int(found[2])
            self.log.leased(self.lease, self.run, (self.name, self.number))
        else:
            expect(answer == 'nothing', self.line, 'is answered', answer)
            time.sleep(0.002)
        self.line = None
        return answer

    def drain(self, service):
        """Claims and reports until nothing is left."""
        answer = None
        while answer != 'nothing':
            client = service.runner()
            try:
                for _ in range(LINES):
                    answer = self.command(client)
                    if answer == 'nothing':
                        break
            finally:
                client.close()


class Load:
    """All clients, over one store."""

    def __init__(self, seed):
        self.log = AnswerLog()
        self.senders = [Sender(self.log, f's{place}', random.Random(f'{seed} s{place}')) for place in range(SENDERS)]
        self.runners = [Runner(self.log, f'r{place}', random.Random(f'{seed} r{place}')) for place in range(RUNNERS)]
        self.threads, self.faults = [], []

    def begin(self, service, enough):
        """Connects all clients to a service; after so many answers `log.over` is set."""
        self.log.begin(enough)
        self.threads = [threading.Thread(target=self.come, args=(client, service), daemon=True) for client in self.clients()]
        for thread in self.threads:
            thread.start()

    def clients(self):
        return self.senders + self.runners

    def come(self, client, service):
        try:
            client.come(service)
        except Wrong as wrong:
            self.faults.append(wrong)
            self.log.over.set()

    def end(self):
        """Waits for all clients: the service is gone, or they ask no more."""
        for thread in self.threads:
            thread.join(60)
        expect(not any(thread.is_alive() for thread in self.threads), 'a client that has not ended')
        expect(not self.faults, *self.faults[:1])

    def look_at(self, shown):
        """The views of the file have what was answered, and no delivery has two runs."""
        views = dict(enumerate(shown, 1))
        log = self.log
        expect(len(views) <= sum(sender.sent for sender in self.senders), len(views), 'runs of', sum(sender.sent for sender in self.senders), 'deliveries')
        for delivery, run in log.runs.items():
            expect(run in views, 'LOST: run', run, 'of the delivery', delivery)
        leased = collections.Counter(run for run, _ in log.leases.values())
        for run, view in views.items():
            attempt = attempt_in(view)
            expect(log.begun.get(run, 1) <= attempt <= log.wanted.get(run, 1), 'LOST, or begun twice: an attempt up to', log.wanted.get(run, 1), view)
            expect(log.done[run] <= leased[run] <= attempt, leased[run], 'leases and', log.done[run], 'reports', view)
            expect(leased[run] < attempt or 'open(ready)' not in view, 'LOST: the last of', leased[run], 'leases', view)
            expect(log.done[run] < attempt or view == succeeded(run, attempt), 'LOST: a report', view)

    def settle(self, service):
        """Lets each client repeat what was not answered, and the runners go on until nothing is left. Then each run has ended."""
        self.log.begin(0)
        self.log.ends.set()
        hook = service.hook()
        asked = 0
        for sender in self.senders:
            for place in {*range(sender.next, sender.sent), *(sender.dice.randrange(sender.sent) for _ in range(min(4, sender.sent)))}:
                if asked == REQUESTS:
                    hook.close()
                    hook, asked = service.hook(), 0
                delivery = f'{sender.name}-{place}'
                answer = hook.ask(served.event(delivery))
                self.log.created(delivery, int(answer[1].removeprefix('created ')))
                sender.next, asked = max(sender.next, place + 1), asked + 1
        hook.close()
        at_once([lambda runner=runner: runner.drain(service) for runner in self.runners], 60)

    def all_ended(self, shown):
        """After `settle` there is a run for each delivery; each was leased once in each attempt, and has ended."""
        self.look_at(shown)
        count = sum(sender.sent for sender in self.senders)
        expect(len(shown) == count == len(self.log.runs), len(shown), 'runs of', count, 'deliveries, of which', len(self.log.runs), 'were answered')
        expect(sorted(self.log.runs.values()) == list(range(1, count + 1)), 'the ids of the runs')
        leased = collections.Counter(run for run, _ in self.log.leases.values())
        for run, view in enumerate(shown, 1):
            attempts = attempt_in(view)
            expect(leased[run] == self.log.done[run] == attempts, leased[run], 'leases and', self.log.done[run], 'reports of', view)
