"""The runner: claims legs, has their steps run, beats meanwhile, and reports how they ended."""
from __future__ import annotations

import hashlib
import os
import re
import signal
import subprocess
import sys
import time
from dataclasses import asdict, replace
from typing import Any, Callable, TypeVar

from .facts import Facts
from .files import present
from .folders import clear
from .legs import LegProcess
from .lines import Port, Session, settle
from .options import Options
from .state import Held, State, Unusable

SECONDS_OF_CANCEL = 330  # for the steps that run after a cancel, which have five minutes, and for what they leave
OUT_OF_TURN = 999_999_999

T = TypeVar('T')


class Runner:
    """A runner over a folder of its own, which is the present one."""

    def __init__(self, options: Options, port: Port, facts: Facts) -> None:
        self.port, self.facts, self.signals = port, facts, 0
        self.body: bytes | None = None
        self.standing: str | None = None
        self.state = State(options.name, options.labels, options.exact_name, options.take_over)
        self.options = replace(options, full_name=self.state.name)
        self.tell(f'known to the service as {self.state.name}')
        if options.exact_name:
            self.tell('its name is used as it is (--exact-name): no other host may use it')
        signal.signal(signal.SIGTERM, self.drain)

    def tell(self, words: str) -> None:
        """Says something about itself."""
        print(f'{self.options.name}: {words}', file=sys.stderr, flush=True)

    def drain(self, *_: Any) -> None:
        """The first SIGTERM lets it finish its leg, the second one ends it. Steps that run go on until its next
        life."""
        self.signals += 1
        if self.signals > 1:
            os._exit(128 + signal.SIGTERM)
        self.tell('ends when its leg has ended')

    def settle(self, exchange: Callable[[Session], T]) -> T:
        """What an exchange comes to, however long that takes."""
        found = settle(self.port, exchange, self.tell)
        assert found is not None
        return found

    def settle_or_end(self, exchange: Callable[[Session], T]) -> T | None:
        """What an exchange comes to; None if the runner is asked to end before."""
        return settle(self.port, exchange, self.tell, lambda: self.signals > 0)

    def run(self) -> None:
        """Works until it is asked to end, or there is nothing to do."""
        if self.state.kept.last is None and not self.state.kept.line:
            self.learn_number()
        while True:
            if self.state.kept.leg:
                self.finish(self.state.kept.leg)
                if self.options.ephemeral and not self.state.kept.leg:
                    return
            elif self.signals or not self.claim():
                return

    def learn_number(self) -> None:
        """Asks out of turn: the answer has the number of the last command of this name."""
        answer = self.settle_or_end(lambda session: session.ask(self.state.claim(OUT_OF_TURN)))
        if answer is None:
            return
        last = re.fullmatch('refused 43 ([0-9]+)', answer)
        if not last:
            raise Unusable(f'{answer} to its first claim')
        if last[1] != '0' and not self.state.take_over:
            raise Unusable(f'its folder is empty, and the service knows {self.state.name} at number {last[1]}: '
                           'if nothing else uses the name, add --take-over')
        self.state.keep(last=int(last[1]), most=int(last[1]))

    def claim(self) -> bool:
        """Claims a leg and notes it. Gives whether to go on."""
        old, self.state.old = self.state.old, False
        line = self.state.kept.line or self.state.next_claim()
        number = int(line.split()[2])
        found = self.settle_or_end(lambda session: self.claimed(session, line))
        if found is None:
            return False
        answer, standing, body = found
        words = answer.split(' ', 5)
        if words[0] == 'lease':
            self.note(line, words, standing, body)
        elif words[0] == 'nothing':
            self.state.answered(number)
            return old or self.rest()  # an old answer is no reason for a pause
        elif answer == 'refused 42':
            self.recover()
        elif words[:2] == ['refused', '43']:
            self.turn(number, int(words[2]))
        else:
            raise Unusable(f'{answer} to {line}')
        return True

    def claimed(self, session: Session, line: str) -> tuple[str, str, bytes | None]:
        """The answer to a claim, and with a lease how it stands and the body of its run, all over one stream."""
        answer = session.ask(line)
        if not answer.startswith('lease '):
            return answer, '', None
        _, lease, run, *_ = answer.split(' ')
        return answer, session.ask(f'BEAT {self.state.name} {lease}'), session.fetch(run)

    def note(self, claim: str, words: list[str], standing: str, body: bytes | None) -> None:
        """Keeps a leg before its steps begin."""
        number, when = int(claim.split()[2]), self.state.kept.present
        digest = hashlib.sha256(body or b'').hexdigest()
        leg = Held(words[1], words[2], words[3], words[4], words[5], claim, when, digest)
        self.state.answered(number)
        try:
            self.state.keep(leg=leg, result=None if when == present() and body else 'failure')
        except OSError as fault:  # not begun, since nobody would know of it later
            line = f'DONE {self.state.name} {number + 1} {leg.lease} failure'
            answer = self.settle(lambda session: session.ask(line))
            raise Unusable(f'run {leg.run} {leg.job} {leg.leg} failure: {answer}, since its state can\'t be kept: '
                           f'{fault}') from None
        self.standing, self.body = standing, body

    def rest(self) -> bool:
        """Waits a while. Gives whether to go on."""
        if self.options.once:
            print(f'{self.options.name}: nothing', flush=True)
            return False
        late = time.monotonic() + self.options.pause
        while time.monotonic() < late and not self.signals:
            time.sleep(min(0.1, self.options.pause))
        return True

    def turn(self, number: int, last: int) -> None:
        """Takes up another number. It is this runner's own if the service has an answer to a claim of its."""
        claims = self.state.claims_at(last) if last > self.state.kept.most else []
        answers = self.settle(lambda session: [session.ask(claim) for claim in claims])
        self.state.turn(number, last, any(not answer.startswith('refused') for answer in answers))

    def recover(self) -> None:
        """The service has a lease of this runner that its folder does not: that of its last number, which is the answer
        to that claim. Nobody knows how far its steps came, so it has failed."""
        LegProcess('').end()
        for claim in self.state.claims_at(self.state.last):
            words = self.settle(lambda session, claim=claim: session.ask(claim)).split(' ', 5)  # type: ignore[misc]
            if words[0] == 'lease':
                leg = Held(words[1], words[2], words[3], words[4], words[5], claim, None, None)
                self.state.keep(line=None, leg=leg, result='failure')
                return
        self.state.keep(line=None)
        raise Unusable(f'{self.state.name} has a lease of which its folder knows nothing: once nothing of it runs, '
                       f'report it lost (POST /runners/{self.state.name}/lost)')

    def finish(self, leg: Held) -> None:
        """Runs the steps of a leg, or takes up those that run, and reports how they ended."""
        process = LegProcess(leg.claim)
        result = self.state.kept.result or self.work(leg, process)
        process.end()
        clear(self.options)
        if result:
            number = self.state.last + 1
            self.state.keep(result=result, reported=max(number, self.state.kept.reported),
                            line=f'DONE {self.state.name} {number} {leg.lease} {result}')
            self.report(leg, result)
        else:
            self.state.keep(leg=None, result=None)

    def confirm(self, session: Session, leg: Held) -> tuple[str, bytes | None]:
        """Whether the service has this leg as it was noted: the lease, the claim that it answers, and the body. All
        of it over one stream, since the service's file may have been restored meanwhile, and then the same numbers
        may stand for something else."""
        standing = session.ask(f'BEAT {self.state.name} {leg.lease}')
        if standing.startswith('refused') or leg.body is None:
            return standing, None
        answer = session.ask(leg.claim)
        body = session.fetch(leg.run)
        same = answer == leg.answer() and hashlib.sha256(body or b'').hexdigest() == leg.body
        return standing if same else 'another', body

    def work(self, leg: Held, process: LegProcess) -> str | None:
        """How the steps of a leg ended; None if there is nothing to report."""
        standing, body = self.standing, self.body
        self.standing = self.body = None
        if not standing:
            standing, body = self.settle(lambda session: self.confirm(session, leg))
        child: subprocess.Popen[bytes] | None = None
        if process.may_begin() and standing == 'go on' and leg.present == present() and body is not None:
            order = {'leg': asdict(leg), 'body': body.decode(), 'options': asdict(self.options)}
            child = process.begin({**order, 'facts': self.facts.of(leg)})
        standing = self.watch(leg, process, standing)
        process.end()
        if child:
            child.wait()
        if standing.startswith('refused') or standing == 'another':
            return None
        found: str | None = process.notes().get('result')
        return found or ('cancelled' if standing == 'stop' and not process.notes() else 'failure')

    def watch(self, leg: Held, process: LegProcess, standing: str) -> str:
        """Beats while the steps run, and passes on a cancel. Gives the last answer to a beat."""
        asked, late = time.monotonic(), float('inf')
        while standing in ('go on', 'stop') and 'result' not in process.notes() and process.is_alive() \
                and time.monotonic() < late:
            if standing == 'stop' and late == float('inf'):
                process.cancel()
                late = time.monotonic() + SECONDS_OF_CANCEL
            time.sleep(0.05)
            if time.monotonic() >= asked + self.options.beat:
                standing = self.settle(lambda session: session.ask(f'BEAT {self.state.name} {leg.lease}'))
                asked = time.monotonic()
        return standing

    def report(self, leg: Held, result: str) -> None:
        """Sends DONE until it is answered. If the lease is held, DONE is new to the service, and a success is
        reported of nothing but the leg that was noted."""
        number = self.state.last + 1
        standing, answer = self.settle(lambda session: self.reported(session, leg))
        if standing == 'another' or answer == 'refused 44':
            self.state.keep(line=None, leg=None, result=None)
        elif answer == 'ok':
            self.state.answered(number)
            self.state.keep(leg=None, result=None)
            print(f'{self.options.name}: run {leg.run} {leg.job} {leg.leg} {result}: ok', flush=True)
        elif answer.startswith('refused 43 '):
            self.turn(number, int(answer.split()[2]))
        else:
            raise Unusable(f'{answer} to {self.state.kept.line}')

    def reported(self, session: Session, leg: Held) -> tuple[str, str]:
        """How a lease stands, and the answer to the report of its leg."""
        standing, _ = self.confirm(session, leg)
        return standing, '' if standing == 'another' else session.ask(self.state.kept.line or '')
