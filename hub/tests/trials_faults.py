"""`kill -9` of hub, runner or service at random moments, with 20 runners on two hosts.

    ACTS=PROGRAM tests/trials_faults.py [--count 10] [--runners 20] [--legs 24] [--seed N]

A trial admits legs whose steps note that they begin and end, and print numbered lines. Meanwhile hub, runners and service are killed and
started again. It counts legs that ran twice, successes that did not run, and lines of finished steps that the hub lacks or has twice.
As root, each host is a network namespace of its own, and reaches the hub through a port of its own loopback."""
from __future__ import annotations

import argparse
import contextlib
import ctypes
import os
import pathlib
import random
import re
import select
import shutil
import socket
import subprocess
import sys
import tempfile
import threading
import time
from collections import Counter
from collections.abc import Iterator

sys.path.insert(0, os.path.dirname(os.path.abspath(__file__)))
from harness import HubProcess, Service, body_of, limit, request
from runner_trials import Host, kill_all, lines_of, until

LINES = 200
CLONE_NEWNET = 0x40000000
LINE = re.compile(r'^[0-9-]{10}T[0-9:]{8}\.[0-9]{7}Z line ([0-9]+) of (one|two)$')


class Machine:
    """A host: a network namespace, where root allows one, whose loopback leads to the hub; else this machine."""

    def __init__(self, name: str, hub: int) -> None:
        self.name, self.hub = f'acts-{os.getpid()}-{name}', hub
        done = subprocess.run(['ip', 'netns', 'add', self.name], capture_output=True, check=False)
        self.is_apart = done.returncode == 0
        self.words: tuple[str, ...] = ()
        self.port = hub
        if self.is_apart:
            self.words = ('ip', 'netns', 'exec', self.name)
            subprocess.run([*self.words, 'ip', 'link', 'set', 'lo', 'up'], check=True)
            self.listener = self.listen()
            self.port = self.listener.getsockname()[1]
            threading.Thread(target=self.accept, daemon=True).start()

    def listen(self) -> socket.socket:
        """A listener on the loopback of the namespace: made by a thread that enters it."""
        made: list[socket.socket] = []

        def enter() -> None:
            with open(f'/run/netns/{self.name}', 'rb') as file:
                assert ctypes.CDLL(None, use_errno=True).setns(file.fileno(), CLONE_NEWNET) == 0
            made.append(socket.create_server(('127.0.0.1', 0), backlog=128))
        thread = threading.Thread(target=enter)
        thread.start()
        thread.join()
        return made[0]

    def accept(self) -> None:
        """Passes streams on to the hub."""
        with contextlib.suppress(OSError):
            while True:
                threading.Thread(target=self.carry, args=self.listener.accept()[:1], daemon=True).start()

    def carry(self, client: socket.socket) -> None:
        """Passes on one stream."""
        with contextlib.suppress(OSError), client, socket.create_connection(('127.0.0.1', self.hub), 10) as hub:
            peers = {client: hub, hub: client}
            while True:
                for stream in select.select([client, hub], [], [])[0]:
                    data = stream.recv(1 << 16)
                    if not data:
                        return
                    peers[stream].sendall(data)

    def close(self) -> None:
        """Removes the namespace."""
        if self.is_apart:
            self.listener.close()
            subprocess.run(['ip', 'netns', 'del', self.name], check=False)


class Trials:
    """Service, hub and runners."""

    def __init__(self, folder: pathlib.Path, runners: int) -> None:
        self.folder, self.notes, self.killed = folder, str(folder / 'notes'), Counter[str]()
        self.service = Service(folder / 'service', area=64 << 20).start()
        self.hub = HubProcess(folder / 'hub', self.service).start()
        token = folder / 'token'
        token.write_text(self.hub.token('runners', 'runner', prefix='h', labels=('linux',)))
        token.chmod(0o600)
        self.machines = [Machine(name, self.hub.port) for name in ('one', 'two')]
        self.hosts: list[tuple[Host, Machine]] = []
        for number in range(runners):
            machine = self.machines[number % 2]
            reach = ['--hub', f'http://127.0.0.1:{machine.port}', '--token-file', str(token)]
            self.hosts.append((Host(reach, str(folder / f'host{number}'), self.notes, f'h{number}'), machine))

    def begin(self, host: Host, machine: Machine) -> None:
        """Starts a runner on its host."""
        host.start(pause=0.5, beat=1, before=machine.words)

    def admit(self, trial: int, legs: int) -> list[int]:
        """Admits runs of one leg each."""
        step = 'echo "began $GITHUB_RUN_ID" >> "$NOTES"; for n in $(seq {0}); do echo "line $n of {1}"; done; sleep {2}; echo "ended {1} $GITHUB_RUN_ID" >> "$NOTES"'
        made = []
        for _ in range(legs):
            steps = [{'run': step.format(LINES, 'one', f'{random.uniform(0, 1.5):.2f}')},
                     {'run': step.replace('began', 'again').format(LINES, 'two', f'{random.uniform(0, 1.5):.2f}')}]
            made.append(self.service.admit(body_of(jobs={'build': {'runs-on': 'linux', 'steps': steps}})))
        return made

    def fault(self) -> None:
        """Kills something, and starts it again."""
        what = random.choice(['hub', 'hub', 'service', 'runner', 'runner', 'runner'])
        self.killed[what] += 1
        if what == 'hub':
            self.hub.kill()
            time.sleep(random.uniform(0, 1))
            self.hub.start(wait=False)
        elif what == 'service':
            self.service.kill()
            time.sleep(random.uniform(0, 1))
            self.service.start()
        else:
            host, machine = random.choice(self.hosts)
            host.kill()
            time.sleep(random.uniform(0, 1))
            self.begin(host, machine)

    def is_done(self, runs: list[int]) -> bool:
        """Whether all have completed."""
        try:
            found = request(self.service.view, 'GET', '/runs?status=completed').json()['runs']
            return set(runs) <= {one['run'] for one in found} or all(self.service.run(run)['status'] == 'completed' for run in runs)
        except OSError:
            return False

    def trial(self, number: int, legs: int) -> list[str]:
        """What went wrong in one trial."""
        runs = self.admit(number, legs)
        late = limit(600)
        while not self.is_done(runs):
            assert time.monotonic() < late, 'the runs do not come to their end'
            time.sleep(random.uniform(0.3, 2))
            if sum(self.killed.values()) < 12 * (number + 1):
                self.fault()
        return [fault for run in runs for fault in self.faults_of(run)]

    def faults_of(self, run: int) -> Iterator[str]:
        """What went wrong with a run."""
        noted = Counter(line for line in lines_of(self.notes) if line.endswith(f' {run}'))
        if noted[f'began {run}'] > 1 or noted[f'again {run}'] > 1:
            yield f'run {run} ran twice: {noted}'
        conclusion = self.service.run(run)['conclusion']
        if conclusion == 'success' and noted[f'ended two {run}'] != 1:
            yield f'run {run} is a success that did not run: {noted}'
        if conclusion != 'success':
            yield f'run {run} is a {conclusion}: {noted}'
        for name in ('one', 'two'):
            if noted[f'ended {name} {run}']:
                wanted = [str(number) for number in range(1, LINES + 1)]
                deadline = limit(90)
                while (found := self.lines(run, name)) != wanted and time.monotonic() < deadline:
                    time.sleep(0.2)
                if found != wanted:
                    yield f'run {run}, step {name}: the hub has {len(found)} lines of {LINES}: {sorted(set(wanted) - set(found))[:5]} lack'

    def lines(self, run: int, name: str) -> list[str]:
        """The numbered lines that the hub has of a step."""
        found = [file for file in (self.hub.state / 'logs').glob(f'*/{run}/1/build.0.*.log')]
        return [match[1] for file in found for match in map(LINE.match, lines_of(str(file))) if match and match[2] == name]

    def close(self) -> None:
        """Ends all of it."""
        for host, _ in self.hosts:
            if host.running:
                host.kill()
        kill_all(self.notes)
        self.hub.kill()
        self.service.kill()
        for machine in self.machines:
            machine.close()


def main() -> None:
    """Plays the trials, and says what was counted."""
    parser = argparse.ArgumentParser(description=__doc__)
    for name, default in (('count', 10), ('runners', 20), ('legs', 24), ('seed', time.time_ns() % 10 ** 9)):
        parser.add_argument(f'--{name}', type=int, default=default)
    given = parser.parse_args()
    random.seed(given.seed)
    folder = pathlib.Path(tempfile.mkdtemp(prefix='trials-'))
    trials = Trials(folder, given.runners)
    apart = 'network namespaces' if all(machine.is_apart for machine in trials.machines) else 'folders'
    faults: list[str] = []
    try:
        for host, machine in trials.hosts:
            trials.begin(host, machine)
        for number in range(given.count):
            began = time.monotonic()
            found = trials.trial(number, given.legs)
            faults += found
            print(f'trial {number + 1}: {given.legs} legs in {time.monotonic() - began:.0f} s, {dict(trials.killed)} killed so far, '
                  f'{len(found)} faults', *found, sep='\n  ' if found else ' ', flush=True)
    finally:
        trials.close()
    print(f'{given.count} trials with {given.runners} runners on two hosts ({apart}), seed {given.seed}: {given.count * given.legs} legs, '
          f'killed {dict(trials.killed)}, {len(faults)} faults')
    if faults:
        sys.exit(1)
    shutil.rmtree(folder, ignore_errors=True)


if __name__ == '__main__':
    main()
