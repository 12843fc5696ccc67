"""The watchdog between runners and the service: whom it reports lost, when, and what it never ends."""
from __future__ import annotations

import contextlib
import json
import os
import pathlib
import signal
import socket
import subprocess
import threading
import time
from collections.abc import Callable, Iterator
from typing import Any

import pytest
from harness import HUB, PYTHON, Process, RunnerLines, Service, body_of, limit, request, until

AFTER = 3  # seconds after which a runner is silent
FENCE = '''#!/bin/sh
cd "$(dirname "$0")" && echo "$1 $ACTS_RUNNER $ACTS_RUN $ACTS_JOB $ACTS_LEG $ACTS_WHY" >> fenced || exit
count=$(wc -l < fenced)
while [ -e held ] && ! [ -e "go-$count" ]; do sleep 0.1; done
sleep "$(cat delay)" && exit "$(cat status)"
'''


class Relay(threading.Thread):
    """Passes requests on to the hook port. Reports of lost runners are counted; they wait while `goes_on` is not set, and so many as `drops` are lost."""

    def __init__(self, port: int) -> None:
        super().__init__(daemon=True)
        self.to, self.kept, self.drops, self.goes_on = port, 0, 0, threading.Event()
        self.server = socket.create_server(('127.0.0.1', 0))
        self.port = self.server.getsockname()[1]
        self.goes_on.set()
        self.start()

    def run(self) -> None:
        while True:
            threading.Thread(target=self.serve, args=[self.server.accept()[0]], daemon=True).start()

    def serve(self, client: socket.socket) -> None:
        with client, contextlib.suppress(ConnectionError):  # of one that was killed
            while asked := client.recv(4096):
                if b'/lost ' in asked:
                    self.kept += 1
                    self.goes_on.wait()
                    if self.drops:
                        self.drops -= 1
                        return
                with socket.create_connection(('127.0.0.1', self.to)) as hooks, hooks.makefile('rb') as answer:
                    hooks.sendall(asked)
                    lines = list(iter(answer.readline, b'\r\n'))
                    length = next(int(line.split()[1]) for line in lines if line.lower().startswith(b'content-length:'))
                    client.sendall(b''.join(lines) + b'\r\n' + answer.read(length))


class Watchdog:
    """`acts-hub watchdog` with a command that notes whom it fences."""

    def __init__(self, folder: pathlib.Path, service: Service, *words: str) -> None:
        self.folder, self.service = folder, service
        self.relay = Relay(service.hook)
        folder.mkdir()
        for name, text in (('fence', FENCE), ('delay', '0'), ('status', '0'), ('fenced', '')):
            self.tell(name, text)
        (folder / 'fence').chmod(0o755)
        self.process = Process([
            PYTHON, '-m', 'acts_hub', 'watchdog', '--view', f'127.0.0.1:{service.view}', '--hook', f'127.0.0.1:{self.relay.port}',
            '--state', str(folder / 'state'), '--after', str(AFTER), '--fence', str(folder / 'fence'), '--pause', '0.1', '--again', '1',
            *words], folder, 'watchdog', {'PYTHONPATH': str(HUB)})
        self.starts = 0
        self.start()

    def start(self) -> None:
        self.process.start()
        self.starts += 1
        until(lambda: self.said().count('looks at') == self.starts, what='the watchdog')

    def kill(self) -> None:
        self.process.kill()

    def tell(self, name: str, text: str) -> None:
        (self.folder / name).write_text(text)

    def said(self) -> str:
        return self.process.said()

    def fenced(self) -> list[str]:
        return (self.folder / 'fenced').read_text().splitlines()


class Runner:
    """A runner by hand, with one lease."""

    def __init__(self, service: Service, name: str, lines: RunnerLines | None = None) -> None:
        self.name, self.lines, self.lease = name, lines or service.lines(), ''

    def claim(self) -> int:
        """Claims; the run."""
        words = self.lines.claim(self.name)
        assert words[0] == 'lease', words
        self.lease = words[1]
        return int(words[2])

    def beat(self) -> str:
        return self.lines.ask(f'BEAT {self.name} {self.lease}')

    def done(self, result: str = 'success') -> str:
        return self.lines.done(self.name, self.lease, result)

    def beats_until(self, test: Callable[[str], bool]) -> str:
        """Beats until something is so; the last answer."""
        late = limit(60)
        while time.monotonic() < late:
            answer = self.beat()
            if test(answer):
                return answer
            time.sleep(0.3)
        raise AssertionError(f'{self.name} beat for 60 seconds')


def admit(service: Service, **job: Any) -> int:
    return service.admit(body_of(jobs={'build': {'runs-on': 'linux', 'steps': [], **job}}))


def leg(service: Service, run: int) -> str:
    """The state of the one leg of a run."""
    state: str = service.run(run)['jobs'][0]['legs'][0]['state']
    return state


@pytest.fixture
def watch(service: Service, tmp_path: pathlib.Path) -> Iterator[Callable[..., Watchdog]]:
    made: list[Watchdog] = []

    def make(*words: str) -> Watchdog:
        made.append(Watchdog(tmp_path / f'watchdog-{len(made)}', service, *words))
        return made[-1]
    yield make
    for one in made:
        one.kill()


def test_a_silent_runner_is_lost_once_its_host_is_fenced(service: Service, watch: Callable[..., Watchdog]) -> None:
    """Also of a lease that was taken before the watchdog began; one that beats is not silent."""
    runs = [admit(service) for _ in range(2)]
    gone, alive = Runner(service, 'gone'), Runner(service, 'alive')
    assert [gone.claim(), alive.claim()] == runs
    watchdog = watch()
    watchdog.tell('status', '1')
    alive.beats_until(lambda _: 'gone is silent, and not lost: its host was not fenced' in watchdog.said())
    assert set(watchdog.fenced()) == {f'gone gone {runs[0]} build 0 silent'}
    assert [leg(service, run) for run in runs] == ['running', 'running']
    watchdog.tell('status', '0')
    alive.beats_until(lambda _: 'gone is lost' in watchdog.said())
    assert [leg(service, run) for run in runs] == ['failure', 'running']
    assert (alive.done(), leg(service, runs[1])) == ('ok', 'success')


def test_one_that_is_heard_meanwhile_is_not_lost(service: Service, watch: Callable[..., Watchdog]) -> None:
    """While its host is fenced it beats, or gets another lease: neither is ended."""
    watchdog = watch()
    watchdog.tell('held', '')
    runs = [admit(service) for _ in range(2)]
    runner = Runner(service, 'heard')
    assert runner.claim() == runs[0]
    until(watchdog.fenced, what='the command')
    assert runner.beat() == 'go on'
    watchdog.tell('go-1', '')
    meanwhile = 'heard was silent, and is not lost: it was heard meanwhile'
    until(lambda: watchdog.said().count(meanwhile) == 1)
    until(lambda: len(watchdog.fenced()) == 2, what='the next command')
    assert (runner.done(), runner.claim()) == ('ok', runs[1])
    watchdog.tell('go-2', '')
    until(lambda: watchdog.said().count(meanwhile) == 2)
    assert [leg(service, run) for run in runs] == ['success', 'running']


def test_a_report_is_repeated_only_for_the_same_lease(service: Service, watch: Callable[..., Watchdog]) -> None:
    """A report without an answer comes again while the runner holds this lease, and not once it holds another one."""
    watchdog = watch()
    runs = [admit(service) for _ in range(3)]
    watchdog.relay.drops = 2
    assert Runner(service, 'gone-1').claim() == runs[0]
    until(lambda: leg(service, runs[0]) == 'failure')
    watchdog.relay.drops = 1
    runner = Runner(service, 'gone-2')
    assert runner.claim() == runs[1]
    watchdog.relay.goes_on.clear()
    kept = watchdog.relay.kept
    until(lambda: watchdog.relay.kept > kept and any('gone-2' in line for line in watchdog.fenced()), what='the report')
    time.sleep(0.5)
    kept = watchdog.relay.kept
    assert (runner.done('failure'), runner.claim()) == ('ok', runs[2])
    watchdog.relay.goes_on.set()
    until(lambda: 'gone-2 is lost, with lease' in watchdog.said())
    assert [leg(service, run) for run in runs[1:]] == ['failure', 'running']
    assert watchdog.relay.kept == kept
    runner.done()


def test_a_report_that_waits_is_not_left_behind(service: Service, watch: Callable[..., Watchdog]) -> None:
    """A service that answers late is waited for, here 33 seconds: a request that is left behind could end another lease."""
    watchdog = watch()
    watchdog.relay.goes_on.clear()
    run = admit(service)
    assert Runner(service, 'slow').claim() == run
    until(lambda: watchdog.relay.kept == 1, what='the report')
    time.sleep(33)
    assert (watchdog.relay.kept, leg(service, run)) == (1, 'running')
    watchdog.relay.goes_on.set()
    until(lambda: leg(service, run) == 'failure')
    assert watchdog.relay.kept == 1


def test_a_watchdog_that_is_killed_goes_on(service: Service, watch: Callable[..., Watchdog]) -> None:
    """It knows who was being reported; it does nothing once that runner has another lease. While the service is away nobody is silent."""
    watchdog = watch()
    runs = [admit(service) for _ in range(2)]
    runner = Runner(service, 'again')
    assert runner.claim() == runs[0]
    until(watchdog.fenced)
    watchdog.relay.goes_on.clear()
    watchdog.relay.drops = 1
    until(lambda: json.loads((watchdog.folder / 'state').read_text()).get('again', {}).get('is_losing'), what='the report')
    time.sleep(0.5)
    watchdog.kill()
    assert (runner.done('failure'), runner.claim()) == ('ok', runs[1])
    watchdog.relay.goes_on.set()
    watchdog.start()
    until(lambda: ': it has ended' in watchdog.said())
    assert [leg(service, run) for run in runs] == ['failure', 'running']
    before = len(watchdog.fenced())
    service.kill()
    time.sleep(2 * AFTER)
    service.start()
    again = Runner(service, 'again')
    again.lease = runner.lease
    assert again.beat() == 'go on'
    time.sleep(1)
    assert len(watchdog.fenced()) == before


def test_a_leg_over_its_time_limit(service: Service, watch: Callable[..., Watchdog]) -> None:
    """A runner that goes on over `timeout-minutes` and the grace is fenced and lost, though it beats; one below its limit is not."""
    watchdog = watch('--grace', '2', '--minutes', '10')
    runs = [admit(service, **{'timeout-minutes': 0.02}), admit(service)]
    late, early = Runner(service, 'late'), Runner(service, 'early')
    assert [late.claim(), early.claim()] == runs
    beaten = late.beats_until(lambda answer: early.beat() != 'go on' or answer != 'go on')
    assert beaten == 'refused 44'
    assert watchdog.fenced() == [f'late late {runs[0]} build 0 over its time limit']
    assert [leg(service, run) for run in runs] == ['failure', 'running']


def test_many_silent_runners_are_no_reason_to_fence(service: Service, watch: Callable[..., Watchdog]) -> None:
    """With more than --most silent at once the fault may be the network's; once one has ended, the others are lost."""
    watchdog = watch('--most', '2')
    runs = [admit(service) for _ in range(3)]
    runners = [Runner(service, f'most{number}') for number in range(3)]
    assert [runner.claim() for runner in runners] == runs
    until(lambda: 'no host is fenced: 3 runners are silent' in watchdog.said())
    time.sleep(AFTER)
    assert watchdog.fenced() == []
    runners[0].done()
    until(lambda: [leg(service, run) for run in runs] == ['success', 'failure', 'failure'])


def test_a_command_that_hangs_is_ended(service: Service, watch: Callable[..., Watchdog]) -> None:
    """A fence that takes longer than --fence-limit has failed, with what it started; nobody is lost."""
    watchdog = watch('--fence-limit', '1')
    watchdog.tell('delay', '600.5')
    run = admit(service)
    assert Runner(service, 'hangs').claim() == run
    until(lambda: watchdog.said().count('hangs is silent, and not lost: its host was not fenced') == 2)
    assert leg(service, run) == 'running'
    watchdog.kill()
    sleepers = [path for path in pathlib.Path('/proc').glob('[0-9]*/cmdline') if b'sleep\x00600.5\x00' == said_by(path)]
    assert len(sleepers) <= 1  # one that is just begun


def said_by(path: pathlib.Path) -> bytes:
    """The words of a process; none if it has ended."""
    try:
        return path.read_bytes()
    except OSError:
        return b''


def start_host(watchdog: Watchdog, service: Service, folder: pathlib.Path, name: str) -> subprocess.Popen[bytes]:
    """A host: a runner, and whatever it starts, all with the host's name in their environment."""
    words = [PYTHON, '-m', 'acts_runner', '--port', str(service.runner), '--name', name, '--labels', 'linux', '--pause', '0.2', '--beat', '0.5',
             '--state', str(folder / name)]
    return subprocess.Popen(words, env={**os.environ, 'PYTHONPATH': str(HUB), 'TRIED_HOST': f'{folder}/{name}'}, start_new_session=True,
                            stdout=subprocess.DEVNULL, stderr=subprocess.DEVNULL)


def end_host(folder: pathlib.Path, name: str) -> None:
    """Kills the processes of a host, by their ids."""
    mark = f'TRIED_HOST={folder}/{name}'.encode()
    for path in pathlib.Path('/proc').glob('[0-9]*/environ'):
        try:
            if mark in path.read_bytes().split(b'\0'):
                os.kill(int(path.parent.name), signal.SIGKILL)
        except OSError:
            continue  # it has ended


FENCE_HOST = '''#!/bin/sh
exec {python} -c 'import pathlib, sys; sys.path[:0] = ["{tests}", "{hub}"]; from test_watchdog import end_host
end_host(pathlib.Path("{folder}"), sys.argv[1].split("-")[0])' "$1"
'''


def test_deployments_follow_each_other(service: Service, watch: Callable[..., Watchdog], tmp_path: pathlib.Path) -> None:
    """A runner hangs while its steps go on: the next deployment of the group begins once all of its host has ended."""
    watchdog, notes = watch('--after', '15'), tmp_path / 'notes'
    watchdog.tell('fence', FENCE_HOST.format(python=PYTHON, tests=pathlib.Path(__file__).parent, hub=HUB, folder=tmp_path))
    step = {'run': f'for i in $(seq 600); do echo "$GITHUB_RUN_ID" >> {notes}; sleep 0.05; done'}
    runs = [admit(service, concurrency='prod', steps=[step]) for _ in range(2)]
    first = start_host(watchdog, service, tmp_path, 'first')
    second = None
    try:
        until(notes.exists, what='the steps')
        os.kill(first.pid, signal.SIGSTOP)
        second = start_host(watchdog, service, tmp_path, 'second')
        until(lambda: f'{runs[1]}\n' in notes.read_text(), 120, what='the next deployment')
        time.sleep(1)
    finally:
        for name, host in (('first', first), ('second', second)):
            end_host(tmp_path, name)
            if host:
                host.wait()
    seen = [int(line) for line in notes.read_text().split()]
    assert seen == sorted(seen) and set(seen) == set(runs)
    assert leg(service, runs[0]) == 'failure'
    assert request(service.view, 'GET', '/healthz').status == 200
