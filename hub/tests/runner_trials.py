"""What trials of runners share: runners of several hosts, a service whose file is restored, and what stands between them."""
from __future__ import annotations

import contextlib
import glob
import json
import os
import pathlib
import re
import shutil
import signal
import socket
import subprocess
import threading
import time
from typing import Any, Callable

from harness import HUB, PYTHON, Service, limit, request

ROOT = str(HUB)
RUNNER = [PYTHON, '-P', '-c', f'import sys; sys.path.insert(0, {ROOT!r}); from acts_runner.__main__ import main; main()']
NOTED = 'echo began >> "$NOTES"; sleep {}; echo ended >> "$NOTES"'
HELD = 'echo began >> "$NOTES"; until [ -e "$NOTES.go" ]; do sleep 0.1; done; echo ended >> "$NOTES"'  # till `Case.go_on`
TAGGED = 'echo {0} began >> "$NOTES"; sleep {1}; echo {0} ended >> "$NOTES"'
Act = Callable[..., Any]
ENGINE = pathlib.Path(__file__).with_name('stand_in_engine.py').read_text()  # stands in for docker


def until(holds: Callable[[], Any], seconds: float = 180) -> Any:
    """Waits until something holds, and gives it."""
    late = limit(seconds)
    while not (found := holds()):
        assert time.monotonic() < late, f'what was waited for did not come within {seconds} seconds'
        time.sleep(0.05)
    return found


def lines_of(path: str) -> list[str]:
    """The lines of a file; none if it is not there."""
    with contextlib.suppress(OSError), open(path, errors='replace') as file:
        return file.read().splitlines()
    return []


def text_of_log(path: str) -> list[str]:
    """The lines of a log, without their times."""
    return [re.sub(r'^[0-9-]{10}T[0-9:]{8}\.[0-9]{7}Z ', '', line) for line in lines_of(path)]


def is_first_claim(line: str) -> bool:
    """Whether a line is the first claim of a name."""
    return re.match(r'CLAIM \S+ 1 ', line) is not None


class Between(threading.Thread):
    """Stands between a runner and the service. It keeps each line, and may act before it passes on a line or its answer:
    if the act gives True, the stream ends there."""

    def __init__(self, service: int) -> None:
        super().__init__(daemon=True)
        self.service, self.lines = service, list[str]()
        self.before: Act | None = None
        self.behind: Act | None = None
        self.listener = socket.create_server(('127.0.0.1', 0))
        self.port = self.listener.getsockname()[1]
        self.start()

    def run(self) -> None:
        """Takes streams."""
        with contextlib.suppress(OSError):
            while True:
                threading.Thread(target=self.hold, args=self.listener.accept()[:1], daemon=True).start()

    def hold(self, client: socket.socket) -> None:
        """Passes on the lines of a stream."""
        with contextlib.suppress(OSError), client, socket.create_connection(('127.0.0.1', self.service)) as service:
            said, answered = client.makefile('rb'), service.makefile('rb')
            while line := said.readline():
                self.lines.append(line.decode().rstrip('\n'))
                if self.before and self.before(self.lines[-1]):
                    break
                service.sendall(line)
                answer = answered.readline()
                if answer.startswith(b'body '):
                    answer += answered.read(int(answer[5:]) + 1)
                if not answer or self.behind and self.behind(self.lines[-1], answer.decode()):
                    break
                client.sendall(answer)


class Store(Service):
    """A service whose file can be copied and restored."""

    copies = 0

    def ask(self, method: str, path: str) -> str:
        """The answer of the hook port."""
        return request(self.hook, method, path).text.rstrip('\n')

    def post_run(self, delivery: str, workflow: dict[str, Any], **more: Any) -> int:
        """Admits a run, and gives its id."""
        return self.admit(json.dumps({'repo': 'octo/hello', 'path': 'ci.yml', 'workflow': workflow, **more}).encode(), delivery=delivery)

    def copy(self) -> str:
        """A copy of the store, made between two processes."""
        self.copies += 1
        self.kill()
        shutil.copy(self.store, f'{self.store}.{self.copies}')
        self.start()
        return f'{self.store}.{self.copies}'

    def restore(self, copy: str) -> None:
        """Goes back to a copy."""
        self.kill()
        shutil.copy(copy, self.store)
        self.start()


class Host:
    """A runner with a folder of its own, which can be killed and started again. The words say how it reaches the service."""

    def __init__(self, reach: list[str], folder: str, notes: str, name: str = 'r1', labels: str = 'linux') -> None:
        self.reach, self.name, self.labels, self.folder, self.notes = reach, name, labels, folder, notes
        os.makedirs(folder, exist_ok=True)
        self.printed, self.errors = os.path.join(folder, 'printed'), os.path.join(folder, 'errors')
        self.running: subprocess.Popen[bytes] | None = None

    @property
    def process(self) -> subprocess.Popen[bytes]:
        """Its process."""
        assert self.running is not None
        return self.running

    def start(self, *more: str, pause: float | None = None, beat: float | None = None, before: tuple[str, ...] = (), **env: str) -> Host:
        """With nothing to do it ends, or pauses for so many seconds."""
        words = [*before, *RUNNER, *self.reach, '--name', self.name, '--labels', self.labels, '--state', os.path.join(self.folder, 'state'), *more]
        words += [*(['--pause', str(pause)] if pause is not None else ['--once']), *(['--beat', str(beat)] if beat is not None else [])]
        with open(self.printed, 'ab') as printed, open(self.errors, 'ab') as errors:
            self.running = subprocess.Popen(words, cwd=self.folder, stdin=subprocess.DEVNULL, stdout=printed, stderr=errors,
                                            env={**os.environ, 'NOTES': self.notes, 'HOST': self.folder, **env})
        return self

    def kill(self, *_: Any) -> bool:
        """Kills the runner, and nobody else."""
        self.process.kill()
        self.process.wait()
        return True

    def kill_steps(self) -> None:
        """Kills what its runner has left running."""
        kill_all(self.folder, 'HOST')

    def has_ended(self) -> bool:
        """Whether its process has ended."""
        return self.process.poll() is not None

    def said(self) -> list[str]:
        """What it has printed."""
        return lines_of(self.printed)

    def complained(self) -> str:
        """What it has complained of."""
        return '\n'.join(lines_of(self.errors))

    def home(self) -> str:
        """Its folder below that of the state."""
        return os.path.join(self.folder, 'state', self.name)

    def log(self, name: str = 'run-1-build-0-lease-1') -> list[str]:
        """The lines of a log, without their times."""
        return text_of_log(os.path.join(self.home(), 'logs', name + '.log'))

    def says(self, *wanted: str) -> None:
        """Waits until the runner has said so many lines, or has ended, and compares the lines."""
        until(lambda: len(self.said()) >= len(wanted) or self.has_ended())
        assert self.said() == list(wanted), f'it said {self.said()}, and not {list(wanted)}: {self.complained()}'


def left(value: str, name: str = 'NOTES') -> list[int]:
    """The processes of runners and steps that have a variable of this value in their environment."""
    found = []
    for path in glob.glob('/proc/[0-9]*/environ'):
        with contextlib.suppress(OSError), open(path, errors='replace') as file:
            if f'{name}={value}' in file.read().split('\0'):
                found.append(int(path.split('/')[2]))
    return found


def kill_all(value: str, name: str = 'NOTES') -> None:
    """Kills them."""
    while processes := left(value, name):
        for process in processes:
            with contextlib.suppress(ProcessLookupError):
                os.kill(process, signal.SIGKILL)
        time.sleep(0.02)


class Case(Host):
    """A service, what its steps note, and a first runner, between which and the service something stands."""

    def __init__(self, folder: pathlib.Path) -> None:
        self.service = Store(folder / 'service', area=4194304)
        self.service.start()
        self.between, self.events, self.others = Between(self.service.runner), 0, list[Host]()
        super().__init__(['--port', str(self.between.port)], str(folder / 'one'), str(folder / 'notes'))

    def another(self, name: str = 'r1', folder: str | None = None) -> Host:
        """A runner on another host, which speaks to the service itself."""
        place = os.path.join(os.path.dirname(self.folder), folder or f'host{len(self.others)}')
        host = Host(['--port', str(self.service.runner)], place, self.notes, name)
        self.others.append(host)
        return host

    def post(self, step: str, delivery: str | None = None, **more: Any) -> int:
        """Admits a run of one job with one step."""
        self.events += 1
        job = {'runs-on': 'linux', 'steps': [{'run': step}], **more}
        return self.service.post_run(delivery or f'd{self.events}', {'jobs': {'build': job}})

    def noted(self) -> list[str]:
        """What steps have noted."""
        return lines_of(self.notes)

    def go_on(self) -> None:
        """Steps that are held go on."""
        pathlib.Path(self.notes + '.go').touch()

    def completed(self, conclusion: str, run: int = 1) -> None:
        """The run has come to this."""
        view = self.service.ask('GET', f'/runs/{run}')
        assert re.fullmatch(rf'run {run} \S+ completed {conclusion} build:{conclusion}\({conclusion}\)', view), view

    def left(self) -> list[int]:
        """What is left of runners and steps."""
        return left(self.notes)

    def kill_all(self) -> None:
        """Kills runners and steps."""
        kill_all(self.notes)

    def close(self) -> None:
        """Ends all of it."""
        self.between.listener.close()
        for host in [self, *self.others]:
            if host.running:
                host.kill()
        self.service.kill()
        self.kill_all()


def git(folder: str, *words: str) -> str:
    """Calls git in a folder."""
    done = subprocess.run(['git', '-c', 'user.name=o', '-c', 'user.email=o@example.org', '-c', 'protocol.file.allow=always', '-C', folder, *words],
                          check=True, capture_output=True, text=True)
    return done.stdout.strip()


def mirror(place: str, name: str, files: dict[str, str], commits: int = 1, tags: tuple[str, ...] = ()) -> str:
    """A bare repository, and its newest commit."""
    source, bare = os.path.join(place, 'source', name), os.path.join(place, name + '.git')
    os.makedirs(source)
    git(source, 'init', '-q', '-b', 'main')
    for path, text in files.items():
        os.makedirs(os.path.dirname(os.path.join(source, path)), exist_ok=True)
        with open(os.path.join(source, path), 'w') as file:
            file.write(text)
        os.chmod(file.name, 0o755)
    git(source, 'add', '-A')
    for number in range(commits):
        git(source, 'commit', '-q', '--allow-empty', '-m', f'number {number}')
        for tag in tags[number:number + 1]:
            git(source, 'tag', tag)
    subprocess.run(['git', 'clone', '-q', '--bare', source, bare], check=True)
    return git(source, 'rev-parse', 'HEAD')
