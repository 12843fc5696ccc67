"""The real service and the real hub, driven from outside: free ports, tokens, a certificate, a small HTTP client."""
from __future__ import annotations

import contextlib
import functools
import http.client
import itertools
import json
import os
import pathlib
import random
import signal
import socket
import ssl
import subprocess
import sys
import time
import uuid
from collections.abc import Callable, Iterator, Mapping
from dataclasses import dataclass, field
from typing import Any, TypeVar

HUB = pathlib.Path(__file__).resolve().parent.parent
PYTHON = '/usr/bin/python3'
SECONDS = 180  # that something is waited for at most: a machine may be busy
FIRST_PORT, PORTS_OF_BLOCK, BLOCKS = 10_000, 200, 110  # below the ports that the system gives to clients, since a client could take one meanwhile
sys.path.insert(0, str(HUB))

Made = TypeVar('Made')


def acts() -> str:
    """The program of the service: a trial program that the environment variable ACTS names."""
    path = os.environ.get('ACTS')
    if not path or not os.access(path, os.X_OK):
        raise AssertionError('the environment variable ACTS has to name the program of the service (a trial program)')
    return path


@functools.cache
def block_of_ports() -> tuple[socket.socket, Iterator[int]]:
    """The ports of this process, round and round, and what keeps other processes of tests from them until it ends."""
    held = socket.socket(socket.AF_UNIX)
    for number in random.sample(range(BLOCKS), BLOCKS):
        with contextlib.suppress(OSError):
            held.bind(f'\0acts-ports-of-tests-{number}')
            first = FIRST_PORT + number * PORTS_OF_BLOCK
            return held, itertools.cycle(range(first, first + PORTS_OF_BLOCK))
    raise AssertionError(f'{BLOCKS} processes of tests have all ports')


def free_ports(count: int) -> list[int]:
    """Ports of loopback that nobody has, and that no other test is given while this process runs."""
    found: list[int] = []
    for port in itertools.islice(block_of_ports()[1], PORTS_OF_BLOCK):
        with socket.socket() as one, contextlib.suppress(OSError):
            one.bind(('127.0.0.1', port))
            found.append(port)
        if len(found) == count:
            return found
    raise AssertionError(f'there are no {count} free ports')


def limit(seconds: float) -> float:
    """When a wait for so many seconds ends. They are of a machine on which up to four processes wait for each processor; with more of them it lasts longer."""
    return time.monotonic() + seconds * max(1.0, os.getloadavg()[0] / (4 * (os.cpu_count() or 1)))


def until(test: Callable[[], Made], seconds: float = SECONDS, what: str = '') -> Made:
    """Waits until a test gives something; what fails to connect counts as nothing."""
    late = limit(seconds)
    last: object = None
    while time.monotonic() < late:
        try:
            if found := test():
                return found
            last = found
        except (OSError, http.client.HTTPException) as fault:
            last = fault
        time.sleep(0.02)
    raise AssertionError(f'it did not come: {what or test} (last: {last!r})')


@dataclass(frozen=True)
class Answer:
    """An answer of HTTP."""

    status: int
    headers: http.client.HTTPMessage
    body: bytes

    @property
    def text(self) -> str:
        """Its body as text."""
        return self.body.decode()

    def json(self) -> Any:
        """Its body as JSON."""
        return json.loads(self.body)


class UnixConnection(http.client.HTTPConnection):
    """A connection to a socket of the file system."""

    def __init__(self, path: pathlib.Path, timeout: float = 60) -> None:
        super().__init__('localhost', timeout=timeout)
        self.path = path

    def connect(self) -> None:
        self.sock = socket.socket(socket.AF_UNIX)
        self.sock.settimeout(self.timeout)
        self.sock.connect(str(self.path))


def request(address: int | pathlib.Path, method: str, path: str, body: bytes | str | None = None, headers: Mapping[str, str] | None = None,
            context: ssl.SSLContext | None = None, timeout: float = 60) -> Answer:
    """One request to a port of loopback, or a socket of the file system; redirections are not followed."""
    connection: http.client.HTTPConnection
    if isinstance(address, pathlib.Path):
        connection = UnixConnection(address, timeout)
    elif context is not None:
        connection = http.client.HTTPSConnection('localhost', address, context=context, timeout=timeout)
    else:
        connection = http.client.HTTPConnection('127.0.0.1', address, timeout=timeout)
    with contextlib.closing(connection):
        connection.request(method, path, body.encode() if isinstance(body, str) else body, dict(headers or {}))
        answer = connection.getresponse()
        return Answer(answer.status, answer.headers, answer.read())


def body_of(name: str = 'CI', jobs: Mapping[str, Any] | None = None, *, repository: str = 'octo/hello', path: str = '.github/workflows/ci.yml',
            message: str = 'Say hello', github: Mapping[str, Any] | None = None, workflow: Mapping[str, Any] | None = None) -> bytes:
    """An admitted body as events make it."""
    given = {
        'ref': 'refs/heads/main', 'ref_name': 'main', 'ref_type': 'branch', 'sha': uuid.uuid4().hex + '00000000', 'actor': 'mona', 'repository': repository,
        'event': {'head_commit': {'message': message, 'author': {'name': 'Mona', 'email': 'mona@example.org'}}}, **(github or {})}
    made = {'name': name, 'jobs': jobs or {'build': {'runs-on': 'linux', 'steps': [{'run': 'echo hello'}]}}, **(workflow or {})}
    return json.dumps({'repo': repository, 'path': path, 'workflow': made, 'github': given}).encode()


class Process:
    """A process that this test started; its output is in a file."""

    def __init__(self, words: list[str], folder: pathlib.Path, name: str, env: Mapping[str, str] | None = None) -> None:
        self.words, self.folder, self.name, self.env = words, folder, name, dict(env or {})
        self.output = folder / f'{name}.log'
        self.process: subprocess.Popen[bytes] | None = None

    def start(self) -> None:
        """Starts it."""
        with open(self.output, 'ab') as output:
            self.process = subprocess.Popen(self.words, cwd=self.folder, env={**os.environ, **self.env}, stdin=subprocess.DEVNULL, stdout=output,
                                            stderr=subprocess.STDOUT)

    @property
    def id(self) -> int:
        """Its id."""
        assert self.process is not None
        return self.process.pid

    def said(self) -> str:
        """What it has printed so far, in all its lives."""
        return self.output.read_text(errors='replace') if self.output.exists() else ''

    def is_running(self) -> bool:
        """Whether it has not ended."""
        return self.process is not None and self.process.poll() is None

    def kill(self, number: int = signal.SIGKILL) -> int:
        """Sends a signal, `kill -9` by default, waits for the end, and gives the status."""
        if self.process is None:
            return 0
        if self.process.poll() is None:
            self.process.send_signal(number)
        try:
            return self.process.wait(SECONDS)
        except subprocess.TimeoutExpired:
            self.process.kill()
            self.process.wait()
            raise AssertionError(f'{self.name} does not end: {self.said()[-2000:]}') from None


@dataclass
class Service:
    """`acts serve` over a store in a folder, on free ports."""

    folder: pathlib.Path
    area: int = 8 << 20
    options: tuple[str, ...] = ()
    hook: int = 0
    runner: int = 0
    view: int = 0
    process: Process | None = None

    @property
    def store(self) -> pathlib.Path:
        """Its file."""
        return self.folder / 'runs.store'

    def start(self) -> Service:
        """Makes the store if there is none, serves it, and waits till it answers. The ports stay over restarts."""
        self.folder.mkdir(parents=True, exist_ok=True)
        if not self.store.exists():
            subprocess.run([acts(), 'init', str(self.store), str(self.area)], check=True, capture_output=True)
        if not self.hook:
            self.hook, self.runner, self.view = free_ports(3)
        self.process = Process([
            acts(), 'serve', str(self.store), '--hook-port', str(self.hook), '--runner-port', str(self.runner), '--view-port', str(self.view),
            '--sessions', '2', '--forever', *self.options], self.folder, 'service')
        self.process.start()
        until(self._answers, what='the service')
        return self

    def _answers(self) -> bool:
        assert self.process is not None
        if not self.process.is_running():
            raise AssertionError(f'the service has ended: {self.process.said()[-2000:]}')
        return request(self.view, 'GET', '/healthz').status == 200

    def kill(self) -> None:
        """`kill -9`."""
        if self.process is not None:
            self.process.kill()

    def restart(self) -> None:
        """`kill -9`, and start again."""
        self.kill()
        self.start()

    def admit(self, body: bytes | None = None, event: str = 'push', delivery: str | None = None) -> int:
        """Admits an event, and gives the id of its run."""
        answer = request(self.hook, 'POST', '/events', body_of() if body is None else body, {
            'X-GitHub-Delivery': delivery or uuid.uuid4().hex, 'X-GitHub-Event': event})
        word, _, number = answer.text.strip().partition(' ')
        assert (answer.status, word) == (201, 'created'), answer
        return int(number)

    def post(self, path: str) -> Answer:
        """A command to the hook port."""
        return request(self.hook, 'POST', path)

    def run(self, number: int) -> Any:
        """A run as the view port shows it."""
        return request(self.view, 'GET', f'/runs/{number}').json()

    def lines(self) -> RunnerLines:
        """A session of the runner port."""
        return RunnerLines(self.runner)


class RunnerLines:
    """A runner by hand: lines over one stream."""

    def __init__(self, port: int) -> None:
        self._socket = socket.create_connection(('127.0.0.1', port), 60)
        self._file = self._socket.makefile('rwb')
        self.numbers: dict[str, int] = {}

    def ask(self, line: str) -> str:
        """Sends a line, and gives its answer; of a FETCH the body."""
        self._file.write(line.encode() + b'\n')
        self._file.flush()
        text = self._file.readline().decode().rstrip('\n')
        if line.startswith('FETCH') and text.startswith('body '):
            return self._file.read(int(text[5:]) + 1)[:-1].decode()
        return text

    def claim(self, name: str, labels: str = 'linux') -> list[str]:
        """Claims, and gives the words of the answer: `lease LEASE RUN JOB LEG COMBO`, or `nothing`."""
        self.numbers[name] = self.numbers.get(name, 0) + 1
        return self.ask(f'CLAIM {name} {self.numbers[name]} {labels}').split(' ', 5)

    def done(self, name: str, lease: str | int, result: str = 'success') -> str:
        """Reports a leg."""
        self.numbers[name] = self.numbers.get(name, 0) + 1
        return self.ask(f'DONE {name} {self.numbers[name]} {lease} {result}')

    def close(self) -> None:
        """Ends the session."""
        self._file.close()
        self._socket.close()


def certificate(folder: pathlib.Path) -> tuple[pathlib.Path, pathlib.Path, pathlib.Path]:
    """An authority, and a certificate and key of localhost."""
    def here(*words: str) -> None:
        subprocess.run(words, cwd=folder, check=True, capture_output=True)
    curve = '-newkey', 'ec', '-pkeyopt', 'ec_paramgen_curve:P-256', '-nodes'
    here('openssl', 'req', '-x509', *curve, '-days', '2', '-subj', '/CN=authority of a test', '-keyout', 'ca.key', '-out', 'ca.pem')
    here('openssl', 'req', *curve, '-subj', '/CN=localhost', '-keyout', 'hub.key', '-out', 'hub.csr')
    (folder / 'names').write_text('subjectAltName=DNS:localhost,IP:127.0.0.1\n')
    here('openssl', 'x509', '-req', '-in', 'hub.csr', '-CA', 'ca.pem', '-CAkey', 'ca.key', '-CAcreateserial', '-days', '2', '-extfile', 'names', '-out', 'hub.pem')
    return folder / 'ca.pem', folder / 'hub.pem', folder / 'hub.key'


@dataclass
class HubProcess:
    """`acts-hub serve` beside a service, with its state in a folder."""

    folder: pathlib.Path
    service: Service | None = None
    tls: bool = False
    more: str = ''                                        # further lines of the configuration
    tables: Mapping[str, Mapping[str, Any]] = field(default_factory=dict)   # members that are added to a table, or replaced in it
    env: Mapping[str, str] = field(default_factory=dict)
    port: int = 0
    ca: pathlib.Path | None = None
    process: Process | None = None

    @property
    def config(self) -> pathlib.Path:
        """The file of its configuration."""
        return self.folder / 'hub.toml'

    @property
    def state(self) -> pathlib.Path:
        """The folder of its state."""
        return self.folder / 'state'

    @property
    def unix(self) -> pathlib.Path:
        """Its socket of the file system."""
        return self.folder / 'hub.socket'

    @property
    def url(self) -> str:
        """What clients call it."""
        return f'https://localhost:{self.port}' if self.tls else f'http://127.0.0.1:{self.port}'

    @property
    def context(self) -> ssl.SSLContext | None:
        """What trusts its certificate."""
        return ssl.create_default_context(cafile=str(self.ca)) if self.tls else None

    def write_config(self) -> None:
        """Writes the configuration."""
        hub: dict[str, Any] = {'listen': f'127.0.0.1:{self.port}', 'url': self.url, 'folder': str(self.state), 'unix': str(self.unix), 'open_loopback': True}
        if self.tls:
            self.ca, pem, key = certificate(self.folder)
            hub.update(certificate=str(pem), key=str(key))
        tables: dict[str, dict[str, Any]] = {'hub': hub}
        if self.service is not None:
            one = self.service
            tables['service'] = {'view': f'127.0.0.1:{one.view}', 'hook': f'127.0.0.1:{one.hook}', 'runner': f'127.0.0.1:{one.runner}'}
        for name, members in self.tables.items():
            tables.setdefault(name, {}).update(members)
        text = ''.join(f'[{name}]\n' + ''.join(f'{key} = {json.dumps(value)}\n' for key, value in members.items()) + '\n' for name, members in tables.items())
        self.config.write_text(text + self.more)

    def start(self, wait: bool = True) -> HubProcess:
        """Starts it, and waits till it answers and has listed the runs. The port stays over restarts."""
        self.folder.mkdir(parents=True, exist_ok=True)
        if not self.port:
            self.port, = free_ports(1)
            self.write_config()
        env = {'PYTHONPATH': str(HUB), 'PYTHONUNBUFFERED': '1', **self.env}
        self.process = Process([PYTHON, '-m', 'acts_hub', 'serve', '--config', str(self.config)], self.folder, 'hub', env)
        self.process.start()
        if wait:
            until(self._answers, what='the hub')
        return self

    def _answers(self) -> bool:
        assert self.process is not None
        if not self.process.is_running():
            raise AssertionError(f'the hub has ended: {self.process.said()[-4000:]}')
        answer = self.get('/healthz')
        has_service = self.service is not None and self.service.process is not None and self.service.process.is_running()
        return answer.status == 200 and not (has_service and 'being listed' in answer.text)

    def stop(self) -> int:
        """SIGTERM; gives the status."""
        return self.process.kill(signal.SIGTERM) if self.process is not None else 0

    def kill(self) -> None:
        """`kill -9`."""
        if self.process is not None:
            self.process.kill()

    def restart(self) -> None:
        """`kill -9`, and start again."""
        self.kill()
        self.start()

    def command(self, *words: str) -> subprocess.CompletedProcess[str]:
        """Runs a command of acts-hub."""
        return subprocess.run([PYTHON, '-m', 'acts_hub', *words], cwd=self.folder, env={**os.environ, 'PYTHONPATH': str(HUB)}, capture_output=True, text=True,
                              timeout=SECONDS)

    def token(self, name: str = 'mona', kind: str = 'admin', *, repositories: tuple[str, ...] = ('*',), prefix: str = '', labels: tuple[str, ...] = ()) -> str:
        """Makes a token, as `acts-hub token create` does."""
        from acts_hub.access.identity import Right
        from acts_hub.access.tokens import Tokens
        from acts_hub.ledger.database import Database, LedgerError
        self.state.mkdir(mode=0o700, parents=True, exist_ok=True)
        database = Database(self.state / 'ledger.sqlite')
        database.open()

        def made() -> str | None:
            with contextlib.suppress(LedgerError):  # a disk that is busy
                return Tokens(database).create(name, Right(kind), repositories, prefix, labels)
            return None
        try:
            return until(made, what=f'the token {name}')  # type: ignore[return-value]
        finally:
            database.close()

    def request(self, method: str, path: str, body: bytes | str | None = None, token: str | None = None, headers: Mapping[str, str] | None = None,
                timeout: float = 60) -> Answer:
        """One request, with a token as `Authorization: Bearer`."""
        given = {**({'Authorization': f'Bearer {token}'} if token else {}), **(headers or {})}
        return request(self.port, method, path, body, given, self.context, timeout)

    def get(self, path: str, token: str | None = None, headers: Mapping[str, str] | None = None) -> Answer:
        """GET."""
        return self.request('GET', path, None, token, headers)

    def post(self, path: str, body: bytes | str | None = None, token: str | None = None, headers: Mapping[str, str] | None = None) -> Answer:
        """POST."""
        return self.request('POST', path, body, token, headers)
