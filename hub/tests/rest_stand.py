"""A hub in this process whose runs are filled in by hand, and whose service is a stand-in that notes commands."""
from __future__ import annotations

import asyncio
import contextlib
import dataclasses
import hashlib
import json
import pathlib
import threading
from collections.abc import Callable, Iterator, Sequence
from typing import Any

from aiohttp import web
from harness import Answer, request

from acts_hub.access.identity import Right
from acts_hub.app import make_app
from acts_hub.config import AccessConfig, Config, HubConfig, RepositoryConfig
from acts_hub.hub import Hub
from acts_hub.ledger.artifacts import Artifact
from acts_hub.ledger.caches import Cache
from acts_hub.service.facts import Facts
from acts_hub.service.hooks import Reply
from acts_hub.service.http import Away, Unsupported
from acts_hub.service.mirror import Run, Runs
from acts_hub.service.models import Job, Lease, Leg, Row, Runner, Wait, Whole

T0 = 1_796_067_000_000  # 2026-11-30T19:30:00Z
PATH = '.github/workflows/ci.yml'
UNLIMITED = AccessConfig(requests_a_second=100_000, requests_burst=1_000_000, wrong_tokens_a_minute=100_000)


def sha(text: object) -> str:
    """A commit."""
    return hashlib.sha1(str(text).encode()).hexdigest()


def run_of(number: int, *, status: str = 'completed', conclusion: str | None = 'success',
           repository: str = 'octo/hello', path: str = PATH,
           workflow: str = 'CI', event: str = 'push', attempt: int = 1, number_of: int | None = None,
           **facts: Any) -> Run:
    """A run."""
    given: dict[str, Any] = {'sha': sha(number), 'branch': 'main', 'actor': 'mona', 'title': f'Change {number}',
                             'message': f'Change {number}\n\nMore.',
                             'author': 'Mona', 'author_email': 'mona@example.org', **facts}
    skipped = conclusion == 'skipped'
    row = Row(number, number_of or number, attempt, repository, path, workflow, event, f'd{number}', 'refs/heads/main',
              status,
              ('success' if skipped else conclusion) if status == 'completed' else None, None)
    at = T0 + number * 1000
    return Run(row, Facts(**given), at, at + 5000 * (attempt - 1), at + 60_000,
               at + 60_000 if status == 'completed' else None, None, '', skipped=skipped)


def leg_of(state: str | None = 'success', index: int = 0, lease: int | None = 7, runner: str | None = 'r1',
           **more: Any) -> Leg:
    """A leg."""
    given: dict[str, Any] = {'combination': {}, 'labels': ('linux',), 'group': None, 'waits_for': None,
                             'started_at': T0 + 10_000, 'ended_at': T0 + 30_000, **more}
    return Leg(index, state=state, lease=lease, runner=runner, **given)


def whole_of(run: Run, *jobs: Job) -> Whole:
    """A run with its jobs."""
    return Whole(run.row, False, None, jobs)


def job_of(name: str = 'build', *legs: Leg, state: str = 'success', title: str | None = None) -> Job:
    """A job."""
    return Job(name, state, (), None, legs, title or name)


class MirrorByHand:
    """What the hub mirrors, filled in by hand."""

    def __init__(self) -> None:
        self.runs: dict[int, Run] = {}
        self.wholes: dict[tuple[int, int], Whole] = {}
        self.bodies: dict[int, bytes] = {}
        self.earlier: dict[tuple[int, int], Run] = {}
        self.is_whole, self.is_away, self.version = True, False, 1
        self.actors: list[tuple[int, int, str]] = []

    def put(self, run: Run, *jobs: Job) -> Run:
        """Adds a run, or replaces it."""
        if run.id in self.runs:
            before = self.runs[run.id]
            self.earlier[run.id, before.row.attempt] = before
        self.runs[run.id] = run
        self.wholes[run.id, run.row.attempt] = whole_of(run, *(jobs or (job_of('build', leg_of()),)))
        self.version += 1
        return run

    def of(self, repository: str) -> Runs:
        return Runs([number for number, run in self.runs.items() if run.row.repository.lower() == repository.lower()],
                    self.runs)

    def select(self, repository: str, **asked: str | None) -> Runs:
        return Runs([run.id for run in self.of(repository)
                     if all(value in (None, self._value(run, name)) for name, value in asked.items())], self.runs)

    def _value(self, run: Run, name: str) -> str | None:
        found: str | None = getattr(run.facts if name in ('branch', 'actor', 'sha') else run
                                    if name == 'conclusion' else run.row, name)
        return found

    def repositories(self) -> list[str]:
        return sorted({run.row.repository for run in self.runs.values()})

    async def whole(self, run: int, attempt: int | None = None) -> Whole | None:
        if self.is_away:
            raise Away('the service does not answer')
        return self.wholes.get((run, attempt or self.runs[run].row.attempt))

    def attempt(self, run: int, attempt: int) -> Run | None:
        return self.runs[run] if attempt == self.runs[run].row.attempt else self.earlier.get((run, attempt))

    async def keep(self, run: int) -> None:
        self.actors.append((run, 0, 'keep'))

    async def runners(self) -> list[Runner]:
        return [Runner('r1', 5, Lease(7, 1, 'build', 0), 3, ('linux', 'x64')), Runner('r2', 1, None, 4000, None)]

    async def body(self, run: int) -> bytes | None:
        return self.bodies.get(run)

    def note_actor(self, run: int, attempt: int, name: str) -> None:
        self.actors.append((run, attempt, name))

    async def settled(self, test: Callable[[], bool], seconds: float = 3.0) -> bool:
        return test()


class HooksByHand:
    """The hook port: notes commands and gives the replies that were set."""

    def __init__(self) -> None:
        self.commands: list[tuple[Any, ...]] = []
        self.reply, self.is_newer = Reply(True, None, 'ok', 202), False

    async def cancel(self, run: int) -> Reply:
        self.commands.append(('cancel', run))
        return self.reply

    async def rerun(self, run: int, attempt: int) -> Reply:
        self.commands.append(('rerun', run, attempt))
        return self.reply

    async def retry(self, run: int, attempt: int) -> Reply:
        return self.newer('retry', run, attempt)

    async def force(self, run: int) -> Reply:
        return self.newer('force', run)

    def newer(self, *command: Any) -> Reply:
        """A command that services of today do not have."""
        if not self.is_newer:
            raise Unsupported('this version of the service does not have the command')
        self.commands.append(command)
        return self.reply


@dataclasses.dataclass
class Stand:
    """The hub, and how to ask it."""

    hub: Hub
    mirror: MirrorByHand
    hooks: HooksByHand
    tokens: dict[str, str]
    port: int = 0

    def ask(self, method: str, path: str, token: str | None = 'write', body: Any = None,
            headers: dict[str, str] | None = None) -> Answer:
        """A request below `/api/v3`, with the token of this kind, or this text as a token."""
        text = self.tokens.get(token, token) if token else None
        given = {**({'Authorization': f'token {text}'} if text else {}), **(headers or {})}
        data = body if isinstance(body, (bytes, str)) or body is None else json.dumps(body)
        return request(self.port, method, path if path.startswith('/api') else f'/api/v3{path}', data, given)

    def get(self, path: str, token: str | None = 'read', **headers: str) -> Answer:
        """GET; names of header fields have `_` for `-`."""
        return self.ask('GET', path, token, headers={name.replace('_', '-'): value for name, value in headers.items()})

    def json(self, path: str, token: str | None = 'read') -> Any:
        """What GET answers with 200."""
        answer = self.get(path, token)
        assert answer.status == 200, (path, answer.status, answer.text)
        return answer.json()

    def clear(self) -> None:
        """Forgets all runs, commands and what was kept of them."""
        self.mirror.runs.clear()
        self.mirror.earlier.clear()
        self.mirror.wholes.clear()
        self.mirror.bodies.clear()
        self.mirror.actors.clear()
        self.hooks.commands.clear()
        self.hooks.reply, self.hooks.is_newer = Reply(True, None, 'ok', 202), False
        self.mirror.is_whole, self.mirror.is_away = True, False
        self.mirror.version += 1

    def query(self, text: str, token: str = 'read', **variables: Any) -> Any:
        """What GraphQL answers."""
        return self.ask('POST', '/api/graphql', token, {'query': text, 'variables': variables}).json()

    def follow(self, answer: Answer) -> Answer:
        """What a redirect leads to, asked without a token."""
        assert answer.status == 302, (answer.status, answer.text)
        location = answer.headers['Location']
        url = self.hub.config.url
        assert location.startswith(url + '/')
        return request(self.port, 'GET', location[len(url):])


@contextlib.contextmanager
def standing(folder: pathlib.Path, access: AccessConfig = UNLIMITED) -> Iterator[Stand]:
    """A hub that serves on a free port of loopback."""
    config = Config(hub=HubConfig(url='https://hub.example:8443', folder=folder),
                    repositories=(RepositoryConfig('octo/empty'),),
                    access=access)
    hub, mirror, hooks = Hub(config), MirrorByHand(), HooksByHand()
    hub.mirror, hub.hooks = mirror, hooks  # type: ignore[assignment]
    hub.artifacts, hub.caches = ArtifactsByHand(folder), CachesByHand()  # type: ignore[assignment]
    hub.database.open()
    create = hub.access.tokens.create
    tokens = {'read': create('reader', Right.READ), 'write': create('mona', Right.WRITE),
              'admin': create('boss', Right.ADMIN),
              'other': create('other', Right.WRITE, ('other/*',)), 'octo': create('octo', Right.READ, ('octo/*',)),
              'runner': create('host', Right.RUNNER, prefix='r', labels=('linux',))}
    stand, ready, loop = Stand(hub, mirror, hooks, tokens), threading.Event(), asyncio.new_event_loop()

    async def serve(ended: asyncio.Event) -> None:
        runner = web.AppRunner(make_app(hub), access_log=None)
        await runner.setup()
        site = web.TCPSite(runner, '127.0.0.1', 0)
        await site.start()
        stand.port = site._server.sockets[0].getsockname()[1]  # type: ignore[union-attr]
        ready.set()
        await ended.wait()
        await runner.cleanup()
    ended = asyncio.Event()
    thread = threading.Thread(target=lambda: loop.run_until_complete(serve(ended)), daemon=True)
    thread.start()
    assert ready.wait(180)
    try:
        yield stand
    finally:
        loop.call_soon_threadsafe(ended.set)
        thread.join(180)
        hub.database.close()


def fill(stand: Stand, runs: Sequence[Run]) -> None:
    """Adds runs."""
    for run in runs:
        stand.mirror.put(run)


class ArtifactsByHand:
    """Artifacts of one file each."""

    def __init__(self, folder: pathlib.Path) -> None:
        self.folder, self.kept = folder, dict[int, Artifact]()

    def add(self, run: int, name: str, data: bytes, expires_at: int = 4_000_000_000_000) -> int:
        """Keeps one."""
        number = len(self.kept) + 1
        (self.folder / f'{number}.zip').write_bytes(data)
        self.kept[number] = Artifact(number, run, 1, name, len(data), hashlib.sha256(data).hexdigest(), T0, expires_at)
        return number

    def list(self, run: int, attempt: int | None = None) -> list[Artifact]:
        return [one for one in self.kept.values() if one.run == run]

    def get(self, number: int) -> Artifact | None:
        return self.kept.get(number)

    def open(self, number: int) -> pathlib.Path | None:
        path = self.folder / f'{number}.zip'
        return path if number in self.kept and path.exists() else None

    def delete(self, number: int) -> bool:
        return self.kept.pop(number, None) is not None


class CachesByHand:
    """Caches without bytes."""

    def __init__(self) -> None:
        self.kept: list[Cache] = []

    def add(self, key: str, scope: str, size: int, used_at: int, repository: str = 'octo/hello') -> None:
        """Keeps one."""
        self.kept.append(Cache(len(self.kept) + 1, repository, scope, key, 'v', size, '', T0, used_at))

    def list(self, repository: str) -> list[Cache]:
        return [one for one in self.kept if one.repository == repository]

    def delete(self, number: int) -> bool:
        before = len(self.kept)
        self.kept = [one for one in self.kept if one.id != number]
        return len(self.kept) < before
