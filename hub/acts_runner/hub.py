"""What a runner asks of a hub: lines over a WebSocket, facts of a leg, and where its logs, artifacts and caches go."""
from __future__ import annotations

import asyncio
import contextlib
import hashlib
import json
import os
import ssl
import time
import urllib.parse
import zipfile
from collections.abc import Coroutine
from dataclasses import dataclass
from io import IOBase
from typing import TYPE_CHECKING, Any, Callable, Iterator, Mapping, Sequence, TypeVar

import aiohttp
from aiohttp.http_exceptions import HttpProcessingError

from .lines import ENDS, MAX_ANSWER, Cut, Session
from .options import Options, token_in
from .state import Held, Unusable
from .storage import StorageFault

if TYPE_CHECKING:
    from .job import Job

MAX_JSON = 1 << 22
SECONDS_OF_TRIES = 600  # for an artifact, the outputs or a cache of a hub that is away
SECONDS_OPEN = 20  # without a line, after which a WebSocket is closed
LINES_OF_SESSION = 500  # the service ends a session after 1,024
FORBIDDEN = 4403  # the code with which the hub closes a WebSocket that says what its token does not allow

T = TypeVar('T')


class Away(Exception):
    """The hub does not answer, or asks for another try."""


class NotTaken(Exception):
    """The hub refuses a request, in words."""

    def __init__(self, status: int, words: str) -> None:
        super().__init__(words)
        self.status, self.words = status, words


@dataclass(frozen=True)
class Answer:
    """An answer of the hub."""

    status: int
    body: bytes

    def json(self) -> Any:
        """What it says."""
        try:
            return json.loads(self.body or b'null')
        except ValueError as fault:
            raise Away(f'no JSON: {fault}') from None


class Hub:
    """A hub, as one thread of this process asks it."""

    def __init__(self, url: str, token: str, ca: str | None) -> None:
        self.url = url.rstrip('/')
        self.headers = {'Authorization': f'Bearer {token}'}
        self.tls = ssl.create_default_context(cafile=ca) if url.startswith('https:') else None
        self.loop = asyncio.new_event_loop()
        self.client: aiohttp.ClientSession | None = None

    @classmethod
    def of(cls, options: Options) -> Hub:
        """The hub that options name."""
        return cls(options.hub or '', token_in(options.token_file or ''), options.ca)

    def wait(self, work: Coroutine[Any, Any, T]) -> T:
        """What something comes to."""
        return self.loop.run_until_complete(work)

    async def session(self) -> aiohttp.ClientSession:
        """The client, made once in the loop."""
        if not self.client:
            limits = aiohttp.ClientTimeout(total=None, sock_connect=30, sock_read=60)
            connector = aiohttp.TCPConnector(ssl=self.tls if self.tls else False, limit=4)
            self.client = aiohttp.ClientSession(timeout=limits, headers=self.headers, connector=connector)
        return self.client

    def close(self) -> None:
        """Closes connections."""
        if self.client:
            self.wait(self.client.close())
            self.client = None

    def ask(self, method: str, path: str, *, params: Sequence[tuple[str, str]] = (), claim: str = '',
            data: bytes | None = None, file: str | None = None, to: str | None = None) -> Answer:
        """One request: `file` is sent, and the answer goes into `to`. Raises `Away` or `NotTaken`."""
        return self.wait(self._ask(method, path, params, claim, data, file, to))

    async def _ask(self, method: str, path: str, params: Sequence[tuple[str, str]], claim: str, data: bytes | None,
                   file: str | None, to: str | None) -> Answer:
        headers = {'X-Acts-Claim': claim} if claim else {}
        if file:
            headers['Connection'] = 'close'  # an answer that comes before all is sent ends the connection
        body = open(file, 'rb') if file else data
        try:
            async with (await self.session()).request(method, self.url + path, params=list(params), headers=headers,
                                                      data=body, allow_redirects=False) as answer:
                return await self._taken(answer, to)
        except (aiohttp.ClientError, HttpProcessingError, asyncio.TimeoutError, OSError) as fault:
            raise Away(f'{self.url} does not answer: {fault or type(fault).__name__}') from None
        finally:
            if isinstance(body, IOBase):
                body.close()

    async def _taken(self, answer: aiohttp.ClientResponse, to: str | None) -> Answer:
        """What an answer comes to."""
        if answer.status >= 500 or answer.status in (408, 429):
            raise Away(f'the hub answers {answer.status} {answer.reason}')
        if to and answer.status == 200:
            await self._keep(answer, to)
            return Answer(200, b'')
        text = b''
        while len(text) < MAX_JSON and (piece := await answer.content.read(MAX_JSON - len(text))):
            text += piece
        if answer.status >= 400:
            raise NotTaken(answer.status, text.decode(errors='replace').strip()[:1000])
        return Answer(answer.status, text)

    @staticmethod
    async def _keep(answer: aiohttp.ClientResponse, path: str) -> None:
        """Writes an answer into a file, and compares it with its digest."""
        digest = hashlib.sha256()
        with open(path, 'wb') as file:
            async for piece in answer.content.iter_chunked(1 << 18):
                digest.update(piece)
                file.write(piece)
        wanted = answer.headers.get('X-Acts-Digest')
        if wanted and wanted != digest.hexdigest():
            raise Away('what came has another digest')

    def insist(self, call: Callable[[], T], tell: Callable[[str], None] = lambda _: None,
               is_over: Callable[[], bool] = lambda: False, seconds: float = SECONDS_OF_TRIES) -> T:
        """Repeats a call until the hub answers it, for some time."""
        late, pause = time.monotonic() + seconds, 0.2
        while True:
            try:
                return call()
            except Away as fault:
                if time.monotonic() > late or is_over():
                    raise
                if pause == 0.2:
                    tell(f'{fault}, so it is asked again')
            time.sleep(pause)
            pause = min(2 * pause, 10)


class HubSession:
    """Lines over a WebSocket: a frame each."""

    def __init__(self, hub: Hub, socket: aiohttp.ClientWebSocketResponse) -> None:
        self.hub, self.socket, self.used, self.asked = hub, socket, time.monotonic(), 0

    def is_fresh(self) -> bool:
        """Whether it may be used once more."""
        return not self.socket.closed and time.monotonic() < self.used + SECONDS_OPEN and self.asked < LINES_OF_SESSION

    async def _frame(self) -> str:
        frame = await self.socket.receive(timeout=60)
        if frame.type is not aiohttp.WSMsgType.TEXT:
            raise Cut(self.reason(frame) or 'the stream ended')
        return str(frame.data)

    @staticmethod
    def reason(frame: aiohttp.WSMessage) -> str:
        """Why the hub has closed the stream."""
        return str(frame.extra or '') if frame.type is aiohttp.WSMsgType.CLOSE else ''

    async def _ask(self, line: str) -> str:
        await self.socket.send_str(line)
        answer = await self._frame()
        if answer == 'refused 75':
            await self._raise_forbidden(line)
        return answer

    async def _raise_forbidden(self, line: str) -> None:
        with contextlib.suppress(asyncio.TimeoutError):
            frame = await self.socket.receive(timeout=2)
            if frame.type is aiohttp.WSMsgType.CLOSE and frame.data == FORBIDDEN:
                raise Unusable(f'the hub refuses {line.rpartition(",life-")[0] or line}: {self.reason(frame)}')

    def ask(self, line: str) -> str:
        """The answer to a line."""
        answer = self._waited(self._ask(line))
        self.asked += 1
        if ENDS.fullmatch(answer):
            raise Cut(answer)
        return answer

    def fetch(self, run: str) -> bytes | None:
        """The body of a run; None if there is no such run."""
        answer = self.ask(f'FETCH {run}')
        if not answer.startswith('body '):
            return None
        body = self._waited(self._frame()).encode()
        if len(body) != int(answer[5:]):
            raise Cut(f'a body of {len(body)} bytes, and not {answer[5:]}')
        return body

    def _waited(self, work: Coroutine[Any, Any, T]) -> T:
        try:
            found = self.hub.wait(work)
        except (aiohttp.ClientError, asyncio.TimeoutError, OSError, TypeError) as fault:
            raise Cut(str(fault) or type(fault).__name__) from None
        self.used = time.monotonic()
        return found

    def close(self) -> None:
        """Closes the stream."""
        with contextlib.suppress(Exception):
            self.hub.wait(asyncio.wait_for(self.socket.close(), 2))


class HubPort:
    """The runner port of a service behind a hub. A stream is kept a while, so that beats need no new one."""

    def __init__(self, hub: Hub, is_ephemeral: bool = False) -> None:
        self.hub, self.place, self.query = hub, hub.url, '?ephemeral=true' if is_ephemeral else ''
        self.kept: HubSession | None = None

    @contextlib.contextmanager
    def session(self) -> Iterator[Session]:
        """A session; one that was cut is not used again."""
        session = self.kept
        self.kept = None
        if session and not session.is_fresh():
            session.close()
            session = None
        session = session or self.open()
        try:
            yield session
        except BaseException:
            session.close()
            raise
        self.kept = session

    def open(self) -> HubSession:
        """A new stream."""
        async def connect() -> aiohttp.ClientWebSocketResponse:
            client = await self.hub.session()
            url = f'{self.hub.url}/runner/v1/lines{self.query}'
            opened = client.ws_connect(url, max_msg_size=MAX_ANSWER, ssl=self.hub.tls or False)
            return await asyncio.wait_for(opened, 60)
        try:
            return HubSession(self.hub, self.hub.wait(connect()))
        except aiohttp.WSServerHandshakeError as fault:
            raise Cut(f'{fault.status}: {"the token is not valid" if fault.status == 401 else fault.message}') from None
        except (aiohttp.ClientError, asyncio.TimeoutError, OSError) as fault:
            raise Cut(str(fault) or type(fault).__name__) from None


class HubFacts:
    """What the hub says of a leg."""

    def __init__(self, hub: Hub, tell: Callable[[str], None]) -> None:
        self.hub, self.tell = hub, tell

    def of(self, leg: Held) -> dict[str, Any]:
        """Attempt, results and outputs of jobs, members of `github`. Waits until the hub answers."""
        def call() -> Any:
            return self.hub.ask('GET', f'/runner/v1/legs/{leg.run}/{leg.lease}', claim=leg.claim).json()
        try:
            found = self.hub.insist(call, self.tell, seconds=float('inf'))
        except NotTaken as fault:
            self.tell(f'the hub says nothing of lease {leg.lease}: {fault}')
            return {}
        return found if isinstance(found, dict) else {}


def place_of(leg: Mapping[str, Any], kind: str) -> str:
    """The path of what a leg keeps at the hub."""
    words = [leg['run'], leg['attempt'], leg['job'], leg['leg'], leg['lease']]
    return f'/runner/v1/{kind}/' + '/'.join(urllib.parse.quote(str(word), safe='') for word in words)


class HubStorage:
    """Artifacts, outputs and caches of a leg, at the hub."""

    def __init__(self, job: Job) -> None:
        self.job, self.hub, self.claim = job, Hub.of(job.options), job.leg.claim
        leg = job.leg
        self.leg = {'run': leg.run, 'attempt': job.facts.get('attempt') or 0, 'job': leg.job, 'leg': leg.leg,
                    'lease': leg.lease}

    def ask(self, method: str, kind: str, more: str = '', *, params: Sequence[tuple[str, str]] = (),
            data: bytes | None = None, file: str | None = None, to: str | None = None) -> Answer:
        """A request of this leg, repeated while the hub is away; a StorageFault if it is not taken."""
        path = place_of(self.leg, kind) + more

        def call() -> Answer:
            return self.hub.ask(method, path, params=params, claim=self.claim, data=data, file=file, to=to)
        try:
            return self.hub.insist(call, self.job.log.write, self.job.clock.is_cancelled)
        except NotTaken as fault:
            raise StorageFault(fault.words or f'the hub answers {fault.status}') from None
        except Away as fault:
            raise StorageFault(str(fault)) from None

    def keep_outputs(self, values: dict[str, str]) -> None:
        """Hands on the outputs of the job of this leg."""
        self.ask('PUT', 'outputs', data=json.dumps(values).encode())

    def outputs_of(self, job: str) -> dict[str, str] | None:
        """The outputs of a job of the same attempt, as the facts have them."""
        found: dict[str, str] | None = (self.job.facts.get('outputs') or {}).get(job)
        return found

    def upload(self, name: str, files: Sequence[str], base: str, overwrite: bool) -> str:
        """Keeps files as an artifact: a zip."""
        if not overwrite and name in self.listed():
            raise StorageFault(f'the run has an artifact {name} already')
        archive = os.path.join(self.job.step_folder(), 'artifact.zip')
        with zipfile.ZipFile(archive, 'w', zipfile.ZIP_DEFLATED, compresslevel=6, strict_timestamps=False) as made:
            for file in files:
                made.write(file, os.path.relpath(file, base))
        with open(archive, 'rb') as whole:
            digest = hashlib.file_digest(whole, 'sha256').hexdigest()
        params = [('name', name), ('digest', digest), *([('overwrite', '1')] if overwrite else [])]
        try:
            return str(self.ask('PUT', 'artifacts', params=params, file=archive).json()['id'])
        finally:
            os.remove(archive)

    def listed(self) -> dict[str, int]:
        """The ids of the artifacts of the run's attempt, by name."""
        return {str(found['name']): int(found['id']) for found in self.ask('GET', 'artifacts').json()}

    def names(self) -> list[str]:
        """The artifacts of the run's attempt."""
        return sorted(self.listed())

    def download(self, name: str, folder: str) -> None:
        """Puts the files of an artifact into a folder."""
        archive = os.path.join(self.job.step_folder(), 'artifact.zip')
        self.ask('GET', 'artifacts', f'/{self.listed()[name]}', to=archive)
        os.makedirs(folder, exist_ok=True)
        with zipfile.ZipFile(archive) as made:
            made.extractall(folder)
        os.remove(archive)

    def line_of(self, place: str) -> int | None:
        """The line of a place in the file of the run's workflow; None if it is not known, or the hub is away."""
        try:
            path = place_of(self.leg, 'places')
            found = self.hub.ask('GET', path, params=[('place', place)], claim=self.claim).json()
        except (NotTaken, Away):
            return None
        line = found.get('line') if isinstance(found, dict) else None
        return line if isinstance(line, int) else None

    def close(self) -> None:
        """Closes connections."""
        self.hub.close()

    # Caches. What goes wrong here is as if there were none.

    def restore(self, keys: list[str], version: str, path: str) -> str | None:
        """Puts the archive of the first key that is found, or that begins with a later one, at a path."""
        try:
            answer = self.ask('GET', 'caches', params=[*(('key', key) for key in keys), ('version', version)])
            if answer.status != 200:
                return None
            found = answer.json()
            self.ask('GET', 'caches', f'/{found["id"]}', to=path)
            return str(found['key'])
        except StorageFault as fault:
            self.job.log.write(f'##[warning]no cache: {fault}')
            return None

    def has(self, key: str, version: str) -> bool:
        """Whether there is a cache of this very key in the scope of this run."""
        try:
            return self.ask('GET', 'caches', params=[('key', key), ('version', version), ('own', '1')]).status == 200
        except StorageFault:
            return False

    def save(self, key: str, version: str, path: str) -> bool:
        """Keeps an archive; whether there was none of this key."""
        with open(path, 'rb') as whole:
            digest = hashlib.file_digest(whole, 'sha256').hexdigest()
        try:
            self.ask('PUT', 'caches', params=[('key', key), ('version', version), ('digest', digest)], file=path)
            return True
        except StorageFault as fault:
            self.job.log.write(f'##[warning]the cache {key} is not kept: {fault}')
            return False
