"""What the requests of the REST API share: rights, what addresses name, answers, and errors in GitHub's form."""
from __future__ import annotations

import hashlib
import json
import re
import secrets
import time
from collections.abc import Awaitable, Callable, Mapping, Sequence
from typing import TYPE_CHECKING, Any

from aiohttp import web

from ..access.identity import Identity, Right, identity_of, require
from ..gateway import Gateway
from ..service.hooks import Reply
from ..service.http import Away, Unsupported
from ..service.mirror import Run
from .downloads import Downloads
from .errors import Fault
from .legs import JobView, jobs_of
from .numbers import JobNumber, decimal
from .pages import Page, is_known
from .rows import RowTexts
from .shapes import Shapes, dumps
from .known import Workflow, Workflows

if TYPE_CHECKING:
    from ..hub import Hub

PREFIX = '/api/v3'
REPOSITORY = re.compile(r'[A-Za-z0-9_.-]{1,100}')
MAX_BODY = 1 << 20
AWAY = 'The service does not answer; it is asked again in a moment.'
Handler = Callable[[web.Request], Awaitable[web.StreamResponse]]
_HEADERS = {'X-GitHub-Media-Type': 'github.v3; format=json', 'X-GitHub-Api-Version-Selected': '2022-11-28',
            'Vary': 'Accept, Authorization, Cookie', 'Cache-Control': 'private, no-cache'}
_SCOPES = {Right.WRITE: 'read:org, repo, workflow', Right.ADMIN: 'admin:org, repo, workflow'}
_REPO = '/repos/{owner}/{repo}'


def tag_of(text: str | bytes) -> str:
    """An entity tag of a text."""
    return f'W/"{hashlib.blake2b(text.encode() if isinstance(text, str) else text, digest_size=12).hexdigest()}"'


class Api:
    """The hub as the requests see it."""

    def __init__(self, hub: Hub) -> None:
        self.hub = hub
        self.shapes = Shapes(hub.config.url)
        self.rows = RowTexts(self.shapes)
        self.workflows = Workflows(hub)
        self._epoch = secrets.token_hex(4)
        self._downloads = Downloads(secrets.token_bytes(32))

    @property
    def gateway(self) -> Gateway | None:
        """Where runners are reached."""
        found = self.hub.gateway
        return found if isinstance(found, Gateway) else None

    # routes, and what every answer has

    def get(self, path: str, handler: Handler) -> web.RouteDef:
        """A route that reads, below a repository."""
        return web.get(PREFIX + _REPO + path, self.guarded(handler))

    def on(self, method: str, path: str, handler: Handler) -> web.RouteDef:
        """A route of another method, below a repository."""
        return web.route(method, PREFIX + _REPO + path, self.guarded(handler))

    def top(self, path: str, handler: Handler) -> web.RouteDef:
        """A route that reads, of no repository."""
        return web.get(PREFIX + path, self.guarded(handler))

    def act(self, method: str, path: str, handler: Handler) -> web.RouteDef:
        """A route of another method, of no repository."""
        return web.route(method, PREFIX + path, self.guarded(handler))

    def download(self, path: str, handler: Handler) -> web.RouteDef:
        """A route that sends a file to who has a signed address; without HEAD."""
        return web.get(f'{PREFIX}/acts/downloads{path}', self.guarded(handler), allow_head=False)

    def guarded(self, handler: Handler) -> Handler:
        """A handler whose faults are answered as GitHub does, and whose answers have GitHub's fields."""
        async def handle(request: web.Request) -> web.StreamResponse:
            try:
                answer = await handler(request)
            except Fault as fault:
                answer = fault_answer(fault)
            except Away:
                answer = fault_answer(Fault(503, AWAY, headers={'Retry-After': '2'}))
            except web.HTTPException as fault:
                if fault.status < 400:
                    raise
                answer = fault_answer(fault_of(request, fault))
            self.mark(request, answer)
            return answer
        return handle

    def mark(self, request: web.Request, answer: web.StreamResponse) -> None:
        """Adds the fields that clients read."""
        if answer.prepared:
            return
        answer.headers.update(_HEADERS)
        answer.headers['X-GitHub-Request-Id'] = secrets.token_hex(8).upper()
        identity = identity_of(request)
        if identity is not None and identity.right in _SCOPES:
            answer.headers['X-OAuth-Scopes'] = _SCOPES[identity.right]
        if identity is not None and (rate := self.rate(identity)):
            answer.headers.update({f'X-RateLimit-{name.capitalize()}': str(value) for name, value in rate.items()})
            answer.headers['X-RateLimit-Resource'] = 'core'

    def rate(self, identity: Identity) -> dict[str, int]:
        """How many requests one may make at once, how many are left, and when all are again; empty without a limit."""
        rates = self.hub.access.requests
        if rates.burst <= 0 or rates.a_second <= 0:
            return {}
        left = int(rates.left(identity.token_id))
        reset = int(time.time() + (rates.burst - left) / rates.a_second) + 1
        return {'limit': int(rates.burst), 'remaining': left, 'reset': reset, 'used': int(rates.burst) - left}

    # who may what

    def repository(self, request: web.Request) -> str:
        """The repository of an address, with the case of its name, for who may read it."""
        return self.readable(request, f'{request.match_info["owner"]}/{request.match_info["repo"]}')

    def readable(self, request: web.Request, repository: str) -> str:
        """A repository, with the case of its name, for who may read it."""
        require(request, Right.READ)
        owner, _, name = repository.partition('/')
        if not (REPOSITORY.fullmatch(owner) and REPOSITORY.fullmatch(name)):
            raise Fault(404)
        require(request, Right.READ, repository)
        if not self.hub.mirror.is_whole:
            raise Fault(503, 'The runs of the service are being listed.', headers={'Retry-After': '2'})
        known = self.known(repository)
        if known is None:
            raise Fault(404)
        return known

    def known(self, repository: str) -> str | None:
        """The name of a repository that has runs or is configured; None if it is not known."""
        runs = self.hub.mirror.of(repository)
        if runs:
            return runs[-1].row.repository
        return next((one.name for one in self.hub.config.repositories if one.name.lower() == repository.lower()), None)

    def repositories(self, identity: Identity) -> list[str]:
        """The repositories that one may read: those with runs, and those that are configured."""
        found = {name.lower(): name
                 for name in [one.name for one in self.hub.config.repositories] + self.hub.mirror.repositories()}
        return sorted(name for name in found.values() if identity.may(Right.READ, name))

    def writable(self, request: web.Request, right: Right = Right.WRITE) -> tuple[str, Identity]:
        """The repository of an address and who asks, for who may act in it. A cookie does not do: pages have forms."""
        repository = self.repository(request)
        try:
            identity = require(request, right, repository)
        except web.HTTPForbidden:
            raise Fault(403, 'Resource not accessible by personal access token',
                        headers={'X-Accepted-GitHub-Permissions': 'actions=write'}) from None
        return repository, self.acting(identity)

    def acting(self, identity: Identity) -> Identity:
        """Who asks, if it is by a token."""
        if identity.is_browser:
            raise Fault(403, 'This needs a token in the field Authorization; a sign-in by browser does not do.')
        return identity

    # what addresses name

    def run(self, request: web.Request, repository: str, name: str = 'run') -> Run:
        """The run of an address."""
        number = decimal(request.match_info[name])
        return self.run_of(repository, number)

    def run_of(self, repository: str, number: int | None) -> Run:
        """A run of a repository by its number."""
        found = self.hub.mirror.runs.get(number) if number is not None else None
        if found is None or found.row.repository.lower() != repository.lower():
            raise Fault(404)
        return found

    async def jobs(self, run: Run, attempt: int | None = None) -> list[JobView]:
        """The jobs of an attempt of a run, of the present one if none is named."""
        as_it_was = self.attempt(run, run.row.attempt if attempt is None else attempt)
        whole = await self.hub.mirror.whole(run.row.run, as_it_was.row.attempt)
        if whole is None:
            raise Fault(404, f'What attempt {as_it_was.row.attempt} did is not known: it was not seen from here.')
        gateway = self.gateway
        return jobs_of(as_it_was, whole,
                       gateway is not None and gateway.environments.is_approved(run.row.run, as_it_was.row.attempt))

    def attempt(self, run: Run, attempt: int | None) -> Run:
        """A run as it was in an attempt."""
        found = self.hub.mirror.attempt(run.row.run, attempt) if attempt is not None else None
        if found is None:
            raise Fault(404)
        return found

    async def job(self, request: web.Request, repository: str, name: str = 'job') -> tuple[Run, JobView]:
        """The job of an address, and its run."""
        value = decimal(request.match_info[name])
        self.run_of(repository, JobNumber.of(value or 0).run)
        return await self.job_of(value)

    async def job_of(self, value: int | None) -> tuple[Run, JobView]:
        """The job of a number, and its run."""
        number = JobNumber.of(value or 0)
        run = self.hub.mirror.runs.get(number.run)
        if run is None:
            raise Fault(404)
        for view in await self.jobs(run, number.attempt):
            if view.number == number:
                return run, view
        raise Fault(404)

    def workflow(self, request: web.Request, repository: str) -> Workflow:
        """The workflow of an address: by its number, its path or the name of its file."""
        text = request.match_info['workflow']
        for workflow in self.workflows.of(repository):
            if text in (workflow.path, workflow.path.rpartition('/')[2],
                        str(self.shapes.workflow_number(repository, workflow.path))):
                return workflow
        raise Fault(404)

    async def newer(self, command: Awaitable[Reply], words: str) -> Reply:
        """The reply to a command that services may lack: 422 in words if this one does."""
        try:
            return await command
        except Unsupported:
            raise Fault(422, words) from None

    async def body(self, request: web.Request) -> dict[str, Any]:
        """The object of a request; an empty one if it has none."""
        if (request.content_length or 0) > MAX_BODY:
            raise Fault(413, f'A body has at most {MAX_BODY} bytes.')
        text = await request.content.read(MAX_BODY + 1)
        while len(text) <= MAX_BODY and (more := await request.content.read(MAX_BODY + 1 - len(text))):
            text += more
        if len(text) > MAX_BODY:
            raise Fault(413, f'A body has at most {MAX_BODY} bytes.')
        if not text.strip():
            return {}
        try:
            found = json.loads(text)
            json.dumps(found, ensure_ascii=False).encode()  # a half of a pair of surrogates is no Unicode
        except (ValueError, RecursionError):
            raise Fault(400, 'Problems parsing JSON') from None
        if not isinstance(found, dict):
            raise Fault(400, 'Body should be a JSON object')
        return found

    # answers

    def version_tag(self) -> str:
        """The entity tag of a list that changes with the runs alone."""
        return f'W/"{self._epoch}-{self.hub.mirror.version}"'

    def answer(self, request: web.Request, value: object, status: int = 200) -> web.Response:
        """An answer of JSON."""
        return self.text(request, dumps(value), status)

    def text(self, request: web.Request, text: str, status: int = 200, tag: str | None = None,
             headers: Mapping[str, str] | None = None) -> web.Response:
        """An answer of JSON that is a text already, or 304 if the client has it."""
        fields = dict(headers or {})
        if status == 200 and request.method in ('GET', 'HEAD'):
            fields['ETag'] = tag or tag_of(text)
            if is_known(fields['ETag'], request.headers.get('If-None-Match', '')):
                return web.Response(status=304, headers=fields)
        return web.Response(text=text, status=status, content_type='application/json', headers=fields)

    def redirect(self, path: str) -> web.Response:
        """302 to an address that holds for a minute."""
        address = self._downloads.address(f'{PREFIX}/acts/downloads{path}')
        return web.Response(status=302, headers={'Location': self.shapes.web + address})

    def signed(self, request: web.Request) -> None:
        """404 unless the address was signed here, less than a minute ago."""
        if not self._downloads.holds(request.path, request.query.get('until', ''), request.query.get('signature', '')):
            raise Fault(404)

    def not_modified(self, request: web.Request, tag: str) -> web.Response | None:
        """304 if the client has what this tag names."""
        given = request.headers.get('If-None-Match')
        return web.Response(status=304, headers={'ETag': tag}) if given and is_known(tag, given) else None

    def listed(self, request: web.Request, member: str, items: Sequence[Any], page: Page | None = None) -> web.Response:
        """A page of a list that is there as a whole."""
        asked = page or Page.of(request.query)
        return self.some(request, asked, member, asked.cut(items), len(items))

    def some(self, request: web.Request, page: Page, member: str, items: Sequence[Any], total: int) -> web.Response:
        """A page of objects that are those of the page alone."""
        return self.page(request, page, member, list(map(dumps, items)), total)

    def page(self, request: web.Request, page: Page, member: str, texts: Sequence[str], total: int,
             tag: str | None = None) -> web.Response:
        """A page of objects, with the links to others; without a member it is a bare list."""
        links = page.links(f'{self.shapes.web}{request.rel_url.raw_path}', request.query, total)
        rows = f'[{",".join(texts)}]'
        text = f'{{"total_count":{total},"{member}":{rows}}}' if member else rows
        return self.text(request, text, tag=tag, headers={'Link': links} if links else None)


def fault_answer(fault: Fault) -> web.Response:
    """An error as GitHub sends it."""
    return web.Response(text=dumps(fault.body()), status=fault.status, content_type='application/json',
                        headers=fault.headers)


def fault_of(request: web.Request, fault: web.HTTPException) -> Fault:
    """An error of another part of the hub."""
    words = fault.text or ''
    message = words if words and '\n' not in words and not words.startswith(f'{fault.status}:') else fault.reason
    if fault.status == 401 and 'Authorization' in request.headers:
        message = 'Bad credentials'
    kept = {name: fault.headers[name] for name in ('WWW-Authenticate', 'Retry-After') if name in fault.headers}
    return Fault(fault.status, message, headers=kept)
