"""What all pages share: templates, static files, faults as pages, and who looks."""
from __future__ import annotations

import asyncio
import bisect
import functools
import hashlib
import pathlib
from collections import Counter
from collections.abc import Awaitable, Callable, Iterable, Mapping, Sequence
from typing import TYPE_CHECKING, Any
from urllib.parse import quote

import jinja2
from aiohttp import web

from ..access.identity import Identity, Right, identity_of, require
from ..events.waits import unclaimable_labels
from ..gateway import Gateway
from ..service.http import Away
from ..service.mirror import Run
from ..service.models import Holder, Runner, Whole
from ..times import now
from . import moments, states, texts
from .files import WorkflowFiles
from .lately import Lately
from .lines import LogFiles
from .waiting import Facts, holders_of

if TYPE_CHECKING:
    from ..hub import Hub

HERE = pathlib.Path(__file__).parent
AT_ONCE = 8  # requests to the service for one page
THEMES = ('system', 'light', 'dark')
STATIC = {'hub.css': 'text/css', 'hub.js': 'text/javascript', 'mark.svg': 'image/svg+xml'}
HEADERS = {
    'Content-Security-Policy': "default-src 'none'; style-src 'self'; script-src 'self'; img-src 'self'; "
                               "connect-src 'self'; form-action 'self'; base-uri 'none'; frame-ancestors 'none'",
    'X-Content-Type-Options': 'nosniff', 'Referrer-Policy': 'same-origin', 'X-Frame-Options': 'DENY',
    'Cache-Control': 'no-store'}
NOTES = {
    'cancel': 'A cancellation of the run was requested.', 'force-cancel': 'The run was cancelled.',
    'rerun': 'A re-run of all jobs has begun.', 'rerun-failed': 'A re-run of the failed jobs has begun.',
    'dispatch': 'A run of the workflow was requested. It is listed here once it exists.',
    'remove': 'The runner was removed.',
    'approve': 'The environment was approved for this run.'}
SENTENCES = {
    404: ('Not found', 'There is nothing here, or you may not see it.'),
    403: ('Not allowed', 'Your token may not do this.'),
    503: ('The service is away', 'The hub does not reach the service at the moment. Try again soon.')}
Handler = Callable[['Site', web.Request], Awaitable[web.StreamResponse]]


class Site:
    """The pages of a hub."""

    def __init__(self, hub: Hub) -> None:
        self.hub = hub
        self.statics = {name: (HERE / 'static' / name).read_bytes() for name in STATIC}
        self.digests = {name: hashlib.sha256(data).hexdigest()[:12] for name, data in self.statics.items()}
        self.streams: Counter[int] = Counter()  # open streams of events, by the token of who looks
        self.logs = LogFiles(hub.logs)
        self.files = WorkflowFiles(hub)
        self.seen_paths: dict[str, tuple[int, dict[str, None]]] = {}
        self.holders_lately = Lately(hub.view.groups)
        self.runners_lately = Lately(hub.mirror.runners)
        self.env = self._environment()

    def _environment(self) -> jinja2.Environment:
        env = jinja2.Environment(loader=jinja2.FileSystemLoader(HERE / 'templates'), autoescape=True,
                                 undefined=jinja2.StrictUndefined,
                                 trim_blocks=True, lstrip_blocks=True, auto_reload=False)
        env.filters.update(
            ago=moments.ago, lasted=moments.lasted, exact=moments.exact, machine=moments.machine, seen=texts.seen,
            plain=texts.plain,
            isolated=texts.isolated, short=texts.shortened, sign=states.sign, bytes=moments.size)
        env.globals.update(static=self.static_link)
        env.globals['parts'] = env.get_template('parts.html').module
        return env

    def static_link(self, name: str) -> str:
        """The address of a static file, which changes with its content."""
        return f'/-/static/{name}?{self.digests[name]}'

    def page(self, request: web.Request, template: str, status: int = 200, **context: Any) -> web.Response:
        """A page for who asks."""
        shared = {'active': '', 'changes': '', 'every': 0, 'is_log': False}
        text = self.env.get_template(template).render(page=self.frame(request), **{**shared, **context})
        return web.Response(text=text, status=status, content_type='text/html', headers=HEADERS)

    def frame(self, request: web.Request) -> dict[str, Any]:
        """What stands around every page."""
        identity, theme = identity_of(request), request.cookies.get('theme', '')
        theme = theme if theme in THEMES[1:] else ''
        notes = [('', NOTES[one]) for one in request.query.getall('did', [])[:1] if one in NOTES]
        return {
            'identity': identity, 'token': self.token(request), 'theme': theme,
            'other_theme': THEMES[(THEMES.index(theme or 'system') + 1) % 3],
            'here': request.raw_path, 'now': now(), 'notes': notes,
            'can_sign_out': identity is not None and self.has_session(request),
            'views': (('repositories', 'Repositories', '/'), ('queue', 'Queue', '/queue'),
                      ('runners', 'Runners', '/runners'),
                      ('groups', 'Groups', '/groups'), ('refused', 'Refused', '/refused'))}

    def token(self, request: web.Request) -> str:
        """The token that the forms of this page carry."""
        return self.hub.access.form_token(request)

    def has_session(self, request: web.Request) -> bool:
        """Whether who asks has signed in by a cookie."""
        return self.hub.access.has_session(request)

    async def check_form(self, request: web.Request) -> Mapping[str, Any]:
        """What a form sent, once its token was found to be of this session."""
        return await self.hub.access.check_form(request)

    def fault(self, request: web.Request, status: int, words: str = '', title: str = '') -> web.Response:
        """A page that says why there is no other."""
        known = SENTENCES.get(status, ('That was not done', ''))
        return self.page(request, 'fault.html', status, title=title or known[0], words=words or known[1])

    def may(self, request: web.Request, right: Right, repository: str) -> bool:
        """Whether who asks has a right in a repository."""
        identity = identity_of(request)
        return identity is not None and identity.may(right, repository)

    def repository(self, request: web.Request, right: Right = Right.READ) -> str:
        """The repository of an address, as its runs write it, if who asks may do this there."""
        name = f'{request.match_info["owner"]}/{request.match_info["repo"]}'
        require(request, right, name)
        runs = self.hub.mirror.of(name)
        return runs[-1].row.repository if runs else name

    # what the other parts know

    def state_of(self, run: Run) -> str:
        """The state of a run as lists show it."""
        return states.of_run(run)

    def knows(self, repository: str) -> bool:
        """Whether a repository without runs is one of this hub."""
        return any(one.name.lower() == repository.lower() for one in self.hub.config.repositories)

    def paths(self, repository: str) -> list[str]:
        """The workflows that have runs. Only runs that are new since the last time are looked at."""
        runs, name = self.hub.mirror.of(repository), repository.lower()
        seen, paths = self.seen_paths.get(name, (0, {}))
        if not runs:
            return []
        if runs.ids[-1] < seen:  # the service was restored
            seen, paths = 0, {}
        for at in range(bisect.bisect_right(runs.ids, seen), len(runs)):
            paths.setdefault(runs[at].row.path)
        self.seen_paths[name] = runs.ids[-1], paths
        return list(paths)

    async def supports(self, command: str) -> bool:
        """Whether the service has a command that not every version has."""
        try:
            return await self.hub.hooks.supports(command)
        except Away:
            return False

    async def holders(self, repository: str | None = None) -> list[Holder]:
        """Who holds concurrency groups, or waits for them."""
        name = (repository or '').lower()
        return [one for one in await self.holders_lately.get() if not name or one.repository.lower() == name]

    async def runners(self) -> list[Runner]:
        """The runners that have ever claimed."""
        return await self.runners_lately.get()

    async def wholes(self, runs: Iterable[int]) -> dict[int, Whole]:
        """These runs with their jobs, as far as they are known."""
        gate = asyncio.Semaphore(AT_ONCE)

        async def one(run: int) -> tuple[int, Whole | None]:
            async with gate:
                return run, await self.hub.mirror.whole(run)
        found = await asyncio.gather(*(one(run) for run in dict.fromkeys(runs)))
        return {run: whole for run, whole in found if whole is not None}

    async def facts(self, waits: Iterable[str], run: int = 0, attempt: int = 0) -> Facts:
        """What reasons of these kinds are made of, such as `group` and `runner`."""
        kinds = set(waits)
        holders = holders_of(await self.holders()) if 'group' in kinds else {}
        runners = await self.runners() if 'runner' in kinds else []
        return Facts(holders, self.hub.mirror.runs, runners, self.missing, self.is_approved(run, attempt))

    def note_cancel(self, run: Run, identity: Identity) -> None:
        """Notes who cancelled a run."""
        self.hub.notes.set(run.id, run.row.attempt, 'cancelled', 'by', identity.name)

    def cancelled(self, run: Run) -> dict[str, str]:
        """What is noted of why a run was cancelled: `by` somebody, or since a leg waited for too long."""
        found = self.hub.notes.list(run.id, run.row.attempt, 'cancelled')
        return {name: value for name, value in found.items() if isinstance(value, str)}

    @property
    def gateway(self) -> Gateway | None:
        """Where runners are reached."""
        found = self.hub.gateway
        return found if isinstance(found, Gateway) else None

    def is_approved(self, run: int, attempt: int) -> bool:
        """Whether the environments of an attempt were approved."""
        return self.gateway is not None and self.gateway.environments.is_approved(run, attempt)

    def annotations(self, run: int, attempt: int, job: str, leg: int) -> list[dict[str, Any]]:
        """What the steps of a leg said of files, or of the run, with GitHub's names."""
        return self.gateway.findings.annotations(run, attempt, job, leg) if self.gateway else []

    def summary(self, run: int, attempt: int, job: str, leg: int) -> str:
        """The summary that the steps of a leg wrote."""
        return self.gateway.findings.summary(run, attempt, job, leg) if self.gateway else ''

    def missing(self, labels: Sequence[str], repository: str) -> tuple[str, ...]:
        """The labels that no token of a runner has."""
        return unclaimable_labels(labels, repository, self.hub.access.tokens.all())

    def get(self, path: str, handler: Handler) -> web.RouteDef:
        """A route of a page."""
        return web.get(path, functools.partial(_guarded, self, handler))

    def stream(self, path: str, handler: Handler) -> web.RouteDef:
        """A route of events, which HEAD does not have."""
        return web.get(path, functools.partial(_guarded, self, handler), allow_head=False)

    def post(self, path: str, handler: Handler) -> web.RouteDef:
        """A route of a button."""
        return web.post(path, functools.partial(_guarded, self, handler))


async def _guarded(site: Site, handler: Handler, request: web.Request) -> web.StreamResponse:
    try:
        return await handler(site, request)
    except web.HTTPUnauthorized:
        if request.method in ('GET', 'HEAD') and 'text/html' in request.headers.get('Accept', 'text/html'):
            raise web.HTTPSeeOther(f'/sign-in?back={quote(request.raw_path, safe="")}') from None
        return site.fault(request, 401, 'Sign in first.', 'Not signed in')
    except web.HTTPNotFound as fault:
        return site.fault(request, 404, '' if fault.text in (None, '404: Not Found', 'Not Found') else str(fault.text))
    except web.HTTPForbidden:
        return site.fault(request, 403)
    except Away:
        return site.fault(request, 503)


def signed_in(request: web.Request) -> Identity:
    """Who looks at what is of no one repository."""
    return require(request, Right.READ)


async def static(site: Site, request: web.Request) -> web.StreamResponse:
    """A static file. Its address changes with its content, so it may be kept."""
    name = request.match_info['name']
    if name not in STATIC:
        raise web.HTTPNotFound
    kept = 'public, max-age=31536000, immutable' if request.query_string == site.digests[name] else 'no-cache'
    return web.Response(body=site.statics[name], content_type=STATIC[name], charset='utf-8',
                        headers={**HEADERS, 'Cache-Control': kept})


async def theme(site: Site, request: web.Request) -> web.StreamResponse:
    """Changes the colours of the pages in this browser."""
    sent = await request.post()
    answer = web.HTTPSeeOther(local(sent.get('back')))
    chosen = sent.get('theme')
    if chosen in THEMES[1:]:
        answer.set_cookie('theme', str(chosen), max_age=31_536_000, path='/', samesite='Lax', httponly=True,
                          secure=site.hub.config.is_secure)
    else:
        answer.del_cookie('theme', path='/')
    raise answer


def local(address: object) -> str:
    """An address of this hub to go back to; the first page for any other."""
    text = address if isinstance(address, str) else ''
    is_own = text.startswith('/') and not text.startswith('//') and len(text) <= 2000
    return text if is_own and all(ord(one) > 32 and one != '\\' for one in text) else '/'


def routes(site: Site) -> list[web.RouteDef]:
    """Static files and colours."""
    return [site.get('/-/static/{name}', static), site.post('/-/theme', theme)]


def number_of(values: Mapping[str, str], name: str, most: int = 999_999_999) -> int | None:
    """A number in an address; None if there is none."""
    text = values.get(name, '')
    return int(text) if text.isascii() and text.isdecimal() and len(text) <= 16 and int(text) <= most else None
