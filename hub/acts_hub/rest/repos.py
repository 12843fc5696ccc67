"""The root, the user, limits, repositories, and what is of GitHub's and not here."""
from __future__ import annotations

from typing import Any

from aiohttp import web

from .. import __version__
from ..access.identity import Right, require
from ..ledger.refused import Refused
from ..times import iso
from .api import PREFIX, Api
from .errors import Fault
from .numbers import decimal
from .pages import Page

SPOKEN = '3.8.0'
NOTHING = 'The hub does not have this of GitHub\'s API.'
ABSENT = {
    'secrets': 'Secrets are with the runners, in files of their hosts; their names are not known here.',
    'variables': 'Variables are with whoever sends the events; their names are not known here.',
    'permissions': 'What a repository may run is decided by tokens and configuration of the hub.',
    'oidc': 'The hub gives no identity tokens.',
    'deployments': 'Deployments are not recorded here; a run\'s jobs say what was deployed.',
    'environments': 'Environments are not recorded here: a job that names one carries its label.',
    'pulls': 'Pull requests are not kept here, only the runs that they start.'}


class RepositoryRequests:
    """Requests for what is around runs."""

    def __init__(self, api: Api) -> None:
        self.api, self.hub = api, api.hub

    def routes(self) -> list[web.RouteDef]:
        """Their routes; that of what is not here comes last of all."""
        get, top = self.api.get, self.api.top
        kinds = '|'.join(('secrets', 'variables', 'permissions', 'oidc'))
        return [top('', self.root), top('/', self.root), top('/user', self.user), top('/user/repos', self.of_user),
                top('/meta', self.meta),
                top('/rate_limit', self.rate_limit), get('', self.one), get('/actions/acts/refused', self.refused),
                get('/actions/{kind:%s}{rest:(/.*)?}' % kinds, self.absent),
                get('/{kind:deployments|environments|pulls}{rest:(/.*)?}', self.absent)]

    def last(self) -> list[web.RouteDef]:
        """What answers every other path below the prefix."""
        handler = self.api.guarded(self.nothing)
        return [web.route('*', PREFIX + '/{path:.*}', handler)]

    async def root(self, request: web.Request) -> web.Response:
        """Where things are."""
        require(request, Right.READ)
        api = self.api.shapes.api
        return self.api.answer(request, {
            'current_user_url': f'{api}/user', 'rate_limit_url': f'{api}/rate_limit',
            'repository_url': f'{api}/repos/{{owner}}/{{repo}}',
            'current_user_repositories_url': f'{api}/user/repos{{?type,page,per_page,sort}}'})

    async def user(self, request: web.Request) -> web.Response:
        """Whose token it is."""
        return self.api.answer(request, self.api.shapes.user(require(request, Right.READ).name))

    async def meta(self, request: web.Request) -> web.Response:
        """Which version of GitHub's API is spoken, and the version of the hub."""
        require(request, Right.READ)
        return self.api.answer(request, {'verifiable_password_authentication': False, 'installed_version': SPOKEN,
                                         'acts_hub_version': __version__})

    async def rate_limit(self, request: web.Request) -> web.Response:
        """How many requests one may make."""
        rate = self.api.rate(require(request, Right.READ))
        if not rate:
            raise Fault(404, 'Rate limiting is not enabled.')
        return self.api.answer(request, {'resources': {'core': rate, 'graphql': rate}, 'rate': rate})

    async def of_user(self, request: web.Request) -> web.Response:
        """The repositories that one may read."""
        identity = require(request, Right.READ)
        names = self.api.repositories(identity)
        page = Page.of(request.query)
        return self.api.some(request, page, '', [self.shape(request, name) for name in page.cut(names)], len(names))

    async def one(self, request: web.Request) -> web.Response:
        """A repository."""
        return self.api.answer(request, self.shape(request, self.api.repository(request)))

    def shape(self, request: web.Request, name: str) -> dict[str, Any]:
        """A repository as a whole."""
        identity = require(request, Right.READ, name)
        return {**self.api.shapes.repository(name), 'default_branch': self.hub.config.default_branch(name),
                'visibility': 'private',
                'archived': False, 'disabled': False, 'has_issues': False, 'has_projects': False, 'has_wiki': False,
                'has_pages': False,
                'has_downloads': False,
                'permissions': {'admin': identity.may(Right.ADMIN, name), 'push': identity.may(Right.WRITE, name),
                                                        'pull': True}}

    # events that made no run

    async def refused(self, request: web.Request) -> web.Response:
        """The events of a repository that made no run, newest first; `before` is the id to go on from."""
        repository = self.api.repository(request)
        page, before = Page.of(request.query), decimal(request.query.get('before', '')) or None
        found = self.hub.refused.list(repository, page.size * page.number, before)[page.size * (page.number - 1):]
        return self.api.answer(request, {'refused': [self.refused_shape(one) for one in found]})

    def refused_shape(self, one: Refused) -> dict[str, Any]:
        """An event that made no run."""
        return {'id': one.id, 'created_at': iso(one.at), 'event': one.event, 'delivery': one.delivery, 'path': one.path,
                'ref': one.ref,
                'head_sha': one.sha, 'code': one.code, 'line': one.line, 'message': one.words, 'advice': one.advice}

    # what is not here

    async def absent(self, request: web.Request) -> web.Response:
        """Says why something of GitHub's is not here."""
        self.api.repository(request)
        raise Fault(404, ABSENT[request.match_info['kind']])

    async def nothing(self, request: web.Request) -> web.Response:
        """Says that there is no such request."""
        require(request, Right.READ)
        raise Fault(404, NOTHING)
