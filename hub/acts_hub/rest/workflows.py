"""Workflows: lists, one, its file, and starting it by hand."""
from __future__ import annotations

import base64
import hashlib

from aiohttp import web

from ..events.dispatch import Dispatched
from .api import Api
from .errors import Fault, invalid
from .known import Workflow

NOT_KNOWN = 'Only files of workflows are shown here, and there is none of this name at this ref.'
NOT_SET = 'A workflow is there as long as its repository has its file: take the file away, or its events.'
MAX_INPUTS = 25


class WorkflowRequests:
    """Requests for workflows."""

    def __init__(self, api: Api) -> None:
        self.api, self.hub = api, api.hub

    def routes(self) -> list[web.RouteDef]:
        """Their routes."""
        get, on = self.api.get, self.api.on
        return [get('/actions/workflows', self.of_repository), get('/actions/workflows/{workflow}', self.one),
                get('/actions/workflows/{workflow}/timing', self.timing), get('/contents/{path:.+}', self.contents),
                on('POST', '/actions/workflows/{workflow}/dispatches', self.dispatch),
                on('POST', '/dispatches', self.repository_dispatch),
                on('PUT', '/actions/workflows/{workflow}/{state:enable|disable}', self.enable)]

    async def of_repository(self, request: web.Request) -> web.Response:
        """The workflows of a repository."""
        repository = self.api.repository(request)
        return self.api.listed(request, 'workflows',
                               [self.shape(repository, one) for one in self.api.workflows.of(repository)])

    def shape(self, repository: str, one: Workflow) -> dict[str, object]:
        """A workflow."""
        return self.api.shapes.workflow(repository, one.path, one.name, one.created_at, one.updated_at)

    async def one(self, request: web.Request) -> web.Response:
        """A workflow."""
        repository = self.api.repository(request)
        return self.api.answer(request, self.shape(repository, self.api.workflow(request, repository)))

    async def timing(self, request: web.Request) -> web.Response:
        """What is billed of a workflow: nothing."""
        self.api.workflow(request, self.api.repository(request))
        return self.api.answer(request, {'billable': {}})

    async def contents(self, request: web.Request) -> web.Response:
        """The file of a workflow."""
        repository = self.api.repository(request)
        path = request.match_info['path']
        text = await self.api.workflows.text(repository, path, request.query.get('ref', ''))
        if text is None:
            raise Fault(404, NOT_KNOWN)
        if 'raw' in request.headers.get('Accept', ''):
            return web.Response(body=text, content_type='text/plain', charset='utf-8')
        sha = hashlib.sha1(b'blob %d\0' % len(text) + text).hexdigest()
        return self.api.answer(request, {
            'type': 'file', 'encoding': 'base64', 'size': len(text), 'name': path.rpartition('/')[2], 'path': path,
            'content': base64.encodebytes(text).decode(), 'sha': sha,
            'url': self.api.shapes.at(repository, f'contents/{path}'),
            'git_url': None, 'html_url': None, 'download_url': None})

    async def enable(self, request: web.Request) -> web.Response:
        """Says that workflows are not switched on and off here."""
        repository, _ = self.api.writable(request)
        self.api.workflow(request, repository)
        raise Fault(422, NOT_SET)

    async def dispatch(self, request: web.Request) -> web.Response:
        """Starts a workflow by hand."""
        repository, identity = self.api.writable(request)
        workflow = self.api.workflow(request, repository)
        given = await self.api.body(request)
        ref, inputs = given.get('ref'), given.get('inputs') or {}
        if not isinstance(ref, str) or not ref:
            raise invalid('WorkflowDispatch', 'ref', "For 'properties/ref', nil is not a string.")
        if not isinstance(inputs, dict) or len(inputs) > MAX_INPUTS:
            raise invalid('WorkflowDispatch', 'inputs', f'inputs is an object of at most {MAX_INPUTS} members.')
        return done(await self.hub.events.dispatch(repository, workflow.path, ref, inputs, identity.name))

    async def repository_dispatch(self, request: web.Request) -> web.Response:
        """Starts the workflows that ask for an event of the sender's own type."""
        repository, identity = self.api.writable(request)
        given = await self.api.body(request)
        kind, payload = given.get('event_type'), given.get('client_payload') or {}
        if not isinstance(kind, str) or not isinstance(payload, dict):
            raise invalid('RepositoryDispatch', 'event_type', 'event_type is a text, and client_payload an object.')
        return done(await self.hub.events.repository_dispatch(repository, kind, payload, identity.name))


def done(reply: Dispatched) -> web.Response:
    """204 for what was started, else why it was not."""
    if not reply.ok:
        raise Fault(reply.status, reply.words)
    return web.Response(status=204)
