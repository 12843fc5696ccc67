"""The one request of GraphQL."""
from __future__ import annotations

from typing import Any

from aiohttp import web

from ..access.identity import Right, require
from ..rest.api import Api
from ..rest.errors import Fault
from .documents import SyntaxFault, read
from .execution import Execution, Refused
from .objects import Objects

MAX_QUERY = 65_536
NO_QUERY = 'A query attribute must be specified and must be a string.'
NO_CHANGES = 'The hub changes nothing by GraphQL: use the REST API.'


class GraphqlRequests:
    """The one request of GraphQL."""

    def __init__(self, api: Api) -> None:
        self.api = api

    async def ask(self, request: web.Request) -> web.Response:
        """Answers a query; a fault of it is told in `errors`, with status 200, as GitHub does."""
        identity = require(request, Right.READ)
        given = await self.api.body(request)
        query, variables, name = given.get('query'), given.get('variables') or {}, given.get('operationName')
        if not isinstance(query, str) or not query.strip():
            return self.failed({'message': NO_QUERY})
        if len(query) > MAX_QUERY:
            raise Fault(413, f'A query has at most {MAX_QUERY} characters.')
        if not isinstance(variables, dict) or not (name is None or isinstance(name, str)):
            return self.failed({'message': 'Variables are an object, and the name of an operation is a text.'})
        try:
            return self.api.answer(request,
                                   await self.carried_out(query, variables, name, Objects(self.api, request, identity)))
        except SyntaxFault as fault:
            return self.failed({'message': str(fault)})
        except Refused as fault:
            return self.failed(fault.error)

    async def carried_out(self, query: str, variables: dict[str, Any], name: str | None,
                          objects: Objects) -> dict[str, object]:
        """What a query gives."""
        document = read(query)
        operation = document.operation(name or None)
        if operation.kind != 'query':
            raise Refused(NO_CHANGES)
        return await Execution(document, variables).run(operation, objects.root())

    def failed(self, error: dict[str, object]) -> web.Response:
        """An error without data."""
        return web.json_response({'errors': [error]})
