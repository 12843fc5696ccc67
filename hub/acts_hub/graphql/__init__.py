"""The GraphQL queries that gh asks."""
from __future__ import annotations

from typing import TYPE_CHECKING

from aiohttp import web

if TYPE_CHECKING:
    from ..hub import Hub


def routes(hub: Hub) -> list[web.RouteDef]:
    """The routes of this part."""
    from ..rest.api import Api
    from .requests import GraphqlRequests
    requests = GraphqlRequests(Api(hub))
    return [web.post('/api/graphql', requests.api.guarded(requests.ask))]
