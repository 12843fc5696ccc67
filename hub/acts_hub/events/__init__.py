"""Webhooks, schedules and dispatches that start runs."""
from __future__ import annotations

from typing import TYPE_CHECKING

from aiohttp import web

from .intake import Events

if TYPE_CHECKING:
    from ..hub import Hub


def routes(hub: Hub) -> list[web.RouteDef]:
    """The routes of this part."""
    return [web.post('/webhooks/github', hub.events.receiver.post)]


def make(hub: Hub) -> Events:
    """This part."""
    return Events(hub)
