"""Pages for people."""
from __future__ import annotations

from typing import TYPE_CHECKING

from aiohttp import web

if TYPE_CHECKING:
    from ..hub import Hub


def routes(hub: Hub) -> list[web.RouteDef]:
    """The routes of this part."""
    from . import actions, groups, live, log, queue, refused, run, runners, runs, signin, site
    pages = site.Site(hub)
    hub.fault_page = pages.fault
    return [route for part in (site, signin, live, queue, runners, groups, refused, actions, log, run, runs)
            for route in part.routes(pages)]
