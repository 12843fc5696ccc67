"""GitHub's REST API for Actions."""
from __future__ import annotations

from typing import TYPE_CHECKING

from aiohttp import web

if TYPE_CHECKING:
    from ..hub import Hub


def routes(hub: Hub) -> list[web.RouteDef]:
    """The routes of this part; what there is not comes last."""
    from .api import Api
    from .artifacts import ArtifactRequests
    from .badges import BadgeRequests
    from .checks import CheckRequests
    from .jobs import JobRequests
    from .repos import RepositoryRequests
    from .runners import RunnerRequests
    from .runs import RunRequests
    from .workflows import WorkflowRequests
    api = Api(hub)
    repositories = RepositoryRequests(api)
    return [*RunRequests(api).routes(), *JobRequests(api).routes(), *WorkflowRequests(api).routes(),
            *CheckRequests(api).routes(),
            *ArtifactRequests(api).routes(), *RunnerRequests(api).routes(), *BadgeRequests(api).routes(),
            *repositories.routes(), *repositories.last()]
