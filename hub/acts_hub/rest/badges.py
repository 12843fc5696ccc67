"""The badge of a workflow: a small picture of its latest run."""
from __future__ import annotations

from xml.sax.saxutils import escape, quoteattr

from aiohttp import web

from ..service.mirror import Run
from .api import Api

MAX_TEXT = 60
WORDS = {'success': ('passing', '#1a7f37'), 'failure': ('failing', '#cf222e'), 'cancelled': ('cancelled', '#6e7781'),
         'skipped': ('skipped', '#6e7781')}
NONE = 'no status', '#6e7781'
WIDTH = 7  # of a character


class BadgeRequests:
    """The request for a badge, at the address that a workflow's object names."""

    def __init__(self, api: Api) -> None:
        self.api, self.hub = api, api.hub

    def routes(self) -> list[web.RouteDef]:
        """Its route."""
        return [web.get('/{owner}/{repo}/actions/workflows/{workflow}/badge.svg', self.api.guarded(self.badge))]

    async def badge(self, request: web.Request) -> web.Response:
        """The badge: of the default branch, or of `branch`, and of `event` if it is given."""
        repository = self.api.repository(request)
        workflow = self.api.workflow(request, repository)
        runs = self.hub.mirror.select(repository, path=workflow.path, status='completed',
                                      event=request.query.get('event') or None,
                                      branch=request.query.get('branch') or self.hub.config.default_branch(repository))
        words, colour = words_of(runs[-1] if runs else None)
        return web.Response(text=picture((workflow.name or workflow.path)[:MAX_TEXT], words, colour),
                            content_type='image/svg+xml')


def words_of(run: Run | None) -> tuple[str, str]:
    """What a badge says of a run, and its colour."""
    return WORDS.get(run.conclusion or '', NONE) if run else NONE


def picture(name: str, words: str, colour: str) -> str:
    """An SVG with a name and words; neither can end its text."""
    name = ''.join(char for char in name if char.isprintable())
    left, right = WIDTH * len(name) + 20, WIDTH * len(words) + 20
    label, middle = quoteattr(f'{name}: {words}'), left + right / 2
    return (f'<svg xmlns="http://www.w3.org/2000/svg" width="{left + right}" height="20" role="img" aria-label={label}>'
            f'<title>{escape(name)}: {words}</title><rect width="{left}" height="20" fill="#24292f"/>'
            f'<rect x="{left}" width="{right}" height="20" fill="{colour}"/>'
            f'<g fill="#fff" text-anchor="middle" font-family="Verdana,sans-serif" font-size="11">'
            f'<text x="{left / 2:g}" y="14">{escape(name)}</text>'
            f'<text x="{middle:g}" y="14">{words}</text></g></svg>\n')
