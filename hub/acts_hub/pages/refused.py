"""Events that made no run: where, why, and what to write instead."""
from __future__ import annotations

import re
from dataclasses import dataclass

from aiohttp import web

from ..access.identity import Right
from ..ledger.refused import Refused
from .names import repository_link
from .site import Site, number_of, signed_in

PAGE, MOST_LOOKED = 50, 2_000


@dataclass(frozen=True)
class RefusedRow:
    """A refused event in a list."""

    at: int
    repository: str
    event: str
    delivery: str
    path: str
    branch: str
    sha: str
    code: int | None
    line: int | None
    words: str
    advice: str


def _row(one: Refused) -> RefusedRow:
    branch = re.sub('^refs/(heads|tags|pull)/', '', one.ref or '')
    return RefusedRow(one.at, one.repository, one.event, one.delivery, one.path or one.repository, branch,
                      one.sha or '', one.code, one.line,
                      one.words, one.advice)


async def refused_of_repository(site: Site, request: web.Request) -> web.StreamResponse:
    """Those of a repository."""
    repository = site.repository(request)
    found = site.hub.refused.list(repository, PAGE + 1, number_of(request.query, 'before', 2 ** 53))
    here = f'{repository_link(repository)}/refused'
    return _page(site, request, found, here, [(repository, repository_link(repository)), ('Refused', '')], repository)


async def refused(site: Site, request: web.Request) -> web.StreamResponse:
    """Those of all repositories that one may read."""
    identity, before = signed_in(request), number_of(request.query, 'before', 2 ** 53)
    found: list[Refused] = []
    looked = 0
    while len(found) <= PAGE and looked < MOST_LOOKED:
        page = site.hub.refused.list(None, PAGE * 4, before)
        looked += len(page)
        found += [one for one in page if identity.may(Right.READ, one.repository)]
        if len(page) < PAGE * 4:
            break
        before = page[-1].id
    return _page(site, request, found, '/refused', [('Refused', '')], '')


@dataclass(frozen=True)
class Waiting:
    """Events of a repository that wait, and why."""

    repository: str
    count: int
    why: str


def waiting_of(site: Site, request: web.Request,
               repository: str) -> tuple[str, list[Waiting], list[tuple[str, str, int]]]:
    """Why all events wait; those that wait where one may read; and those that start nothing there."""
    identity, state, wanted = signed_in(request), site.hub.events.state(), repository.lower()

    def shown(name: str) -> bool:
        return name == wanted if wanted else identity.may(Right.READ, name or None)
    waiting = [Waiting(name, count, why) for name, (count, why) in sorted(state.waiting.items()) if shown(name)]
    untaken = [(name, event, count) for (name, event), count in sorted(state.untaken.items()) if shown(name)]
    return state.held or '', waiting, untaken


def _page(site: Site, request: web.Request, found: list[Refused], here: str, crumbs: list[tuple[str, str]],
          repository: str) -> web.Response:
    held, waiting, untaken = waiting_of(site, request, repository)
    older = f'{here}?before={found[PAGE - 1].id}' if len(found) > PAGE else ''
    return site.page(request, 'refused.html', title=f'Refused events{" · " + repository if repository else ""}',
                     active='refused', crumbs=crumbs,
                     rows=[_row(one) for one in found[:PAGE]], older=older, every=10, held=held, waiting=waiting,
                     untaken=untaken)


def routes(site: Site) -> list[web.RouteDef]:
    """Refused events."""
    return [site.get('/refused', refused), site.get('/{owner}/{repo}/actions/refused', refused_of_repository)]
