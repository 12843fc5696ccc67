"""Concurrency groups: who holds each, and who waits behind whom."""
from __future__ import annotations

from collections.abc import Mapping
from dataclasses import dataclass, field

from aiohttp import web

from ..access.identity import Right
from ..service.models import Holder, Whole
from .filters import words_of
from .names import leg_link, leg_name, run_link, title_of, workflow_of
from .site import Site, signed_in

MOST_GROUPS = 200


@dataclass(frozen=True)
class Member:
    """A run or leg in a group."""

    title: str
    link: str
    about: str
    since: int


@dataclass
class GroupRow:
    """A group with who holds it and who waits."""

    repository: str
    group: str
    holders: list[Member] = field(default_factory=list)
    waiting: list[Member] = field(default_factory=list)


def _member(site: Site, holder: Holder, wholes: Mapping[int, Whole]) -> Member:
    run = site.hub.mirror.runs[holder.run]
    about = f'{workflow_of(run)} #{run.row.number}'
    if holder.job is None:
        return Member(title_of(run), run_link(run), about, run.created_at)
    whole = wholes.get(holder.run)
    for index, job in enumerate(whole.jobs if whole else ()):
        for leg in job.legs:
            if (job.id, leg.index) == (holder.job, holder.leg):
                return Member(title_of(run), leg_link(run, run.row.attempt, index, leg.index),
                              f'{leg_name(run, job, leg)}, {about}', run.started_at)
    return Member(title_of(run), run_link(run), f'{holder.job}, {about}', run.started_at)


async def groups(site: Site, request: web.Request) -> web.StreamResponse:
    """The page of groups."""
    identity, q, runs = signed_in(request), words_of(request.query), site.hub.mirror.runs
    part = q.casefold()
    found: dict[tuple[str, str], list[Holder]] = {}
    for holder in await site.holders():
        if holder.run not in runs or not identity.may(Right.READ, holder.repository):
            continue
        if part not in holder.group.casefold() and part not in holder.repository.casefold():
            continue
        found.setdefault((holder.repository.lower(), holder.group), []).append(holder)
    rows, shown = [], list(found.values())[:MOST_GROUPS]
    wholes = await site.wholes(one.run for members in shown for one in members if one.job is not None)
    for members in shown:
        row = GroupRow(members[0].repository, members[0].group)
        for one in members:
            (row.holders if one.state == 'in_progress' else row.waiting).append(_member(site, one, wholes))
        rows.append(row)
    rows.sort(key=lambda row: (not row.waiting, row.repository.casefold(), row.group))
    return site.page(request, 'groups.html', title='Concurrency groups', active='groups', q=q, rows=rows,
                     count=len(found),
                     left=max(0, len(found) - MOST_GROUPS), changes='/-/changes')


def routes(site: Site) -> list[web.RouteDef]:
    """Groups."""
    return [site.get('/groups', groups)]
