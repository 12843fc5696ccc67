"""The log of a leg: its page, windows of its lines, the raw text, and lines as they come."""
from __future__ import annotations

import asyncio
import json
import re
from dataclasses import dataclass
from typing import Any

from aiohttp import web
from markupsafe import Markup

from ..ledger.logs import LogError
from ..rest.numbers import JobNumber
from ..times import now
from . import folding, states, steps
from .ansi import html
from .filters import words_of
from .lines import LogFile
from .live import BEAT, Stream, stream_of
from .site import HEADERS, Site, number_of
from .waiting import Why
from .whole import LegRow, Shown, awaited_jobs, buttons_of, crumbs_of, leg_of, nodes_of, shown, side_of

PAUSE = 0.15  # seconds between two looks at a log that grows
GRACE = 1.5  # seconds in which the last lines come after the end of the leg
MOST_SENT, MOST_BEHIND = 1 << 18, 4 << 20  # bytes of a message, and after which lines are left out
MOST_HITS = 200
PIECE = 1 << 18


@dataclass(frozen=True)
class JobHead:
    """What the head of a log shows."""

    name: str
    base: str
    sign: states.Sign
    begun: int | None
    ended: int | None
    runner: str
    labels: tuple[str, ...]
    why: Why | None
    events: str


@dataclass(frozen=True)
class StepShown:
    """A step, and its lines if they are shown at once."""

    number: int
    name: str
    sign: states.Sign
    begun: int | None
    ended: int | None
    window: Markup | None


@dataclass(frozen=True)
class Hit:
    """A line that has what was searched for."""

    step: int
    step_name: str
    number: int
    html: Markup


@dataclass(frozen=True)
class Position:
    """How far a reader has come: an offset, and the group of lines that is open there."""

    offset: int = 0
    step: int = 0
    group: int | None = None

    def __str__(self) -> str:
        return f'{self.offset}:{self.step}:{self.group or 0}'


def position_of(text: str) -> Position | None:
    """The position that a text names; None if it names none."""
    found = re.fullmatch(r'([0-9]{1,15}):([0-9]{1,9}):([0-9]{1,12})', text)
    return Position(int(found[1]), int(found[2]), int(found[3]) or None) if found else None


async def leg_shown(site: Site, request: web.Request) -> tuple[Shown, LegRow]:
    """The run and the leg of an address."""
    value = number_of(request.match_info, 'job', 2 ** 53)
    number = JobNumber.of(value) if value is not None else None
    if number is None or str(number.run) != request.match_info['run']:
        raise web.HTTPNotFound
    found = await shown(site, request, number.attempt)
    return found, leg_of(found, number)


def file_of(site: Site, found: Shown, row: LegRow) -> LogFile | None:
    """The log of a leg; None if it has none."""
    try:
        return site.logs.newest(found.run.row.run, found.attempt, row.job.id, row.index)
    except LogError:
        return None


def steps_in(site: Site, file: LogFile, is_over: bool) -> list[steps.Step]:
    """The steps of a log."""
    key = file.key
    return steps.steps_of(site.hub.logs.steps(key.run, key.attempt, key.job, key.leg, key.lease), file.size(), is_over)


def chosen_step(every: list[steps.Step], asked: int | None) -> steps.Step | None:
    """The step that is open at first: one that is asked for, the first that failed, one that goes on, or the last."""
    if asked is not None:
        return next((step for step in every if step.number == asked), None)
    failed = [step for step in every if step.state == 'failure']
    going_on = [step for step in every if step.is_open]
    return next(iter([*failed, *going_on, *every[-1:]]), None)


async def log_page(site: Site, request: web.Request) -> web.StreamResponse:
    """The page of a log."""
    found, row = await leg_shown(site, request)
    file, is_over = file_of(site, found, row), states.is_over(row.state)
    asked, line, q = number_of(request.query, 'step'), number_of(request.query, 'line'), words_of(request.query)
    read = Read((), Position(), (), False)
    if file is not None:
        read = await asyncio.to_thread(_read, site, file, is_over, asked, line, q)
    base = row.link
    events = '' if is_over else f'{base}/events?from={read.position}'
    job = JobHead(row.name, base, row.sign, row.begun, row.ended, row.runner, row.labels, row.why, events)
    head = found.head
    return site.page(
        request, 'log.html', title=f'{row.name} · {head.title}', active='repositories',
        crumbs=[*crumbs_of(found), (row.name, '')], run=head,
        can=await buttons_of(site, request, found), approvals=awaited_jobs(site, found),
        side=side_of(nodes_of(found, now())),
        job_link=base, job=job, steps=read.steps, q=q, hits=read.hits,
        hits_left=read.has_more_hits, no_log=_no_log(row), is_log=not is_over,
        changes='' if not is_over and file else f'/-/changes?run={head.id}')


@dataclass(frozen=True)
class Read:
    """What was read of a log for its page."""

    steps: tuple[StepShown, ...]
    position: Position
    hits: tuple[Hit, ...]
    has_more_hits: bool


def _read(site: Site, file: LogFile, is_over: bool, asked: int | None, line: int | None, q: str) -> Read:
    every = steps_in(site, file, is_over)
    first = chosen_step(every, asked)
    made, position = [], Position()
    for step in every:
        window = None
        if step is first or step.is_open:
            lines = steps.window_of(file, step, line if step is first else None)
            window = steps.window_html(lines, line, step.is_open)
            if step.is_open:
                position = Position(_end_of(file, step), step.number, steps.open_group(lines))
        made.append(StepShown(step.number, step.name, step.sign, step.begun, step.ended, window))
    if every and not any(step.is_open for step in every):
        position = Position(every[-1].end, every[-1].number)
    hits, has_more = _hits(site, file, every, q) if q else ((), False)
    return Read(tuple(made), position, hits, has_more)


def _end_of(file: LogFile, step: steps.Step) -> int:
    """Behind the last whole line of a step that goes on."""
    begin = max(step.offset, step.end - PIECE)
    data = file.read(begin, step.end - begin)
    return begin + data.rfind(b'\n') + 1 if b'\n' in data else begin


def _hits(site: Site, file: LogFile, every: list[steps.Step], q: str) -> tuple[tuple[Hit, ...], bool]:
    key, hits = file.key, []
    found = site.hub.logs.search(key.run, key.attempt, key.job, key.leg, key.lease, q, MOST_HITS + 1)
    before = {step.number: file.line_at(step.offset) for step in every}
    for one in found[:MOST_HITS]:
        step = next((step for step in reversed(every) if step.offset <= one.offset), None)
        if step is not None:
            line = folding.line_of(one.line - before[step.number], one.text)
            hits.append(Hit(step.number, step.name, line.number, html(line.text)))
    return tuple(hits), len(found) > MOST_HITS


@dataclass(frozen=True)
class NoLog:
    """Why there is no log."""

    title: str
    words: str


def _no_log(row: LegRow) -> NoLog:
    if row.why is not None:
        return NoLog('It has not begun', 'Its log is shown here as soon as a runner writes it.')
    if not states.is_over(row.state):
        return NoLog('Nothing was written yet', 'Its log is shown here as soon as its runner writes it.')
    if row.state == 'skipped':
        return NoLog('It was skipped', 'Its condition did not hold, or a job that it needs did not succeed.')
    return NoLog('There is no log', 'Its runner wrote none, or it is older than logs are kept.')


async def lines(site: Site, request: web.Request) -> web.StreamResponse:
    """A window of lines, as a part of the page."""
    found, row = await leg_shown(site, request)
    file, number = file_of(site, found, row), number_of(request.query, 'step')
    if file is None or number is None:
        raise web.HTTPNotFound
    line = number_of(request.query, 'line')
    text = await asyncio.to_thread(_window, site, file, states.is_over(row.state), number, line)
    if text is None:
        raise web.HTTPNotFound
    return web.Response(text=f'<!doctype html><body>{text}</body>', content_type='text/html', headers=HEADERS)


def _window(site: Site, file: LogFile, is_over: bool, number: int, line: int | None) -> str | None:
    step = next((one for one in steps_in(site, file, is_over) if one.number == number), None)
    return None if step is None else str(steps.window_html(steps.window_of(file, step, line), line, step.is_open))


async def raw(site: Site, request: web.Request) -> web.StreamResponse:
    """The whole log as it was written, piece by piece."""
    found, row = await leg_shown(site, request)
    file = file_of(site, found, row)
    if file is None:
        raise web.HTTPNotFound(text='This leg has no log.')
    name = f'{re.sub(r"[^A-Za-z0-9_.-]+", "_", row.name)[:80]}-{found.head.id}-{found.attempt}.txt'
    answer = web.StreamResponse(headers={**HEADERS, 'Content-Type': 'text/plain; charset=utf-8',
                                         'Content-Disposition': f'attachment; filename="{name}"'})
    await answer.prepare(request)
    offset = 0
    while piece := await asyncio.to_thread(file.read, offset, PIECE):
        await answer.write(piece)
        offset += len(piece)
    await answer.write_eof()
    return answer


class Follower:
    """Sends the lines of a log to one reader as they come."""

    def __init__(self, site: Site, found: Shown, row: LegRow, stream: Stream, position: Position) -> None:
        self.site, self.found, self.row, self.stream, self.position = site, found, row, stream, position
        self.marks: tuple[Any, ...] | None = None if position.offset else ()
        self.is_over = False

    async def look(self) -> bool:
        """Sends what has come since the last look; whether there was anything."""
        file = file_of(self.site, self.found, self.row)
        if file is None:
            return False
        every = steps_in(self.site, file, self.is_over)
        marks = tuple((step.number, step.state) for step in every)
        if self.marks is not None and marks != self.marks:
            await self.stream.send('steps', '{}', str(self.position))
        self.marks = marks
        if file.size() <= self.position.offset:
            return False
        return await self._send(*await asyncio.to_thread(self._next, file, every))

    async def _send(self, messages: list[dict[str, Any]], position: Position) -> bool:
        self.position = position
        for message in messages:
            await self.stream.send('lines', json.dumps(message), str(position))
        return bool(messages)

    def _next(self, file: LogFile, every: list[steps.Step]) -> tuple[list[dict[str, Any]], Position]:
        """The whole lines behind the position, for each step that has some, and the position behind them."""
        at, size = self.position, file.size()
        step = next((one for one in reversed(every) if one.offset <= at.offset), None)
        if step is None:
            return [], at
        if size - at.offset > MOST_BEHIND:
            return [{'step': every[-1].number, 'skipped': True}], Position(_end_of(file, every[-1]), every[-1].number)
        end = min(size, at.offset + MOST_SENT, step.end if step is not every[-1] else size)
        data = file.read(at.offset, end - at.offset)
        whole = data.rfind(b'\n') + 1
        if not whole and (len(data) >= MOST_SENT or end < size):
            whole = len(data)
        group = at.group if at.step == step.number else None
        first = file.line_at(at.offset) - file.line_at(step.offset) + 1
        html_text, group = _live_html(step.number, data[:whole], first, group)
        behind = Position(at.offset + whole, step.number, group)
        return ([{'step': step.number, 'html': html_text}] if whole else []), behind


def _live_html(step: int, data: bytes, first: int, group: int | None) -> tuple[str, int | None]:
    parts = []
    for line in folding.lines_of(data, first):
        if line.kind == 'group':
            group = line.number
            parts.append(steps.group_html(step, folding.Group(line, []), True))
        elif line.kind == 'endgroup':
            group = None
        else:
            parts.append(steps.line_html(step, line, group))
    return ''.join(parts), group


async def events(site: Site, request: web.Request) -> web.StreamResponse:
    """Lines as they come, till the leg has ended."""
    found, row = await leg_shown(site, request)
    named = request.headers.get('Last-Event-ID', ''), request.query.get('from', '')
    sent = position_of(named[0]) or position_of(named[1]) or Position()
    async with site.hub.mirror.watch() as watcher, stream_of(site, request) as stream:
        follower = Follower(site, found, row, stream, sent)
        follower.is_over = states.is_over(row.state)
        waiting = asyncio.ensure_future(watcher.next())
        quiet = 0.0
        try:
            while not stream.is_old and not (follower.is_over and quiet > GRACE):
                if await follower.look():
                    quiet = 0.0
                    continue
                done, _ = await asyncio.wait({waiting}, timeout=PAUSE)
                quiet += PAUSE
                if done:
                    changed, waiting = waiting.result(), asyncio.ensure_future(watcher.next())
                    if found.run.row.run in changed:
                        _, row = await leg_shown(site, request)
                        follower.is_over = states.is_over(row.state)
                        await stream.send('steps', '{}', str(follower.position))
                if quiet % BEAT < PAUSE:
                    await stream.beat()
            if follower.is_over:
                await stream.send('end', '{}', str(follower.position))
        except (ConnectionError, asyncio.TimeoutError, web.HTTPException):
            pass
        finally:
            waiting.cancel()
        return stream.response


def routes(site: Site) -> list[web.RouteDef]:
    """Logs of legs."""
    base = '/{owner}/{repo}/actions/runs/{run}/job/{job}'
    return [site.get(base, log_page), site.get(f'{base}/lines', lines), site.get(f'{base}/raw', raw),
            site.stream(f'{base}/events', events)]
