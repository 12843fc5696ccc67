"""/metrics: the hub's own metrics and those of the service, for a token of an administrator."""
from __future__ import annotations

import json
import os
import pathlib
import shutil
import time
from collections import Counter
from collections.abc import Iterator
from typing import TYPE_CHECKING

from aiohttp import web

from . import __version__
from .access.identity import Right, require
from .service.http import Away

if TYPE_CHECKING:
    from .hub import Hub

BEGAN = time.monotonic()
ANSWERS = 'answers'
Metric = tuple[str, str, str, list[tuple[str, float]]]
"""Name, kind, help, and values by their labels."""


def add(app: web.Application) -> None:
    """Adds the page, and counts the answers of an application."""
    app[ANSWERS] = Counter[int]()
    app.on_response_prepare.append(count)
    app.router.add_get('/metrics', show)


async def count(request: web.Request, response: web.StreamResponse) -> None:
    """Counts an answer by its status."""
    answers: Counter[int] = request.app[ANSWERS]
    answers[response.status] += 1


async def show(request: web.Request) -> web.Response:
    """All metrics, in Prometheus' text format."""
    require(request, Right.ADMIN)
    hub: Hub = request.app['hub']
    try:
        of_service = await hub.view.metrics()
    except Away:
        of_service = ''
    text = ''.join(map(text_of, metrics_of(hub, request.app[ANSWERS], bool(of_service)))) + of_service
    return web.Response(text=text, headers={'Content-Type': 'text/plain; version=0.0.4; charset=utf-8', 'Cache-Control': 'no-store'})


def text_of(metric: Metric) -> str:
    """A metric with its lines of help and type."""
    name, kind, words, values = metric
    return f'# HELP {name} {words}\n# TYPE {name} {kind}\n' + ''.join(f'{name}{labels} {value:.15g}\n' for labels, value in values)


def metrics_of(hub: Hub, answers: Counter[int], is_up: bool) -> Iterator[Metric]:
    """The hub's own."""
    version = json.dumps(__version__)
    yield 'acts_hub_build_info', 'gauge', 'The version of the hub.', [(f'{{version={version}}}', 1)]
    yield 'acts_hub_uptime_seconds', 'gauge', 'Whole seconds since the hub began.', [('', int(time.monotonic() - BEGAN))]
    yield 'acts_hub_service_up', 'gauge', 'Whether the service has answered its own metrics.', [('', is_up)]
    yield 'acts_hub_runs', 'gauge', 'Runs that the hub knows.', [('', len(hub.mirror.runs))]
    yield 'acts_hub_is_whole', 'gauge', 'Whether the hub knows all runs of the service.', [('', hub.mirror.is_whole)]
    by_status = [(f'{{status="{status}"}}', float(number)) for status, number in sorted(answers.items())]
    yield 'acts_hub_answers_total', 'counter', 'Answers to requests, by status.', by_status
    yield 'acts_hub_ledger_fault', 'gauge', 'Whether the ledger can not be read or written.', [('', hub.database.fault is not None)]
    yield 'acts_hub_ledger_dropped_total', 'counter', 'Writes of the ledger that were given up.', [('', hub.database.dropped)]
    yield from events_of(hub)
    if room := room_of(hub.folder):
        yield 'acts_hub_disk_free_bytes', 'gauge', 'What the file system of the folder has left.', [('', room)]
    yield 'process_resident_memory_bytes', 'gauge', 'Resident memory of the hub.', [('', resident())]
    yield 'process_open_fds', 'gauge', 'Open descriptors of the hub.', [('', len(os.listdir('/proc/self/fd')))]


def events_of(hub: Hub) -> Iterator[Metric]:
    """Of events: those that wait, those that were put aside, and those that start nothing here."""
    state = hub.events.state()
    yield 'acts_hub_events_held', 'gauge', 'Whether events wait since the file of the service is too full.', [('', state.held is not None)]
    yield 'acts_hub_events_waiting', 'gauge', 'Deliveries that wait.', [('', sum(count for count, _ in state.waiting.values()))]
    yield 'acts_hub_events_aside', 'gauge', 'Deliveries that were put aside.', [('', state.aside)]
    untaken = Counter[str]()
    for (_, event), count in state.untaken.items():
        untaken[event] += count
    values = [(f'{{event={json.dumps(event)}}}', float(number)) for event, number in sorted(untaken.items())]
    yield 'acts_hub_events_untaken_total', 'counter', 'Events that no rule takes, by name.', values


def room_of(folder: pathlib.Path) -> int | None:
    """Bytes that a file system has left."""
    try:
        return shutil.disk_usage(folder).free
    except OSError:
        return None


def resident() -> int:
    """Bytes of resident memory of this process."""
    return int(pathlib.Path('/proc/self/statm').read_text(encoding='ascii').split()[1]) * os.sysconf('SC_PAGE_SIZE')
