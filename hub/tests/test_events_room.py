"""A file of the service that fills up: over nine tenths new events wait, what goes on is still claimed and reported, and a larger file takes all of it."""
from __future__ import annotations

import asyncio
import json
import os
import pathlib
import subprocess
from types import SimpleNamespace
from typing import Any, cast

import pytest
from acts_hub.events import room as rooms
from acts_hub.events.intake import Events
from acts_hub.events.room import BESIDE, Room, full_of
from acts_hub.service.http import Away
from acts_hub.service.view import ViewPort
from harness import acts, request, until
from test_events import ONE, Place
from test_events_faults import spooled
from test_metrics import scraped

AREA = 65536
SIZE = 4000  # bytes that an event of ONE takes, at most


class Shown:
    """A view port whose metrics say how much room there is; None if it is away."""

    def __init__(self, room: int | None) -> None:
        self.room, self.looks = room, 0

    async def metrics(self) -> str:
        self.looks += 1
        if self.room is None:
            raise Away('away')
        return f'acts_area_bytes 10000\nacts_area_room_bytes {self.room}\n'


def room_of(shown: Shown) -> Room:
    return Room(cast(ViewPort, shown), 0.9)


@pytest.mark.quick
def test_what_was_admitted_since_the_last_look_counts() -> None:
    """Between two looks many events may come: none that the file has no room for."""
    shown = Shown(1500)
    room = room_of(shown)
    assert asyncio.run(room.held()) is None
    room.note(500 - BESIDE)
    assert asyncio.run(room.held()) is None
    room.note(1)
    held = asyncio.run(room.held())
    assert held is not None and held.startswith('the file of the service is 92% full: over 90% new events wait') and shown.looks == 1


@pytest.mark.quick
def test_a_look_counts_anew(monkeypatch: pytest.MonkeyPatch) -> None:
    """What was admitted before a look is in the metrics; a service that is away is not full."""
    monkeypatch.setattr(rooms, 'SECONDS', -1.0)
    shown = Shown(1500)
    room = room_of(shown)
    for left, is_held in ((1500, False), (999, True), (1000, False), (0, True), (None, False)):
        shown.room = left
        assert (asyncio.run(room.held()) is not None) == is_held, left
        room.note(5000)
        assert (room.reason is not None) == (left is not None), left


@pytest.mark.quick
def test_events_go_on_once_there_is_room(monkeypatch: pytest.MonkeyPatch) -> None:
    """Nobody has to send an event for the hub to see that: it looks while they are held, and not else."""
    monkeypatch.setattr(rooms, 'SECONDS', -1.0)
    shown, woken = Shown(500), list[str]()
    room = room_of(shown)
    events: Any = SimpleNamespace(room=room, queues=SimpleNamespace(wake=lambda: woken.append('all')))
    asyncio.run(Events.look_for_room(events))
    assert shown.looks == 0
    assert asyncio.run(room.held())
    asyncio.run(Events.look_for_room(events))
    assert (woken, shown.looks) == ([], 2)
    shown.room = 5000
    asyncio.run(Events.look_for_room(events))
    assert (woken, room.reason) == (['all'], None)


def filled(place: Place) -> int:
    """Pushes until an event waits. Gives how many runs there are."""
    place.repository.only({'one.yml': ONE})
    for number in range(200):
        pushed = place.repository.push('refs/heads/main', str(number), {f'src/{number}': ''})
        _, lines = place.sender.send('push', pushed, f'f{number}')
        if 'it waits: the file of the service is ' in lines[0]:
            return place.count()
    raise AssertionError('no event was held back')


def test_reports_go_into_a_file_that_is_nine_tenths_full_and_a_larger_one_takes_the_rest(tmp_path: pathlib.Path) -> None:
    place = Place(tmp_path, wait=0.5, pause=2)
    place.service.area = AREA
    admin = place.hub.token()
    try:
        place.start()
        count = filled(place)
        taken = full_of(request(place.service.view, 'GET', '/metrics').text)
        assert 0.9 - SIZE / AREA < taken <= 0.9 + SIZE / AREA
        assert scraped(place.hub, admin)['acts_hub_events_held'] == 1
        assert 'new events wait, so that runs that go on keep their room' in place.hub.get('/octo/hello/actions/refused', admin).text
        runner = place.service.lines()
        for _ in range(count):
            lease = runner.claim('r1')
            assert lease[0] == 'lease' and runner.done('r1', lease[1]) == 'ok'
        assert place.count() == count and spooled(place)
        grow(place)
        until(lambda: not spooled(place), what='the spool')
        until(lambda: scraped(place.hub, admin)['acts_hub_events_held'] == 0, what='the metric')
        assert place.count() > count and place.service.run(1)['conclusion'] == 'success'
        assert 'new events wait' not in place.hub.get('/octo/hello/actions/refused', admin).text
        assert json.loads(place.service.lines().ask(f'FETCH {count}'))['path'].endswith('one.yml')
    finally:
        place.end()


def grow(place: Place) -> None:
    """Copies the store into a larger file, as OPERATING says, and serves that."""
    service = place.service
    service.kill()
    larger = service.folder / 'larger.store'
    done = subprocess.run([acts(), 'grow', str(service.store), str(larger), str(4 * AREA)], check=True, capture_output=True)
    assert done.stdout == b'grown\n'
    os.replace(larger, service.store)
    service.start()
