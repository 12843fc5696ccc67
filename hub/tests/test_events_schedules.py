"""`schedule`: what is due, what was missed, and that no time starts a run twice."""
from __future__ import annotations

import calendar
import pathlib
import time

import pytest
from harness import until
from test_events import Place

from acts_hub.events.listing import listed
from acts_hub.events.schedules import LATE, Due, due_of, entries_of

NIGHTLY = "{on: {schedule: [{cron: '30 5 * * *'}, {cron: '0 * * * *'}, {cron: nonsense}, 5]}, jobs: {a: {runs-on: linux}}}"
EACH = "{name: Each, on: {schedule: [{cron: '* * * * *'}]}, jobs: {a: {runs-on: '${{ github.event_name }}', steps: [{run: 'true'}]}}}"


def minute(text: str) -> int:
    return calendar.timegm(time.strptime(text, '%Y-%m-%d %H:%M')) // 60


@pytest.mark.quick
def test_schedules_of_a_workflow() -> None:
    entries = entries_of(listed({'n.yml': NIGHTLY, 'broken.yml': 'on: [', 'none.yml': 'on: push'}))
    assert [(entry.path, entry.text) for entry in entries] == [('n.yml', '30 5 * * *'), ('n.yml', '0 * * * *')]


@pytest.mark.quick
def test_what_is_due() -> None:
    nightly, hourly = entries_of(listed({'n.yml': NIGHTLY}))
    day, at = minute('2026-11-30 00:00'), minute('2026-11-30 05:30')
    assert due_of(nightly, at - 1, 0, at) == Due(at, 0, None, at)
    assert due_of(nightly, at - 1, 0, at + LATE - 1) == Due(at, 0, None, at + LATE - 1)  # a restart of the hub takes a while
    assert due_of(nightly, at - 1, 0, at + LATE) == Due(None, 1, at, at + LATE)  # missed, and not made up
    assert due_of(nightly, at, 0, at + 60) == Due(None, 0, None, at + 60)
    assert due_of(nightly, day - 3 * 1440, 0, day + 1) == Due(None, 3, day - 1440 + 330, day + 1)
    assert due_of(hourly, day, 0, day + 602) == Due(day + 600, 9, day + 540, day + 602)  # nine missed, one still due
    assert due_of(nightly, at + 99999, 0, at) == Due(None, 0, None, at)  # a clock that was set back


@pytest.mark.quick
def test_the_shortest_interval_is_five_minutes() -> None:
    """GitHub Docs, `schedule`: the shortest interval is once every 5 minutes."""
    entry, = entries_of(listed({'e.yml': EACH}))
    day, started, starts = minute('2026-11-30 00:00'), 0, []
    for at in range(day, day + 20):
        due = due_of(entry, at - 1, started, at)
        if due.start is not None:
            started = due.start
            starts.append(due.start - day)
    assert starts == [0, 5, 10, 15]


def test_a_time_starts_one_run_also_over_restarts(tmp_path: pathlib.Path) -> None:
    place = Place(tmp_path)
    try:
        place.repository.only({'each.yml': EACH})
        place.start()
        until(lambda: place.count() == 1, 150, 'the first time')
        body = place.body(1)
        assert body['github']['event_name'] == 'schedule' and body['github']['event']['schedule'] == '* * * * *'
        assert (body['github']['ref'], body['workflow']['jobs']['a']['runs-on']) == ('refs/heads/main', 'schedule')
        for _ in range(3):
            place.hub.restart()
            time.sleep(3)
        assert place.count() == 1
    finally:
        place.end()
