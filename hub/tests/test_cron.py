"""Cron by the table and the examples of GitHub's documentation of `schedule`."""
from __future__ import annotations

import calendar
import time

import pytest

from acts_workflow.cron import read
from acts_workflow.values import Fault

pytestmark = pytest.mark.quick


def minute(text: str) -> int:
    return calendar.timegm(time.strptime(text, '%Y-%m-%d %H:%M')) // 60


# From GitHub Docs, "Events that trigger workflows", `schedule`: the operators' table and examples; days are those of the calendar.
@pytest.mark.parametrize('text, after, wanted', [
    ('30 5,17 * * *', '2026-11-30 00:00', ['2026-11-30 05:30', '2026-11-30 17:30', '2026-12-01 05:30']),
    ('2,10 4,5 * * *', '2026-11-30 00:00', ['2026-11-30 04:02', '2026-11-30 04:10', '2026-11-30 05:02', '2026-11-30 05:10']),
    ('30 4-6 * * *', '2026-11-30 00:00', ['2026-11-30 04:30', '2026-11-30 05:30', '2026-11-30 06:30']),
    ('20/15 * * * *', '2026-11-30 00:00', ['2026-11-30 00:20', '2026-11-30 00:35', '2026-11-30 00:50', '2026-11-30 01:20']),
    ('*/15 * * * *', '2026-11-30 00:00', ['2026-11-30 00:15', '2026-11-30 00:30']),
    ('30 5 * * 1,3', '2026-11-30 06:00', ['2026-12-02 05:30', '2026-12-07 05:30']),  # Monday and Wednesday
    ('30 5 * * 2,4', '2026-11-30 06:00', ['2026-12-01 05:30', '2026-12-03 05:30']),
    ('0 0 1 JAN *', '2026-11-30 00:00', ['2027-01-01 00:00', '2028-01-01 00:00']),
    ('0 0 * * SUN', '2026-11-30 00:00', ['2026-12-06 00:00']),
    ('0 0 * * mon-fri', '2026-12-04 00:00', ['2026-12-07 00:00']),
    ('0 0 29 2 *', '2026-11-30 00:00', ['2028-02-29 00:00', '2032-02-29 00:00']),
    ('0 0 13 * 5', '2026-11-30 00:00', ['2026-12-04 00:00', '2026-12-11 00:00', '2026-12-13 00:00']),  # POSIX: either day
    ('0 0 31 12 *', '2026-12-31 00:00', ['2027-12-31 00:00'])])
def test_times(text: str, after: str, wanted: list[str]) -> None:
    cron, at, found = read(text), minute(after), []
    for _ in wanted:
        at = cron.after(at) or 0
        found.append(at)
    assert found == [minute(each) for each in wanted]


def test_a_day_that_never_comes() -> None:
    assert read('0 0 30 2 *').after(minute('2026-11-30 00:00')) is None


@pytest.mark.parametrize('text', ['', '* * * *', '* * * * * *', '60 * * * *', '* 24 * * *', '* * 0 * *', '* * 32 * *', '* * * 13 *', '* * * * 7', '@daily',
                                  '*/0 * * * *', '5-1 * * * *', 'a * * * *', '* * * * MONDAY', '1,,2 * * * *', '-1 * * * *', '١ * * * *', None, 5,
                                  '*' * 300, '0 0 L * *', '*/99999 * * * *'])
def test_no_cron(text: object) -> None:
    with pytest.raises(Fault):
        read(text)
