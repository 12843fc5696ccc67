"""Times of `schedule`, in the syntax of cron that GitHub documents, in UTC."""
from __future__ import annotations

import datetime
import re
from dataclasses import dataclass

from .values import Fault

Names = dict[str, str]
MONTHS = {name: str(at) for at, name in enumerate('JAN FEB MAR APR MAY JUN JUL AUG SEP OCT NOV DEC'.split(), 1)}
DAYS = {name: str(at) for at, name in enumerate('SUN MON TUE WED THU FRI SAT'.split())}
FIELDS: tuple[tuple[str, int, int, Names], ...] = (
    ('minute', 0, 59, {}), ('hour', 0, 23, {}), ('day of the month', 1, 31, {}), ('month', 1, 12, MONTHS),
    ('day of the week', 0, 6, DAYS))
PART = re.compile(r'(?:\*|(\w+)(?:-(\w+))?)(?:/([0-9]{1,4}))?', re.ASCII)
LONGEST = 256  # characters
SHORTEST = 5  # minutes between two times: GitHub's limit
FURTHEST = 366 * 9  # days in which the next time is: a 29 February comes within eight years
EPOCH = datetime.date(1970, 1, 1).toordinal()


@dataclass(frozen=True)
class Cron:
    """The times that a text of cron means. A day has to fit both its lists, or one if neither begins with `*`."""

    minutes: tuple[int, ...]
    hours: tuple[int, ...]
    days: frozenset[int]
    months: frozenset[int]
    weekdays: frozenset[int]
    either: bool

    def has_day(self, day: datetime.date) -> bool:
        """Whether there are times on a day."""
        in_month, in_week = day.day in self.days, day.isoweekday() % 7 in self.weekdays
        return day.month in self.months and (in_month or in_week if self.either else in_month and in_week)

    def after(self, minute: int) -> int | None:
        """The first time after a minute, both counted since 1970; None if there is none in the next years."""
        first, start = divmod(minute + 1, 1440)
        for day in range(first, first + FURTHEST):
            if self.has_day(datetime.date.fromordinal(EPOCH + day)):
                for hour in self.hours:
                    for of_hour in self.minutes:
                        if day > first or 60 * hour + of_hour >= start:
                            return 1440 * day + 60 * hour + of_hour
        return None


def read(text: object) -> Cron:
    """The times of a text such as `30 5,17 * * 1-5`."""
    if not isinstance(text, str) or len(text) > LONGEST:
        raise Fault(f'cron is no text of at most {LONGEST} characters')
    fields = text.split()
    if len(fields) != len(FIELDS):
        raise Fault(f'cron {text!r} has {len(fields)} fields, not five')
    listed = [numbers(field, *form) for field, form in zip(fields, FIELDS)]
    either = not fields[2].startswith('*') and not fields[4].startswith('*')
    minutes, hours, days, months, weekdays = listed
    return Cron(tuple(sorted(minutes)), tuple(sorted(hours)), days, months, weekdays, either)


def numbers(field: str, what: str, least: int, most: int, names: Names) -> frozenset[int]:
    """The numbers that a field lists."""
    made: set[int] = set()
    for part in field.split(','):
        found = PART.fullmatch(part)
        if not found:
            raise Fault(f'{part!r} is no {what}')
        first = number(found[1], what, names) if found[1] else least
        last = number(found[2], what, names) if found[2] else first if found[1] and not found[3] else most
        step = int(found[3] or 1)
        if not least <= first <= last <= most or not step:
            raise Fault(f'{part!r} is no {what}: {least} to {most}')
        made.update(range(first, last + 1, step))
    return frozenset(made)


def number(text: str, what: str, names: Names) -> int:
    """A number, or the one that a name stands for."""
    digits = names.get(text.upper(), text)
    if not re.fullmatch('[0-9]{1,2}', digits):
        raise Fault(f'{text!r} is no {what}')
    return int(digits)
