"""Times as people read them: how long, how long ago, and exactly when."""
from __future__ import annotations

import datetime

_UNITS = (('year', 31_536_000), ('month', 2_592_000), ('day', 86_400), ('hour', 3_600), ('minute', 60), ('second', 1))


def lasted(milliseconds: int | None) -> str:
    """A duration as GitHub writes it: 7s, 1m 23s, 2h 3m 4s, 3d 4h."""
    if milliseconds is None:
        return ''
    seconds = max(0, round(milliseconds / 1000))
    days, hours, minutes, rest = seconds // 86_400, seconds // 3_600 % 24, seconds // 60 % 60, seconds % 60
    if days:
        return f'{days}d {hours}h'
    if hours:
        return f'{hours}h {minutes}m {rest}s'
    return f'{minutes}m {rest}s' if minutes else f'{rest}s'


def ago(moment: int, now: int) -> str:
    """How long ago a time is: 3 minutes ago; 'now' below a second, and for a clock that is ahead."""
    seconds = (now - moment) // 1000
    return f'{span(seconds)} ago' if seconds >= 1 else 'now'


def span(seconds: int) -> str:
    """A time in its largest unit that fits: 2 minutes."""
    name, length = next((unit for unit in _UNITS if seconds >= unit[1]), _UNITS[-1])
    count = seconds // length
    return f'{count} {name}{"" if count == 1 else "s"}'


def seconds_ago(seconds: int | None) -> str:
    """The same for a number of seconds; a dash where it is not known."""
    return '–' if seconds is None else ago(0, seconds * 1000)


def exact(moment: int) -> str:
    """A time to the second, in UTC, for people."""
    return _utc(moment).strftime('%Y-%m-%d %H:%M:%S UTC')


def machine(moment: int) -> str:
    """A time for the attribute datetime."""
    return _utc(moment).strftime('%Y-%m-%dT%H:%M:%SZ')


def _utc(moment: int) -> datetime.datetime:
    whole = min(max(moment, 0), 253_402_300_799_000) / 1000
    return datetime.datetime.fromtimestamp(whole, datetime.timezone.utc)


def size(count: int) -> str:
    """A number of bytes for people."""
    if count < 1000:
        return f'{count} bytes' if count != 1 else '1 byte'
    value = float(count)
    for unit in ('KB', 'MB', 'GB', 'TB'):
        value /= 1000
        if value < 999.5 or unit == 'TB':
            return f'{value:.3g} {unit}' if value < 999.5 else f'{value:.0f} {unit}'
    return ''
