"""Milliseconds since 1970 and texts of ISO 8601 in UTC."""
from __future__ import annotations

import datetime
import time

UTC = datetime.timezone.utc


def now() -> int:
    """The present, in milliseconds since 1970."""
    return time.time_ns() // 1_000_000


def iso(milliseconds: int) -> str:
    """A time as GitHub writes it: `2026-11-30T19:30:00Z`."""
    return datetime.datetime.fromtimestamp(milliseconds // 1000, UTC).strftime('%Y-%m-%dT%H:%M:%SZ')


def iso_or_none(milliseconds: int | None) -> str | None:
    """The same, of a time that may be unknown."""
    return None if milliseconds is None else iso(milliseconds)


def iso_exact(milliseconds: int) -> str:
    """A time with its milliseconds: `2026-11-30T19:30:00.125Z`."""
    return f'{iso(milliseconds)[:-1]}.{milliseconds % 1000:03d}Z'


def of_iso(text: str) -> int | None:
    """The time that a text of ISO 8601 names; None if it names none. Without an offset it is in UTC."""
    try:
        found = datetime.datetime.fromisoformat(text)
        if found.tzinfo is None:
            found = found.replace(tzinfo=UTC)
        return int(found.timestamp() * 1000)
    except (ValueError, OverflowError, OSError):
        return None
