"""Lines of the hub's log, on standard error."""
from __future__ import annotations

import logging
import sys
import time

MAX_WORDS = 2000
A_SECOND = 5


def say(words: str) -> None:
    """Writes a line; what would break or colour it is shown as an escape."""
    text = ''.join(char if char.isprintable() else char.encode('unicode_escape').decode() for char in words[:MAX_WORDS])
    try:
        print(f'acts-hub: {text}', file=sys.stderr, flush=True)
    except OSError:
        pass


class Handler(logging.Handler):
    """Takes what libraries log, a line each and a few a second; requests that are none are their clients' fault and are left out."""

    def __init__(self) -> None:
        super().__init__(logging.WARNING)
        self._second, self._count = 0, 0

    def emit(self, record: logging.LogRecord) -> None:
        """Writes a record."""
        fault = record.exc_info[1] if record.exc_info else None
        if fault is not None and type(fault).__module__ == 'aiohttp.http_exceptions':
            return
        second = int(time.monotonic())
        self._count = self._count + 1 if second == self._second else 1
        self._second = second
        if self._count <= A_SECOND:
            say(f'{record.name}: {record.getMessage()}' + (f': {fault!r}' if fault is not None else ''))


def take_over() -> None:
    """What libraries log goes to the log of the hub."""
    logging.basicConfig(handlers=[Handler()], level=logging.WARNING, force=True)
