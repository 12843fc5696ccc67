"""An answer of the service that several pages share for a moment."""
from __future__ import annotations

import asyncio
import time
from collections.abc import Awaitable, Callable
from typing import Generic, TypeVar

Made = TypeVar('Made')
SECONDS = 0.25


class Lately(Generic[Made]):
    """Asks at most once at a time, and not again for a quarter of a second."""

    def __init__(self, ask: Callable[[], Awaitable[Made]], seconds: float = SECONDS) -> None:
        self._ask, self._seconds = ask, seconds
        self._lock = asyncio.Lock()
        self._found: tuple[float, Made] | None = None

    async def get(self) -> Made:
        """The answer."""
        asked = time.monotonic()
        async with self._lock:
            if self._found is None or self._found[0] < asked - self._seconds:
                self._found = time.monotonic(), await self._ask()
            return self._found[1]

    def stale(self) -> None:
        """What was found is not so any more."""
        self._found = None
