"""How often a client may do something: buckets that fill up again."""
from __future__ import annotations

import time
from collections import OrderedDict
from collections.abc import Callable, Hashable

MAX_KEYS = 20_000


class Rates:
    """A bucket a key: `burst` at once, then `a_second`. Of more keys than are kept, those that were not used for longest start full."""

    def __init__(self, a_second: float, burst: float, clock: Callable[[], float] = time.monotonic) -> None:
        self.a_second, self.burst = a_second, burst
        self._clock = clock
        self._levels: OrderedDict[Hashable, tuple[float, float]] = OrderedDict()

    def _level(self, key: Hashable) -> float:
        level, at = self._levels.get(key, (self.burst, 0.0))
        return min(self.burst, level + (self._clock() - at) * self.a_second)

    def left(self, key: Hashable) -> float:
        """How many a key may take at once. Nothing is taken."""
        return self._level(key)

    def wait(self, key: Hashable) -> float:
        """The seconds until this key may again; 0 if it may now. Nothing is taken."""
        if self.burst <= 0:
            return 0.0
        level = self._level(key)
        return 0.0 if level >= 1 else (1 - level) / self.a_second if self.a_second > 0 else 3600.0

    def take(self, key: Hashable) -> float:
        """Takes one, and gives 0; or the seconds until there is one. A burst of 0 means no limit."""
        wait = self.wait(key)
        if wait == 0.0 and self.burst > 0:
            level = self._level(key)
            self._levels[key] = level - 1, self._clock()
            self._levels.move_to_end(key)
            if len(self._levels) > MAX_KEYS:
                self._levels.popitem(last=False)
        return wait
