"""Which leg a lease is of, and which lease a runner holds."""
from __future__ import annotations

from collections import OrderedDict

from ..ledger.attempts import AttemptStore

MAX_LEASES = 20_000
Place = tuple[int, int, str, int]


class Leases:
    """The newest leases: run, attempt, job and leg of each."""

    def __init__(self) -> None:
        self._places: OrderedDict[int, Place] = OrderedDict()
        self.held: dict[str, int] = {}
        self._ended: set[int] = set()

    def load(self, attempts: AttemptStore) -> None:
        """Reads what is kept."""
        for lease, run, attempt, job, leg, runner, has_ended in reversed(attempts.leases(MAX_LEASES // 2)):
            self._places[lease] = run, attempt, job, leg
            if has_ended:
                self._ended.add(lease)
            elif runner:
                self.held[runner] = lease

    def clear(self) -> None:
        """Forgets all: the service may be another one."""
        self._places.clear()
        self._ended.clear()
        self.held.clear()

    def __contains__(self, lease: int) -> bool:
        return lease in self._places

    def place(self, lease: int) -> Place | None:
        """The leg of a lease."""
        return self._places.get(lease)

    def note(self, lease: int, place: Place) -> None:
        """Notes the leg of a lease."""
        self._places[lease] = place
        if len(self._places) > MAX_LEASES:
            self._ended.discard(self._places.popitem(last=False)[0])

    def has_ended(self, lease: int) -> bool:
        """Whether the end of a lease was noted: what says so again is an answer that was sent again."""
        return lease in self._ended

    def end(self, runner: str | None, lease: int) -> None:
        """A lease has ended."""
        self._ended.add(lease)
        if runner is not None and self.held.get(runner) == lease:
            del self.held[runner]
