"""How full the file of the service is: events wait over nine tenths, so that runs that go on keep their room."""
from __future__ import annotations

import re
import time

from ..service.http import Away
from ..service.view import ViewPort

METRIC = re.compile(r'^(acts_area_bytes|acts_area_room_bytes) ([0-9]+)$', re.M)
SECONDS = 2.0  # for which a look counts: a scrape looks at every run
BESIDE = 200  # bytes that an event takes there beside its body, about


def full_of(metrics: str, admitted: int = 0) -> float:
    """What part of the area is taken, by the service's metrics and the bytes that were admitted since; 0 if they do not say."""
    found = {name: int(value) for name, value in METRIC.findall(metrics)}
    area, room = found.get('acts_area_bytes', 0), found.get('acts_area_room_bytes')
    return 0.0 if not area or room is None else min(1.0, max(0.0, 1 - (room - admitted) / area))


class Room:
    """Says whether events are held back, and why."""

    def __init__(self, view: ViewPort, most: float) -> None:
        self.view, self.most = view, most
        self.metrics, self.admitted, self.looked = '', 0, float('-inf')

    async def look(self) -> None:
        """Looks again, if the last look is too old. A service that is away is not full."""
        if time.monotonic() < self.looked + SECONDS:
            return
        self.admitted = 0  # what comes from here on may not be in the metrics
        try:
            self.metrics = await self.view.metrics()
        except Away:
            self.metrics = ''
        self.looked = time.monotonic()

    def note(self, size: int) -> None:
        """Counts an event with a body of so many bytes, which was admitted after the last look."""
        self.admitted += size + BESIDE

    @property
    def full(self) -> float:
        """What part of the area is taken."""
        return full_of(self.metrics, self.admitted)

    @property
    def reason(self) -> str | None:
        """Why events wait; None if they do not."""
        if self.full <= self.most:
            return None
        return (f'the file of the service is {self.full:.0%} full: over {self.most:.0%} new events wait, so that runs '
                'that go on keep their room; acts grow copies the store into a larger file')

    async def held(self) -> str | None:
        """Why an event waits now; None if it does not."""
        await self.look()
        return self.reason
