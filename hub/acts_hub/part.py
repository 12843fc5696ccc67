"""What a part is that runs beside the requests."""
from __future__ import annotations

from typing import Protocol


class Part(Protocol):
    """Made once with the hub, started and stopped with it."""

    async def start(self) -> None:
        """Begins."""

    async def stop(self) -> None:
        """Ends."""
