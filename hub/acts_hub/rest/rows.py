"""The JSON of runs in lists, kept once it is made until the run changes."""
from __future__ import annotations

from ..service.mirror import Run
from .shapes import Shapes, dumps

MAX_KEPT = 4000


class RowTexts:
    """Texts of runs, at most 4,000 of them."""

    def __init__(self, shapes: Shapes) -> None:
        self._shapes = shapes
        self._kept: dict[tuple[int, bool], tuple[Run, str]] = {}

    def of(self, run: Run, with_pulls: bool = True) -> str:
        """The text of a run, which is another object after each change."""
        key = run.row.run, with_pulls
        found = self._kept.get(key)
        if found is not None and found[0] is run:
            return found[1]
        shape = self._shapes.run(run)
        text = dumps(shape if with_pulls else {**shape, 'pull_requests': []})
        self._kept.pop(key, None)
        if len(self._kept) >= MAX_KEPT:
            del self._kept[next(iter(self._kept))]
        self._kept[key] = run, text
        return text
