"""What the runners of a run noted: annotations and summaries."""
from __future__ import annotations

from dataclasses import dataclass
from typing import Any

from . import states
from .site import Site
from .whole import LegRow, Shown

MOST_ANNOTATIONS, MOST_SUMMARIES, MOST_TEXT = 50, 20, 20_000
SIGNS = {'failure': states.Sign('failure', 'Error'), 'warning': states.Sign('stopping', 'Warning'),
         'notice': states.Sign('queued', 'Notice')}


@dataclass(frozen=True)
class Annotation:
    """What a step said of a file, or of the run."""

    sign: states.Sign
    title: str
    message: str
    path: str
    line: int | None
    job: str
    link: str


@dataclass(frozen=True)
class Summary:
    """The summary that the steps of a leg wrote, as text."""

    name: str
    link: str
    text: str


def annotations_of(site: Site, found: Shown) -> list[Annotation]:
    """The annotations of an attempt, failures first."""
    rows = []
    for row in found.legs:
        for one in site.annotations(found.run.id, found.attempt, row.job.id, row.index):
            rows.append(_annotation(row, one))
    order = list(SIGNS.values())
    return sorted(rows, key=lambda one: order.index(one.sign))[:MOST_ANNOTATIONS]


def _annotation(row: LegRow, given: dict[str, Any]) -> Annotation:
    sign = SIGNS.get(str(given.get('annotation_level')), SIGNS['notice'])
    line = given.get('start_line')
    return Annotation(sign, str(given.get('title') or sign.words), str(given.get('message') or '')[:MOST_TEXT],
                      str(given.get('path') or ''),
                      line if isinstance(line, int) else None, row.name, row.link)


def summaries_of(site: Site, found: Shown) -> list[Summary]:
    """The summaries of an attempt."""
    rows = [Summary(row.name, row.link, text[:MOST_TEXT]) for row in found.legs
            if (text := site.summary(found.run.id, found.attempt, row.job.id, row.index))]
    return rows[:MOST_SUMMARIES]
