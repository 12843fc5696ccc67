"""What the runners of a leg marked besides its log: annotations and summaries, in the notes of the run's attempt."""
from __future__ import annotations

import json
from collections.abc import Mapping
from typing import Any

from ..ledger.logs import OUTCOMES, LogStore
from ..ledger.notes import MAX_VALUE, NoteStore
from .leases import Lease

KIND = 'marks'
MAX_MARK = 1 << 21  # bytes of a line of marks
MAX_ANNOTATIONS = 100
MAX_TEXT = 4096
MAX_SUMMARY = 1 << 18  # characters of all summaries of a leg
LEVELS = 'failure', 'warning', 'notice'
NUMBERS = 'start_line', 'end_line', 'start_column', 'end_column'


class Findings:
    """The marks of all legs."""

    def __init__(self, notes: NoteStore, logs: LogStore) -> None:
        self.notes, self.logs = notes, logs

    def of_leg(self, run: int, attempt: int, job: str, leg: int) -> dict[str, Any]:
        """All that is noted of a leg."""
        found = self.notes.get(run, attempt, KIND, f'{job}/{leg}')
        return found if isinstance(found, dict) else {}

    def annotations(self, run: int, attempt: int, job: str, leg: int) -> list[dict[str, Any]]:
        """The annotations of a leg, with GitHub's names."""
        return list(self.of_leg(run, attempt, job, leg).get('annotations') or [])

    def summary(self, run: int, attempt: int, job: str, leg: int) -> str:
        """The summaries of the steps of a leg, as Markdown."""
        return '\n'.join(self.of_leg(run, attempt, job, leg).get('summaries') or [])

    def is_complete(self, run: int, attempt: int, job: str, leg: int) -> bool:
        """Whether the runner has sent all of the log."""
        return bool(self.of_leg(run, attempt, job, leg).get('complete'))

    def size(self, lease: Lease) -> int:
        """How many bytes of the marks of a lease were taken."""
        found = self.of_leg(lease.run, lease.attempt, lease.job, lease.leg)
        return int(found.get('size') or 0) if found.get('lease') == lease.lease else 0

    def take(self, lease: Lease, offset: int, data: bytes) -> int:
        """Takes marks at an offset, whole lines of them, and gives how many bytes were taken. What was taken already is
        left as it is."""
        size = self.size(lease)
        if offset > size or offset + len(data) <= size:
            return size
        whole = data[size - offset:]
        whole = whole[:whole.rfind(b'\n') + 1] or (whole if len(whole) >= MAX_MARK - 1 else b'')
        if not whole:
            return size
        found = self.of_leg(lease.run, lease.attempt, lease.job, lease.leg)
        noted: dict[str, Any] = dict(found) if found.get('lease') == lease.lease else {'lease': lease.lease}
        for line in whole.splitlines():
            try:
                mark = json.loads(line)
            except (ValueError, RecursionError):
                continue
            if isinstance(mark, dict):
                self.mark(lease, noted, mark)
        noted['size'] = size + len(whole)
        shorten(noted)
        self.notes.set(lease.run, lease.attempt, KIND, f'{lease.job}/{lease.leg}', noted)
        return size + len(whole)

    def mark(self, lease: Lease, noted: dict[str, Any], mark: Mapping[str, Any]) -> None:
        """Takes one mark."""
        at, offset, number = (mark.get(name) for name in ('at', 'bytes', 'step'))
        if not isinstance(at, int) or not isinstance(offset, int) or not (number is None or is_number(number)):
            return
        if not is_number(at) or not is_number(offset):
            return
        if isinstance(mark.get('annotation'), dict):
            kept = noted.setdefault('annotations', [])
            if len(kept) < MAX_ANNOTATIONS:
                kept.append(annotation_of(mark['annotation'], number))
        elif isinstance(mark.get('summary'), str):
            kept = noted.setdefault('summaries', [])
            if sum(map(len, kept)) + len(mark['summary']) <= MAX_SUMMARY:
                kept.append(mark['summary'])
        elif mark.get('complete') is True:
            noted['complete'] = True
            self.end_steps(lease, offset, at)
        elif number is not None:
            self.step(lease, int(number), mark, offset, at)

    def step(self, lease: Lease, number: int, mark: Mapping[str, Any], offset: int, at: int) -> None:
        """The begin or the end of a step."""
        if mark.get('begins') is True and isinstance(mark.get('name'), str):
            self.logs.step(*lease.place, number, mark['name'], offset, at)
        elif mark.get('ends') is True:
            conclusion = mark.get('conclusion') or mark.get('outcome')
            if conclusion in OUTCOMES:
                self.logs.step_end(*lease.place, number, str(conclusion), offset, at)

    def end_steps(self, lease: Lease, offset: int, at: int) -> None:
        """Ends the step that was running when its process was killed."""
        for step in self.logs.steps(*lease.place):
            if step.outcome is None:
                self.logs.step_end(*lease.place, step.number, 'failure', offset, at)


def shorten(noted: dict[str, Any]) -> None:
    """Leaves out the last summaries, and then annotations, of what would be too long a note."""
    for name in ('summaries', 'annotations'):
        while noted.get(name) and len(json.dumps(noted)) > MAX_VALUE - 1000:
            noted[name].pop()


def is_number(value: object) -> bool:
    """Whether a value of JSON is a whole number that the ledger takes."""
    return isinstance(value, int) and not isinstance(value, bool) and 0 <= value < 1 << 53


def annotation_of(given: Mapping[str, Any], step: int | None) -> dict[str, Any]:
    """An annotation with GitHub's names, bounded."""
    made: dict[str, Any] = {name: given[name] if is_number(given.get(name)) else None for name in NUMBERS}
    for name in ('message', 'title', 'path'):
        made[name] = given[name][:MAX_TEXT] if isinstance(given.get(name), str) else None
    level = given.get('annotation_level')
    level = level if level in LEVELS else 'notice'
    return {**made, 'annotation_level': level, 'step': step, 'message': made['message'] or ''}

