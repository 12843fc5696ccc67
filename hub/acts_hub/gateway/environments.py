"""Environments with reviewers: a leg that waits for an approval asks for the label `approved-RUN`, which the gateway
adds to claims once somebody with the right to write has approved the run's attempt."""
from __future__ import annotations

import re

from ..access.identity import Identity
from ..ledger.database import Database
from ..ledger.notes import NoteStore
from ..log import say
from ..service.mirror import Mirror
from ..service.models import Ready, Whole
from ..times import now

KIND = 'approval'
LABEL = re.compile('approved-([1-9][0-9]*)', re.I)


class Environments:
    """The approvals of all runs."""

    def __init__(self, database: Database, notes: NoteStore, mirror: Mirror) -> None:
        self.database, self.notes, self.mirror = database, notes, mirror
        self.approved: dict[int, int] = {}
        mirror.forgot.append(self.forget_through)

    def forget_through(self, last: int) -> None:
        """Forgets the approvals of the runs up to one, which the service has forgotten."""
        self.approved = {run: attempt for run, attempt in self.approved.items() if run > last}

    def load(self) -> None:
        """Takes up the approvals of an earlier life."""
        rows = self.database.read('select run, max(attempt) from notes where kind = ? group by run', (KIND,))
        self.approved = {int(run): int(attempt) for run, attempt in rows}

    def has_some(self) -> bool:
        """Whether a run that has not completed is approved."""
        for run, attempt in list(self.approved.items()):
            found = self.mirror.runs.get(run)
            if found is not None and (found.row.attempt, found.row.status == 'completed') > (attempt, False):
                del self.approved[run]
        return bool(self.approved)

    def label_of(self, leg: Ready) -> str | None:
        """The label that an approved leg asks for; None for another leg."""
        return f'approved-{leg.run}' if leg.run in self.approved and is_approval(leg.labels, leg.run) else None

    def is_approved(self, run: int, attempt: int) -> bool:
        """Whether an attempt of a run is approved."""
        return self.approved.get(run) == attempt

    def allows(self, whole: Whole, labels: tuple[str, ...]) -> bool:
        """Whether a leg with these labels may begin."""
        return not is_approval(labels, whole.row.run) or self.is_approved(whole.row.run, whole.row.attempt)

    def approve(self, run: int, attempt: int, identity: Identity, comment: str = '') -> None:
        """Approves an attempt of a run. Who may is for the caller to see to."""
        self.notes.set(run, attempt, KIND, identity.name, {'by': identity.name, 'at': now(), 'comment': comment[:1000]})
        self.approved[run] = attempt
        say(f'run {run}, attempt {attempt}, is approved by {identity.name}')

    def approvals(self, run: int, attempt: int) -> list[dict[str, str | int]]:
        """Who has approved an attempt, and when."""
        return list(self.notes.list(run, attempt, KIND).values())

    @staticmethod
    def waiting(whole: Whole) -> list[str]:
        """The jobs of a run that have legs which wait for an approval."""
        run = whole.row.run
        return [job.id for job in whole.jobs
                if any(leg.state in ('ready', 'waiting') and is_approval(leg.labels, run) for leg in job.legs)]


def is_approval(labels: tuple[str, ...], run: int) -> bool:
    """Whether a leg with these labels waits for an approval of its run."""
    return any((found := LABEL.fullmatch(label)) is not None and int(found[1]) == run for label in labels)
