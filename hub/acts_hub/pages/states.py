"""States as people see them: a word, a shape and a colour for each."""
from __future__ import annotations

import dataclasses

from ..service.mirror import Run
from ..service.models import Job


@dataclasses.dataclass(frozen=True)
class Sign:
    """A state on a page: its class (colour and shape) and its words."""

    kind: str
    words: str


SIGNS = {
    'success': Sign('success', 'Success'), 'failure': Sign('failure', 'Failure'),
    'cancelled': Sign('cancelled', 'Cancelled'),
    'skipped': Sign('skipped', 'Skipped'), 'neutral': Sign('skipped', 'Neutral'),
    'timed_out': Sign('failure', 'Timed out'),
    'queued': Sign('queued', 'Queued'), 'ready': Sign('queued', 'Queued'), 'pending': Sign('waiting', 'Pending'),
    'waiting': Sign('waiting', 'Waiting'), 'blocked': Sign('waiting', 'Waiting'),
    'in_progress': Sign('running', 'In progress'),
    'running': Sign('running', 'In progress'), 'open': Sign('running', 'In progress'),
    'stopping': Sign('stopping', 'Cancelling'),
    'refused': Sign('failure', 'Refused')}
UNKNOWN = Sign('skipped', 'Unknown')


def sign(state: str | None) -> Sign:
    """How a state of a run, job, leg or step is shown."""
    return SIGNS.get(state or '', UNKNOWN)


def is_over(state: str | None) -> bool:
    """Whether nothing more happens to a job or leg in this state."""
    return state in ('success', 'failure', 'cancelled', 'skipped')


def of_job(job: Job) -> str:
    """The state of a job: that of its busiest leg while it is open."""
    if job.state != 'open':
        return job.state or 'unknown'
    states = {leg.state for leg in job.legs}
    for state in ('stopping', 'running', 'ready', 'waiting'):
        if state in states:
            return state
    return 'running'


def of_run(run: Run) -> str:
    """The state of a run: its conclusion once it has completed; a run of which every job was skipped is skipped."""
    row = run.row
    if row.status != 'completed':
        return row.status
    return 'skipped' if run.skipped and row.conclusion == 'success' else row.conclusion or 'unknown'
