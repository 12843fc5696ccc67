"""Jobs as GitHub shows them: each is a leg of a job of the service, in one attempt."""
from __future__ import annotations

from collections.abc import Mapping, Sequence
from dataclasses import dataclass
from typing import Any

from ..gateway.environments import is_approval
from ..service.mirror import Run
from ..service.models import Job, Leg, Whole
from .conclusions import leg_state
from .names import leg_name
from .numbers import JobNumber


@dataclass(frozen=True)
class JobView:
    """A job of GitHub's."""

    number: JobNumber
    id: str
    name: str
    status: str
    conclusion: str | None
    labels: tuple[str, ...]
    lease: int | None
    runner: str | None
    created_at: int
    started_at: int
    completed_at: int | None

    @property
    def value(self) -> int:
        """Its number in addresses."""
        return self.number.value


def jobs_of(run: Run, whole: Whole, is_approved: bool) -> list[JobView]:
    """The jobs of a run as it was in an attempt: not those that are blocked, but those that ended without legs."""
    return [view_of(run, job, leg, JobNumber(run.row.run, whole.row.attempt, index, leg.index if leg else 0),
                    is_approved)
            for index, job in enumerate(whole.jobs) if job.state != 'blocked' for leg in (job.legs or (None,))]


def view_of(run: Run, job: Job, leg: Leg | None, number: JobNumber, is_approved: bool) -> JobView:
    """One job of GitHub's. What nobody saw of an earlier attempt has completed without a conclusion."""
    state = leg.state if leg else job.state
    status, conclusion = 'completed', None
    if state is not None:
        waits_for = leg.waits_for.kind if leg and leg.waits_for else None
        status, conclusion = leg_state(state, waits_for,
                                       leg is not None and not is_approved and is_approval(leg.labels, number.run))
    started, ended = (leg.started_at, leg.ended_at) if leg else (None, None)
    done = (ended or run.updated_at) if status == 'completed' else None
    begun = started or (done if done is not None else run.started_at)
    name = leg_name(job.name, ordered(leg.combination, run.facts.matrix_names.get(job.id, ())) if leg else {})
    return JobView(number, job.id, name, status, conclusion, leg.labels if leg else (), leg.lease if leg else None,
                   leg.runner if leg else None, run.started_at, begun, done)


def ordered(combination: Mapping[str, Any], names: Sequence[str]) -> dict[str, Any]:
    """A combination in the order of the workflow's file; the service has it in that of the names."""
    first = {name: combination[name] for name in names if name in combination}
    return {**first, **combination}
