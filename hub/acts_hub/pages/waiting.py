"""Why something waits, in words and with a link, and who displaced a run."""
from __future__ import annotations

import bisect
from collections.abc import Callable, Iterable, Mapping, Sequence
from dataclasses import dataclass, field, replace
from urllib.parse import urlencode

from ..service.mirror import Run, Runs
from ..service.models import Holder, Job, Runner, Wait
from . import states
from .names import run_link, title_of, workflow_of

AWAY = 120  # seconds of silence after which a runner does not count as there
CLOCK = 1_000  # milliseconds by which times of runs that came together may differ
APPROVED = 'approved-'  # what begins the label of a leg whose environment has to be approved


@dataclass(frozen=True)
class Why:
    """A reason: words, and in the middle a link."""

    words: str
    link: str = ''
    of: str = ''
    rest: str = ''

    @property
    def what(self) -> Why:
        """What it is that is waited for."""
        return replace(self, words=self.words.removeprefix('waits for '))


@dataclass(frozen=True)
class Facts:
    """What reasons are made of: who holds groups, the runs, the runners, and which labels no token of a runner has."""

    holders: Mapping[tuple[str, str], Holder] = field(default_factory=dict)
    runs: Mapping[int, Run] = field(default_factory=dict)
    runners: Sequence[Runner] = ()
    missing: Callable[[Sequence[str], str], tuple[str, ...]] = lambda labels, repository: tuple(labels)
    is_approved: bool = False
    found: dict[tuple[tuple[str, ...], str], Why] = field(default_factory=dict)  # by labels: many legs ask for the same


def is_there(runner: Runner) -> bool:
    """Whether a runner was heard of lately, or holds a lease."""
    return runner.lease is not None or (runner.heard_seconds_ago is not None and runner.heard_seconds_ago <= AWAY)


def has_labels(runner: Runner, labels: Iterable[str]) -> bool:
    """Whether a runner has all of these labels, as far as its last claim shows."""
    own = {label.lower() for label in runner.labels or ()}
    return all(label.lower() in own for label in labels)


def holders_of(holders: Iterable[Holder]) -> dict[tuple[str, str], Holder]:
    """Who holds each group."""
    return {(holder.repository.lower(), holder.group): holder for holder in holders if holder.state == 'in_progress'}


def of_group(group: str, repository: str, facts: Facts) -> Why:
    """Why a run or leg waits for its concurrency group."""
    words = f'waits for the concurrency group {group}'
    holder = facts.holders.get((repository.lower(), group))
    run = facts.runs.get(holder.run) if holder else None
    if holder is None or run is None:
        return Why(words, f'/groups?{urlencode({"q": group})}', ' (who holds it)')
    return Why(f'{words}, held by', run_link(run), f'{workflow_of(run)} #{run.row.number}',
               f' ({holder.job})' if holder.job else '')


def of_runner(labels: Sequence[str], repository: str, facts: Facts) -> Why:
    """Why a leg has no runner yet."""
    wanted = own_labels(labels)
    if len(wanted) < len(labels) and not facts.is_approved:
        return Why('waits until somebody approves it')
    named = ', '.join(wanted) or 'any labels'
    found = able(wanted, repository, facts)
    return replace(found, words=f'waits for a runner: {found.words}' if found.words
                   else f'waits for a runner with {named}:')


def able(labels: tuple[str, ...], repository: str, facts: Facts) -> Why:
    """Which runners could take a leg with these labels."""
    known = facts.found.get((labels, repository))
    if known is None:
        known = facts.found[labels, repository] = _able(labels, repository, facts)
    return known


def _able(labels: tuple[str, ...], repository: str, facts: Facts) -> Why:
    fitting = [runner for runner in facts.runners if has_labels(runner, labels)]
    link = f'/runners?{urlencode({"q": labels[0]})}' if labels else '/runners'
    there = [runner for runner in fitting if is_there(runner)]
    busy = sum(runner.lease is not None for runner in there)
    if not fitting:
        missing = facts.missing(labels, repository)
        return Why(f'no runner has {", ".join(missing or labels)}' if missing else 'none has asked for work yet',
                   '/runners', '(all runners)')
    if not there:
        return Why('', link, f'{_counted(len(fitting), "runner")} with these labels', ', offline')
    if busy == len(there):
        return Why('', link, '1 runner, active' if busy == 1 else f'{busy} runners, all active')
    return Why('', link, f'{_counted(len(there) - busy, "runner")} idle')


def _counted(count: int, what: str) -> str:
    return f'{count} {what}' if count == 1 else f'{count} {what}s'


def of_wait(wait: Wait | None, labels: Sequence[str], repository: str, facts: Facts) -> Why | None:
    """Why a run or leg waits; None if it does not."""
    if wait is None:
        return None
    if wait.kind == 'group':
        return of_group(wait.group or '', repository, facts)
    if wait.kind == 'max_parallel':
        return Why(f'waits for another leg of its job: max-parallel lets {wait.max_parallel} run at a time')
    return of_runner(labels, repository, facts)


def of_blocked(job: Job, jobs: Sequence[Job], names: Mapping[str, str]) -> Why | None:
    """What a job without legs waits for; None if it is not blocked."""
    if job.state != 'blocked':
        return None
    over = {one.id for one in jobs if one.state is not None and states.is_over(one.state)}
    needed = [names.get(need, need) for need in job.needs if need not in over]
    return Why(f'waits for {", ".join(needed)}') if needed else Why('waits for its run to begin')


def displaced_by(run: Run, runs: Runs) -> Why | None:
    """The run that took the place of a cancelled one in its group: the first later one that came before it ended."""
    row, ended = run.row, (run.completed_at or run.updated_at) + CLOCK
    if row.conclusion != 'cancelled' or row.group is None:
        return None
    for at in range(bisect.bisect_right(runs.ids, row.run), len(runs)):
        other = runs[at]
        if other.created_at > ended:
            break
        if other.row.group == row.group and run.created_at <= other.created_at:
            return Why(f'A newer run of the concurrency group {row.group} took its place:', run_link(other),
                       f'{title_of(other)} #{other.row.number}')
    return None


def own_labels(labels: Iterable[str]) -> tuple[str, ...]:
    """The labels of a leg that say what it runs on."""
    return tuple(label for label in labels if not label.startswith(APPROVED))
