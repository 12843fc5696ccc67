"""States of the service in GitHub's words: statuses and conclusions of runs, jobs, checks and commits."""
from __future__ import annotations

from collections.abc import Iterable

from ..events.statuses import STATES

STATUSES = ('completed', 'in_progress', 'queued', 'requested', 'waiting', 'pending')
CONCLUSIONS = ('action_required', 'cancelled', 'failure', 'neutral', 'skipped', 'stale', 'success', 'timed_out')
_LEGS = {'waiting': 'queued', 'ready': 'queued', 'open': 'queued', 'blocked': 'queued', 'running': 'in_progress',
         'stopping': 'in_progress'}


def leg_state(state: str, waits_for: str | None = None, needs_approval: bool = False) -> tuple[str, str | None]:
    """Status and conclusion of a job of GitHub's, which is a leg here; `waits_for` is the kind of its wait."""
    if state not in _LEGS:
        return 'completed', state
    status = _LEGS[state]
    if status == 'queued' and needs_approval:
        return 'waiting', None
    if status == 'queued' and waits_for == 'group':
        return 'pending', None
    return status, None


def commit_state(conclusion: str | None) -> str:
    """The state of a commit status: success, failure, error or pending."""
    return STATES.get(conclusion, 'error')


def combined_state(states: Iterable[str]) -> str:
    """The state of a commit: failure if one context has failed, pending if one is or if there is none."""
    found = set(states)
    if found & {'failure', 'error'}:
        return 'failure'
    return 'success' if found == {'success'} else 'pending'


def suite_status(status: str) -> str:
    """The status of a check suite, which knows fewer words than a run."""
    return status if status in ('completed', 'in_progress') else 'queued'


def rollup_state(conclusions: Iterable[str | None]) -> str | None:
    """GraphQL's `StatusState` of several checks; None if there are none."""
    states = [commit_state(conclusion) for conclusion in conclusions]
    return combined_state(states).upper() if states else None
