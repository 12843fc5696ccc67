"""Statuses and conclusions, as GitHub's documentation has them."""
from dataclasses import replace

import pytest
from rest_stand import run_of

from acts_hub.events.statuses import context_of
from acts_hub.rest.conclusions import combined_state, commit_state, leg_state, rollup_state, suite_status

pytestmark = pytest.mark.quick


@pytest.mark.parametrize('state, waits_for, approval, expected', [
    ('ready', 'runner', False, ('queued', None)),
    ('ready', 'max_parallel', False, ('queued', None)),
    ('waiting', 'group', False, ('pending', None)),
    # 'at the front of the queue but the group-based concurrency limit has been reached'
    ('ready', 'runner', True, ('waiting', None)),  # 'waiting for a deployment protection rule to be satisfied'
    ('running', None, False, ('in_progress', None)),
    ('stopping', None, False, ('in_progress', None)),
    ('success', None, False, ('completed', 'success')),
    ('failure', None, False, ('completed', 'failure')),
    ('cancelled', None, True, ('completed', 'cancelled')),
    ('skipped', None, False, ('completed', 'skipped')),
])
def test_states_of_jobs(state: str, waits_for: str, approval: bool, expected: tuple[str, str]) -> None:
    assert leg_state(state, waits_for, approval) == expected


def test_a_run_of_skipped_jobs_alone_is_skipped() -> None:
    assert run_of(1, conclusion='skipped').conclusion == 'skipped'
    assert run_of(1).conclusion == 'success'
    assert replace(run_of(1, conclusion='cancelled'), skipped=True).conclusion == 'cancelled'
    assert run_of(1, status='queued').conclusion is None


def test_states_of_commits() -> None:
    assert [commit_state(word) for word in ('success', 'skipped', 'failure', 'cancelled', None)] == \
        ['success', 'success', 'failure', 'error', 'pending']


@pytest.mark.parametrize('states, whole', [
    ([], 'pending'),  # 'pending if there are no statuses or a context is pending'
    (['success', 'pending'], 'pending'),
    (['success', 'pending', 'error'], 'failure'),  # 'failure if any of the contexts report as error or failure'
    (['success', 'failure'], 'failure'),
    (['success', 'success'], 'success'),  # 'success if the latest status for all contexts is success'
])
def test_combined_states(states: list[str], whole: str) -> None:
    assert combined_state(states) == whole


def test_contexts_differ_by_event() -> None:
    assert context_of('Ci', '.github/workflows/ci.yml',
                      'push') != context_of('Ci', '.github/workflows/ci.yml', 'pull_request')
    assert context_of('', '.github/workflows/ci.yml', 'push') == '.github/workflows/ci.yml (push)'


def test_rollups_and_suites() -> None:
    assert rollup_state([]) is None
    assert rollup_state(['success', None]) == 'PENDING' and rollup_state(['skipped', 'success']) == 'SUCCESS'
    assert [suite_status(word) for word in ('pending', 'queued', 'in_progress', 'completed')] == \
        ['queued', 'queued', 'in_progress', 'completed']
