"""Checks and statuses of commits by the REST API."""
from __future__ import annotations

from typing import Any

import pytest
from rest_stand import T0, Stand, job_of, leg_of, run_of, sha

from acts_hub.gateway import Gateway
from acts_hub.gateway.findings import KIND

pytestmark = pytest.mark.quick
HEAD, MERGE = sha('head'), sha('merge')
COMMIT = f'/repos/octo/hello/commits/{HEAD}'


def put(stand: Stand, number: int, conclusion: str | None = 'success', **given: Any) -> None:
    status = 'completed' if conclusion else 'in_progress'
    state = conclusion or 'running'
    jobs = [job_of('build',
                   state=state)] if state == 'skipped' else [job_of('build', leg_of(state),
                                                                    state=state if conclusion else 'open')]
    stand.mirror.put(run_of(number, status=status, conclusion=conclusion, **{'sha': HEAD, **given}), *jobs)


def test_a_context_is_of_a_workflow_and_an_event(stand: Stand) -> None:
    put(stand, 1, 'failure')
    put(stand, 2)  # the same again: the latest counts
    put(stand, 3, event='pull_request', pull_number=7, branch='feature')
    put(stand, 4, 'failure', path='.github/workflows/lint.yml', workflow='Lint')
    found = stand.json(f'{COMMIT}/status')
    assert {status['context']: status['state'] for status in found['statuses']} == {
        'CI (push)': 'success', 'CI (pull_request)': 'success', 'Lint (push)': 'failure'}
    assert (found['state'], found['sha'], found['total_count']) == ('failure', HEAD, 3)
    assert found['repository']['full_name'] == 'octo/hello'
    bare = stand.json(f'{COMMIT}/statuses')
    assert len(bare) == 3 and stand.json(f'/repos/octo/hello/statuses/{HEAD}') == bare
    assert bare[0]['target_url'] == 'https://hub.example:8443/octo/hello/actions/runs/4'


@pytest.mark.parametrize('conclusion, state', [
    ('success', 'success'), ('skipped', 'success'), ('failure', 'failure'), ('cancelled', 'failure'),
    (None, 'pending')])
def test_the_state_of_a_commit(stand: Stand, conclusion: str | None, state: str) -> None:
    put(stand, 1)
    put(stand, 2, conclusion, path='.github/workflows/lint.yml')
    assert stand.json(f'{COMMIT}/status')['state'] == state


def test_a_pull_request_s_status_is_at_its_head(stand: Stand) -> None:
    put(stand, 1, event='pull_request', pull_number=7, branch='feature')
    assert stand.json(f'{COMMIT}/status')['total_count'] == 1
    answer = stand.get(f'/repos/octo/hello/commits/{MERGE}/status')
    assert answer.status == 404 and 'No run of this commit' in answer.json()['message']


def test_branches_name_the_commit_of_their_latest_run(stand: Stand) -> None:
    put(stand, 1, branch='topic/a', sha=sha('old'))
    put(stand, 2, branch='topic/a')
    for ref in ('topic/a', 'topic%2Fa', 'heads/topic/a', 'refs/heads/topic/a'):
        assert stand.json(f'/repos/octo/hello/commits/{ref}/status')['sha'] == HEAD
    assert stand.get('/repos/octo/hello/commits/none/status').status == 404


def test_check_runs(stand: Stand) -> None:
    put(stand, 1)
    put(stand, 2, 'skipped', path='.github/workflows/lint.yml', workflow='Lint')
    put(stand, 3, 'cancelled', path='.github/workflows/deploy.yml', workflow='Deploy')
    put(stand, 4, None, path='.github/workflows/long.yml', workflow='Long')
    found = stand.json(f'{COMMIT}/check-runs')
    assert [(one['check_suite']['id'], one['name'], one['status'], one['conclusion'])
            for one in found['check_runs']] == [
        (4, 'build', 'in_progress', None), (3, 'build', 'completed', 'cancelled'), (2, 'build', 'completed', 'skipped'),
        (1, 'build', 'completed', 'success')]
    last = found['check_runs'][-1]
    assert last['html_url'] == last[
        'details_url'] == f'https://hub.example:8443/octo/hello/actions/runs/1/job/{last["id"]}'
    assert stand.json(f'/repos/octo/hello/check-runs/{last["id"]}') == last
    assert stand.json(f'/repos/octo/hello/check-suites/1/check-runs')['check_runs'] == [last]
    assert stand.json(f'{COMMIT}/check-runs?status=in_progress')['total_count'] == 1
    assert stand.json(f'{COMMIT}/check-runs?check_name=none')['total_count'] == 0
    assert len(stand.json(f'{COMMIT}/check-runs?per_page=3&page=2')['check_runs']) == 1


def test_check_suites(stand: Stand) -> None:
    put(stand, 1)
    put(stand, 2, None, path='.github/workflows/long.yml')
    found = stand.json(f'{COMMIT}/check-suites')
    assert [(one['id'], one['status'], one['conclusion'], one['latest_check_runs_count'])
            for one in found['check_suites']] == [
        (2, 'in_progress', None, 1), (1, 'completed', 'success', 1)]
    assert stand.json('/repos/octo/hello/check-suites/1') == found['check_suites'][1]
    assert stand.get('/repos/octo/hello/check-suites/9').status == 404


def test_annotations_are_those_of_the_steps(stand: Stand) -> None:
    put(stand, 1, 'failure')
    note = {'annotation_level': 'failure', 'message': '<b>wrong</b>', 'title': None, 'path': 'src/a.py',
            'start_line': 7, 'end_line': 9, 'start_column': None,
            'end_column': None, 'step': 2}
    bare = {'annotation_level': 'notice', 'message': 'said', 'title': 'T', 'path': None, 'start_line': None,
            'end_line': None, 'start_column': None, 'end_column': None}
    gateway = stand.hub.gateway
    assert isinstance(gateway, Gateway)
    stand.hub.notes.set(1, 1, KIND, 'build/0', {'annotations': [note, bare]})
    check, = stand.json(f'{COMMIT}/check-runs')['check_runs']
    assert check['output']['annotations_count'] == 2
    first, second = stand.json(f'/repos/octo/hello/check-runs/{check["id"]}/annotations')
    # the members that GitHub's documentation lists
    assert first == {'path': 'src/a.py', 'blob_href': '', 'start_line': 7, 'end_line': 9, 'start_column': None,
                     'end_column': None, 'annotation_level': 'failure',
                     'title': '', 'message': '<b>wrong</b>', 'raw_details': ''}
    assert (second['path'], second['start_line'], second['title']) == ('.github', 1, 'T')
    assert len(stand.json(f'/repos/octo/hello/check-runs/{check["id"]}/annotations?per_page=1')) == 1
    stand.hub.notes.drop(1)


def test_a_workflow_that_is_refused_is_an_error_of_its_commit(stand: Stand) -> None:
    commit = sha('refused')
    add = stand.hub.refused.add
    add(T0, 'octo/hello', 'push', 'd1', '.github/workflows/bad.yml', 'refs/heads/main', commit, 26, 7,
        'the condition reads an output')
    add(T0, 'octo/other', 'push', 'd2', '.github/workflows/other.yml', 'refs/heads/main', commit, 26, 7,
        'of another repository')
    put(stand, 5, sha=commit)
    found = stand.json(f'/repos/octo/hello/commits/{commit}/status')
    assert {one['context']: (one['state'], one['description']) for one in found['statuses']} == {
        'CI (push)': ('success', 'success'),
        '.github/workflows/bad.yml (push)': ('error', 'line 7: the condition reads an output')}
    assert found['state'] == 'failure'
    put(stand, 6, sha=commit, path='.github/workflows/bad.yml', workflow='')  # it was admitted since
    found = stand.json(f'/repos/octo/hello/commits/{commit}/status')
    assert found['state'] == 'success' and found['total_count'] == 2
    alone = sha('refused alone')
    add(T0, 'octo/hello', 'push', 'd3', '.github/workflows/bad.yml', 'refs/heads/main', alone, 26, None, 'x' * 1000)
    one, = stand.json(f'/repos/octo/hello/commits/{alone}/statuses')
    assert (one['state'], len(one['description'])) == ('error', 140)
