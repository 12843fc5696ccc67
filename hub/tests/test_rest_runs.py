"""Runs by the REST API: lists, filters, shapes, attempts, commands, rights."""
from __future__ import annotations

import pytest
from rest_stand import PATH, Stand, job_of, leg_of, run_of, sha

from acts_hub.rest.errors import Fault
from acts_hub.rest.filters import span_of
from acts_hub.service.hooks import Reply

pytestmark = pytest.mark.quick
RUNS = '/repos/octo/hello/actions/runs'
# the members of a workflow run that GitHub's documentation lists
MEMBERS = {
    'id', 'name', 'node_id', 'check_suite_id', 'check_suite_node_id', 'head_branch', 'head_sha', 'path', 'run_number',
    'run_attempt', 'referenced_workflows',
    'event', 'status', 'conclusion', 'workflow_id', 'url', 'html_url', 'pull_requests', 'created_at', 'updated_at',
    'actor', 'triggering_actor',
    'run_started_at', 'jobs_url', 'logs_url', 'check_suite_url', 'artifacts_url', 'cancel_url', 'rerun_url',
    'previous_attempt_url', 'workflow_url',
    'head_commit', 'repository', 'head_repository', 'display_title'}


def ids(stand: Stand, query: str = '') -> list[int]:
    return [run['id'] for run in stand.json(RUNS + query)['workflow_runs']]


def test_a_run_has_the_members_that_github_documents(stand: Stand) -> None:
    stand.mirror.put(run_of(17, number_of=4, branch='topic/a', actor='hubot'))
    run = stand.json(f'{RUNS}/17')
    assert MEMBERS - run.keys() == set()
    api = 'https://hub.example:8443/api/v3/repos/octo/hello'
    expected = {
        'id': 17, 'name': 'CI', 'head_branch': 'topic/a', 'head_sha': sha(17), 'path': PATH,
        'display_title': 'Change 17', 'run_number': 4,
        'event': 'push', 'status': 'completed', 'conclusion': 'success', 'url': f'{api}/actions/runs/17',
        'pull_requests': [],
        'html_url': 'https://hub.example:8443/octo/hello/actions/runs/17', 'created_at': '2026-11-30T19:30:17Z',
        'run_started_at': '2026-11-30T19:30:17Z',
        'updated_at': '2026-11-30T19:31:17Z', 'run_attempt': 1, 'jobs_url': f'{api}/actions/runs/17/jobs',
        'previous_attempt_url': None}
    assert {name: run[name] for name in expected} == expected
    assert run['actor']['login'] == 'hubot' and run['repository']['full_name'] == 'octo/hello'
    assert run['head_commit']['message'] == 'Change 17\n\nMore.' and run['head_commit']['author'] == {'name': 'Mona',
                                                                                                      'email': 'mona@example.org'}
    assert stand.json(f'/repos/octo/hello/actions/workflows/{run["workflow_id"]}')['path'] == PATH


def test_the_title_is_the_run_name_then_that_of_the_event(stand: Stand) -> None:
    stand.mirror.put(run_of(1, run_name='Deploy by @mona'))
    stand.mirror.put(run_of(2, title=None))
    assert [run['display_title'] for run in stand.json(RUNS)['workflow_runs']] == ['CI', 'Deploy by @mona']


def test_what_is_not_known_is_null(stand: Stand) -> None:
    stand.mirror.put(run_of(1, sha=None, branch=None, actor=None, title=None, message=None))
    run = stand.json(f'{RUNS}/1')
    assert (run['head_branch'], run['actor'], run['triggering_actor'], run['head_commit'],
            run['head_sha']) == (None, None, None, None, '')


def test_lists_are_newest_first_with_links(stand: Stand) -> None:
    for number in range(1, 46):
        stand.mirror.put(run_of(number))
    answer = stand.get(f'{RUNS}?per_page=20&page=2')
    found = answer.json()
    assert found['total_count'] == 45 and [run['id'] for run in found['workflow_runs']] == list(range(25, 5, -1))
    url = 'https://hub.example:8443/api/v3/repos/octo/hello/actions/runs?per_page=20&page='
    assert answer.headers[
        'Link'] == f'<{url}1>; rel="prev", <{url}3>; rel="next", <{url}3>; rel="last", <{url}1>; rel="first"'
    assert len(ids(stand)) == 30 and ids(stand,
                                         '?per_page=99999') == list(range(45, 0, -1)) and ids(stand, '?page=999') == []


def test_filters(stand: Stand) -> None:
    stand.mirror.put(run_of(1))
    stand.mirror.put(run_of(2, branch='topic/a', actor='hubot', event='pull_request', conclusion='failure'))
    stand.mirror.put(run_of(3, status='in_progress', path='.github/workflows/deploy.yml'))
    stand.mirror.put(run_of(4, conclusion='skipped'))
    stand.mirror.put(run_of(5, repository='octo/other'))
    assert ids(stand) == [4, 3, 2, 1]
    for query, expected in {
            'branch=topic/a': [2], 'branch=topic%2Fa': [2], 'actor=hubot': [2], 'event=pull_request': [2],
            f'head_sha={sha(3)}': [3],
            'status=completed': [4, 2, 1], 'status=in_progress': [3], 'status=failure': [2], 'status=success': [1],
            'status=skipped': [4],
            'status=neutral': [], 'check_suite_id=2': [2], 'branch=main&status=completed': [4, 1],
            'created=>=2026-11-30': [4, 3, 2, 1],
            'created=<2026-11-30': [], 'created=2026-11-30T19:30:02Z..2026-11-30T19:30:03Z': [3, 2],
            'branch=': [4, 3, 2, 1]}.items():
        assert ids(stand, '?' + query.replace('>', '%3E').replace('<', '%3C')) == expected, query
    assert ids(stand, '?status=skipped&branch=none') == []
    by_file = stand.json('/repos/octo/hello/actions/workflows/deploy.yml/runs')
    assert (by_file['total_count'], by_file['workflow_runs'][0]['id']) == (1, 3)


@pytest.mark.parametrize('query',
                         ['status=zz', 'created=yesterday', 'created=2026-13-01', 'created=..', 'check_suite_id=x',
                          'branch=' + 'x' * 2000, 'per_page=x'])
def test_filters_that_can_t_be_are_422_in_words(stand: Stand, query: str) -> None:
    stand.mirror.put(run_of(1))
    answer = stand.get(f'{RUNS}?{query}')
    assert answer.status == 422 and query.partition('=')[0] in answer.text and answer.json()['documentation_url']


@pytest.mark.parametrize('text, first, end', [
    ('2026-11-30', 1796040000000 - 43200000, 1796040000000 + 43200000), ('>=2026-11-30T12:00:00Z', 1796040000000, None),
    ('>2026-11-30T12:00:00Z', 1796040001000, None), ('<2026-11-30T13:00:00+01:00', 0, 1796040000000),
    ('<=2026-11-30T12:00:00Z', 0, 1796040001000), ('*..2026-11-30T12:00:00Z', 0, 1796040001000),
    ('2026-11-30T12:00:00Z..*', 1796040000000, None)])
def test_spans_of_time(text: str, first: int, end: int | None) -> None:
    assert span_of(text) == (first, 2 ** 62 if end is None else end)


@pytest.mark.parametrize('text', ['', '..', '0000-00-00', '9999-12-31T23:59:59-23:59', '2026-11-30T', 'é' * 10, '>'])
def test_spans_that_are_none(text: str) -> None:
    try:
        span_of(text)
    except Fault as fault:
        assert fault.status == 422


def test_pull_requests_can_be_left_out(stand: Stand) -> None:
    stand.mirror.put(run_of(1, event='pull_request', pull_number=7, branch='feature', base_ref='main',
                            head_repository='mona/hello'))
    pull, = stand.json(RUNS)['workflow_runs'][0]['pull_requests']
    assert (pull['number'], pull['head']['ref'], pull['base']['ref']) == (7, 'feature', 'main')
    assert stand.json(f'{RUNS}?exclude_pull_requests=true')['workflow_runs'][0]['pull_requests'] == []
    assert stand.json(f'{RUNS}/1')['head_repository']['full_name'] == 'mona/hello'


def test_entity_tags_hold_until_a_run_changes(stand: Stand) -> None:
    stand.mirror.put(run_of(1, status='in_progress'))
    first = stand.get(RUNS)
    again = stand.get(RUNS, If_None_Match=first.headers['ETag'])
    assert (again.status, again.body, again.headers['ETag']) == (304, b'', first.headers['ETag'])
    stand.mirror.put(run_of(1))
    changed = stand.get(RUNS, If_None_Match=first.headers['ETag'])
    assert changed.status == 200 and changed.json()['workflow_runs'][0]['status'] == 'completed'
    one = stand.get(f'{RUNS}/1')
    assert stand.get(f'{RUNS}/1', If_None_Match=one.headers['ETag']).status == 304


def test_attempts(stand: Stand) -> None:
    first = run_of(9, conclusion='failure')
    stand.mirror.put(first, job_of('build', leg_of('failure')))
    stand.mirror.put(run_of(9, attempt=2, status='in_progress'),
                     job_of('build', leg_of('running', ended_at=None), state='open'))
    present = stand.json(f'{RUNS}/9')
    assert (present['run_attempt'], present['status'], present['conclusion']) == (2, 'in_progress', None)
    assert stand.json(f'{RUNS}/9/attempts/2') == present
    assert present['previous_attempt_url'].endswith(f'{RUNS}/9/attempts/1')
    before = stand.json(f'{RUNS}/9/attempts/1')
    assert (before['run_attempt'], before['status'], before['conclusion'],
            before['previous_attempt_url']) == (1, 'completed', 'failure', None)
    assert before['run_started_at'] == '2026-11-30T19:30:09Z' and before['updated_at'] == '2026-11-30T19:31:09Z'
    for attempt in ('0', '3', '-1', 'x', '99999999999999999999'):
        assert stand.get(f'{RUNS}/9/attempts/{attempt}').status == 404
    del stand.mirror.wholes[9, 1]
    answer = stand.get(f'{RUNS}/9/attempts/1/jobs')
    assert answer.status == 404 and 'not known' in answer.json()['message']


def test_timing(stand: Stand) -> None:
    stand.mirror.put(run_of(1))
    assert stand.json(f'{RUNS}/1/timing') == {'billable': {}, 'run_duration_ms': 60000}


# commands

def test_cancel(stand: Stand) -> None:
    stand.mirror.put(run_of(1, status='in_progress'))
    assert stand.ask('POST', f'{RUNS}/1/cancel').status == 202
    assert stand.hooks.commands == [('cancel', 1)]
    stand.hooks.reply = Reply(False, 41, 'refused 41', 409)
    answer = stand.ask('POST', f'{RUNS}/1/cancel')
    assert (answer.status, answer.json()['message']) == (409, 'Cannot cancel a workflow run that is completed.')
    stand.hooks.reply = Reply(False, 46, 'refused 46', 503)
    answer = stand.ask('POST', f'{RUNS}/1/cancel')
    assert answer.status == 503 and 'history' in answer.json()['message']


def test_rerun(stand: Stand) -> None:
    stand.mirror.put(run_of(1))
    assert stand.ask('POST', f'{RUNS}/1/rerun').status == 201
    assert stand.hooks.commands == [('rerun', 1, 2)] and stand.mirror.actors == [(1, 0, 'keep'), (1, 2, 'mona')]
    stand.mirror.put(run_of(2, status='queued'))
    answer = stand.ask('POST', f'{RUNS}/2/rerun')
    assert (answer.status, answer.json()['message']) == (403, 'This workflow is already running')
    answer = stand.ask('POST', f'{RUNS}/1/rerun', body={'enable_debug_logging': True})
    assert answer.status == 422 and 'Debug' in answer.json()['message']
    assert len(stand.hooks.commands) == 1


@pytest.mark.parametrize('path',
                         [f'{RUNS}/1/rerun-failed-jobs', f'{RUNS}/1/force-cancel',
                          '/repos/octo/hello/actions/jobs/67174400/rerun'])
def test_what_the_service_can_t_is_422_with_a_sentence(stand: Stand, path: str) -> None:
    stand.mirror.put(run_of(1))
    answer = stand.ask('POST', path)
    assert answer.status == 422 and answer.json()['message'].startswith('The service ')


def test_what_a_newer_service_can(stand: Stand) -> None:
    stand.hooks.is_newer = True
    stand.mirror.put(run_of(1, conclusion='failure'))
    assert stand.ask('POST',
                     f'{RUNS}/1/rerun-failed-jobs').status == 201 and stand.ask('POST',
                                                                                f'{RUNS}/1/force-cancel').status == 202
    assert stand.hooks.commands == [('retry', 1, 2), ('force', 1)] and stand.mirror.actors[-1] == (1, 2, 'mona')
    stand.hooks.reply = Reply(False, 49, 'refused 49', 409)
    assert stand.ask('POST', f'{RUNS}/1/rerun-failed-jobs').status == 403
    stand.hooks.reply = Reply(False, 48, 'refused 48', 409)
    answer = stand.ask('POST', f'{RUNS}/1/rerun')
    assert answer.status == 422 and 'counter' in answer.json()['message']
    stand.hooks.reply = Reply(False, 40, 'refused 40', 404)
    assert stand.ask('POST', f'{RUNS}/1/cancel').status == 404


def test_a_run_is_not_deleted(stand: Stand) -> None:
    stand.mirror.put(run_of(1))
    assert stand.ask('DELETE', f'{RUNS}/1').status == 422 and stand.json(f'{RUNS}/1')['id'] == 1


@pytest.mark.parametrize('method, path', [
    ('POST', f'{RUNS}/1/cancel'), ('POST', f'{RUNS}/1/rerun'), ('POST', f'{RUNS}/1/force-cancel'),
    ('POST', f'{RUNS}/1/rerun-failed-jobs'),
    ('DELETE', f'{RUNS}/1'), ('DELETE', f'{RUNS}/1/logs'),
    ('POST', '/repos/octo/hello/actions/workflows/ci.yml/dispatches'),
    ('PUT', '/repos/octo/hello/actions/workflows/ci.yml/disable'),
    ('POST', '/repos/octo/hello/actions/jobs/67174400/rerun'),
    ('DELETE', '/repos/octo/hello/actions/caches?key=a'), ('DELETE', '/repos/octo/hello/actions/caches/1'),
    ('DELETE', '/repos/octo/hello/actions/artifacts/1'),
    ('POST', '/repos/octo/hello/actions/runners/registration-token')])
def test_who_may_act(stand: Stand, method: str, path: str) -> None:
    stand.mirror.put(run_of(1))
    answer = stand.ask(method, path, 'read')
    assert (answer.status, answer.headers['X-Accepted-GitHub-Permissions']) == (403, 'actions=write')
    assert stand.ask(method, path, 'other').status == 404  # a repository that one may not read
    assert stand.ask(method, path, 'runner').status == 404
    assert stand.ask(method, path, None).status == 401
    assert stand.ask(method, path, 'wrong').status == 401
    assert stand.hooks.commands == []


def test_who_may_read(stand: Stand) -> None:
    stand.mirror.put(run_of(1))
    stand.mirror.put(run_of(2, repository='other/thing'))
    assert stand.get(f'{RUNS}/1', 'octo').status == 200
    for token, path in (('octo', '/repos/other/thing/actions/runs'), ('other', RUNS), ('runner', RUNS),
                        ('read', '/repos/octo/nothing')):
        answer = stand.get(path, token)
        assert (answer.status, answer.json()['message']) == (404, 'Not Found')
    assert stand.get('/repos/octo/hello/actions/runs/2').status == 404  # of another repository
    for token in (None, 'wrong', '\xe9', 'x' * 300, '"', 'acts_' + 'A' * 43):
        answer = stand.get(RUNS, token)
        assert answer.status == 401 and answer.json()['message'] in ('Requires authentication', 'Bad credentials')


def test_names_of_repositories_have_no_case(stand: Stand) -> None:
    stand.mirror.put(run_of(1, repository='Octo/Hello'))
    assert stand.json('/repos/octo/HELLO')['full_name'] == 'Octo/Hello'
    assert stand.json('/repos/oCtO/hello/actions/runs/1')['repository']['full_name'] == 'Octo/Hello'


def test_while_runs_are_listed_it_says_so(stand: Stand) -> None:
    stand.mirror.is_whole = False
    answer = stand.get(RUNS)
    assert (answer.status, answer.headers['Retry-After']) == (503, '2')


def test_a_service_that_is_away_is_503(stand: Stand) -> None:
    stand.mirror.put(run_of(1))
    stand.mirror.is_away = True
    answer = stand.get(f'{RUNS}/1/jobs')
    assert answer.status == 503 and 'service' in answer.json()['message'] and stand.get(f'{RUNS}/1').status == 200
