"""Jobs and logs by the REST API."""
from __future__ import annotations

import io
import zipfile

import pytest
from rest_stand import Stand, job_of, leg_of, run_of

from acts_hub.gateway import Gateway
from acts_hub.rest.archives import folders_of, safe_name
from acts_hub.rest.downloads import Downloads
from acts_hub.rest.names import leg_name
from acts_hub.rest.numbers import JobNumber
from acts_hub.service.models import Wait

pytestmark = pytest.mark.quick
RUN = '/repos/octo/hello/actions/runs/1'
# the members of a job that GitHub's documentation lists
MEMBERS = {'id', 'run_id', 'run_url', 'run_attempt', 'node_id', 'head_sha', 'url', 'html_url', 'status', 'conclusion',
           'created_at', 'started_at',
           'completed_at', 'name', 'steps', 'check_run_url', 'labels', 'runner_id', 'runner_name', 'runner_group_id',
           'runner_group_name', 'workflow_name',
           'head_branch'}
AT = 1_796_067_010_000


def jobs(stand: Stand, query: str = '') -> list[dict[str, object]]:
    found: list[dict[str, object]] = stand.json(f'{RUN}/jobs{query}')['jobs']
    return found


@pytest.mark.parametrize('name, combination, expected', [
    ('test', {}, 'test'), ('test', {'node': 20, 'os': 'linux'}, 'test (20, linux)'),
    ('Test it', {'flag': True, 'none': None}, 'Test it (true, )'),
    ('Node ${{ matrix.node }} on ${{matrix.os}}', {'node': 20, 'os': 'linux'}, 'Node 20 on linux'),
    ('${{ matrix.gone }}!', {'node': 20}, '!'),
    ('by ${{ github.actor }}', {}, 'by ${{ github.actor }}'), ("${{ format('{0}', matrix.a) }}", {'a': 'x'}, 'x'),
    ('x' * 120, {}, 'x' * 97 + '...')])
def test_names_of_jobs(name: str, combination: dict[str, object], expected: str) -> None:
    assert leg_name(name, combination) == expected


def test_a_job_has_the_members_that_github_documents(stand: Stand) -> None:
    stand.mirror.put(run_of(1),
                     job_of('test', leg_of(combination={'node': 20, 'os': 'linux'}, index=0),
                            leg_of('failure', 1, combination={'node': 22, 'os': 'linux'})))
    first, second = jobs(stand)
    assert MEMBERS - first.keys() == set()
    number = 1 << 26 | 1 << 16
    assert (first['id'], second['id']) == (number, number | 1)
    assert (first['name'], first['status'], first['conclusion'],
            first['labels']) == ('test (20, linux)', 'completed', 'success', ['linux'])
    assert (first['runner_name'], first['run_id'],
            first['workflow_name']) == ('r1', 1, 'CI') and second['conclusion'] == 'failure'
    assert (first['started_at'], first['completed_at']) == ('2026-11-30T19:30:10Z', '2026-11-30T19:30:30Z')
    assert first['html_url'] == f'https://hub.example:8443/octo/hello/actions/runs/1/job/{number}'
    assert stand.json(f'/repos/octo/hello/actions/jobs/{number}') == first
    assert stand.json(f'{RUN}/attempts/1/jobs')['jobs'] == [first, second]


def test_states_of_jobs(stand: Stand) -> None:
    queued = {'started_at': None, 'ended_at': None, 'lease': None, 'runner': None}
    stand.mirror.put(
        run_of(1, status='in_progress'), job_of('a', leg_of('running', ended_at=None), state='open'),
        job_of('b', leg_of('waiting', waits_for=Wait('group', 'deploy'), **queued), state='open'),
        job_of('c', leg_of('ready', waits_for=Wait('runner'), **queued), state='open'),
        job_of('d', leg_of('ready', waits_for=Wait('runner'), **{**queued, 'labels': ('linux', 'approved-1')}),
               state='open'),
        job_of('e', state='blocked'), job_of('f', state='skipped'),
        job_of('g', leg_of('cancelled', **queued), state='cancelled'))
    found = {job['name']: (job['status'], job['conclusion']) for job in jobs(stand)}
    assert found == {'a': ('in_progress', None), 'b': ('pending', None), 'c': ('queued', None), 'd': ('waiting', None),
                     'f': ('completed', 'skipped'),
                     'g': ('completed', 'cancelled')}  # a job that waits for others is none yet
    by_name = {job['name']: job for job in jobs(stand)}
    assert by_name['a']['completed_at'] is None and by_name['c']['runner_name'] is None and by_name['c'][
        'completed_at'] is None
    assert by_name['f']['started_at'] == by_name['f']['completed_at'] is not None


def test_jobs_of_all_attempts(stand: Stand) -> None:
    stand.mirror.put(run_of(1, conclusion='failure'), job_of('build', leg_of('failure')))
    stand.mirror.put(run_of(1, attempt=2), job_of('build', leg_of('success', lease=8)))
    assert [(job['run_attempt'], job['conclusion']) for job in jobs(stand)] == [(2, 'success')]
    assert [(job['run_attempt'], job['conclusion']) for job in jobs(stand, '?filter=latest')] == [(2, 'success')]
    assert [(job['run_attempt'], job['conclusion'])
            for job in jobs(stand, '?filter=all')] == [(1, 'failure'), (2, 'success')]
    assert stand.get(f'{RUN}/jobs?filter=some').status == 422
    assert stand.json(f'{RUN}/attempts/1/jobs')['jobs'][0]['conclusion'] == 'failure'
    assert stand.get(f'{RUN}/attempts/3/jobs').status == 404
    assert stand.get(f'/repos/octo/hello/actions/jobs/{JobNumber(1, 1, 0, 0).value}').json()['conclusion'] == 'failure'


@pytest.mark.parametrize('number',
                         ['0', '1', '67174401', '67239936', '-1', '99999999999999999999999', '9007199254740991', 'x',
                          '%2e%2e', '1%2F2'])
def test_numbers_of_jobs_that_are_none(stand: Stand, number: str) -> None:
    stand.mirror.put(run_of(1))
    for path in ('', '/logs'):
        assert stand.get(f'/repos/octo/hello/actions/jobs/{number}{path}').status == 404


def test_a_job_of_another_repository_is_not_told_of(stand: Stand) -> None:
    stand.mirror.put(run_of(1))
    stand.mirror.put(run_of(2, repository='octo/secret'))
    del stand.mirror.wholes[2, 1]  # what it did is not known, which is not told either
    for path in ('', '/logs'):
        answer = stand.get(f'/repos/octo/hello/actions/jobs/{JobNumber(2, 1, 0, 0).value}{path}')
        assert (answer.status, answer.json()['message']) == (404, 'Not Found')
    answer = stand.get(f'/repos/octo/hello/check-runs/{JobNumber(2, 1, 0, 0).value}/annotations')
    assert (answer.status, answer.json()['message']) == (404, 'Not Found')


def test_numbers_of_jobs_are_taken_apart() -> None:
    number = JobNumber(100_000, 1000, 255, 254)
    assert JobNumber.of(number.value) == number and number.value < 2 ** 53


def write_log(stand: Stand, run: int = 1, title: str = 'Compile', job: str = 'build') -> bytes:
    """A log of two steps."""
    logs, where = stand.hub.logs, (run, 1, job, 0, 7)
    head, first, last = b'2026-11-30T19:30:10.000Z Set up\n', b'2026-11-30T19:30:11.000Z compiled \xc3\xa9\n', b'2026-11-30T19:30:12.000Z tested\n'
    logs.append(*where, 0, head + first + last)
    logs.step(*where, 1, title, len(head), AT)
    logs.step_end(*where, 1, 'success', len(head + first), AT + 1000)
    logs.step(*where, 2, 'Test', len(head + first), AT + 1000)
    logs.step_end(*where, 2, 'failure', len(head + first + last), AT + 3000)
    return head + first + last


def test_steps_come_from_the_log(stand: Stand) -> None:
    stand.mirror.put(run_of(1, conclusion='failure'), job_of('build', leg_of('failure')))
    stand.hub.logs.drop(1)
    assert jobs(stand)[0]['steps'] == []
    write_log(stand)
    assert jobs(stand)[0]['steps'] == [
        {'name': 'Compile', 'number': 1, 'status': 'completed', 'conclusion': 'success',
         'started_at': '2026-11-30T19:30:10Z', 'completed_at': '2026-11-30T19:30:11Z'},
        {'name': 'Test', 'number': 2, 'status': 'completed', 'conclusion': 'failure',
         'started_at': '2026-11-30T19:30:11Z', 'completed_at': '2026-11-30T19:30:13Z'}]


def test_a_step_that_goes_on_and_one_that_nobody_ended(stand: Stand) -> None:
    stand.hub.logs.drop(1)
    stand.mirror.put(run_of(1, status='in_progress'), job_of('build', leg_of('running', ended_at=None), state='open'))
    stand.hub.logs.step(1, 1, 'build', 0, 7, 1, 'Compile', 0, AT)
    step, = stand.json(f'{RUN}/jobs')['jobs'][0]['steps']
    assert (step['status'], step['conclusion'], step['completed_at']) == ('in_progress', None, None)
    stand.mirror.put(run_of(1, conclusion='cancelled'), job_of('build', leg_of('cancelled'), state='cancelled'))
    step, = stand.json(f'{RUN}/jobs')['jobs'][0]['steps']
    assert (step['status'], step['conclusion'],
            step['completed_at']) == ('completed', 'cancelled', '2026-11-30T19:30:30Z')


def test_the_log_of_a_job_is_a_redirect_that_needs_no_token(stand: Stand) -> None:
    stand.mirror.put(run_of(1))
    stand.hub.logs.drop(1)
    path = f'/repos/octo/hello/actions/jobs/{JobNumber(1, 1, 0, 0).value}/logs'
    answer = stand.get(path)
    assert answer.status == 404 and 'no log' in answer.json()['message']
    text = write_log(stand)
    found = stand.follow(stand.get(path))
    assert (found.status, found.body, found.headers['Content-Type']) == (200, text, 'text/plain; charset=utf-8')
    assert stand.get(path, 'other').status == 404 and stand.get(path, None).status == 401


def test_the_zip_of_a_run_has_what_gh_looks_for(stand: Stand) -> None:
    stand.hub.logs.drop(1)
    stand.mirror.put(run_of(1), job_of('build', leg_of(), title='Build / it'), job_of('gone', leg_of(lease=99)))
    assert stand.get(f'{RUN}/logs').status == 404
    text = write_log(stand, title='../../etc: x')
    for path in (f'{RUN}/logs', f'{RUN}/attempts/1/logs'):
        found = stand.follow(stand.get(path))
        assert found.headers['Content-Type'] == 'application/zip'
        with zipfile.ZipFile(io.BytesIO(found.body)) as made:
            assert made.testzip() is None
            names = made.namelist()
            assert made.read('0_Build  it.txt') == text
            assert made.read('Build / it/1_....etc x.txt').endswith(b'compiled \xc3\xa9\n') and made.read(
                'Build  it/2_Test.txt').endswith(b'tested\n')
        assert len(names) == 5 and all('..' not in name.split('/') and not name.startswith('/') for name in names)


@pytest.mark.parametrize('name', ['..', '.', '', '/', '../..', 'a/../b', '\\..\\', '\x00', 'a\nb', ' . . '])
def test_names_in_a_zip_stay_in_their_folder(name: str) -> None:
    for folder in [safe_name(name), *folders_of(name)]:
        assert folder and not folder.startswith('/') and '\\' not in folder and folder.isprintable()
        assert all(part.strip('. ') for part in folder.split('/'))


def test_removing_logs(stand: Stand) -> None:
    stand.hub.logs.drop(1)
    stand.mirror.put(run_of(1, status='in_progress'), job_of('build', leg_of()))
    write_log(stand)
    assert stand.ask('DELETE', f'{RUN}/logs').status == 409
    stand.mirror.put(run_of(1))
    assert stand.ask('DELETE', f'{RUN}/logs').status == 204 and stand.get(f'{RUN}/logs').status == 404


def test_signed_addresses_hold_for_a_minute_and_for_one_path(stand: Stand) -> None:
    downloads = Downloads(b'secret')
    path = '/api/v3/acts/downloads/jobs/1'
    given = dict(part.split('=') for part in downloads.address(path, 1000).partition('?')[2].split('&'))
    until, signature = given['until'], given['signature']
    assert downloads.holds(path, until, signature, 1060) and not downloads.holds(path, until, signature, 1061)
    assert not downloads.holds(path + '1', until, signature,
                               1000) and not downloads.holds(path, '1061', signature, 1000)
    assert not Downloads(b'other').holds(path, until, signature, 1000)
    for bad in ('', '-1', '1e3', '9' * 40, '١'):
        assert not downloads.holds(path, bad, signature, 1000)
    assert not downloads.holds(path, until, 'é', 1000)
    stand.mirror.put(run_of(1))
    write_log(stand)
    signed = stand.get(f'/repos/octo/hello/actions/jobs/{JobNumber(1, 1, 0, 0).value}/logs').headers[
        'Location'].removeprefix(stand.hub.config.url)
    assert stand.ask('HEAD', signed, None).status in (401, 404) and stand.ask('GET', signed, None).status == 200
    for kind in (f'jobs/{JobNumber(1, 1, 0, 0).value}', 'runs/1/1', 'artifacts/1'):
        assert stand.get(f'/acts/downloads/{kind}', 'admin').status == 404
        assert stand.get(f'/acts/downloads/{kind}?until=9999999999&signature=00', 'admin').status == 404


def test_a_matrix_is_named_in_the_order_of_its_file(stand: Stand) -> None:
    stand.mirror.put(run_of(1, matrix_names={'test': ('os', 'node')}),
                     job_of('test', leg_of(combination={'extra': 'x', 'node': 20, 'os': 'linux'})))
    assert jobs(stand)[0]['name'] == 'test (linux, 20, x)'


def test_a_job_that_waits_for_its_environment_is_queued_once_approved(stand: Stand) -> None:
    leg = leg_of('ready', waits_for=Wait('runner'), started_at=None, ended_at=None, lease=None, runner=None,
                 labels=('linux', 'approved-1'))
    stand.mirror.put(run_of(1, status='in_progress'), job_of('deploy', leg, state='open'))
    assert jobs(stand)[0]['status'] == 'waiting'
    gateway = stand.hub.gateway
    assert isinstance(gateway, Gateway)
    gateway.environments.approved[1] = 1
    try:
        assert jobs(stand)[0]['status'] == 'queued'
    finally:
        gateway.environments.approved.clear()
