"""Gitea's protocol of runners at the gateway: a client of the tests' own takes legs by it. No real act_runner was to be had."""
from __future__ import annotations

import json
import pathlib
import shutil
import time
from collections.abc import Callable, Iterator
from typing import Any

import pytest
from harness import HubProcess, Service
from runner_trials import until
from test_runner_hub import LINE, Site, site, tls  # noqa: F401  (fixtures)

if not shutil.which('protoc'):
    pytest.skip('protobuf-compiler is not installed', allow_module_level=True)
from gitea_client import Client, Refusal, context_of, messages, workflow_of  # noqa: E402
from google.protobuf import json_format  # noqa: E402


@pytest.fixture(params=['proto', 'json'])
def client(request: pytest.FixtureRequest, site: Site) -> Client:
    """A client that has not registered."""
    return Client(site.hub, request.param == 'json')


@pytest.fixture
def alone(make_hub: Callable[..., HubProcess], tmp_path: pathlib.Path) -> Iterator[Site]:
    """A hub that a test may kill; it gives up a task after ten seconds of silence."""
    made = Site(tmp_path, make_hub(tables={'gateway': {'silence_of_tasks': 10}}))
    yield made
    made.close()


def step(number: int, result: str, index: int, length: int) -> dict[str, Any]:
    """The state of a step."""
    made = {'id': number, 'result': f'RESULT_{result}', 'started_at': f'2026-11-30T12:00:{index:02d}Z', 'log_index': index, 'log_length': length}
    return {**made, 'stopped_at': f'2026-11-30T12:00:{index + length:02d}Z'} if result != 'UNSPECIFIED' else made


def conclusion(site: Site, run: int) -> Any:
    return site.service.run(run)['conclusion']


@pytest.mark.quick
def test_a_job_from_its_registration_to_its_result(site: Site, client: Client) -> None:
    """The workflow of one job and combination, its contexts, its log, steps and outputs, and the needs of the job behind it."""
    assert client.call('Ping', data='there').data == 'Hello, there!'
    runner = client.register(site.token, f'{site.label}:docker://node:20', name='g 1')
    assert (runner.name, list(runner.labels), runner.uuid) == ('g-1', [site.label], client.uuid)
    assert client.fetch() is None
    first = {'strategy': {'matrix': {'os': ['a']}}, 'outputs': {'v': '${{ steps.v.outputs.v }}'}, 'if': 'success()', 'steps': [{'name': 'One', 'run': 'echo 1'}, {'uses': 'octo/x@v1'}]}
    run = site.admit(jobs={'build': first, 'deploy': {'needs': 'build', 'steps': [{'run': 'echo 2'}]}}, github={'event_name': 'push', 'event': {'number': 7}})
    task = client.fetch()
    workflow, github = workflow_of(task), context_of(task)
    assert list(workflow['jobs']) == ['build'] and workflow['on'] == 'push' and workflow['jobs']['build']['strategy'] == {'matrix': {'os': ['a']}}
    assert workflow['jobs']['build']['steps'] == first['steps'] and not {'needs', 'if'} & workflow['jobs']['build'].keys()
    assert (github['repository'], github['run_id'], github['event'], github['ref'], github['token']) == ('octo/hello', str(run), {'number': 7}, 'refs/heads/main', '')
    assert not task.secrets and client.fetch() is None
    assert client.log(task, 0, 'set up', 'one') == 2
    assert client.update(task, steps=[step(0, 'UNSPECIFIED', 1, 1)]).state.result == 0
    assert client.log(task, 1, 'one', 'two ä', 'three') == 4, 'what is there is left as it is'
    assert client.log(task, 9, 'a gap') == 4
    done = client.update(task, 'SUCCESS', [step(0, 'SUCCESS', 1, 1), step(1, 'SKIPPED', 2, 2)], {'v': '1.2'})
    assert list(done.sent_outputs) == ['v'] and done.state.result == 1
    assert client.update(task, 'SUCCESS').state.result == 1, 'a report that comes again'
    assert client.log(task, 4, 'last', no_more=True) == 5
    lines = site.log(run)
    assert all(LINE.match(line) for line in lines) and lines[0].startswith('2026-11-30T12:00:00.5000000Z ')
    assert site.said(run) == ['set up', 'one', 'two ä', 'three', 'last']
    assert site.steps(run) == [(1, 'Set up job', 'success'), (2, 'One', 'success'), (3, 'Run octo/x@v1', 'skipped')]
    second = client.fetch()
    need = second.needs['build']
    assert list(workflow_of(second)['jobs']) == ['deploy'] and need.result == 1 and dict(need.outputs) == {'v': '1.2'}
    client.update(second, 'FAILURE')
    assert conclusion(site, run) == 'failure'


def test_what_a_step_prints(site: Site, client: Client) -> None:
    """Annotations and groups, as of any runner: Gitea's passes on the commands as they are printed."""
    client.register(site.token, site.label)
    run = site.admit({'run': 'true'})
    task = client.fetch()
    client.log(task, 0, '::group::A title', '::error file=src/a.c,line=3::Bad%0Aworse', '::endgroup::', '::debug::as it is')
    client.update(task, 'SUCCESS')
    assert site.said(run) == ['##[group]A title', '##[error]Bad worse', '##[endgroup]', '::debug::as it is']
    assert [(one['annotation_level'], one['message'], one['path'], one['start_line']) for one in site.annotations(run)] == [('failure', 'Bad\nworse', 'src/a.c', 3)]


def test_who_may_call(site: Site, client: Client) -> None:
    """Tokens, labels, ids and messages that are not right, each with its code."""
    def refused(method: str, **given: Any) -> tuple[int, str]:
        with pytest.raises(Refusal) as found:
            client.call(method, **given)
        return found.value.status, found.value.code
    assert refused('Register', name='x', token='acts_wrong', labels=[site.label]) == (401, 'unauthenticated')
    assert refused('Register', name='x', token=site.hub.token('reads', 'read'), labels=[site.label]) == (401, 'unauthenticated')
    assert refused('Register', name='x', token=site.token, labels=['production']) == (403, 'permission_denied')
    assert refused('Register', name='x', token=site.token, labels=[]) == (400, 'invalid_argument')
    assert refused('FetchTask') == (401, 'unauthenticated')
    client.register(site.token, site.label)
    assert refused('Declare', labels=['production']) == (403, 'permission_denied')
    assert refused('UpdateTask', state={'id': 99}) == (404, 'not_found') and refused('UpdateLog', task_id=99) == (404, 'not_found')
    mine, client.uuid = client.uuid, '00000000-0000-0000-0000-000000000000'
    assert refused('FetchTask') == (401, 'unauthenticated')
    client.uuid, client.token = mine, site.hub.token('others', 'runner', prefix='', labels=(site.label,))
    assert refused('FetchTask') == (401, 'unauthenticated'), 'a token that has not registered it'
    other = Client(site.hub)
    other.register(site.token, site.label)
    task_of_another(site, other, client)


def task_of_another(site: Site, holder: Client, client: Client) -> None:
    """A runner can't report what another one holds."""
    run = site.admit({'run': 'true'})
    task = holder.fetch()
    client.token = holder.token
    with pytest.raises(Refusal):
        client.update(task, 'SUCCESS')
    with pytest.raises(Refusal):
        client.log(task, 0, 'mine')
    holder.update(task, 'SUCCESS')
    assert conclusion(site, run) == 'success' and site.said(run) == []


WRONG = [(b'\xff', 'application/proto', 400), (b'\x0a\x7fx', 'application/proto', 400), (b'\x0b', 'application/proto', 400), (b'{', 'application/json', 400),
         (b'[]', 'application/json', 400), (b'{"labels": "x"}', 'application/json', 400), (b'{"name": 7}', 'application/json', 400), (b'', 'text/plain', 415),
         (b'{"labels": ' + b'[' * 60_000, 'application/json', 400)]


@pytest.mark.parametrize('body, kind, status', WRONG, ids=range(len(WRONG)))
def test_messages_that_are_malformed(site: Site, body: bytes, kind: str, status: int) -> None:
    answer = site.hub.request('POST', '/api/actions/runner.v1.RunnerService/Register', body, headers={'Content-Type': kind})
    assert answer.status == status and (status == 415 or answer.json()['code'] == 'invalid_argument')


@pytest.mark.parametrize('call', ['runner.v1.RunnerService/Register', 'ping.v1.PingService/Ping'])
def test_messages_of_nobody_are_short(site: Site, call: str) -> None:
    answer = site.hub.request('POST', f'/api/actions/{call}', b'{"name": "%s"}' % (b'x' * 65_536), headers={'Content-Type': 'application/json'})
    assert (answer.status, answer.json()['code']) == (429, 'resource_exhausted')


@pytest.mark.parametrize('method', ['Declare', 'FetchTask', 'UpdateTask', 'UpdateLog'])
def test_no_message_of_nobody_is_read(site: Site, method: str) -> None:
    """Who has no token of a runner is refused before the message, which would be malformed."""
    answer = site.hub.request('POST', f'/api/actions/runner.v1.RunnerService/{method}', b'\xff', headers={'Content-Type': 'application/proto'})
    assert (answer.status, answer.json()['code']) == (401, 'unauthenticated')


def test_two_tasks_at_a_time(site: Site, client: Client) -> None:
    """A runner with a capacity of two; each task has a name of its own at the service."""
    client.register(site.token, site.label)
    runs = [site.admit({'run': 'true'}) for _ in range(2)]
    tasks = [client.fetch(), client.fetch()]
    assert client.fetch() is None and {context_of(task)['run_id'] for task in tasks} == set(map(str, runs))
    for task in tasks:
        client.update(task, 'SUCCESS')
    assert [conclusion(site, run) for run in runs] == ['success', 'success']


@pytest.mark.quick
def test_a_late_report_of_a_task_says_nothing_of_the_next_one(site: Site, client: Client) -> None:
    """A report whose answer was lost comes again, while the runner has begun the next task."""
    client.register(site.token, site.label)
    runs = [site.admit({'run': 'true'}) for _ in range(2)]
    ended = client.fetch()
    client.update(ended, 'SUCCESS')
    client.log(ended, 0, 'of the first')
    begun = client.fetch()
    first, second = (int(context_of(task)['run_id']) for task in (ended, begun))
    client.log(begun, 0, 'of the second')
    assert sorted((first, second)) == runs and client.update(ended, 'SUCCESS').state.result == 1
    assert client.log(ended, 1, 'late') == 2 and client.update(begun).state.result == 0
    assert (conclusion(site, first), conclusion(site, second)) == ('success', None)
    client.update(begun, 'FAILURE')
    assert conclusion(site, second) == 'failure'
    assert (site.said(first), site.said(second)) == (['of the first', 'late'], ['of the second'])


def test_a_cancel(site: Site, client: Client) -> None:
    """The answer to a report says that the task is to end."""
    client.register(site.token, site.label)
    run = site.admit({'run': 'true'}, {'run': 'echo cleaned', 'if': 'always()'})
    task = client.fetch()
    assert client.update(task).state.result == 0
    site.service.post(f'/runs/{run}/cancel')
    until(lambda: client.update(task).state.result == 3)
    client.log(task, 0, 'it ends')
    client.update(task, 'CANCELLED', [step(0, 'CANCELLED', 0, 0)])
    assert conclusion(site, run) == 'cancelled' and site.steps(run)[-1] == (2, 'Run true', 'cancelled')


def test_values_out_of_all_bounds(site: Site) -> None:
    """Times, numbers and places that no runner means: the run's page and its steps stay readable."""
    client = Client(site.hub)
    client.register(site.token, site.label)
    run = site.admit({'run': 'true'})
    task = client.fetch()
    log = messages()['UpdateLogRequest'](task_id=task.id)
    log.rows.add(content='in the year 10^10').time.seconds = 1 << 60
    log.rows.add(content='before\nall').time.seconds = -(1 << 60)
    assert client.send('UpdateLog', log).ack_index == 2
    made = messages()['UpdateTaskRequest']()
    made.state.id = task.id
    for number, seconds, index in ((-5, 1, 0), (0, 1 << 60, -7), (1, -(1 << 60), 1 << 60), (1 << 40, 5, 0)):
        state = made.state.steps.add(id=number, log_index=index, result=99)
        state.started_at.seconds = seconds
    client.send('UpdateTask', made)
    client.update(task, 'SUCCESS')
    assert site.said(run) == ['in the year 10^10', 'before all'] and conclusion(site, run) == 'success'
    assert [number for number, _, _ in site.steps(run)] == [1, 2, 3]
    reader = site.hub.token('looks', 'read')
    assert site.hub.get(f'/api/v3/repos/octo/hello/actions/runs/{run}/jobs', reader).status == 200


def test_an_environment_that_nobody_has_freed(site: Site, client: Client) -> None:
    """The leg fails with a word, and no runner gets it."""
    client.register(site.token, site.label)
    run = site.admit({'run': 'true'}, environment={'name': 'production'})
    assert client.fetch() is None and conclusion(site, run) == 'failure'
    assert 'not run: jobs.build.environment: production is neither approved nor free of approvals' in site.log(run)[0]


def test_repositories_of_the_token(site: Site, client: Client) -> None:
    """As for any runner: no leg of another repository."""
    client.register(site.hub.token(f'narrow-{site.label}', 'runner', prefix='n-', labels=(site.label,), repositories=('other/*',)), site.label)
    run = site.admit({'run': 'true'})
    assert client.fetch() is None and site.service.run(run)['status'] == 'queued'


def test_the_hub_is_killed_while_a_task_runs(alone: Site) -> None:
    """The task goes on where it was: its lease, its log, its report."""
    client = Client(alone.hub)
    client.register(alone.token, alone.label)
    run = alone.admit({'run': 'true'})
    task = client.fetch()
    client.log(task, 0, 'one', 'two')
    client.update(task, steps=[step(0, 'UNSPECIFIED', 1, 1)])
    alone.hub.restart()
    assert client.log(task, 1, 'two', 'three') == 3
    client.update(task, 'SUCCESS', [step(0, 'SUCCESS', 1, 2)])
    assert conclusion(alone, run) == 'success' and alone.said(run) == ['one', 'two', 'three']
    assert alone.steps(run) == [(1, 'Set up job', 'success'), (2, 'Run true', 'success')]


def test_a_runner_that_is_gone(alone: Site) -> None:
    """Its task has failed once nothing was heard for the time of the configuration; a late report changes nothing."""
    client = Client(alone.hub)
    client.register(alone.token, alone.label)
    run = alone.admit({'run': 'true'})
    task = client.fetch()
    for _ in range(4):
        time.sleep(1)
        client.update(task)
    assert alone.service.run(run)['status'] == 'in_progress'
    until(lambda: conclusion(alone, run) == 'failure')
    client.update(task, 'SUCCESS')
    assert conclusion(alone, run) == 'failure'


def test_messages_are_those_that_are_published() -> None:
    """Names, numbers and types of all fields are those that protoc finds in the published form, but for `optional`; and what one side writes the other reads."""
    from acts_hub.gateway.connect.messages import MESSAGES

    def fields(message: Any) -> dict[str, tuple[int, int, int, str]]:
        return {one.name: (one.number, one.type, one.label, one.message_type.full_name if one.message_type else '') for one in message.DESCRIPTOR.fields}
    assert {name: fields(one) for name, one in MESSAGES.items()} == {name: fields(one) for name, one in messages().items()}
    given = {'task': {'id': 1 << 40, 'workflow_payload': 'AP8=', 'context': {'a': [1, True, None, 'ä', {'b': 2.5, 'c': []}], 'd': {}, 'e': -3},
                      'needs': {'x': {'outputs': {'k': 'v'}, 'result': 'RESULT_FAILURE'}}}, 'tasks_version': 7}
    ours, theirs = (json_format.ParseDict(given, of['FetchTaskResponse']()) for of in (MESSAGES, messages()))
    assert messages()['FetchTaskResponse'].FromString(ours.SerializeToString()) == theirs
    assert MESSAGES['FetchTaskResponse'].FromString(theirs.SerializeToString()) == ours


def test_an_ephemeral_runner_has_one_task(site: Site, client: Client) -> None:
    """GitHub Docs, "Using ephemeral runners for autoscaling": it is not given another job, and is known no more after its one."""
    assert client.register(site.token, site.label, ephemeral=True).ephemeral is True
    runs = [site.admit({'run': 'true'}) for _ in range(2)]
    task = client.fetch()
    first = int(context_of(task)['run_id'])
    assert client.fetch() is None, 'nor a second one meanwhile'
    client.update(task, 'SUCCESS')
    assert client.log(task, 0, 'late') == 1 and client.update(task, 'SUCCESS').state.result == 1, 'what comes again is taken'
    for _ in range(2):
        with pytest.raises(Refusal) as found:
            client.fetch()
        assert (found.value.status, found.value.code) == (401, 'unauthenticated')
    other, = set(runs) - {first}
    assert conclusion(site, first) == 'success' and site.service.run(other)['status'] == 'queued'
    again = Client(site.hub)
    assert again.register(site.token, site.label).ephemeral is False and int(context_of(again.fetch())['run_id']) == other


def test_registrations_of_a_token_are_bounded(make_hub: Callable[..., HubProcess], tmp_path: pathlib.Path) -> None:
    site = Site(tmp_path, make_hub(tables={'gateway': {'runners_a_token': 2}}))
    clients = [Client(site.hub) for _ in range(3)]
    for client in clients[:2]:
        client.register(site.token, site.label)
    with pytest.raises(Refusal) as found:
        clients[2].register(site.token, site.label)
    assert (found.value.status, found.value.code) == (429, 'resource_exhausted')
    clients[2].register(site.hub.token('another', 'runner', prefix='', labels=(site.label,)), site.label)
    assert clients[0].fetch() is None


def test_a_runner_that_is_silent_for_days_is_forgotten(tmp_path: pathlib.Path) -> None:
    """GitHub Docs, "Removing self-hosted runners": after 14 days, an ephemeral one after a day."""
    from acts_hub.gateway.connect.runners import Runner, Runners
    from acts_hub.ledger.database import Database
    from acts_hub.ledger.notes import NoteStore
    from acts_hub.times import now
    day = 86_400_000
    for ephemeral, days in ((False, 14), (True, 1)):
        runner = Runner('u', 'n', 1, ['l'], ephemeral=ephemeral, seen=1000)
        assert not runner.is_forgotten(1000 + days * day) and runner.is_forgotten(1001 + days * day)
    database = Database(tmp_path / 'ledger.sqlite')
    database.open()
    runners, at, uuid = Runners(NoteStore(database)), now(), '12345678-1234-1234-1234-123456789abc'
    runner = Runner(uuid, 'n', 1, ['l'], seen=1)
    runners.register(runner)
    slot = runners.free(runner)
    assert slot is not None and [each.name for each in runners.slots(runner)] == [slot.name]
    runners.keep_slot(slot)
    runners.heard(runner)
    known = runners.runner(uuid)
    assert known is not None and at <= known.seen and not known.is_forgotten(now())
    runners.remove(runner)
    assert runners.runner(uuid) is None and database.flushed() and database.read('select * from notes') == []
    database.close()


def test_the_task_of_a_revoked_token_ends(alone: Site) -> None:
    """Nobody can report it any more, so it has failed once nothing was heard for the time of the configuration."""
    client = Client(alone.hub)
    client.register(alone.token, alone.label)
    run = alone.admit({'run': 'true'})
    task = client.fetch()
    assert alone.hub.command('token', '--config', str(alone.hub.config), 'revoke', f'runners-{alone.label}').returncode == 0
    with pytest.raises(Refusal) as found:
        client.update(task, 'SUCCESS')
    assert found.value.code == 'unauthenticated'
    until(lambda: conclusion(alone, run) == 'failure')


def test_texts_that_are_no_utf_8() -> None:
    """Half of a pair of surrogates in an output is a question mark, and holds up no leg."""
    from acts_hub.gateway.connect.tasks import task_of
    from acts_hub.gateway.leases import Lease
    body = {'repo': 'octo/hello', 'path': 'ci.yml', 'workflow': {'jobs': {'a': {}, 'b': {'needs': 'a'}}}}
    told = {'github': {}, 'github_defaults': {}, 'results': {'a': 'success'}, 'outputs': {'a': {'k': 'a\ud800b'}}}
    task = task_of(body, told, Lease(7, 1, 1, 'b', 0, 'octo/hello', 'r', 'CLAIM r 1 x'), {})
    assert messages()['Task'].FromString(task.SerializeToString()).needs['a'].outputs == {'k': 'a?b'}
