"""The runner over a hub: lines over TLS, logs while they are written, marks, outputs, artifacts, caches, and what is killed."""
from __future__ import annotations

import contextlib
import json
import os
import pathlib
import re
import subprocess
import time
import uuid
from collections.abc import Callable, Iterator
from typing import Any

import pytest
from harness import HubProcess, Service, body_of
from runner_trials import Host, kill_all, lines_of, until
from wires import Wire

LINE = re.compile(r'[0-9]{4}-[0-9]{2}-[0-9]{2}T[0-9]{2}:[0-9]{2}:[0-9]{2}\.[0-9]{7}Z ')


class Site:
    """A service, a hub, and runners of one test, which have a label of their own."""

    def __init__(self, folder: pathlib.Path, hub: HubProcess) -> None:
        assert hub.service
        self.folder, self.hub, self.service = folder, hub, hub.service
        self.label, self.notes = f'l{uuid.uuid4().hex[:8]}', str(folder / 'notes')
        self.token = hub.token(f'runners-{self.label}', 'runner', prefix='', labels=(self.label, 'other'))
        self.file = folder / 'token'
        self.file.write_text(self.token + '\n')
        self.file.chmod(0o600)
        self.hosts: list[Host] = []

    def host(self, name: str = 'h1') -> Host:
        """A runner that is not started."""
        reach = ['--hub', self.hub.url, '--token-file', str(self.file), *(['--ca', str(self.hub.ca)] if self.hub.ca else [])]
        self.hosts.append(Host(reach, str(self.folder / name), self.notes, f'{name}-{self.label}', self.label))
        return self.hosts[-1]

    def admit(self, *steps: dict[str, Any], jobs: dict[str, Any] | None = None, github: dict[str, Any] | None = None, **job: Any) -> int:
        """Admits a run of one job `build`, or of several, for runners of this test."""
        made = jobs or {'build': {'steps': list(steps), **job}}
        return self.service.admit(body_of(jobs={name: {'runs-on': self.label, **one} for name, one in made.items()}, github=github))

    def run(self, *words: str, host: Host | None = None, **env: str) -> Host:
        """Runs a runner till there is nothing to do."""
        host = host or self.host(f'h{len(self.hosts)}')
        host.start(*words, **env)
        until(host.has_ended)
        return host

    def log(self, run: int, attempt: int = 1, job: str = 'build', leg: int = 0) -> list[str]:
        """The lines that the hub has of a leg."""
        found = list((self.hub.state / 'logs').glob(f'*/{run}/{attempt}/{job}.{leg}.*.log'))
        return lines_of(str(found[0])) if found else []

    def said(self, run: int, attempt: int = 1, job: str = 'build') -> list[str]:
        """The same without times."""
        return [LINE.sub('', line, 1) for line in self.log(run, attempt, job)]

    def steps(self, run: int, attempt: int = 1, job: str = 'build') -> list[tuple[int, str, str | None]]:
        """Number, name and outcome of the steps that the hub knows."""
        from acts_hub.ledger.logs import LogStore
        store = LogStore(self.hub.state / 'logs', 1 << 30)
        lease = store.leases(run, attempt, job, 0)
        return [(mark.number, mark.name, mark.outcome) for mark in store.steps(run, attempt, job, 0, lease[-1])] if lease else []

    def annotations(self, run: int) -> list[dict[str, Any]]:
        """The annotations of the job `build`, by GitHub's REST."""
        reader = self.hub.token('reader', 'read')
        jobs = until(lambda: self.hub.get(f'/api/v3/repos/octo/hello/actions/runs/{run}/jobs', reader).json().get('jobs'))  # the hub may know of the run later
        job = jobs[0]['id']
        found: list[dict[str, Any]] = self.hub.get(f'/api/v3/repos/octo/hello/check-runs/{job}/annotations', reader).json()
        return found

    def noted(self) -> list[str]:
        """What steps have noted."""
        return lines_of(self.notes)

    def close(self) -> None:
        """Ends the runners."""
        for host in self.hosts:
            if host.running:
                host.kill()
        kill_all(self.notes)


@pytest.fixture(scope='module')
def tls(tmp_path_factory: pytest.TempPathFactory) -> Iterator[HubProcess]:
    """A hub with TLS that the tests share."""
    folder = tmp_path_factory.mktemp('tls')
    service = Service(folder / 'service')
    hub = HubProcess(folder / 'hub', service, tls=True)
    try:
        service.start()
        yield hub.start()
    finally:
        hub.kill()
        service.kill()


@pytest.fixture
def site(tls: HubProcess, tmp_path: pathlib.Path) -> Iterator[Site]:
    """Runners at the shared hub."""
    made = Site(tmp_path, tls)
    yield made
    made.close()


@pytest.fixture
def alone(make_hub: Callable[..., HubProcess], tmp_path: pathlib.Path) -> Iterator[Site]:
    """Runners at a hub that this test may kill."""
    made = Site(tmp_path, make_hub())
    yield made
    made.close()


@pytest.mark.quick
def test_a_leg_with_its_log(site: Site) -> None:
    """The log has a time a line as GitHub's, and steps with names, numbers and outcomes."""
    run = site.admit({'name': 'Say', 'run': 'echo hello'}, {'run': 'echo two; exit 3'}, {'run': 'echo never'},
                     {'run': 'echo last', 'if': 'always()'})
    host = site.run()
    assert host.said()[-2:] == [f'{host.name}: run {run} build 0 failure: ok', f'{host.name}: nothing'], host.complained()
    lines = site.log(run)
    assert all(LINE.match(line) for line in lines), lines
    said = site.said(run)
    assert [line for line in said if line in ('hello', 'two', 'never', 'last')] == ['hello', 'two', 'last']
    assert '##[group]Run echo hello' in said and '##[error]Process completed with exit code 3.' in said
    assert site.steps(run) == [(1, 'Set up job', 'success'), (2, 'Say', 'success'), (3, 'Run echo two; exit 3', 'failure'),
                               (4, 'Run echo never', 'skipped'), (5, 'Run echo last', 'success'), (6, 'Complete job', 'success')]
    assert site.service.run(run)['conclusion'] == 'failure'


@pytest.mark.quick
def test_a_log_comes_while_it_is_written(site: Site) -> None:
    run = site.admit({'run': f'echo first; until [ -e {site.folder}/go ]; do sleep 0.1; done; echo second'})
    host = site.host().start(pause=5)
    until(lambda: 'first' in site.said(run))
    assert 'second' not in site.said(run)
    (site.folder / 'go').touch()
    until(lambda: 'second' in site.said(run))
    host.kill()


def test_a_certificate_of_another_authority_gets_nothing(site: Site, tmp_path: pathlib.Path) -> None:
    host = site.host()
    host.reach = host.reach[:-2]  # the authorities of the system
    site.admit({'run': 'echo never >> "$NOTES"'})
    host.start()
    until(lambda: 'no answer' in host.complained() and 'certificate' in host.complained().lower())
    host.kill()
    assert site.noted() == []


def test_a_wrong_token_gets_nothing(site: Site) -> None:
    site.file.write_text('acts_wrong')
    site.admit({'run': 'echo never >> "$NOTES"'})
    host = site.host().start()
    until(lambda: '401: the token is not valid' in host.complained())
    host.kill()
    assert site.noted() == []


def test_a_token_that_others_may_read_is_refused(site: Site) -> None:
    site.file.chmod(0o644)
    host = site.run()
    assert host.process.returncode == 1 and 'others may read' in host.complained()


def test_a_label_that_the_token_lacks_is_said(site: Site) -> None:
    host = site.host()
    host.labels = 'production'
    site.run(host=host)
    assert host.process.returncode == 1 and 'does not allow the labels production' in host.complained(), host.complained()


def test_secrets_never_leave(site: Site) -> None:
    path = site.folder / 'secrets'
    path.write_text(json.dumps({'TOKEN': 'hush-hush', 'KEY': 'line one\nline two'}))
    path.chmod(0o600)
    run = site.admit({'name': 'of ${{ secrets.TOKEN }}', 'run': 'echo "has $T"; echo "$K"; echo "::error::no hush-hush"; echo "a hush-hush" >> "$GITHUB_STEP_SUMMARY"',
                      'env': {'T': '${{ secrets.TOKEN }}', 'K': '${{ secrets.KEY }}'}}, {'run': 'echo "::add-mask::fo""und"; echo "it found it"'})
    site.run('--secrets', str(path))
    assert 'has ***' in site.said(run) and 'it *** it' in site.said(run)
    for file in [*site.hub.state.rglob('*'), *(site.folder / 'h0').rglob('*.*')]:
        if file.is_file():
            text = file.read_bytes()
            assert not any(secret in text for secret in (b'hush-hush', b'line one', b'line two')), file


def test_a_refusal_is_in_the_log(site: Site) -> None:
    """What the runner can't do it says before the first step, in the log and as an annotation."""
    run = site.admit({'run': 'echo never >> "$NOTES"'}, {'run': 'true', 'when': 'always'})
    site.run()
    words = 'not run: jobs.build.steps[1].when: this runner does not do it'
    assert words in site.said(run)[:3] and site.noted() == []
    assert site.steps(run) == [(1, 'Set up job', 'failure')]
    assert [(one['annotation_level'], one['message']) for one in site.annotations(run)] == [('failure', words)]


def test_a_secrets_file_that_others_may_read_is_in_the_log(site: Site) -> None:
    path = site.folder / 'secrets'
    path.write_text('{}')
    path.chmod(0o644)
    run = site.admit({'run': 'echo never >> "$NOTES"'})
    site.run('--secrets', str(path))
    assert site.noted() == [] and f'not run: others may read {path}: chmod 600' in site.said(run)
    assert site.steps(run) == [(1, 'Set up job', 'failure')]


def test_secrets_of_an_environment_go_to_its_jobs(site: Site) -> None:
    """And a job whose environment is neither approved nor free does not run."""
    path = site.folder / 'secrets'
    path.write_text(json.dumps({'A': 'all', 'B': 'all', 'environments': {'staging': {'B': 'staging alone'}}}))
    path.chmod(0o600)
    step = {'run': 'echo "$A $B" >> "$NOTES"', 'env': {'A': '${{ secrets.A }}', 'B': '${{ secrets.B }}'}}
    run = site.admit(jobs={'a': {'steps': [step]}, 'b': {'needs': 'a', 'environment': 'staging', 'steps': [step]},
                           'c': {'needs': 'b', 'environment': 'production', 'steps': [step]}})
    site.run('--secrets', str(path), '--environment', 'staging')
    assert site.noted() == ['all all', 'all staging alone']
    assert 'not run: jobs.c.environment: nobody has said by --environment that production is free of approvals' in site.said(run, job='c')


def test_annotations_and_summaries(site: Site) -> None:
    """With GitHub's names, as `::error::` and the like give them."""
    run = site.admit({'run': 'echo "::error file=src/a.c,line=3,endLine=4,col=2,title=Bad%2C very::no%0Away"; echo "::warning::careful"\n'
                             'echo "::notice file=b.c::see"; echo "::debug::hidden"; echo "# Done" >> "$GITHUB_STEP_SUMMARY"'})
    site.run()
    found = site.annotations(run)
    members = 'annotation_level', 'message', 'title', 'path', 'start_line', 'end_line', 'start_column'
    assert [tuple(one.get(name) for name in members) for one in found][0] == ('failure', 'no\nway', 'Bad, very', 'src/a.c', 3, 4, 2)
    assert [one['annotation_level'] for one in found] == ['failure', 'warning', 'notice']
    said = site.said(run)
    assert '##[error]no' in said and 'way' in said and '##[warning]careful' in said and '##[debug]hidden' not in said
    summary = pathlib.Path(site.hosts[0].home(), 'logs', f'run-{run}-build-0-lease-{site.service.run(run)["jobs"][0]["legs"][0]["lease"]}.summary.md')
    assert summary.read_text() == '# Done\n'


def test_a_long_summary(site: Site) -> None:
    """It reaches the hub cut, and holds up nothing that comes after it; one over a mebibyte is left out with a word, as at GitHub."""
    run = site.admit({'run': 'head -c 900000 /dev/zero | tr "\\0" x >> "$GITHUB_STEP_SUMMARY"'},
                     {'run': 'head -c 1100000 /dev/zero | tr "\\0" y >> "$GITHUB_STEP_SUMMARY"; echo "::notice::after"'})
    site.run()
    assert [one['message'] for one in site.annotations(run)] == ['after']
    assert 'the summary is left out: it has over 1048576 bytes' in site.said(run)
    assert site.steps(run)[-1] == (4, 'Complete job', 'success')


@pytest.mark.quick
def test_outputs_of_the_same_attempt(site: Site) -> None:
    """A second attempt does not see the first one's, also where the job before ends without any."""
    first = {'outputs': {'version': '${{ steps.v.outputs.v }}-${{ github.run_attempt }}'},
             'steps': [{'id': 'v', 'run': f'echo v=1.${{{{ github.run_number }}}} >> "$GITHUB_OUTPUT"; test ! -e {site.folder}/fail'}]}
    second = {'needs': ['build'], 'if': 'always()', 'steps': [{'run': 'echo "${{ needs.build.outputs.version }} ${{ needs.build.result }}" >> "$NOTES"'}]}
    run = site.admit(jobs={'build': first, 'deploy': second})
    number = site.service.run(run)['number']
    site.run()
    (site.folder / 'fail').touch()
    assert site.service.post(f'/runs/{run}/attempts/2').text == f'again {run} 2\n'
    site.run()
    (site.folder / 'fail').unlink()
    site.service.post(f'/runs/{run}/attempts/3')
    site.run()
    assert site.noted() == [f'1.{number}-1 success', f'1.{number}-2 failure', f'1.{number}-3 success']


def test_the_outputs_of_a_lost_job_are_none(site: Site) -> None:
    """Of a job that was lost in its second attempt, an `always()` job sees nothing, and not what the first attempt gave."""
    first = {'outputs': {'v': '${{ steps.v.outputs.v }}'}, 'steps': [{'id': 'v', 'run': f'echo v=old >> "$GITHUB_OUTPUT"; until [ ! -e {site.folder}/hold ]; do sleep 0.1; done'}]}
    second = {'needs': ['build'], 'if': 'always()', 'steps': [{'run': 'echo "[${{ needs.build.outputs.v }}] ${{ needs.build.result }}" >> "$NOTES"'}]}
    run = site.admit(jobs={'build': first, 'deploy': second})
    site.run()
    (site.folder / 'hold').touch()
    site.service.post(f'/runs/{run}/attempts/2')
    host = site.host('lost').start(pause=0.2, beat=0.2)
    name = until(lambda: site.service.run(run)['jobs'][0]['legs'][0]['runner'] if site.service.run(run)['jobs'][0]['state'] == 'open' else None)
    until(lambda: site.service.run(run)['jobs'][0]['legs'][0]['state'] == 'running')
    assert site.service.post(f'/runners/{name}/lost').text == 'ok\n'
    until(lambda: len(site.noted()) == 2)
    (site.folder / 'hold').unlink()
    host.kill()
    assert site.noted() == ['[old] success', '[] failure']


UPLOAD = {'uses': 'actions/upload-artifact@v4', 'with': {'name': 'made', 'path': 'out'}}
DOWNLOAD = {'uses': 'actions/download-artifact@v4', 'with': {'name': 'made', 'path': 'in'}}


@pytest.mark.quick
def test_artifacts_by_run_and_attempt(site: Site) -> None:
    """A re-run of a workflow that uploads succeeds, and its jobs read what their own attempt has uploaded."""
    make = [{'run': 'mkdir -p out/deep; echo "of attempt ${{ github.run_attempt }}" > out/deep/file; echo "ä" > "out/ü.txt"'}, UPLOAD]
    use = {'needs': 'make', 'steps': [DOWNLOAD, {'run': 'cat in/deep/file in/ü.txt >> "$NOTES"'}]}
    run = site.admit(jobs={'make': {'steps': make}, 'use': use})
    for attempt in (1, 2):
        host = site.run()
        assert site.service.run(run)['conclusion'] == 'success', f'{host.said()} {host.complained()}'
        if attempt == 1:
            site.service.post(f'/runs/{run}/attempts/2')
    assert site.noted() == ['of attempt 1', 'ä', 'of attempt 2', 'ä']


def test_artifacts_of_one_name(site: Site) -> None:
    """The second upload of a name fails, unless it overwrites; a pattern takes several; a missing one fails."""
    steps = [{'run': 'mkdir out; echo one > out/a'}, UPLOAD, {**UPLOAD, 'continue-on-error': True, 'id': 'again'},
             {'run': 'echo ${{ steps.again.outcome }} >> "$NOTES"; echo two > out/a'}, {**UPLOAD, 'with': {**UPLOAD['with'], 'overwrite': 'true'}},
             {**UPLOAD, 'with': {'name': 'other', 'path': 'out/a'}},
             {'uses': 'actions/download-artifact@v4', 'with': {'path': 'all'}}, {'run': 'cat all/made/a all/other/a >> "$NOTES"'},
             {**DOWNLOAD, 'with': {'name': 'none'}}]
    run = site.admit(*steps)
    site.run()
    assert site.noted() == ['failure', 'two', 'two'] or site.noted() == ['success', 'two', 'two'], site.noted()
    assert site.noted()[0] == 'failure', 'the same name again is refused, as by upload-artifact v4'
    assert site.service.run(run)['conclusion'] == 'failure' and 'the step fails: the run has no artifact none' in site.said(run)


CACHE = {'uses': 'actions/cache@v4', 'id': 'c', 'with': {'path': 'kept', 'key': 'k-${{ hashFiles(\'lock\') }}', 'restore-keys': 'k-\n'}}


def test_caches(site: Site) -> None:
    """A hit of the key, a hit of a restore key, and none of another branch."""
    key = uuid.uuid4().hex
    cache = {**CACHE, 'with': {**CACHE['with'], 'key': f"{key}-${{{{ hashFiles('lock') }}}}", 'restore-keys': f'{key}-\n'}}
    steps = [{'run': 'echo "${{ github.event.lock }}" > lock'}, cache,
             {'run': 'echo "[${{ steps.c.outputs.cache-hit }}] $(cat kept/file 2> /dev/null)" >> "$NOTES"; mkdir -p kept; echo "of ${{ github.event.lock }}" > kept/file'}]

    def once(lock: str, ref: str) -> None:
        run = site.admit(*steps, github={'event': {'lock': lock}, 'ref': ref})
        site.run()
        assert site.service.run(run)['conclusion'] == 'success', site.said(run)
    once('one', 'refs/heads/main')
    once('one', 'refs/heads/main')
    once('two', 'refs/heads/main')
    once('three', 'refs/heads/topic')
    once('three', 'refs/heads/other')
    once('three', 'refs/heads/topic')
    assert site.noted() == ['[] ', '[true] of one', '[false] of one', '[false] of two', '[false] of two', '[true] of three'], site.noted()


def test_contexts_of_the_hub(site: Site) -> None:
    """What GitHub documents, as the hub sets it."""
    run = site.admit({'run': 'echo "${{ github.server_url }} ${{ github.api_url }} ${{ github.graphql_url }} ${{ github.run_number }} ${{ github.run_attempt }}" >> "$NOTES"'},
                     {'run': 'echo "${{ strategy.job-total }} ${{ strategy.max-parallel }} ${{ github.workflow_ref }} ${{ github.repository_owner }}" >> "$NOTES"'},
                     {'run': 'echo "$GITHUB_SERVER_URL $GITHUB_API_URL $GITHUB_REPOSITORY_OWNER $GITHUB_ACTION ${{ github.action }}" >> "$NOTES"'},
                     {'run': 'echo "$GITHUB_ACTION" >> "$NOTES"', 'id': 'named'}, {'run': '[ -n "${{ github.repository_id }}" ] && echo "$RUNNER_ENVIRONMENT" >> "$NOTES"'},
                     strategy={'matrix': {'n': [1]}})
    site.run()
    url, number = site.hub.url, site.service.run(run)['number']
    assert site.noted() == [f'{url} {url}/api/v3 {url}/api/graphql {number} 1', '1 1 octo/hello/.github/workflows/ci.yml@refs/heads/main octo',
                            f'{url} {url}/api/v3 octo __run_3 __run_3', 'named', 'self-hosted'], site.said(run)


# Rights.


def test_only_the_holder_writes(site: Site) -> None:
    """Logs, marks, outputs and artifacts of a leg: neither another name, nor another lease, nor another leg of one's own lease."""
    one, two = Wire(site.hub, site.token), Wire(site.hub, site.hub.token('other', 'runner', prefix='q', labels=(site.label,)))
    with contextlib.closing(one), contextlib.closing(two):
        run, foreign = site.admit({'run': 'true'}), site.admit({'run': 'true'})
        lease = one.claim('p1', site.label)[1]
        other = two.claim('q1', site.label)[1]
        place, mine = f'{run}/1/build/0/{lease}', one.claims[lease]
        theirs = two.claims[other]
        assert one.put('logs', place, b'2026-11-30T19:30:00.0000000Z hello\n', mine, offset=0).json() == {'size': 35}
        for kind, data, query in (('logs', b'x\n', {'offset': 35}), ('marks', b'{}\n', {'offset': 0}), ('outputs', b'{}', {}),
                                  ('artifacts', b'PK', {'name': 'a', 'digest': '0' * 64})):
            assert two.put(kind, place, data, theirs, **query).status == 403, kind
            assert two.put(kind, place, data, mine, **query).status == 403, f'{kind}: the claim of another'
            assert one.put(kind, f'{foreign}/1/build/0/{other}', data, mine, **query).status == 403, kind
            assert one.put(kind, f'{run}/2/build/0/{lease}', data, mine, **query).status == 403, f'{kind}: another attempt'
            assert one.put(kind, f'{run}/1/other/0/{lease}', data, mine, **query).status == 403, f'{kind}: another job'
            assert one.put(kind, place, data, 'CLAIM p1 1 x', **query).status == 403, kind
            assert one.put(kind, place, data, 'nonsense', **query).status == 400, kind
            assert site.hub.request('PUT', f'/runner/v1/{kind}/{place}', data).status == 401, kind
        again = Wire(site.hub, site.token)
        with contextlib.closing(again):
            forged = mine.rpartition(',')[0] + ',life-000000000000'
            assert again.put('logs', place, b'x\n', forged, offset=35).status == 403, 'the name of the holder, and another claim'
            assert site.log(run), 'the log is as it was'
        assert one.get(f'artifacts/{foreign}/1/build/0/{other}', mine).status == 403
        assert one.get(f'legs/{foreign}/{other}', mine).status == 403
        assert one.get(f'legs/{run}/{lease}', mine).json()['attempt'] == 1
        for wrong in ('..%2f..%2fx/1/build/0/1', f'{run}/1/..%2f..%2fetc/0/{lease}', f'{run}/1/build/-1/{lease}', f'{run}/01/build/0/{lease}'):
            assert one.put('logs', wrong, b'x', mine, offset=0).status in (400, 403, 404), wrong
        assert one.done('p1', lease) == 'ok'
        assert one.put('logs', place, b'late\n', mine, offset=35).json() == {'size': 40}, 'a log may come after the report'
        assert one.put('outputs', place, b'{"a": "b"}', mine).status == 403, 'outputs may not'
        two.done('q1', other)


def test_pieces_are_bounded_and_idempotent(site: Site) -> None:
    one = Wire(site.hub, site.token)
    with contextlib.closing(one):
        run = site.admit({'run': 'true'})
        lease = one.claim('p2', site.label)[1]
        place, claim = f'{run}/1/build/0/{lease}', one.claims[lease]

        def put(data: bytes, offset: object) -> Any:
            answer = one.put('logs', place, data, claim, offset=offset)
            return answer.json()['size'] if answer.status == 200 else answer.status
        assert put(b'one\n', 0) == 4 and put(b'one\n', 0) == 4, 'a piece that came already'
        assert put(b'e\ntwo\n', 2) == 8, 'a piece of which a part came already'
        assert put(b'four\n', 20) == 8, 'a gap'
        assert put(b'x' * ((1 << 20) + 1), 8) == 413
        assert put(b'x', -1) == 400 and put(b'x', '1e3') == 400 and put(b'x', '') == 400
        assert site.log(run) == ['one', 'two']
        for marks in (b'[' * 100000 + b'\n', b'{"step": -1}\n{"step": 1, "begins": true, "name": 7, "at": 1, "bytes": 0}\n',
                      b'{"annotation": {"message": ["<b>"], "start_line": 1e400}, "at": 1, "bytes": 0}\n', b'\xff\xfe\n'):
            size = one.put('marks', place, b'', claim, offset=0).json()['size']
            assert one.put('marks', place, marks, claim, offset=size).json()['size'] == size + len(marks)
        assert site.steps(run) == []
        many = b''.join(json.dumps({'annotation': {'message': 'ä' * 4000, 'annotation_level': 'failure'}, 'at': 1, 'bytes': 0}).encode() + b'\n'
                        for _ in range(60)) + json.dumps({'summary': '\U0001f600' * 60_000, 'at': 1, 'bytes': 0}).encode() + b'\n'
        begin = at = one.put('marks', place, b'', claim, offset=0).json()['size']
        while at < begin + len(many):
            answer = one.put('marks', place, many[at - begin:][:900_000], claim, offset=at)
            assert answer.status == 200 and answer.json()['size'] > at, answer
            at = answer.json()['size']
        assert 20 < len(site.annotations(run)) <= 100, 'what is too long a note is left out'
        one.done('p2', lease)


# What is killed, full or restored.

PRINTS = 'for n in $(seq 300); do echo "line $n"; [ $n = 100 ] && touch {0}/half && until [ -e {0}/go ]; do sleep 0.1; done; done; true'
ALL = [f'line {number}' for number in range(1, 301)]


def numbered(site: Site, run: int) -> list[str]:
    """The numbered lines that the hub has."""
    return [line for line in site.said(run) if line.startswith('line ')]


def test_the_hub_is_killed_while_a_leg_runs(alone: Site) -> None:
    run = alone.admit({'run': 'echo began >> "$NOTES"; ' + PRINTS.format(alone.folder)})
    host = alone.host().start(pause=0.5, beat=0.5)
    until(lambda: (alone.folder / 'half').exists() and len(numbered(alone, run)) == 100)
    alone.hub.kill()
    (alone.folder / 'go').touch()
    time.sleep(2)
    alone.hub.start()
    until(lambda: alone.service.run(run)['status'] == 'completed')
    assert alone.service.run(run)['conclusion'] == 'success', host.complained()
    until(lambda: numbered(alone, run) == ALL)
    until(lambda: alone.steps(run)[-1:] == [(3, 'Complete job', 'success')])
    assert alone.noted() == ['began']


def test_the_hub_is_away_for_the_rest_of_a_leg(alone: Site) -> None:
    """Its log, and what it marked, come when the hub is there again: no run waits for that."""
    run = alone.admit({'run': 'until [ -e "$NOTES.go" ]; do sleep 0.1; done; ' + PRINTS.format(alone.folder) + '; echo "::error::late"'})
    host = alone.host().start(pause=0.5)
    until(lambda: alone.service.run(run)['status'] == 'in_progress' and alone.said(run))
    alone.hub.kill()
    pathlib.Path(alone.notes + '.go').touch()
    (alone.folder / 'go').touch()
    log = pathlib.Path(host.home(), 'logs', f'run-{run}-build-0-lease-1.log')
    until(lambda: 'line 300' in log.read_text())
    alone.hub.start()
    until(lambda: alone.service.run(run)['conclusion'] == 'success')
    until(lambda: numbered(alone, run) == ALL)
    until(lambda: [one['message'] for one in alone.annotations(run)] == ['late'])


def test_the_runner_is_killed_and_its_next_life_sends_the_rest(alone: Site) -> None:
    run = alone.admit({'run': 'echo began >> "$NOTES"; ' + PRINTS.format(alone.folder)})
    host = alone.host().start(pause=0.5)
    until(lambda: (alone.folder / 'half').exists())
    host.kill()
    (alone.folder / 'go').touch()
    time.sleep(1.5)
    alone.run(host=host)
    assert alone.service.run(run)['conclusion'] == 'success' and alone.noted() == ['began'], host.complained()
    assert numbered(alone, run) == ALL


def test_steps_that_are_killed_leave_their_log(alone: Site) -> None:
    """As by a crash of the machine: the log has what they wrote, and no step stays open."""
    run = alone.admit({'name': 'Count', 'run': PRINTS.format(alone.folder)})
    host = alone.host().start(pause=0.5)
    until(lambda: (alone.folder / 'half').exists())
    kill_all(alone.notes)
    alone.run(host=host)
    assert alone.service.run(run)['conclusion'] == 'failure'
    assert numbered(alone, run) == ALL[:100]
    assert alone.steps(run) == [(1, 'Set up job', 'success'), (2, 'Count', 'failure')]
    assert 'nobody knows how the step ended' in alone.annotations(run)[0]['message']


def test_a_full_disk_of_the_hub_stops_no_run(make_hub: Callable[..., HubProcess], tmp_path: pathlib.Path) -> None:
    small = tmp_path / 'hub-0' / 'state'  # of the hub that is made below
    small.mkdir(parents=True)
    if subprocess.run(['mount', '-t', 'tmpfs', '-o', 'size=3m', 'tmpfs', str(small)], capture_output=True, check=False).returncode:
        pytest.skip('no mount is allowed here')
    try:
        site = Site(tmp_path, make_hub())
        assert site.hub.state == small
        run = site.admit({'run': PRINTS.format(site.folder)})
        (site.folder / 'go').touch()
        with contextlib.suppress(OSError), open(small / 'filler', 'wb') as filler:
            while True:
                filler.write(bytes(1 << 16))
        host = site.host().start(pause=0.5)
        until(lambda: site.service.run(run)['conclusion'] == 'success')
        os.remove(small / 'filler')
        until(lambda: numbered(site, run) == ALL)
        host.kill()
        site.hub.kill()
    finally:
        subprocess.run(['umount', '-l', str(small)], check=True)


def test_a_lease_that_stands_for_something_else(alone: Site) -> None:
    """The service's file is restored: the same run, lease and leg come again for another event, and its log has nothing of the first one."""
    store = alone.service.store
    alone.service.kill()
    empty = store.read_bytes()
    alone.service.start()
    alone.admit({'run': 'echo of the first'})
    host = alone.run()
    until(lambda: 'of the first' in alone.said(1))
    alone.service.kill()
    store.write_bytes(empty)
    alone.service.start()
    alone.admit({'run': 'echo of the second'})
    alone.run(host=host)
    assert alone.service.run(1)['conclusion'] == 'success', host.complained()
    until(lambda: 'of the second' in alone.said(1))
    assert 'of the first' not in alone.said(1)


def test_a_log_is_bounded_at_the_hub(make_hub: Callable[..., HubProcess], tmp_path: pathlib.Path) -> None:
    site = Site(tmp_path, make_hub(tables={'retention': {'log_bytes_a_leg': 20000}}))
    run = site.admit({'run': 'yes "a line of some length" | head -n 100000; echo last'})
    site.run()
    assert site.service.run(run)['conclusion'] == 'success'
    size = sum(file.stat().st_size for file in (site.hub.state / 'logs').rglob('*.log'))
    assert 19000 < size < 21000 and 'longer than 20000 bytes' in site.log(run)[-1]
