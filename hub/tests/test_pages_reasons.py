"""What pages say of groups, cancels and attempts, and how they take hostile requests: over the real service and hub."""
from __future__ import annotations

import html
import http.client
import io
import re
import zipfile
from collections.abc import Iterator
from urllib.parse import urlencode

import pytest
from harness import HubProcess, Service, request, until
from pages_stage import Stage

from acts_hub.config import Retention
from acts_hub.ledger.artifacts import ArtifactStore
from acts_hub.ledger.database import Database
from acts_hub.ledger.notes import NoteStore

FORM = {'Content-Type': 'application/x-www-form-urlencoded'}
GROUP = {'concurrency': {'group': 'deploy'}}
NOBODY = {'build': {'runs-on': 'nobody-has-this', 'steps': [{'run': 'x'}]}}
BASE = '/octo/hello/actions'


@pytest.fixture(scope='module')
def stage(shared: HubProcess) -> Iterator[Stage]:
    assert shared.service is not None
    made = Stage(shared.service, shared)
    yield made


def shown(stage: Stage, path: str, token: str) -> str:
    """The text of a page, without its markup."""
    answer = stage.hub.get(path, token)
    assert answer.status == 200, (path, answer.status)
    main = answer.text.partition('<main')[2].partition('</main>')[0]
    return re.sub(r'\s+', ' ', html.unescape(re.sub('<[^>]+>', ' ', main)))


def test_a_run_says_which_one_took_its_place(stage: Stage) -> None:
    token = stage.hub.token('reader', 'read')
    runs = [stage.admit(f'Deploy {number}', jobs=NOBODY, workflow=GROUP, name='Deploy') for number in (1, 2, 3)]
    stage.seen(runs[1], 'completed')
    stage.seen(runs[2])
    # GitHub: a pending run of a concurrency group is cancelled once another one waits for it
    text = shown(stage, stage.page(runs[1]), token)
    assert 'Cancelled' in text
    assert re.search(r'A newer run of the concurrency group deploy took its place: +Deploy 3 #3', text)
    assert f'{stage.page(runs[2])}"' in stage.hub.get(stage.page(runs[1]), token).text
    assert re.search('This run waits for the concurrency group deploy, held by +Deploy #1',
                     shown(stage, stage.page(runs[2]), token))
    assert 'took its place' not in shown(stage, stage.page(runs[0]), token)


def test_a_run_says_who_cancelled_it(stage: Stage) -> None:
    run, token = stage.admit('Stop me', jobs=NOBODY), stage.hub.token('anna', 'write')
    stage.seen(run)
    answer = stage.hub.post(f'{stage.page(run)}/cancel', '', token, FORM)
    assert (answer.status, answer.headers['Location']) == (303, f'{stage.page(run)}?did=cancel')
    assert 'Cancelled by anna.' in shown(stage, stage.page(run), token)
    again = stage.hub.post(f'{stage.page(run)}/cancel', '', token, FORM)
    assert again.status == 409 and 'the run has completed' in again.text


def test_what_the_service_can_not_do_has_no_button_and_is_refused_in_words(stage: Stage) -> None:
    """Re-run failed jobs for a run that failed, force-cancel for one that is asked to stop: where the service takes the commands."""
    failed, token = stage.admit('Fail me', jobs={'build': {'runs-on': 'fails', 'steps': [{'run': 'x'}]}}), stage.hub.token('anna', 'write')
    stage.claim('fails').done('failure')
    stopping = stage.admit('Stop me', jobs={'build': {'runs-on': 'stops', 'steps': [{'run': 'x'}]}})
    leg = stage.claim('stops')
    stage.service.post(f'/runs/{stopping}/cancel')
    stage.seen(failed, 'completed')
    until(lambda: 'Cancel run' not in stage.hub.get(stage.page(stopping), token).text, what='the stop')
    for run, action, words, other, path in (
            (failed, 'rerun-failed', 'Re-run failed jobs', 'Re-run all jobs', f'/runs/{failed}/attempts/2/failed-jobs'),
            (stopping, 'force-cancel', 'Force cancel', 'Stop me', f'/runs/{stopping}/force-cancel')):
        page = stage.hub.get(stage.page(run), token).text
        is_known = request(stage.service.hook, 'GET', path).status == 405
        assert other in page
        assert (words in page) == is_known, action
        if not is_known:
            assert stage.hub.post(f'{stage.page(run)}/{action}', '', token, FORM).status in (409, 422), action
    assert stage.hub.post(f'{stage.page(failed)}/approve', '', token, FORM).status == 422
    assert stage.service.run(failed)['attempt'] == 1
    leg.done('cancelled')


def test_the_runners_page_has_times_in_words(stage: Stage) -> None:
    text = shown(stage, '/runners', stage.hub.token('reader', 'read'))
    assert 'not heard for over 2 minutes)' in text and ' 0s' not in text


@pytest.mark.parametrize('action', ['cancel', 'rerun', 'rerun-failed', 'force-cancel', 'approve'])
def test_who_may_not_act_is_refused(stage: Stage, action: str) -> None:
    run = stage.admit('Mine', jobs=NOBODY)
    stage.seen(run)
    path = f'{stage.page(run)}/{action}'
    assert stage.hub.post(path, '', None, FORM).status == 401
    assert stage.hub.post(path, '', 'acts_wrong', FORM).status == 401
    assert stage.hub.post(path, '', stage.hub.token('reader', 'read'), FORM).status == 403
    assert stage.hub.post(path, '', stage.hub.token('other', 'admin', repositories=('octo/other',)), FORM).status == 404
    assert stage.hub.post(path, '', stage.hub.token('r', 'runner', prefix='r', labels=('linux',)),
                          FORM).status in (403, 404)
    assert stage.hub.post(path.replace('octo/hello', 'octo/other'), '', stage.hub.token('mona', 'admin'),
                          FORM).status == 404
    assert stage.hub.get(path, stage.hub.token('mona', 'admin')).status in (404, 405)
    assert stage.service.run(run)['status'] == 'queued'


def test_other_repositories_are_not_shown(stage: Stage) -> None:
    run, secret = stage.admit('Nobody sees me',
                              jobs=NOBODY), stage.admit('Very secret', jobs=NOBODY, repository='octo/secret')
    stage.seen(run)
    token = stage.hub.token('guest', 'read', repositories=('octo/hello',))
    until(lambda: 'Very secret' in stage.hub.get('/', stage.hub.token('all', 'read')).text, what='the secret run')
    for path in '/', '/queue', '/groups', '/runners', '/refused', BASE:
        assert 'secret' not in stage.hub.get(path, token).text.lower(), path
    runs = f'/octo/secret/actions/runs/{secret}', f'{BASE}/runs/{secret}', f'/-/changes?run={secret}'
    for path in '/octo/secret/actions', '/-/changes?repository=octo/secret', *runs:
        assert stage.hub.get(path, token).status == 404, path
    assert stage.hub.get('/', None, {'Accept': 'text/html'}).headers['Location'].startswith('/sign-in')


@pytest.mark.parametrize('path', [
    f'{BASE}/runs/0', f'{BASE}/runs/999999999', f'{BASE}/runs/-1', f'{BASE}/runs/1e3', f'{BASE}/runs/' + '9' * 400,
    f'{BASE}/runs/%D9%A1', f'{BASE}/runs/1/attempts/0',
    f'{BASE}/runs/1/attempts/2', f'{BASE}/runs/1/attempts/x', f'{BASE}/runs/1/job/1', f'{BASE}/runs/1/job/' + '9' * 30,
    f'{BASE}/runs/1/job/67174400/lines', f'{BASE}/runs/1/artifacts/1',
    f'{BASE}/runs/1/artifacts/..%2F..%2Fledger.sqlite', f'{BASE}/workflows/..%2F..%2Fhub.toml',
    f'{BASE}/workflows/none.yml', '/-/static/..%2Fsite.py', '/-/static/hub.py', '/octo/none/actions',
    '/%00/%00/actions', '/-/changes?run=0', f'{BASE}/runs/1/job/67174400/raw'])
def test_addresses_of_nothing_are_not_found(stage: Stage, path: str) -> None:
    answer = stage.hub.get(path, stage.hub.token('mona', 'admin'))
    assert answer.status == 404, (path, answer.status)
    assert 'Traceback' not in answer.text and 'fault' not in answer.text.lower().replace('default', '')


@pytest.mark.parametrize('query', ['before=-1', 'before=' + '9' * 50, 'after=x', 'q=' + '%22' * 900, 'q=%00%FF',
                                   'status=%3Cscript%3E', 'q=' + 'is:' * 100, 'did=cancel&did=x', 'did=<script>',
                                   'branch=' + 'x' * 5000, 'q=%E2%80%AE<script>alert(1)</script>'])
def test_queries_of_any_form_are_answered(stage: Stage, query: str) -> None:
    for path in BASE, '/queue', '/runners', '/groups', '/refused', '/', f'{BASE}/runs/1/job/67174400':
        answer = stage.hub.get(f'{path}?{query}', stage.hub.token('mona', 'admin'))
        assert answer.status in (200, 404) and '<script>' not in answer.text and '\u202e' not in answer.text, path


@pytest.mark.parametrize('back', ['//evil.example', 'https://evil.example/', '/\\evil.example', 'javascript:alert(1)',
                                  '/a\r\nX: y', '', '/' + 'x' * 5000])
def test_no_form_leads_to_another_site(stage: Stage, back: str) -> None:
    answer = stage.hub.post('/-/theme', urlencode({'back': back, 'theme': 'dark'}), None, FORM)
    assert (answer.status, answer.headers['Location']) == (303, '/')
    assert 'theme=dark' in answer.headers['Set-Cookie'] and 'HttpOnly' in answer.headers['Set-Cookie']
    token = stage.hub.token('mona', 'read')
    answer = stage.hub.post('/sign-in', urlencode({'back': back, 'token': token}), None, FORM)
    assert (answer.status, answer.headers['Location']) == (303, '/')


def test_a_theme_that_is_none_is_forgotten(stage: Stage) -> None:
    answer = stage.hub.post('/-/theme', 'back=/queue&theme=%22%3E%3Cscript%3E', None, FORM)
    assert answer.headers['Location'] == '/queue' and 'script' not in answer.headers['Set-Cookie']
    assert 'data-theme' not in stage.hub.get('/sign-in', None, {'Cookie': 'theme="><script>'}).text


def test_static_files_may_be_kept_once_their_address_says_their_content(stage: Stage) -> None:
    page = stage.hub.get('/sign-in').text
    for name in 'hub.css', 'hub.js', 'mark.svg':
        found = re.search(rf'/-/static/{name}\?[0-9a-f]+', page)
        assert found is not None
        answer = stage.hub.get(found[0])
        assert answer.status == 200 and 'immutable' in answer.headers['Cache-Control']
        assert answer.headers['X-Content-Type-Options'] == 'nosniff'
        assert 'immutable' not in stage.hub.get(f'/-/static/{name}?old').headers['Cache-Control']


def test_annotations_summaries_and_artifacts_of_a_run(stage: Stage) -> None:
    run = stage.admit('Say more', jobs={'build': {'runs-on': 'says-more', 'steps': [{'run': 'x'}]}})
    leg = stage.claim('says-more')
    leg.begin('Run it').say('it works').end().done()
    other = stage.admit('Another', jobs=NOBODY)
    token = stage.hub.token('reader', 'read')
    stage.seen(run, 'completed')
    made = io.BytesIO()
    with zipfile.ZipFile(made, 'w') as archive:
        archive.writestr('report.txt', 'fine')
    stage.hub.kill()     # what the gateway keeps is written while nobody else writes
    database = Database(stage.hub.state / 'ledger.sqlite')
    database.open()
    marks = {'annotations': [{'annotation_level': level, 'message': f'{level} <b>x</b>', 'title': None, 'path': 'a.py',
                              'start_line': 7} for level in ('notice', 'failure', 'warning')],
             'summaries': ['# All <script>well</script>']}
    NoteStore(database).set(run, 1, 'marks', 'build/0', marks)
    kept = Retention()
    upload = ArtifactStore(stage.hub.state / 'artifacts', database, kept.artifact_bytes, kept.artifacts_bytes_a_run,
                           kept.artifacts_days).begin(run, 1, 'report 1; é')
    upload.write(made.getvalue())
    artifact = upload.finish()
    database.close()
    stage.hub.start()
    stage.seen(other)
    text = shown(stage, stage.page(run), token)
    assert text.index('failure <b>x</b>') < text.index('warning <b>x</b>') < text.index('notice <b>x</b>')
    assert 'a.py :7' in text
    assert '# All <script>well</script>' in text and 'report 1; é' in text
    assert '<script>well' not in stage.hub.get(stage.page(run), token).text
    found = stage.hub.get(f'{stage.page(run)}/artifacts/{artifact.id}', token)
    assert found.body == made.getvalue()
    assert found.headers['Content-Disposition'] == 'attachment; filename="report_1___.zip"'
    assert stage.hub.get(f'{stage.page(run)}/artifacts/{artifact.id}',
                         stage.hub.token('other', 'read', repositories=('octo/other',))).status == 404
    assert stage.hub.get(f'{stage.page(other)}/artifacts/{artifact.id}', token).status == 404


def test_pages_while_the_service_is_away(service: Service, hub: HubProcess) -> None:
    stage = Stage(service, hub)
    over, waits = stage.admit('It is over', jobs=NOBODY), stage.admit('It waits', jobs=NOBODY)
    service.post(f'/runs/{over}/cancel')
    token = hub.token('mona', 'admin')
    stage.seen(over, 'completed')
    stage.seen(waits)
    assert hub.get(stage.page(over), token).status == hub.get(stage.page(waits), token).status == 200
    service.kill()
    answer = hub.get(BASE, token)
    assert answer.status == 200 and 'It is over' in answer.text and 'It waits' in answer.text
    for path in stage.page(over), stage.page(waits), '/queue', '/runners', '/groups', '/refused', '/':
        answer = hub.get(path, token)
        assert answer.status in (200, 503), path
        assert answer.status == 200 or 'The hub does not reach the service at the moment' in answer.text, path
    answer = hub.post(f'{stage.page(waits)}/cancel', '', token, FORM)
    assert answer.status == 503 and 'does not reach the service' in answer.text


def test_one_token_does_not_take_all_streams(hub: HubProcess) -> None:
    fields = {'Authorization': f'Bearer {hub.token("mona", "read")}'}
    held = []
    try:
        for _ in range(200):
            connection = http.client.HTTPConnection('127.0.0.1', hub.port, timeout=30)
            connection.request('GET', '/-/changes', headers=fields)
            held.append((connection, connection.getresponse()))
        assert {answer.status for _, answer in held} == {200}
        assert hub.get('/-/changes', None, fields).status == 503
        other = http.client.HTTPConnection('127.0.0.1', hub.port, timeout=30)
        other.request('GET', '/-/changes', headers={'Authorization': f'Bearer {hub.token("hubot", "read")}'})
        assert other.getresponse().status == 200
        other.close()
        assert hub.request('HEAD', '/-/changes', None, None, fields).status == 404
    finally:
        for connection, _ in held:
            connection.close()
