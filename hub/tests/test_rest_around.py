"""Workflows, artifacts, caches, runners, repositories, refused events, and what is not here, by the REST API."""
from __future__ import annotations

import base64
import json
import pathlib
import time
from xml.etree import ElementTree

import pytest
from harness import request
from rest_stand import ArtifactsByHand, CachesByHand, Stand, run_of, sha, standing

from acts_hub.access.rates import Rates
from acts_hub.config import AccessConfig

pytestmark = pytest.mark.quick
REPO = '/repos/octo/hello'
DEPLOY = '.github/workflows/deploy.yml'


# workflows

def test_workflows_are_those_with_runs(stand: Stand) -> None:
    stand.mirror.put(run_of(1))
    stand.mirror.put(run_of(2, path=DEPLOY, workflow='Deploy'))
    stand.mirror.put(run_of(3, workflow='CI, renamed'))
    found = stand.json(f'{REPO}/actions/workflows')
    assert found['total_count'] == 2
    assert [(one['name'], one['path'], one['state']) for one in found['workflows']] == [
        ('CI, renamed', '.github/workflows/ci.yml', 'active'), ('Deploy', DEPLOY, 'active')]
    first = found['workflows'][0]
    assert (first['created_at'], first['updated_at']) == ('2026-11-30T19:30:01Z', '2026-11-30T19:30:03Z')
    for name in ('ci.yml', str(first['id']), '.github%2Fworkflows%2Fci.yml'):
        assert stand.json(f'{REPO}/actions/workflows/{name}') == first
    for name in ('gone.yml', '1', '..', '%2e%2e', '%00'):
        assert stand.get(f'{REPO}/actions/workflows/{name}').status == 404
    assert stand.json(f'{REPO}/actions/workflows/ci.yml/timing') == {'billable': {}}


def test_a_workflow_is_not_switched_off(stand: Stand) -> None:
    stand.mirror.put(run_of(1))
    for word in ('enable', 'disable'):
        answer = stand.ask('PUT', f'{REPO}/actions/workflows/ci.yml/{word}')
        assert answer.status == 422 and 'as long as' in answer.json()['message']


def test_the_file_of_a_workflow(stand: Stand) -> None:
    stand.mirror.put(run_of(1))
    stand.mirror.bodies[1] = json.dumps({'workflow': {'name': 'CI', 'jobs': {'build': {'runs-on': 'linux'}}}}).encode()
    found = stand.json(f'{REPO}/contents/.github/workflows/ci.yml')
    text = base64.b64decode(found['content'])
    assert json.loads(text) == {'name': 'CI', 'jobs': {'build': {'runs-on': 'linux'}}}
    assert (found['size'], found['encoding'], found['path'],
            found['type']) == (len(text), 'base64', '.github/workflows/ci.yml', 'file')
    raw = stand.get(f'{REPO}/contents/.github/workflows/ci.yml', Accept='application/vnd.github.raw')
    assert raw.body == text and raw.headers['X-Content-Type-Options'] == 'nosniff' and raw.headers[
        'Content-Type'].startswith('text/plain')
    for path in ('README.md', '..%2f..%2fetc%2fpasswd', '../../../etc/passwd', '.github/workflows/../workflows/ci.yml',
                 '.github/workflows/gone.yml'):
        answer = stand.get(f'{REPO}/contents/{path}')
        assert answer.status == 404 and answer.json()['message']


@pytest.mark.parametrize('body, status', [
    ('{', 400), ('[]', 400), ('"x"', 400), ('\\xff', 400), ('{}', 422), ('{"ref":5}', 422), ('{"ref":""}', 422),
    ('{"ref":"main","inputs":[1]}', 422),
    (json.dumps({'ref': 'main', 'inputs': {str(n): '' for n in range(26)}}), 422), ('[' * 100_000, 400)])
def test_dispatches_that_can_t_be(stand: Stand, body: str, status: int) -> None:
    stand.mirror.put(run_of(1))
    answer = stand.ask('POST', f'{REPO}/actions/workflows/ci.yml/dispatches', body=body)
    assert answer.status == status and answer.json()['message']


def test_a_body_has_a_bound(stand: Stand) -> None:
    stand.mirror.put(run_of(1))
    answer = stand.ask('POST', f'{REPO}/actions/workflows/ci.yml/dispatches', body='{"ref":"' + 'x' * (2 << 20) + '"}')
    assert answer.status == 413


# artifacts and caches

def test_artifacts(stand: Stand, tmp_path: pathlib.Path, monkeypatch: pytest.MonkeyPatch) -> None:
    kept = ArtifactsByHand(tmp_path)
    monkeypatch.setattr(stand.hub, 'artifacts', kept)
    stand.mirror.put(run_of(1))
    stand.mirror.put(run_of(2, repository='octo/other'))
    number = kept.add(1, 'things <b>\n', b'PK things')
    gone = kept.add(1, 'old', b'PK', expires_at=5)
    secret = kept.add(2, 'secret', b'PK')
    found = stand.json(f'{REPO}/actions/runs/1/artifacts')
    assert [(one['id'], one['name'], one['expired'], one['size_in_bytes']) for one in found['artifacts']] == [
        (gone, 'old', True, 2), (number, 'things <b>\n', False, 9)]
    one = found['artifacts'][1]
    assert one['archive_download_url'] == f'https://hub.example:8443/api/v3{REPO}/actions/artifacts/{number}/zip'
    assert one['workflow_run']['id'] == 1 and one['workflow_run']['head_sha'] == sha(1)
    assert stand.json(f'{REPO}/actions/artifacts?name=old')['total_count'] == 1 and stand.json(
        f'{REPO}/actions/artifacts')['total_count'] == 2
    assert stand.json(f'{REPO}/actions/artifacts/{number}') == one
    got = stand.follow(stand.get(f'{REPO}/actions/artifacts/{number}/zip'))
    assert (got.body, got.headers['Content-Type']) == (b'PK things',
                                                       'application/zip') and '\n' not in got.headers[
                                                           'Content-Disposition']
    assert stand.get(f'{REPO}/actions/artifacts/{gone}/zip').status == 410
    for path in (f'{REPO}/actions/artifacts/{secret}', f'{REPO}/actions/artifacts/{secret}/zip',
                 f'{REPO}/actions/artifacts/99'):
        assert stand.get(path).status == 404
    assert stand.ask('DELETE', f'{REPO}/actions/artifacts/{secret}').status == 404
    assert stand.ask('DELETE',
                     f'{REPO}/actions/artifacts/{number}').status == 204 and stand.get(
                         f'{REPO}/actions/artifacts/{number}').status == 404


def test_caches(stand: Stand, monkeypatch: pytest.MonkeyPatch) -> None:
    kept = CachesByHand()
    monkeypatch.setattr(stand.hub, 'caches', kept)
    stand.mirror.put(run_of(1))
    for at, (key, scope,
             size) in enumerate([('npm-a', 'refs/heads/main', 30), ('npm-b', 'refs/heads/main', 10),
                                 ('npm-a', 'refs/heads/topic', 20)]):
        kept.add(key, scope, size, 1_796_067_000_000 + at * 1000)
    kept.add('npm-a', 'refs/heads/main', 1, 0, 'octo/other')

    def ids(query: str = '') -> list[int]:
        return [one['id'] for one in stand.json(f'{REPO}/actions/caches{query}')['actions_caches']]
    assert ids() == [3, 2, 1] and ids('?direction=asc') == [1, 2, 3] and ids('?sort=size_in_bytes') == [1, 3, 2]
    assert ids('?key=npm-a') == [3, 1] and ids('?ref=refs/heads/main') == [2, 1]
    assert stand.get(f'{REPO}/actions/caches?sort=key').status == 422
    assert stand.json(f'{REPO}/actions/cache/usage') == {'full_name': 'octo/hello', 'active_caches_size_in_bytes': 60,
                                                         'active_caches_count': 3}
    assert stand.json(f'{REPO}/actions/caches')['actions_caches'][0]['last_accessed_at'] == '2026-11-30T19:30:02Z'
    assert stand.ask('DELETE', f'{REPO}/actions/caches').status == 422
    answer = stand.ask('DELETE', f'{REPO}/actions/caches?key=npm-a&ref=refs/heads/topic')
    assert (answer.status, answer.json()['total_count']) == (200, 1) and ids() == [2, 1]
    assert stand.ask('DELETE', f'{REPO}/actions/caches/4').status == 404  # of another repository
    assert stand.ask('DELETE', f'{REPO}/actions/caches/2').status == 204 and ids() == [1]
    assert stand.ask('DELETE', f'{REPO}/actions/caches?key=gone').status == 404


# runners, repositories

def test_runners(stand: Stand) -> None:
    stand.mirror.put(run_of(1))
    found = stand.json(f'{REPO}/actions/runners')
    assert [(one['name'], one['status'], one['busy'], one['os'], [label['name'] for label in one['labels']])
            for one in found['runners']] == [
        ('r1', 'online', True, 'linux', ['linux', 'x64']), ('r2', 'offline', False, 'unknown', [])]
    first = found['runners'][0]
    assert stand.json('/orgs/octo/actions/runners') == found and stand.json(
        f'{REPO}/actions/runners/{first["id"]}') == first
    assert [one['name']
            for one in stand.json(f'{REPO}/actions/runners/{first["id"]}/labels')['labels']] == ['linux', 'x64']
    assert stand.json(f'{REPO}/actions/runners?name=r2')['total_count'] == 1
    for path in ('/orgs/none/actions/runners', f'{REPO}/actions/runners/5', '/orgs/..%2f/actions/runners'):
        assert stand.get(path).status == 404
    assert stand.get('/orgs/octo/actions/runners', 'other').status == 404
    answer = stand.ask('POST', f'{REPO}/actions/runners/registration-token', 'admin')
    assert answer.status == 422 and 'acts-hub token' in answer.json()['message']


def test_what_clients_ask_first(stand: Stand) -> None:
    stand.mirror.put(run_of(1))
    for path in ('', '/'):
        assert stand.json(path)['current_user_url'] == 'https://hub.example:8443/api/v3/user'
    assert stand.json('/user', 'write')['login'] == 'mona'
    assert stand.json('/meta')['installed_version'].count('.') == 2
    repository = stand.json(REPO, 'write')
    assert (repository['full_name'], repository['default_branch'], repository['permissions']) == (
        'octo/hello', 'main', {'admin': False, 'push': True, 'pull': True})
    assert [one['full_name'] for one in stand.json('/user/repos')] == ['octo/empty', 'octo/hello']
    assert stand.json('/user/repos', 'other') == []
    assert stand.json('/repos/octo/empty')['name'] == 'empty'  # configured, without runs
    assert stand.json('/repos/octo/empty/actions/runs') == {'total_count': 0, 'workflow_runs': []}


def test_fields_of_answers(stand: Stand) -> None:
    stand.mirror.put(run_of(1))
    for path, status in ((REPO, 200), (f'{REPO}/actions/runs/5', 404)):
        answer = stand.get(path, 'write')
        assert answer.status == status and answer.headers['Content-Type'] == 'application/json; charset=utf-8'
        assert answer.headers['X-GitHub-Media-Type'] == 'github.v3; format=json' and answer.headers[
            'X-GitHub-Request-Id']
        assert {'repo', 'read:org', 'workflow'} <= set(answer.headers['X-OAuth-Scopes'].split(', '))
        assert answer.headers['X-Content-Type-Options'] == 'nosniff' and 'private' in answer.headers['Cache-Control']
    assert 'X-OAuth-Scopes' not in stand.get(REPO,
                                             'read').headers  # a token that only reads has no scope of GitHub's classic tokens


def test_head_is_get_without_a_body(stand: Stand) -> None:
    stand.mirror.put(run_of(1))
    get, head = stand.get(REPO), stand.ask('HEAD', REPO, 'read')
    assert (head.status, head.body) == (200, b'') and head.headers['ETag'] == get.headers['ETag']


def test_refused_events(stand: Stand) -> None:
    stand.mirror.put(run_of(1))
    for number in range(3):
        stand.hub.refused.add(1_796_067_000_000, 'octo/hello', 'push', f'd{number}', '.github/workflows/<b>.yml',
                              'refs/heads/main', sha(1), 26, 7,
                              'the condition reads an output', 'read the result of the job')
    stand.hub.refused.add(1_796_067_000_000, 'octo/other', 'push', 'd9', None, None, None, None, None, 'no workflow',
                          '')
    found = stand.json(f'{REPO}/actions/acts/refused?per_page=2')['refused']
    assert [one['delivery'] for one in found] == ['d2', 'd1']
    assert {name: found[0][name] for name in ('event', 'path', 'code', 'line', 'message', 'created_at')} == {
        'event': 'push', 'path': '.github/workflows/<b>.yml', 'code': 26, 'line': 7,
        'message': 'the condition reads an output', 'created_at': '2026-11-30T19:30:00Z'}
    assert [one['delivery']
            for one in stand.json(f'{REPO}/actions/acts/refused?per_page=2&page=2')['refused']] == ['d0']
    assert [one['delivery']
            for one in stand.json(f'{REPO}/actions/acts/refused?before={found[1]["id"]}')['refused']] == ['d0']


@pytest.mark.parametrize('path',
                         ['actions/secrets', 'actions/secrets/public-key', 'actions/variables', 'actions/variables/A',
                          'actions/permissions',
                                  'actions/oidc/customization/sub', 'deployments', 'deployments/5/statuses',
                                  'environments', 'pulls', 'pulls/7', 'issues', 'zen'])
def test_what_is_not_here_is_404_with_words(stand: Stand, path: str) -> None:
    stand.mirror.put(run_of(1))
    answer = stand.get(f'{REPO}/{path}')
    assert answer.status == 404 and answer.json()['message'] not in ('', 'Not Found')
    assert stand.get(f'{REPO}/{path}', None).status == 401
    assert stand.get('/zen').status == 404 and stand.ask('PATCH', REPO).status == 404


def test_rates(tmp_path: pathlib.Path) -> None:
    """GitHub Docs, "Rate limits for the REST API": the fields, and GET /rate_limit."""
    with standing(tmp_path, AccessConfig(requests_a_second=1, requests_burst=5)) as stand:
        stand.hub.access.requests = Rates(1, 5, lambda: 0)  # no time goes by
        stand.mirror.put(run_of(1))
        for used in range(1, 4):
            began, fields = time.time(), stand.get(REPO).headers
            assert (fields['X-RateLimit-Limit'], fields['X-RateLimit-Resource']) == ('5', 'core')
            assert (fields['X-RateLimit-Used'], fields['X-RateLimit-Remaining']) == (str(used), str(5 - used))
            assert began < int(fields['X-RateLimit-Reset']) < time.time() + 10
        assert stand.json('/rate_limit')['rate'].keys() == {'limit', 'remaining', 'reset', 'used'}
        assert stand.get(REPO).status == 200
        late = stand.get(REPO)
        assert late.status == 429 and int(late.headers['Retry-After']) >= 1 and late.json()['message']
        assert stand.get(REPO, 'write').status == 200  # another token has its own


def test_without_a_limit_there_are_no_rates(tmp_path: pathlib.Path) -> None:
    with standing(tmp_path, AccessConfig(requests_a_second=0)) as stand:
        stand.mirror.put(run_of(1))
        assert 'X-RateLimit-Limit' not in stand.get(REPO).headers
        answer = stand.get('/rate_limit')
        assert (answer.status, answer.json()['message']) == (404, 'Rate limiting is not enabled.')


def test_the_words_of_401(stand: Stand) -> None:
    for token, words in ((None, 'Requires authentication'), ('wrong', 'Bad credentials')):
        for path in ('/user', REPO, f'{REPO}/actions/runs', '/nothing'):
            answer = stand.get(path, token)
            assert (answer.status, answer.json()['message']) == (401, words)


def test_badges(stand: Stand) -> None:
    stand.mirror.put(run_of(1, conclusion='failure'))
    stand.mirror.put(run_of(2, branch='topic/a'))
    stand.mirror.put(run_of(3, status='in_progress'))
    stand.mirror.put(run_of(4, path=DEPLOY, workflow='</title><script>alert(1)</script>"', branch='other'))
    first = next(one for one in stand.json(f'{REPO}/actions/workflows')['workflows'] if one['name'] == 'CI')
    path = first['badge_url'].removeprefix(stand.hub.config.url)
    fields = {'Authorization': f'token {stand.tokens["read"]}'}

    def words(query: str = '', where: str = path) -> str:
        answer = request(stand.port, 'GET', where + query, None, fields)
        assert (answer.status, answer.headers['Content-Type']) == (200, 'image/svg+xml; charset=utf-8')
        picture = ElementTree.fromstring(answer.text)  # it is well formed
        assert {one.tag.rpartition('}')[2] for one in picture.iter()} == {'svg', 'title', 'rect', 'g', 'text'}
        return [one.text or '' for one in picture.iter() if one.tag.endswith('}text')][1]
    assert words() == 'failing' and words('?branch=topic/a') == 'passing' and words(
        '?branch=none') == 'no status' and words('?event=pull_request') == 'no status'
    assert words(where=path.replace('ci.yml', 'deploy.yml')) == 'no status'
    for token, status in (('other', 404), (None, 401)):
        given = {'Authorization': f'token {stand.tokens[token]}'} if token else {}
        assert request(stand.port, 'GET', path, None, given).status == status
    assert request(stand.port, 'GET', path.replace('ci.yml', 'none.yml'), None, fields).status == 404
