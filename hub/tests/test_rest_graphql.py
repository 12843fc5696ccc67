"""GraphQL over a hub: what gh asks, rights, and hostile queries."""
from __future__ import annotations

import json
from typing import Any

import pytest
from rest_stand import Stand, job_of, leg_of, run_of, sha

pytestmark = pytest.mark.quick
# as gh 2.23 writes them
FOR_RUN = '''query PullRequestForRun($owner: String!, $repo: String!, $headRefName: String!) {
  repository(owner: $owner, name: $repo) {
    pullRequests(headRefName: $headRefName, first: 1, orderBy: { field: CREATED_AT, direction: DESC }) {
      totalCount nodes { number headRepository { owner { login } name } } } } }'''
BY_NUMBER = '''query PullRequestByNumber($owner: String!, $repo: String!, $pr_number: Int!) {
  repository(owner: $owner, name: $repo) { pullRequest(number: $pr_number) {number,headRefName,id} } }'''
CHECKS = '''query PullRequestStatusChecks($id: ID!, $endCursor: String!) { node(id: $id) { ...on PullRequest {
  statusCheckRollup: commits(last: 1) { nodes { commit { statusCheckRollup { contexts(first:100,after:$endCursor) { nodes {
    __typename ...on StatusContext { context, state, targetUrl, createdAt },
    ...on CheckRun { name, checkSuite{workflowRun{workflow{name}}}, status, conclusion, startedAt, completedAt, detailsUrl }
  }, pageInfo{hasNextPage,endCursor} } } } } } } } }'''
INFO = '''fragment repo on Repository { id name owner { login } hasIssuesEnabled description hasWikiEnabled viewerPermission defaultBranchRef { name } }
query RepositoryInfo($owner: String!, $name: String!) {
  repository(owner: $owner, name: $name) { ...repo parent { ...repo } mergeCommitAllowed rebaseMergeAllowed squashMergeAllowed } }'''
HERE = {'owner': 'octo', 'repo': 'hello'}


def put_pull(stand: Stand, number: int, pull: int = 7, state: str = 'success', **given: Any) -> None:
    stand.mirror.put(run_of(number, event='pull_request',
                            **{'pull_number': pull, 'pull_title': 'A feature', 'branch': 'feature', 'base_ref': 'main',
                                                             'sha': sha('head'), **given}),
                                                             job_of('build', leg_of(state)))


def test_the_viewer(stand: Stand) -> None:
    assert stand.query('query UserCurrent{viewer{login}}', 'write') == {'data': {'viewer': {'login': 'mona'}}}
    assert stand.query('{ me: viewer { login __typename } }') == {
        'data': {'me': {'login': 'reader', '__typename': 'User'}}}


def test_a_repository(stand: Stand) -> None:
    stand.mirror.put(run_of(1))
    for token, permission in (('read', 'READ'), ('write', 'WRITE'), ('admin', 'ADMIN')):
        found = stand.query(INFO, token, owner='octo', name='hello')['data']['repository']
        assert (found['name'], found['owner'], found['viewerPermission'], found['defaultBranchRef'],
                found['parent']) == (
            'hello', {'login': 'octo'}, permission, {'name': 'main'}, None)
    again = stand.query('query($id: ID!) { node(id: $id) { ... on Repository { nameWithOwner } } }', id=found['id'])
    assert again == {'data': {'node': {'nameWithOwner': 'octo/hello'}}}


def test_a_repository_that_one_may_not_read_is_not_found(stand: Stand) -> None:
    stand.mirror.put(run_of(1))
    for token, name in (('other', 'hello'), ('read', 'none'), ('read', '../..'), ('read', 'x' * 5000)):
        found = stand.query(INFO, token, owner='octo', name=name)
        assert found['data'] == {'repository': None} and found['errors'][0]['type'] == 'NOT_FOUND'
        assert found['errors'][0]['message'].startswith('Could not resolve to a Repository with the name')


def test_pull_requests_of_a_branch(stand: Stand) -> None:
    put_pull(stand, 1, head_repository='mona/hello')
    put_pull(stand, 2, 8, branch='other')
    found = stand.query(FOR_RUN, **HERE, headRefName='feature')
    assert found == {'data': {'repository': {'pullRequests': {'totalCount': 1, 'nodes': [
        {'number': 7, 'headRepository': {'owner': {'login': 'mona'}, 'name': 'hello'}}]}}}}
    assert stand.query(FOR_RUN, **HERE,
                       headRefName='main')['data']['repository']['pullRequests'] == {'totalCount': 0, 'nodes': []}
    every = stand.query(
        '{ repository(owner: "octo", name: "hello") { pullRequests(first: 1) { totalCount nodes { number } pageInfo { hasNextPage endCursor } } } }')
    pulls = every['data']['repository']['pullRequests']
    assert pulls['totalCount'] == 2 and pulls['nodes'] == [{'number': 8}] and pulls['pageInfo']['hasNextPage']
    rest = stand.query(
        'query($c: String) { repository(owner: "octo", name: "hello") { pullRequests(first: 9, after: $c) { nodes { number } pageInfo { hasNextPage } } } }',
                       c=pulls['pageInfo']['endCursor'])['data']['repository']['pullRequests']
    assert rest == {'nodes': [{'number': 7}], 'pageInfo': {'hasNextPage': False}}


def test_checks_of_a_pull_request_are_those_of_its_head(stand: Stand) -> None:
    put_pull(stand, 1, state='failure', sha=sha('before'))
    put_pull(stand, 2)
    stand.mirror.put(run_of(3, sha=sha('head'), path='.github/workflows/lint.yml', workflow='Lint',
                            status='in_progress'),
                     job_of('lint', leg_of('running', ended_at=None), state='open'))
    pull = stand.query(BY_NUMBER, **HERE, pr_number=7)['data']['repository']['pullRequest']
    assert (pull['number'], pull['headRefName']) == (7, 'feature')
    found = stand.query(CHECKS, id=pull['id'],
                        endCursor='')['data']['node']['statusCheckRollup']['nodes'][0]['commit']['statusCheckRollup'][
                            'contexts']
    assert [(one['__typename'], one['name'], one['status'], one['conclusion'],
             one['checkSuite']['workflowRun']['workflow']['name']) for one in found['nodes']] == [
        ('CheckRun', 'lint', 'IN_PROGRESS', None, 'Lint'), ('CheckRun', 'build', 'COMPLETED', 'SUCCESS', 'CI')]
    assert found['pageInfo']['hasNextPage'] is False
    assert (found['nodes'][1]['startedAt'], found['nodes'][1]['completedAt'], found['nodes'][0]['completedAt']) == (
        '2026-11-30T19:30:10Z', '2026-11-30T19:30:30Z', None)
    state = stand.query('query($id: ID!) { node(id: $id) { ... on PullRequest { statusCheckRollup { state } } } }',
                        id=pull['id'])
    assert state == {'data': {'node': {'statusCheckRollup': {'state': 'PENDING'}}}}
    assert stand.query(CHECKS, 'other', id=pull['id'], endCursor='')['data'] == {'node': None}


def test_what_is_not_known_of_a_pull_request_says_so(stand: Stand) -> None:
    put_pull(stand, 1)
    found = stand.query('{ repository(owner: "octo", name: "hello") { pullRequest(number: 7) { title state } } }')
    assert found['data'] == {'repository': {'pullRequest': {'title': 'A feature',
                                                            'state': None}}} and 'not known here' in found['errors'][0][
                                                                'message']
    missing = stand.query(BY_NUMBER, **HERE, pr_number=99)
    assert missing['data'] == {'repository': {'pullRequest': None}} and 'PullRequest with the number of 99' in missing[
        'errors'][0]['message']


@pytest.mark.parametrize('body',
                         [b'', b'{', b'[]', b'null', b'"x"', b'{"query":1}', b'{"query":""}', b'{"query":"{"}',
                          b'{"query":"{viewer{login}}","variables":[]}',
                                  b'{"query":"{viewer{login}}","operationName":5}', b'\xff\xfe',
                                  b'{"query":"mutation{a{b}}"}', b'[' * 100_000,
                                  b'{"query":"subscription{viewer{login}}"}',
                                  json.dumps({'query': '{a' * 9000}).encode(),
                                  json.dumps({'query': '{' + 'viewer{login}' * 1500 + '}'}).encode(),
                                  json.dumps({'query': '{node(id:"/w==")}'}).encode(),
                                  json.dumps({'query': '{ viewer { ' + 'x: login ' * 100_000 + '} }'}).encode(),
                                  b'{"query":"{node(id: {a: 1}) { id }}"}',
                                  b'{"query":"{repository(owner: 5, name: [null]) { id }}"}',
                                  b'{"query":"{ repository { id } }"}',
                                  b'{"query":"{ repository(owner:\\"octo\\",name:\\"hello\\") { pullRequests(first: 1000000) { totalCount } } }"}',
                                  b'{"query":"{ repository(owner:\\"octo\\",name:\\"hello\\") { pullRequests(first: -1) { totalCount } } }"}',
                                  b'{"query":"{ repository(owner:\\"octo\\",name:\\"hello\\") { pullRequests(first: 1, after: \\"x\\") { totalCount } } }"}',
                                  b'{"query":"{ repository(owner:\\"octo\\",name:\\"hello\\") { pullRequest(number: \\"7\\") { id } } }"}'])
def test_hostile_bodies_are_told_in_errors(stand: Stand, body: bytes) -> None:
    stand.mirror.put(run_of(1))
    answer = stand.ask('POST', '/api/graphql', 'read', body)
    assert answer.status in (200, 400, 413)
    found = answer.json()
    if answer.status == 200 and b'login' not in body:
        assert found['errors'][0]['message']


def test_a_query_needs_a_token(stand: Stand) -> None:
    for token in (None, 'wrong'):
        assert stand.ask('POST', '/api/graphql', token, {'query': '{viewer{login}}'}).status == 401
