"""Runs that someone starts over REST: inputs with their types, refusals in words, and rights."""
from __future__ import annotations

import json
import pathlib
from collections.abc import Iterator
from typing import Any

import pytest
from harness import until
from test_events import BY_HAND, ONE, Place

BROKEN = '{on: workflow_dispatch, jobs: {a: {runs-on: linux, if: needs.b.outputs.x}, b: {runs-on: linux}}}'
TYPES = '{on: {repository_dispatch: {types: [deploy, undo]}}, jobs: {a: {runs-on: "${{ github.event.client_payload.where }}"}}}'
AT = '/api/v3/repos/octo/hello'


@pytest.fixture(scope='module')
def place(tmp_path_factory: pytest.TempPathFactory) -> Iterator[Place]:
    made = Place(tmp_path_factory.mktemp('dispatch'))
    try:
        made.repository.only({'by_hand.yml': BY_HAND, 'one.yml': ONE, 'broken.yml': BROKEN, 'types.yml': TYPES})
        made.start()
        made.sender.push(made.repository.push('refs/heads/main', 'x', {'src/x': ''}))
        yield made
    finally:
        made.end()


@pytest.fixture(scope='module')
def tokens(place: Place) -> dict[str, str]:
    return {kind: place.hub.token(kind, kind) for kind in ('read', 'write')} | {
        'other': place.hub.token('other', 'write', repositories=('octo/other',)), 'runner': place.hub.token('r', 'runner', prefix='r', labels=('linux',))}


def dispatch(place: Place, token: str, inputs: Any = None, workflow: str = 'by_hand.yml', ref: str = 'main') -> tuple[int, str]:
    """The status, and the message of an answer."""
    body = json.dumps({'ref': ref, **({} if inputs is None else {'inputs': inputs})})
    answer = place.hub.post(f'{AT}/actions/workflows/{workflow}/dispatches', body, token)
    return answer.status, answer.json().get('message', '') if answer.body else ''


@pytest.mark.quick
def test_a_workflow_that_never_ran_is_started_with_its_defaults(place: Place, tokens: dict[str, str]) -> None:
    before = place.count()
    assert dispatch(place, tokens['write'], {'name': 'x'}) == (204, '')
    body = place.body(before + 1)
    assert body['inputs'] == {'size': 'small', 'dry': True, 'name': 'x', 'many': 0}
    assert body['github']['event_name'] == 'workflow_dispatch' and body['github']['actor'] == 'write'
    assert (body['github']['ref'], body['github']['event']['workflow']) == ('refs/heads/main', '.github/workflows/by_hand.yml')
    assert body['workflow']['jobs']['dry']['if'] is True and body['workflow']['jobs']['wet']['if'] is False
    assert body['workflow']['jobs']['dry']['runs-on'] == 'small'


# GitHub Docs, "Workflow syntax", on.workflow_dispatch.inputs: types, required, options, default.
@pytest.mark.parametrize('inputs, wanted', [
    ({'name': 'x', 'size': 'large', 'dry': 'false', 'many': '2.50'}, {'size': 'large', 'dry': False, 'name': 'x', 'many': 2.5}),
    ({'name': 'x', 'dry': True, 'many': 7}, {'size': 'small', 'dry': True, 'name': 'x', 'many': 7}),
    ({}, 'the input name is required'), ({'name': ''}, 'the input name is required'), ({'name': 'x', 'size': 'huge'}, 'the input size has no option huge'),
    ({'name': 'x', 'many': 'much'}, 'the input many is no number: much'), ({'name': 'x', 'dry': 'maybe'}, 'the input dry is neither true nor false: maybe'),
    ({'name': 'x', 'other': '1'}, 'the workflow has no input other'), ({'name': 'x' * 70000}, 'over 65,535 characters')],
    ids=range(9))
def test_inputs(place: Place, tokens: dict[str, str], inputs: dict[str, Any], wanted: Any) -> None:
    before = place.count()
    status, words = dispatch(place, tokens['write'], inputs)
    if isinstance(wanted, dict):
        assert (status, place.body(before + 1)['inputs']) == (204, wanted)
    else:
        assert status == 422 and wanted in words and place.count() == before


def test_each_dispatch_is_its_own_run(place: Place, tokens: dict[str, str]) -> None:
    before = place.count()
    assert dispatch(place, tokens['write'], {'name': 'x'})[0] == dispatch(place, tokens['write'], {'name': 'x'})[0] == 204
    assert place.count() == before + 2


def test_what_can_not_be_started(place: Place, tokens: dict[str, str]) -> None:
    write = tokens['write']
    assert dispatch(place, write, workflow='one.yml') == (422, "Workflow does not have 'workflow_dispatch' trigger")
    assert dispatch(place, write, workflow='none.yml')[0] == 404
    for ref in 'nothing', '--upload-pack=x', '../../x', 'a b', 'refs/pull/1/merge':
        status, words = dispatch(place, write, {'name': 'x'}, ref=ref)
        assert status == 422 and words.startswith('No ref found for'), ref
    status, words = dispatch(place, write, workflow='broken.yml')
    assert status == 422 and words.startswith('.github/workflows/broken.yml:1: refused 26')
    wanted = ('workflow_dispatch', '.github/workflows/broken.yml', 26)
    until(lambda: any(row[:3] == wanted for row in place.refused()), what='the ledger')


@pytest.mark.quick
def test_who_may_not(place: Place, tokens: dict[str, str]) -> None:
    before = place.count()
    for name, status in (('read', 403), ('other', 404), ('runner', 404)):
        answer, _ = dispatch(place, tokens[name], {'name': 'x'})
        assert answer in (status, 403), name
    assert place.hub.post(f'{AT}/actions/workflows/by_hand.yml/dispatches', '{"ref": "main"}').status in (401, 403, 404)
    assert place.count() == before


def test_repository_dispatch_starts_those_that_ask_for_its_type(place: Place, tokens: dict[str, str]) -> None:
    """GitHub Docs, "Events that trigger workflows", `repository_dispatch`: types, and client_payload."""
    def send(**given: Any) -> int:
        return place.hub.post(f'{AT}/dispatches', json.dumps(given), tokens['write']).status
    before = place.count()
    assert send(event_type='other') == 204 and place.count() == before
    assert send(event_type='deploy', client_payload={'where': 'linux'}) == 204 and place.count() == before + 1
    body = place.body(before + 1)
    assert body['workflow']['jobs']['a']['runs-on'] == 'linux' and body['github']['event']['action'] == 'deploy'
    assert send(event_type='x' * 101) == 422 and send(event_type='') == 422
    assert send(event_type='deploy', client_payload={str(n): 1 for n in range(11)}) == 422 and place.count() == before + 1


def test_a_service_that_is_away(tmp_path: pathlib.Path) -> None:
    made = Place(tmp_path)
    try:
        made.repository.only({'by_hand.yml': BY_HAND})
        made.start()
        token = made.hub.token('write', 'write')
        until(lambda: dispatch(made, token, {'name': 'x'})[0] == 204, what='the first')
        made.service.kill()
        status, words = dispatch(made, token, {'name': 'x'})
        assert status == 503 and 'the service' in words
    finally:
        made.end()
