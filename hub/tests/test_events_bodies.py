"""What is sent of a payload, whatever its size and whatever is in it."""
from __future__ import annotations

import json
import time
from typing import Any

import pytest

from acts_hub.events.bodies import Server, Source, body_of, encoded
from acts_hub.events.occasions import Occasion
from acts_hub.events.settings import Repository, Settings
from acts_hub.events.starts import Happening
from acts_workflow.values import Fault

pytestmark = pytest.mark.quick
COMMIT = {'id': 'c' * 40, 'url': 'https://api/u', 'html_url': 'https://git/c'}


@pytest.mark.parametrize('payload, left_out, pages', [
    ({'ref': 'r', 'commits': [COMMIT] * 100, 'sender': {'html_url': 'https://git/m', 'avatar_url': 'a', '_links': {}}}, 'addresses of the API', True),
    ({'ref': 'r', 'commits': [COMMIT] * 2000, 'sender': {'html_url': 'https://git/m'}}, 'addresses of the API, lists', False),
    ({'ref': 'r', 'head': {'message': 'm' * 70000}}, 'all but texts and numbers', False), ({'ref': 'r', 'text': 'm' * 70000}, 'all', False)], ids='abcd')
def test_as_much_of_a_payload_as_fits(payload: dict[str, Any], left_out: str, pages: bool) -> None:
    sent = body_of({'github': {'sha': 'x'}}, payload)
    body = json.loads(sent)
    assert len(sent) <= 65536 and body['left_out'] == left_out and body['github']['sha'] == 'x'
    assert body['github']['event'].get('ref') == (None if left_out == 'all' else 'r')
    assert (b'https://git/c' in sent) == pages and b'https://api' not in sent and b'avatar_url' not in sent and b'_links' not in sent


def test_a_workflow_that_is_too_long() -> None:
    with pytest.raises(Fault) as raised:
        body_of({'github': {}, 'workflow': 'w' * 65536}, {})
    assert raised.value.number == 24


@pytest.mark.parametrize('value', [float('nan'), float('inf')])
def test_what_json_does_not_have(value: float) -> None:
    with pytest.raises(Fault):
        encoded({'a': value})


def test_a_huge_payload_takes_no_time() -> None:
    payload = {'commits': [{'message': 'm' * 1000, 'files': list(range(100))}] * 20000, 'ref': 'r'}
    began = time.process_time()
    assert json.loads(body_of({'github': {}}, payload))['github']['event'] == {'ref': 'r'}
    assert time.process_time() - began < 10


def test_markup_and_odd_characters_pass_as_they_are() -> None:
    text = '<script>alert(1)</script> \u0000 \ud800 ${{ secrets.X }} \u202e'
    sent = json.loads(body_of({'github': {}}, {'title': text}))['github']['event']['title']
    assert sent == text.replace('\ud800', '?')


def test_inputs_of_a_run_that_is_started_by_hand() -> None:
    """GitHub Docs, "Events that trigger workflows", `workflow_dispatch`: `github.event.inputs` has what `inputs` has, as texts."""
    text = """on: {workflow_dispatch: {inputs: {dry: {type: boolean, default: true}, n: {type: number, default: 1.5}, s: {}, o: {type: choice, options: [a, b]}}}}
jobs: {a: {runs-on: x, if: "github.event.inputs.dry == 'true' && github.event.inputs.n == '1.5' && github.event.inputs.o == 'b'"}}
"""
    occasion = Occasion(Happening('workflow_dispatch'), 'c' * 40, 'c' * 40, 'refs/heads/main')
    source = Source(Repository('octo/hello', None, False, False, {}, None), occasion, {'inputs': {'o': 'b'}}, {'a.yml': text}, {}, Server('', Settings()))
    body = json.loads(source.event('a.yml', source.read('a.yml')).body)
    assert body['inputs'] == {'dry': True, 'n': 1.5, 's': '', 'o': 'b'}
    assert body['github']['event']['inputs'] == {'dry': 'true', 'n': '1.5', 's': '', 'o': 'b'} and body['workflow']['jobs']['a']['if'] is True
