"""Expressions, by the examples of GitHub's documentation, and by what a hostile workflow may have in its place."""
from __future__ import annotations

import json
import pathlib
import time

import pytest

from acts_workflow import expressions
from acts_workflow.expressions import Part, Scope, condition, evaluate, evaluated, has_open_braces, parts, read, whole
from acts_workflow.values import Fault, Unknown, text_of

pytestmark = pytest.mark.quick
ROWS = [line.split('\t') for line in (pathlib.Path(__file__).parent / 'rows/expressions.tsv').read_text().splitlines()
        if not line.startswith('#')]
FRUITS = [{'name': 'apple', 'quantity': 1}, {'name': 'orange', 'quantity': 2}, {'name': 'pear', 'quantity': 1}]
CONTEXTS = {
    'github': {'ref': 'refs/heads/main', 'event_name': 'push', 'head_ref': '',
               'event': {'issue': {'labels': [{'name': 'bug'}, {'name': 'help wanted'}]}, 'fruits': FRUITS}},
    'inputs': {'deploy': True}, 'vars': {'LEVEL': '3'}}


@pytest.mark.parametrize('text, value, holds', ROWS, ids=[row[0] for row in ROWS])
def test_rows_of_the_documentation(text: str, value: str, holds: str) -> None:
    found = evaluate(text, CONTEXTS)
    assert isinstance(found, Unknown) if value == 'unknown' else json.dumps(found) == json.dumps(json.loads(value))
    assert str(condition(text, CONTEXTS)).replace('True', 'true').replace('False', 'false') == holds


def test_there_are_rows() -> None:
    assert len(ROWS) >= 80


@pytest.mark.parametrize('text', ["fromJSON('')", "fromJSON('{')", "fromJSON('NaN')", "fromJSON('" + '[' * 20000 + "')", "format('{1}', 1)",
                                  "format('{', 1)", 'contains(1)', 'nothing(1)', '(' * 60 + '1' + ')' * 60, '!' * 60 + '1', "'" + 'a' * 21000 + "'",
                                  'github.', '1 +', 'a b', '٣', "format('{99999999999}', 1)", 'case(true, 1)'],
                         ids=range(17))
def test_a_fault_is_said(text: str) -> None:
    with pytest.raises(Fault):
        evaluated(read(text), Scope(CONTEXTS))
    assert evaluate(text, CONTEXTS) == Unknown()


def test_a_text_that_doubles_is_bounded() -> None:
    text = "'" + 100 * 'a' + "'"
    for _ in range(12):
        text = f"format('{'{0}' * 10}', {text})"
    began = time.process_time()
    with pytest.raises(Fault, match='a text of over'):
        evaluated(read(text), Scope({}))
    assert time.process_time() - began < 2


def test_what_does_not_count_is_not_evaluated() -> None:
    assert evaluate("vars.NONE && fromJSON(vars.NONE)", CONTEXTS) is None
    assert evaluate("vars.LEVEL || fromJSON(vars.NONE)", CONTEXTS) == '3'


def test_case_gives_the_first_that_holds() -> None:
    text = "case(github.ref == 'refs/heads/main', 'production', github.ref == 'refs/heads/staging', 'staging', 'development')"
    assert evaluate(text, CONTEXTS) == 'production'
    assert evaluate(text, {'github': {'ref': 'refs/heads/staging'}}) == 'staging'
    assert evaluate(text, {'github': {'ref': 'refs/heads/x'}}) == 'development'


@pytest.mark.parametrize('text, wanted', [
    ('plain', [Part('plain', False)]), ('', []),
    ('a ${{ b }} c', [Part('a ', False), Part(' b ', True), Part(' c', False)]),
    ("${{ '}}' }}", [Part(" '}}' ", True)]), ("${{ 'it''s }}' }}x", [Part(" 'it''s }}' ", True), Part('x', False)]),
    ('${{ a', [Part('${{ a', False)]), ("${{ 'a }}", [Part("${{ 'a }}", False)]), ('${{a}}${{b}}', [Part('a', True), Part('b', True)])])
def test_parts(text: str, wanted: list[Part]) -> None:
    assert parts(text) == wanted
    assert ''.join(map(str, parts(text))) == text


def test_whole_and_open() -> None:
    assert whole(' ${{ a }}\n') == ' a ' and whole('x${{ a }}') is None and whole('${{ a }}${{ b }}') is None
    assert has_open_braces('a ${{ b') and not has_open_braces('a ${{ b }} }}')


@pytest.mark.parametrize('text', ['${{' * 100000, "${{ " + "''" * 100000, "${{ " + "'a' " * 100000 + '}}', '}}' * 100000], ids='abcd')
def test_braces_of_a_huge_text_take_no_time(text: str) -> None:
    began = time.process_time()
    parts(text)
    assert time.process_time() - began < 2


@pytest.mark.parametrize('value, wanted', [(1.50, '1.5'), (1e21, '1E+21'), (True, 'true'), (None, ''), ([1], 'Array'), ({}, 'Object'),
                                           (10 ** 400, 'Infinity'), (-10 ** 400, '-Infinity'), (float('inf'), 'Infinity'), (float('nan'), 'NaN'), (0, '0')])
def test_text_of(value: object, wanted: str) -> None:
    assert text_of(value) == wanted  # type: ignore[arg-type]


def test_a_scope_of_a_runner_is_a_subclass() -> None:
    class Strict(Scope):
        def status(self, name: str) -> bool:
            return name in ('always', 'failure')

        def other(self, name: str, given: list[expressions.Known]) -> str:
            return name + str(given)

    scope = Strict({'github': {'sha': 'abc'}})
    assert evaluated(read("failure() && github.sha == 'ABC'"), scope) is True
    assert evaluated(read("hashFiles('a')"), scope) == "hashfiles['a']"
