"""Filters of `on` by GitHub's cheat sheet, triggers, and patterns that would hang a matcher."""
from __future__ import annotations

import pathlib
import re
import time
from typing import Any

import pytest

from acts_workflow.filters import TOKEN, Pattern, chosen, passes, triggers_of
from acts_workflow.values import Fault

pytestmark = pytest.mark.quick
ROWS = [line.split('\t') for line in (pathlib.Path(__file__).parent / 'rows/filters.tsv').read_text().splitlines()
        if not line.startswith('#')]


@pytest.mark.parametrize('patterns, name, wanted', ROWS, ids=['|'.join(row) for row in ROWS])
def test_rows_of_the_cheat_sheet(patterns: str, name: str, wanted: str) -> None:
    assert chosen(name, patterns.split(' ')) == (wanted == 'yes')


def test_there_are_rows() -> None:
    assert len(ROWS) >= 70


@pytest.mark.parametrize('pattern', ['c++', '?', '+', '*+', '**?', '[z-a]', 'a' * 2000])
def test_no_pattern(pattern: str) -> None:
    with pytest.raises(Fault):
        Pattern(pattern)


@pytest.mark.parametrize('pattern, name, wanted', [
    (r'\*', '*', True), (r'\*', 'a', False), (r'a\+', 'a+', True), ('[a-c]x', 'bx', True), ('[a-c]x', 'dx', False), ('[a-c-]', '-', True),
    ('a**/b', 'axx/b', True), ('**/b', 'b', True), ('**/b', 'a/c/b', True), ('**/b', 'ab', False), ('x/**/b', 'x/b', True), ('a?b?', '', True),
    ('', '', True), ('*', '', True), ('a', '', False)])
def test_patterns_beside_the_sheet(pattern: str, name: str, wanted: bool) -> None:
    assert Pattern(pattern).matches(name) == wanted


def test_patterns_agree_with_their_regular_expressions() -> None:
    """Over all names of up to five letters of a small alphabet, by what the cheat sheet says of each sign."""
    import itertools
    signs = {'**/': '(?:.*/)?', '*': '[^/]*', '**': '.*', 'a': 'a', '/': '/', 'a?': 'a?', '[ab]+': '[ab]+', 'b+': 'b+'}
    names = [''.join(letters) for length in range(5) for letters in itertools.product('ab/', repeat=length)]
    tried = 0
    for parts in itertools.product(signs, repeat=3):
        text = ''.join(parts)
        if TOKEN.findall(text) != [token for part in parts for token in TOKEN.findall(part)]:
            continue  # the signs are others when they stand side by side
        tried += 1
        wanted, made = re.compile(''.join(signs[part] for part in parts)), Pattern(text)
        for name in names:
            assert made.matches(name) == bool(wanted.fullmatch(name)), (text, name)
    assert tried > 200


@pytest.mark.parametrize('pattern', ['[a-z]+' * 100 + '!', '*a' * 300 + 'b', '**a' * 300 + 'b', 'a?' * 400 + 'b'], ids='abcd')
def test_a_pattern_takes_no_time_that_grows_with_its_power(pattern: str) -> None:
    began = time.process_time()
    assert not Pattern(pattern).matches('a' * 500)
    assert time.process_time() - began < 3


def test_the_last_pattern_that_matches_decides() -> None:
    assert [chosen(name, ['*', '!feature', 'feature']) for name in ('main', 'feature')] == [True, True]
    assert not chosen('feature', ['*', '!feature'])
    assert not chosen('x', ['a'] * 1000)
    with pytest.raises(Fault):
        chosen('x', ['a'] * 1001)


def test_two_kinds_of_filters_together_are_a_fault() -> None:
    with pytest.raises(Fault, match='branches and branches-ignore together'):
        passes({'branches': ['a'], 'branches-ignore': ['b']}, 'branches', ['a'])
    assert not passes({'paths-ignore': ['docs/**']}, 'paths', ['docs/a', 'docs/b']) and passes({'paths-ignore': ['docs/**']}, 'paths', ['docs/a', 'src'])


@pytest.mark.parametrize('on, wanted', [
    ('push', {'push': {}}), (['push', 'fork'], {'push': {}, 'fork': {}}), ({'push': None, 'schedule': [{'cron': '* * * * *'}]},
                                                                         {'push': {}, 'schedule': [{'cron': '* * * * *'}]})])
def test_triggers(on: Any, wanted: Any) -> None:
    assert triggers_of(on) == wanted


@pytest.mark.parametrize('on', [None, 5, {'push': 'main'}, {'push': ['main']}, {'schedule': {'cron': '* * * * *'}}])
def test_no_triggers(on: Any) -> None:
    with pytest.raises(Fault):
        triggers_of(on)
