"""YAML as version 1.2 has it, its lines, and files that are made to harm."""
from __future__ import annotations

import time

import pytest

from acts_workflow.reading import line_of, read
from acts_workflow.values import Fault

pytestmark = pytest.mark.quick
TEXT = '''name: CI
on:
  push:
    branches: [main]
jobs:
  build:
    needs: [a,
            b]
    if: needs.a.result == 'success'
    strategy:
      matrix:
        "a b":
          - x
          - {y: 1}
'''


def test_words_of_yaml_1_2() -> None:
    assert read('on: [010, yes, 1:30, 2020-01-01, 0x1f, 0o17, 1.5, ~, "5", off, True, .5, 1e3]') == {
        'on': [10, 'yes', '1:30', '2020-01-01', 31, 15, 1.5, None, '5', 'off', True, .5, 1000.0]}


def test_names_of_members_are_texts() -> None:
    assert read('{2: a, true: b, ~: c, 1.5: d}') == {'2': 'a', 'true': 'b', 'null': 'c', '1.5': 'd'}


@pytest.mark.parametrize('place, line', [
    ('.', 1), ('name', 1), ('on.push.branches', 4), ('on.push.branches[0]', 4), ('jobs.build', 6), ('jobs.build.needs[1]', 8), ('jobs.build.if', 9),
    ('jobs.build.strategy.matrix["a b"]', 12), ('jobs.build.strategy.matrix["a b"][1]', 14), ('jobs.build.strategy.matrix.none', 11),
    ('jobs.other.if', 5), ('nothing', 1), ('jobs.build.needs[7]', 7)])
def test_lines(place: str, line: int) -> None:
    assert line_of(TEXT, place) == line


BOMB = 'a: &a [x, x, x, x, x, x, x, x, x]\n' + ''.join(
    f'{b}: &{b} [{", ".join(["*" + a] * 9)}]\n' for a, b in zip('abcdefgh', 'bcdefghi'))


@pytest.mark.parametrize('text', [
    BOMB, 'a: &a [*a]', '[1]', 'a: [', '\t', '', 'a: !!python/object/apply:os.system ["true"]', '? [a]\n: b', 'a: !!binary aGk=', 'a: !!set {x}',
    'a: \0', '[' * 100_000, '{a: ' * 20_000, '- ' * 100_000, '? ' * 100_000, 'a: ' + '[' * 101 + ']' * 101, 'x' * (1 << 21), 'a: *b', '%YAML 9.9\n--- x',
    'a: 1\n---\nb: 2', 'a: !!timestamp 2020-01-01', 'a: ' + '9' * 5000], ids=range(22))
def test_no_workflow(text: str) -> None:
    began = time.process_time()
    with pytest.raises(Fault):
        read(text)
    assert time.process_time() - began < 5
    line_of(text, 'a')


def test_a_fault_of_yaml_has_its_line() -> None:
    with pytest.raises(Fault) as raised:
        read('on: push\njobs:\n  a: [\n')
    assert raised.value.line == 3


def test_the_largest_that_is_read_takes_seconds_at_most() -> None:
    began = time.process_time()
    read('jobs:\n' + ''.join(f'  job_{n}: {{runs-on: linux}}\n' for n in range(10_000)))
    assert time.process_time() - began < 5


@pytest.mark.parametrize('text, line', [('a: 1\nb: 2\na: 3\n', 3), ('jobs:\n  a: {x: 1}\n  b: 1\n  "a": 2\n', 4), ('a: {b: [{c: 1, c: 2}]}', 1), ('1: a\n"1": b\n', 2)])
def test_a_member_that_is_there_twice(text: str, line: int) -> None:
    """GitHub refuses such a file; the last one would count for PyYAML."""
    with pytest.raises(Fault, match='is there twice') as raised:
        read(text)
    assert raised.value.line == line


def test_members_of_an_alias() -> None:
    assert read('a: &x {b: 1}\nc: *x\nd: {e: *x, f: *x}') == {'a': {'b': 1}, 'c': {'b': 1}, 'd': {'e': {'b': 1}, 'f': {'b': 1}}}
