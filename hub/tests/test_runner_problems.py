"""Problem matchers, by GitHub's page 'Problem Matchers' of the toolkit: which files are right, what is found in which lines, and what a job has of it."""
from __future__ import annotations

import json
import pathlib
import time
from typing import Any

import pytest
from acts_runner.builtin.problems import OF_TOOLS
from acts_runner.matchers import BadMatcher, Matchers, matchers_in
from acts_runner.matching import Matching
from test_runner_commands import without_place
from test_runner_hub import Site, site, tls  # noqa: F401  (fixtures)

COMPACT = {'owner': 'eslint-compact', 'pattern': [{
    'regexp': '^(.+):\\sline\\s(\\d+),\\scol\\s(\\d+),\\s(Error|Warning|Info)\\s-\\s(.+)\\s\\((.+)\\)$',
    'file': 1, 'line': 2, 'column': 3, 'severity': 4, 'message': 5, 'code': 6}]}
STYLISH = {'owner': 'eslint-stylish', 'pattern': [
    {'regexp': '^([^\\s].*)$', 'file': 1},
    {'regexp': '^\\s+(\\d+):(\\d+)\\s+(error|warning|info)\\s+(.*)\\s\\s+(.*)$', 'line': 1, 'column': 2, 'severity': 3, 'message': 4, 'code': 5, 'loop': True}]}
LINT = {'owner': 'lint', 'severity': 'warning', 'pattern': [{'regexp': '^lint: (?<what>.*?)(?: in (.*))?$', 'message': 1, 'file': 2}]}


def found(matchers: list[dict[str, Any]], lines: list[str]) -> list[tuple[str, ...] | None]:
    """Owner, file, line, column, severity, code and message of what is found in each line."""
    matching = Matching()
    for each in matchers:
        matching.obey(['add', each['owner'], each.get('severity') or '', each['pattern']])
    answer = matching.obey(['lines', lines])
    assert answer is not None
    names = 'owner', 'file', 'line', 'column', 'severity', 'code', 'message'
    return [tuple(one.get(name, '') for name in names) if one else None for one in answer['problems']]


def test_a_matcher_of_one_line() -> None:
    """The page's first example."""
    lines = ["badFile.js: line 50, col 11, Error - 'myVar' is defined but never used. (no-unused-vars)", 'a line of something else',
             'ok.js: line 1, col 2, Warning - Careful (rule)', 'ok.js: line 1, col 2, Info - Not supported (rule)']
    assert found([COMPACT], lines) == [
        ('eslint-compact', 'badFile.js', '50', '11', 'error', 'no-unused-vars', "'myVar' is defined but never used."), None,
        ('eslint-compact', 'ok.js', '1', '2', 'warning', 'rule', 'Careful'), None]


def test_a_matcher_of_several_lines_that_loops() -> None:
    """The page's second example: the file stands above, and the last pattern goes on till a line does not fit."""
    lines = ['test.js', '  1:0   error  Missing "use strict" statement                 strict', "  5:10  error  'addOne' is defined but never used            no-unused-vars",
             'foo.js', "  36:10  warning  Expected parentheses around arrow function argument  arrow-parens", '', '  1:1  error  Nothing stands above  rule']
    assert found([STYLISH], lines) == [
        None, ('eslint-stylish', 'test.js', '1', '0', 'error', 'strict', 'Missing "use strict" statement               '),
        ('eslint-stylish', 'test.js', '5', '10', 'error', 'no-unused-vars', "'addOne' is defined but never used          "), None,
        ('eslint-stylish', 'foo.js', '36', '10', 'warning', 'arrow-parens', 'Expected parentheses around arrow function argument'), None, None]


def test_a_match_resets_the_others() -> None:
    """What one matcher has begun is forgotten once another one finds a problem; the one that was added last has the first look."""
    two = {'owner': 'two', 'pattern': [{'regexp': '^begin (.*)$', 'file': 1}, {'regexp': '^end (.*)$', 'message': 1}]}
    assert found([two, LINT], ['begin a.c', 'end here']) == [None, ('two', 'a.c', '', '', 'error', '', 'here')]
    assert found([two, LINT], ['begin a.c', 'lint: first', 'end here']) == [None, ('lint', '', '', '', 'warning', '', 'first'), None]
    everything = {'owner': 'all', 'pattern': [{'regexp': '(.*)', 'message': 1}]}
    assert [one and one[0] for one in found([LINT, everything], ['lint: x'])] == ['all'] and found([everything, LINT], ['lint: x'])[0][0] == 'lint'  # type: ignore[index]


def test_without_a_message_there_is_none() -> None:
    assert found([{'owner': 'x', 'pattern': [{'regexp': '^x(.*)$', 'message': 1}]}], ['x', 'x  ', 'x y']) == [None, None, ('x', '', '', '', 'error', '', ' y')]


def pattern(**more: Any) -> dict[str, Any]:
    return {'problemMatcher': [{'owner': 'x', 'pattern': [{'regexp': '^(a)(b)$', 'message': 1, **more}]}]}


def of(*matchers: dict[str, Any]) -> dict[str, Any]:
    return {'problemMatcher': list(matchers)}


WRONG: list[tuple[str, Any]] = [
    ('no JSON', '{'), ('no list', {'matchers': []}), ('no list', {'problemMatcher': {}}), ('an owner', of({'pattern': [{'regexp': 'a', 'message': 0}]})),
    ('an owner', of(COMPACT, {**COMPACT, 'owner': 'ESLint-Compact'})), ('no patterns', of({'owner': 'x', 'pattern': []})), ('no patterns', of({'owner': 'x'})),
    ('message', of({'owner': 'x', 'pattern': [{'regexp': '(a)', 'file': 1}]})), ('no group', pattern(file=3)), ('no group', pattern(line=-1)), ('no group', pattern(line='1')),
    ('not read', pattern(regexp='(')), ('severity', of({**LINT, 'severity': 'fatal'})), ('loop', pattern(loop=True)),
    ('set the same', of({'owner': 'x', 'pattern': [{'regexp': '(a)', 'message': 1}, {'regexp': '(a)', 'message': 1}]})),
    ('loop', of({'owner': 'x', 'pattern': [{'regexp': '(a)', 'file': 1, 'loop': True}, {'regexp': '(a)', 'message': 1}]})),
    ('has to set the message', of({'owner': 'x', 'pattern': [{'regexp': '(a)', 'message': 1}, {'regexp': '(a)', 'file': 1, 'loop': True}]}))]


@pytest.mark.parametrize('words, said', WRONG, ids=[f'{number} {words}' for number, (words, _) in enumerate(WRONG)])
def test_what_is_wrong_with_a_file(words: str, said: Any) -> None:
    with pytest.raises(BadMatcher, match=words):
        matchers_in(said if isinstance(said, str) else json.dumps(said))


def test_a_file_may_have_comments() -> None:
    """As the page's examples have."""
    text = '{"problemMatcher": [ // one\n {"owner": "X", /* of\n two lines */ "pattern": [{"regexp": "http://(.*)", "message": 1}]}]}'
    assert matchers_in(text) == [{'owner': 'x', 'pattern': [{'regexp': 'http://(.*)', 'message': 1}]}]


TOOLS = [
    ('node', ['src/a.ts(10,5): error TS2322: Type mismatch.'], ('tsc', 'src/a.ts', '10', '5', 'error', 'TS2322', 'Type mismatch.')),
    ('node', ['src/a.ts:10:5 - error TS2322: Type mismatch.'], ('tsc', 'src/a.ts', '10', '5', 'error', 'TS2322', 'Type mismatch.')),
    ('node', ['a.js: line 5, col 7, Warning - Unused. (no-unused-vars)'], ('eslint-compact', 'a.js', '5', '7', 'warning', 'no-unused-vars', 'Unused.')),
    ('node', ['a.js', '  5:7  error  Unused  no-unused-vars'], ('eslint-stylish', 'a.js', '5', '7', 'error', 'no-unused-vars', 'Unused')),
    ('python', ['  File "a.py", line 3, in <module>', "    raise ValueError('no such thing')"], ('python', 'a.py', '3', '', 'error', '', 'no such thing')),
    ('go', ['./main.go:7:2: undefined: x'], ('go', './main.go', '7', '2', 'error', '', 'undefined: x')),
    ('go', ['    main_test.go:12: got 1, want 2'], ('go', 'main_test.go', '12', '', 'error', '', 'got 1, want 2')),
    ('java', ['src/A.java:3: error: cannot find symbol'], ('java', 'src/A.java', '3', '', 'error', '', 'cannot find symbol'))]


@pytest.mark.parametrize('tool, lines, wanted', TOOLS)
def test_matchers_of_setup_actions(tool: str, lines: list[str], wanted: tuple[str, ...]) -> None:
    assert matchers_in(json.dumps({'problemMatcher': OF_TOOLS[tool]})) == OF_TOOLS[tool], 'they are right themselves'
    assert found(OF_TOOLS[tool], lines)[-1] == wanted


def test_a_pattern_that_takes_too_long() -> None:
    """It is removed, with a word, and holds up nothing: the others go on."""
    said: list[str] = []
    matchers = Matchers(said.append)
    try:
        matchers.add([LINT, {'owner': 'slow', 'pattern': [{'regexp': '^(a+)+$', 'message': 1}]}])
        problems = matchers.look(['a' * 60 + 'b', '\x1b[31mlint: red\x1b[0m'])
        assert said == ['the matcher slow is removed: it takes too long']
        assert problems[0] is None and problems[1] is not None and problems[1].line == 'lint: red' and problems[1].found['message'] == 'red'
        matchers.remove(['LINT'])
        assert matchers.look(['lint: red']) == [None]
    finally:
        matchers.close()


def test_the_process_of_the_matchers_may_be_killed() -> None:
    said: list[str] = []
    matchers = Matchers(said.append)
    try:
        matchers.add([LINT])
        assert matchers.process
        matchers.process.kill()
        assert matchers.look(['lint: x', 'y']) == [None, None] and matchers.look(['lint: x']) == [None]
        assert len(said) == 1 and said[0].startswith('no problems are matched any more'), said
    finally:
        matchers.close()


# In a job.


def found_by(site: Site, run: int) -> list[tuple[Any, ...]]:
    """Level, message, path, line and column of each annotation."""
    names = 'annotation_level', 'message', 'path', 'start_line', 'start_column'
    return [tuple(one.get(name) for name in names) for one in map(without_place, site.annotations(run))]


def file_of(*matchers: dict[str, Any]) -> dict[str, Any]:
    """A step that writes a file of matchers."""
    return {'run': "mkdir -p src; touch src/a.js; printf '%s' \"$TEXT\" > lint.json", 'env': {'TEXT': json.dumps(of(*matchers))}}


@pytest.mark.quick
def test_problems_are_annotations(site: Site) -> None:
    """From the step that adds a matcher on, in later steps too, till it is removed; a step with problems has not failed. A file is named if it is there, below
    the workspace; colours do not count."""
    lines = ['src/a.js: line 5, col 7, Error - Unused. (rule)', '../../a.js: line 1, col 1, Warning - Outside (rule)', 'src/none.js: line 2, col 3, Warning - Gone (rule)']
    say = ''.join(f'echo "{line}"\n' for line in lines)
    run = site.admit(file_of(COMPACT), {'run': f'echo before; echo "{lines[0]}"; echo "::add-matcher::lint.json"\n{say}'},
                     {'run': f'printf "\\033[31m%s\\033[0m\\n" "$PWD/{lines[0]}"; echo "::remove-matcher owner=eslint-compact::"; echo "{lines[0]}"'})
    site.run()
    said = site.said(run)
    assert site.service.run(run)['conclusion'] == 'success'
    assert found_by(site, run) == [
        ('failure', 'Unused.', 'src/a.js', 5, 7), ('warning', 'Outside', None, None, 1), ('warning', 'Gone', None, None, 3), ('failure', 'Unused.', 'src/a.js', 5, 7)]
    assert said.count(lines[0]) == 2 and said.count(f'##[error]{lines[0]}') == 1 and f'##[warning]{lines[1]}' in said
    assert any(line.startswith('##[error]/') and line.endswith(lines[0]) for line in said), 'without its colours'


def test_the_form_with_brackets(site: Site) -> None:
    """`##[add-matcher]FILE`, as setup actions print it, and the removal by a file."""
    run = site.admit(file_of(LINT), {'run': 'echo "##[add-matcher]$PWD/lint.json"; echo "lint: one"; echo "::remove-matcher::lint.json"; echo "lint: two"'},
                     {'run': 'echo "##[add-matcher]lint.json"; echo "##[remove-matcher owner=lint]"; echo "lint: three"; echo "##[error]four"; echo "##[nonsense]five"'})
    site.run()
    assert [(one[0], one[1]) for one in found_by(site, run)] == [('warning', 'one'), ('failure', 'four')]
    assert '##[nonsense]five' in site.said(run) and 'lint: two' in site.said(run) and 'lint: three' in site.said(run)


def test_a_wrong_file_fails_its_step(site: Site) -> None:
    """As a command that GitHub can't carry out does; the steps after it do not run."""
    wrong = {'owner': 'x', 'pattern': [{'regexp': '(', 'message': 1}]}
    run = site.admit(file_of(wrong), {'run': 'echo "::add-matcher::lint.json"'}, {'run': 'echo never >> "$NOTES"'})
    missing = site.admit({'run': 'echo "::add-matcher::none.json"'}, {'run': 'echo never >> "$NOTES"'})
    neither = site.admit({'run': 'echo "::remove-matcher::"; echo "::add-matcher::"'})
    site.run()
    assert [site.service.run(one)['conclusion'] for one in (run, missing, neither)] == ['failure', 'failure', 'success'] and site.noted() == []
    assert 'x: its regexp is not read' in found_by(site, run)[0][1] and 'none.json' in found_by(site, missing)[0][1]
    assert '##[warning]remove-matcher names either an owner or a file' in site.said(neither)


def test_a_setup_action_adds_matchers(site: Site, tmp_path: pathlib.Path) -> None:
    """What a program of the tool complains of is an annotation."""
    trouble = 'printf "def f():\\n    raise ValueError(\'no such thing\')\\nf()\\n" > a.py; python3 a.py'
    run = site.admit({'uses': 'actions/setup-python@v5', 'with': {'python-version': '3'}}, {'run': trouble})
    site.run()
    assert ('failure', 'no such thing', 'a.py', 2, None) in found_by(site, run)
