"""GitHub's page 'Workflow commands for GitHub Actions', section by section: what a step prints or writes, and what becomes of it in the log, in annotations and
for the steps after it."""
from __future__ import annotations

from dataclasses import dataclass
from typing import Any

import pytest
from acts_runner.commands import Command, annotation_of, assignments, command_in
from test_runner_hub import Site, site, tls  # noqa: F401  (fixtures)

# How a line is read.

READ: list[tuple[str, Command | None]] = [
    ('::error::no', Command('error', {}, 'no')),
    ('  ::error file=app.js,line=1::Missing semicolon', Command('error', {'file': 'app.js', 'line': '1'}, 'Missing semicolon')),
    ('::Error FILE=app.js,endLine=2::x', Command('error', {'file': 'app.js', 'endline': '2'}, 'x')),
    ('::notice title=a%2Cb%3Ac,file=d::50%25%0Aof %3A', Command('notice', {'title': 'a,b:c', 'file': 'd'}, '50%\nof %3A')),
    ('::set-output name=a::b::c', Command('set-output', {'name': 'a'}, 'b::c')), ('::group::', Command('group', {}, '')),
    ('::38f7-A1::', Command('38f7-a1', {}, '')), ('##[group]a title', Command('group', {}, 'a title')),
    ('##[error file=a.c;line=3;]a %5D b', Command('error', {'file': 'a.c', 'line': '3'}, 'a %5D b')),
    ('##[warning file=a%3Bb%5D;]x', Command('warning', {'file': 'a;b]'}, 'x')),
    ('##[nothing]x', None), ('##[section', None), ('a ::error::b', None), ('std::vector<int>::iterator', None), (':: error::x', None), ('', None)]


@pytest.mark.parametrize('line, wanted', READ, ids=[line for line, _ in READ])
def test_how_a_line_is_read(line: str, wanted: Command | None) -> None:
    """'About workflow commands': names and parameters in any case; escapes as the toolkit makes them."""
    assert command_in(line) == wanted


def test_the_members_of_an_annotation() -> None:
    """'Setting an error message': `title`, `file`, `line`, `endLine`, `col`, `endColumn`."""
    command = command_in('::error file=/w/app.js,line=1,endLine=3,col=5,endColumn=7,title=YOUR-TITLE::Missing semicolon')
    assert command and annotation_of(command, lambda path: path.removeprefix('/w/')) == {
        'annotation_level': 'failure', 'message': 'Missing semicolon', 'title': 'YOUR-TITLE', 'path': 'app.js', 'start_line': 1, 'end_line': 3, 'start_column': 5,
        'end_column': 7}


FILES = [('A=b', {'A': 'b'}), ('A=b=c', {'A': 'b=c'}), ('A<<EOF\none\ntwo=2\nEOF\nB=', {'A': 'one\ntwo=2', 'B': ''}), ('A<<E\nE', {'A': ''}), ('', {})]


@pytest.mark.parametrize('text, wanted', FILES)
def test_files_of_names_and_values(text: str, wanted: dict[str, str]) -> None:
    """'Environment files', 'Multiline strings'."""
    assert assignments(text) == wanted


@pytest.mark.parametrize('text', ['no value', '=x', 'A<<EOF\nno end'])
def test_files_that_are_wrong(text: str) -> None:
    with pytest.raises(ValueError):
        assignments(text)


# In a job.


@dataclass(frozen=True)
class Row:
    """A section of the page: a script, what its step comes to, what the log has and lacks, the annotations, and what a second step sees."""

    section: str
    script: str
    result: str = 'success'
    has: tuple[str, ...] = ()
    lacks: tuple[str, ...] = ()
    annotations: tuple[tuple[Any, ...], ...] = ()
    then: str = 'true'
    noted: tuple[str, ...] = ()


ROWS = [
    Row('Setting a debug message', 'echo "::debug::Set the Octocat variable"', lacks=('Set the Octocat variable', '##[debug]Set the Octocat variable')),
    Row('Setting a notice message', 'echo "::notice file=app.js,line=1,col=5,endColumn=7::Missing semicolon"', has=('##[notice]Missing semicolon',),
        annotations=(('notice', 'Missing semicolon', 'app.js', 1, 5, 7),)),
    Row('Setting a warning message', 'echo "::warning file=app.js,line=1::Missing semicolon"', has=('##[warning]Missing semicolon',),
        annotations=(('warning', 'Missing semicolon', 'app.js', 1, None, None),)),
    Row('Setting an error message', 'echo "::error file=$GITHUB_WORKSPACE/src/app.js,line=1::Missing semicolon"', has=('##[error]Missing semicolon',),
        annotations=(('failure', 'Missing semicolon', 'src/app.js', 1, None, None),)),
    Row('Grouping log lines', 'echo "::group::My title"; echo "Inside group"; echo "::endgroup::"', has=('##[group]My title', 'Inside group', '##[endgroup]')),
    Row('Masking a value in a log', 'echo "::add-mask::Mona""TheOctocat"; echo "Hello MonaTheOctocat"', has=('Hello ***',), lacks=('Hello MonaTheOctocat',)),
    Row('Stopping and starting workflow commands', 'echo "::stop-commands::0bf5-E9a1"; echo "::warning::as it is"; echo "::0bf5-E9a1::"; echo "::warning::again"',
        has=('::warning::as it is', '##[warning]again'), lacks=('##[warning]as it is', '::0bf5-E9a1::'), annotations=(('warning', 'again', None, None, None, None),)),
    Row('Echoing command outputs', 'echo "::echo::on"; echo "::save-state name=a::b"; echo "::add-mask::quiet1"; echo "::echo::off"; echo "::save-state name=c::d"',
        has=('::save-state name=a::b', '::echo::off'), lacks=('::save-state name=c::d', '::add-mask::quiet1', '::echo::on')),
    Row('Echoing command outputs, with another word', 'echo "::echo::maybe"', result='failure', annotations=(('failure', '::echo:: is on or off, and not maybe', None, None, None, None),)),
    Row('Setting an environment variable', 'echo "A=one" >> "$GITHUB_ENV"; printf "B<<EOF\\nx\\ny\\nEOF\\n" >> "$GITHUB_ENV"; echo "[$A]"', has=('[]',),
        then='echo "$A $B" >> "$NOTES"', noted=('one x', 'y')),
    Row('Setting an environment variable: a default one', 'echo "GITHUB_JOB=other" >> "$GITHUB_ENV"; echo "GITHUB_MINE=1" >> "$GITHUB_ENV"; echo "CI=no" >> "$GITHUB_ENV"',
        has=('##[warning]GITHUB_ENV does not change GITHUB_JOB, which is a default variable',), then='echo "$GITHUB_JOB $GITHUB_MINE $CI" >> "$NOTES"', noted=('build 1 no',)),
    Row('Setting an environment variable: NODE_OPTIONS', 'echo "NODE_OPTIONS=--x" >> "$GITHUB_ENV"', result='failure', then='echo never >> "$NOTES"',
        annotations=(('failure', "the step fails: GITHUB_ENV can't set NODE_OPTIONS", None, None, None, None),)),
    Row('Setting an environment variable: a file that is wrong', 'echo "no value" >> "$GITHUB_ENV"', result='failure',
        annotations=(('failure', 'the step fails: GITHUB_ENV: no name and value: no value', None, None, None, None),)),
    Row('Setting an output parameter', 'echo "SELECTED_COLOR=green" >> "$GITHUB_OUTPUT"', then='echo "${{ steps.one.outputs.SELECTED_COLOR }}" >> "$NOTES"', noted=('green',)),
    Row('Setting an output parameter, as it was', 'echo "::set-output name=color::green"', then='echo "${{ steps.one.outputs.color }}" >> "$NOTES"', noted=('green',)),
    Row('Adding a system path', 'mkdir p; printf "#!/bin/sh\\necho mine" > p/tool; chmod +x p/tool; echo "$PWD/p" >> "$GITHUB_PATH"', then='tool >> "$NOTES"', noted=('mine',)),
    Row('Setting an environment variable, as it was', 'echo "::set-env name=A::b"', result='failure',
        annotations=(('failure', 'the command set-env is disabled: write to $GITHUB_ENV', None, None, None, None),)),
    Row('Adding a system path, as it was', 'echo "::add-path::/x"', result='failure',
        annotations=(('failure', 'the command add-path is disabled: write to $GITHUB_PATH', None, None, None, None),)),
    Row('Names in any case', 'echo "::Warning File=app.js,LINE=2::careful"', annotations=(('warning', 'careful', 'app.js', 2, None, None),)),
    Row('The files of the present step', 'echo "X=1" >> "${{ github.env }}"; [ "${{ github.path }}" = "$GITHUB_PATH" ]', then='echo "$X" >> "$NOTES"', noted=('1',))]


def without_place(found: dict[str, Any]) -> dict[str, Any]:
    """An annotation as the runner has it: by REST one without a file is of `.github`, line 1, as at GitHub."""
    return {**found, 'path': None, 'start_line': None} if found['path'] == '.github' else found


@pytest.mark.parametrize('row', ROWS, ids=[row.section for row in ROWS])
def test_workflow_commands(site: Site, row: Row) -> None:
    """Page 'Workflow commands for GitHub Actions'."""
    run = site.admit({'run': row.script, 'id': 'one'}, {'run': row.then})
    site.run()
    said = site.said(run)
    assert site.service.run(run)['conclusion'] == row.result and site.noted() == list(row.noted), said
    shown = said[next(number for number, line in enumerate(said) if line == '##[endgroup]') + 1:]  # behind the script itself
    assert all(line in shown for line in row.has) and not any(line in shown for line in row.lacks), shown
    names = 'annotation_level', 'message', 'path', 'start_line', 'start_column', 'end_column'
    assert tuple(tuple(one.get(name) for name in names) for one in map(without_place, site.annotations(run))) == row.annotations


def test_debugging(site: Site) -> None:
    """'Setting a debug message': with ACTIONS_STEP_DEBUG it is in the log, commands are echoed, and RUNNER_DEBUG is 1."""
    secrets = site.folder / 'secrets'
    secrets.write_text('{"ACTIONS_STEP_DEBUG": "true"}')
    secrets.chmod(0o600)
    run = site.admit({'run': 'echo "::debug::Set it"; echo "::save-state name=a::b"; echo "$RUNNER_DEBUG ${{ runner.debug }}" >> "$NOTES"'})
    site.run('--secrets', str(secrets))
    said = site.said(run)
    assert site.noted() == ['1 1'] and '##[debug]Set it' in said and '::save-state name=a::b' in said


def test_default_variables_without_a_value_are_said(site: Site) -> None:
    """A script of the repository's may name what nobody has given, so the log says what that is."""
    run = site.admit({'run': 'true'}, github={'event_name': 'push', 'actor_id': '7'})
    site.run()
    line = next(line for line in site.said(run) if line.startswith('no value here: '))
    assert 'GITHUB_REF_PROTECTED' in line and 'GITHUB_WORKFLOW_SHA' in line and 'GITHUB_SHA' not in line and 'GITHUB_ACTOR_ID' not in line
