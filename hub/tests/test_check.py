"""acts-hub check: which events start nothing, and what hub, service and runner would refuse of a workflow."""
from __future__ import annotations

import argparse
import json
import os
import pathlib
import subprocess
from collections.abc import Callable

import pytest
from acts_hub.commands.check import checker_of
from harness import HUB, PYTHON, acts
from workflow_table import ROWS, VARIABLES

Check = Callable[..., tuple[int, list[str]]]
CALLED = '''on: {workflow_call: {inputs: {tag: {type: string}}}}
jobs:
  a: {runs-on: linux, steps: [{run: 'true'}]}
'''


@pytest.fixture
def check(tmp_path: pathlib.Path) -> Check:
    """Checks a text as `.github/workflows/ci.yml` of a repository, and gives the status and the lines."""
    folder = tmp_path / 'repository'
    (folder / '.github/workflows').mkdir(parents=True)
    subprocess.run(['git', 'init', '-q', '-b', 'main', str(folder)], check=True)
    (folder / '.github/workflows/called.yml').write_text(CALLED)

    def run(text: str, *words: str) -> tuple[int, list[str]]:
        (folder / '.github/workflows/ci.yml').write_text(text)
        done = subprocess.run([PYTHON, '-m', 'acts_hub', 'check', str(folder / '.github/workflows/ci.yml'), '--program', acts(), *words],
                              env={**os.environ, 'PYTHONPATH': str(HUB)}, capture_output=True, text=True, timeout=180)
        return done.returncode, (done.stdout + done.stderr).replace('.github/workflows/ci.yml', 'ci.yml').splitlines()
    return run


def test_a_workflow_without_a_fault(check: Check) -> None:
    text = '''on:
  push: {branches: [main]}
  schedule: [{cron: '0 5 * * 1-5'}]
  workflow_dispatch: {inputs: {name: {required: true}}}
jobs:
  a: {runs-on: linux, if: github.ref == 'refs/heads/main', steps: [{run: 'true'}]}
  b: {uses: ./.github/workflows/called.yml, with: {tag: x}}
'''
    assert check(text) == (0, ['no fault, on refs/heads/main'])


@pytest.mark.quick
def test_events_that_start_nothing(check: Check) -> None:
    text = '''on:
  push:
    branches: [release]
  pull_request_target:
  workflow_call:
  schedule:
    - cron: '61 * * * *'
  pull_request:
    types: [opend]
  page_build:
jobs:
  a: {runs-on: linux, steps: [{run: 'true'}]}
'''
    status, lines = check(text, '--no-runner')
    assert status == 1 and lines == [
        'ci.yml:2: push: starts nothing on refs/heads/main: its `branches` leave out main',
        'ci.yml:4: pull_request_target: starts nothing: the operator does not allow it for this repository',
        'ci.yml:5: workflow_call: starts nothing: other workflows call it',
        "ci.yml:7: schedule: starts nothing: '61' is no minute: 0 to 59",
        'ci.yml:9: pull_request: starts nothing at the type opend: GitHub sends none of this name',
        'ci.yml:10: page_build: starts nothing: no such event is taken here', '4 faults, on refs/heads/main']
    assert not any('pull_request_target' in line for line in check(text, '--no-runner', '--pull-request-target')[1])


@pytest.mark.quick
def test_what_the_service_refuses_has_its_line_and_what_to_write(check: Check) -> None:
    status, lines = check('''on: push
jobs:
  a: {runs-on: linux, steps: [{run: 'true'}], outputs: {m: x}}
  b:
    needs: a
    runs-on: linux
    if: needs.a.outputs.m == 'x'
    strategy:
      matrix: ${{ fromJSON(needs.a.outputs.m) }}
''', '--no-runner')
    assert status == 1
    assert lines[0].startswith("ci.yml:7: push: refused 26 jobs.b.if: a condition that is not supported: needs.a.outputs.m == 'x'.") and 'its steps' in lines[0]
    assert lines[1].startswith('ci.yml:9: push: refused 25 jobs.b.strategy.matrix: ') and 'Write the list in the workflow' in lines[1]


def test_what_the_hub_does_not_send(check: Check) -> None:
    text = '''on: push
jobs:
  a:
    runs-on: linux
    environment: live
    steps: [{run: 'true'}]
'''
    status, lines = check(text, '--no-runner')
    assert status == 1 and lines[0] == 'ci.yml:5: push: not sent: jobs.a.environment: live is not named as an environment'
    assert check(text, '--environment', 'Live=approval', '--no-runner')[0] == 0
    assert check(text, '--environment', 'live=yes')[0] == 2


def test_what_a_runner_refuses(check: Check) -> None:
    text = '''on: push
jobs:
  a:
    runs-on: linux
    strategy: {matrix: {v: [1, 2]}}
    steps:
      - run: 'true'
      - run: 'true'
        shell: nonsense-shell
      - run: echo ${{ nothing.at.all }}
'''
    status, lines = check(text)
    assert status == 1 and any(line.startswith('ci.yml:9: push: a runner refuses jobs.a.steps[1].shell') for line in lines), lines
    assert any(line.startswith('ci.yml:10: push: a runner refuses jobs.a.steps[2]') and 'nothing' in line for line in lines), lines
    assert check(text, '--no-runner') == (0, ['no fault, on refs/heads/main'])


def test_what_only_a_run_knows_is_no_fault(check: Check) -> None:
    """Results and outputs of the jobs before, in a job that runs after failures too."""
    text = '''on: push
jobs:
  a: {runs-on: linux, outputs: {v: "${{ steps.v.outputs.v }}"}, steps: [{id: v, run: 'true'}]}
  b:
    needs: [a]
    if: always()
    runs-on: linux
    env: {V: "${{ needs.a.outputs.v }}"}
    steps:
      - run: echo "${{ needs.a.result }}"
      - if: contains(needs.*.result, 'failure')
        run: exit 1
'''
    assert check(text) == (0, ['no fault, on refs/heads/main'])


@pytest.mark.parametrize('text, words', [('on: [', 'ci.yml:1: not sent: not YAML'), ('jobs: {}', '`on` is missing'), ('on: push', 'push: '), ('[' * 5000, 'ci.yml:1: '),
                                         ('on: push\njobs: 5', 'push: refused 11 jobs')], ids=range(5))
def test_files_that_are_none(check: Check, text: str, words: str) -> None:
    status, lines = check(text, '--no-runner')
    assert status == 1 and any(words in line for line in lines), lines


def test_without_the_program_of_the_service(tmp_path: pathlib.Path, check: Check) -> None:
    assert check('{on: push, jobs: {a: {runs-on: linux}}}', '--program', str(tmp_path / 'none'))[0] == 2
    assert check('{on: push, jobs: {a: {runs-on: linux}}}', '--ref', '--help')[0] == 2


def test_a_branch_or_tag_that_is_named(check: Check) -> None:
    text = '{on: {push: {tags: [v*]}}, jobs: {a: {runs-on: linux, if: "github.ref_type == \'tag\'", steps: [{run: "true"}]}}}'
    assert check(text, '--ref', 'refs/tags/v1', '--no-runner') == (0, ['no fault, on refs/tags/v1'])
    assert check(text, '--no-runner')[1][0].endswith('starts nothing on refs/heads/main: it asks for tags alone')


def test_examples_are_sent_and_taken(tmp_path: pathlib.Path) -> None:
    """The workflows of examples, on `main`, with the environments and variables that they name: what is refused of them is what the table says.
    Not those that need another workflow: in their repository it is beside them."""
    variables = tmp_path / 'vars'
    variables.write_text(json.dumps({'octo/hello': VARIABLES}))
    for row in ROWS:
        if row.others:
            continue
        environments = [f'{name}={way}' for name, way in row.environments.items()]
        given = argparse.Namespace(file=HUB.parent / 'examples' / row.file, program=acts(), config=None, repository='octo/hello', ref='refs/heads/main',
                                   vars=variables, environment=environments, pull_request_target=True, no_runner=True, mirrors=None, actions=None,
                                   secrets=None)
        faults = [finding.text(row.name) for finding in checker_of(given).findings() if finding.fault]
        wanted = [row.refused] if row.refused and row.refused.by == 'event' else []
        assert [fault.split(': ')[0] for fault in faults] == [f'{row.name}:{one.line}' for one in wanted], faults
