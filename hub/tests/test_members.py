"""Members of a workflow that GitHub's syntax has, and others, which are refused by name: page "Workflow syntax for GitHub Actions"."""
from __future__ import annotations

import json
from typing import Any

import pytest

from acts_hub.events.bodies import Server, Source
from acts_hub.events.occasions import Occasion
from acts_hub.events.settings import Repository, Settings
from acts_hub.events.starts import RULES, Happening
from acts_workflow import members
from acts_workflow.reading import line_of, read
from acts_workflow.values import Fault

pytestmark = pytest.mark.quick
WHOLE = '''name: All
run-name: All of it
on:
  push: {branches: [main], tags: [v1], paths: [a]}
  pull_request: {types: [opened], branches-ignore: [x], paths-ignore: [docs/**]}
  pull_request_target: {types: [opened]}
  workflow_run: {workflows: [CI], types: [completed], branches: [main]}
  merge_group: {types: [checks_requested]}
  schedule: [{cron: '0 0 * * *'}]
  release: {types: [published]}
  delete:
  workflow_dispatch: {inputs: {a: {description: d, required: true, type: choice, options: [x], default: x, deprecationMessage: m}}}
  workflow_call: {inputs: {a: {type: string}}, outputs: {o: {description: d, value: v}}, secrets: {s: {description: d, required: true}}}
permissions: read-all
env: {ANY: name}
defaults: {run: {shell: bash, working-directory: x}}
concurrency: {group: g, cancel-in-progress: true}
jobs:
  a:
    name: A
    permissions: {contents: read}
    needs: b
    if: always()
    runs-on: {group: g, labels: l}
    environment: {name: n, url: u}
    concurrency: g
    outputs: {any: name}
    env: {ANY: name}
    defaults: {run: {shell: sh}}
    timeout-minutes: 1
    strategy: {matrix: {any: [1]}, fail-fast: true, max-parallel: 1}
    continue-on-error: true
    container: x
    services: {any: x}
    steps:
      - {id: i, if: always(), name: n, run: r, working-directory: w, shell: s, env: {A: b}, continue-on-error: true, timeout-minutes: 1}
      - {uses: a/b@c, with: {any: name}}
  b: {name: B, uses: ./.github/workflows/x.yml, with: {any: name}, secrets: inherit, needs: [], if: true, permissions: {}, concurrency: g, strategy: {matrix: {}}}
'''


def test_all_that_the_page_has() -> None:
    members.check(read(WHOLE))
    for on in 'push', ['push', 'pull_request'], None, 5:
        members.check({'on': on})
    assert RULES.keys() <= members.EVENTS.keys()


# A line of the whole, what it becomes, and the place that is refused.
WRONG = [
    ('name: All\n', 'nam: All\n', 'nam'), ('permissions: read-all', 'x-anchors: {}', 'x-anchors'), ('push: {branches:', 'push: {branch:', 'on.push.branch'),
    ('{types: [opened], branches-ignore', '{type: [opened], branches-ignore', 'on.pull_request.type'), ('  delete:\n', '  deleted:\n', 'on.deleted'),
    ('  delete:\n', '  delete: {branches: [a]}\n', 'on.delete.branches'), ("{cron: '0 0 * * *'}", "{cron: '0 0 * * *', timezone: UTC}", 'on.schedule[0].timezone'),
    ('options: [x]', 'option: [x]', 'on.workflow_dispatch.inputs.a.option'), ('{o: {description', '{o: {descriptions', 'on.workflow_call.outputs.o.descriptions'),
    ('{s: {description', '{s: {default', 'on.workflow_call.secrets.s.default'), ('{group: g, cancel', '{groups: g, cancel', 'concurrency.groups'),
    ('defaults: {run: {shell: bash,', 'defaults: {run: {shel: bash,', 'defaults.run.shel'), ('    timeout-minutes: 1\n', '    timeout_minutes: 1\n', 'jobs.a.timeout_minutes'),
    ('fail-fast: true', 'fail_fast: true', 'jobs.a.strategy.fail_fast'), ('{name: n, url: u}', '{name: n, link: u}', 'jobs.a.environment.link'),
    ('working-directory: w', 'workdir: w', 'jobs.a.steps[0].workdir'), ('{uses: a/b@c, with', '{uses: a/b@c, run: x, with', 'jobs.a.steps[1]'),
    ('{name: B, uses', '{name: B, runs-on: x, uses', 'jobs.b.runs-on'), ('{name: B, uses', '{name: B, steps: [], uses', 'jobs.b.steps')]


@pytest.mark.parametrize('line, other, place', WRONG, ids=[place for _, _, place in WRONG])
def test_what_it_does_not_have(line: str, other: str, place: str) -> None:
    assert WHOLE.count(line) == 1
    text = WHOLE.replace(line, other)
    with pytest.raises(Fault) as raised:
        members.check(read(text))
    assert raised.value.place == place and line_of(text, place) == WHOLE[:WHOLE.index(line)].count('\n') + 1


@pytest.mark.parametrize('on, place', [('pus', 'on'), (['push', 'pul_request'], 'on[1]')])
def test_events_that_there_are_not(on: Any, place: str) -> None:
    with pytest.raises(Fault, match='GitHub has no event') as raised:
        members.check({'on': on})
    assert raised.value.place == place


def sent(text: str, others: dict[str, str]) -> Any:
    """What is sent of a workflow, on a push."""
    occasion = Occasion(Happening('push', name='main'), 'c' * 40, 'c' * 40, 'refs/heads/main')
    source = Source(Repository('octo/hello', None, False, False, {}, None), occasion, {}, {'a.yml': text, **others}, {}, Server('', Settings()))
    return json.loads(source.event('a.yml', source.read('a.yml')).body)['workflow']


CALLED = '.github/workflows/c.yml'
CALL = 'on: push\njobs: {c: {uses: ./.github/workflows/c.yml, MORE}}'
SECRETS = 'on: {workflow_call: {secrets: {Need: {required: true}, may: {}}}}\njobs: {a: {runs-on: x, env: {A: "${{ secrets.need }}"}}}'


@pytest.mark.parametrize('more, called, wanted', [
    ('', 'on: workflow_call\njobs: {a: {runs-on: x, step: []}}', 'jobs.c.uses: .github/workflows/c.yml: jobs.a.step: GitHub has no such member here'),
    ('', SECRETS, 'jobs.c: the called workflow requires the secret Need'), ('secrets: {MAY: "${{ secrets.M }}"}', SECRETS, 'jobs.c.secrets: the called workflow requires the secret Need'),
    ('secrets: {NEED: "${{ secrets.N }}", other: "${{ secrets.O }}"}', SECRETS, 'jobs.c.secrets.other: the called workflow has no such secret'),
    ('secrets: inherit', SECRETS, '${{ secrets.need }}'), ('secrets: inherit', SECRETS.replace('required', 'description'), '${{ secrets.need }}'), ('secrets: {NEED: "${{ secrets.N }}"}', SECRETS, '${{ (secrets.N) }}')], ids=range(7))
def test_called_workflows(more: str, called: str, wanted: str) -> None:
    """Page "Reuse workflows": secrets that are required, and that there are."""
    try:
        found = sent(CALL.replace(', MORE', more and f', {more}'), {CALLED: called})['jobs']['c__a']['env']['A']
    except Fault as fault:
        found = str(fault)
    assert found.startswith(wanted)


OUTER = 'on: {workflow_call: {secrets: {Top: {required: true}, need: {}}}}\njobs: {b: {uses: ./.github/workflows/c.yml, secrets: MORE}}'


@pytest.mark.parametrize('more, inner, wanted', [
    ('inherit', 'inherit', ['Need', 'Top']), ('inherit', '{need: "${{ secrets.x }}"}', ['Top']), ('{top: "${{ secrets.t }}", need: "${{ secrets.n }}"}', 'inherit', None),
    ('{top: "${{ secrets.t }}"}', 'inherit', 'jobs.c.secrets: the called workflow requires the secret Need'), ('inherit', '{may: "${{ secrets.m }}"}', 'the called workflow requires')],
    ids=range(5))
def test_secrets_that_are_passed_on_without_a_list(more: str, inner: str, wanted: Any) -> None:
    """Page "Reuse workflows": `inherit` passes on all secrets, and what is required has to be among them. Which there are, the runner knows."""
    files = {'.github/workflows/d.yml': OUTER.replace('MORE', inner), CALLED: SECRETS}
    call = f'on: push\njobs: {{c: {{uses: ./.github/workflows/d.yml, secrets: {more}}}}}'
    try:
        found: Any = sent(call, files)['jobs']['c__b__a'].get('required-secrets')
    except Fault as fault:
        found = wanted if isinstance(wanted, str) and wanted in str(fault) else str(fault)
    assert found == wanted


def test_no_file_says_which_secrets_a_runner_has_to_have() -> None:
    with pytest.raises(Fault, match='required-secrets: GitHub has no such member here'):
        sent('on: push\njobs: {a: {runs-on: x, required-secrets: [X]}}', {})
