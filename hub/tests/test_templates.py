"""What is folded into a workflow before it is sent, and called workflows in place of their calls."""
from __future__ import annotations

import json
import time
from typing import Any

import pytest

from acts_hub.events import templates
from acts_hub.events.templates import Folding, Note
from acts_workflow.reading import read
from acts_workflow.values import Fault

pytestmark = pytest.mark.quick
CALLED = 'on: {workflow_call: {inputs: {n: {type: number, default: 1}, s: {type: string}}}}'
CALLS = (  # jobs beside `c`, members of `c`, what the called workflow has, and its jobs: the fault, or the jobs that come of it
    ('', '', '', 'a: {runs-on: x, steps: [{run: "${{ inputs.n }} ${{ github.event.inputs.n }} ${{ needs.a }}", if: inputs.n == 1}]}',
     {'c__a': {'runs-on': 'x', 'steps': [{'run': '${{ 1 }} ${{ github.event.inputs.n }} ${{ needs.c__a }}', 'if': '1 == 1'}]}}),
    ('', 'with: {n: "2.50"}', '', 'a: {runs-on: "v${{ inputs.n }}"}', {'c__a': {'runs-on': 'v2.5'}}),
    ('', 'with: {m: 1}', '', 'a: {runs-on: x}', 'jobs.c.with.m: the called workflow has no such input'),
    ('', 'with: {n: x}', '', 'a: {runs-on: x}', 'the input n is no number: x'),
    ('', 'with: {n: "${{ matrix.n }}"}', '', 'a: {runs-on: x}', 'jobs.c.with.n: ${{ matrix.n }} is not known before the run'),
    # What only the run knows.
    ('b: {runs-on: x}', 'needs: b, with: {s: "${{ needs.b.outputs.t }}"}', '', 'b: {runs-on: x, env: {S: "${{ inputs.s }} ${{ needs.b }}"}}, d: {needs: b, runs-on: x}',
     {'c__b': {'runs-on': 'x', 'env': {'S': '${{ needs.b.outputs.t }} ${{ needs.c__b }}'}, 'needs': ['b']}, 'c__d': {'needs': ['c__b', 'b'], 'runs-on': 'x'},
      'b': {'runs-on': 'x'}}),
    ('b: {runs-on: x}', 'with: {s: "${{ needs.b.outputs.t }}"}', '', 'a: {runs-on: x}', 'jobs.c.with.s: ${{ needs.b.outputs.t }} is not known before the run'),
    ('b: {runs-on: x}', 'needs: b, with: {s: "${{ needs.b.outputs.t }}"}', '', 'a: {runs-on: x, concurrency: "g${{ inputs.s }}"}',
     'jobs.c.with.s: needs.b.outputs.t is known to runners alone, and c__a has it in concurrency'),
    ('b: {runs-on: x}', 'needs: b, with: {n: "${{ needs.b.outputs.t }}"}', '', 'a: {runs-on: x}', 'jobs.c.with.n: it is not known before the run whether it is a number'),
    ('b: {runs-on: x}', 'needs: b, with: {s: "${{ needs.b.outputs.t }}"}', '', 'a: {runs-on: x, env: {S: "${{ toJSON(inputs) }}"}}',
     'jobs.c.with: the called workflow asks for all inputs at once, of which one is not known before the run'),
    # A call with a matrix: one job gets the matrix, several are there for each combination.
    ('', 'strategy: {matrix: {v: [1, 2]}}, with: {n: "${{ matrix.v }}"}', '', 'a: {runs-on: "v${{ inputs.n }}", steps: [{run: "${{ inputs.n }}", if: inputs.n > 1}]}',
     {'c__a': {'runs-on': 'v${{ matrix.v }}', 'steps': [{'run': '${{ matrix.v }}', 'if': 'matrix.v > 1'}], 'strategy': {'matrix': {'v': [1, 2]}}}}),
    ('', 'strategy: {matrix: {v: [1, 2]}, max-parallel: 1}', 'concurrency: "g${{ inputs.n }}"', 'a: {runs-on: x}',
     {'c__a': {'runs-on': 'x', 'concurrency': 'g1', 'strategy': {'matrix': {'v': [1, 2]}, 'max-parallel': 1}}}),
    ('', 'strategy: {matrix: {v: [1, x]}}, with: {n: "${{ matrix.v }}"}', '', 'a: {runs-on: x}', 'jobs.c.with.n: x is no number'),
    ('', 'strategy: {matrix: {v: [1, "2"]}}, with: {n: "${{ matrix.v }}"}', '', 'a: {runs-on: x}', 'jobs.c.with.n: 2 is no number'),
    ('', 'strategy: {matrix: {v: [1]}}, with: {n: "${{ matrix.v }}${{ matrix.v }}"}', '', 'a: {runs-on: x}',
     'jobs.c.with.n: ${{ matrix.v }}${{ matrix.v }} is not known before the run'),
    ('', 'strategy: {matrix: {v: [1, 2]}}, with: {n: "${{ matrix.v }}"}', '', 'a: {runs-on: x, environment: "live${{ inputs.n }}"}',
     'jobs.c__a.environment: live1 is not named as an environment'),
    ('', 'strategy: {matrix: {e: [free]}}', '', 'a: {runs-on: x, environment: free}', {'c__a': {'runs-on': 'x', 'environment': 'free', 'strategy': {'matrix': {'e': ['free']}}}}),
    ('', 'strategy: {matrix: "${{ needs.b.outputs.m }}"}', '', 'a: {runs-on: x}', 'jobs.c.strategy.matrix: it is not known before the run'),
    *[('', f'strategy: {{matrix: {{v: {list(range(20))}, w: {list(range(v))}, exclude: {[{"v": i} for i in range(left_out)]}}}, fail-fast: false}}', '', 'a: {runs-on: x}, b: {runs-on: x}',
       f'jobs.c{wanted}') for v, left_out, wanted in ((300, 0, '.strategy.matrix: it has over 4096 choices'), (15, 0, '.strategy.matrix: it has over 256 combinations'),
                                                     (15, 20, '.strategy.matrix: it has no combination'), (15, 4, ': over 256 jobs of called workflows'))],
    ('', 'strategy: {matrix: {v: [1, true], exclude: [{v: true}], include: [{v: 1, w: 2}]}, fail-fast: false}, with: {n: "${{ matrix.w }}"}', '',
     'a: {runs-on: "v${{ inputs.n }}"}, b: {runs-on: x}', {'c__0__a': {'runs-on': 'v2'}, 'c__0__b': {'runs-on': 'x'}}),
    ('', 'strategy: {matrix: {v: [1, 2]}}', '', 'a: {runs-on: x}, b: {runs-on: x}', 'jobs.c.strategy: .github/workflows/c.yml has several jobs or a matrix, so '
     '`fail-fast` has to be false, and there can be no `max-parallel`'),
    ('d: {needs: c, runs-on: x}', 'strategy: {matrix: {v: [1, 2], w: [3, 4], exclude: [{v: 1, w: 3}], include: [{v: 2, more: 5}, {v: 6}]}, fail-fast: false}, '
     'with: {n: "${{ matrix.v }}${{ matrix.more }}"}', '', 'a: {runs-on: "v${{ inputs.n }}"}, b: {needs: a, runs-on: x, if: inputs.n > 6}', {
         'c__0__a': {'runs-on': 'v1'}, **{f'c__{i}__{job}': of for i in (1, 2) for job, of in (
             ('a', {'runs-on': 'v25'}), ('b', {'needs': [f'c__{i}__a'], 'runs-on': 'x', 'if': True}))},
         'c__3__a': {'runs-on': 'v6'}, 'd': {'needs': ['c__0__a', 'c__1__a', 'c__1__b', 'c__2__a', 'c__2__b', 'c__3__a'], 'runs-on': 'x'}}),
    ('', 'strategy: {matrix: {v: [1, 2]}, fail-fast: false}, concurrency: "g${{ matrix.v }}"', '', 'a: {runs-on: x, strategy: {matrix: {w: [3]}}, env: {W: "${{ matrix.w }}"}}', {
        f'c__{i}__a': {'runs-on': 'x', 'strategy': {'matrix': {'w': [3]}}, 'env': {'W': '${{ matrix.w }}'}, 'concurrency': f'g{i + 1}'} for i in (0, 1)}),
    ('', 'strategy: {matrix: {v: [1, 2]}}', '', 'a: {runs-on: x, steps: [{run: matrix, if: matrix.v == 1}]}', 'jobs.c.strategy: .github/workflows/c.yml has several '
     'jobs or a matrix, so `fail-fast` has to be false, and there can be no `max-parallel`'),
    ('', 'strategy: {matrix: {v: [1, 2]}, fail-fast: false}, with: {n: "${{ matrix.v }}"}', '', 'a: {runs-on: x, if: inputs.n == 1}, b: {needs: a, runs-on: x}', {
        'c__0__a': {'runs-on': 'x', 'if': True}, 'c__0__b': {'needs': ['c__0__a'], 'runs-on': 'x'}}),
    ('', 'secrets: {S: plain}', '', 'a: {runs-on: x}', 'jobs.c.secrets.S: it is no expression'),
    ('', 'secrets: inherit', '', 'a: {runs-on: x, env: {S: "${{ secrets.S }}"}}', {'c__a': {'runs-on': 'x', 'env': {'S': '${{ secrets.S }}'}}}),
    ('', '', '', 'a: {runs-on: x, env: {S: "${{ secrets.S }}"}}', {'c__a': {'runs-on': 'x', 'env': {'S': '${{ null }}'}}}),
    ('', 'if: github.ref == 1', '', 'a: {runs-on: x}, b: {needs: a, runs-on: x}', {
        'c__a': {'runs-on': 'x', 'if': False}, 'c__b': {'needs': ['c__a'], 'runs-on': 'x', 'if': False}}),
    ('', 'if: always()', '', 'a: {runs-on: x}', {'c__a': {'runs-on': 'x', 'if': 'always()'}}),
    ('', 'if: always()', '', 'a: {runs-on: x}, b: {needs: a, runs-on: x}', "jobs.c.if: always() is a condition that the jobs of the called workflow can't have"),
    ('b: {runs-on: x}', 'needs: b', '', 'a: {runs-on: x, if: failure()}',
     'jobs.c.needs: the job a of the called workflow would run also if these fail (failure())'),
    ('d: {needs: c, runs-on: x}', '', '', 'a: {runs-on: x}, b: {needs: a, if: failure(), runs-on: x}',
     'jobs.d.needs: the workflow that c calls has a job that may be skipped'),
    ('d: {needs: c, runs-on: "${{ needs.c.result }}"}', '', '', 'a: {runs-on: x}', 'jobs.d: it asks for needs.c, which calls a workflow'),
    ('d: {needs: c, runs-on: x}', '', '', 'a: {if: false, runs-on: x}, b: {needs: a, runs-on: x}, e: {needs: b, if: always(), runs-on: x, env: {B: "${{ needs.b.result }}"}}',
     {'c__e': {'if': 'always()', 'runs-on': 'x', 'env': {'B': '${{ fromJSON(\'{"result": "skipped", "outputs": {}}\').result }}'}}, 'd': {'needs': ['c__e'], 'runs-on': 'x'}}),
    ('c__a: {runs-on: x}', '', '', 'a: {runs-on: x}', 'jobs.c: another job has the id of one that is put in place'),
    ('', 'concurrency: g', '', 'a: {runs-on: x}', {'c__a': {'runs-on': 'x', 'concurrency': 'g'}}),
    ('', '', 'concurrency: g', 'a: {runs-on: x}, b: {runs-on: x}', 'jobs.c: a concurrency group of several jobs that are put in place'),
    ('', '', '', '', 'jobs.c.uses: .github/workflows/c.yml has no jobs, or one that is no object'),
    ('', '', '', 'd: {uses: ./.github/workflows/c.yml}', 'jobs.d.uses: over 10 workflows call one another'),
    ('', '', '', ', '.join(f'a{i}: {{runs-on: x}}' for i in range(257)), 'jobs.c: over 256 jobs of called workflows'),
    ('', '', '', 'a: {runs-on: x, environment: live}', 'jobs.c__a.environment: live is not named as an environment'))


@pytest.mark.parametrize('others, members, head, jobs, wanted', CALLS, ids=range(len(CALLS)))
def test_called_workflows(others: str, members: str, head: str, jobs: str, wanted: Any) -> None:
    files = {'.github/workflows/c.yml': f'{CALLED}\n{head}\njobs: {{{jobs}}}'}
    known = Folding({'github': {'ref': 'r', 'event': {}}, 'inputs': {}, 'vars': {}}, {'free': False}, files.get)
    text = f'on: push\njobs:\n  {others}\n  c: {{uses: ./.github/workflows/c.yml{members and ", " + members}}}'
    try:
        sent = known.sent(read(text))['jobs']
        assert all(('name' in job) == ('__' in id and 'c__a: ' not in others) for id, job in sent.items())
        got: Any = {id: {member: value for member, value in job.items() if member != 'name'} for id, job in sent.items()}
    except Fault as fault:
        got = str(fault)
    assert got == wanted


@pytest.mark.parametrize('members, jobs, wanted', [
    ('', 'a: {runs-on: x}', {'c__a': 'c / a'}), ('name: Ship', 'a: {runs-on: x, name: "Build ${{ inputs.n }}"}', {'c__a': 'Ship / Build ${{ 1 }}'}),
    ('strategy: {matrix: {v: [1, 2]}, fail-fast: false}', 'a: {runs-on: x}, b: {runs-on: x}',
     {'c__0__a': 'c (1) / a', 'c__0__b': 'c (1) / b', 'c__1__a': 'c (2) / a', 'c__1__b': 'c (2) / b'}),
    ('name: "On ${{ matrix.v }}", strategy: {matrix: {v: [1], w: [2]}}', 'a: {runs-on: x}, b: {runs-on: x}', {'c__0__a': 'On 1 / a', 'c__0__b': 'On 1 / b'})])
def test_names_of_called_jobs(members: str, jobs: str, wanted: dict[str, str]) -> None:
    """GitHub Docs, "Reuse workflows" and "Running variations of jobs in a workflow": the name of the call, its combination, and the job's own."""
    files = {'.github/workflows/c.yml': f'{CALLED}\njobs: {{{jobs}}}'}
    text = f'on: push\njobs:\n  c: {{uses: ./.github/workflows/c.yml{members and ", " + members}}}'
    sent = Folding({'github': {}, 'inputs': {}, 'vars': {}}, {}, files.get).sent(read(text))['jobs']
    assert {id: job['name'] for id, job in sent.items()} == wanted


OUTPUTS = """on: {workflow_call: {outputs: {Tag: {value: "${{ jobs.a.outputs.t }}"}, none: {value: "${{ jobs.off.outputs.t }}"}, two: {value: "${{ jobs.a.outputs.t }}-x"},
     deep: {value: "${{ jobs.inner.outputs.t }}"}, lost: {value: "${{ jobs.nobody.outputs.t }}"}}}}
jobs:
  a: {runs-on: x, outputs: {t: "${{ steps.s.outputs.t }}"}}
  off: {runs-on: x, if: false}
"""


@pytest.mark.parametrize('members, text, wanted', [
    ('', '${{ needs.c.outputs.tag }}', '${{ needs.c__a.outputs.t }}'), ('', 'v${{ format(\'needs {0}\', needs.c.outputs.TAG) }}',
     "v${{ format('needs {0}', needs.c__a.outputs.t) }}"),
    ('', '${{ needs.c.outputs.none }}${{ needs.c.outputs.other }}', '${{ null }}${{ null }}'), ('', '${{ needs.d.outputs.tag }}', '${{ needs.d.outputs.tag }}'),
    ('', '${{ needs.c.outputs.two }}', 'jobs.j: it asks for needs.c, which calls a workflow'), ('', '${{ needs.c.outputs.lost }}', 'jobs.j: it asks for needs.c'),
    ('', '${{ toJSON(needs.c.outputs) }}', 'jobs.j: it asks for needs.c'), ('', '${{ needs.c.result }}', 'jobs.j: it asks for needs.c'),
    ('', "${{ needs.c['outputs'].tag }}", 'jobs.j: it asks for needs.c'),
    (', strategy: {matrix: {v: [1, 2]}, fail-fast: false}', '${{ needs.c.outputs.tag }}', 'jobs.j: it asks for needs.c')], ids=range(10))
def test_outputs_of_calls(members: str, text: str, wanted: str) -> None:
    """GitHub Docs, "Reuse workflows", "Using outputs from a reusable workflow"."""
    workflow = f'on: push\njobs:\n  c: {{uses: ./.github/workflows/c.yml{members}}}\n  j: {{needs: c, runs-on: x}}'
    read_workflow = read(workflow)
    read_workflow['jobs']['j'] |= {'env': {'A': text}, 'steps': [{'run': text, 'if': 'needs.c.outputs.tag == 1'}]}
    known = Folding({'github': {}}, {}, {'.github/workflows/c.yml': OUTPUTS}.get)
    try:
        job = known.workflow(read_workflow)['jobs']['j']
    except Fault as fault:
        assert str(fault).startswith(wanted)
        return
    assert job['env']['A'] == job['steps'][0]['run'] == wanted and job['steps'][0]['if'] == 'needs.c__a.outputs.t == 1' and job['needs'] == ['c__a']


def test_outputs_of_a_call_in_a_call_are_not_known() -> None:
    """They are asked for by no name that the jobs here have."""
    files = {'c.yml': OUTPUTS + '  inner: {uses: ./.github/workflows/d.yml}\n', 'd.yml': 'on: workflow_call\njobs: {z: {runs-on: x}}'}
    placed = {f'.github/workflows/{name}': text for name, text in files.items()}
    known = Folding({'github': {}}, {}, placed.get)
    with pytest.raises(Fault, match='jobs.j: it asks for needs.c'):
        known.workflow(read('on: push\njobs:\n  c: {uses: ./.github/workflows/c.yml}\n  j: {needs: c, runs-on: x, env: {A: "${{ needs.c.outputs.deep }}"}}'))


def test_calls_of_what_is_not_there() -> None:
    with pytest.raises(Fault, match='none.yml: there is no such file'):
        Folding({'github': {}}, {}, {}.get).workflow({'jobs': {'c': {'uses': './.github/workflows/none.yml'}}})
    known = Folding({'github': {}}, {}, {}.get)
    known.workflow({'jobs': {'c': {'uses': 'octo/other/.github/workflows/c.yml@main'}}})
    assert known.notes == [Note(16, 'jobs.c.uses', 'octo/other/.github/workflows/c.yml@main')]


@pytest.mark.parametrize('uses', ['./.github/workflows/../../etc/x.yml', './.github/workflows/a/b.yml', '/etc/x.yml', './x.yml',
                                  './.github/workflows/-x.yml\n'])
def test_a_call_reads_nothing_but_workflows(uses: str) -> None:
    asked: list[str] = []
    known = Folding({'github': {}}, {}, lambda path: asked.append(path))
    known.workflow({'jobs': {'c': {'uses': uses}}})
    assert asked == [] and [note.number for note in known.notes] == [16]


def test_permissions_of_called_jobs() -> None:
    """GitHub Docs, "Reuse workflows": those of the job itself, of its workflow, or of the call."""
    called = """on: workflow_call
jobs:
  own: {runs-on: x, permissions: {contents: read}}
  none: {runs-on: x}
"""
    call = {'uses': './.github/workflows/c.yml', 'permissions': {'id-token': 'write'}}
    for more, wanted in (('', {'id-token': 'write'}), ('permissions: {packages: write}\n', {'packages': 'write'})):
        files = {'.github/workflows/c.yml': called + more}
        jobs = Folding({'github': {}}, {}, files.get).workflow({'jobs': {'c': call}})['jobs']
        assert jobs['c__own']['permissions'] == {'contents': 'read'} and jobs['c__none']['permissions'] == wanted
    files = {'.github/workflows/c.yml': called}
    jobs = Folding({'github': {}}, {}, files.get).workflow({'jobs': {'c': {'uses': './.github/workflows/c.yml'}}})['jobs']
    assert 'permissions' not in jobs['c__none']


CONTEXTS: dict[str, Any] = {
    'github': {'head_ref': "a${{x}}'b", 'ref_name': 'main', 'event': {'labels': ['a'], 'ratio': 0.5}}, 'inputs': {'ratio': 1.5, 'off': False},
    'vars': {'OS': '["a", "b"]'}}


@pytest.mark.parametrize('text, wanted', [
    ('${{ github.head_ref }}', "${{ 'a${{x}}''b' }}"), ('to-${{ github.ref_name }}', 'to-main'), ("${{ github.ref_name == 'main' }}", 'true'),
    ('${{ fromJSON(vars.OS) }}', ['a', 'b']), ('${{ matrix.os }}-${{ github.ref_name }}', '${{ matrix.os }}-main'),
    ('v${{ github.event.ratio }}', 'v0.5'), ('x${{ github.event }}', 'xObject'), ('${{ matrix.os || inputs.ratio }}', "${{ matrix.os || '1.5' }}"),
    ('${{ matrix.os || inputs.off }}', "${{ matrix.os || 'false' }}"), ('${{ matrix.experimental || false }}', "${{ matrix.experimental || 'false' }}"),
    ("${{ matrix.n || 0 || null || 2.50 || 'x' }}", "${{ matrix.n || '2.5' }}"), ("${{ matrix.n || 'a || 5' || true }}", "${{ matrix.n || 'a || 5' }}"),
    ('${{ inputs.off || matrix.os || github.event.labels || vars.x }}', "${{ matrix.os || 'Array' }}")])
def test_templates(text: str, wanted: Any) -> None:
    assert Folding(CONTEXTS).template(text, 'jobs.a.runs-on') == wanted


@pytest.mark.parametrize('text, place', [('${{ matrix.a && true }}', 'runs-on'), ('${{ matrix.a || true.x }}', 'runs-on'), ('${{ matrix.a || f(1) }}', 'runs-on'),
                                         ('${{ matrix.a || false }}', 'strategy.fail-fast'), ('${{ needs.a.outputs.n || 1 }}', 'runs-on')])
def test_pieces_that_the_service_does_not_take(text: str, place: str) -> None:
    known = Folding(CONTEXTS)
    known.template(text, f'jobs.a.{place}')
    assert [(note.number, note.text) for note in known.notes] == [(17, text)]


def test_a_list_in_a_group_is_a_text() -> None:
    assert Folding(CONTEXTS).template('${{ github.event.labels }}', 'jobs.a.concurrency.group') == 'Array'


def test_a_strategy_takes_values_of_any_kind() -> None:
    strategy = {'fail-fast': "${{ github.ref_name == 'main' }}", 'matrix': {'os': '${{ fromJSON(vars.OS) }}', 'to': ['${{ github.ref_name }}']}}
    assert Folding(CONTEXTS).template(strategy, 'jobs.a.strategy') == {'fail-fast': True, 'matrix': {'os': ['a', 'b'], 'to': ['main']}}


def test_fractions_of_a_matrix_are_texts() -> None:
    job = {'runs-on': 'x', 'strategy': {'matrix': {'v': [0, 3.10, 4.0]}}}
    assert Folding(CONTEXTS).job(job, 'jobs.a')['strategy']['matrix']['v'] == [0, '3.1', 4]


def test_places_of_what_the_service_refuses() -> None:
    known = Folding(CONTEXTS)
    known.workflow({'concurrency': '${{ matrix.os }}', 'jobs': {
        'a': {'uses': './x.yml'}, 'b': {'runs-on': '${{ secrets.x }}', 'strategy': {'matrix': '${{ needs.a.outputs.m }}'}},
        'c': {'if': 'success() || failure()', 'strategy': {'matrix': {'v': [[1]]}}}}})
    assert sorted((note.number, note.place, note.text) for note in known.notes) == [
        (16, 'jobs.a.uses', './x.yml'), (17, 'jobs.b.runs-on', '${{ secrets.x }}'), (17, 'jobs.b.strategy.matrix', '${{ needs.a.outputs.m }}'),
        (18, 'concurrency', '${{ matrix.os }}'), (19, 'jobs.c.strategy.matrix.v[0]', '[1]'), (25, 'jobs.b.strategy.matrix', '${{ needs.a.outputs.m }}'),
        (26, 'jobs.c.if', 'success() || failure()')]


@pytest.mark.parametrize('environment, matrix, wanted', [
    ('staging', None, (['x'], 'staging')), ({'name': 'Staging', 'url': '${{ steps.a.outputs.u }}'}, None, (['x'], {'name': 'Staging', 'url': '${{ steps.a.outputs.u }}'})),
    ('production', None, (['x', 'approved-${{ github.run_id }}'], 'production')),
    ("${{ github.ref_name == 'main' && 'production' || 'staging' }}", None, (['x', 'approved-${{ github.run_id }}'], 'production')),
    ('${{ matrix.to }}', {'to': ['staging', 'review']}, (['x'], '${{ matrix.to }}')),
    ('${{ matrix.to }}', {'to': ['staging', 'production']}, 'jobs.a.environment: some combinations wait for an approval and others do not'),
    ('${{ matrix.to }}', {'to': ['staging', 'other']}, 'jobs.a.environment: other is not named as an environment'),
    ('${{ needs.a.outputs.to }}', None, 'jobs.a.environment: ${{ needs.a.outputs.to }} is not known before the run'),
    ('other', None, 'jobs.a.environment: other is not named as an environment'), ('', None, (['x'], ''))])
def test_environments(environment: Any, matrix: Any, wanted: Any) -> None:
    known = Folding(CONTEXTS, {'staging': False, 'review': False, 'production': True})
    job = {'runs-on': 'x', 'environment': environment, **({'strategy': {'matrix': matrix}} if matrix else {})}
    try:
        made = known.sent({'jobs': {'a': job}})['jobs']['a']
        labels = made['runs-on'] if isinstance(made['runs-on'], list) else [made['runs-on']]
        assert (labels, made['environment']) == wanted
    except Fault as fault:
        assert str(fault) == wanted


def test_a_skipped_job_may_name_any_environment() -> None:
    made = Folding(CONTEXTS, {}).sent({'jobs': {'a': {'runs-on': 'x', 'if': "github.ref_name == 'other'", 'environment': 'production'}}})
    assert made['jobs']['a']['if'] is False


def test_the_name_of_a_run_is_folded_as_far_as_it_is_known() -> None:
    made = Folding(CONTEXTS, {}).sent({'run-name': 'Deploy ${{ github.ref_name }} no. ${{ github.run_number }}', 'jobs': {}})
    assert made['run-name'] == 'Deploy main no. ${{ github.run_number }}'


@pytest.mark.parametrize('job', [{'runs-on': ['${{ toJSON(github.event) }}'] * 5000}, {'strategy': {'matrix': {'a': ['x${{ toJSON(github.event) }}'] * 5000}}},
                                 {'concurrency': '${{ toJSON(github.event) }}' * 5000}, {'environment': '${{ toJSON(github.event) }}' * 5000 + 'x'}],
                         ids='abcd')
def test_expressions_that_make_much_are_stopped(job: Any, monkeypatch: pytest.MonkeyPatch) -> None:
    monkeypatch.setattr(templates, 'SECONDS', 1)
    event = {'commits': [{'message': 'm' * 1000}] * 500}
    began = time.process_time()
    with pytest.raises(Fault, match='make over|take over'):
        Folding({'github': {'event': event}, 'inputs': {}, 'vars': {}}, {'e': False}).sent({'jobs': {'a': {'runs-on': 'x', **job}}})
    assert time.process_time() - began < 5


def test_more_jobs_than_there_may_be() -> None:
    with pytest.raises(Fault) as raised:
        Folding({}).workflow({'jobs': {f'j{n}': {} for n in range(257)}})
    assert raised.value.number == 23
