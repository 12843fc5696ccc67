"""The graph of jobs, filters of lists, forms of inputs, and reasons why something waits."""
from __future__ import annotations

import itertools
from typing import Any

import pytest

from acts_hub.pages import files, filters, graph, inputs, states, waiting
from acts_hub.service.facts import Facts
from acts_hub.service.mirror import Run, Runs
from acts_hub.service.models import Holder, Job, Row, Runner, Lease, Wait

pytestmark = pytest.mark.quick


def node(id: str, *needs: str, legs: int = 1) -> graph.Node:
    return graph.Node(id, id, 'success', needs,
                      tuple(graph.Leg(f'{id} ({number})', 'success', f'/{id}/{number}') for number in range(legs)),
                      legs > 1)


def test_a_job_stands_right_of_what_it_needs() -> None:
    nodes = [node('deploy', 'test', 'docs'), node('build'), node('test', 'build', 'lint', legs=3), node('lint'),
             node('docs', 'lint')]
    assert graph.levels(nodes) == {'build': 0, 'lint': 0, 'test': 1, 'docs': 1, 'deploy': 2}
    drawing = graph.drawing(nodes)
    x = {place.node.id: place.x for place in drawing.places}
    assert all(x[need] < x[one.id] for one in nodes for need in one.needs)
    assert {(edge.source, edge.target) for edge in drawing.edges} == {('build', 'test'), ('lint', 'test'),
                                                                      ('lint', 'docs'), ('test', 'deploy'),
                                                                      ('docs', 'deploy')}


def test_a_need_that_follows_from_another_is_not_drawn() -> None:
    nodes = [node('a'), node('b', 'a'), node('c', 'a', 'b')]
    assert {(edge.source, edge.target) for edge in graph.drawing(nodes).edges} == {('a', 'b'), ('b', 'c')}


@pytest.mark.parametrize('draw', [graph.drawing, graph.narrow])
def test_no_two_jobs_overlap(draw: Any) -> None:
    nodes = [node(f'j{number}', *(f'j{other}' for other in range(number) if (number * 7 + other) % 3 == 0),
                  legs=1 + number % 14) for number in range(40)]
    drawing = draw(nodes)
    boxes = [(place.x, place.y, place.x + place.width, place.y + place.height) for place in drawing.places]
    assert len(boxes) == 40
    assert all(0 <= box[0] and box[2] <= drawing.width and 0 <= box[1] and box[3] <= drawing.height for box in boxes)
    for one, other in itertools.combinations(boxes, 2):
        assert one[2] <= other[0] or other[2] <= one[0] or one[3] <= other[1] or other[3] <= one[1]


def test_needs_that_go_round_or_are_unknown_do_not_hang() -> None:
    nodes = [node('a', 'b'), node('b', 'a'), node('c', 'nobody', 'c')]
    assert len(graph.drawing(nodes).places) == len(graph.narrow(nodes).places) == 3


def test_of_many_legs_those_that_failed_are_drawn() -> None:
    legs = tuple(graph.Leg(str(number), 'failure' if number == 200 else 'success', '') for number in range(256))
    place = graph.drawing([graph.Node('a', 'a', 'failure', (), legs, True)]).places[0]
    assert len(place.legs) == graph.MOST_LEGS and place.more == 246 and place.legs[-1].name == '200'


def test_no_jobs() -> None:
    assert graph.drawing([]).places == graph.narrow([]).places == ()


# Lists.

def run_of(number: int, *, path: str = '.github/workflows/ci.yml', workflow: str = 'CI', event: str = 'push',
           status: str = 'completed', conclusion: str | None = 'success',
           group: str | None = None, created: int = 0, completed: int | None = None, **facts: Any) -> Run:
    row = Row(number, number, 1, 'octo/hello', path, workflow, event, f'd{number}', 'refs/heads/main', status,
              conclusion, group)
    return Run(row, Facts(**{'branch': 'main', 'actor': 'mona', 'sha': f'{number:040x}', **facts}), created, created,
               created, completed, None, '')


def runs_of(*runs: Run) -> Runs:
    return Runs([run.id for run in runs], {run.id: run for run in runs})


def found(runs: Runs, **query: str) -> list[int]:
    wanted = filters.wanted_of(query)
    return [run.id for run in filters.page_of(runs, filters.tests_of(wanted, states.of_run), None, None).runs]


def test_parts_of_texts_match_whatever_their_case() -> None:
    runs = runs_of(run_of(1, branch='feature/Login', actor='Octocat', title='Add a login'),
                   run_of(2, conclusion='failure', event='pull_request', pull_number=7),
                   run_of(3, status='queued', conclusion=None, workflow='Deploy', path='.github/workflows/deploy.yml'),
                   run_of(4, status='pending', conclusion=None))
    assert found(runs, branch='LOGIN') == [1] and found(runs, actor='cat') == [1] and found(runs, q='login') == [1]
    assert found(runs, event='pull') == [2]
    assert found(runs, q='#7') == [2]
    assert found(runs, q='is:failure') == [2] and found(runs, q='is:failed branch:mai') == [2]
    assert found(runs, workflow='deploy.y') == [3]
    assert found(runs, workflow='depl') == [3]
    assert found(runs, status='queued') == [3]
    assert found(runs, status='waiting') == [4] and found(runs, status='completed') == [2, 1]
    assert found(runs, q='workflow:"dep" is:queued') == [3] and found(runs, q='is:success actor:nobody') == []
    assert found(runs, q='is:"in progress"') == []


def test_a_search_of_any_length_and_form_is_answered() -> None:
    runs = runs_of(run_of(1))
    for q in ('"' * 300, ':' * 300, 'is:' * 100, 'branch:"', ' ', '\x00', '%', '(' * 300, 'x' * 100_000):
        found(runs, q=q)


def test_pages_go_on_where_they_ended_though_new_runs_come() -> None:
    first = runs_of(*(run_of(number) for number in range(1, 61)))
    page = filters.page_of(first, [], None, None, 25)
    assert [run.id for run in page.runs] == list(range(60, 35, -1)) and page.newer is None and page.older == 36
    later = runs_of(*(run_of(number) for number in range(1, 100)))
    page = filters.page_of(later, [], page.older, None, 25)
    assert [run.id for run in page.runs] == list(range(35, 10, -1)) and page.older == 11
    last = filters.page_of(later, [], page.older, None, 25)
    assert [run.id for run in last.runs] == list(range(10, 0, -1)) and last.older is None and last.newer == 10
    back = filters.page_of(later, [], None, last.newer, 25)
    assert [run.id for run in back.runs] == list(range(35, 10, -1)) and back.newer == 35 and back.older == 11
    top = filters.page_of(later, [], None, 90, 25)
    assert [run.id for run in top.runs] == list(range(99, 74, -1)) and top.newer is None


@pytest.mark.parametrize('before, after', [(1, None), (0, None), (10 ** 9, None), (None, 10 ** 9), (None, 0)])
def test_a_page_outside_of_the_list(before: int | None, after: int | None) -> None:
    page = filters.page_of(runs_of(run_of(5), run_of(6)), [], before, after)
    assert [run.id for run in page.runs] in ([], [6, 5])
    assert filters.page_of(runs_of(), [], before, after).runs == ()


def test_filters_stay_in_the_addresses_of_pages() -> None:
    wanted = filters.wanted_of({'q': 'is:failure a&b', 'branch': 'x=y'})
    assert wanted.query(before=5) == '?q=is%3Afailure+a%26b&branch=x%3Dy&before=5'
    assert filters.wanted_of({}).query() == ''


# The form of workflow_dispatch: GitHub's documentation, "on.workflow_dispatch.inputs".

ON = {'workflow_dispatch': {'inputs': {
    'logLevel': {'description': 'Log level', 'required': True, 'default': 'warning', 'type': 'choice',
                 'options': ['info', 'warning', 'debug']},
    'print_tags': {'description': 'True to print to STDOUT', 'required': True, 'type': 'boolean'},
    'tags': {'description': 'Test scenario tags', 'required': True, 'type': 'string'},
    'environment': {'description': 'Environment to run tests against', 'type': 'environment', 'required': True},
    'count': {'type': 'number', 'default': 3}}}}


def test_the_fields_of_a_form() -> None:
    found = inputs.declared(ON['workflow_dispatch']['inputs'])
    assert [(one.name, one.kind, one.default, one.is_required)
            for one in found] == [('logLevel', 'choice', 'warning', True), ('print_tags', 'boolean', '', True),
                                  ('tags', 'string', '', True), ('environment', 'environment', '', True),
                                  ('count', 'number', '3', False)]
    assert found[0].options == ('info', 'warning', 'debug')
    assert found[0].label == 'Log level' and found[4].label == 'count'
    assert inputs.declared({'c': {'type': 'choice', 'options': [1, True]}})[0].default == '1'


@pytest.mark.parametrize('forms', [None, 5, [1], {'a': 7}, {'a': None}, {'c': {'type': [], 'options': 'x'}},
                                   {str(number): None for number in range(99)}])
def test_inputs_of_any_form_make_fields(forms: Any) -> None:
    assert len(inputs.declared(forms)) <= 25


def test_what_a_form_sent() -> None:
    declared = inputs.declared(ON['workflow_dispatch']['inputs'])
    sent = {'input.logLevel': 'debug', 'input.tags': 'a b', 'input.environment': 'staging', 'input.count': '',
            'input.other': 'x', 'other': 'y'}
    assert inputs.sent_values(declared, sent) == {'logLevel': 'debug', 'print_tags': 'false', 'tags': 'a b',
                                                  'environment': 'staging'}
    assert inputs.sent_values(declared, {'input.print_tags': 'true'}) == {'print_tags': 'true'}


@pytest.mark.parametrize('text, inputs_of', [('on: push', None), ('on: [push, workflow_dispatch]', ()),
                                             ('on:\n  workflow_dispatch:', ()), ('on: 5', None), ('on: {', None),
                                             ('[]', None),
                                            ('on: {workflow_dispatch: {inputs: {a: }}}',
                                             (inputs.Input('a', 'string', 'a', '', False, ()),))])
def test_which_workflows_can_be_started_by_hand(text: str, inputs_of: Any) -> None:
    assert files.file_of('ci.yml', text).inputs == inputs_of


# Reasons.

def runner(name: str, labels: tuple[str, ...] | None, heard: int | None, lease: bool = False) -> Runner:
    return Runner(name, 1, Lease(1, 1, 'a', 0) if lease else None, heard, labels)


@pytest.mark.parametrize('runners, missing, words', [
    ([], ('gpu',), 'waits for a runner: no runner has gpu'),
    ([runner('r', ('linux',), 1), runner('s', None, 1)], ('Linux', 'gpu'),
     'waits for a runner: no runner has Linux, gpu'),
    ([], (), 'none has asked for work yet'), ([runner('r', ('linux', 'GPU', 'x'), 1)], (), '1 runner idle'),
    ([runner('r', ('linux', 'gpu'), 1, True)], (), '1 runner, active'),
    ([runner('r', ('linux', 'gpu'), 5000)], (), ', offline'),
    ([runner('r', ('linux', 'gpu'), None)], (), ', offline')])
def test_why_a_leg_has_no_runner(runners: list[Runner], missing: tuple[str, ...], words: str) -> None:
    facts = waiting.Facts(runners=runners, missing=lambda labels, repository: missing)
    why = waiting.of_wait(Wait('runner'), ('Linux', 'gpu'), 'octo/hello', facts)
    assert why is not None and words in f'{why.words} {why.of}{why.rest}'


def test_a_leg_that_has_to_be_approved_says_so_till_it_is() -> None:
    labels = 'linux', 'approved-7'
    why = waiting.of_wait(Wait('runner'), labels, 'octo/hello', waiting.Facts(runners=[runner('r', ('linux',), 1)]))
    assert why == waiting.Why('waits until somebody approves it')
    why = waiting.of_wait(Wait('runner'), labels, 'octo/hello',
                          waiting.Facts(runners=[runner('r', ('linux',), 1)], is_approved=True))
    assert why is not None and why.words == 'waits for a runner with linux:' and why.of == '1 runner idle'


def test_why_a_run_waits_for_its_group() -> None:
    holder = run_of(3, group='deploy', workflow='Deploy')
    holders = waiting.holders_of([Holder('Octo/Hello', 'deploy', 'in_progress', 3, None, None),
                                  Holder('octo/hello', 'deploy', 'pending', 4, None, None)])
    why = waiting.of_wait(Wait('group', 'deploy'), (), 'octo/hello', waiting.Facts(holders, {3: holder}))
    assert why == waiting.Why('waits for the concurrency group deploy, held by', '/octo/hello/actions/runs/3',
                              'Deploy #3', '')
    unknown = waiting.of_wait(Wait('group', 'deploy'), (), 'octo/hello', waiting.Facts())
    assert unknown is not None and unknown.link == '/groups?q=deploy'
    parallel = waiting.of_wait(Wait('max_parallel', max_parallel=2), (), 'octo/hello', waiting.Facts())
    assert parallel is not None and 'max-parallel lets 2 run' in parallel.words


def test_what_a_blocked_job_waits_for() -> None:
    jobs = [Job('a', 'success', (), None, (), 'a'), Job('b', 'open', (), None, (), 'b'),
            Job('c', 'blocked', ('a', 'b'), None, (), 'c')]
    assert waiting.of_blocked(jobs[2], jobs, {'b': 'Build it'}) == waiting.Why('waits for Build it')
    assert waiting.of_blocked(jobs[1], jobs, {}) is None


def test_who_displaced_a_run() -> None:
    displaced = run_of(5, group='deploy', conclusion='cancelled', created=1000, completed=5000)
    others = [run_of(4, group='deploy', created=900), displaced, run_of(6, group='other', created=4000),
              run_of(7, group='deploy', created=5000, workflow='Deploy'),
              run_of(8, group='deploy', created=9000)]
    why = waiting.displaced_by(displaced, runs_of(*others))
    assert why is not None and why.link == '/octo/hello/actions/runs/7'
    assert waiting.displaced_by(displaced, runs_of(*others[:3])) is None
    assert waiting.displaced_by(displaced, runs_of(*others[:3], others[4])) is None
    assert waiting.displaced_by(run_of(5, group='deploy', created=1000, completed=5000), runs_of(*others)) is None
