"""Puts local reusable workflows in place: their jobs become jobs of the workflow that calls them."""
from __future__ import annotations

import json
import re
from typing import TYPE_CHECKING, Any, Iterable, Mapping

from acts_workflow import inputs, matrices
from acts_workflow import members as syntax
from acts_workflow.expressions import parts, whole
from acts_workflow.filters import as_list, triggers_of
from acts_workflow.matrices import Row
from acts_workflow.profile import MOST_JOBS, NAME
from acts_workflow.values import Fault, Unknown, Value, text_of

from . import passing
from .replacing import OutputsOfCalls, Replaced, secrets_of

if TYPE_CHECKING:
    from .templates import Folding

LOCAL = re.compile(r'\./(\.github/workflows/[^/@]+\.ya?ml)')
DEEPEST = 10  # workflows that call one another: GitHub's limit
OWN_CONDITIONS = 'always()', 'failure()', 'cancelled()', '!cancelled()'  # of the service, besides `success()`
RUN_ON_SUCCESS = True, 'success()', 'always()', '!cancelled()'  # of jobs that run if all before them have succeeded
JOB_OUTPUT = re.compile(rf'jobs\s*\.\s*({NAME})\s*\.\s*outputs\s*\.\s*({NAME})')
OWN = re.compile(r"'[^']*'|(?<![\w.-])(matrix|strategy)(?![\w-])", re.I)  # what names the matrix in an expression
Tree = dict[str, Any]
Jobs = dict[str, Any]


def path_of(job: Tree) -> str | None:
    """The path of the local workflow that a job calls; None if it calls none."""
    found = LOCAL.fullmatch(job['uses']) if isinstance(job.get('uses'), str) else None
    return found[1] if found else None


def needs_of(job: Tree) -> list[str]:
    """The ids of the jobs that a job needs."""
    return [str(need) for need in as_list(job.get('needs', []))]


def in_place(workflow: Tree, known: Folding) -> Tree:
    """The workflow with the jobs of called ones in place of those that call them."""
    jobs, placed = workflow['jobs'], {}
    for name, job in jobs.items():
        if isinstance(job, dict) and path_of(job):
            placed[name] = called_jobs(name, job, known)
            if sum(map(len, placed.values())) > MOST_JOBS:
                raise Fault(f'over {MOST_JOBS} jobs of called workflows', f'jobs.{name}')
    if not placed:
        return workflow
    made: Jobs = {}
    rewritten = OutputsOfCalls({name: outputs_of(name, jobs[name], placed[name], known) for name in placed})
    for name, job in jobs.items():
        if isinstance(job, dict):
            job = job if name in placed else rewritten.job(job)
            check_needs(name, job, placed)
        group = placed.get(name) or {name: with_settings(workflow, job) if isinstance(job, dict) else job}
        if made.keys() & group.keys():
            raise Fault('another job has the id of one that is put in place', f'jobs.{name}')
        made |= {place: with_needs(inner, job, placed, name in placed) if isinstance(inner, dict) else inner
                 for place, inner in group.items()}
    return {**{name: value for name, value in workflow.items() if name not in ('env', 'defaults')}, 'jobs': made}


def outputs_of(name: str, job: Tree, placed: Jobs, known: Folding) -> dict[str, str]:
    """The expression for each output of a call, by its name in small letters: one of a job that is left out, since it
    is skipped, is null. What is no output of one job stays as it is, and is a fault where it is asked for."""
    called = known.called(path_of(job) or '')
    said = triggers_of(called.get('on'))['workflow_call'].get('outputs')
    found: dict[str, str] = {}
    for output, form in said.items() if isinstance(said, dict) else ():
        value = whole(str(form.get('value'))) if isinstance(form, dict) else None
        of_job = JOB_OUTPUT.fullmatch(value.strip()) if value and 'strategy' not in job else None
        if not of_job or 'uses' in called['jobs'].get(of_job[1], {'uses': ''}):
            found[output.lower()] = f'needs.{name}.outputs.{output}'
            continue
        id = f'{name}__{of_job[1]}'
        found[output.lower()] = f'needs.{id}.outputs.{of_job[2]}' if id in placed else 'null'
    return found


def check_needs(name: str, job: Tree, placed: Mapping[str, Jobs]) -> None:
    """Faults a job that needs a called workflow in a way that its jobs can't stand for."""
    for needed in sorted(set(needs_of(job)) & placed.keys()):
        name_of = re.escape(needed)
        if re.search(rf"\bneeds\s*(\.\s*{name_of}(?![\w-])|\[\s*'{name_of}')", json.dumps(job), re.I):
            raise Fault(f'it asks for needs.{needed}, which calls a workflow', f'jobs.{name}')
        conditions = [inner.get('if', True) for inner in placed[needed].values()]
        if any(each not in RUN_ON_SUCCESS for each in conditions) and not all(each is False for each in conditions):
            raise Fault(f'the workflow that {needed} calls has a job that may be skipped', f'jobs.{name}.needs')


def with_needs(inner: Tree, job: Tree, placed: Mapping[str, Jobs], is_called: bool) -> Tree:
    """A job that waits for the jobs of called workflows, and if it is one of them, for what its caller needs."""
    needs = needs_of(inner) + (needs_of(job) if is_called else [])
    listed = [place for name in needs for place in placed.get(name, [name])]
    return {**inner, 'needs': list(dict.fromkeys(listed))} if listed else inner


def with_settings(workflow: Tree, job: Tree) -> Tree:
    """The job with the `env` and `defaults` of its own workflow, which must not reach the jobs of another one."""
    run = members(members(workflow, 'defaults'), 'run') | members(members(job, 'defaults'), 'run')
    given = {'env': members(workflow, 'env') | members(job, 'env'), 'defaults': {'run': run} if run else {}}
    return {**job, **{name: value for name, value in given.items() if value}}


def with_permissions(inner: Tree, *above: Tree) -> Tree:
    """The job with the permissions of the nearest that says some: itself, its workflow, or the job that calls that."""
    return next(({**inner, 'permissions': of['permissions']} for of in (inner, *above) if 'permissions' in of), inner)


def members(of: Tree, name: str) -> Tree:
    """The object that a member is; an empty one without it."""
    value = of.get(name) or {}
    if not isinstance(value, dict):
        raise Fault(f'{str(value)[:200]} is no object, so it is not known which jobs it reaches', name)
    return value


def called_jobs(name: str, job: Tree, known: Folding) -> Jobs:
    """The jobs of the workflow that a job calls, by the ids that they get."""
    place, path = f'jobs.{name}', path_of(job) or ''
    if known.depth >= DEEPEST:
        raise Fault(f'over {DEEPEST} workflows call one another', f'{place}.uses')
    called = known.called(path)
    on = triggers_of(called.get('on'))
    if 'workflow_call' not in on:
        raise Fault(f'`on` of {path} does not name workflow_call', f'{place}.uses')
    jobs = called.get('jobs')
    if not isinstance(jobs, dict) or not jobs or not all(isinstance(inner, dict) for inner in jobs.values()):
        raise Fault(f'{path} has no jobs, or one that is no object', f'{place}.uses')
    if len(jobs) > MOST_JOBS:
        raise Fault(f'over {MOST_JOBS} jobs of called workflows', place)
    check_members(called, path, place)
    forms = inputs.forms_of(on['workflow_call'].get('inputs'))
    unknown = [given for given in members(job, 'with') if given not in forms]
    if unknown:
        raise Fault('the called workflow has no such input', f'{place}.with.{unknown[0]}')
    rows = rows_of(job, place)
    if rows is None:
        return jobs_of_call(name, job, called, known, passing.inputs_of_call(job, forms, known, place)[0][0])
    placing = one_job if is_one_job(called) else jobs_of_rows
    return placing(name, job, rows, called, forms, known)


def check_members(called: Tree, path: str, place: str) -> None:
    """Faults a member of a called workflow that GitHub does not have."""
    try:
        syntax.check(called)
    except Fault as fault:
        raise Fault(f'{path}: {fault}', f'{place}.uses') from None


def check_secrets(job: Tree, called: Tree, place: str) -> None:
    """Faults a secret that the called workflow requires and does not get, and one that it does not name."""
    if job.get('secrets') == 'inherit':
        return
    given, known = members(job, 'secrets'), {name.lower() for name in named_secrets(called)}
    check_required(job, required_secrets(called), place)
    for name in given:
        if name.lower() not in known:
            raise Fault('the called workflow has no such secret', f'{place}.secrets.{name}')


def named_secrets(called: Tree) -> Tree:
    """The secrets that a called workflow names."""
    return members(triggers_of(called.get('on'))['workflow_call'], 'secrets')


def required_secrets(called: Tree) -> list[str]:
    """The secrets that a called workflow requires."""
    return [name for name, form in named_secrets(called).items()
            if isinstance(form, dict) and form.get('required') is True]


def check_required(job: Tree, required: Iterable[str], place: str) -> None:
    """Faults a secret that is required, and that a call with a list of secrets does not pass on."""
    given = members(job, 'secrets')
    got = {name.lower() for name in given}
    for name in required:
        if name.lower() not in got:
            raise Fault(f'the called workflow requires the secret {name}', f'{place}.secrets' if given else place)


def with_required(inner: Tree, job: Tree, called: Tree, place: str) -> Tree:
    """The job with the secrets that its runner has to have: a call that passes on all says nothing of which there are.
    One with a list passes on what a call within the called workflow requires, or is at fault."""
    wanted = list(inner.get(syntax.REQUIRED, []))
    if job.get('secrets') != 'inherit':
        check_required(job, wanted, place)
        return {name: value for name, value in inner.items() if name != syntax.REQUIRED}
    names = sorted({*wanted, *required_secrets(called)})
    return {**inner, syntax.REQUIRED: names} if names else inner


def rows_of(job: Tree, place: str) -> list[Row] | None:
    """The combinations of the job that calls; None if it has no matrix."""
    strategy = job.get('strategy')
    if strategy is None:
        return None
    matrix = strategy.get('matrix') if isinstance(strategy, dict) else strategy
    try:
        if not isinstance(matrix, dict):
            raise Fault('it is not known before the run')
        return matrices.combinations(matrix)
    except Fault as fault:
        raise Fault(fault.words, f'{place}.strategy.matrix') from None


def is_one_job(called: Tree) -> bool:
    """Whether a called workflow has one job, which has no matrix, and asks for none."""
    jobs = list(called['jobs'].values())
    return len(jobs) == 1 and 'strategy' not in jobs[0] and 'uses' not in jobs[0] and not any(
        found[1] for text in expressions_in(called) for found in OWN.finditer(text))


def expressions_in(value: Any, name: str = '') -> Iterable[str]:
    """The expressions in a workflow: between braces, and in an `if` without any."""
    if isinstance(value, (dict, list)):
        items = value.items() if isinstance(value, dict) else ((name, item) for item in value)
        for inner, item in items:
            yield from expressions_in(item, inner)
    elif isinstance(value, str):
        yield from [part.text for part in parts(value) if part.node] or ([value] if name == 'if' else [])


def jobs_of_call(name: str, job: Tree, called: Tree, known: Folding, given: Mapping[str, Value]) -> Jobs:
    """The jobs of a called workflow that gets these inputs."""
    place, inner = f'jobs.{name}', known.within(given)
    workflow = inner.workflow(called)
    known.notes += [type(note)(note.number, f'{place}: {path_of(job)}: {note.place}', note.text)
                    for note in inner.notes]
    own = {id: with_permissions(with_settings(workflow, each), workflow, job) for id, each in workflow['jobs'].items()}
    jobs = without_skipped(own)
    jobs = conditioned(one_group(jobs, job, workflow, place), job, place)
    ids = {id: f'{name}__{id}' for id in jobs}
    secrets = secrets_of(job, place)
    check_secrets(job, called, place)
    replaced = Replaced(given, secrets, ids, workflow['jobs'].keys() - jobs.keys(), place)
    made = {f'{name}__{id}': with_required(named(replaced.job(each), id, job, name), job, called, place)
            for id, each in jobs.items()}
    passing.check_outputs(made, given, place)
    return made


def named(inner: Tree, id: str, call: Tree, caller: str) -> Tree:
    """The job under the name that GitHub shows: that of the call, and its own."""
    return {**inner, 'name': f'{text_of(call.get("name")) or caller} / {text_of(inner.get("name")) or id}'}


def one_job(name: str, job: Tree, rows: list[Row], called: Tree, forms: Mapping[str, Tree], known: Folding) -> Jobs:
    """The single job of a called workflow, which gets the matrix of the call."""
    each, passed = passing.inputs_of_call(job, forms, known, f'jobs.{name}', rows)
    for given in each:
        known.within(given).workflow(called)  # faults what is wrong with it for one combination alone
    made = jobs_of_call(name, job, called, known, {**each[0], **passed})
    return {id: {**inner, 'strategy': job['strategy']} for id, inner in made.items()}


def are_apart(strategy: Any, rows: list[Row]) -> bool:
    """Whether no combination of the call stops another one, or waits for it."""
    return len(rows) == 1 or (isinstance(strategy, dict) and strategy.get('fail-fast') is False
                              and 'max-parallel' not in strategy)


def jobs_of_rows(name: str, job: Tree, rows: list[Row], called: Tree, forms: Mapping[str, Tree],
                 known: Folding) -> Jobs:
    """The jobs of a called workflow for each combination of the call."""
    place = f'jobs.{name}'
    if not are_apart(job['strategy'], rows):
        raise Fault(f'{path_of(job)} has several jobs or a matrix, so `fail-fast` has to be false, and there can be no '
                    '`max-parallel`', f'{place}.strategy')
    if re.search(r'\bmatrix\b', json.dumps(job.get('secrets'))):
        raise Fault('they depend on the matrix', f'{place}.secrets')
    groups: list[Jobs] = []
    for number, row in enumerate(rows):
        there = known.beside({'matrix': row})
        call = call_of(name, job, there, row)
        given = passing.inputs_of_call(call, forms, there, place)[0][0]
        groups.append(jobs_of_call(f'{name}__{number}', call, called, known, given))
        if sum(map(len, groups)) > MOST_JOBS:
            break  # `in_place` refuses them
    left = [jobs for jobs in groups if any(inner.get('if') is not False for inner in jobs.values())]
    return {id: inner for jobs in left or groups for id, inner in jobs.items()}


def call_of(name: str, job: Tree, known: Folding, row: Row) -> Tree:
    """The job that calls for one combination alone, which its name says."""
    call = {member: value for member, value in job.items() if member != 'strategy'}
    said = text_of(job.get('name')) or name
    call['name'] = known.partly(said) if '${{' in said else f'{said} ({", ".join(map(text_of, row.values()))})'
    if 'concurrency' in call:
        call['concurrency'] = known.template(call['concurrency'], 'concurrency')
    return call


def without_skipped(jobs: Jobs) -> Jobs:
    """The jobs without those that are skipped in any case: a job that needed these would be skipped too, and at GitHub
    it needs the called workflow alone. If all are skipped, all are kept."""
    skipped = {id for id, job in jobs.items() if job.get('if') is False}
    while more := {id for id, job in jobs.items() if id not in skipped
                   and job.get('if', True) in (True, 'success()') and ancestors(id, jobs) & skipped}:
        skipped |= more
    if len(skipped) == len(jobs):
        return {id: {**job, 'if': False} for id, job in jobs.items()}
    left = {id: {**job, 'needs': [need for need in needs_of(job) if need not in skipped]}
            for id, job in jobs.items() if id not in skipped}
    return {id: job if job['needs'] else {name: value for name, value in job.items() if name != 'needs'}
            for id, job in left.items()}


def ancestors(id: str, jobs: Jobs) -> set[str]:
    """All jobs that a job needs, directly or through others."""
    found: set[str] = set()
    new = {id}
    while new:
        new = {need for at in new for need in needs_of(jobs.get(at, {}))} - found
        found |= new
    return found


def one_group(jobs: Jobs, job: Tree, workflow: Tree, place: str) -> Jobs:
    """The jobs with the concurrency group of the call, or of the called workflow, which a single job can have."""
    groups = [of['concurrency'] for of in (job, workflow, *jobs.values()) if 'concurrency' in of]
    if 'concurrency' not in job and 'concurrency' not in workflow:
        return jobs
    if len(jobs) > 1 or len(groups) > 1:
        raise Fault('a concurrency group of several jobs that are put in place', place)
    return {id: {**inner, 'concurrency': groups[0]} for id, inner in jobs.items()}


def conditioned(jobs: Jobs, job: Tree, place: str) -> Jobs:
    """The jobs under the condition of the job that calls them, as far as each can have one of its own for it."""
    condition = job.get('if', True)
    if condition is False:
        return {id: {**inner, 'if': False} for id, inner in jobs.items()}
    if condition not in (True, 'success()'):
        if any('if' in inner or 'needs' in inner for inner in jobs.values()) or condition not in OWN_CONDITIONS:
            raise Fault(f"{condition} is a condition that the jobs of the called workflow can't have", f'{place}.if')
        return {id: {**inner, 'if': condition} for id, inner in jobs.items()}
    for id, inner in jobs.items():
        if needs_of(job) and inner.get('if') in OWN_CONDITIONS:
            raise Fault(f'the job {id} of the called workflow would run also if these fail ({inner["if"]})',
                        f'{place}.needs')
    return jobs
