"""The members that GitHub's workflow syntax has, by their places. A file with another one starts nothing at GitHub: so
a word that is misspelled is a fault, and is never left out in silence."""
from __future__ import annotations

from typing import Any, Iterable, Mapping

from .filters import as_list
from .values import Fault


def words(text: str) -> frozenset[str]:
    """The words of a text."""
    return frozenset(text.split())


ROOT = words('name run-name on permissions env defaults concurrency jobs')
JOB = words('''name permissions needs if runs-on environment concurrency outputs env defaults steps timeout-minutes
strategy continue-on-error container services''')
CALL = words('name uses with secrets needs if permissions concurrency strategy')
STEP = words('id if name uses run working-directory shell with env continue-on-error timeout-minutes')
INNER = {'strategy': words('matrix fail-fast max-parallel'), 'concurrency': words('group cancel-in-progress'),
         'environment': words('name url'), 'defaults': words('run')}
RUN = words('shell working-directory')
REQUIRED = 'required-secrets'  # of a job that a call puts in place, and of no file: what its runner has to have

BRANCHES, TAGS, PATHS = (words(f'{kind} {kind}-ignore') for kind in ('branches', 'tags', 'paths'))
TYPES = words('types')
EVENTS = {  # of `on`
    **{event: TYPES for event in words('''branch_protection_rule check_run check_suite discussion discussion_comment
    issue_comment issues label milestone project project_card project_column pull_request_review
    pull_request_review_comment registry_package release repository_dispatch watch''')},
    **{event: frozenset[str]() for event in words('''create delete deployment deployment_status fork gollum page_build
    public schedule status''')},
    'push': BRANCHES | TAGS | PATHS, 'merge_group': TYPES | BRANCHES, 'pull_request': TYPES | BRANCHES | PATHS,
    'pull_request_target': TYPES | BRANCHES | PATHS, 'workflow_run': TYPES | BRANCHES | {'workflows'},
    'image_version': words('types names versions'), 'workflow_dispatch': words('inputs'),
    'workflow_call': words('inputs outputs secrets')}
FORMS = {'inputs': words('description required default type options deprecationMessage'),
         'outputs': words('description value'), 'secrets': words('description required')}


def check(workflow: Mapping[str, Any]) -> None:
    """A `Fault` for the first member that there is not."""
    only(workflow, ROOT, '')
    check_on(workflow.get('on'))
    check_inner(workflow, '', ('concurrency', 'defaults'))
    jobs = workflow.get('jobs')
    for name, job in jobs.items() if isinstance(jobs, dict) else ():
        if isinstance(job, dict):
            check_job(job, f'jobs.{name}')


def only(value: Any, known: Iterable[str], place: str) -> None:
    """A `Fault` for a member of an object that is not one of these."""
    for name in value if isinstance(value, dict) else ():
        if name not in known:
            listed = ', '.join(sorted(known))
            raise Fault(f'GitHub has no such member here: it has {listed or "none"}', f'{place}.{name}'.lstrip('.'))


def check_on(on: Any) -> None:
    """The events, and what stands below each."""
    for number, event in enumerate(as_list(on) if not isinstance(on, dict) else ()):
        if isinstance(event, str) and event not in EVENTS:
            raise Fault(f'GitHub has no event {event}', f'on[{number}]' if isinstance(on, list) else 'on')
    for event, said in on.items() if isinstance(on, dict) else ():
        if event not in EVENTS:
            raise Fault('GitHub has no such event', f'on.{event}')
        only(said, EVENTS[event], f'on.{event}')
        for number, item in enumerate(said if isinstance(said, list) else ()):
            only(item, words('cron'), f'on.{event}[{number}]')
        for name, known in FORMS.items() if isinstance(said, dict) else ():
            forms = said.get(name)
            for each, form in forms.items() if isinstance(forms, dict) else ():
                only(form, known, f'on.{event}.{name}.{each}')


def check_inner(of: Mapping[str, Any], place: str, names: Iterable[str]) -> None:
    """What stands below some members of a workflow or a job."""
    for name in names:
        only(of.get(name), INNER[name], f'{place}.{name}'.lstrip('.'))
    defaults = of.get('defaults')
    only(defaults.get('run') if isinstance(defaults, dict) else None, RUN, f'{place}.defaults.run'.lstrip('.'))


def check_job(job: Mapping[str, Any], place: str) -> None:
    """A job, with its steps."""
    only(job, CALL if 'uses' in job else JOB, place)
    check_inner(job, place, INNER)
    steps = job.get('steps')
    for number, step in enumerate(steps if isinstance(steps, list) else ()):
        only(step, STEP, f'{place}.steps[{number}]')
        if isinstance(step, dict) and ('run' in step) == ('uses' in step):
            raise Fault('it has to have either `run` or `uses`', f'{place}.steps[{number}]')
