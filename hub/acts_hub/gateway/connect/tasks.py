"""A leg as a task of Gitea's protocol: a workflow of one job and one combination, with its contexts."""
from __future__ import annotations

import json
from collections.abc import Mapping
from typing import Any

from acts_workflow.members import REQUIRED
from acts_workflow.values import text_of

from ..leases import Lease
from .messages import CANCELLED, FAILURE, MESSAGES, SKIPPED, SUCCESS

RESULTS = {'success': SUCCESS, 'failure': FAILURE, 'cancelled': CANCELLED, 'skipped': SKIPPED}
NOT_SENT = 'needs', 'if', 'strategy', 'concurrency', 'environment', REQUIRED  # of a job: these are seen to here
Json = dict[str, Any]


def job_in(body: Mapping[str, Any], name: str) -> Json:
    """A job of an admitted body."""
    found: Json = body['workflow']['jobs'][name]
    return found


def payload_of(body: Mapping[str, Any], name: str, combination: Mapping[str, Any]) -> bytes:
    """The workflow of one job and one combination, as JSON, which is YAML, too."""
    kept = {member: value for member, value in job_in(body, name).items() if member not in NOT_SENT}
    if combination:
        kept['strategy'] = {'matrix': {member: [value] for member, value in combination.items()}}
    whole = {member: value for member, value in body['workflow'].items() if member not in ('concurrency', 'on', 'jobs')}
    event = (body.get('github') or {}).get('event_name') or 'push'
    return json.dumps({**whole, 'on': event, 'jobs': {name: kept}}).encode()


def context_of(body: Mapping[str, Any], told: Mapping[str, Any], run: int, name: str) -> Json:
    """`github`. There is no token in it: those of the services that GitHub has are not here."""
    given, workflow = body.get('github') or {}, body['workflow'].get('name') or body['path']
    return {**told['github_defaults'], **given, 'repository': body['repo'], 'workflow': workflow, 'run_id': str(run),
            'job': name, **told['github'], 'token': '', 'event': given.get('event') or {}}


def needs_of(body: Mapping[str, Any], told: Mapping[str, Any], name: str) -> Json:
    """`needs`: results and outputs of the jobs before."""
    names = job_in(body, name).get('needs') or []
    return {each: {'result': RESULTS.get(told['results'].get(each, ''), 0), 'outputs': told['outputs'].get(each) or {}}
            for each in ([names] if isinstance(names, str) else names)}


def task_of(body: Mapping[str, Any], told: Mapping[str, Any], lease: Lease, combination: Mapping[str, Any]) -> Any:
    """The task. It has no secrets: the hub knows none."""
    variables = {member: text_of(value) for member, value in (body.get('vars') or {}).items()}
    made = MESSAGES['Task'](id=lease.lease, workflow_payload=payload_of(body, lease.job, combination))
    made.vars.update(sendable(variables))
    made.context.update(sendable(context_of(body, told, lease.run, lease.job)))
    for name, need in sendable(needs_of(body, told, lease.job)).items():
        made.needs[name].result = need['result']
        made.needs[name].outputs.update(need['outputs'])
    return made


def sendable(value: Json) -> Json:
    """A value with a question mark for each character that UTF-8 does not have."""
    made: Json = json.loads(json.dumps(value, ensure_ascii=False).encode(errors='replace'))
    return made


def refusal_of(body: Mapping[str, Any], told: Mapping[str, Any], name: str) -> str:
    """Why a leg may not run: its environment is neither free nor approved, or it requires a secret. The empty text if it
    may."""
    job = job_in(body, name)
    said = job.get('environment')
    for secret in job.get(REQUIRED) or ():
        return f'jobs.{name}: the called workflow requires the secret {secret}, and no secret is sent by this protocol'
    environment = said.get('name') if isinstance(said, dict) else said
    if not said or told['is_approved'] or str(environment).lower() in told['free_environments']:
        return ''
    return f'jobs.{name}.environment: {environment} is neither approved nor free of approvals'


def title_of(step: Any) -> str:
    """The name of a step, as GitHub shows it."""
    if not isinstance(step, dict):
        return 'Run'
    what = step.get('uses') or str(step.get('run') or '').strip().partition('\n')[0]
    return str(step.get('name') or f'Run {what}')
