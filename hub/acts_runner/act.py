"""A leg that `act` (nektos/act) runs in place of this runner: a workflow of this one job and this one combination,
over a checkout of its commit."""
from __future__ import annotations

import json
import os
import shutil
from typing import TYPE_CHECKING, Any

from .builtin.checkout import Checkout
from .steps import Cancelled, StepFailed

if TYPE_CHECKING:
    from .job import Job


def faults(job: Job) -> list[str]:
    """What can't be done, in words."""
    if not shutil.which('act'):
        return ['act is not installed']
    if job.github.get('sha') and not job.options.mirrors:
        return ['nobody has said where repositories are: --mirrors is not given']
    return []


def workflow_of(job: Job) -> dict[str, Any]:
    """The workflow as JSON, which is YAML, too."""
    kept = {name: value for name, value in job.job.items() if name not in ('needs', 'if', 'strategy', 'concurrency')}
    if job.matrix:
        kept['strategy'] = {'matrix': {name: [value] for name, value in job.matrix.items()}}
    whole = {name: value for name, value in job.workflow.items() if name != 'concurrency'}
    return {**whole, 'on': job.github.get('event_name') or 'push', 'jobs': {job.name: kept}}


def run(job: Job) -> str:
    """How it ended."""
    call = job.caller({'late': float('inf')}, job.frame, job.env, job.step_folder())
    place = os.path.join(job.temp, 'act')
    os.makedirs(place)
    paths = {name: os.path.join(place, name) for name in ('workflow.yml', 'event.json', 'secrets')}
    texts = {'workflow.yml': json.dumps(workflow_of(job)), 'event.json': json.dumps(job.github.get('event') or {}),
             'secrets': ''.join(f'{name}={json.dumps(value)}\n' for name, value in job.secrets.items())}
    for name, text in texts.items():
        with open(paths[name], 'w', encoding='utf-8', opener=lambda path, flags: os.open(path, flags, 0o600)) as file:
            file.write(text)
    try:
        if job.github.get('sha'):
            Checkout().run(job, {}, call)
        event = job.github.get('event_name') or 'push'
        call('act', event, '--workflows', paths['workflow.yml'], '--job', job.name, '--eventpath', paths['event.json'],
             '--secret-file', paths['secrets'], *job.options.act_option, cwd=job.workspace)
    except Cancelled:
        return 'cancelled'
    except StepFailed as fault:
        job.log.write(f'the leg fails: {fault}')
        return 'failure'
    return 'success'
