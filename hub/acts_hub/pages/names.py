"""Names as GitHub writes them: legs, branches, workflows, titles."""
from __future__ import annotations

import re
from urllib.parse import quote

from ..rest.legs import ordered
from ..rest.names import leg_name as rest_name
from ..rest.numbers import JobNumber
from ..service.mirror import Run
from ..service.models import Job, Leg

def leg_name(run: Run, job: Job, leg: Leg) -> str:
    """The name of a leg: `test (20, linux)`, or what the name of the job says of its matrix."""
    return rest_name(job.name, ordered(leg.combination, run.facts.matrix_names.get(job.id, ())))


def job_name(job: Job) -> str:
    """The name of a job with all its legs."""
    if '${{' not in job.name:
        return job.name
    return re.sub(r'\s*\(?\s*\$\{\{.*?\}\}\s*\)?', '', job.name).strip(' ,-') or job.id


def is_matrix(job: Job) -> bool:
    """Whether a job has a matrix, as far as its legs show it."""
    return len(job.legs) > 1 or any(leg.combination for leg in job.legs)


def title_of(run: Run) -> str:
    """The title of a run: its run-name, that of its pull request, the first line of its commit, or its workflow."""
    facts = run.facts
    return facts.run_name or facts.title or workflow_of(run)


def workflow_of(run: Run) -> str:
    """The name of the workflow of a run, else its path."""
    return run.row.workflow or run.row.path


def file_of(path: str) -> str:
    """The file name of a workflow."""
    return path.rpartition('/')[2]


def repository_link(repository: str) -> str:
    """The address of a repository's runs."""
    return f'/{quote(repository)}/actions'


def workflow_link(repository: str, path: str) -> str:
    """The address of a workflow's runs: by its file name where it lies where GitHub looks, else by its whole path."""
    name = file_of(path) if path == f'.github/workflows/{file_of(path)}' else path
    return f'{repository_link(repository)}/workflows/{quote(name)}'


def run_link(run: Run) -> str:
    """The address of a run."""
    return f'{repository_link(run.row.repository)}/runs/{run.row.run}'


def leg_link(run: Run, attempt: int, job: int, leg: int) -> str:
    """The address of a leg's log."""
    return f'{run_link(run)}/job/{JobNumber(run.row.run, attempt, job, leg).value}'
