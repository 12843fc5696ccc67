"""What of an admitted body is kept: what lists and pages show of an event, and the names of jobs."""
from __future__ import annotations

import dataclasses
import re
from collections.abc import Mapping
from dataclasses import dataclass, field
from typing import Any

MAX_TEXT = 300
MAX_MESSAGE = 10_000


@dataclass(frozen=True, slots=True)
class Facts:
    """`matrix_names` has the variables of each job's matrix, in the order of the file; `event_at` is the time that the payload names."""

    sha: str | None = None
    branch: str | None = None
    actor: str | None = None
    title: str | None = None
    message: str | None = None
    author: str | None = None
    author_email: str | None = None
    pull_number: int | None = None
    pull_title: str | None = None
    base_ref: str | None = None
    head_repository: str | None = None
    job_names: Mapping[str, str] = field(default_factory=dict)
    matrix_names: Mapping[str, tuple[str, ...]] = field(default_factory=dict)
    run_name: str | None = None
    event_at: str | None = None

    def json(self) -> dict[str, Any]:
        """As it is kept: without what is not known."""
        return {name: value for name, value in ((one.name, getattr(self, one.name)) for one in dataclasses.fields(self)) if value}

    @classmethod
    def of(cls, json: Mapping[str, Any]) -> Facts:
        """From what was kept."""
        known = {name: json[name] for name in FIELDS if name in json}
        if 'matrix_names' in known:
            known['matrix_names'] = {job: tuple(names) for job, names in known['matrix_names'].items()}
        return cls(**known)


FIELDS = tuple(one.name for one in dataclasses.fields(Facts))


def _at(value: Any, *names: str) -> Any:
    for name in names:
        value = value.get(name) if isinstance(value, dict) else None
    return value


def _text(value: Any, limit: int = MAX_TEXT) -> str | None:
    return value[:limit] if isinstance(value, str) and value else None


def _first(*values: Any) -> str | None:
    return next((text for text in map(_text, values) if text), None)


def facts_of(body: Mapping[str, Any]) -> Facts:
    """From an admitted body, whose members under `github` may be anything."""
    github = _at(body, 'github') or {}
    event = _at(github, 'event') or {}
    pull, commit = _at(event, 'pull_request') or {}, _at(event, 'head_commit') or {}
    ref = _text(_at(github, 'ref')) or ''
    message = _text(_at(commit, 'message'), MAX_MESSAGE)
    number = _at(pull, 'number')
    jobs = _at(body, 'workflow', 'jobs')
    jobs = jobs if isinstance(jobs, dict) else {}
    return Facts(
        sha=_first(_at(pull, 'head', 'sha'), _at(github, 'sha')),
        branch=_first(_at(github, 'head_ref'), _at(github, 'ref_name'), re.sub('^refs/(heads|tags)/', '', ref)),
        actor=_first(_at(github, 'actor'), _at(event, 'sender', 'login')),
        title=_first(_at(pull, 'title'), message.partition('\n')[0] if message else None),
        message=message, author=_text(_at(commit, 'author', 'name')), author_email=_text(_at(commit, 'author', 'email')),
        pull_number=number if isinstance(number, int) and not isinstance(number, bool) and 0 < number < 1 << 53 else None,
        pull_title=_text(_at(pull, 'title')), base_ref=_first(_at(github, 'base_ref'), _at(pull, 'base', 'ref')),
        head_repository=_text(_at(pull, 'head', 'repo', 'full_name')),
        job_names={job: name for job, name in ((job, _text(_at(given, 'name'))) for job, given in jobs.items()) if name},
        matrix_names={job: names for job, names in ((job, _matrix(given)) for job, given in jobs.items()) if names},
        run_name=_text(_at(body, 'workflow', 'run-name')),
        event_at=_first(_at(pull, 'updated_at'), _at(commit, 'timestamp')))


def _matrix(job: Any) -> tuple[str, ...]:
    """The names of a matrix's variables, then those that only `include` has."""
    matrix = _at(job, 'strategy', 'matrix')
    if not isinstance(matrix, dict):
        return ()
    names = [name for name in matrix if name not in ('include', 'exclude')]
    include = matrix.get('include')
    for one in include if isinstance(include, list) else []:
        names += [name for name in one if name not in names] if isinstance(one, dict) else []
    return tuple(names)
