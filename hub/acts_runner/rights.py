"""Which secrets a leg has."""
from __future__ import annotations

import json
import os
from typing import Any, Mapping


def is_of_a_fork(github: Mapping[str, Any], repository: str) -> bool:
    """Whether it is a pull request that does not come from the repository itself, as far as the event shows it."""
    if github.get('event_name') != 'pull_request':
        return False
    found: Any = github.get('event')
    for name in ('pull_request', 'head', 'repo', 'full_name'):
        found = found.get(name) if isinstance(found, dict) else None
    return bool(found != repository)


def environment_of(job: Mapping[str, Any]) -> str:
    """The name of the environment of a job; the empty text if it has none, or one that an expression names."""
    said = job.get('environment')
    name = said.get('name') if isinstance(said, dict) else said
    return name if isinstance(name, str) and '${{' not in name else ''


def secrets_in(path: str | None, environment: str) -> dict[str, str]:
    """The secrets of this runner: a JSON object of texts, in a file that nobody else may read. Its member
    `environments` may have more for jobs of an environment."""
    if not path:
        return {}
    if os.stat(path).st_mode & 0o077:
        raise ValueError(f'others may read {path}: chmod 600')
    with open(path, encoding='utf-8') as file:
        found = json.load(file)
    if not isinstance(found, dict):
        raise ValueError(f'{path} is no JSON object of texts')
    more = found.pop('environments', None) or {}
    found.update((more.get(environment) or {}) if isinstance(more, dict) else {})
    if not all(isinstance(value, str) for value in found.values()):
        raise ValueError(f'{path} is no JSON object of texts')
    return found
