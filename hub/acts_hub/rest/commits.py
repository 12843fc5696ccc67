"""Which runs count for a commit."""
from __future__ import annotations

import re

from ..service.mirror import Mirror, Run

SHA = re.compile(r'[0-9a-f]{40}|[0-9a-f]{64}')
MAX_REF = 1024
MAX_RUNS = 200


def commit_of(mirror: Mirror, repository: str, ref: str) -> str | None:
    """The commit that a ref names: itself, or that of the latest run of a branch or tag."""
    if SHA.fullmatch(ref.lower()):
        return ref.lower()
    if len(ref) > MAX_REF:
        return None
    runs = mirror.select(repository, branch=ref.removeprefix('refs/').removeprefix('heads/').removeprefix('tags/'))
    return runs[-1].facts.sha if runs else None


def latest_at(mirror: Mirror, repository: str, sha: str) -> list[Run]:
    """The latest run of each workflow and event at a commit, newest first; of a pull request at its head."""
    found: dict[tuple[str, str], Run] = {}
    for run in reversed(mirror.select(repository, sha=sha)):
        found.setdefault((run.row.path, run.row.event), run)
    return list(found.values())[:MAX_RUNS]
