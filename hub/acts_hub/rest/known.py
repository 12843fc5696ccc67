"""Workflows that are known: those that have runs, and those of the default branch."""
from __future__ import annotations

import json
from dataclasses import dataclass
from typing import TYPE_CHECKING

from ..events.dispatch import full_ref
from ..events.mirrors import COMMIT, GitFault, NoCommit, TooSlow
from ..events.occasions import Malformed
from ..service.mirror import Run

if TYPE_CHECKING:
    from ..hub import Hub

MAX_REF = 1024


@dataclass(frozen=True)
class Workflow:
    """A workflow of a repository; `latest` is its newest run, `text` its file in the default branch."""

    path: str
    name: str
    created_at: int | None
    updated_at: int | None
    latest: Run | None
    text: str | None = None


class Workflows:
    """The workflows of each repository, made once for each version of the mirror and of the default branches."""

    def __init__(self, hub: Hub) -> None:
        self.hub = hub
        self._version = -1, -1
        self._kept: dict[str, list[Workflow]] = {}

    def of(self, repository: str) -> list[Workflow]:
        """The workflows of a repository, in the order of their names."""
        version = self.hub.mirror.version, self.hub.events.listing.version
        if self._version != version:
            self._version, self._kept = version, {}
        key = repository.lower()
        if key not in self._kept:
            self._kept[key] = self._found(repository)
        return self._kept[key]

    def _found(self, repository: str) -> list[Workflow]:
        runs = list(self.hub.mirror.of(repository))
        latest = {run.row.path: run for run in runs}
        first = {run.row.path: run for run in reversed(runs)}
        texts = {one.path: one for one in self.hub.events.workflows(repository)}
        found = [Workflow(path, run.row.workflow, first[path].created_at, run.created_at, run,
                          texts[path].text if path in texts else None)
                 for path, run in latest.items()]
        found += [Workflow(path, one.name, None, None, None, one.text)
                  for path, one in texts.items() if path not in latest]
        return sorted(found, key=lambda one: (one.name or one.path, one.path))

    async def text(self, repository: str, path: str, ref: str) -> bytes | None:
        """The file of a workflow at a ref, by default of the default branch; else as JSON of its latest run."""
        if ref not in ('', self.hub.config.default_branch(repository)):
            found = await self._at(repository, path, ref)
            return None if found is None else found.encode()
        known = next((one for one in self.of(repository) if one.path == path), None)
        if known is None or known.text is not None:
            return known.text.encode() if known and known.text is not None else None
        body = await self.hub.mirror.body(known.latest.row.run) if known.latest else None
        if body is None:
            return None
        return (json.dumps(json.loads(body).get('workflow'), indent=2, ensure_ascii=False) + '\n').encode()

    async def _at(self, repository: str, path: str, ref: str) -> str | None:
        events = self.hub.events
        known = events.settings.repository(repository)
        mirror = events.handler.mirror(known) if known is not None else None
        if mirror is None or len(ref) > MAX_REF:
            return None
        try:
            commit = await mirror.commit(ref if COMMIT.fullmatch(ref) else await full_ref(mirror, ref))
            return (await mirror.texts(commit)).get(path)
        except (NoCommit, GitFault, TooSlow, Malformed):
            return None
