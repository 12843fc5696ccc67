"""The workflows in the default branch of a repository's mirror: their names, and the inputs of those for hands."""
from __future__ import annotations

import asyncio
import time
from dataclasses import dataclass
from typing import TYPE_CHECKING

from acts_workflow.filters import triggers_of
from acts_workflow.reading import read
from acts_workflow.values import Fault

from ..events.mirrors import GitFault, Mirror, NoCommit, TooSlow
from .inputs import Input, declared

if TYPE_CHECKING:
    from ..hub import Hub

SECONDS = 2.0  # for which the commit of a branch is not asked for again
MOST_KEPT = 200
EVENT = 'workflow_dispatch'


@dataclass(frozen=True)
class WorkflowFile:
    """A workflow; `inputs` is None if it can't be started by hand."""

    path: str
    name: str
    inputs: tuple[Input, ...] | None


@dataclass(frozen=True)
class Kept:
    """What was read of a commit, and when its branch was last looked at."""

    at: float
    commit: str
    files: dict[str, WorkflowFile]


class WorkflowFiles:
    """The workflows of all repositories that have a mirror."""

    def __init__(self, hub: Hub) -> None:
        self.hub = hub
        self.kept: dict[str, Kept] = {}
        self.lock = asyncio.Lock()

    async def of(self, repository: str) -> dict[str, WorkflowFile]:
        """The workflows of a repository by their paths; none without a mirror."""
        events, name = self.hub.events, repository.lower()
        known = events.settings.repository(name)
        mirror = events.handler.mirror(known) if known is not None else None
        if known is None or mirror is None:
            return {}
        async with self.lock:
            found = self.kept.get(name)
            if found is None or time.monotonic() - found.at > SECONDS:
                found = await self._look(mirror, known.name, found)
                if len(self.kept) >= MOST_KEPT:
                    self.kept.clear()
                self.kept[name] = found
        return found.files

    async def _look(self, mirror: Mirror, repository: str, before: Kept | None) -> Kept:
        try:
            branch = await mirror.default_branch() or f'refs/heads/{self.hub.config.default_branch(repository)}'
            commit = await mirror.commit(branch)
            if before is not None and before.commit == commit:
                return Kept(time.monotonic(), commit, before.files)
            texts = await mirror.texts(commit)
        except (NoCommit, GitFault, TooSlow, OSError):
            return Kept(time.monotonic(), '', {})
        return Kept(time.monotonic(), commit, {path: file_of(path, text) for path, text in sorted(texts.items())})


def file_of(path: str, text: str) -> WorkflowFile:
    """What a workflow's file says. One with a fault can't be started, and is named by its path."""
    try:
        tree = read(text)
        triggers = triggers_of(tree.get('on'))
    except Fault:
        return WorkflowFile(path, path, None)
    name = tree.get('name')
    inputs = declared((triggers[EVENT] or {}).get('inputs')) if EVENT in triggers else None
    return WorkflowFile(path, name if isinstance(name, str) and name else path, inputs)
