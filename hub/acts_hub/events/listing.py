"""The workflows of each repository's default branch, also those that never had a run."""
from __future__ import annotations

import asyncio
from dataclasses import dataclass
from typing import Any, Callable, Mapping

from acts_workflow import reading
from acts_workflow.filters import triggers_of
from acts_workflow.values import Fault, text_of

from .mirrors import Mirror
from .occasions import default_ref
from .settings import Repository


@dataclass(frozen=True)
class Listed:
    """A workflow: its file, its name or an empty text, what is written there, and its `on` by the names of events."""

    path: str
    name: str
    text: str
    on: Mapping[str, Any]


def listed(texts: Mapping[str, str]) -> tuple[Listed, ...]:
    """The workflows in files. One that can't be read has no name and no events."""
    made = []
    for path, text in texts.items():
        try:
            workflow = reading.read(text)
            name = workflow.get('name')
            shown = text_of(name) if isinstance(name, (str, int)) else ''
            made.append(Listed(path, shown, text, triggers_of(workflow.get('on'))))
        except Fault:
            made.append(Listed(path, '', text, {}))
    return tuple(made)


class Listing:
    """Kept in memory, and read again when a default branch moves. `version` moves with it."""

    def __init__(self, branch_of: Callable[[str], str]) -> None:
        self.branch_of = branch_of
        self.version = 0
        self.kept: dict[str, tuple[str, tuple[Listed, ...]]] = {}

    def of(self, repository: str) -> tuple[Listed, ...]:
        """The workflows of a repository."""
        return self.kept.get(repository.lower(), ('', ()))[1]

    async def read(self, repository: Repository, mirror: Mirror) -> tuple[Listed, ...]:
        """The same, read again if the default branch has moved."""
        ref, key = await default_ref(mirror, self.branch_of(repository.name)), repository.name.lower()
        commit = await mirror.commit(ref) if await mirror.has(ref) else ''
        if self.kept.get(key, (None,))[0] != commit:
            texts = await mirror.texts(commit) if commit else {}
            self.kept[key] = commit, await asyncio.to_thread(listed, texts)
            self.version += 1
        return self.kept[key][1]
