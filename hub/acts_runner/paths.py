"""Paths of files, as this machine has them, as a container sees them, and as the repository names them."""
from __future__ import annotations

import os
from dataclasses import dataclass

Pairs = tuple[tuple[str, str], ...]  # of folders


def moved(text: str, pairs: Pairs) -> str:
    """A path below the first folder of a pair, as one below the second; any other text as it is."""
    for old, new in pairs:
        if text == old or text.startswith(old + '/'):
            return new + text[len(old):]
    return text


@dataclass(frozen=True)
class Paths:
    """The workspace, and the folders that a container has elsewhere: outside, and inside."""

    workspace: str
    mounts: Pairs = ()

    def inside(self, text: str) -> str:
        """A text as what runs in the container is given it."""
        return moved(text, self.mounts)

    def outside(self, text: str) -> str:
        """A path that the container names, as this machine has it. What it names from the workspace is below that."""
        there = moved(text, tuple((inside, outside) for outside, inside in self.mounts))
        return os.path.normpath(os.path.join(self.workspace, there))

    def of_repository(self, text: str) -> str:
        """A path as annotations have it: without the workspace, if it is below that."""
        return os.path.relpath(there, self.workspace) if self.has(there := self.outside(text)) else text

    def has(self, path: str) -> bool:
        """Whether a path of this machine is below the workspace."""
        return path.startswith(self.workspace + '/')
