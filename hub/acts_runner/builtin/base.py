"""What all actions that the runner does itself have in common."""
from __future__ import annotations

from typing import TYPE_CHECKING, Any, Callable, Mapping, Protocol

if TYPE_CHECKING:
    from ..job import Job

UNKNOWN = '?'  # a value that is not known before the first step


class Call(Protocol):
    """Runs a process of an action, in a folder; a StepFailed if it fails."""

    def __call__(self, *words: str, cwd: str) -> None:
        """Runs it to its end."""


Post = Callable[['Job', Call], None]


class Builtin:
    """`takes` are the inputs that are looked at, `ignores` those that change nothing here."""

    takes: frozenset[str] = frozenset()
    ignores: frozenset[str] = frozenset()

    def taken(self, given: Mapping[str, Any]) -> dict[str, Any]:
        """The inputs that may change something."""
        return {name: value for name, value in given.items() if name not in self.ignores}

    def check(self, job: Job, given: Mapping[str, Any]) -> None:
        """A ValueError for what it can't do. Values that are not known yet are '?'."""
        for name in sorted(given.keys() - self.takes - self.ignores):
            if given[name] not in (None, '', False, 'false'):
                raise ValueError(f'this runner does not do its input {name}')

    def run(self, job: Job, given: Mapping[str, str], call: Call) -> dict[str, str]:
        """Does it, and gives its outputs."""
        raise NotImplementedError

    def post(self, job: Job, given: Mapping[str, str], outputs: Mapping[str, str]) -> Post | None:
        """What it does after the steps of the job, if that is anything."""
        return None


def is_true(value: Any) -> bool:
    """Whether an input says true."""
    return str(value).lower() == 'true'
