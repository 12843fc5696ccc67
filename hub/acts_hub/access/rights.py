"""Rights, in which repositories, and whose."""
from __future__ import annotations

import enum
import re
from dataclasses import dataclass

PATTERN = re.compile(r'\*|[A-Za-z0-9_.-]{1,100}/(\*|[A-Za-z0-9_.-]{1,100})')


class Right(enum.Enum):
    """What a token is for. Each of the first three includes those before it; RUNNER stands alone."""

    READ = 'read'
    WRITE = 'write'
    ADMIN = 'admin'
    RUNNER = 'runner'


RANK = {Right.READ: 1, Right.WRITE: 2, Right.ADMIN: 3}


def matches(patterns: tuple[str, ...], repository: str) -> bool:
    """Whether a repository, without regard to case, is one of `octo/hello`, `octo/*` or `*`."""
    name = repository.lower()
    owner = name.partition('/')[0]
    return any(pattern == '*' or pattern.lower() in (name, f'{owner}/*') for pattern in patterns)


@dataclass(frozen=True, slots=True)
class Identity:
    """Whose request it is. `is_browser` is true of a cookie or a proxy's header, which need a form's token to act."""

    name: str
    right: Right
    repositories: tuple[str, ...]
    token_id: int
    prefix: str = ''
    labels: tuple[str, ...] = ()
    is_browser: bool = False

    def may(self, right: Right, repository: str | None = None) -> bool:
        """Whether it has a right, in a repository; without one, for what is of all repositories (to read: of any)."""
        if right is Right.RUNNER or self.right is Right.RUNNER:
            allowed = right is self.right
        else:
            allowed = RANK[self.right] >= RANK[right]
        if not allowed:
            return False
        if repository is None:
            return right in (Right.READ, Right.RUNNER) or '*' in self.repositories
        return matches(self.repositories, repository)

    def may_claim(self, name: str, labels: tuple[str, ...]) -> bool:
        """Whether a runner of this name may ask for legs with these labels, without regard to case."""
        own = {label.lower() for label in self.labels}
        return self.right is Right.RUNNER and name.startswith(self.prefix) and all(label.lower() in own for label in labels)
