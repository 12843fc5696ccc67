"""Numbers that GitHub's API has and acts has not: of jobs, workflows, runners, users, repositories."""
from __future__ import annotations

import base64
import hashlib
from typing import NamedTuple

MAX_NUMBER = 2 ** 53 - 1
MAX_DIGITS = 16


class JobNumber(NamedTuple):
    """What the number of a job stands for: a leg of an attempt of a run."""

    run: int
    attempt: int
    job: int
    leg: int

    @property
    def value(self) -> int:
        """The number itself; it has at most 53 bits for runs below 2^27."""
        return self.run << 26 | self.attempt << 16 | self.job << 8 | self.leg

    @classmethod
    def of(cls, value: int) -> JobNumber:
        """The parts of a number."""
        return cls(value >> 26, value >> 16 & 1023, value >> 8 & 255, value & 255)


def number_of(*texts: str) -> int:
    """47 bits of a digest, for what has a name alone."""
    return int.from_bytes(hashlib.sha256('\0'.join(texts).encode()).digest()[:6], 'big') >> 1


def node_of(kind: str, name: object) -> str:
    """An opaque id, as GraphQL's `node` takes it."""
    return base64.urlsafe_b64encode(f'{kind}:{name}'.encode()).decode().rstrip('=')


def named_by(node: str) -> tuple[str, str] | None:
    """The kind and the name of an opaque id; None if it is none."""
    if not node.isascii() or len(node) > 1024:
        return None
    try:
        text = base64.b64decode(node + '=' * (-len(node) % 4), b'-_', validate=True).decode()
    except ValueError:
        return None
    kind, colon, name = text.partition(':')
    return (kind, name) if colon else None


def decimal(text: str) -> int | None:
    """A number as texts of addresses have it: digits, at most 16; None if it is none."""
    if not (text.isascii() and text.isdigit() and len(text) <= MAX_DIGITS):
        return None
    value = int(text)
    return value if value <= MAX_NUMBER else None
