"""Tokens: 256 random bits, shown once, kept as digests."""
from __future__ import annotations

import base64
import binascii
import hashlib
import hmac
import json
import re
import secrets
from dataclasses import dataclass
from typing import Any

from ..ledger.database import Database
from ..times import now
from .rights import PATTERN, Identity, Right

PREFIX = 'acts_'
LABEL = re.compile(r'[!-+\--~]{1,64}')
RUNNER_NAME = re.compile(r'[A-Za-z0-9_.-]{0,40}')
MAX_TOKEN = 256


class TokenError(Exception):
    """A token can't be made so, in words."""


@dataclass(frozen=True, slots=True)
class Token:
    """What is kept of a token."""

    id: int
    digest: bytes
    name: str
    right: Right
    repositories: tuple[str, ...]
    prefix: str
    labels: tuple[str, ...]
    created_at: int
    expires_at: int | None
    revoked_at: int | None

    def holds(self, at: int) -> bool:
        """Whether it may still be used."""
        return self.revoked_at is None and (self.expires_at is None or at < self.expires_at)

    def identity(self, is_browser: bool = False) -> Identity:
        """Whom it stands for."""
        return Identity(self.name, self.right, self.repositories, self.id, self.prefix, self.labels, is_browser)


def digest_of(secret: str) -> bytes:
    """What is kept of a secret of 256 random bits."""
    return hashlib.sha256(secret.encode('utf-8', 'surrogateescape')).digest()


def secret_of(header: str | None) -> str | None:
    """The token in a header `Authorization`: `Bearer T`, `token T`, or of `Basic` the password."""
    kind, _, rest = (header or '').strip().partition(' ')
    rest = rest.strip()
    if kind.lower() == 'basic' and len(rest) <= 4 * MAX_TOKEN:
        try:
            rest = base64.b64decode(rest, validate=True).decode('utf-8', 'surrogateescape').partition(':')[2]
        except (binascii.Error, ValueError):
            return None
    elif kind.lower() not in ('bearer', 'token'):
        return None
    return rest if 0 < len(rest) <= MAX_TOKEN else None


COLUMNS = 'id, digest, name, right, repositories, prefix, labels, created_at, expires_at, revoked_at'


def _token(row: tuple[Any, ...]) -> Token:
    number, digest, name, right, repositories, prefix, labels, *times = row
    return Token(number, bytes(digest), name, Right(right), tuple(json.loads(repositories)), prefix, tuple(json.loads(labels)), *times)


class Tokens:
    """The tokens of a ledger. What another process adds or revokes counts from the next request on."""

    def __init__(self, database: Database) -> None:
        self._database = database
        self._known: dict[bytes, Token] = {}
        self._by_id: dict[int, Token] = {}
        self._seen: tuple[Any, ...] = ()

    def _fresh(self) -> None:
        seen = self._database.read("select value from meta where name = 'tokens'")
        if seen and (seen[0] != self._seen):
            rows = self._database.read(f'select {COLUMNS} from tokens')
            self._known = {token.digest: token for token in map(_token, rows)}
            self._by_id = {token.id: token for token in self._known.values()}
            self._seen = seen[0]

    def verify(self, secret: str) -> Token | None:
        """The token that a secret is; None if it is none, or was revoked."""
        self._fresh()
        digest = digest_of(secret)
        found = self._known.get(digest)
        if found is None or not hmac.compare_digest(found.digest, digest) or not found.holds(now()):
            return None
        return found

    def by_id(self, number: int) -> Token | None:
        """A token that may still be used."""
        self._fresh()
        found = self._by_id.get(number)
        return found if found is not None and found.holds(now()) else None

    def by_name(self, name: str) -> Token | None:
        """The newest token of a person of this name, whatever its case."""
        self._fresh()
        fitting = [token for token in self._by_id.values()
                   if token.right is not Right.RUNNER and token.name.lower() == name.lower() and token.holds(now())]
        return sorted(fitting, key=lambda token: token.id)[-1] if fitting else None

    def all(self) -> list[Token]:
        """All tokens, also revoked ones."""
        self._fresh()
        return sorted(self._by_id.values(), key=lambda token: token.id)

    def create(self, name: str, right: Right, repositories: tuple[str, ...] = ('*',), prefix: str = '', labels: tuple[str, ...] = (),
               expires_at: int | None = None) -> str:
        """Makes a token, and gives its secret, which is kept nowhere."""
        check(name, right, repositories, prefix, labels)
        secret = PREFIX + secrets.token_urlsafe(32)
        self._database.write_now([(
            'insert into tokens (digest, name, right, repositories, prefix, labels, created_at, expires_at) values (?, ?, ?, ?, ?, ?, ?, ?)',
            (digest_of(secret), name, right.value, json.dumps(repositories), prefix, json.dumps(labels), now(), expires_at))], 5)
        return secret

    def revoke(self, which: str) -> list[Token]:
        """Revokes the token of this id, or all of this name; gives those that it revoked."""
        found = [token for token in self.all() if token.revoked_at is None and which in (str(token.id), token.name)]
        self._database.write_now([
            *(('update tokens set revoked_at = ? where id = ?', (now(), token.id)) for token in found),
            *(('delete from sessions where token = ?', (token.id,)) for token in found)], 5)
        return found


def check(name: str, right: Right, repositories: tuple[str, ...], prefix: str, labels: tuple[str, ...]) -> None:
    """Refuses what no token may be."""
    if not re.fullmatch(r'[A-Za-z0-9][A-Za-z0-9_.@-]{0,63}', name):
        raise TokenError(f'{name!r} is no name: 1 to 64 letters, digits and _ . @ - are')
    for pattern in repositories:
        if not PATTERN.fullmatch(pattern):
            raise TokenError(f'{pattern!r} is no pattern: octo/hello, octo/* and * are')
    if not repositories:
        raise TokenError('a token needs a repository: octo/hello, octo/* or *')
    if right is not Right.RUNNER and (prefix or labels):
        raise TokenError('a prefix and labels are for tokens of runners')
    if right is Right.RUNNER and (not labels or not RUNNER_NAME.fullmatch(prefix)):
        raise TokenError('a token of runners needs labels, and a prefix of letters, digits and _ . -')
    for label in labels:
        if not LABEL.fullmatch(label):
            raise TokenError(f'{label!r} is no label: 1 to 64 printable characters of ASCII without the comma are')
