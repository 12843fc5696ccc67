"""Sign-ins of browsers: random secrets in cookies, kept as digests."""
from __future__ import annotations

import secrets
from collections import OrderedDict

from aiohttp import web

from ..ledger.database import Database
from ..times import now
from .tokens import Token, Tokens, digest_of

DAY = 86_400_000
MAX_SESSIONS = 10_000
MAX_COOKIE = 100


class Sessions:
    """A session ends when it is signed out of, when its days are over, and when its token is revoked."""

    def __init__(self, database: Database, tokens: Tokens, days: int, is_secure: bool) -> None:
        self._database, self._tokens = database, tokens
        self.days, self.is_secure = days, is_secure
        self.cookie = '__Host-acts_session' if is_secure else 'acts_session'
        self._known: OrderedDict[bytes, tuple[int, int]] = OrderedDict()    # digest -> token and end; an end of 0 says that it has ended

    def begin(self, token: Token) -> str:
        """A new session; gives the secret of its cookie."""
        secret = secrets.token_urlsafe(32)
        digest, ends = digest_of(secret), now() + self.days * DAY
        self._remember(digest, (token.id, ends))
        self._database.write_all([
            ('insert or replace into sessions (digest, token, created_at, expires_at) values (?, ?, ?, ?)', (digest, token.id, now(), ends)),
            ('delete from sessions where expires_at < ?', (now(),))])
        return secret

    def _remember(self, digest: bytes, session: tuple[int, int]) -> None:
        self._known[digest] = session
        self._known.move_to_end(digest)
        if len(self._known) > MAX_SESSIONS:
            self._known.popitem(last=False)

    def secret(self, request: web.Request) -> str | None:
        """The secret in a request's cookie."""
        found = request.cookies.get(self.cookie, '')
        return found if 0 < len(found) <= MAX_COOKIE else None

    def token(self, request: web.Request) -> Token | None:
        """The token that a request has signed in with."""
        secret = self.secret(request)
        if secret is None:
            return None
        digest = digest_of(secret)
        found = self._known.get(digest)
        if found is None:
            rows = self._database.read('select token, expires_at from sessions where digest = ?', (digest,))
            if not rows:
                return None
            found = rows[0][0], rows[0][1]
            self._remember(digest, found)
        return self._tokens.by_id(found[0]) if now() < found[1] else None

    def end(self, request: web.Request) -> None:
        """Ends a request's session."""
        secret = self.secret(request)
        if secret is not None:
            digest = digest_of(secret)
            self._remember(digest, (0, 0))
            self._database.write('delete from sessions where digest = ?', (digest,))

    def set_cookie(self, response: web.StreamResponse, secret: str) -> None:
        """Gives a browser its cookie."""
        response.set_cookie(self.cookie, secret, max_age=self.days * DAY // 1000, path='/', secure=self.is_secure, httponly=True, samesite='Lax')

    def drop_cookie(self, response: web.StreamResponse) -> None:
        """Takes it away."""
        response.set_cookie(self.cookie, '', max_age=0, path='/', secure=self.is_secure, httponly=True, samesite='Lax')
