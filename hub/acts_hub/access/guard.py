"""Access as a whole: whose a request is, how often they may, and sign-in."""
from __future__ import annotations

import math
import secrets
from collections import OrderedDict
from collections.abc import Mapping
from typing import Any

from aiohttp import web

from ..config import Config
from ..ledger.database import Database
from ..ledger.runs import Meta
from .forms import SAFE, form_token, is_own_origin, is_same, sent_token
from .identity import Identity, Right, identity_of
from .peers import client_of, is_among, peer_of
from .rates import Rates
from .sessions import Sessions
from .tokens import Token, Tokens, secret_of

MAX_GOOD = 20_000


def too_many(seconds: float, words: str) -> web.HTTPTooManyRequests:
    """429, with when to try again."""
    return web.HTTPTooManyRequests(text=words, headers={'Retry-After': str(max(1, math.ceil(seconds)))})


class Access:
    """Tokens, sessions, forms and rates."""

    def __init__(self, config: Config, database: Database) -> None:
        self.config = config
        given = config.access
        self.tokens = Tokens(database)
        self.sessions = Sessions(database, self.tokens, given.session_days, config.is_secure)
        self.wrong = Rates(given.wrong_tokens_a_minute / 60, given.wrong_tokens_a_minute)
        self.requests = Rates(given.requests_a_second, given.requests_burst if given.requests_a_second else 0)
        self._database, self._meta = database, Meta(database)
        self._good: OrderedDict[tuple[str, int], None] = OrderedDict()
        self._key: bytes | None = None

    # whose a request is

    def identify(self, request: web.Request) -> Identity | None:
        """Whose request it is: by a token, by a session's cookie, or by the header of a proxy. 429 for too many."""
        client = client_of(request, self.config.access.trusted_forwarders)
        found = self._by_header(request, client) if 'Authorization' in request.headers else self._by_browser(request)
        wait = self.requests.take(found.token_id if found else client)
        if wait:
            raise too_many(wait, 'You have made too many requests. Wait before you make more.')
        return found

    def _by_header(self, request: web.Request, client: str) -> Identity | None:
        secret = secret_of(request.headers.get('Authorization'))
        token = self._verified(secret, client) if secret else None
        return token.identity() if token else None

    def of_secret(self, request: web.Request, secret: str) -> Identity | None:
        """Whose token a secret is that came in another way than by the header; 429 for too many wrong ones."""
        token = self._verified(secret, client_of(request, self.config.access.trusted_forwarders)) if secret else None
        return token.identity() if token else None

    def _verified(self, secret: str, client: str) -> Token | None:
        """The token of a secret. A client that has sent too many wrong ones waits, but for tokens that were right from there before."""
        token = self.tokens.verify(secret)
        if token is None:
            wait = self.wrong.take(client)
        else:
            wait = 0.0 if (client, token.id) in self._good else self.wrong.wait(client)
        if wait:
            raise too_many(wait, 'Too many wrong tokens came from your address. Wait before you try again.')
        if token is not None:
            self._good[client, token.id] = None
            self._good.move_to_end((client, token.id))
            if len(self._good) > MAX_GOOD:
                self._good.popitem(last=False)
        return token

    def _by_browser(self, request: web.Request) -> Identity | None:
        token = self.sessions.token(request)
        if token is None and self.is_from_proxy(request):
            names: list[str] = request.headers.getall(self.config.access.proxy_header, [])
            token = self.tokens.by_name(names[0].strip()) if len(names) == 1 else None
        return token.identity(is_browser=True) if token is not None and token.right is not Right.RUNNER else None

    def is_from_proxy(self, request: web.Request) -> bool:
        """Whether a request comes from an address whose header of a name is believed."""
        given = self.config.access
        return bool(given.proxy_header) and is_among(peer_of(request), given.proxy_addresses)

    # forms

    def _secret(self) -> bytes:
        """The hub's own secret, kept over restarts."""
        if self._key is None:
            kept = self._meta.get('forms')
            self._key = bytes.fromhex(kept) if kept else secrets.token_bytes(32)
            if not kept:
                self._database.write(*self._meta.set('forms', self._key.hex()))
        return self._key

    def form_token(self, request: web.Request) -> str:
        """The token that forms for this request carry in the field `form_token`."""
        secret = self.sessions.secret(request)
        if secret is not None and self.sessions.token(request) is not None:
            return form_token(self._secret(), f'session {secret}')
        found = identity_of(request)
        return form_token(self._secret(), f'name {found.name}') if found is not None and found.is_browser else ''

    async def check(self, request: web.Request) -> None:
        """Refuses what a browser was made to send by another site: 403. Credentials that a browser was told once are sent by it anywhere."""
        found = identity_of(request)
        if request.method in SAFE or found is None:
            return
        is_forged = not is_own_origin(request, self.config.url)
        if not is_forged and found.is_browser:
            wanted = self.form_token(request)
            is_forged = not wanted or not is_same(await sent_token(request), wanted)
        if is_forged:
            raise web.HTTPForbidden(text='The form was not sent by a page of this hub, or is of another sign-in. Open the page again.')

    async def check_form(self, request: web.Request) -> Mapping[str, Any]:
        """What a form sent; its token was checked before."""
        return await request.post()

    # sign-in

    def has_session(self, request: web.Request) -> bool:
        """Whether a request has signed in by a cookie."""
        return self.sessions.token(request) is not None

    def sign_in(self, request: web.Request, response: web.StreamResponse, secret: str) -> Identity | None:
        """Signs in with a token: the answer gets a cookie. None if it is no token of a person; 429 after too many wrong ones."""
        if not is_own_origin(request, self.config.url):
            raise web.HTTPForbidden(text='The form was not sent by a page of this hub.')
        token = self._verified(secret.strip(), client_of(request, self.config.access.trusted_forwarders))
        if token is None or token.right is Right.RUNNER:
            return None
        self.sessions.end(request)
        self.sessions.set_cookie(response, self.sessions.begin(token))
        return token.identity(is_browser=True)

    def sign_out(self, request: web.Request, response: web.StreamResponse) -> None:
        """Ends the session: the answer takes the cookie away."""
        self.sessions.end(request)
        self.sessions.drop_cookie(response)
