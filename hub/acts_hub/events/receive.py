"""`POST /webhooks/github`: what is read of a request, in which order, and what it is answered."""
from __future__ import annotations

import asyncio
import hashlib
import json
import re
from typing import TYPE_CHECKING, Any

from aiohttp import web

from . import signatures, starts
from .deliveries import Delivery
from .spool import name_of

if TYPE_CHECKING:
    from .intake import Events

LONGEST = 25 << 20  # bytes of a payload: GitHub's limit
RESERVED = 128 << 20  # bytes of payloads that are held before their signature is checked
SMALL = 1 << 20  # bytes of a payload that is taken beside them
SECONDS = 60  # in which a payload has to come
IDLE = 20  # seconds without a byte of it
ID = re.compile('[A-Za-z0-9-]{1,64}')
EVENT = re.compile('[a-z_]{1,64}')


class Refused(Exception):
    """A request that is not taken: its status, and why."""

    def __init__(self, status: int, words: str) -> None:
        super().__init__(words)
        self.status, self.words = status, words


def answer(status: int, lines: list[str]) -> web.Response:
    """An answer of lines, which GitHub shows with the delivery."""
    headers = {'Retry-After': '10'} if status == 503 else {}
    return web.Response(status=status, text=''.join(shown(line) + '\n' for line in lines), headers=headers)


def shown(line: str) -> str:
    """A line with escapes in place of what is not printed."""
    return ''.join(char if char.isprintable() else char.encode('unicode_escape', 'replace').decode() for char in line)


class Receiver:
    """Takes webhooks."""

    def __init__(self, events: Events) -> None:
        self.events: Events = events
        self.reading = 0

    async def post(self, request: web.Request) -> web.Response:
        """Answers one webhook."""
        try:
            return await self.taken(request)
        except Refused as fault:
            return answer(fault.status, [fault.words])

    async def taken(self, request: web.Request) -> web.Response:
        """The answer to a webhook that is not refused. Nothing of the body is looked at before its signature."""
        body = await self.body(request)
        repositories = await self.signers(body, request.headers.get('X-Hub-Signature-256', ''))
        event = request.headers.get('X-GitHub-Event', '')
        if event == 'ping':
            return answer(200, ['not taken: the event ping'])
        payload = await asyncio.to_thread(parsed, body)
        name = repository_of(payload)
        if name.lower() not in repositories:
            raise Refused(401, 'the signature is not that of the repository which the payload names')
        if event not in starts.BY_WEBHOOK:
            return answer(202, [self.events.untaken(name, event if EVENT.fullmatch(event) else '')])
        id = request.headers.get('X-GitHub-Delivery', '')
        if not ID.fullmatch(id):
            raise Refused(400, 'X-GitHub-Delivery is missing or no id')
        delivery = Delivery(name_of(id), event, id, hashlib.sha256(body).hexdigest(), payload)
        del body
        try:
            return answer(202, await self.events.accept(delivery))
        except OSError as fault:
            raise Refused(503, f'not accepted: {fault.strerror or fault}') from None

    async def body(self, request: web.Request) -> bytes:
        """The body, if it is not too long, and comes in time."""
        length = request.headers.get('Content-Length', '')
        if not re.fullmatch('[0-9]{1,9}', length) or int(length) > LONGEST:
            raise Refused(413, 'a payload has a Content-Length of at most 25 MiB')
        pieces: list[bytes] = []
        try:
            await asyncio.wait_for(self.read(request, int(length), pieces), SECONDS)
        except asyncio.TimeoutError:
            raise Refused(408, 'the payload did not come in time') from None
        finally:
            self.reading -= sum(map(len, pieces))
        return b''.join(pieces)

    async def read(self, request: web.Request, length: int, pieces: list[bytes]) -> None:
        """Reads the pieces of a body. What has come counts, not what is announced; small payloads are always taken."""
        size = 0
        while size < length and (piece := await asyncio.wait_for(request.content.readany(), IDLE)):
            pieces.append(piece)
            size += len(piece)
            self.reading += len(piece)
            if size > SMALL and self.reading > RESERVED:
                raise Refused(503, 'too many payloads come at a time')
        if size != length:
            raise Refused(400, 'the payload is not as long as its Content-Length says')

    async def signers(self, body: bytes, signature: str) -> set[str]:
        """The repositories under whose secret the body is signed."""
        def found() -> set[str]:
            return signatures.signers(self.events.settings.secrets(), body, signature)
        repositories = await asyncio.to_thread(found)
        if not repositories:
            raise Refused(401, 'the signature is missing or wrong')
        return repositories


def parsed(body: bytes) -> dict[str, Any]:
    """The object of a payload."""
    try:
        value = json.loads(body)
    except (ValueError, RecursionError):
        raise Refused(400, 'the payload is not JSON: choose application/json in the settings of the webhook') from None
    if not isinstance(value, dict):
        raise Refused(400, 'the payload is no object')
    return value


def repository_of(payload: dict[str, Any]) -> str:
    """The repository that a payload names."""
    repository = payload.get('repository')
    name = repository.get('full_name') if isinstance(repository, dict) else None
    if not isinstance(name, str):
        raise Refused(400, 'the payload names no repository')
    return name
