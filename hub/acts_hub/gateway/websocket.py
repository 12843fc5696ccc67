"""`/runner/v1/lines`: lines of runners over a WebSocket, a text frame each; a session of the runner port stands
behind each one, so that what a session of the service promises holds here too."""
from __future__ import annotations

import asyncio
from collections import Counter
from typing import TYPE_CHECKING

from aiohttp import WSMsgType, web

from ..access.identity import Identity, Right, require
from ..log import say
from ..service.http import Away
from ..service.lines import Answer, Lines, RunnerPort
from .leaving import Leaving
from .passing import Forbidden, Passing, TryAgain

if TYPE_CHECKING:
    from ..hub import Hub

MAX_FRAME = 1024  # bytes: a line has 512 at most
FORBIDDEN, AGAIN, SILENT = 4403, 1013, 1001
SECONDS_OF_SILENCE = 60.0
SECONDS_TO_SEND = 20.0
CONNECTIONS_A_TOKEN = 2048
MAX_REASON = 120  # bytes of a reason in a frame that closes


class Sockets:
    """The WebSockets of all runners."""

    def __init__(self, port: RunnerPort, passing: Passing, leaving: Leaving, a_token: int = CONNECTIONS_A_TOKEN,
                 silence: float = SECONDS_OF_SILENCE) -> None:
        self.port, self.passing, self.leaving, self.a_token, self.silence = port, passing, leaving, a_token, silence
        self.open: Counter[int] = Counter()
        self.sockets: set[web.WebSocketResponse] = set()

    async def handle(self, request: web.Request) -> web.StreamResponse:
        """One runner."""
        identity = require(request, Right.RUNNER)
        if self.open[identity.token_id] >= self.a_token:
            raise web.HTTPTooManyRequests(text='the token has too many connections', headers={'Retry-After': '10'})
        socket = web.WebSocketResponse(max_msg_size=MAX_FRAME, compress=False, autoping=True, timeout=2)
        self.open[identity.token_id] += 1
        try:
            await socket.prepare(request)
            self.sockets.add(socket)
            await self.serve(request, identity, socket)
        finally:
            self.sockets.discard(socket)
            self.open[identity.token_id] -= 1
            if not self.open[identity.token_id]:
                del self.open[identity.token_id]
        return socket

    async def serve(self, request: web.Request, identity: Identity, socket: web.WebSocketResponse) -> None:
        """Answers lines till either side ends. The session of the service is opened with the first line."""
        lines: Lines | None = None
        runner: str | None = None
        try:
            while (text := await self.heard(socket)) is not None:
                require_again(request, identity)
                lines = lines or await self.port.open()
                runner, answer = await self.passing.answer(identity, runner, text, lines)
                if runner is not None and text.startswith('CLAIM ') and not answer.text.startswith('refused '):
                    self.leaving.came(identity, runner, is_ephemeral(request))
                await asyncio.wait_for(send(socket, answer), SECONDS_TO_SEND)
                if lines.is_used_up or ends(answer):
                    await close(socket, AGAIN, 'the session of the service has ended')
                    return
        except Forbidden as fault:
            await socket.send_str('refused 75')
            await close(socket, FORBIDDEN, str(fault))
        except (TryAgain, Away) as fault:
            await close(socket, AGAIN, str(fault))
        except (asyncio.TimeoutError, ConnectionError):
            await close(socket, SILENT, 'it does not read what it is answered')
        finally:
            if runner is not None and is_ephemeral(request):
                self.leaving.leave(runner, self.leaving.grace)
            if lines is not None:
                lines.close()

    async def heard(self, socket: web.WebSocketResponse) -> str | None:
        """The next line; None at the end, after a frame that is none, or after a silence."""
        try:
            frame = await socket.receive(timeout=self.silence)
        except asyncio.TimeoutError:
            await close(socket, SILENT, f'nothing was heard for {self.silence:g} seconds')
            return None
        if frame.type is WSMsgType.TEXT:
            return str(frame.data)
        if frame.type is WSMsgType.BINARY:
            await close(socket, 1003, 'a line is a text frame')
        return None

    async def stop(self) -> None:
        """Closes all of them."""
        closing = [close(socket, AGAIN, 'the hub ends') for socket in list(self.sockets)]
        await asyncio.gather(*closing, return_exceptions=True)


def is_ephemeral(request: web.Request) -> bool:
    """Whether a runner says that it takes one leg, and never comes again."""
    return request.query.get('ephemeral') == 'true'


def require_again(request: web.Request, identity: Identity) -> None:
    """A token that was revoked meanwhile ends its streams."""
    hub: Hub = request.app['hub']
    if hub.access.tokens.by_id(identity.token_id) is None:
        raise Forbidden('the token is not valid any more')


async def send(socket: web.WebSocketResponse, answer: Answer) -> None:
    """Sends an answer, and behind `body N` a frame with the body."""
    await socket.send_str(answer.text)
    if answer.body is not None:
        await socket.send_str(answer.body.decode())


def ends(answer: Answer) -> bool:
    """Whether the service ends the session with this answer."""
    words = answer.text.split(' ')
    return words[0] == 'refused' and len(words) == 2 and words[1] in ('46', '47', '48', '50', '51', '52', '57', '60')


async def close(socket: web.WebSocketResponse, code: int, words: str) -> None:
    """Closes a stream, with a reason."""
    try:
        message = words.encode()[:MAX_REASON].decode(errors='ignore').encode()
        await asyncio.wait_for(socket.close(code=code, message=message), 3)
    except (asyncio.TimeoutError, ConnectionError, RuntimeError) as fault:
        say(f'a stream of a runner is not closed in time: {fault!r}')
