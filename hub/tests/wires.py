"""A runner by hand behind a hub: lines over its WebSocket, and requests about a leg."""
from __future__ import annotations

import asyncio
import re
import uuid
from typing import Any

import aiohttp
from harness import Answer, HubProcess


class Wire:
    """One WebSocket, with a token."""

    def __init__(self, hub: HubProcess, token: str, tag: str = '', path: str = '') -> None:
        """The tag ends all names, so that tests that share a hub have names of their own."""
        self.hub, self.token, self.tag, self.path, self.loop = hub, token, tag, path, asyncio.new_event_loop()
        self.client: aiohttp.ClientSession | None = None
        self.numbers: dict[str, int] = {}
        self.life = f'life-{uuid.uuid4().hex[:12]}'
        self.claims: dict[str, str] = {}
        self.socket = self.loop.run_until_complete(self._open())

    async def _open(self) -> aiohttp.ClientWebSocketResponse:
        self.client = aiohttp.ClientSession(headers={'Authorization': f'Bearer {self.token}'})
        try:
            return await self.client.ws_connect(f'{self.hub.url}/runner/v1/lines{self.path}', ssl=self.hub.context or False)
        except aiohttp.ClientError:
            await self.client.close()
            raise

    def frame(self, seconds: float = 180) -> aiohttp.WSMessage:
        """The next frame."""
        return self.loop.run_until_complete(self.socket.receive(timeout=seconds))

    def send(self, text: str) -> None:
        """Sends a frame."""
        text = re.sub(r'^(CLAIM|BEAT|DONE) ([\w.-]+)(?= )', rf'\1 \2{self.tag}', text)
        self.loop.run_until_complete(self.socket.send_str(text))

    def ask(self, line: str) -> str:
        """The answer to a line; of a FETCH the body."""
        self.send(line)
        text = str(self.frame().data)
        return str(self.frame().data) if line.startswith('FETCH') and text.startswith('body ') else text

    def claim(self, name: str, labels: str = 'linux') -> list[str]:
        """Claims, and gives the words of the answer."""
        self.numbers[name] = self.numbers.get(name, 0) + 1
        line = f'CLAIM {name} {self.numbers[name]} {labels},{self.life}'
        words = self.ask(line).split(' ', 5)
        if words[0] == 'lease':
            self.claims[words[1]] = line.replace(f'CLAIM {name} ', f'CLAIM {name}{self.tag} ')
        return words

    def done(self, name: str, lease: str, result: str = 'success') -> str:
        """Reports a leg."""
        self.numbers[name] = self.numbers.get(name, 0) + 1
        return self.ask(f'DONE {name} {self.numbers[name]} {lease} {result}')

    def put(self, kind: str, place: str, data: bytes, claim: str, **query: Any) -> Answer:
        """A request about a leg: RUN/ATTEMPT/JOB/LEG/LEASE."""
        words = '&'.join(f'{name}={value}' for name, value in query.items())
        return self.hub.request('PUT', f'/runner/v1/{kind}/{place}?{words}', data, self.token, {'X-Acts-Claim': claim})

    def get(self, path: str, claim: str) -> Answer:
        """A question about a leg."""
        return self.hub.get(f'/runner/v1/{path}', self.token, {'X-Acts-Claim': claim})

    def close(self) -> None:
        """Ends it."""
        async def end() -> None:
            await self.socket.close()
            if self.client:
                await self.client.close()
        if not self.loop.is_closed():
            self.loop.run_until_complete(end())
            self.loop.close()
