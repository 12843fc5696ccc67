"""Requests to others, each sent until it is answered, in order. They wait in a folder, also over a crash."""
from __future__ import annotations

import asyncio
import pathlib
from typing import Any, Awaitable, Callable, Mapping

import aiohttp

from ..log import say
from .spool import Spool, name_of

IN_VAIN = 400, 404, 405, 410, 413, 415, 422  # statuses after which another try is in vain
SECONDS = 30  # in which an answer has to come
LONGEST = 1 << 16  # bytes of an answer that are read


class InVain(Exception):
    """It is put aside."""


class Later(Exception):
    """It is tried again."""


async def post(session: aiohttp.ClientSession, url: str, body: bytes, headers: Mapping[str, str]) -> None:
    """Posts a body. Redirections are not followed: they would take a token elsewhere."""
    sent = {'Content-Type': 'application/json', 'User-Agent': 'acts-hub', **headers}
    timeout = aiohttp.ClientTimeout(total=SECONDS)
    try:
        async with session.post(url, data=body, headers=sent, timeout=timeout, allow_redirects=False) as answer:
            text = (await answer.content.read(LONGEST)).decode(errors='replace')[:200]
            status = answer.status
    except (aiohttp.ClientError, asyncio.TimeoutError, OSError, ValueError) as fault:
        raise Later(f'no answer of {url}: {fault!r}') from None
    if status >= 300:
        raise (InVain if status in IN_VAIN else Later)(f'{url} answers {status} {text}')


class Outbox:
    """What is sent to one receiver."""

    def __init__(self, folder: pathlib.Path, pause: float, send: Callable[[str, Any], Awaitable[None]]) -> None:
        self.spool, self.pause, self.send = Spool(folder), pause, send
        self.wake = asyncio.Event()
        self.task: asyncio.Task[None] | None = None

    async def start(self) -> None:
        """Begins to send what waits."""
        try:
            await asyncio.to_thread(self.spool.begin)
        except OSError as fault:
            say(f'events: {self.spool.folder} can not be used: {fault}')
        self.wake.set()
        self.task = asyncio.create_task(self.work())

    async def stop(self) -> None:
        """Ends; what waits is in the folder."""
        if self.task:
            self.task.cancel()
            await asyncio.gather(self.task, return_exceptions=True)

    async def add(self, id: str, value: Any) -> None:
        """Keeps something to be sent."""
        await asyncio.to_thread(self.spool.add, name_of(id), value)
        self.wake.set()

    async def work(self) -> None:
        """Sends what waits, one after the other."""
        while True:
            await self.wake.wait()
            self.wake.clear()
            try:
                for name in await asyncio.to_thread(self.spool.waiting):
                    await self.until_answered(name)
            except OSError as fault:
                say(f'events: {self.spool.folder}: {fault}')
                await asyncio.sleep(self.pause)
                self.wake.set()

    async def until_answered(self, name: str) -> None:
        """Sends one, again and again."""
        pause = 1.0
        while True:
            try:
                await self.send(name, await asyncio.to_thread(self.spool.read, name))
                return await asyncio.to_thread(self.spool.done, name)
            except InVain as fault:
                say(f'events: {name} is put aside: {fault}')
                return await asyncio.to_thread(self.spool.put_aside, name, self.spool.folder.name, [str(fault)])
            except Later as fault:
                say(f'events: {name} is sent again: {fault}')
            except FileNotFoundError:
                return None
            except (ValueError, KeyError, TypeError) as fault:
                return await asyncio.to_thread(self.spool.put_aside, name, self.spool.folder.name, [repr(fault)])
            await asyncio.sleep(min(pause, self.pause))
            pause *= 2
