"""Forwards connections of listening sockets to TCP ports of 127.0.0.1, with bounds, and passes half-closes on."""
from __future__ import annotations

import asyncio
import socket

BUFFERED = 65536
"""Bytes that wait for one end of a connection before the other end is no longer read."""
PATIENCE = 5.0
"""Seconds that one end may take to read what waits for it: a paused connection does not see that its other end has gone."""


class End(asyncio.BufferedProtocol):
    """One end of a connection: what it reads, its peer writes."""

    _buffer = bytearray(BUFFERED)  # of all ends: what is read into it is copied before the next read

    def __init__(self, peer: End | None = None) -> None:
        self.peer = peer or End(self)
        self.transport: asyncio.Transport | None = None
        self.ended = False
        self.gone = asyncio.get_running_loop().create_future()
        self._early = b''
        self._limit: asyncio.TimerHandle | None = None

    def connection_made(self, transport: asyncio.BaseTransport) -> None:
        assert isinstance(transport, asyncio.Transport)
        self.transport = transport
        transport.set_write_buffer_limits(high=BUFFERED)
        self.peer._catch_up(transport)

    def _catch_up(self, peer: asyncio.Transport) -> None:
        """Hands over what this end has seen before its peer was there."""
        if self._early:
            peer.write(self._early)
            self._early = b''
        if self.gone.done():
            peer.close()
        elif self.ended:
            peer.write_eof()
        elif self.transport:
            self.transport.resume_reading()

    def get_buffer(self, sizehint: int) -> bytearray:
        return self._buffer

    def buffer_updated(self, nbytes: int) -> None:
        data = bytes(memoryview(self._buffer)[:nbytes])
        if self.peer.transport:
            self.peer.transport.write(data)
        elif self.transport:
            self._early = data
            self.transport.pause_reading()

    def eof_received(self) -> bool:
        self.ended = True
        peer = self.peer.transport
        if peer and self.transport:
            if self.peer.ended:
                peer.close()
                self.transport.close()
            elif not peer.is_closing():
                peer.write_eof()
        return True

    def pause_writing(self) -> None:
        if self.peer.transport:
            self.peer.transport.pause_reading()
        self._expect()

    def resume_writing(self) -> None:
        if self._limit:
            self._limit.cancel()
        if self.peer.transport:
            self.peer.transport.resume_reading()

    def connection_lost(self, exc: Exception | None) -> None:
        if self._limit:
            self._limit.cancel()
        self.gone.set_result(None)
        if self.peer.transport and not self.peer.gone.done():
            self.peer.transport.close()
            self.peer._expect()

    def _expect(self) -> None:
        """Aborts this end unless it reads what waits for it, in time."""
        if self._limit:
            self._limit.cancel()
        if self.transport:
            self._limit = asyncio.get_running_loop().call_later(PATIENCE, self.transport.abort)


class Door:
    """A listening socket, the port that it leads to, and how many clients it takes at a time; more wait in a queue."""

    def __init__(self, listening: socket.socket, port: int, clients: int = 1024) -> None:
        self._listening = listening
        self._port = port
        self._slots = asyncio.Semaphore(clients)
        self._tasks: set[asyncio.Task[None]] = set()

    async def serve(self) -> None:
        """Takes clients until it is cancelled."""
        loop = asyncio.get_running_loop()
        self._listening.setblocking(False)
        while True:
            await self._slots.acquire()
            try:
                client, _ = await loop.sock_accept(self._listening)
            except OSError:  # no descriptor is free, or the client has gone
                self._slots.release()
                await asyncio.sleep(0.05)
                continue
            task = loop.create_task(self._join(client))
            self._tasks.add(task)  # the loop itself keeps no task
            task.add_done_callback(self._tasks.discard)

    async def _join(self, client: socket.socket) -> None:
        """Joins a client and the service until both have gone."""
        loop = asyncio.get_running_loop()
        outer = End()
        try:
            try:
                await loop.create_connection(lambda: outer.peer, '127.0.0.1', self._port)
            except OSError:  # the service is away; the client sees the end of its connection
                client.close()
                return
            await loop.connect_accepted_socket(lambda: outer, client)
            await asyncio.gather(outer.gone, outer.peer.gone)
        finally:
            self._slots.release()
