"""Lines to the runner port of a service, over a stream to it or through a hub. A session is one stream of the
service, so it is one process of the service and one history: no restore of the service's file comes between two lines
of it."""
from __future__ import annotations

import contextlib
import re
import socket
import time
from typing import Callable, Iterator, Protocol, TypeVar

ENDS = re.compile('refused (4[678]|5.|60)')  # the service closes the session, and asks for another try
MAX_ANSWER = 1 << 18  # bytes of an answer, a body included

T = TypeVar('T')


class Cut(Exception):
    """The stream ended before an answer, or the answer ends the session."""


class Session(Protocol):
    """One stream."""

    def ask(self, line: str) -> str:
        """The answer to a line."""

    def fetch(self, run: str) -> bytes | None:
        """The body of a run; None if there is no such run."""


class Port(Protocol):
    """Where sessions are had."""

    place: str

    def session(self) -> contextlib.AbstractContextManager[Session]:
        """A session, which ends with the context."""


def settle(port: Port, exchange: Callable[[Session], T], tell: Callable[[str], None],
           may_end: Callable[[], bool] = lambda: False) -> T | None:
    """What an exchange over one stream gives. Begins again, over another stream, until it comes to its end; None if it
    may end before."""
    said = False
    while True:
        try:
            with port.session() as session:
                return exchange(session)
        except (OSError, ValueError, Cut) as fault:
            if not said:
                tell(f'no answer from {port.place}, so it is asked again: {fault}')
            said = True
        for _ in range(10):
            if may_end():
                return None
            time.sleep(0.1)


class StreamSession:
    """Lines over a stream."""

    def __init__(self, stream: socket.socket) -> None:
        self.stream, self.answers = stream, stream.makefile('rb')

    def ask(self, line: str) -> str:
        """The answer to a line."""
        self.stream.sendall(line.encode() + b'\n')
        answer = self.answers.readline(MAX_ANSWER).decode()
        if not answer.endswith('\n') or ENDS.fullmatch(answer[:-1]):
            raise Cut(answer.strip() or 'the stream ended')
        return answer[:-1]

    def fetch(self, run: str) -> bytes | None:
        """The body of a run; None if there is no such run."""
        answer = self.ask(f'FETCH {run}')
        if not answer.startswith('body '):
            return None
        length = int(answer[5:])
        if length > MAX_ANSWER:
            raise Cut(f'a body of {length} bytes')
        body = self.answers.read(length + 1)
        if len(body) <= length:
            raise Cut('the stream ended')
        return body[:-1]


class StreamPort:
    """The runner port of a service on this machine."""

    def __init__(self, port: int, host: str = '127.0.0.1') -> None:
        self.host, self.port, self.place = host, port, f'{host}:{port}'

    @contextlib.contextmanager
    def session(self) -> Iterator[Session]:
        """A session over a stream of its own."""
        with socket.create_connection((self.host, self.port), timeout=60) as stream:
            yield StreamSession(stream)
