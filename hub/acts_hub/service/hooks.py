"""The hook port: commands to the service. Each is an entry of its history."""
from __future__ import annotations

import re
import time
from dataclasses import dataclass
from urllib.parse import quote

from .http import Away, ServiceClient, Unsupported

NEWER = {'retry': '/runs/1/attempts/2/failed-jobs', 'force': '/runs/1/force-cancel'}
SUPPORTED_SECONDS = 60
REASONS = {
    40: 'there is no such run', 41: 'the run has completed', 42: 'the runner holds a lease', 43: 'the run is at another attempt', 44: 'the runner does not hold a lease',
    45: 'there is no such runner', 46: 'the history of the service is full', 47: 'the file of the service is full', 48: 'a counter of the service is at its last value',
    49: 'the run has not completed', 50: 'the service has no memory left', 51: 'the disk of the service has failed', 52: 'the disk of the service has failed',
    57: 'the file of the service has an old layout', 60: 'the service has a fault'}


@dataclass(frozen=True, slots=True)
class Reply:
    """What the service answers: `words` are its own, such as `created 17` or `refused 49`."""

    ok: bool
    refusal: int | None
    words: str
    status: int

    @property
    def sentence(self) -> str:
        """Why it is refused, for people."""
        return REASONS.get(self.refusal or 0, self.words)

    @property
    def run(self) -> int | None:
        """The run that a delivery has made."""
        found = re.fullmatch(r'created ([1-9][0-9]*)', self.words)
        return int(found[1]) if found else None


def reply_of(status: int, text: bytes) -> Reply:
    """From an answer of the hook port."""
    words = text.decode(errors='replace').strip()
    found = re.match(r'refused ([0-9]+)', words)
    return Reply(200 <= status < 300, int(found[1]) if found else None, words, status)


class HookPort:
    """Requests to the hook port."""

    def __init__(self, address: str) -> None:
        self.client = ServiceClient(address)
        self._supported: dict[str, tuple[float, bool]] = {}

    async def close(self) -> None:
        """Closes its connections."""
        await self.client.close()

    async def _post(self, path: str) -> Reply:
        return reply_of(*await self.client.request('POST', path))

    async def admit(self, delivery: str, event: str, body: bytes) -> Reply:
        """Admits an event. The same delivery again makes no other run, so the request may be repeated."""
        headers = {'X-GitHub-Delivery': delivery, 'X-GitHub-Event': event, 'Content-Type': 'application/json'}
        return reply_of(*await self.client.request('POST', '/events', body, headers))

    async def cancel(self, run: int) -> Reply:
        """Cancels a run."""
        return await self._post(f'/runs/{run:d}/cancel')

    async def rerun(self, run: int, attempt: int) -> Reply:
        """Runs a completed run again, as this attempt. The same request again begins no other attempt."""
        return await self._post(f'/runs/{run:d}/attempts/{attempt:d}')

    async def lost(self, runner: str, seconds: float | None = 30) -> Reply:
        """Reports a runner lost. Not repeated by itself: the runner may hold another lease by then. A limit may leave one behind, carried out later."""
        return reply_of(*await self.client.request('POST', f'/runners/{quote(runner, safe="")}/lost', seconds=seconds, repeat=False))

    async def discharge(self, runner: str) -> Reply:
        """Forgets a runner that holds no lease. The same request again finds no such runner."""
        return await self._newer(f'/runners/{quote(runner, safe="")}/forget')

    async def retry(self, run: int, attempt: int) -> Reply:
        """Runs the failed jobs of a completed run again, as this attempt."""
        return await self._newer(f'/runs/{run:d}/attempts/{attempt:d}/failed-jobs')

    async def force(self, run: int) -> Reply:
        """Ends a run that was asked to stop, whatever its runners do."""
        return await self._newer(f'/runs/{run:d}/force-cancel')

    async def supports(self, command: str) -> bool:
        """Whether the service has `retry` or `force`, which not every version has. GET shows it, which is no entry of the history: a path that is known answers 405."""
        late, found = self._supported.get(command, (0.0, False))
        if time.monotonic() >= late:
            status, _ = await self.client.request('GET', NEWER[command])
            found = status == 405
            self._supported[command] = time.monotonic() + SUPPORTED_SECONDS, found
        return found

    async def _newer(self, path: str) -> Reply:
        reply = await self._post(path)
        if reply.status in (404, 405) and reply.refusal in (72, 73):
            raise Unsupported('this version of the service does not have the command')
        return reply

    async def body(self, run: int) -> bytes | None:
        """The admitted body; None if there is no such run."""
        status, text = await self.client.request('GET', f'/runs/{run:d}/body')
        if status == 200:
            return text
        if status == 404:
            return None
        raise Away(f'the service answers the body of run {run} with {status}')
