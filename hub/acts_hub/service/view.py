"""The view port: what the service shows. Nothing here is an entry of its history."""
from __future__ import annotations

import json
import re
from typing import Any
from urllib.parse import quote

from .http import Away, Gone, ServiceClient
from .models import Change, Holder, Json, Ready, Row, Runner, Whole, change_of

PAGE = 100
MAX_ROWS = 100_000


class ViewPort:
    """Requests to the view port."""

    def __init__(self, address: str) -> None:
        self.client = ServiceClient(address)
        self._has_body = True

    async def close(self) -> None:
        """Closes its connections."""
        await self.client.close()

    async def get(self, path: str, seconds: float = 30) -> tuple[int, bytes]:
        """An answer as it is; for what has no method here."""
        return await self.client.request('GET', path, seconds=seconds)

    async def _json(self, path: str) -> Json | None:
        status, text = await self.get(path)
        if status == 404:
            return None
        if status != 200:
            raise Away(f'the service answers {path} with {status}')
        return _object(text)

    async def changes(self, cursor: str | None = None, wait: int = 25) -> tuple[list[Change], str]:
        """What was entered after a cursor, and the cursor to go on from; without one, the cursor of the present."""
        path = '/changes' if cursor is None else f'/changes?after={quote(cursor)}&wait={wait}'
        status, text = await self.get(path, seconds=wait + 30)
        if status in (400, 410) and cursor is not None:
            raise Gone('the service does not know the cursor any more')
        if status != 200:
            raise Away(f'the service answers /changes with {status}')
        *lines, last = [_object(line) for line in text.splitlines()]
        return [change for change in map(change_of, lines) if change is not None], str(last['cursor'])

    async def page(self, before: int | None = None) -> tuple[list[Row], int | None]:
        """A page of rows, newest first, and where to go on."""
        found = await self._json(f'/runs?limit={PAGE}' + (f'&before={before}' if before else ''))
        if found is None:
            raise Away('the service has no /runs')
        return [Row.of(row) for row in found['runs']], found['before']

    async def run_json(self, run: int) -> Json | None:
        """A run with all its jobs, in its present attempt, as the service writes it; None if there is no such run."""
        for _ in range(5):
            whole = await self._json(f'/runs/{run}')
            more = whole
            while whole is not None and more is not None and more['from'] is not None:
                more = await self._json(f'/runs/{run}?from={more["from"]}')
                if more is None or more['attempt'] != whole['attempt']:
                    break
                whole['jobs'] += more['jobs']
            else:
                return whole
        raise Away(f'run {run} changes while it is read')

    async def run(self, run: int) -> Whole | None:
        """A run with all its jobs, in its present attempt; None if there is no such run."""
        found = await self.run_json(run)
        return None if found is None else Whole.of(found)

    async def body(self, run: int) -> bytes | None:
        """The admitted body; None if this service does not show bodies here, or has no such run."""
        if not self._has_body:
            return None
        status, text = await self.get(f'/runs/{run}/body')
        if status == 200:
            return text
        if status == 404 and _object(text).get('code') == 'unknown_path':
            self._has_body = False
        elif status != 404:
            raise Away(f'the service answers the body of run {run} with {status}')
        return None

    async def _pages(self, path: str, member: str, onward: str) -> list[Json]:
        rows: list[Json] = []
        after: Any = None
        while len(rows) < MAX_ROWS:
            joint = '&' if '?' in path else '?'
            found = await self._json(path + (f'{joint}{onward}={quote(str(after), safe="")}' if after is not None else ''))
            if found is None:
                raise Away(f'the service has no {path}')
            rows += found[member]
            after = found[onward]
            if after is None:
                break
        return rows

    async def runners(self, name: str | None = None) -> list[Runner]:
        """All runners that have claimed, or the one of this name."""
        path = '/runners' if name is None else f'/runners?name={quote(name, safe="")}'
        found = map(Runner.of, await self._pages(path, 'runners', 'after'))     # with a name those whose names begin with it
        return [one for one in found if name in (None, one.name)]

    async def queue(self) -> list[Ready]:
        """The legs that wait for a runner."""
        return list(map(Ready.of, await self._pages('/queue', 'queue', 'from')))

    async def groups(self, repository: str | None = None, group: str | None = None) -> list[Holder]:
        """Who holds a concurrency group or waits for it."""
        asked = [f'{name}={quote(value, safe="")}' for name, value in (('repo', repository), ('group', group)) if value is not None]
        return list(map(Holder.of, await self._pages('/groups' + ('?' + '&'.join(asked) if asked else ''), 'groups', 'from')))

    async def metrics(self) -> str:
        """The service's metrics, in Prometheus' format."""
        status, text = await self.get('/metrics')
        if status != 200:
            raise Away(f'the service answers /metrics with {status}')
        return text.decode()

    async def forgotten(self) -> int:
        """The id through which runs are forgotten, for when there is none behind them; 0 where the service does not say."""
        try:
            found = re.search('^acts_forgotten_runs ([0-9]+)$', await self.metrics(), re.MULTILINE)
        except Away:
            return 0
        return int(found[1]) if found else 0

    async def healthy(self) -> bool:
        """Whether the service says that it is well."""
        try:
            return (await self.get('/healthz', seconds=5))[0] == 200
        except Away:
            return False


def _object(text: bytes) -> Json:
    try:
        found = json.loads(text)
    except ValueError:
        found = None
    if not isinstance(found, dict):
        raise Away('the service answers something that is no JSON object')
    return found
