"""A stand-in for the view port and the hook port of the service, in this process: many runs, and lines that a later service writes."""
from __future__ import annotations

import asyncio
import hashlib
import json
from typing import Any

from aiohttp import web

WORKFLOWS = (('Quick start', '.github/workflows/ci.yml'), ('Deploy', '.github/workflows/deploy.yml'), ('Nightly', '.github/workflows/nightly.yml'))
BRANCHES = 'main', 'topic/a', 'release'


class StandIn:
    """Rows, wholes, bodies and lines are filled in by the test."""

    def __init__(self, has_body: bool = True) -> None:
        self.rows: dict[int, dict[str, Any]] = {}
        self.wholes: dict[int, dict[str, Any]] = {}
        self.bodies: dict[int, bytes] = {}
        self.lines: list[dict[str, Any]] = []
        self.has_body, self.epoch = has_body, 1
        self.asked: dict[str, int] = {}
        self.more = asyncio.Event()
        self.view = self.hook = ''
        self.delay = 0.0
        self.forgotten = 0

    def add(self, number: int, *, status: str = 'completed', conclusion: str | None = 'success', **more: Any) -> dict[str, Any]:
        """A run, with a body."""
        name, path = WORKFLOWS[number % 3]
        branch = BRANCHES[number % 3 if number % 7 else 0]
        sha = hashlib.sha1(b'%d' % (number // 2)).hexdigest()
        row = {'run': number, 'number': number, 'attempt': 1, 'repository': 'octo/hello', 'path': path, 'workflow': name, 'event': 'push', 'delivery': f'd{number}',
               'ref': f'refs/heads/{branch}', 'status': status, 'conclusion': conclusion if status == 'completed' else None, 'group': None, **more}
        self.rows[number] = row
        self.bodies[number] = json.dumps({'repo': row['repository'], 'path': path, 'github': {
            'ref': row['ref'], 'ref_name': branch, 'sha': sha, 'actor': ('mona', 'hubot')[number % 5 == 0],
            'event': {'head_commit': {'message': f'Change {number // 2}', 'timestamp': '2026-11-30T10:00:00+01:00', 'author': {'name': 'Mona', 'email': 'm@example.org'}}}},
            'workflow': {'name': name, 'jobs': {'build': {'runs-on': 'linux'}}}}).encode()
        return row

    def forget(self, last: int) -> None:
        """The runs up to one are forgotten."""
        self.forgotten = last
        for run in [run for run in self.rows if run <= last]:
            del self.rows[run], self.bodies[run]

    def say(self, *lines: dict[str, Any]) -> None:
        """Adds lines of /changes."""
        self.lines += lines
        self.more.set()
        self.more = asyncio.Event()

    async def handle_hook(self, request: web.BaseRequest) -> web.StreamResponse:
        """The hook port: bodies alone."""
        self.asked['hook'] = self.asked.get('hook', 0) + 1
        number = int(request.path.split('/')[2])
        return web.Response(body=self.bodies[number], content_type='application/json')

    async def handle(self, request: web.BaseRequest) -> web.StreamResponse:
        """The view port."""
        path, asked = request.path, request.query
        self.asked[path.rstrip('0123456789')] = self.asked.get(path.rstrip('0123456789'), 0) + 1
        if self.delay:
            await asyncio.sleep(self.delay)
        if path == '/runs':
            return self._page(int(asked.get('before', max(self.rows, default=0) + 1)))
        if path == '/changes':
            return await self._changes(asked.get('after'), int(asked.get('wait', 0)))
        if path == '/runners':
            return web.json_response({'runners': [], 'after': None})
        if path == '/healthz':
            return web.Response(text='ok\n')
        if path == '/metrics':
            return web.Response(text=f'# HELP acts_forgotten_runs ..\nacts_forgotten_runs {self.forgotten}\n')
        number = int(path.split('/')[2])
        if path.endswith('/body'):
            if not self.has_body:
                return web.json_response({'code': 'unknown_path', 'message': 'there is nothing'}, status=404)
            return web.Response(body=self.bodies[number], content_type='application/json')
        if number not in self.rows:
            return web.json_response({'code': 'unknown_run', 'message': 'no such run'}, status=404)
        return web.json_response({**self.rows[number], **self.whole(number)})

    def whole(self, number: int) -> dict[str, Any]:
        """The jobs of a run: one, that has ended as the run, unless the test says otherwise."""
        state = self.rows[number]['conclusion']
        leg = {'leg': 0, 'combination': {}, 'state': state or 'ready', 'lease': number if state else None, 'runner': None, 'labels': ['linux'], 'group': None,
               'waits_for': None if state else {'for': 'runner'}}
        return {'stopping': False, 'waits_for': None, 'from': None, 'jobs': [
            {'id': 'build', 'state': state or 'open', 'needs': [], 'max_parallel': None, 'legs': [leg]}], **self.wholes.get(number, {})}

    def _page(self, before: int) -> web.Response:
        numbers = sorted((number for number in self.rows if number < before), reverse=True)
        page = numbers[:100]
        return web.json_response({'runs': [self.rows[number] for number in page], 'before': page[-1] if len(numbers) > 100 else None})

    async def _changes(self, after: str | None, wait: int) -> web.Response:
        if after is None:
            return self._lines([], len(self.lines))
        epoch, _, place = after.partition('-')
        if int(epoch) == self.epoch and len(self.lines) <= int(place) and wait:
            try:
                await asyncio.wait_for(self.more.wait(), wait)
            except asyncio.TimeoutError:
                pass
        if int(epoch) != self.epoch:
            return web.json_response({'code': 'unknown_cursor', 'message': 'list again'}, status=410)
        found = self.lines[int(place):int(place) + 1000]
        return self._lines(found, int(place) + len(found))

    def _lines(self, lines: list[dict[str, Any]], place: int) -> web.Response:
        return web.Response(text=''.join(json.dumps(line) + '\n' for line in [*lines, {'cursor': f'{self.epoch}-{place}'}]), content_type='application/x-ndjson')

    async def __aenter__(self) -> StandIn:
        self._runners = [web.ServerRunner(web.Server(handle)) for handle in (self.handle, self.handle_hook)]
        for runner in self._runners:
            await runner.setup()
            await web.TCPSite(runner, '127.0.0.1', 0, shutdown_timeout=0.1).start()
        self.view, self.hook = (':'.join(map(str, runner.addresses[0][:2])) for runner in self._runners)
        return self

    async def __aexit__(self, *fault: object) -> None:
        for runner in self._runners:
            await runner.cleanup()
