"""Runs for the pages to show: admitted to the real service, worked on by runners by hand, with logs."""
from __future__ import annotations

import json
import time
from dataclasses import dataclass, field
from typing import Any

from harness import HubProcess, RunnerLines, Service, body_of, until

from acts_hub.config import Retention
from acts_hub.ledger.logs import LogStore
from acts_hub.rest.numbers import JobNumber

MATRIX = {'python': ['3.10', '3.11'], 'os': ['linux', 'macos']}
JOBS: dict[str, Any] = {
    'lint': {'runs-on': 'linux', 'steps': [{'run': 'make lint'}]},
    'build': {'runs-on': 'linux', 'steps': [{'run': 'make'}]},
    'test': {'runs-on': 'linux', 'needs': ['lint', 'build'], 'strategy': {'fail-fast': False, 'matrix': MATRIX},
             'steps': [{'run': 'make test'}]},
    'docs': {'runs-on': 'linux', 'needs': 'lint', 'steps': [{'run': 'make docs'}]},
    'deploy': {'runs-on': 'linux', 'needs': ['test', 'docs'], 'name': 'Deploy to staging',
               'steps': [{'run': 'make deploy'}]}}


def stamp(at: float) -> str:
    """A time as lines of a log begin."""
    return time.strftime('%Y-%m-%dT%H:%M:%S', time.gmtime(at)) + f'.{int(at * 1000) % 1000:03d}0000Z'


@dataclass
class Leg:
    """A leg that a runner by hand holds."""

    stage: 'Stage'
    name: str
    lease: int
    run: int
    job: str
    leg: int
    attempt: int
    combination: dict[str, Any]
    length: int = 0
    step: int = 0

    def key(self) -> tuple[int, int, str, int, int]:
        """Which log."""
        return self.run, self.attempt, self.job, self.leg, self.lease

    def begin(self, name: str) -> 'Leg':
        """Begins a step."""
        self.step += 1
        self.stage.logs.step(*self.key(), self.step, name, self.length, int(time.time() * 1000))
        return self

    def say(self, *lines: str) -> 'Leg':
        """Prints lines."""
        data = ''.join(f'{stamp(time.time())} {line}\n' for line in lines).encode()
        self.length = self.stage.logs.append(*self.key(), self.length, data)
        return self

    def end(self, outcome: str = 'success') -> 'Leg':
        """Ends the step."""
        self.stage.logs.step_end(*self.key(), self.step, outcome, self.length, int(time.time() * 1000))
        return self

    def done(self, result: str = 'success') -> None:
        """Reports the leg."""
        assert self.stage.lines.done(self.name, self.lease, result) == 'ok'

    @property
    def page(self) -> str:
        """The address of its log."""
        index = self.stage.job_index(self.run, self.job)
        number = JobNumber(self.run, self.attempt, index, self.leg).value
        return f'/{self.stage.repository}/actions/runs/{self.run}/job/{number}'


@dataclass
class Stage:
    """The service, the hub, and runners by hand."""

    service: Service
    hub: HubProcess
    repository: str = 'octo/hello'
    lines: RunnerLines = field(init=False)
    logs: LogStore = field(init=False)
    count: int = 0

    def __post_init__(self) -> None:
        self.lines = self.service.lines()
        self.logs = LogStore(self.hub.state / 'logs', Retention().log_bytes_a_leg)

    def admit(self, message: str = 'Say hello', *, jobs: Any = None, name: str = 'CI',
              path: str = '.github/workflows/ci.yml', event: str = 'push', repository: str = '',
              github: Any = None, workflow: Any = None) -> int:
        """Admits an event."""
        return self.service.admit(body_of(name, jobs, repository=repository or self.repository, path=path,
                                          message=message, github=github, workflow=workflow), event)

    def claim(self, labels: str = 'linux', name: str = '') -> Leg:
        """A runner takes the next leg."""
        self.count += 1
        name = name or f'runner-{self.count}'
        words = self.lines.claim(name, labels)
        assert words[0] == 'lease', words
        run = int(words[2])
        return Leg(self, name, int(words[1]), run, words[3], int(words[4]), self.service.run(run)['attempt'],
                   json.loads(words[5]))

    def claims(self, job: str, labels: str = 'linux') -> Leg:
        """The leg of a job; others before it end well."""
        while True:
            leg = self.claim(labels)
            if leg.job == job:
                return leg
            leg.begin('Run it').say('it works').end().done()

    def job_index(self, run: int, job: str) -> int:
        """The place of a job among those of its run."""
        return [one['id'] for one in self.service.run(run)['jobs']].index(job)

    def page(self, run: int) -> str:
        """The address of a run."""
        return f'/{self.repository}/actions/runs/{run}'

    def seen(self, run: int, status: str = '') -> None:
        """Waits till the hub shows a run, or its status."""
        token = self.hub.token('watcher', 'read')
        until(lambda: self._status(run, token) in ((status,) if status
                                                   else ('queued', 'pending', 'in_progress', 'completed')),
              what=f'run {run} is {status or "there"}')

    def _status(self, run: int, token: str) -> str:
        answer = self.hub.get(f'/api/v3/repos/{self.repository}/actions/runs/{run}', token)
        return str(answer.json()['status']) if answer.status == 200 else ''
