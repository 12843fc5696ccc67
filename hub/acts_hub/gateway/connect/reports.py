"""What runners report of a task: lines of its log, its steps and its outputs, in the ledger as those of any runner."""
from __future__ import annotations

import datetime
import json
from collections.abc import Mapping, Sequence
from typing import TYPE_CHECKING, Any

from acts_runner.commands import LEVELS, Command, annotation_of, command_in

from ...ledger.logs import LogError, LogStore
from ...log import say
from ...times import iso_exact, now
from ..findings import Findings
from ..leases import Lease, Leases
from ..legs import OUTPUTS
from .calls import Refused
from .messages import CANCELLED, FAILURE, SKIPPED, SUCCESS, nanoseconds
from .tasks import job_in, title_of

if TYPE_CHECKING:
    from ...hub import Hub

OUTCOMES = {SUCCESS: 'success', FAILURE: 'failure', CANCELLED: 'cancelled', SKIPPED: 'skipped'}
SET_UP, FIRST = 1, 2  # numbers of steps
MAX_OUTPUTS = 1 << 20  # bytes of the outputs of a task
MAX_STEPS = 1000
LATEST = 253_402_300_799 * 10 ** 9  # the last second of the year 9999, in nanoseconds
Task = Mapping[str, Any]


def bounded(nanoseconds: int | None) -> int:
    """A time that a date can be made of."""
    return min(max(nanoseconds or 0, 0), LATEST)


def milliseconds(nanoseconds: int | None) -> int:
    """A time as the ledger has it; the present if none is given."""
    return bounded(nanoseconds) // 10 ** 6 or now()


def stamp(nanoseconds: int | None) -> str:
    """A time as lines of logs begin."""
    seconds, rest = divmod(bounded(nanoseconds), 10 ** 9)
    whole = datetime.datetime.fromtimestamp(seconds, datetime.timezone.utc).strftime('%Y-%m-%dT%H:%M:%S')
    return f'{whole}.{rest // 100:07d}Z'


def shown(content: str, command: Command | None) -> str:
    """A line of a log. Commands that it shows are written as by any runner."""
    is_shown = command and command.name in (*LEVELS, 'group', 'endgroup')
    return ' '.join((f'##[{command.name}]{command.value}' if command and is_shown else content).splitlines())


class Reports:
    """The logs, steps and outputs of tasks."""

    def __init__(self, hub: Hub, leases: Leases, findings: Findings) -> None:
        self.hub, self.leases, self.findings = hub, leases, findings
        self.logs: LogStore = hub.logs
        self.offsets: dict[int, list[int]] = {}  # lease -> where the lines of its log begin, and the last one ends
        self.titles: dict[int, list[str]] = {}

    @staticmethod
    def place(task: Task) -> tuple[int, int, str, int, int]:
        """Run, attempt, job, leg and lease."""
        return task['run'], task['attempt'], task['job'], task['leg'], task['lease']

    def offsets_of(self, task: Task) -> list[int]:
        """Where the lines of a log begin, after a restart too."""
        if task['lease'] not in self.offsets:
            path, found = self.logs.path(*self.place(task)), [0]
            if path:
                with open(path, 'rb') as file:
                    for line in file:
                        found.append(found[-1] + len(line))
            self.offsets[task['lease']] = found
        return self.offsets[task['lease']]

    def lines(self, task: Task, index: int, rows: Sequence[Any]) -> int:
        """Takes lines from the one of this index on, and gives how many there are. What is there is left as it is."""
        offsets = self.offsets_of(task)
        have = len(offsets) - 1
        new = rows[have - index:] if 0 <= index <= have else []
        commands = [command_in(row.content) for row in new]
        texts = [f'{stamp(nanoseconds(row, "time"))} {shown(row.content, command)}\n' for row, command in zip(new, commands)]
        made = [text.encode(errors='replace') for text in texts]
        if made:
            try:
                self.logs.append(*self.place(task), offsets[-1], b''.join(made))
            except LogError as fault:
                raise Refused('unavailable', str(fault)) from None
            for line in made:
                offsets.append(offsets[-1] + len(line))
            self.annotate(task, commands)
        return len(offsets) - 1

    def annotate(self, task: Task, commands: Sequence[Command | None]) -> None:
        """Keeps the annotations of lines."""
        lease = self.leases.get(task['run'], task['lease'])
        for command in commands:
            found = annotation_of(command) if command else None
            if found and lease:
                self.mark(lease, {'annotation': found})

    def offset(self, task: Task, index: int) -> int:
        """Where a line begins, as far as it is there."""
        offsets = self.offsets_of(task)
        return offsets[min(max(0, index), len(offsets) - 1)]

    async def take(self, task: Task, state: Any, outputs: Mapping[str, str]) -> list[str]:
        """Takes what a runner says of a task, and gives the names of the outputs that are kept."""
        await self.learn(task)
        try:
            self.steps(task, state)
        except LogError as fault:
            raise Refused('unavailable', str(fault)) from None
        kept = {**(self.hub.notes.get(task['run'], 0, OUTPUTS, str(task['lease'])) or {}), **outputs}
        if sum(len(name) + len(value) for name, value in kept.items()) > MAX_OUTPUTS:
            raise Refused('invalid_argument', f'the outputs of a job have {MAX_OUTPUTS} bytes at most')
        if outputs:
            self.hub.notes.set(task['run'], 0, OUTPUTS, str(task['lease']), kept)
        return list(kept)

    async def learn(self, task: Task) -> None:
        """Reads the names of the steps."""
        if task['lease'] not in self.titles:
            body = await self.hub.mirror.body(task['run'])
            steps = job_in(json.loads(body), task['job']).get('steps') if body else None
            self.titles[task['lease']] = [title_of(step) for step in steps] if isinstance(steps, list) else []

    def steps(self, task: Task, state: Any) -> None:
        """Marks steps that have begun and ended. What comes before the first one is a step of its own."""
        place = self.place(task)
        begun = [step for step in state.steps if nanoseconds(step, 'started_at') and 0 <= step.id < MAX_STEPS]
        self.logs.step(*place, SET_UP, 'Set up job', 0, milliseconds(nanoseconds(state, 'started_at')))
        if begun:
            self.end(task, SET_UP, 'success', begun[0].log_index, nanoseconds(begun[0], 'started_at'))
        elif state.result:
            self.end(task, SET_UP, OUTCOMES.get(state.result, 'failure'), 1 << 53, nanoseconds(state, 'stopped_at'))
        titles = self.titles[task['lease']]
        for step in begun:
            number, begin, stopped = step.id, self.offset(task, step.log_index), nanoseconds(step, 'stopped_at')
            title = titles[number] if number < len(titles) else f'Step {number}'
            self.logs.step(*place, FIRST + number, title, begin, milliseconds(nanoseconds(step, 'started_at')))
            if step.result in OUTCOMES and stopped:
                last = step.log_index + step.log_length
                self.end(task, FIRST + number, OUTCOMES[step.result], last, stopped)

    def end(self, task: Task, number: int, outcome: str, line: int, at: int | None) -> None:
        """Marks the end of a step."""
        self.logs.step_end(*self.place(task), number, outcome, self.offset(task, line), milliseconds(at))

    def refuse(self, lease: Lease, why: str) -> None:
        """Says why a leg does not run, in its log and as an annotation."""
        try:
            self.logs.append(*lease.place, 0, f'{iso_exact(now())} not run: {why}\n'.encode())
        except LogError as fault:
            say(str(fault))
        self.mark(lease, {'annotation': {'annotation_level': 'failure', 'message': f'not run: {why}'}})

    def complete(self, task: Task) -> None:
        """All of the log is there."""
        lease = self.leases.get(task['run'], task['lease'])
        if lease is not None:
            self.mark(lease, {'complete': True})
        self.offsets.pop(task['lease'], None)
        self.titles.pop(task['lease'], None)

    def mark(self, lease: Lease, mark: dict[str, Any]) -> None:
        """Notes something of a leg, as the marks of a runner do."""
        line = json.dumps({**mark, 'at': now(), 'bytes': self.logs.size(*lease.place)}).encode() + b'\n'
        self.findings.take(lease, self.findings.size(lease), line)
