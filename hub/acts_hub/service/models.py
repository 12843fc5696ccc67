"""What the service shows, as objects."""
from __future__ import annotations

from dataclasses import dataclass
from typing import Any, TypeAlias

Json: TypeAlias = dict[str, Any]


@dataclass(frozen=True, slots=True)
class Wait:
    """What a run or leg waits for: `group`, `max_parallel` or `runner`."""

    kind: str
    group: str | None = None
    max_parallel: int | None = None

    @classmethod
    def of(cls, json: Json | None) -> Wait | None:
        """From the member `waits_for`."""
        return None if json is None else cls(json['for'], json.get('group'), json.get('max_parallel'))

    def json(self) -> Json:
        """As the service writes it."""
        named = {'group': self.group, 'max_parallel': self.max_parallel}
        return {'for': self.kind, **{name: value for name, value in named.items() if value is not None}}


@dataclass(frozen=True, slots=True)
class Row:
    """A run in a list. `conclusion` of a completed earlier attempt is None where nobody saw it."""

    run: int
    number: int
    attempt: int
    repository: str
    path: str
    workflow: str
    event: str
    delivery: str
    ref: str | None
    status: str
    conclusion: str | None
    group: str | None
    sha: str | None = None
    ref_name: str | None = None
    head_ref: str | None = None
    actor: str | None = None
    title: str | None = None

    @classmethod
    def of(cls, json: Json) -> Row:
        """From a row of `/runs`, or a run."""
        return cls(
            json['run'], json['number'], json['attempt'], json['repository'], json['path'], json['workflow'], json['event'], json['delivery'],
            json['ref'], json['status'], json['conclusion'], json['group'], json.get('sha'), json.get('ref_name'), json.get('head_ref'),
            json.get('actor'), json.get('title'))


@dataclass(frozen=True, slots=True)
class Leg:
    """A leg. `state` and the times are None where nobody saw them."""

    index: int
    combination: Json
    state: str | None
    lease: int | None
    runner: str | None
    labels: tuple[str, ...]
    group: str | None
    waits_for: Wait | None
    started_at: int | None = None
    ended_at: int | None = None

    @classmethod
    def of(cls, json: Json) -> Leg:
        """From a leg of a run."""
        return cls(json['leg'], json['combination'], json['state'], json['lease'], json['runner'], tuple(json['labels']), json['group'],
                   Wait.of(json['waits_for']), json.get('started_at'), json.get('ended_at'))


@dataclass(frozen=True, slots=True)
class Job:
    """A job with its legs. `state` is None where nobody saw it; `name` is the workflow's, else the id."""

    id: str
    state: str | None
    needs: tuple[str, ...]
    max_parallel: int | None
    legs: tuple[Leg, ...]
    name: str

    @classmethod
    def of(cls, json: Json) -> Job:
        """From a job of a run."""
        return cls(json['id'], json['state'], tuple(json['needs']), json['max_parallel'], tuple(map(Leg.of, json['legs'])), json.get('name') or json['id'])


@dataclass(frozen=True, slots=True)
class Whole:
    """A run with its jobs, in one attempt."""

    row: Row
    stopping: bool
    waits_for: Wait | None
    jobs: tuple[Job, ...]

    @classmethod
    def of(cls, json: Json) -> Whole:
        """From a run, all of whose pages of jobs are put together."""
        return cls(Row.of(json), json['stopping'], Wait.of(json['waits_for']), tuple(map(Job.of, json['jobs'])))


@dataclass(frozen=True, slots=True)
class Lease:
    """A lease that a runner holds, and its leg."""

    lease: int
    run: int
    job: str
    leg: int


@dataclass(frozen=True, slots=True)
class Runner:
    """A runner that has claimed. `labels` are None where no claim was seen."""

    name: str
    number: int
    lease: Lease | None
    heard_seconds_ago: int | None
    labels: tuple[str, ...] | None = None

    @classmethod
    def of(cls, json: Json) -> Runner:
        """From a row of `/runners`."""
        lease = json['lease']
        held = None if lease is None else Lease(lease['lease'], lease['run'], lease['job'], lease['leg'])
        labels = json.get('labels')
        return cls(json['runner'], json['number'], held, json['heard_seconds_ago'], None if labels is None else tuple(labels))


@dataclass(frozen=True, slots=True)
class Ready:
    """A leg that waits for a runner."""

    run: int
    job: str
    leg: int
    labels: tuple[str, ...]

    @classmethod
    def of(cls, json: Json) -> Ready:
        """From a row of `/queue`."""
        return cls(json['run'], json['job'], json['leg'], tuple(json['labels']))


@dataclass(frozen=True, slots=True)
class Holder:
    """A run, or a leg, that holds a concurrency group (`in_progress`) or waits for it (`pending`)."""

    repository: str
    group: str
    state: str
    run: int
    job: str | None
    leg: int | None

    @classmethod
    def of(cls, json: Json) -> Holder:
        """From a row of `/groups`."""
        return cls(json['repository'], json['group'], json['state'], json['run'], json['job'], json['leg'])


@dataclass(frozen=True, slots=True)
class Entry:
    """An entry of the history: a command and its reply."""

    place: int
    command: Json
    reply: tuple[str, ...]
    at: int | None


@dataclass(frozen=True, slots=True)
class RunLine:
    """A run whose attempt, status or conclusion is not what it was. `row` is there where the line has all members of a row."""

    run: int
    attempt: int
    status: str
    conclusion: str | None
    row: Row | None
    at: int | None


@dataclass(frozen=True, slots=True)
class LegLine:
    """A leg whose state is not what it was."""

    run: int
    attempt: int
    job: str
    leg: int
    state: str
    lease: int | None
    runner: str | None
    at: int | None


@dataclass(frozen=True, slots=True)
class Forgotten:
    """The runs with ids up to this one are forgotten."""

    through: int
    at: int | None


Change: TypeAlias = Entry | RunLine | LegLine | Forgotten


def change_of(json: Json) -> Change | None:
    """From a line of `/changes`; None for a line of a kind that is not known here."""
    at = json.get('at')
    if 'command' in json:
        return Entry(json['entry'], json['command'], tuple(json['reply'].split(' ')), at)
    if json.get('type') == 'forgotten':
        return Forgotten(json['through'], at)
    if 'job' in json and 'leg' in json:
        return LegLine(json['run'], json['attempt'], json['job'], json['leg'], json['state'], json.get('lease'), json.get('runner'), at)
    if 'run' in json and 'status' in json:
        row = Row.of(json) if 'delivery' in json else None
        return RunLine(json['run'], json['attempt'], json['status'], json['conclusion'], row, at)
    return None
