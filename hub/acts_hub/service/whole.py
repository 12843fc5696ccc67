"""Whole runs in any attempt, put together from what the service shows and what the ledger keeps."""
from __future__ import annotations

from collections.abc import Mapping
from typing import Any

from ..ledger.attempts import AttemptNote, LegKey, LegNote
from .facts import Facts
from .models import Json, Whole

ENDS = 'success', 'failure', 'cancelled'
JOB_ENDS = (*ENDS, 'skipped')


def whole_of(json: Json, legs: Mapping[LegKey, LegNote], facts: Facts) -> Whole:
    """A run as the service shows it, with the times of its legs and the names of its jobs."""
    jobs = []
    for job in json['jobs']:
        timed = [{**leg, **_noted(legs.get((job['id'], leg['leg'])), leg)} for leg in job['legs']]
        jobs.append({**job, 'legs': timed, 'name': facts.job_names.get(job['id'])})
    shown = {'sha': facts.sha, 'actor': facts.actor, 'title': facts.title, 'ref_name': facts.branch}
    return Whole.of({**json, **{name: json.get(name) or value for name, value in shown.items()}, 'jobs': jobs})


def _noted(note: LegNote | None, leg: Json) -> Json:
    """The times of a leg and its runner, which the service shows while it holds the lease, if the note is of the same lease."""
    if note is None or (note.lease is not None and leg['lease'] is not None and note.lease != leg['lease']):
        return {'started_at': None, 'ended_at': None}
    has_ended = leg['state'] in ENDS or leg['state'] is None
    return {'started_at': note.started_at, 'ended_at': note.ended_at if has_ended else None, 'runner': leg['runner'] or (note.runner if leg['lease'] else None)}


def rebuilt(present: Json, attempt: int, note: AttemptNote | None, legs: Mapping[LegKey, LegNote], seen: Json | None) -> Json:
    """An earlier attempt that the service has forgotten: its jobs are those of the present one, the last look at it and what runners did say the rest.
    What nobody saw is None."""
    last = {job['id']: job for job in seen['jobs']} if seen else {}
    jobs = [_job(job, last.get(job['id']), {leg: one for (name, leg), one in legs.items() if name == job['id']}) for job in present['jobs']]
    status = 'completed' if attempt < present['attempt'] else present['status']
    return {**present, 'attempt': attempt, 'status': status, 'conclusion': note.conclusion if note else None, 'stopping': False, 'waits_for': None, 'jobs': jobs}


def _job(job: Json, seen: Json | None, notes: Mapping[int, LegNote]) -> Json:
    shown = {leg['leg']: leg for leg in seen['legs']} if seen else {}
    legs = [_leg(number, shown.get(number), notes.get(number), job) for number in sorted({*shown, *notes})]
    state = seen['state'] if seen and seen['state'] in JOB_ENDS else None
    return {**job, 'state': state, 'legs': legs}


def _leg(number: int, seen: Json | None, note: LegNote | None, job: Json) -> Json:
    note = note or LegNote(job['id'], number)
    present = next((leg for leg in job['legs'] if leg['leg'] == number), None)
    like: Json = seen or present or {'combination': note.combination or {}, 'labels': list(note.labels), 'group': None}
    state = note.state if note.state in ENDS else seen['state'] if seen and seen['state'] in ENDS else None
    lease, runner = note.lease, note.runner
    if lease is None and seen:
        lease, runner = seen['lease'], seen['runner']
    combination = note.combination if note.combination is not None else like['combination']
    return {'leg': number, 'combination': combination, 'state': state, 'lease': lease, 'runner': runner, 'labels': like['labels'], 'group': like['group'],
            'waits_for': None}


def is_skipped(json: Json) -> bool:
    """Whether every job of a run that has ended was skipped."""
    return bool(json['jobs']) and all(job['state'] == 'skipped' for job in json['jobs'])


def leg_states(json: Json) -> dict[LegKey, dict[str, Any]]:
    """The legs of a run as the service shows it, by job and number."""
    return {(job['id'], leg['leg']): leg for job in json['jobs'] for leg in job['legs']}


def leg_count(json: Json) -> int:
    """How many legs a run has so far."""
    return sum(len(job['legs']) for job in json['jobs'])
