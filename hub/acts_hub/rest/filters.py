"""Which runs a list asks for."""
from __future__ import annotations

from collections.abc import Mapping, Sequence
from datetime import date, datetime, time, timedelta, timezone

from ..service.mirror import Mirror, Run
from .conclusions import CONCLUSIONS, STATUSES
from .errors import Fault, invalid
from .numbers import decimal

MAX_TEXT = 1024
NAMES = ('actor', 'branch', 'check_suite_id', 'created', 'event', 'head_sha', 'status')
_END_OF_TIME = 2 ** 62


def runs_of(mirror: Mirror, repository: str, query: Mapping[str, str], path: str | None = None) -> Sequence[Run]:
    """The runs of a repository, newest last, that a list asks for; `path` is that of a workflow."""
    asked = {name: query[name] for name in NAMES if query.get(name)}
    for name, value in asked.items():
        if len(value) > MAX_TEXT:
            raise Fault(422, f'{name} has at most {MAX_TEXT} characters.')
    status, conclusion = status_of(asked.get('status'))
    indexed = {'path': path, 'branch': asked.get('branch'), 'event': asked.get('event'), 'actor': asked.get('actor'),
               'status': status, 'conclusion': conclusion, 'sha': asked.get('head_sha')}
    given = {name: value for name, value in indexed.items() if value is not None}
    runs: Sequence[Run] = mirror.select(repository, **given) if given else mirror.of(repository)
    if 'check_suite_id' in asked:
        number = decimal(asked['check_suite_id'])
        if number is None:
            raise invalid('WorkflowRun', 'check_suite_id', 'check_suite_id is a whole number.')
        runs = [run for run in runs if run.row.run == number]
    if 'created' in asked:
        first, end = span_of(asked['created'])
        runs = [run for run in runs if first <= run.created_at < end]
    return runs


def status_of(text: str | None) -> tuple[str | None, str | None]:
    """The status, or the conclusion, that the filter `status` means: it takes both."""
    if text is None or text in STATUSES:
        return text, None
    if text not in CONCLUSIONS:
        raise invalid('WorkflowRun', 'status', f'status is one of {", ".join(STATUSES + CONCLUSIONS)}.')
    return None, text


def span_of(text: str) -> tuple[int, int]:
    """A span of time as GitHub's search writes it, in milliseconds: `>=DATE`, `DATE..DATE`, `*..DATE`, `DATE`."""
    if '..' in text:
        low, high = text.split('..', 1)
        return (0 if low == '*' else _moment(low)[0]), (_END_OF_TIME if high == '*' else _moment(high)[1])
    for sign in ('>=', '<=', '>', '<'):
        if text.startswith(sign):
            first, end = _moment(text[len(sign):])
            return {'>=': (first, _END_OF_TIME), '>': (end, _END_OF_TIME), '<=': (0, end), '<': (0, first)}[sign]
    return _moment(text)


def _moment(text: str) -> tuple[int, int]:
    """The milliseconds of a day or of a second: its first, and the one after its last."""
    try:
        if len(text) == 10:
            start = datetime.combine(date.fromisoformat(text), time(), timezone.utc)
            return _milliseconds(start), _milliseconds(start + timedelta(days=1))
        start = datetime.fromisoformat(text)
        start = start if start.tzinfo else start.replace(tzinfo=timezone.utc)
        return _milliseconds(start), _milliseconds(start) + 1000
    except (ValueError, OverflowError):
        raise invalid('WorkflowRun', 'created',
                      'created is a date such as 2026-11-30, or a span such as >=2026-11-30.') from None


def _milliseconds(moment: datetime) -> int:
    return int(moment.timestamp() * 1000)
