"""Which runs a list shows: fields, and words with GitHub's qualifiers; parts of texts match, whatever their case."""
from __future__ import annotations

import bisect
import itertools
import re
from collections.abc import Callable, Iterable, Mapping, Sequence
from dataclasses import dataclass, field, replace
from typing import Any
from urllib.parse import urlencode

from ..service.mirror import Run, Runs
from .names import title_of, workflow_of
from .texts import cleaned

PAGE = 25
MOST_WORDS, MOST_TEXT = 20, 300
FIELDS = ('workflow', 'branch', 'event', 'status', 'actor')
STATUSES = (('queued', 'Queued'), ('in_progress', 'In progress'), ('waiting', 'Waiting'), ('completed', 'Completed'),
            ('success', 'Success'),
            ('failure', 'Failure'), ('cancelled', 'Cancelled'), ('skipped', 'Skipped'))
_ALIASES = {'failed': 'failure', 'canceled': 'cancelled', 'running': 'in_progress', 'pending': 'waiting',
            'succeeded': 'success'}
_TOKEN = re.compile(r'(?:(workflow|branch|event|is|status|conclusion|actor):)?(?:"([^"]*)"|(\S+))')


@dataclass(frozen=True)
class Wanted:
    """What a list is narrowed to. An empty text takes everything."""

    q: str = ''
    workflow: str = ''
    branch: str = ''
    event: str = ''
    status: str = ''
    actor: str = ''
    words: tuple[str, ...] = ()
    fields: Mapping[str, str] = field(default_factory=dict)  # those of the form alone, without those of the search

    @property
    def is_empty(self) -> bool:
        """Whether it takes every run."""
        return not (self.words or any(getattr(self, name) for name in FIELDS))

    def query(self, **more: object) -> str:
        """The address of a list with these filters, from `?` on; empty without any."""
        given: dict[str, object] = {'q': self.q, **self.fields, **more}
        text = urlencode({name: value for name, value in given.items() if value})
        return f'?{text}' if text else ''


def words_of(query: Mapping[str, str], name: str = 'q') -> str:
    """What a person typed into a field."""
    return cleaned(query.get(name, '')[:MOST_TEXT]).strip()


def wanted_of(query: Mapping[str, str]) -> Wanted:
    """The filters of an address. Those in the search are as good as those in fields."""
    q = words_of(query)
    fields: dict[str, Any] = {name: words_of(query, name) for name in FIELDS}
    of_form = {name: value for name, value in fields.items() if value}
    words = []
    for name, quoted, bare in itertools.islice(_TOKEN.findall(q), MOST_WORDS):
        value = quoted or bare
        name = 'status' if name in ('is', 'conclusion') else name
        if name:
            fields[name] = fields[name] or value
        elif value:
            words.append(value.casefold())
    status = fields['status'].lower().replace(' ', '_')
    fields['status'] = _ALIASES.get(status, status)
    return Wanted(q=q, **fields, words=tuple(words), fields=of_form)


def tests_of(wanted: Wanted, state_of: Callable[[Run], str]) -> list[Callable[[Run], bool]]:
    """What a run has to pass, cheap tests first."""
    tests: list[Callable[[Run], bool]] = []
    if wanted.status:
        tests.append(_status_test(wanted.status, state_of))
    for value, text_of in ((wanted.event, lambda run: run.row.event),
                           (wanted.branch, lambda run: run.facts.branch or ''),
                           (wanted.actor, lambda run: run.facts.actor or ''),
                           (wanted.workflow, lambda run: f'{workflow_of(run)}\n{run.row.path}')):
        if value:
            tests.append(_part_test(value.casefold(), text_of))
    for word in wanted.words:
        tests.append(_part_test(word, searched))
    return tests


def searched(run: Run) -> str:
    """The text of a run that words are searched in."""
    facts = run.facts
    pull = f'#{facts.pull_number} {facts.pull_title or ""}' if facts.pull_number else ''
    return '\n'.join((title_of(run), workflow_of(run), f'#{run.row.number} {run.row.run}', facts.sha or '',
                      facts.branch or '', facts.actor or '', pull))


def _part_test(part: str, text_of: Callable[[Run], str]) -> Callable[[Run], bool]:
    return lambda run: part in text_of(run).casefold()


def _status_test(status: str, state_of: Callable[[Run], str]) -> Callable[[Run], bool]:
    if status == 'completed':
        return lambda run: run.row.status == 'completed'
    if status == 'waiting':
        return lambda run: run.row.status in ('pending', 'waiting')
    return lambda run: state_of(run) == status


@dataclass(frozen=True)
class Page:
    """A page of runs, newest first; where the pages beside it begin, if there are any."""

    runs: tuple[Run, ...]
    older: int | None
    newer: int | None


def page_of(runs: Runs, tests: Sequence[Callable[[Run], bool]], before: int | None, after: int | None,
            size: int = PAGE) -> Page:
    """The newest runs that pass, those below the id `before`, or those above the id `after`; ids ascend."""
    def passes(run: Run) -> bool:
        return all(test(run) for test in tests)

    ids = runs.ids
    if after is not None:
        first = bisect.bisect_right(ids, after)
        found = list(itertools.islice(filter(passes, itertools.islice(runs, first, None)), size + 1))
        chosen, has_newer = tuple(reversed(found[:size])), len(found) > size
        if len(chosen) == size or has_newer:
            return Page(chosen, chosen[-1].row.run, chosen[0].row.run if has_newer else None)
        before = None  # the first page is full whenever there are that many
    last = len(runs) if before is None else bisect.bisect_left(ids, before)
    found = list(itertools.islice(filter(passes, _downwards(runs, last)), size + 1))
    has_newer = before is not None and any(passes(run) for run in _downwards(runs, len(runs), last))
    chosen = tuple(found[:size])
    return Page(chosen, chosen[-1].row.run if len(found) > size else None,
                (chosen[0].row.run if chosen else (before or 1) - 1) if has_newer else None)


def _downwards(runs: Sequence[Run], last: int, first: int = 0) -> Iterable[Run]:
    return (runs[at] for at in range(last - 1, first - 1, -1))


def only_of(wanted: Wanted, path: str) -> Wanted:
    """The same filters for one workflow's list, where its name is not a filter."""
    return replace(wanted, workflow='') if path else wanted
