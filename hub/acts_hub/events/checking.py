"""Judges a workflow before it is pushed: which events start nothing, and what hub, service and runner refuse."""
from __future__ import annotations

import json
import pathlib
import subprocess
import tempfile
from dataclasses import asdict, dataclass, field
from typing import Any, Iterator, Mapping

from acts_runner.job import Job
from acts_runner.options import Options
from acts_runner.plan import Plan
from acts_workflow import cron, filters, inputs, profile, reading
from acts_workflow.filters import as_list, triggers_of
from acts_workflow.members import REQUIRED
from acts_workflow.values import Fault, Unknown, text_of

from .bodies import Sent, Server, Source
from .occasions import Occasion
from .refusals import line_in, of_fault
from .settings import Repository, Settings
from .starts import NOT_TAKEN, RULES, TYPES, Happening, not_wanted

SHA = 40 * '0'
SECONDS = 60  # of the program of the service
FACTS = {  # of the kind that a hub gives to a runner
    'attempt': 1, 'check_run_id': 1, 'strategy': {'job-total': 1, 'max-parallel': 1},
    'github': {'run_number': '1', 'run_attempt': '1'},
    'github_defaults': {**{name: 'https://ci.example.org' for name in ('server_url', 'api_url', 'graphql_url')},
                        **{name: '1' for name in ('repository_id', 'repository_owner_id', 'retention_days')}}}


class CheckError(Exception):
    """The check can't be made, in words."""


@dataclass(frozen=True)
class Finding:
    """What would happen: to an event, at a line of the file, in words. `fault` is False for what is no fault."""

    event: str
    words: str
    line: int | None = None
    fault: bool = True

    def text(self, path: str) -> str:
        """A line for people."""
        return f'{path}{f":{self.line}" if self.line else ""}: {self.event}{": " if self.event else ""}{self.words}'


@dataclass(frozen=True)
class Checker:
    """What is judged: a file of a working copy, on a branch or tag."""

    folder: pathlib.Path
    path: str
    ref: str
    repository: Repository
    variables: dict[str, Any]
    program: str
    runner: Options | None
    texts: Mapping[str, str] = field(default_factory=dict)

    def findings(self) -> list[Finding]:
        """All that is found."""
        try:
            workflow = reading.read(self.texts[self.path])
            triggers = triggers_of(workflow.get('on'))
        except Fault as fault:
            return [self.of_fault('', fault)]
        found = [each for event in triggers for each in self.of_event(event, triggers[event], workflow)]
        return list(dict.fromkeys(found))

    def of_fault(self, event: str, fault: Fault) -> Finding:
        """A fault with its line, and what to write."""
        refusal = of_fault(fault, self.path, self.texts)
        return Finding(event, f'{refusal.words} {refusal.advice}'.strip(), refusal.line)

    def at(self, place: str) -> int | None:
        """The line of a place."""
        return line_in(self.texts, self.path, place)

    def of_event(self, event: str, given: Any, workflow: dict[str, Any]) -> Iterator[Finding]:
        """What is found of one event."""
        line = self.at(f'on.{event}') if isinstance(workflow.get('on'), dict) else self.at('on')
        if why := self.starts_nothing(event):
            yield Finding(event, f'starts nothing: {why}', line, event != 'workflow_call')
            return
        yield from self.of_filters(event, given, line)
        try:
            if event == 'workflow_dispatch':
                inputs.forms_of(given.get('inputs'))
            why = not_wanted(workflow.get('on'), self.happening(event, given))
            if why:
                yield Finding(event, f'starts nothing on {self.ref}: {why}', line, False)
            sent = self.source(event, workflow).event(self.path, workflow)
        except Fault as fault:
            yield self.of_fault(event, fault)
            return
        yield from self.by_service(event, sent)
        yield from self.by_runner(event, sent)

    def starts_nothing(self, event: str) -> str | None:
        """Why an event starts nothing, whatever its filters; None if it may."""
        if event in NOT_TAKEN and event not in RULES:
            return NOT_TAKEN[event]
        if event not in RULES:
            return 'no such event is taken here'
        if event == 'pull_request_target' and not self.repository.pull_request_target:
            return 'the operator does not allow it for this repository'
        return None

    def of_filters(self, event: str, given: Any, line: int | None) -> Iterator[Finding]:
        """What is wrong with the filters of an event."""
        if event == 'schedule':
            for number, item in enumerate(given):
                try:
                    cron.read(item.get('cron') if isinstance(item, dict) else None)
                except Fault as fault:
                    yield Finding(event, f'starts nothing: {fault}', self.at(f'on.schedule[{number}]'))
            return
        for kind in 'branches', 'branches-ignore', 'tags', 'tags-ignore', 'paths', 'paths-ignore':
            for text in map(text_of, as_list(given.get(kind, []))):
                try:
                    filters.pattern(text.removeprefix('!'))
                except Fault as fault:
                    yield Finding(event, str(fault), self.at(f'on.{event}.{kind}'))
        for text in map(text_of, as_list(given.get('types', []))):
            if event in TYPES and text not in TYPES[event]:
                words = f'starts nothing at the type {text}: GitHub sends none of this name'
                yield Finding(event, words, self.at(f'on.{event}.types'))

    def happening(self, event: str, given: Any) -> Happening:
        """An event on this branch or tag that has the first of its types."""
        types = given.get('types') if isinstance(given, dict) else None
        action = text_of(as_list(types)[0]) if types else (RULES[event].types or (None,))[0]
        kind, name = ('tags' if self.ref.startswith('refs/tags/') else 'branches'), self.ref.split('/', 2)[2]
        listed = as_list(given.get('workflows', '')) if event == 'workflow_run' and isinstance(given, dict) else ['']
        return Happening(event, action, kind, name, None, text_of(listed[0] if listed else ''))

    def source(self, event: str, workflow: dict[str, Any]) -> Source:
        """What an event is made from, with a payload of its form."""
        name, branch = self.repository.name, self.ref.split('/', 2)[2]
        repository = {'full_name': name, 'owner': {'login': name.split('/')[0]}}
        payload: dict[str, Any] = {'ref': self.ref, 'repository': repository, 'sender': {'login': 'octocat'}}
        occasion = Occasion(Happening(event, None, 'branches', branch), SHA, SHA, self.ref)
        if RULES[event].place == 'pull':
            end = {'ref': branch, 'sha': SHA, 'repo': {'full_name': name}}
            payload.update(action='opened', number=1, pull_request={'number': 1, 'base': end, 'head': end})
            happening = Happening(event, 'opened', 'branches', branch)
            occasion = Occasion(happening, SHA, SHA, 'refs/pull/1/merge', branch, branch)
        if event == 'workflow_dispatch':
            payload.update(inputs=sample(triggers_of(workflow.get('on'))[event].get('inputs')), workflow=self.path)
        return Source(self.repository, occasion, payload, self.texts, self.variables, Server('', Settings()))

    def by_service(self, event: str, sent: Sent) -> Iterator[Finding]:
        """What the service would refuse, as its own program says."""
        told = {f'{note.number} {note.place}': note.text for note in sent.notes}
        for line in self.asked('lint', sent).splitlines():
            where, _, meaning = line.partition(': ')
            number, _, place = where.partition(' ')
            text = told.get(where, '')
            advice = profile.advice(int(number) if number.isdecimal() else None, text)
            said = f'refused {where}: {meaning}' + (f': {text}.' if text else '.')
            yield Finding(event, f'{said} {advice}'.strip(), self.at(place))

    def asked(self, command: str, sent: Sent) -> str:
        """What the program of the service says of a workflow."""
        try:
            workflow = json.dumps(json.loads(sent.body)['workflow'])
            done = subprocess.run([self.program, command], input=workflow, capture_output=True, text=True,
                                  timeout=SECONDS)
        except (OSError, subprocess.TimeoutExpired) as fault:
            raise CheckError(f'{self.program}: {fault}') from None
        if done.returncode not in (0, 1) or command == 'lint' and done.stderr:
            raise CheckError(f'{self.program} {command}: {done.stderr.strip()}')
        return done.stdout

    def by_runner(self, event: str, sent: Sent) -> Iterator[Finding]:
        """What a runner with these options would refuse of a leg."""
        if self.runner is None:
            return
        jobs = json.loads(sent.body)['workflow']['jobs']
        for line in self.asked('check', sent).splitlines():
            job, leg, combination = line.split(' ', 2)
            if jobs[job].get('if') is False:
                continue
            for words in runner_faults(sent.body, job, leg, combination, self.runner):
                place = words.partition(':')[0].split(' ')[0]
                yield Finding(event, f'a runner refuses {words}', self.at(place))


def sample(forms: Any) -> dict[str, Any]:
    """Inputs that are right: one for each that is required and has no default."""
    kinds = {'boolean': 'true', 'number': '1'}
    return {name: kinds.get(form.get('type', 'string'), 'x') for name, form in inputs.forms_of(forms).items()
            if form.get('required') and form.get('default') in (None, '') and form.get('type') != 'choice'}


def runner_faults(body: bytes, job: str, leg: str, combination: str, options: Options) -> list[str]:
    """What a runner's plan of a leg says. What comes of the jobs before it is not known yet."""
    with tempfile.TemporaryDirectory() as folder:
        held = {'lease': '1', 'run': '1', 'job': job, 'leg': leg, 'combo': combination, 'claim': '1', 'present': None,
                'body': None}
        here = {**asdict(options), 'work': folder, 'logs': folder}
        try:
            made = Job({'leg': held, 'body': body.decode(), 'options': here, 'facts': FACTS}, [])
            made.needs = {str(need): Unknown() for need in as_list(made.job.get('needs', []))}
            if options.secrets is None:  # nobody has said which there are
                made.job.pop(REQUIRED, None)
            return Plan.of_all(made)
        except (ValueError, KeyError, TypeError, AttributeError, OSError) as fault:
            return [f'jobs.{job}: not of the form of a job ({fault!r})']
