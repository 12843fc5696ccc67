"""A workflow of a repository as the service takes it: constants in place of what the sender of the event knows."""
from __future__ import annotations

import json
import re
import time
from dataclasses import dataclass
from typing import Any, Callable, Mapping

from acts_workflow import matrices, profile, reading
from acts_workflow.expressions import condition, evaluate, has_open_braces, parts, whole
from acts_workflow.values import Fault, Known, Unknown, Value, text_of, truth

from . import calls

SECONDS = 10  # for the expressions of one workflow
LONGEST = 1 << 20  # characters that its expressions make
APPROVED = 'approved-${{ github.run_id }}'  # the label that claims have once someone has approved the run
FOLDED = 'runs-on', 'concurrency', 'continue-on-error', 'strategy'
Tree = dict[str, Any]
Environments = Mapping[str, bool]  # names in small letters, and whether a job waits there for an approval


@dataclass(frozen=True)
class Note:
    """What the service does not take: the number of its refusal, the place, and the text there."""

    number: int
    place: str
    text: str


def quoted(value: Any) -> Any:
    """The value, escaped so that the service finds no expression in it."""
    if isinstance(value, dict):
        return {name: quoted(item) for name, item in value.items()}
    if isinstance(value, list):
        return [quoted(item) for item in value]
    return '${{ ' + literal(value) + ' }}' if isinstance(value, str) and set(value) & set('${') else value


def literal(text: str) -> str:
    """An expression for a text."""
    return "'" + text.replace("'", "''") + "'"


def without_fractions(value: Any) -> Any:
    """The value with each fraction as the text that GitHub prints: a matrix of the service has whole numbers alone."""
    if isinstance(value, dict):
        return {name: without_fractions(item) for name, item in value.items()}
    if isinstance(value, list):
        return [without_fractions(item) for item in value]
    if not isinstance(value, float):
        return value
    return int(value) if value.is_integer() and abs(value) < 1e15 else text_of(value)


def shown(value: Any) -> str:
    """A value of a workflow as a short text for people."""
    return value if isinstance(value, str) else json.dumps(value, ensure_ascii=False)


class Limits:
    """What one workflow may take, with all that it calls."""

    def __init__(self) -> None:
        self.ends, self.made = time.monotonic() + SECONDS, 0

    def check(self) -> None:
        """Faults a workflow whose expressions take too long."""
        if time.monotonic() > self.ends:
            raise Fault(f'its expressions take over {SECONDS} seconds')

    def text(self, text: str) -> str:
        """A text that was made, which counts."""
        self.made += len(text)
        if self.made > LONGEST:
            raise Fault(f'its expressions make over {LONGEST:,} characters', number=24)
        return text


class Folding:
    """Replaces with constants what the contexts give. `notes` lists what the service does not take. `environments`
    are those that jobs may name; `read_file` gives the text of a file of the repository. What must not be sent is a
    `Fault`."""

    def __init__(self, contexts: Mapping[str, Known], environments: Environments | None = None,
                 read_file: Callable[[str], str | None] | None = None, depth: int = 0,
                 limits: Limits | None = None) -> None:
        self.contexts, self.environments, self.read_file, self.depth = contexts, environments, read_file, depth
        self.limits = limits or Limits()
        self.notes: list[Note] = []

    def within(self, inputs: Mapping[str, Value]) -> Folding:
        """What is known in a workflow that is called with these inputs."""
        known: dict[str, Any] = dict(inputs)
        contexts: dict[str, Known] = {**self.contexts, 'inputs': known}
        return Folding(contexts, self.environments, self.read_file, self.depth + 1, self.limits)

    def beside(self, contexts: Mapping[str, Known]) -> Folding:
        """What is known with these contexts besides."""
        known: dict[str, Known] = {**self.contexts, **contexts}
        return Folding(known, self.environments, self.read_file, self.depth, self.limits)

    def evaluate(self, text: str) -> Value:
        """The value of an expression, as far as it is known."""
        self.limits.check()
        return evaluate(text, self.contexts)

    def called(self, path: str) -> Tree:
        """The workflow in a file of the repository."""
        text = self.read_file(path) if self.read_file else None
        if text is None:
            raise Fault('there is no such file', path)
        return reading.read(text)

    def workflow(self, workflow: Tree) -> Tree:
        """The workflow with what is known in it, and with the jobs of called workflows in place of the calls."""
        made = dict(workflow)
        if 'concurrency' in made:
            made['concurrency'] = self.template(made['concurrency'], 'concurrency')
        if isinstance(made.get('jobs'), dict):
            if len(made['jobs']) > profile.MOST_JOBS:
                raise Fault(f'over {profile.MOST_JOBS} jobs', 'jobs', number=23)
            made['jobs'] = {name: self.job(job, f'jobs.{name}') if isinstance(job, dict) else job
                            for name, job in made['jobs'].items()}
            made = calls.in_place(made, self)
        return made

    def sent(self, workflow: Tree) -> Tree:
        """The workflow as it is sent: also its name for a run, and the environments of its jobs."""
        made = self.workflow(workflow)
        if isinstance(made.get('run-name'), str):
            made['run-name'] = self.partly(made['run-name'])
        for name, job in made['jobs'].items() if isinstance(made.get('jobs'), dict) else ():
            if isinstance(job, dict) and 'environment' in job:
                made['jobs'][name] = self.in_environment(job, f'jobs.{name}')
        return made

    def job(self, job: Tree, place: str) -> Tree:
        """A job with what is known in it."""
        made = dict(job)
        for member in FOLDED:
            if member in made:
                made[member] = self.template(made[member], f'{place}.{member}')
        if isinstance(made.get('if'), str):
            made['if'] = self.condition(made['if'], f'{place}.if')
        if 'uses' in made and not calls.path_of(made) or isinstance(made.get('runs-on'), dict):
            member = 'uses' if 'uses' in made else 'runs-on'
            self.notes.append(Note(16, f'{place}.{member}', shown(made[member])))
        if isinstance(made.get('strategy'), dict):
            made['strategy'] = self.strategy(made['strategy'], f'{place}.strategy')
        return made

    def in_environment(self, job: Tree, place: str) -> Tree:
        """A job whose environment is known, with the label of an approval if it has to wait for one."""
        given = job['environment']
        value = given.get('name') if isinstance(given, dict) else given
        if job.get('if') is False or self.environments is None or value is None:
            return job
        names = self.names_of(value, job, f'{place}.environment')
        waits = {self.environments.get(name.lower()) for name in names if name}
        if None in waits:
            unknown = next(name for name in names if name and name.lower() not in self.environments)
            raise Fault(f'{unknown[:100]} is not named as an environment', f'{place}.environment')
        if len(waits) > 1:
            raise Fault('some combinations wait for an approval and others do not', f'{place}.environment')
        made = {**job, 'environment': self.settled(given)}
        if True in waits:
            labels = made.get('runs-on', [])
            made['runs-on'] = [*(labels if isinstance(labels, list) else [labels]), APPROVED]
        return made

    def names_of(self, value: Any, job: Tree, place: str) -> list[str]:
        """The environments that a job may be in: one for each combination, if the name depends on the matrix."""
        name = self.value(value)
        if not isinstance(name, Unknown):
            return [text_of(name)]
        strategy = job.get('strategy')
        matrix = strategy.get('matrix') if isinstance(strategy, dict) else None
        rows = matrices.combinations(matrix) if isinstance(matrix, dict) else []
        names = [self.beside({'matrix': row}).value(value) for row in rows]
        known = [text_of(each) for each in names if not isinstance(each, Unknown)]
        if not known or len(known) < len(names):
            raise Fault(f'{shown(value)[:200]} is not known before the run', place)
        return known

    def settled(self, given: Any) -> Any:
        """An environment with its name as far as it is known; its address is the runner's."""
        if isinstance(given, dict):
            return {**given, 'name': self.settled(given.get('name'))}
        name = self.value(given)
        return given if isinstance(name, Unknown) else text_of(name)

    def value(self, value: Any) -> Value:
        """A text with its expressions evaluated, or `Unknown` if one is not known here; another value as it is."""
        if not isinstance(value, str) or '${{' not in value:
            known: Known = value
            return known
        expression = whole(value)
        if expression is not None and value == value.strip():
            return self.evaluate(expression)
        found = [self.evaluate(part.text) if part.node else part.text for part in parts(value)]
        texts = [text_of(each) for each in found if not isinstance(each, Unknown)]
        return self.limits.text(''.join(texts)) if len(texts) == len(found) else Unknown()

    def partly(self, text: str) -> str:
        """A text with those of its expressions evaluated that are known here."""
        made = []
        for part in parts(text):
            value = self.evaluate(part.text) if part.node else part.text
            made.append(str(part) if isinstance(value, Unknown) else self.limits.text(text_of(value)))
        return ''.join(made)

    def condition(self, text: str, place: str) -> bool | str:
        """A condition as the service takes it."""
        self.limits.check()
        expression = whole(text)
        value = condition(text if expression is None else expression, self.contexts)
        if value != '?':
            return value
        self.notes.append(Note(26, place, text))
        return text

    def strategy(self, strategy: Tree, place: str) -> Tree:
        """A strategy of which the matrix has no fractions."""
        self.notes += [Note(25, f'{place}.{name}', value) for name, value in strategy.items() if isinstance(value, str)]
        matrix = without_fractions(strategy.get('matrix'))
        for name, values in matrix.items() if isinstance(matrix, dict) else ():
            if not isinstance(values, list):
                self.notes.append(Note(19, f'{place}.matrix.{name}', shown(values)))
            elif name not in ('include', 'exclude'):
                self.notes += [Note(19, f'{place}.matrix.{name}[{at}]', shown(value)) for at, value in enumerate(values)
                               if isinstance(value, (list, dict))]
        return {**strategy, 'matrix': matrix} if 'matrix' in strategy else strategy

    def template(self, value: Any, place: str) -> Any:
        """A text that is one expression becomes a value of any kind in a strategy, a list in `runs-on`, an object in
        `runs-on` and for `concurrency`; elsewhere a text, as the service wants it."""
        if isinstance(value, dict):
            return {name: self.template(item, f'{place}.{name}') for name, item in value.items()}
        if isinstance(value, list):
            return [self.template(item, f'{place}[{at}]') for at, item in enumerate(value)]
        if not isinstance(value, str) or '${{' not in value:
            return value
        in_strategy = '.strategy.' in place
        expression = whole(value) if value == value.strip() else None
        if expression is not None:
            known = self.evaluate(expression)
            if in_strategy and not isinstance(known, Unknown):
                return known
            if isinstance(known, list) and place.endswith('.runs-on'):
                return quoted([text_of(item) for item in known])
            if isinstance(known, dict) and place.endswith(('.runs-on', 'concurrency')):
                return quoted(known)
        if has_open_braces(value):
            self.notes.append(Note(17, place, value))
        return ''.join(self.limits.text(self.piece(part.text, place, in_strategy)) if part.node else part.text
                       for part in parts(value))

    def piece(self, text: str, place: str, in_strategy: bool) -> str:
        """What stands for one expression in a template."""
        known, braced = self.evaluate(text), '${{' + text + '}}'
        if not isinstance(known, Unknown):
            value: str = text_of(known) if in_strategy else quoted(text_of(known))
            return value
        if not (profile.PIECE if in_strategy else profile.CHAIN).fullmatch(text):
            self.notes.append(Note(17, place, braced))
        elif place.startswith('concurrency') and profile.OF_A_JOB.search(text):
            self.notes.append(Note(18, place, braced))
        elif not in_strategy:
            return self.chain(re.findall(profile.LINK, text)) or braced
        return braced

    def chain(self, operands: list[str]) -> str | None:
        """The alternatives of a piece, with a text for each that is known. None for one alone."""
        left: list[str] = []
        for at, operand in enumerate(operands):
            known = self.evaluate(operand)
            if isinstance(known, Unknown):
                left.append(operand)
                continue
            if truth(known) or at == len(operands) - 1:
                left.append(literal(text_of(known)))
            if truth(known):
                break
        return '${{ ' + ' || '.join(left) + ' }}' if len(operands) > 1 else None
