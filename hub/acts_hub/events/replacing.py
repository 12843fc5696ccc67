"""Texts of a called workflow in the one that calls it: inputs become constants, and jobs get other ids."""
from __future__ import annotations

import json
import re
from typing import AbstractSet, Any, Mapping

from acts_workflow.expressions import parts, whole
from acts_workflow.filters import as_list
from acts_workflow.profile import NAME
from acts_workflow.values import Fault, Known, Unknown, Value, text_of

REFERENCE = re.compile(r"'(?:[^']|'')*'|(?<![\w.-])(inputs|secrets|needs)(?![\w-])"
                       r"(?:\s*\.\s*([A-Za-z_][\w-]*)|\s*\[\s*'((?:[^']|'')*)'\s*\])?", re.I)
OUTPUT = re.compile(rf"'(?:[^']|'')*'|(?<![\w.-])needs\s*\.\s*({NAME})\s*\.\s*outputs\s*\.\s*({NAME})(?![\w-])", re.I)
Tree = dict[str, Any]


def secrets_of(job: Tree, place: str) -> dict[str, str] | None:
    """The expression for each secret that a call passes on; None if it passes on all under their names."""
    secrets = job.get('secrets') or {}
    if secrets == 'inherit':
        return None
    if not isinstance(secrets, dict):
        raise Fault('they are neither `inherit` nor an object', f'{place}.secrets')
    made = {'github_token': 'secrets.GITHUB_TOKEN'}
    for name, text in secrets.items():
        expression = whole(str(text))
        if expression is None:
            raise Fault('it is no expression', f'{place}.secrets.{name}')
        made[name.lower()] = f'({expression.strip()})'
    return made


class Rewritten:
    """Rewrites the expressions of a job, each by `expression`."""

    def expression(self, text: str) -> str:
        """What stands for an expression."""
        raise NotImplementedError

    def job(self, job: Tree) -> Tree:
        """The job with all of its expressions rewritten."""
        made: Tree = self.texts(job)
        if isinstance(made.get('steps'), list):
            made['steps'] = [self.step(step) for step in made['steps']]
        return made

    def step(self, step: Any) -> Any:
        """A step, whose `if` may be an expression without braces."""
        return {**step, 'if': self.condition(step['if'])} if isinstance(step, dict) and 'if' in step else step

    def condition(self, text: Any) -> Any:
        """The `if` of a step, which needs no braces."""
        return self.expression(text) if isinstance(text, str) and '${{' not in text else text

    def texts(self, value: Any) -> Any:
        """A value with all of its texts replaced."""
        if isinstance(value, dict):
            return {name: self.texts(item) for name, item in value.items()}
        if isinstance(value, list):
            return [self.texts(item) for item in value]
        if not isinstance(value, str):
            return value
        return ''.join('${{' + self.expression(part.text) + '}}' if part.node else part.text for part in parts(value))


class OutputsOfCalls(Rewritten):
    """Puts the outputs of jobs that were put in place where a job asks for those of the call."""

    def __init__(self, outputs: Mapping[str, Mapping[str, str]]) -> None:
        self.outputs = outputs

    def expression(self, text: str) -> str:
        """An expression in the terms of the jobs that are there."""
        return OUTPUT.sub(self.output, text)

    def output(self, found: re.Match[str]) -> str:
        """What stands for one reference: null for an output that the called workflow does not have."""
        known = self.outputs.get(found[1] or '')
        return found[0] if known is None else known.get(found[2].lower(), 'null')


class Replaced(Rewritten):
    """Replaces inputs, secrets and the ids of jobs in the jobs of one call."""

    def __init__(self, inputs: Mapping[str, Value], secrets: Mapping[str, str] | None, ids: Mapping[str, str],
                 skipped: AbstractSet[str], place: str) -> None:
        self.inputs, self.secrets = {name.lower(): value for name, value in inputs.items()}, secrets
        self.ids, self.skipped, self.place = ids, skipped, place

    def job(self, job: Tree) -> Tree:
        """A job as it stands in the workflow that calls."""
        made = super().job(job)
        if 'needs' in job:
            made['needs'] = [self.ids.get(need, need) for need in as_list(job['needs'])]
        return made

    def expression(self, text: str) -> str:
        """An expression in the terms of the workflow that calls."""
        return REFERENCE.sub(self.reference, text)

    def reference(self, found: re.Match[str]) -> str:
        """What stands for one reference."""
        context, name = (found[1] or '').lower(), found[2] if found[2] is not None else found[3]
        if context == 'needs' and name in self.ids:
            return f'needs.{self.ids[name]}'
        if context == 'needs' and name in self.skipped:
            return constant({'result': 'skipped', 'outputs': {}})
        if context == 'inputs':
            return self.input(name)
        if context == 'secrets' and self.secrets is not None:
            if name is None:
                raise Fault('the called workflow asks for all of them', f'{self.place}.secrets')
            return self.secrets.get(name.lower(), 'null')
        return found[0]

    def input(self, name: str | None) -> str:
        """What stands for one of the inputs, or for all of them."""
        if name is not None:
            value = self.inputs.get(name.lower())
            return (value.text or 'null') if isinstance(value, Unknown) else constant(value)
        known: dict[str, Known] = {}
        for each, value in self.inputs.items():
            if isinstance(value, Unknown):
                raise Fault('the called workflow asks for all inputs at once, of which one is not known before the run',
                            f'{self.place}.with')
            known[each] = value
        return constant(known)


def constant(value: Known) -> str:
    """An expression for a value."""
    if isinstance(value, dict):
        return "fromJSON('" + json.dumps(value, ensure_ascii=False).replace("'", "''") + "')"
    if isinstance(value, str):
        return "'" + value.replace("'", "''") + "'"
    return 'null' if value is None else text_of(value)
