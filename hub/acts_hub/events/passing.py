"""What the inputs of a called workflow are, also where only the run or a combination knows them."""
from __future__ import annotations

import json
import re
from typing import TYPE_CHECKING, Any, Mapping, Sequence

from acts_workflow.expressions import whole
from acts_workflow.filters import as_list
from acts_workflow.inputs import inputs_of
from acts_workflow.matrices import Row
from acts_workflow.profile import NAME
from acts_workflow.values import Fault, Known, Unknown, Value, text_of

if TYPE_CHECKING:
    from .templates import Folding

MATRIX = re.compile(rf' *matrix(?: *\. *{NAME})+ *')
OUTPUT = re.compile(rf' *needs *\. *({NAME}) *\. *outputs *\. *{NAME} *')
Tree = dict[str, Any]
Inputs = dict[str, Value]


def passed_on(text: str, job: Tree, place: str) -> Unknown:
    """The expression that the jobs of a called workflow get for what only the run or a combination knows."""
    expression = whole(text)
    if expression is not None and 'strategy' in job and MATRIX.fullmatch(expression):
        return Unknown('?', expression.strip())
    output = OUTPUT.fullmatch(expression) if expression is not None else None
    if output and expression and output[1] in as_list(job.get('needs', [])):
        return Unknown('?', expression.strip())
    raise Fault(f'{text[:200]} is not known before the run', place)


def inputs_of_call(job: Tree, forms: Mapping[str, Tree], known: Folding, place: str,
                   rows: Sequence[Row | None] = (None,)) -> tuple[list[Inputs], Inputs]:
    """The inputs of a call for each combination, and those of them that are expressions in the called jobs."""
    texts = job.get('with') or {}
    passed: Inputs = {name: passed_on(text, job, f'{place}.with.{name}') for name, text in texts.items()
                      if isinstance(known.value(text), Unknown)}
    each: list[Inputs] = []
    for row in rows:
        there = known if row is None else known.beside({'matrix': row})
        given = {name: there.value(text) for name, text in texts.items()}
        for name in passed:
            check_kind(given[name], forms[name].get('type', 'string'), f'{place}.with.{name}')
        values: dict[str, Known] = {name: value for name, value in given.items() if not isinstance(value, Unknown)}
        unknown = {name: value for name, value in passed.items() if isinstance(given[name], Unknown)}
        left = {name: form for name, form in forms.items() if name not in unknown}
        each.append({**inputs_of(left, values), **unknown})
    return each, passed


def check_kind(value: Value, kind: str, place: str) -> None:
    """Faults a value that is passed on as it is, and not made one of its input's type."""
    if isinstance(value, Unknown):
        if kind != 'string':
            raise Fault(f'it is not known before the run whether it is a {kind}', place)
        return
    is_number = isinstance(value, (int, float)) and not isinstance(value, bool)
    if kind == 'boolean' and not isinstance(value, bool) or kind == 'number' and not is_number:
        raise Fault(f'{text_of(value)[:100]} is no {kind}', place)


def check_outputs(jobs: Mapping[str, Tree], inputs: Mapping[str, Value], place: str) -> None:
    """Faults jobs that ask for an output where the service evaluates, which knows none."""
    outputs = [(name, value.text) for name, value in inputs.items()
               if isinstance(value, Unknown) and value.text and OUTPUT.fullmatch(value.text)]
    for id, job in jobs.items():
        for member in 'runs-on', 'concurrency', 'continue-on-error', 'strategy':
            for name, text in outputs:
                if text in json.dumps(job.get(member)):
                    words = f'{text} is known to runners alone, and {id} has it in {member}'
                    raise Fault(words, f'{place}.with.{name}')
