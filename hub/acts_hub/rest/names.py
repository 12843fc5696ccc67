"""Names of jobs as GitHub writes them: `test (20, linux)`, or what the workflow's `name` says of the matrix."""
from __future__ import annotations

from collections.abc import Mapping
from typing import Any

from acts_workflow.expressions import evaluate, parts
from acts_workflow.values import Fault, Unknown, text_of

MAX_NAME = 100


def leg_name(name: str, combination: Mapping[str, Any]) -> str:
    """The name of one job of a matrix; `name` is the job's `name`, else its id."""
    if any(part.node for part in parts(name)):
        return shortened(''.join(_text(part.text, combination) if part.node else part.text for part in parts(name)))
    values = ', '.join(map(text_of, combination.values()))
    return shortened(f'{name} ({values})' if combination else name)


def shortened(name: str) -> str:
    """A name of at most 100 characters."""
    return name if len(name) <= MAX_NAME else name[:MAX_NAME - 3] + '...'


def _text(expression: str, combination: Mapping[str, Any]) -> str:
    """What an expression of a name gives; itself where that is not known here."""
    try:
        found = evaluate(expression, {'matrix': dict(combination)})
        return f'${{{{{expression}}}}}' if isinstance(found, Unknown) else text_of(found)
    except Fault:
        return f'${{{{{expression}}}}}'
