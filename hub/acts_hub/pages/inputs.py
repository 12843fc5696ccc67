"""The form of `workflow_dispatch`: a field for each input. What is sent is judged where it starts the run."""
from __future__ import annotations

from collections.abc import Mapping, Sequence
from dataclasses import dataclass
from typing import Any

from acts_workflow.inputs import KINDS, MOST, forms_of
from acts_workflow.values import Fault, text_of


@dataclass(frozen=True)
class Input:
    """An input as a workflow names it."""

    name: str
    kind: str
    label: str
    default: str
    is_required: bool
    options: tuple[str, ...]

    @property
    def field(self) -> str:
        """The name of its field in the form."""
        return f'input.{self.name}'


def _text(value: Any) -> str:
    return '' if value is None else text_of(value)


def _input(name: str, form: Mapping[str, Any]) -> Input:
    kind, options = form.get('type', 'string'), form.get('options')
    listed = tuple(map(_text, options)) if isinstance(options, list) else ()
    default = _text(form.get('default'))
    return Input(name, kind if kind in KINDS else 'string', _text(form.get('description')) or name,
                 default or (listed[0] if kind == 'choice' and listed else ''), form.get('required') is True, listed)


def declared(forms: Any) -> tuple[Input, ...]:
    """The inputs of a workflow; none where they have a fault, which starting it tells."""
    try:
        return tuple(_input(name, form) for name, form in list(forms_of(forms).items())[:MOST])
    except Fault:
        return ()


def sent_values(inputs: Sequence[Input], sent: Mapping[str, Any]) -> dict[str, str]:
    """The values that a form sent. A box without a mark is false; an empty field leaves the default to the workflow."""
    values: dict[str, str] = {}
    for one in inputs:
        value = sent.get(one.field)
        text = value if isinstance(value, str) else ''
        if one.kind == 'boolean':
            values[one.name] = 'true' if text else 'false'
        elif text or (one.kind == 'string' and one.default):
            values[one.name] = text
    return values
