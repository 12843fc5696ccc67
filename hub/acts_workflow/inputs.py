"""Inputs of a workflow that is dispatched or called: types, defaults, and what is wrong with what is given."""
from __future__ import annotations

from typing import Any, Mapping

from .values import Fault, Known, number, text_of

MOST = 25  # inputs of `workflow_dispatch`: GitHub's limit
LONGEST = 65_535  # characters of the inputs of `workflow_dispatch` together: GitHub's limit
KINDS = 'string', 'boolean', 'number', 'choice', 'environment'


def forms_of(forms: Any) -> dict[str, dict[str, Any]]:
    """The inputs that a workflow names, each with its members."""
    if forms is None:
        return {}
    if not isinstance(forms, dict) or not all(form is None or isinstance(form, dict) for form in forms.values()):
        raise Fault('`inputs` is no object of objects')
    return {str(name): form or {} for name, form in forms.items()}


def inputs_of(forms: Any, given: Mapping[str, Known]) -> dict[str, Known]:
    """The inputs of a workflow with their defaults, each with its type."""
    return {name: input_of(name, form, given.get(name)) for name, form in forms_of(forms).items()}


def dispatched(forms: Any, given: Any) -> dict[str, Known]:
    """The inputs of a workflow that is started by hand. One that it does not name is a fault, as at GitHub."""
    listed, values = forms_of(forms), given or {}
    if not isinstance(values, dict):
        raise Fault('the inputs are no object')
    if len(values) > MOST or sum(len(str(name)) + len(text_of(value)) for name, value in values.items()) > LONGEST:
        raise Fault(f'there are over {MOST} inputs, or over {LONGEST:,} characters of them')
    unknown = [name for name in values if name not in listed]
    if unknown:
        raise Fault(f'the workflow has no input {str(unknown[0])[:100]}')
    return inputs_of(listed, values)


def input_of(name: str, form: Mapping[str, Any], given: Known) -> Known:
    """The value of one input."""
    kind = form.get('type', 'string')
    if kind not in KINDS:
        raise Fault(f'the input {name} has the type {text_of(kind)}, which is none')
    value: Known = given if given is not None else form.get('default')
    if value in (None, '') and form.get('required'):
        raise Fault(f'the input {name} is required')
    if kind == 'choice':
        return choice_of(name, form.get('options'), value)
    if kind == 'boolean':
        return truth_of(name, value)
    if kind == 'number':
        return number_of(name, text_of(value)) if value not in (None, '') else 0
    return text_of(value)


def choice_of(name: str, options: Any, value: Known) -> str:
    """One of the options, the first without a default."""
    texts = [text_of(option) for option in options] if isinstance(options, list) else []
    if value is None and texts:
        return texts[0]
    if text_of(value) not in texts:
        raise Fault(f'the input {name} has no option {text_of(value)[:100]}')
    return text_of(value)


def truth_of(name: str, value: Known) -> bool:
    """A truth value, false without one."""
    if value not in (None, '') and text_of(value).lower() not in ('true', 'false'):
        raise Fault(f'the input {name} is neither true nor false: {text_of(value)[:100]}')
    return text_of(value).lower() == 'true'


def number_of(name: str, text: str) -> int | float:
    """A number that is not infinite."""
    value = number(text)
    if not abs(value) < float('inf'):
        raise Fault(f'the input {name} is no number: {text[:100]}')
    return int(value) if value == int(value) else value
