"""Expressions in the steps of a job, where every context is known, or what lacks is a fault."""
from __future__ import annotations

import glob
import hashlib
import os
from typing import Any, Iterator, Mapping

from acts_workflow.expressions import (FUNCTIONS, Call, Context, Literal, Member, Node, Scope, asks_status, call,
                                       evaluated, has_open_braces, nodes, parts, read, whole)
from acts_workflow.values import Fault, Known, Unknown, Value, text_of, truth

from .documented import AVAILABLE, MEMBERS, WITH_FILES

Contexts = Mapping[str, Any]


class NotKnown(Fault):
    """Something that an expression names has no value here."""


def hash_of_files(folder: str, patterns: list[str]) -> str:
    """As `hashFiles`: the hash of the hashes of the files below the folder, in their order; the empty text if there is
    none."""
    def found(pattern: str) -> set[str]:
        names = glob.glob(os.path.join(folder, pattern), recursive=True, include_hidden=True)
        return {name for name in names if os.path.realpath(name).startswith(os.path.realpath(folder) + '/')}
    names: set[str] = set()
    for pattern in patterns:
        names = names - found(pattern[1:]) if pattern.startswith('!') else names | found(pattern)
    total, files = hashlib.sha256(), sorted(name for name in names if os.path.isfile(name))
    for name in files:
        with open(name, 'rb') as file:
            total.update(hashlib.file_digest(file, 'sha256').digest())
    return total.hexdigest() if files else ''


class RunnerScope(Scope):
    """What names stand for in a step. The status is that of the steps before; without one there are no status
    functions. What the documentation names and nobody has given is a fault, unless it may be empty (`lax`)."""

    def __init__(self, contexts: Contexts, status: str | None = None, folder: str = '.', lax: bool = False) -> None:
        super().__init__(contexts)
        self.state, self.folder, self.lax = status, folder, lax

    def context(self, name: str) -> Value:
        """A context, which has to be there."""
        if name not in self.contexts:
            raise NotKnown(f'the context {name} has no value here')
        return self.contexts[name]

    def missing(self, context: str, name: str) -> Value:
        """What a member stands for that a context does not have."""
        if not self.lax and name.lower() in MEMBERS.get(context, ()):
            raise NotKnown(f'{context}.{name} has no value here')
        return None

    def status(self, name: str) -> Value:
        """What a status function says."""
        if self.state is None:
            raise NotKnown(f'{name}() has a value in an `if` alone')
        return name in ('always', self.state)

    def other(self, name: str, given: list[Known]) -> Value:
        """`hashFiles`."""
        if name == 'hashfiles':
            return hash_of_files(self.folder, [line for value in given for line in text_of(value).splitlines()])
        raise NotKnown(f'there is no function {name}')

    def function(self, name: str, given: list[Known]) -> Value:
        """What a function gives."""
        return call(name, given) if name in FUNCTIONS else self.other(name, given)


def found_in(text: str, scope: RunnerScope) -> Value:
    """The value of a text: of any kind if it is one expression, else a text; unknown if a part of it is."""
    inner = whole(text)
    if inner is not None:
        return evaluated(read(inner), scope)
    if has_open_braces(text):
        raise Fault('an expression has no end')
    made = []
    for part in parts(text):
        value = evaluated(read(part.text), scope) if part.node else part.text
        if isinstance(value, Unknown):
            return value
        made.append(text_of(value))
    return ''.join(made)


def nodes_in(value: Any, is_condition: bool = False) -> Iterator[Node]:
    """All that the expressions of a text consist of."""
    text = value if isinstance(value, str) else ''
    texts = [part.text for part in parts(text) if part.node] if '${{' in text else [text] if is_condition else []
    for each in texts:
        yield from nodes(read(each)) if each.strip() else ()


def check(value: Any, place: str, is_condition: bool = False) -> None:
    """A ValueError for a context or a function that GitHub knows elsewhere, and not at this place of a workflow."""
    for node in nodes_in(value, is_condition):
        if isinstance(node, Context) and node.name not in AVAILABLE[place]:
            raise ValueError(f'the context {node.name} has no value here, in {str(value).strip()[:200]}')
        if isinstance(node, Call) and node.name == 'hashfiles' and place not in WITH_FILES:
            raise ValueError(f'hashFiles() has a value in steps alone, in {str(value).strip()[:200]}')


def names(value: Any, context: str, member: str) -> bool:
    """Whether a text names a member of a context."""
    return any(isinstance(node, Member) and node.of == Context(context) and isinstance(node.name, Literal)
               and text_of(node.name.value).lower() == member for node in nodes_in(value))


def value_of(value: Any, contexts: Contexts, status: str | None = None, folder: str = '.', lax: bool = False) -> Any:
    """The value of a text of a workflow, or a ValueError in words. What is no text is its own value."""
    if not isinstance(value, str) or '${{' not in value:
        return value
    try:
        return found_in(value, RunnerScope(contexts, status, folder, lax))
    except (ValueError, TypeError, RecursionError) as fault:
        raise ValueError(f'{fault}, in {value.strip()[:200]}') from None


def text_in(value: Any, contexts: Contexts, folder: str = '.', lax: bool = False) -> str:
    """The value of a text of a workflow, as a text."""
    found = value_of(value, contexts, folder=folder, lax=lax)
    if isinstance(found, Unknown):
        raise ValueError(f'not known, in {str(value)[:200]}')
    return text_of(found)


def condition_of(value: Any, contexts: Contexts, status: str, folder: str = '.', lax: bool = False) -> bool | None:
    """Whether a step is due; None if that is not known. Without a status function, only after success."""
    text = text_of(value).strip()
    if whole(text) is None and '${{' in text:
        raise ValueError(f'text beside an expression, which is always true: {text[:200]}')
    inner = whole(text)
    text = text if inner is None else inner
    if not text.strip():
        return status == 'success'
    try:
        node = read(text)
        known = truth(evaluated(node, RunnerScope(contexts, status, folder, lax)))
    except (ValueError, TypeError, RecursionError) as fault:
        raise ValueError(f'{fault}, in {text.strip()[:200]}') from None
    return None if known is None else known and (status == 'success' or asks_status(node))
