"""Reads the YAML of a workflow as YAML 1.2, and finds the line of a place in it."""
from __future__ import annotations

import json
import re
from typing import Any, Iterator, cast

import yaml

from .values import Fault

LONGEST = 1 << 20  # characters of a workflow
MOST_VALUES = 200_000  # of a workflow, once its aliases are followed
DEEPEST = 100  # lists and objects within one another: the service's JSON takes 127
STEP = re.compile(r'\.?([A-Za-z0-9_-]+)|\[(\d+)\]|\.?\[("(?:[^"\\]|\\.)*")\]', re.ASCII)
Tree = dict[str, Any]
FORMS = (('null', '~|null|Null|NULL|'), ('bool', 'true|True|TRUE|false|False|FALSE'),
         ('int', '[-+]?[0-9]+|0o[0-7]+|0x[0-9a-fA-F]+'),
         ('float', r'[-+]?(?:\.[0-9]+|[0-9]+(?:\.[0-9]*)?)(?:[eE][-+]?[0-9]+)?'))


class Loader(yaml.CSafeLoader):
    """Plain words as in YAML 1.2 and at GitHub: `on` and `yes` are texts, and `010` is ten. PyYAML follows YAML 1.1, and
    takes the last of two members of one name."""

    yaml_implicit_resolvers: dict[Any, Any] = {}

    def construct_mapping(self, node: yaml.MappingNode, deep: bool = False) -> dict[Any, Any]:
        """An object, in which no member is there twice."""
        seen = set[str]()
        for key in (key for key, _ in node.value if isinstance(key, yaml.ScalarNode)):
            if key.value in seen:
                raise Fault(f'{key.value[:100]} is there twice', line=key.start_mark.line + 1)
            seen.add(key.value)
        made: dict[Any, Any] = super().construct_mapping(node, deep)
        return made


def whole_number(_: Loader, node: yaml.ScalarNode) -> int:
    """A whole number: octal and hexadecimal ones begin with 0o and 0x."""
    return int(node.value, 0 if node.value[1:2] in ('o', 'x') else 10)


resolver: Any = Loader
for tag, form in FORMS:
    resolver.add_implicit_resolver('tag:yaml.org,2002:' + tag, re.compile(f'(?:{form})$'), None)
resolver.add_constructor('tag:yaml.org,2002:int', whole_number)


def read(text: str) -> Tree:
    """The object of a workflow's YAML, of the kinds that JSON has. What is wrong with it is a `Fault` with its line."""
    if len(text) > LONGEST:
        raise Fault(f'over {LONGEST:,} characters')
    try:
        check_nesting(text)
        value = yaml.load(text, Loader)
    except yaml.YAMLError as fault:
        raise Fault('not YAML: ' + ' '.join(str(fault).split())[:500], line=line_of_fault(fault, text)) from None
    except (ValueError, TypeError, AttributeError, RecursionError) as fault:
        raise fault if isinstance(fault, Fault) else Fault(f'not YAML: {fault}') from None
    if not isinstance(value, dict):
        raise Fault('not YAML of an object')
    made: Tree = Copy().of(value, 0)
    return made


def check_nesting(text: str) -> None:
    """Faults what is too deep, before anything is made of it: the parser of C has no bound of its own."""
    depth, parse = 0, cast(Any, yaml.parse)
    for event in parse(text, Loader):
        if isinstance(event, yaml.CollectionStartEvent):
            depth += 1
            if depth > DEEPEST:
                raise Fault(f'over {DEEPEST} lists and objects within one another', line=event.start_mark.line + 1)
        elif isinstance(event, yaml.CollectionEndEvent):
            depth -= 1


class Copy:
    """Copies values with texts as the names of members. A few aliases can make very many values."""

    def __init__(self) -> None:
        self.values = 0

    def of(self, value: Any, depth: int) -> Any:
        """The copy of a value at a depth."""
        self.values += 1
        if depth > DEEPEST or self.values > MOST_VALUES:
            raise Fault(f'over {DEEPEST} lists and objects within one another, or over {MOST_VALUES:,} values')
        if isinstance(value, dict):
            return {self.name(name): self.of(item, depth + 1) for name, item in value.items()}
        if isinstance(value, list):
            return [self.of(item, depth + 1) for item in value]
        if value is not None and not isinstance(value, (str, int, float)):
            raise Fault(f'a value of the kind {type(value).__name__}, which JSON does not have')
        return value

    def name(self, name: Any) -> str:
        """The name of a member as JSON has it."""
        if isinstance(name, str):
            return name
        if name is None or isinstance(name, (bool, int, float)):
            return json.dumps(name)
        raise Fault('the name of a member is no text')


def steps_of(place: str) -> Iterator[str | int]:
    """The names and numbers of a place such as `jobs.a.needs[1]` or `jobs["a b"]`."""
    at = 0
    while at < len(place) and (found := STEP.match(place, at)):
        yield int(found[2]) if found[2] else json.loads(found[3]) if found[3] else found[1]
        at = found.end()


def line_of(text: str, place: str) -> int | None:
    """The line, from 1, on which a place of a workflow begins, or what is nearest around it. None without YAML."""
    try:
        check_nesting(text)
        node = cast(Any, yaml.compose)(text, Loader)
    except (yaml.YAMLError, Fault):
        return None
    if node is None:
        return None
    line: int = node.start_mark.line + 1
    for step in steps_of(place):
        found = inner(node, step)
        if found is None:
            break
        line, node = found[0].start_mark.line + 1, found[1]
    return line


def inner(node: yaml.Node, step: str | int) -> tuple[yaml.Node, yaml.Node] | None:
    """The node that names a member or is an item, and the node of its value."""
    if isinstance(node, yaml.MappingNode):
        named = ((key, value) for key, value in node.value if getattr(key, 'value', None) == str(step))
        return next(named, None)
    if isinstance(node, yaml.SequenceNode) and isinstance(step, int) and step < len(node.value):
        return node.value[step], node.value[step]
    return None


def line_of_fault(fault: yaml.YAMLError, text: str) -> int | None:
    """The line of a fault of YAML; the last one if it is that the text ends."""
    mark = getattr(fault, 'problem_mark', None)
    return min(mark.line + 1, max(1, len(text.splitlines()))) if mark else None
