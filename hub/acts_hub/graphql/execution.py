"""Carries out GraphQL queries over objects that know their fields."""
from __future__ import annotations

import inspect
from collections.abc import Callable, Iterator, Mapping
from dataclasses import dataclass, field
from typing import Any

from .documents import Directive, Document, Field, Given, Inline, Operation, Selection, Spread, Variable, place_of

MAX_FIELDS = 20_000
MAX_FRAGMENTS = 50
Arguments = Mapping[str, Any]
Resolver = Callable[[Arguments], Any]


@dataclass(frozen=True)
class Thing:
    """An object: its type, and for each of its fields a value or what makes it."""

    type: str
    fields: Mapping[str, Any]
    interfaces: frozenset[str] = frozenset()


class Unanswered(Exception):
    """A field that is known and has no answer here: GitHub's word for why, and a sentence."""

    def __init__(self, kind: str, message: str) -> None:
        super().__init__(message)
        self.kind = kind
        self.message = message


class Refused(Exception):
    """A query that is not carried out at all, with the error to answer."""

    def __init__(self, message: str, **more: object) -> None:
        super().__init__(message)
        self.error: dict[str, object] = {**more, 'message': message}


@dataclass
class Execution:
    """One query that is carried out."""

    document: Document
    variables: Mapping[str, Any]
    errors: list[dict[str, object]] = field(default_factory=list)
    count: int = 0

    async def run(self, operation: Operation, root: Thing) -> dict[str, object]:
        """What is answered: `data`, and `errors` if there are any."""
        if missing := sorted(name for name in operation.required if self.variables.get(name) is None):
            raise Refused(f'Variable ${missing[0]} was provided invalid value', extensions={'value': None})
        self.variables = {**operation.defaults, **self.variables}
        data = await self.selected(root, operation.selections, [])
        return {'data': data, 'errors': self.errors} if self.errors else {'data': data}

    async def selected(self, thing: Thing, selections: tuple[Selection, ...], path: list[object]) -> dict[str, object]:
        """The fields that are asked for of an object."""
        merged: dict[str, list[Field]] = {}
        for asked in self.fields_of(thing, selections, 0):
            merged.setdefault(asked.key, []).append(asked)
        made: dict[str, object] = {}
        for key, asked_fields in merged.items():
            first = asked_fields[0]
            inner = tuple(selection for asked in asked_fields for selection in asked.selections)
            made[key] = await self.resolved(thing, first, inner, [*path, key])
        return made

    def fields_of(self, thing: Thing, selections: tuple[Selection, ...], depth: int) -> Iterator[Field]:
        """The fields that hold for an object, with those of fragments."""
        if depth > MAX_FRAGMENTS:
            raise Refused('Fragments contain themselves, or are nested too deep')
        for selection in selections:
            self.counted()
            if not self.holds(selection.directives):
                continue
            if isinstance(selection, Field):
                yield selection
                continue
            inline = self.fragment(selection) if isinstance(selection, Spread) else selection
            if inline.on is None or inline.on == thing.type or inline.on in thing.interfaces:
                yield from self.fields_of(thing, inline.selections, depth + 1)

    def counted(self) -> None:
        """Counts a field or a selection: a query has a bound of them."""
        self.count += 1
        if self.count > MAX_FIELDS:
            raise Refused(f'The query asks for more than {MAX_FIELDS} fields')

    def fragment(self, spread: Spread) -> Inline:
        """The fragment of a name."""
        if spread.name not in self.document.fragments:
            raise Refused(f'Fragment {spread.name} was used, but not defined')
        return self.document.fragments[spread.name]

    def holds(self, directives: tuple[Directive, ...]) -> bool:
        """Whether `@include` and `@skip` let a selection be."""
        for directive in directives:
            if directive.name not in ('include', 'skip'):
                raise Refused(f'Directive @{directive.name} is not defined')
            if bool(self.value(directive.arguments.get('if'))) != (directive.name == 'include'):
                return False
        return True

    def value(self, given: Given) -> Any:
        """The value of an argument."""
        if isinstance(given, Variable):
            return self.variables.get(given.name)
        if isinstance(given, list):
            return [self.value(item) for item in given]
        if isinstance(given, dict):
            return {name: self.value(item) for name, item in given.items()}
        return given

    async def resolved(self, thing: Thing, asked: Field, inner: tuple[Selection, ...], path: list[object]) -> object:
        """The value of a field."""
        self.counted()
        if asked.name == '__typename':
            return thing.type
        if asked.name not in thing.fields:
            line, column = place_of(self.document.text, asked.at)
            raise Refused(f"Field '{asked.name}' doesn't exist on type '{thing.type}'", path=['query', *path],
                          extensions={'code': 'undefinedField', 'typeName': thing.type, 'fieldName': asked.name},
                          locations=[{'line': line, 'column': column}])
        made = thing.fields[asked.name]
        try:
            if callable(made):
                made = made({name: self.value(given) for name, given in asked.arguments.items()})
            if inspect.isawaitable(made):
                made = await made
            if isinstance(made, Unanswered):
                raise made
        except Unanswered as fault:
            self.errors.append({'type': fault.kind, 'path': path, 'message': fault.message})
            return None
        return await self.completed(made, asked, inner, path)

    async def completed(self, made: object, asked: Field, inner: tuple[Selection, ...], path: list[object]) -> object:
        """A value with what is asked for of it."""
        if isinstance(made, Thing):
            if not inner:
                raise Refused(
                    f"Field must have selections (field '{asked.name}' returns {made.type} but has no selections)")
            return await self.selected(made, inner, path)
        if isinstance(made, list):
            return [await self.completed(item, asked, inner, [*path, at]) for at, item in enumerate(made)]
        if inner and made is not None:
            raise Refused(f"Selections can't be made on scalars (field '{asked.name}' has no fields)")
        return made
