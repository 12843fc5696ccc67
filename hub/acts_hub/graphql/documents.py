"""Reads GraphQL documents: operations, fragments, fields and their arguments."""
from __future__ import annotations

import json
import re
from collections.abc import Mapping
from dataclasses import dataclass
from typing import Union

MAX_TOKENS = 4000
MAX_DEPTH = 30
_TOKEN = re.compile(
    r'''(?P<skip>(?:[\s,\ufeff]|\#[^\n\r]*)+)|(?P<name>[_A-Za-z][_0-9A-Za-z]*)|(?P<block>"{3}(?:[^\\]|\\)*?"{3})'''
    r'''|(?P<text>"(?:[^"\\\n\r]|\\.)*")|(?P<float>-?\d+(?:\.\d+(?:[eE][+-]?\d+)?|[eE][+-]?\d+))'''
    r'''|(?P<int>-?\d+)|(?P<sign>\.\.\.|[!$&()\[\]{}:=@|])''')


class SyntaxFault(Exception):
    """A text that is no document."""


@dataclass(frozen=True)
class Variable:
    """`$name` as a value."""

    name: str


Given = Union[None, bool, int, float, str, Variable, list['Given'], dict[str, 'Given']]


@dataclass(frozen=True)
class Field:
    """A field that is asked for."""

    name: str
    key: str
    arguments: Mapping[str, Given]
    selections: tuple[Selection, ...]
    directives: tuple[Directive, ...]
    at: int


@dataclass(frozen=True)
class Spread:
    """The selections of a named fragment."""

    name: str
    directives: tuple[Directive, ...]


@dataclass(frozen=True)
class Inline:
    """Selections for one type; None for any."""

    on: str | None
    selections: tuple[Selection, ...]
    directives: tuple[Directive, ...]


@dataclass(frozen=True)
class Directive:
    """`@include` and `@skip`."""

    name: str
    arguments: Mapping[str, Given]


Selection = Union[Field, Spread, Inline]


@dataclass(frozen=True)
class Operation:
    """A query or a mutation, with the defaults of its variables."""

    kind: str
    name: str | None
    defaults: Mapping[str, Given]
    required: frozenset[str]
    selections: tuple[Selection, ...]


@dataclass(frozen=True)
class Document:
    """What a text says."""

    operations: tuple[Operation, ...]
    fragments: Mapping[str, Inline]
    text: str

    def operation(self, name: str | None) -> Operation:
        """The operation to carry out."""
        found = [operation for operation in self.operations if name is None or operation.name == name]
        if len(found) != 1:
            raise SyntaxFault(f'No operation named {json.dumps(name)}' if name else 'An operation name is required')
        return found[0]


@dataclass(frozen=True)
class Token:
    """A piece of a text, and where it is."""

    kind: str
    text: str
    at: int


def tokens_of(text: str) -> list[Token]:
    """The tokens of a text."""
    found, at = [], 0
    while at < len(text):
        match = _TOKEN.match(text, at)
        if match is None:
            raise SyntaxFault(f'Parse error on {json.dumps(text[at:at + 1])} at {place_of(text, at)}')
        if match.lastgroup and match.lastgroup != 'skip':
            found.append(Token(match.lastgroup, match.group(), at))
            if len(found) > MAX_TOKENS:
                raise SyntaxFault(f'The query has more than {MAX_TOKENS} tokens')
        at = match.end()
    return found


def place_of(text: str, at: int) -> list[int]:
    """Line and column, from 1."""
    return [text.count('\n', 0, at) + 1, at - (text.rfind('\n', 0, at) + 1) + 1]


class Reader:
    """Reads one document."""

    def __init__(self, text: str) -> None:
        self.text = text
        self.tokens = [*tokens_of(text), Token('end', '', len(text))]
        self.at = 0
        self.depth = 0

    def document(self) -> Document:
        """The whole text."""
        operations: list[Operation] = []
        fragments: dict[str, Inline] = {}
        while self.here.kind != 'end':
            if self.here.text == 'fragment':
                self.take()
                name = self.name()
                self.need('on')
                fragments[name] = Inline(self.name(), (), self.directives())
                fragments[name] = Inline(fragments[name].on, self.selections(), fragments[name].directives)
            else:
                operations.append(self.operation())
        if not operations:
            raise SyntaxFault('A query attribute must be specified and must be a string.')
        return Document(tuple(operations), fragments, self.text)

    @property
    def here(self) -> Token:
        """The next token."""
        return self.tokens[self.at]

    def take(self) -> Token:
        """Goes on."""
        token = self.here
        if token.kind == 'end':
            raise SyntaxFault('Unexpected end of document')
        self.at += 1
        return token

    def takes(self, text: str) -> bool:
        """Goes on if this is the next token."""
        if self.here.text != text or self.here.kind in ('text', 'block'):
            return False
        self.at += 1
        return True

    def need(self, text: str) -> None:
        """Goes on over this token."""
        if not self.takes(text):
            raise self.unexpected()

    def unexpected(self) -> SyntaxFault:
        """The fault of the next token."""
        if self.here.kind == 'end':
            return SyntaxFault('Unexpected end of document')
        return SyntaxFault(f'Parse error on {json.dumps(self.here.text[:40])} at {place_of(self.text, self.here.at)}')

    def name(self) -> str:
        """A name."""
        if self.here.kind != 'name':
            raise self.unexpected()
        return self.take().text

    def operation(self) -> Operation:
        """A query, also without the word."""
        if self.here.text == '{':
            return Operation('query', None, {}, frozenset(), self.selections())
        kind = self.name()
        if kind not in ('query', 'mutation', 'subscription'):
            self.at -= 1
            raise self.unexpected()
        name = self.name() if self.here.kind == 'name' else None
        defaults: dict[str, Given] = {}
        required = set()
        if self.takes('('):
            while not self.takes(')'):
                self.need('$')
                variable = self.name()
                self.need(':')
                needs = self.type_needs()
                if self.takes('='):
                    defaults[variable] = self.value()
                elif needs:
                    required.add(variable)
        self.directives()
        return Operation(kind, name, defaults, frozenset(required), self.selections())

    def type_needs(self) -> bool:
        """Reads a type; whether it takes no null."""
        self.enter()
        if self.takes('['):
            self.type_needs()
            self.need(']')
        else:
            self.name()
        self.depth -= 1
        return self.takes('!')

    def enter(self) -> None:
        """Goes one level deeper."""
        self.depth += 1
        if self.depth > MAX_DEPTH:
            raise SyntaxFault(f'The query is nested deeper than {MAX_DEPTH} levels')

    def selections(self) -> tuple[Selection, ...]:
        """`{ .. }`."""
        self.enter()
        self.need('{')
        found: list[Selection] = []
        while not self.takes('}'):
            found.append(self.selection())
        self.depth -= 1
        return tuple(found)

    def selection(self) -> Selection:
        """A field or a fragment."""
        if not self.takes('...'):
            return self.field()
        if self.here.kind == 'name' and self.here.text != 'on':
            return Spread(self.name(), self.directives())
        on = self.name() if self.takes('on') else None
        directives = self.directives()
        return Inline(on, self.selections(), directives)

    def field(self) -> Field:
        """A field with its alias, arguments and selections."""
        at = self.here.at
        key = name = self.name()
        if self.takes(':'):
            name = self.name()
        arguments = self.arguments()
        directives = self.directives()
        inner = self.selections() if self.here.text == '{' else ()
        return Field(name, key, arguments, inner, directives, at)

    def arguments(self) -> dict[str, Given]:
        """`(name: value ..)`."""
        found: dict[str, Given] = {}
        if self.takes('('):
            while not self.takes(')'):
                name = self.name()
                self.need(':')
                found[name] = self.value()
        return found

    def directives(self) -> tuple[Directive, ...]:
        """`@name(..)`, any number of them."""
        found = []
        while self.takes('@'):
            name = self.name()
            found.append(Directive(name, self.arguments()))
        return tuple(found)

    def value(self) -> Given:
        """A value; a name is the text of an enumeration."""
        token = self.take()
        if token.kind in ('int', 'float'):
            return int(token.text[:18]) if token.kind == 'int' else float(token.text[:30])
        if token.kind in ('text', 'block'):
            return _text_of(token)
        if token.kind == 'name':
            return {'true': True, 'false': False, 'null': None}.get(token.text, token.text)
        if token.text == '$':
            return Variable(self.name())
        if token.text in ('[', '{'):
            return self.several(token.text)
        self.at -= 1
        raise self.unexpected()

    def several(self, opened: str) -> Given:
        """A list or an object."""
        self.enter()
        if opened == '[':
            items: list[Given] = []
            while not self.takes(']'):
                items.append(self.value())
            self.depth -= 1
            return items
        members: dict[str, Given] = {}
        while not self.takes('}'):
            name = self.name()
            self.need(':')
            members[name] = self.value()
        self.depth -= 1
        return members


def _text_of(token: Token) -> str:
    if token.kind == 'block':
        return token.text[3:-3]
    try:
        text = json.loads(token.text)
    except ValueError:
        raise SyntaxFault('A text has an escape that is not known') from None
    assert isinstance(text, str)
    return text


def read(text: str) -> Document:
    """A document from its text."""
    return Reader(text).document()
