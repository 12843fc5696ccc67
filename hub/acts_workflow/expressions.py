"""GitHub's expressions: how they are read, and what they come to as far as what they name is known."""
from __future__ import annotations

import re
from dataclasses import dataclass
from typing import Callable, Iterator, Mapping, Union

from .values import (NUMBER, Each, Fault, Known, Unknown, Value, bounded, compare, from_json, is_true, number, text_of,
                     to_json, truth)

LONGEST = 21_000  # characters of an expression: GitHub's limit
DEEPEST = 50  # expressions within one another: GitHub's limit
STATUS = 'success', 'failure', 'always', 'cancelled'
TOKEN = re.compile(r"\s*('(?:[^']|'')*'|-?(?:0x[0-9A-Fa-f]+|0o[0-7]+|\d+(?:\.\d+)?(?:[eE][-+]?\d+)?)(?!\w)"
                   r"|[A-Za-z_][\w-]*|&&|\|\||[=!<>]=|[][!<>().,*])", re.ASCII)
QUOTED_OR_END = re.compile(r"'[^']*'?|\}\}")
LEVELS = ('||',), ('&&',), ('==', '!='), ('<', '<=', '>', '>=')
NEGATED = {'true': 'false', 'always()': 'false', 'false': 'true', 'cancelled()': '!cancelled()',
           '!cancelled()': 'cancelled()'}


@dataclass(frozen=True)
class Literal:
    """A constant."""

    value: Known


@dataclass(frozen=True)
class Context:
    """A name such as `github`, in small letters."""

    name: str


@dataclass(frozen=True)
class Member:
    """What stands behind a dot or in brackets. The name is None for `*`."""

    of: Node
    name: Node | None


@dataclass(frozen=True)
class Call:
    """A function, in small letters, and what it is given."""

    name: str
    given: tuple[Node, ...]


@dataclass(frozen=True)
class Not:
    """`!`."""

    of: Node


@dataclass(frozen=True)
class Both:
    """Two expressions and the operator between them."""

    op: str
    left: Node
    right: Node


Node = Union[Literal, Context, Member, Call, Not, Both]


def read(text: str) -> Node:
    """The expression that a text is, without braces. A `Fault` says what is wrong with it."""
    return Reader(text).whole()


class Reader:
    """Reads one expression."""

    def __init__(self, text: str) -> None:
        if len(text) > LONGEST:
            raise Fault(f'an expression of over {LONGEST:,} characters')
        self.tokens: list[str] = []
        self.at, self.depth = 0, 0
        place, end = 0, len(text.rstrip())
        while place < end:
            token = TOKEN.match(text, place)
            if not token:
                raise Fault(f'not read: {text[place:place + 100]}')
            self.tokens.append(token[1])
            place = token.end()

    def whole(self) -> Node:
        """All of the text."""
        node = self.level(0)
        if self.at < len(self.tokens):
            raise Fault(f'not read: {self.tokens[self.at]}')
        return node

    def peek(self) -> str:
        """The next token; an empty text at the end."""
        return self.tokens[self.at] if self.at < len(self.tokens) else ''

    def take(self, *wanted: str) -> str | None:
        """The next token, if it is one of these."""
        if self.peek() not in wanted or not self.peek():
            return None
        self.at += 1
        return self.tokens[self.at - 1]

    def need(self, wanted: str) -> None:
        """Takes a token that has to be there."""
        if not self.take(wanted):
            raise Fault(f'{wanted} is missing')

    def level(self, level: int) -> Node:
        """An expression of operators that bind at least as tightly as those of a level."""
        if level == len(LEVELS):
            return self.negated()
        left = self.level(level + 1)
        while op := self.take(*LEVELS[level]):
            left = Both(op, left, self.level(level + 1))
        return left

    def negated(self) -> Node:
        """A reference, with any number of `!` before it."""
        self.depth += 1
        if self.depth > DEEPEST:
            raise Fault(f'expressions over {DEEPEST} deep')
        node = Not(self.negated()) if self.take('!') else self.reference()
        self.depth -= 1
        return node

    def reference(self) -> Node:
        """Something, and the members that are taken of it."""
        node = self.primary()
        while op := self.take('.', '['):
            if self.take('*'):
                node = Member(node, None)
            else:
                node = Member(node, Literal(self.name()) if op == '.' else self.level(0))
            if op == '[':
                self.need(']')
        return node

    def name(self) -> str:
        """A name, as it is written."""
        if not re.match('[A-Za-z_]', self.peek()):
            raise Fault('a name is missing')
        self.at += 1
        return self.tokens[self.at - 1]

    def primary(self) -> Node:
        """What has no operator outside of parentheses."""
        if self.take('('):
            node = self.level(0)
            self.need(')')
            return node
        token = self.peek()
        if token and not re.match('[A-Za-z_]', token):
            self.at += 1
            return self.literal(token)
        word = self.name().lower()
        if self.take('('):
            return Call(word, tuple(self.given()))
        constants: dict[str, Known] = {'true': True, 'false': False, 'null': None}
        return Literal(constants[word]) if word in constants else Context(word)

    def literal(self, token: str) -> Literal:
        """A text in quotes, or a number."""
        if token[0] == "'":
            return Literal(token[1:-1].replace("''", "'"))
        if not NUMBER.fullmatch(token):
            raise Fault(f'not read: {token}')
        return Literal(number(token))

    def given(self) -> Iterator[Node]:
        """What a function is given, up to its closing parenthesis."""
        if self.take(')'):
            return
        yield self.level(0)
        while self.take(','):
            yield self.level(0)
        self.need(')')


def nodes(node: Node) -> Iterator[Node]:
    """An expression and all that it consists of."""
    yield node
    if isinstance(node, Both):
        yield from nodes(node.left)
        yield from nodes(node.right)
    elif isinstance(node, Not):
        yield from nodes(node.of)
    elif isinstance(node, Member):
        yield from nodes(node.of)
        yield from nodes(node.name) if node.name else ()
    elif isinstance(node, Call):
        for given in node.given:
            yield from nodes(given)


def asks_status(node: Node) -> bool:
    """Whether it has a status function. A condition without one has `success()` before it."""
    return any(isinstance(each, Call) and each.name in STATUS and not each.given for each in nodes(node))


class Scope:
    """What the names of an expression stand for. Here what is not given is not known; a runner, for which all is known,
    has a scope of its own in which it is a fault."""

    def __init__(self, contexts: Mapping[str, Known]) -> None:
        self.contexts = contexts

    def context(self, name: str) -> Value:
        """A context by its name in small letters."""
        return self.contexts.get(name, Unknown())

    def missing(self, context: str, name: str) -> Value:
        """What a member stands for that a known context does not have."""
        return Unknown() if context == 'github' else None  # which others set besides

    def status(self, name: str) -> Value:
        """What a status function says."""
        return Unknown(name + '()')

    def function(self, name: str, given: list[Known]) -> Value:
        """What a function gives for what is known."""
        return call(name, given) if name in FUNCTIONS else self.other(name, given)

    def other(self, name: str, given: list[Known]) -> Value:
        """What a function gives that needs more than its arguments, as `hashFiles` does."""
        if name == 'hashfiles':
            return Unknown()
        raise Fault(f'there is no function {name}')


def evaluated(node: Node, scope: Scope) -> Value:
    """The value of an expression in a scope."""
    if isinstance(node, Literal):
        return node.value
    if isinstance(node, Context):
        return scope.context(node.name)
    if isinstance(node, Not):
        value = evaluated(node.of, scope)
        return Unknown(NEGATED.get(value.truth, '?')) if isinstance(value, Unknown) else not is_true(value)
    if isinstance(node, Both):
        return joined(node, scope)
    return member(node, scope) if isinstance(node, Member) else called(node, scope)


def joined(node: Both, scope: Scope) -> Value:
    """The value of two expressions with an operator between them. What does not count is not evaluated."""
    left = evaluated(node.left, scope)
    if node.op in ('||', '&&'):
        decisive = node.op == '||'  # a left side with this truth value decides
        if truth(left) is not None:
            return left if truth(left) == decisive else evaluated(node.right, scope)
        right = evaluated(node.right, scope)
        if truth(right) is not None:
            return Unknown(str(decisive).lower()) if truth(right) == decisive else left
        return left if left == right and left != Unknown() else Unknown()
    right = evaluated(node.right, scope)
    return Unknown() if isinstance(left, Unknown) or isinstance(right, Unknown) else compare(node.op, left, right)


def member(node: Member, scope: Scope) -> Value:
    """The member of a value. What is not there is null."""
    of = evaluated(node.of, scope)
    name = evaluated(node.name, scope) if node.name else None
    if isinstance(of, Unknown) or isinstance(name, Unknown):
        return Unknown()
    if node.name is None:
        return Each(of.values() if isinstance(of, dict) else of if isinstance(of, list) else [])
    if isinstance(of, Each):
        return Each(item for item in (item_of(each, name) for each in of) if item is not None)
    if isinstance(node.of, Context) and isinstance(of, dict) and key_of(of, text_of(name)) is None:
        return scope.missing(node.of.name, text_of(name))
    return item_of(of, name)


def key_of(of: dict[str, Known], name: str) -> str | None:
    """The member of an object that has this name, without regard to case."""
    for key in [name] if name in of else of:
        if str(key).lower() == name.lower():
            return key
    return None


def item_of(of: Known, name: Known) -> Known:
    """The member of an object, or the item of a list; null if there is none."""
    if isinstance(of, dict):
        key = key_of(of, text_of(name))
        found: Known = None if key is None else of[key]
        return found
    if isinstance(of, list) and 0 <= (index := number(name)) < len(of):
        item: Known = of[int(index)]
        return item
    return None


def called(node: Call, scope: Scope) -> Value:
    """What a function gives."""
    if node.name in STATUS and not node.given:
        return scope.status(node.name)
    if node.name == 'case':
        return chosen(node, scope)
    given = [evaluated(each, scope) for each in node.given]
    known = [value for value in given if not isinstance(value, Unknown)]
    return scope.function(node.name, known) if len(known) == len(given) else Unknown()


def chosen(node: Call, scope: Scope) -> Value:
    """`case(condition, value, .., otherwise)`: the value behind the first condition that holds."""
    if len(node.given) < 3 or len(node.given) % 2 == 0:
        raise Fault('case needs pairs of a condition and a value, and a value for all else')
    for condition, value in zip(node.given[:-1:2], node.given[1::2]):
        holds = truth(evaluated(condition, scope))
        if holds is None:
            return Unknown()
        if holds:
            return evaluated(value, scope)
    return evaluated(node.given[-1], scope)


def contains(where: Known, what: Known) -> bool:
    """Whether a list has an item, or a text has another in it."""
    if isinstance(where, list):
        return any(compare('==', item, what) for item in where)
    return text_of(what).lower() in text_of(where).lower()


def formatted(form: Known, *values: Known) -> str:
    """The text with each `{N}` replaced by the value with this number."""
    def pieces() -> Iterator[str]:
        text, at = text_of(form), 0
        for found in re.finditer(r'\{\{|\}\}|\{([0-9]{1,9})\}|[{}]', text):
            if found[0] in ('{', '}') or found[1] and int(found[1]) >= len(values):
                raise Fault(f'format: {found[0]} stands for no value')
            yield text[at:found.start()]
            yield text_of(values[int(found[1])]) if found[1] else found[0][0]
            at = found.end()
        yield text[at:]
    return bounded(pieces())


def joined_texts(items: Known, by: Known = ',') -> str:
    """The items of a list as texts, with another between them."""
    values = items if isinstance(items, list) else [items]
    return bounded(text for index, item in enumerate(values) for text in (text_of(by) if index else '', text_of(item)))


FUNCTIONS: dict[str, tuple[int, int, Callable[..., Known]]] = {  # the least and the greatest number of arguments
    'contains': (2, 2, contains),
    'startswith': (2, 2, lambda where, what: text_of(where).lower().startswith(text_of(what).lower())),
    'endswith': (2, 2, lambda where, what: text_of(where).lower().endswith(text_of(what).lower())),
    'format': (1, 256, formatted),
    'join': (1, 2, joined_texts),
    'tojson': (1, 1, to_json),
    'fromjson': (1, 1, lambda text: from_json(text_of(text))),
}


def call(name: str, given: list[Known]) -> Known:
    """What one of the functions gives."""
    least, most, function = FUNCTIONS[name]
    if not least <= len(given) <= most:
        raise Fault(f'{name} is given {len(given)} values')
    return function(*given)


@dataclass(frozen=True)
class Part:
    """A part of a text: as it stands, or an expression, without its braces."""

    text: str
    node: bool

    def __str__(self) -> str:
        return '${{' + self.text + '}}' if self.node else self.text


def parts(text: str) -> list[Part]:
    """A text by its expressions and what stands between them. One without an end stays in the text."""
    made, at = [], 0
    while (start := text.find('${{', at)) >= 0 and (end := end_of(text, start + 3)) >= 0:
        made += [Part(text[at:start], False)] if start > at else []
        made.append(Part(text[start + 3:end], True))
        at = end + 2
    return made + ([Part(text[at:], False)] if at < len(text) else [])


def end_of(text: str, at: int) -> int:
    """Where the braces close that were opened; -1 if they do not. Braces in quotes do not count."""
    for found in QUOTED_OR_END.finditer(text, at):
        if found[0] == '}}':
            return found.start()
        if len(found[0]) == 1 or found[0][-1] != "'":
            return -1
    return -1


def whole(text: str) -> str | None:
    """The expression that a text is, without its braces; None for other texts."""
    made = parts(text.strip())
    return made[0].text if len(made) == 1 and made[0].node else None


def has_open_braces(text: str) -> bool:
    """Whether a text has braces that nothing closes."""
    return any('${{' in part.text for part in parts(text) if not part.node)


def evaluate(text: str, contexts: Mapping[str, Known]) -> Value:
    """The value of an expression, without braces, as far as it is known. One with a fault is not known."""
    try:
        return evaluated(read(text), Scope(contexts))
    except Fault:
        return Unknown()


def condition(text: str, contexts: Mapping[str, Known]) -> bool | str:
    """What a condition comes to: a truth value, one of the service's conditions, or `?`."""
    try:
        node = read(text)
        value = evaluated(node, Scope(contexts))
    except Fault:
        return '?'
    known = truth(value)
    if known is None:
        return value.truth if isinstance(value, Unknown) else '?'
    return 'always()' if known and asks_status(node) else known  # not `true`, which means `success()`
