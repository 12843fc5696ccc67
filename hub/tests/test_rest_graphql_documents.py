"""GraphQL documents are read and carried out as the specification says; hostile ones are refused."""
import asyncio
from typing import Any

import pytest

from acts_hub.graphql.documents import SyntaxFault, read
from acts_hub.graphql.execution import Execution, Refused, Thing, Unanswered

pytestmark = pytest.mark.quick


def user(login: str) -> Thing:
    return Thing('User', {'login': login, 'bio': None, 'age': Unanswered('NOT_FOUND', 'Nobody knows.')},
                 frozenset({'Actor'}))


async def later(value: object) -> object:
    return value


ROOT = Thing('Query', {'viewer': user('mona'), 'user': lambda given: later(user(given['login'])),
                       'users': [user('a'), user('b')], 'echo': lambda given: repr(given['value'])})


def ask(text: str, variables: dict[str, Any] | None = None, name: str | None = None) -> dict[str, Any]:
    document = read(text)
    return asyncio.run(Execution(document, variables or {}).run(document.operation(name), ROOT))


def test_aliases_arguments_and_fragments() -> None:
    text = '''query One($who: String = "mona", $not: Boolean!) {
      me: viewer { ...names __typename }  # a comment, with } in it
      user(login: $who) { login @skip(if: $not) ... on Actor { name: login } ... on Bot { id } }
      users { login @include(if: $not) }
    } fragment names on User { login }'''
    assert ask(text,
               {'not': True}) == {'data': {'me': {'login': 'mona', '__typename': 'User'}, 'user': {'name': 'mona'},
                                                 'users': [{'login': 'a'}, {'login': 'b'}]}}


def test_the_same_field_twice_is_merged() -> None:
    assert ask('{ viewer { login } viewer { bio } }') == {'data': {'viewer': {'login': 'mona', 'bio': None}}}


@pytest.mark.parametrize('text, value',
                         [('"a\\n\\u00e9"', "'a\\né'"), ('-3', '-3'), ('1.5', '1.5'),
                          ('[1, {a: OPEN}]', "[1, {'a': 'OPEN'}]"),
                                         ('null', 'None'), ('true', 'True'), ('"""a "b" c"""', '\'a "b" c\'')])
def test_values(text: str, value: str) -> None:
    assert ask('{ echo(value: %s) }' % text) == {'data': {'echo': value}}


def test_a_field_without_an_answer_is_null_and_says_why() -> None:
    assert ask('{ users { age } }') == {'data': {'users': [{'age': None}, {'age': None}]}, 'errors': [
        {'type': 'NOT_FOUND', 'path': ['users', 0, 'age'], 'message': 'Nobody knows.'},
        {'type': 'NOT_FOUND', 'path': ['users', 1, 'age'], 'message': 'Nobody knows.'}]}


@pytest.mark.parametrize('text, words', [
    ('{ viewer { secrets } }', "Field 'secrets' doesn't exist on type 'User'"), ('{ viewer }', 'must have selections'),
    ('{ viewer { login { a } } }', "can't be made on scalars"), ('{ ...a } fragment a on Query { ...a }', 'Fragments'),
    ('{ ...b }', 'not defined'), ('query($a: Int!) { viewer { login } }', 'Variable $a'),
    ('{ viewer @evil { login } }', '@evil')])
def test_queries_that_are_refused(text: str, words: str) -> None:
    with pytest.raises(Refused) as caught:
        ask(text)
    assert words in str(caught.value.error['message'])


def test_an_unknown_field_says_where_it_is() -> None:
    with pytest.raises(Refused) as caught:
        ask('{\n  viewer { secrets }\n}')
    assert caught.value.error['locations'] == [{'line': 2, 'column': 12}]
    assert caught.value.error['extensions'] == {'code': 'undefinedField', 'typeName': 'User', 'fieldName': 'secrets'}


def test_one_of_several_operations_has_to_be_named() -> None:
    text = 'query A { viewer { login } } query B { viewer { bio } }'
    assert ask(text, name='B') == {'data': {'viewer': {'bio': None}}}
    for name in (None, 'C'):
        with pytest.raises(SyntaxFault):
            ask(text, name=name)


@pytest.mark.parametrize('text',
                         ['', '{', '}', '{ a', 'query', 'mutate { a }', '{ a(b: ) }', '{ a(b: "x) }', '{ a % }',
                          '{ a(b: "\\q") }',
                                  'fragment a on B { c }', '{' * 1000, '{ a(b: %s) }' % ('[' * 1000),
                                  '{ ' + 'a ' * 5000 + '}',
                                  'query(' + '$a: ' + '[' * 100, '\0', '"""'])
def test_texts_that_are_no_documents(text: str) -> None:
    with pytest.raises(SyntaxFault):
        read(text).operation(None)


def test_fragments_that_grow_are_bounded() -> None:
    text = '{ ...a0 }' + ''.join(f' fragment a{n} on Query {{ ...a{n + 1} ...a{n + 1} }}' for n in range(40)) + \
        ' fragment a40 on Query { viewer { login } }'
    with pytest.raises(Refused) as caught:
        ask(text)
    assert 'more than' in str(caught.value.error['message'])
