"""Lists of GraphQL with pages: `totalCount`, `nodes`, `edges`, `pageInfo`."""
from __future__ import annotations

import base64
from collections.abc import Sequence

from .execution import Arguments, Thing, Unanswered

MAX_FIRST = 100


def connection(name: str, things: Sequence[Thing], given: Arguments) -> Thing:
    """A page of things, by `first` and `after` or by `last`."""
    first, last, after = given.get('first'), given.get('last'), given.get('after')
    for word, count in (('first', first), ('last', last)):
        if count is not None and (not isinstance(count, int) or count < 0):
            raise Unanswered('ARGUMENT_ERROR', f'`{word}` on the `{name}` connection is a whole number.')
        if count is not None and count > MAX_FIRST:
            raise Unanswered('EXCESSIVE_PAGINATION',
                             f'Requesting {count} records on the `{name}` connection exceeds the `{word}` limit of '
                                                     f'{MAX_FIRST} records.')
    if first is None and last is None:
        raise Unanswered('MISSING_PAGINATION_BOUNDARIES',
                         f'You must provide a `first` or `last` value to properly paginate the `{name}` connection.')
    start = _place(after)
    end = len(things) if first is None else min(len(things), start + first)
    if last is not None:
        start = max(start, end - last)
    cut = things[start:end]
    info = Thing('PageInfo',
                 {'hasNextPage': end < len(things), 'hasPreviousPage': start > 0,
                  'endCursor': _cursor(end) if cut else None,
                              'startCursor': _cursor(start + 1) if cut else None})
    edges = [Thing('Edge', {'node': thing, 'cursor': _cursor(start + at + 1)}) for at, thing in enumerate(cut)]
    return Thing('Connection', {'totalCount': len(things), 'nodes': list(cut), 'edges': edges, 'pageInfo': info})


def _cursor(place: int) -> str:
    return base64.b64encode(f'cursor:{place}'.encode()).decode()


def _place(cursor: object) -> int:
    if cursor is None or cursor == '':
        return 0
    try:
        word, _, number = base64.b64decode(str(cursor)[:64], validate=True).decode().partition(':')
        if word == 'cursor' and number.isascii() and number.isdigit():
            return int(number)
    except ValueError:
        pass
    raise Unanswered('INVALID_CURSOR_ARGUMENTS', f'`{str(cursor)[:64]}` does not appear to be a valid cursor.')
