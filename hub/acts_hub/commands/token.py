"""acts-hub token: makes, lists and revokes tokens."""
from __future__ import annotations

import argparse
import pathlib
import sys
from typing import Any

from ..access.rights import Right
from ..access.tokens import TokenError, Tokens
from ..config import ConfigError, read_config
from ..ledger.database import Database, LedgerError
from ..times import iso, now

DAY = 86_400_000


def add(parsers: Any) -> None:
    """Adds the command."""
    parser = parsers.add_parser('token', help='make, list and revoke tokens')
    parser.add_argument('--config', type=pathlib.Path, default=pathlib.Path('/etc/acts/hub.toml'), metavar='FILE')
    acts = parser.add_subparsers(dest='act', required=True, metavar='ACT')
    create = acts.add_parser('create', help='make a token; it is printed once')
    create.add_argument('name', help='whose it is')
    create.add_argument('kind', choices=[right.value for right in Right])
    create.add_argument('--repository', action='append', default=[], metavar='PATTERN', help='octo/hello, octo/* or * (the default); may be repeated')
    create.add_argument('--prefix', default='', help='of runners: how their names begin')
    create.add_argument('--labels', default='', help='of runners: the labels that they may claim with, joined by commas')
    create.add_argument('--days', type=int, default=0, help='after how many days it ends; never by default')
    acts.add_parser('list', help='list the tokens, without their secrets')
    revoke = acts.add_parser('revoke', help='revoke a token at once')
    revoke.add_argument('which', help='its id, or a name for all of this name')
    for act in acts.choices.values():                       # the option may stand before the act, or behind it
        act.add_argument('--config', type=pathlib.Path, default=argparse.SUPPRESS, metavar='FILE', help=argparse.SUPPRESS)
    parser.set_defaults(run=run)


def run(given: argparse.Namespace) -> int:
    """Runs the command."""
    try:
        folder = read_config(given.config).hub.folder
        folder.mkdir(mode=0o700, parents=True, exist_ok=True)
        database = Database(folder / 'ledger.sqlite')
        database.open()
        try:
            return ACTS[given.act](Tokens(database), given)
        finally:
            database.close(1)
    except (ConfigError, TokenError, LedgerError, OSError) as fault:
        print(f'acts-hub: {fault}', file=sys.stderr)
        return 1


def create(tokens: Tokens, given: argparse.Namespace) -> int:
    """Makes a token and prints it."""
    labels = tuple(label for label in given.labels.split(',') if label)
    expires_at = now() + given.days * DAY if given.days > 0 else None
    print(tokens.create(given.name, Right(given.kind), tuple(given.repository) or ('*',), given.prefix, labels, expires_at))
    return 0


def list_all(tokens: Tokens, given: argparse.Namespace) -> int:
    """Prints a line for each token."""
    for token in tokens.all():
        state = 'revoked' if token.revoked_at is not None else 'valid' if token.holds(now()) else 'expired'
        more = f' prefix={token.prefix} labels={",".join(token.labels)}' if token.right is Right.RUNNER else ''
        print(f'{token.id} {token.name} {token.right.value} {",".join(token.repositories)} {state} {iso(token.created_at)}{more}')
    return 0


def revoke(tokens: Tokens, given: argparse.Namespace) -> int:
    """Revokes tokens."""
    found = tokens.revoke(given.which)
    for token in found:
        print(f'revoked {token.id} {token.name}')
    if not found:
        print(f'acts-hub: there is no valid token {given.which!r}', file=sys.stderr)
    return 0 if found else 1


ACTS = {'create': create, 'list': list_all, 'revoke': revoke}
