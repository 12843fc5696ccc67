"""acts-hub events: what was put aside, and to have it tried again."""
from __future__ import annotations

import argparse
import pathlib
import sys
from typing import Any

from ..config import ConfigError, read_config
from ..events.settings import settings_of
from ..events.spool import Spool


def add(parsers: Any) -> None:
    """Adds the command."""
    parser = parsers.add_parser('events', help='list events that were put aside, or have them tried again')
    parser.add_argument('--config', type=pathlib.Path, default=pathlib.Path('/etc/acts/hub.toml'), metavar='FILE')
    actions = parser.add_subparsers(dest='action', required=True, metavar='ACTION')
    actions.add_parser('list', help='print what was put aside, with the reasons')
    retry = actions.add_parser('retry', help='have these tried again, or `all`')
    retry.add_argument('names', nargs='+', metavar='NAME')
    parser.set_defaults(run=run)


def run(given: argparse.Namespace) -> int:
    """Lists, or has tried again."""
    try:
        spool = Spool(settings_of(read_config(given.config)).folder / 'spool')
        aside = spool.aside()
        if given.action == 'list':
            print(*map(spool.why, aside), sep='', end='')
            return 0
        for name in aside if given.names == ['all'] else given.names:
            if not spool.retry(name):
                print(f'acts-hub: {name} is not put aside in {spool.folder}', file=sys.stderr)
                return 1
    except (ConfigError, OSError) as fault:
        print(f'acts-hub: {fault}', file=sys.stderr)
        return 1
    return 0
