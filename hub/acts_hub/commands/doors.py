"""acts-hub doors: the service in a network namespace of its own, its ports as sockets of the file system."""
from __future__ import annotations

import argparse
import pathlib
import sys
from typing import Any

from ..doors import namespace
from ..doors.run import Doors, NoDoors, run as run_doors


def add(parsers: Any) -> None:
    """Adds the command."""
    parser = parsers.add_parser('doors', help='run the service in a network namespace of its own',
                                usage='acts-hub doors --folder FOLDER -- acts serve STORE --hook-port P --runner-port Q --view-port V ..')
    parser.add_argument('--folder', type=pathlib.Path, help='where the sockets hook, runner and view are made')
    parser.add_argument('--user', help='begun by root: the user as whom doors and service run')
    parser.add_argument('--group', help='a group that may use the sockets too')
    parser.add_argument('--clients', type=int, default=1024, metavar='N', help='clients of each door at a time (1024)')
    parser.add_argument('--open-loopback', action='store_true', help='go on where no namespace can be had: every program can use the ports')
    parser.add_argument('--check', action='store_true', help='only say whether a namespace can be had; the status is 1 if not')
    parser.add_argument('words', nargs='*', metavar='WORD', help='the command of the service')
    parser.set_defaults(run=run)


def run(given: argparse.Namespace) -> int:
    """Serves till the command ends or a signal comes."""
    if given.check:
        lacks = namespace.missing()
        print(f'no network namespace can be had: {lacks}' if lacks else 'a network namespace can be had')
        return 1 if lacks else 0
    try:
        if not given.folder or not given.words:
            raise NoDoors('--folder and a command after -- are wanted')
        if given.clients < 1:
            raise NoDoors('--clients has to be 1 or more')
        return run_doors(Doors(given.folder.absolute(), tuple(given.words), given.user, given.group, given.clients, given.open_loopback))
    except (NoDoors, OSError) as fault:
        print(f'acts-hub doors: {fault}', file=sys.stderr, flush=True)
        return 1
