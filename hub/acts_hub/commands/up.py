"""acts-hub up: service, doors, hub and a runner in one folder, and a first run."""
from __future__ import annotations

import argparse
import os
import pathlib
from typing import Any

from ..up.run import KEEP_RUNS, Wishes, run as run_up

MAX_KEPT = 50_000


def add(parsers: Any) -> None:
    """Adds the command."""
    parser = parsers.add_parser('up', help='start all in one folder, and run an example to its end')
    parser.add_argument('folder', type=pathlib.Path, help='where all is kept; it is made at the first start')
    parser.add_argument('--acts', default=os.environ.get('ACTS', 'acts'), metavar='PATH', help='the program acts (ACTS, or the one on the PATH)')
    parser.add_argument('--listen', default='127.0.0.1:8443', metavar='HOST:PORT',
                        help='where the hub listens; port 0 is a free one; it counts at the first start (127.0.0.1:8443)')
    parser.add_argument('--once', action='store_true', help='end once the example has; the status is 0 if it has succeeded')
    parser.add_argument('--no-runner', action='store_true', help='start no runner, and no example: runners come from other hosts')
    parser.add_argument('--open-loopback', action='store_true', help='go on where no network namespace can be had: every program can use the ports')
    parser.add_argument('--runner-user', metavar='NAME', help='begun by root: as whom the runner runs (nobody, where that can be)')
    parser.add_argument('--keep-runs', type=_count, default=KEEP_RUNS, metavar='RUNS',
                        help=f'how many runs the service keeps, 1 to {MAX_KEPT:,}; older ones that have completed go, with their logs and artifacts; 0 keeps all ({KEEP_RUNS:,})')
    parser.set_defaults(run=run)


def _count(text: str) -> int:
    if not text.isascii() or not text.isdecimal() or int(text) > MAX_KEPT:
        raise argparse.ArgumentTypeError(f'1 to {MAX_KEPT}, or 0, are wanted')
    return int(text)


def run(given: argparse.Namespace) -> int:
    """Starts all."""
    return run_up(Wishes(given.folder, given.acts, given.listen, given.once, given.no_runner, given.open_loopback, given.runner_user,
                         given.keep_runs))
