"""acts-hub watchdog: reports runners lost that were silent for too long."""
from __future__ import annotations

import argparse
import asyncio
import pathlib
import sys
from typing import Any

from ..config import ConfigError
from ..service.hooks import HookPort
from ..service.view import ViewPort
from ..watchdog import Rules, Watchdog


def add(parsers: Any) -> None:
    """Adds the command."""
    parser = parsers.add_parser('watchdog', help='report runners lost that are silent for too long')
    add_one = parser.add_argument
    add_one('--view', required=True, metavar='ADDRESS', help='the view port of the service: unix:/run/acts/8083, or 127.0.0.1:8083')
    add_one('--hook', required=True, metavar='ADDRESS', help='the hook port of the service: unix:/run/acts/8080, or 127.0.0.1:8080')
    add_one('--state', type=pathlib.Path, required=True, metavar='FILE', help='keeps who holds a lease')
    add_one('--after', type=float, required=True, metavar='SECONDS', help='a runner with a lease that says nothing for so long is silent')
    add_one('--fence', required=True, metavar='COMMAND', help="with a runner's name: makes sure that its host has ended, and ends with 0 then")
    add_one('--fence-limit', type=float, default=300, metavar='SECONDS', help='seconds that the command may take (300)')
    add_one('--again', type=float, default=30, metavar='SECONDS', help='seconds until the command is run again (30)')
    add_one('--most', type=int, default=4, metavar='N', help='with more silent runners at once than this, no host is fenced (4)')
    add_one('--minutes', type=float, help='the time limit of jobs without timeout-minutes (none)')
    add_one('--grace', type=float, default=600, metavar='SECONDS', help='so long over its time limit, the host of a runner is fenced (600)')
    add_one('--pause', type=float, default=1, metavar='SECONDS', help='seconds between two looks (1)')
    parser.set_defaults(run=run)


def run(given: argparse.Namespace) -> int:
    """Watches without end."""
    try:
        asyncio.run(watch(given))
    except (ConfigError, OSError, ValueError) as fault:
        print(f'acts-hub watchdog: {fault}', file=sys.stderr, flush=True)
    return 1


async def watch(given: argparse.Namespace) -> None:
    """Watches as the options say."""
    rules = Rules(given.state, given.after, given.fence, given.fence_limit, given.again, given.most, given.minutes, given.grace, given.pause)
    view, hooks = ViewPort(given.view), HookPort(given.hook)
    try:
        watchdog = Watchdog(rules, view, hooks)
        print(f'watchdog: looks at {given.view}', file=sys.stderr, flush=True)
        await watchdog.watch()
    finally:
        await view.close()
        await hooks.close()
