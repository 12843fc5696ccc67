"""acts-hub: serve, token, and the other commands."""
from __future__ import annotations

import argparse
import importlib
import importlib.util
import sys

from . import __version__

COMMANDS = 'serve', 'token', 'up', 'check', 'events', 'doors', 'watchdog'


def main() -> int:
    """Runs a command; the status is 0, 1 after a failure, 2 after an error of the command line."""
    parser = argparse.ArgumentParser(prog='acts-hub', description='The program around the service acts.')
    parser.add_argument('--version', action='version', version=f'acts-hub {__version__}')
    parsers = parser.add_subparsers(dest='command', required=True, metavar='COMMAND')
    asked = sys.argv[1] if len(sys.argv) > 1 else ''
    for name in [asked] if asked in COMMANDS else COMMANDS:    # one command needs no other's modules
        where = f'{__package__}.commands.{name}'
        if importlib.util.find_spec(where) is not None:
            importlib.import_module(where).add(parsers)
    given = parser.parse_args()
    try:
        return int(given.run(given))
    except KeyboardInterrupt:
        return 130


if __name__ == '__main__':
    sys.exit(main())
