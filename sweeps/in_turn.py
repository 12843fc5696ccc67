"""What the sweeps share that refuse each call, or each growth of memory, in turn."""

import collections
import os
import shlex
import subprocess
import sys


def play(words, settings, given=None):
    """Runs a program with these variables, and waits for it. The process that ended, and whether a library has refused something: it says so on
    descriptor 9."""
    seen, write_end = os.pipe()
    variables = ' '.join(f'{name}={shlex.quote(str(value))}' for name, value in settings.items())
    child = subprocess.run(['sh', '-c', f'exec 9>&{write_end}; {variables} exec "$0" "$@"', *words],
                           input=given, capture_output=True, pass_fds=(write_end,), timeout=60)
    os.close(write_end)
    refused = os.read(seen, 16) != b''
    os.close(seen)
    return child, refused


def each(attempt):
    """Calls `attempt(1)`, `attempt(2)` and so on, until one gives None, since it has nothing to refuse. How often each outcome came."""
    ends = collections.Counter()
    while (end := attempt(sum(ends.values()) + 1)) is not None:
        ends[end] += 1
    return ends


def each_call(shim, what, attempt):
    """Fails each write and sync of a file in turn, alone and with all after it, and with nothing or half of a write written, and prints how often
    each outcome came. `attempt` gets the variables of the library, and gives an outcome, or None if there is no such call."""
    for more in ({}, {'FAIL_HALF': 1}, {'FAIL_AFTER': 1}, {'FAIL_AFTER': 1, 'FAIL_HALF': 1}):
        def failing(call):
            settings = {'LD_PRELOAD': shim, 'FAIL_AT': call, **more}
            try:
                return attempt(settings)
            except AssertionError as fault:
                sys.exit(f'{settings}: {fault}')
        ends = each(failing)
        kinds = ', '.join(f'{count} {end}' for end, count in sorted(ends.items()))
        print(f'{what}: {sum(ends.values())} calls fail, {"with all after them" if "FAIL_AFTER" in more else "each alone"}, '
              f'{"half" if "FAIL_HALF" in more else "nothing"} of a write written: {kinds}', flush=True)
