"""Standard streams that are closed as the program begins: `sweeps/closed_streams`."""

import os
import subprocess

from checking import expect

SWEEP = os.path.join(os.path.dirname(os.path.abspath(__file__)), '..', 'closed_streams', 'run')
SECONDS = 600


def every_subset(acts, folder):
    it = subprocess.run([SWEEP, acts], env={**os.environ, 'TMPDIR': folder}, capture_output=True, text=True, timeout=SECONDS)
    expect(it.returncode == 0, 'sweeps/closed_streams/run ends with', it.returncode, it.stdout[-1000:], it.stderr[-1000:])
    return it.stdout.strip().split('\n')[-1]


CHECKS = (every_subset,)
