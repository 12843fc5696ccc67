"""Processes of a trial, which end with it, and what waits for something."""

import ctypes
import os
import signal
import subprocess
import time

BEGIN = time.monotonic()
SET_PDEATHSIG = 1
libc = ctypes.CDLL(None, use_errno=True)
# The part of the sweep that this process plays.
part = []


class Wrong(Exception):
    """Something is not as it has to be."""


class Broken(Wrong):
    """An answer does not hold: what was acknowledged is gone, was done twice, or can't be read."""


def expect(holds, *what, kind=Wrong):
    if not holds:
        raise kind(' '.join(str(it) for it in what))


def say(*words):
    print(f'{time.monotonic() - BEGIN:7.1f} s', *part, *words, flush=True)


def run(*words, timeout=300, **more):
    """What a command prints; it has to succeed."""
    ended = subprocess.run(words, stdin=subprocess.DEVNULL, stdout=subprocess.PIPE, stderr=subprocess.PIPE, timeout=timeout, check=False, text=True, **more)
    expect(ended.returncode == 0, *words, 'ended with', ended.returncode, ended.stderr[-500:])
    return ended.stdout


def until(what, seconds, name, step=0.05):
    """Waits until something holds. How long that took."""
    start = time.monotonic()
    while not what():
        expect(time.monotonic() < start + seconds, name, 'did not come within', seconds, 'seconds')
        time.sleep(step)
    return time.monotonic() - start


def die_with_parent():
    libc.prctl(SET_PDEATHSIG, signal.SIGKILL)


def start(words, log=None, **more):
    """A process that the kernel kills if the thread that starts it, the main thread, ends first."""
    if log:
        more['stdout'] = more['stderr'] = open(log, 'a')
    return subprocess.Popen(words, stdin=subprocess.DEVNULL, preexec_fn=die_with_parent, **more)


def end(child):
    if child and child.poll() is None:
        child.kill()
    if child:
        child.wait()


def resident(pid):
    """The MB of memory that a process has."""
    with open(f'/proc/{pid}/statm') as file:
        return int(file.read().split()[1]) * os.sysconf('SC_PAGE_SIZE') >> 20
