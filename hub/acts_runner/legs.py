"""The process that runs the steps of a leg. It goes on without its runner, and notes that the steps begin, and how they
ended."""
from __future__ import annotations

import contextlib
import ctypes
import json
import os
import signal
import subprocess
import sys
import time
from typing import Any, Callable

from .files import Slots, lock, read_text

SECONDS_OF_TERM = 10
ROOT = os.path.dirname(os.path.dirname(os.path.abspath(__file__)))
PROGRAM = f'import sys; sys.path.insert(0, {ROOT!r}); from acts_runner.__main__ import main; main()'
PR_SET_CHILD_SUBREAPER = 36
HELPERS: set[int] = set()  # processes below this one that are the runner's own, and no step's


def program() -> list[str]:
    """The words by which this program is started again; no folder that steps can write is looked at for modules."""
    return [sys.executable, '-P', '-c', PROGRAM]


def fields_of(process: str) -> list[str]:
    """State, parent, group and so on of a process; nothing of what is none."""
    return read_text(f'/proc/{process}/stat').rpartition(') ')[2].split() if process.isdigit() else []


def parents() -> dict[int, int]:
    """The parent of each process that runs; zombies do not."""
    found = {int(name): fields_of(name) for name in os.listdir('/proc') if name.isdigit()}
    return {process: int(fields[1]) for process, fields in found.items() if fields and fields[0] not in 'ZX'}


def offspring(roots: set[int], of: dict[int, int]) -> set[int]:
    """The processes that have one of these as a parent, or as a parent of a parent, and so on."""
    found = set(roots)
    while new := {process for process, parent in of.items() if parent in found} - found:
        found |= new
    return found - roots


def marked(mark: str) -> set[int]:
    """The processes that have a variable ACTS_LEG that begins so, and all that these have started."""
    of = parents()
    roots = {process for process in of if f'\0ACTS_LEG={mark}' in '\0' + read_text(f'/proc/{process}/environ')}
    return roots | offspring(roots, of)


def end(processes: Callable[[], set[int]]) -> None:
    """Ends what the call gives: by TERM, and after ten seconds by KILL. Waits until nothing is left."""
    told: set[int] = set()
    began = time.monotonic()
    while left := processes():
        late = time.monotonic() > began + SECONDS_OF_TERM
        for process in left if late else left - told:
            with contextlib.suppress(ProcessLookupError, PermissionError):
                os.kill(process, signal.SIGKILL if late else signal.SIGTERM)
        told |= left
        time.sleep(0.05)


class LegProcess:
    """The process of the leg with this token: a text that no other leg of any runner has. It holds the lock `starting`
    from before its first act to its end."""

    def __init__(self, token: str) -> None:
        self.mark = os.getcwd() + ' '
        self.token, self.slots = self.mark + token, Slots('notes')

    def notes(self) -> dict[str, Any]:
        """What the process has noted; nothing if it has not begun."""
        noted: dict[str, Any] = self.slots.read() or {}
        return noted if noted.get('token') == self.token else {}

    def is_alive(self) -> bool:
        """Whether a process of a leg runs in this folder."""
        mine = lock('starting')
        if mine:
            mine.close()
        return mine is None

    def may_begin(self) -> bool:
        """Waits until the process of an earlier life has begun, or is not there."""
        while not self.notes() and self.is_alive():
            time.sleep(0.02)
        return not self.notes()

    def begin(self, order: dict[str, Any]) -> subprocess.Popen[bytes]:
        """Starts the process, and waits until the steps begin, or it has ended."""
        held = lock('starting', seconds=5)
        if held is None:
            raise OSError('the process of another leg has the lock')
        child = subprocess.Popen([*program(), '--leg'], stdin=subprocess.PIPE, start_new_session=True,
                                 pass_fds=[held.fileno()], env={**os.environ, 'ACTS_LEG': self.token})
        held.close()
        assert child.stdin
        with contextlib.suppress(BrokenPipeError), child.stdin as pipe:
            pipe.write(json.dumps({**order, 'token': self.token}).encode())
        while child.poll() is None and not self.notes():
            time.sleep(0.02)
        return child

    def cancel(self) -> None:
        """Asks the process to end its steps as cancelled ones."""
        if self.notes() and self.is_alive():
            with contextlib.suppress(ProcessLookupError):
                os.kill(self.notes()['process'], signal.SIGUSR1)

    def end(self) -> None:
        """Ends all that is left of this leg, and of any other leg of this folder."""
        end(lambda: marked(self.mark) - {os.getpid()})


def be_leg(run: Callable[[dict[str, Any], list[float]], str]) -> None:
    """Runs the steps of the leg that the input describes. What they leave running ends before it is noted how they
    ended."""
    order, slots = json.load(sys.stdin), Slots('notes')
    with contextlib.suppress(OSError, AttributeError):  # what outlives its parent stays below this process
        ctypes.CDLL(None).prctl(PR_SET_CHILD_SUBREAPER, 1)
    for number in signal.SIGINT, signal.SIGTERM, signal.SIGQUIT:
        signal.signal(number, signal.SIG_DFL)  # a shell that started the runner in its background ignores INT
    asked: list[float] = []
    signal.signal(signal.SIGUSR1, lambda *_: asked.append(time.monotonic()))
    slots.write({'token': order['token'], 'process': os.getpid()})
    result = run(order, asked)
    end(lambda: offspring({os.getpid()}, parents()))
    slots.write({'token': order['token'], 'process': os.getpid(), 'result': result})
