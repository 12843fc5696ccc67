"""How a step's process runs: its shell, its variables and files, and its end, by itself, by a time limit or by a
cancel."""
from __future__ import annotations

import contextlib
import os
import shutil
import signal
import subprocess
import time
from typing import Callable, Mapping, Sequence

from .commands import assignments
from .container import Place
from .legs import HELPERS, fields_of, offspring, parents
from .printed import Listener, Reader

SECONDS_OF_INT, SECONDS_OF_TERM, SECONDS_OF_ORPHANS = 7.5, 2.5, 5
SECONDS_OF_CLEANUP = 300.0
SHELLS: dict[str | None, list[str]] = {
    'bash': ['bash', '--noprofile', '--norc', '-eo', 'pipefail', '{0}'], 'sh': ['sh', '-e', '{0}'],
    'python': ['python', '{0}'], 'pwsh': ['pwsh', '-command', ". '{0}'"], None: ['bash', '-e', '{0}']}
FILES = 'GITHUB_ENV', 'GITHUB_OUTPUT', 'GITHUB_PATH', 'GITHUB_STATE', 'GITHUB_STEP_SUMMARY'
ENDINGS = {'python': '.py', 'pwsh': '.ps1'}


class StepFailed(Exception):
    """Why a step has failed, in words."""


class Cancelled(Exception):
    """A step was ended by a cancel."""


def shell_words(shell: str | None, inside: bool = False) -> list[str]:
    """The words of a shell, with {0} where the script stands, or a ValueError. What a container has inside is not known
    before it runs."""
    if shell in SHELLS:
        words = SHELLS[shell]
        if shell is None and (inside or not shutil.which('bash')):
            words = SHELLS['sh']
        if words[0] == 'python' and not inside and not shutil.which('python'):
            words = ['python3', *words[1:]]
    else:
        assert shell is not None
        words = shell.split()
        if '{0}' not in shell:
            raise ValueError(f'the shell {shell} is not known')
    if not inside and not shutil.which(words[0]):
        raise ValueError(f'the shell {words[0]} is not installed')
    return words


def paths_in(folder: str) -> dict[str, str]:
    """The paths of a step's files, by the names of the variables that have them."""
    return {name: os.path.join(folder, name.lower()) for name in FILES}


class Files:
    """The files by which a step hands on variables, outputs, folders of PATH, its state and its summary."""

    def __init__(self, folder: str) -> None:
        self.paths = paths_in(folder)
        for path in self.paths.values():
            with open(path, 'w', encoding='utf-8'):
                pass

    def text(self, name: str) -> str:
        """What a step has written."""
        with open(self.paths[name], errors='replace', encoding='utf-8') as file:
            return file.read()

    def values(self, name: str) -> dict[str, str]:
        """Names and values that a step has written."""
        try:
            return assignments(self.text(name))
        except ValueError as fault:
            raise StepFailed(f'{name}: {fault}') from None


class Clock:
    """Until when a job may run, and since when it is cancelled: because the service asks for it, or because its time is
    over."""

    def __init__(self, asked: Sequence[float], minutes: float) -> None:
        self.asked, self.late = asked, time.monotonic() + 60 * minutes
        self.since: float | None = None

    def is_cancelled(self) -> bool:
        """Whether the job is cancelled."""
        if self.since is None and (self.asked or time.monotonic() > self.late):
            self.since = time.monotonic()
        return self.since is not None

    def is_over(self) -> bool:
        """Whether the time of the steps that run after a cancel is over, too."""
        return self.is_cancelled() and time.monotonic() > (self.since or 0) + SECONDS_OF_CLEANUP


def own() -> set[int]:
    """All processes below this one, but the runner's own."""
    return offspring({os.getpid()}, parents()) - HELPERS


def reap(child: int) -> None:
    """Takes the status of orphans that have ended, so that they leave nothing behind; not that of a child."""
    for name in os.listdir('/proc'):
        if fields_of(name)[:2] == ['Z', str(os.getpid())] and int(name) != child:
            with contextlib.suppress(ChildProcessError):
                os.waitpid(int(name), os.WNOHANG)


def kill(others: set[int]) -> None:
    """Kills all processes below this one but these."""
    while found := own() - others:
        for process in found:
            with contextlib.suppress(ProcessLookupError, PermissionError):
                os.kill(process, signal.SIGKILL)
        time.sleep(0.02)


class Process:
    """The first process of a step. Those that it leaves running go on until the leg ends, unless the step is ended."""

    def __init__(self, words: Sequence[str], folder: str, env: Mapping[str, str], to: Listener,
                 inside: Place | None = None) -> None:
        self.others, self.inside = own(), inside
        self.why: str | None = None
        self.told: int | None = None
        self.since = 0.0
        place: str | None = folder
        if inside:
            words, env = inside.begun(words, folder, env)
            place = None
        try:
            self.child = subprocess.Popen(words, cwd=place, env=env, stdin=subprocess.DEVNULL, stdout=subprocess.PIPE,
                                          stderr=subprocess.STDOUT)
        except (OSError, ValueError) as fault:
            raise StepFailed(f'{words[0]} does not start: {fault}') from None
        assert self.child.stdout
        self.reader = Reader(self.child.stdout, to)

    def wait(self, clock: Clock, late: float, goes_on: Callable[[], bool | None]) -> str:
        """How it ended: `success`, `failure` or `cancelled`. `goes_on` says whether the step goes on after a cancel."""
        reaped = time.monotonic()
        while self.child.poll() is None:
            now = time.monotonic()
            if now > reaped + SECONDS_OF_ORPHANS:
                reap(self.child.pid)
                reaped = now
            self.press(now, clock, late, goes_on)
            time.sleep(0.02)
        if self.why:
            self.kill()
        self.reader.join(5 if self.why else self.seconds_for_output())
        return self.why or ('failure' if self.child.returncode else 'success')

    def press(self, now: float, clock: Clock, late: float, goes_on: Callable[[], bool | None]) -> None:
        """Sends the signal that is due: INT, then TERM, then KILL."""
        if not self.why and (now > late or clock.is_cancelled() and not goes_on()):
            self.why = 'failure' if now > late else 'cancelled'
            self.tell(signal.SIGINT)
        elif self.told == signal.SIGINT and now > self.since + SECONDS_OF_INT:
            self.tell(signal.SIGTERM)
        elif self.told == signal.SIGTERM and now > self.since + SECONDS_OF_TERM or clock.is_over():
            self.why = self.why or 'cancelled'
            self.kill()

    def seconds_for_output(self) -> float:
        """What the step has printed is read to its end; what it has left running may keep its output open."""
        return 30 if own() <= self.others else 0.5

    def tell(self, what: int) -> None:
        """Sends a signal."""
        self.told, self.since = what, time.monotonic()
        if self.inside:
            self.inside.tell(self.child, what)
            return
        with contextlib.suppress(ProcessLookupError):
            self.child.send_signal(what)

    def kill(self) -> None:
        """Kills what the step has left. The processes of a container may be below this one, too, and stay."""
        if not self.inside:
            kill(self.others)
            return
        self.inside.kill()
        self.child.kill()
