"""The life of a service behind doors: sockets outside, the service inside, and its end."""
from __future__ import annotations

import asyncio
import contextlib
import fcntl
import grp
import os
import pwd
import signal
import socket
import sys
from collections.abc import Iterator, Sequence
from dataclasses import dataclass
from pathlib import Path
from typing import Any

from . import namespace
from .forward import Door

DOORS = ('hook', 'runner', 'view')
LONGEST_PATH = 107
"""Bytes of the path of a socket, by the kernel."""
PATIENCE = 10.0
"""Seconds that the service may take to end before it is killed."""


class NoDoors(Exception):
    """The doors can't be made; the text says why."""


@dataclass(frozen=True)
class Doors:
    """What is to be made: in a folder a socket for each port of a command, for the user who runs it, and a group."""

    folder: Path
    command: tuple[str, ...]
    user: str | None = None
    group: str | None = None
    clients: int = 1024
    open_loopback: bool = False


def ports_of(command: Sequence[str]) -> dict[str, int]:
    """The port of each door, as the options of the command name it."""
    ports = {}
    for name in DOORS:
        option = f'--{name}-port'
        index = command.index(option) + 1 if option in command else len(command)
        text = command[index] if index < len(command) else ''
        if not (text.isascii() and text.isdigit() and 0 < int(text) < 65536):
            raise NoDoors(f'the command has no {option} with a number from 1 to 65535')
        ports[name] = int(text)
    if len(set(ports.values())) != len(DOORS):
        raise NoDoors('two ports of the command are the same')
    return ports


def run(doors: Doors) -> int:
    """Serves until the command ends or a signal comes, and answers the exit status."""
    ports = ports_of(doors.command)
    uid, gid = _owners(doors)
    doors.folder.mkdir(mode=0o700, parents=True, exist_ok=True)
    if others := sorted(path.name for path in doors.folder.iterdir() if path.name not in (*DOORS, 'lock')):
        raise NoDoors(f'{doors.folder} has other things in it ({others[0]}): doors need a folder of their own, whose rights they set')
    with _locked(doors.folder), contextlib.ExitStack() as made:
        os.chown(doors.folder, uid, gid)
        os.chmod(doors.folder, 0o700 if doors.group is None else 0o750)
        opened = []
        for name, port in ports.items():
            opened.append(Door(made.enter_context(_listening(doors, name)), port, doors.clients))
            os.chown(doors.folder / name, uid, gid)
        _enter_namespace(doors.open_loopback)
        _become(doors.user)
        status = asyncio.run(_live(doors.command, opened))
    return status


def _owners(doors: Doors) -> tuple[int, int]:
    """The numbers of user and group to which the sockets belong."""
    try:
        uid = os.geteuid() if doors.user is None else pwd.getpwnam(doors.user).pw_uid
        gid = -1 if doors.group is None else grp.getgrnam(doors.group).gr_gid
    except KeyError as fault:
        raise NoDoors(str(fault.args[0])) from None
    return uid, gid


@contextlib.contextmanager
def _locked(folder: Path) -> Iterator[None]:
    """Holds the folder for one process at a time."""
    with open(folder / 'lock', 'a', encoding='ascii') as file:
        try:
            fcntl.flock(file, fcntl.LOCK_EX | fcntl.LOCK_NB)
        except OSError:
            raise NoDoors(f'another process has the doors in {folder}') from None
        yield


@contextlib.contextmanager
def _listening(doors: Doors, name: str) -> Iterator[socket.socket]:
    """A socket of the file system, which user and group alone may open; an earlier life's is replaced."""
    path = doors.folder / name
    if len(os.fsencode(path)) > LONGEST_PATH:
        raise NoDoors(f"{path} is longer than the {LONGEST_PATH} bytes that a socket's path may have")
    with contextlib.suppress(FileNotFoundError):
        path.unlink()
    with socket.socket(socket.AF_UNIX, socket.SOCK_STREAM | socket.SOCK_CLOEXEC) as made:
        before = os.umask(0o177)
        try:
            made.bind(os.fspath(path))
        finally:
            os.umask(before)
        os.chmod(path, 0o600 if doors.group is None else 0o660)
        made.listen(1024)
        try:
            yield made
        finally:
            with contextlib.suppress(OSError):
                path.unlink()


def _enter_namespace(open_loopback: bool) -> None:
    try:
        namespace.enter()
    except namespace.NoNamespace as fault:
        words = f'no network namespace for the service ({fault}), so every program of this machine can use its ports'
        if not open_loopback:
            raise NoDoors(f'{words}; with --open-loopback it starts nevertheless') from None
        print(f'acts-hub doors: {words}', file=sys.stderr, flush=True)


def _become(user: str | None) -> None:
    """Gives up root's rights for those of a user."""
    if user is not None:
        entry = pwd.getpwnam(user)
        os.initgroups(user, entry.pw_gid)
        os.setgid(entry.pw_gid)
        os.setuid(entry.pw_uid)


async def _live(command: Sequence[str], opened: Sequence[Door]) -> int:
    """Starts the command and forwards until it ends; a signal ends it."""
    loop = asyncio.get_running_loop()
    asked = asyncio.Event()
    for number in (signal.SIGTERM, signal.SIGINT, signal.SIGHUP):
        loop.add_signal_handler(number, asked.set)
    parent = os.getpid()
    try:
        child = await asyncio.create_subprocess_exec(
            *command, stdin=asyncio.subprocess.DEVNULL, start_new_session=True,
            preexec_fn=lambda: namespace.bind_to_parent(parent))
    except OSError as error:
        raise NoDoors(f'{command[0]}: {error.strerror}') from None
    forwarding = [loop.create_task(door.serve()) for door in opened]
    ended, stopped = loop.create_task(child.wait()), loop.create_task(asked.wait())
    awaited: set[asyncio.Task[Any]] = {ended, stopped, *forwarding}
    done, _ = await asyncio.wait(awaited, return_when=asyncio.FIRST_COMPLETED)
    for task in (stopped, *forwarding):
        task.cancel()
    status = ended.result() if ended in done else await _end(child)
    for task in done - {ended, stopped}:
        task.result()  # a door that can't go on is a fault
    if asked.is_set():
        return 0
    return status if status >= 0 else 128 - status


async def _end(child: asyncio.subprocess.Process) -> int:
    """Asks the service to end, and kills it once it has taken too long."""
    child.terminate()
    try:
        return await asyncio.wait_for(child.wait(), PATIENCE)
    except asyncio.TimeoutError:
        child.kill()
        return await child.wait()
