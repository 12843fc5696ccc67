"""A network namespace for the service: loopback alone, which no process outside of it reaches."""
from __future__ import annotations

import ctypes
import fcntl
import os
import socket
import struct

CLONE_NEWUSER = 0x10000000
CLONE_NEWNET = 0x40000000
SIOCSIFFLAGS = 0x8914
IFF_UP = 0x1
PR_SET_PDEATHSIG = 1
PR_SET_NO_NEW_PRIVS = 38
SIGKILL = 9

_libc = ctypes.CDLL(None, use_errno=True)


class NoNamespace(Exception):
    """The kernel gives this process no network namespace; the text says why."""


def enter() -> None:
    """Moves this process, which has one thread, into a new network namespace and brings its loopback interface up."""
    fault = _unshare(CLONE_NEWNET)
    if fault:
        uid, gid = os.geteuid(), os.getegid()
        of_user = _unshare(CLONE_NEWUSER | CLONE_NEWNET)
        if of_user:
            raise NoNamespace(f'unshare: {os.strerror(fault)}; with a user namespace: {os.strerror(of_user)}')
        _map_user(uid, gid)
    try:
        _bring_up('lo')
    except OSError as error:
        raise NoNamespace(f'the loopback interface stays down: {error.strerror}') from None


def bind_to_parent(parent: int) -> None:
    """Lets this child end with its parent, and gain no rights by what it executes; called between fork and exec."""
    _libc.prctl(PR_SET_PDEATHSIG, SIGKILL, 0, 0, 0)
    _libc.prctl(PR_SET_NO_NEW_PRIVS, 1, 0, 0, 0)
    if os.getppid() != parent:
        os._exit(1)


def missing() -> str | None:
    """Why no namespace can be had here, or None if one can; tried in a child."""
    reader, writer = os.pipe()
    child = os.fork()
    if not child:
        words = ''
        try:
            enter()
        except NoNamespace as fault:
            words = str(fault)
        finally:
            os.write(writer, words.encode())
            os._exit(0)
    os.close(writer)
    with open(reader, encoding='utf-8') as pipe:
        words = pipe.read()
    os.waitpid(child, 0)
    return words or None


def _unshare(flags: int) -> int:
    return ctypes.get_errno() if _libc.unshare(flags) else 0


def _map_user(uid: int, gid: int) -> None:
    """Keeps the numbers of this user and group in the new user namespace, and no others."""
    for name, text in (('setgroups', 'deny'), ('uid_map', f'{uid} {uid} 1'), ('gid_map', f'{gid} {gid} 1')):
        try:
            with open(f'/proc/self/{name}', 'w', encoding='ascii') as file:
                file.write(text)
        except OSError as error:
            raise NoNamespace(f'{name} of the user namespace: {error.strerror}') from None


def _bring_up(interface: str) -> None:
    request = struct.pack('16sh22x', interface.encode(), IFF_UP)
    with socket.socket(socket.AF_INET, socket.SOCK_DGRAM) as asked:
        fcntl.ioctl(asked, SIOCSIFFLAGS, request)
