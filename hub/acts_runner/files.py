"""Small values on disk that a full disk does not keep from being written, and locks on files."""
from __future__ import annotations

import fcntl
import hashlib
import json
import os
import socket
import time
from typing import IO, Any

SLOT = 1 << 19  # bytes


def read_text(path: str) -> str:
    """The text of a file; the empty text if there is none."""
    try:
        with open(path, errors='replace', encoding='utf-8') as file:
            return file.read()
    except OSError:
        return ''


class Slots:
    """A value in a file of two slots whose room is taken from the beginning, so that a full disk does not keep it from
    being written. Of the slots that are whole, the one with the higher count has the value: after a crash that is the
    last value, or the one before."""

    def __init__(self, path: str) -> None:
        self.file = os.open(path, os.O_RDWR | os.O_CREAT | os.O_CLOEXEC, 0o600)
        if os.fstat(self.file).st_size < 2 * SLOT:
            for at in range(0, 2 * SLOT, 1 << 16):
                os.pwrite(self.file, bytes(1 << 16), at)
            os.fsync(self.file)
            folder = os.open(os.path.dirname(path) or '.', os.O_RDONLY)
            os.fsync(folder)
            os.close(folder)

    def slot(self, index: int) -> tuple[int, Any]:
        """The count and the value of a slot; 0 and None if it is not whole."""
        digest, _, rest = os.pread(self.file, SLOT, index * SLOT).partition(b' ')
        text = rest.partition(b'\n')[0]
        if hashlib.sha256(text).hexdigest().encode() != digest:
            return 0, None
        count, value = json.loads(text)
        return count, value

    def read(self) -> Any:
        """The value; None if there was none."""
        return max(self.slot(0), self.slot(1), key=lambda found: found[0])[1]

    def write(self, value: Any) -> None:
        """Replaces the value, and waits until it is on the disk."""
        counts = [self.slot(index)[0] for index in (0, 1)]
        text = json.dumps([max(counts) + 1, value]).encode()
        data = hashlib.sha256(text).hexdigest().encode() + b' ' + text + b'\n'
        if len(data) > SLOT:
            raise OSError(f'{len(data)} bytes do not fit')
        os.pwrite(self.file, data, counts.index(min(counts)) * SLOT)
        os.fsync(self.file)


def lock(path: str, seconds: float = 0) -> IO[str] | None:
    """An open file that is locked until it is closed here and in all processes that inherit it; None if another has
    the lock."""
    file, late = open(path, 'w', encoding='utf-8'), time.monotonic() + seconds
    while True:
        try:
            fcntl.flock(file, fcntl.LOCK_EX | fcntl.LOCK_NB)
            return file
        except BlockingIOError:
            if time.monotonic() >= late:
                file.close()
                return None
        time.sleep(0.05)


def home() -> str:
    """Which machine and which folder this is: another one for a copy of the folder."""
    return f'{read_text("/etc/machine-id").strip()} {os.stat(".").st_ino}'


def present() -> str:
    """In which life of which machine this is: another one after a restart of the machine, and in a copy of it."""
    return f'{home()} {read_text("/proc/sys/kernel/random/boot_id").strip()} {socket.gethostname()}'
