"""Files that are written under another name, bounded, and take their place once they are whole."""
from __future__ import annotations

import contextlib
import hashlib
import os
import pathlib
import secrets
import shutil
import time


class FileTooLarge(ValueError):
    """A file is longer than it may be."""


class WrongDigest(ValueError):
    """A file is not what its sender says."""


class NewFile:
    """A file that is being written below `folder`/new. An OSError says that the disk does not take it."""

    def __init__(self, folder: pathlib.Path, limit: int) -> None:
        self.limit = limit
        self.size = 0
        self._hash = hashlib.sha256()
        (folder / 'new').mkdir(mode=0o700, parents=True, exist_ok=True)
        self.path = folder / 'new' / secrets.token_hex(16)
        self._file = open(self.path, 'xb', opener=lambda path, flags: os.open(path, flags | os.O_CLOEXEC, 0o600))
        self._is_open = True

    def write(self, data: bytes) -> None:
        """Adds a piece."""
        if self.size + len(data) > self.limit:
            self.abandon()
            raise FileTooLarge(f'it is longer than {self.limit} bytes')
        try:
            self._file.write(data)
        except OSError:
            self.abandon()
            raise
        self._hash.update(data)
        self.size += len(data)

    @property
    def digest(self) -> str:
        """The SHA-256 of what was written, in hexadecimal digits."""
        return self._hash.hexdigest()

    def finish(self, target: pathlib.Path, digest: str | None) -> None:
        """Gives the file its name, once it is on the disk."""
        if not self._is_open:
            raise ValueError('it has ended')
        if digest is not None and digest.lower().removeprefix('sha256:') != self.digest:
            self.abandon()
            raise WrongDigest('its SHA-256 is another one than was said')
        try:
            self._file.flush()
            os.fsync(self._file.fileno())
            self._close()
            target.parent.mkdir(mode=0o700, parents=True, exist_ok=True)
            os.replace(self.path, target)
        except OSError:
            self.abandon()
            raise

    def _close(self) -> None:
        self._is_open = False
        self._file.close()

    def abandon(self) -> None:
        """Removes it; does nothing once it has ended."""
        if self._is_open:
            try:
                self._close()
            except OSError:
                pass
            self.path.unlink(missing_ok=True)


def remove_unfinished(folder: pathlib.Path, seconds: float = 86_400) -> None:
    """Removes what an earlier life of the hub left half written."""
    for path in (folder / 'new').glob('*'):
        try:
            if path.stat().st_mtime < time.time() - seconds:
                path.unlink()
        except OSError:
            pass


def remove_tree(folder: pathlib.Path) -> None:
    """Removes a folder with all that is in it."""
    shutil.rmtree(folder, ignore_errors=True)


def runs_in(folder: pathlib.Path, last: int) -> list[int]:
    """The runs up to one that have a folder, ascending: N/RUN, of thousand runs in each N."""
    found: list[int] = []
    for above in sorted(_numbers(folder)):
        if above * 1000 <= last:
            found += sorted(run for run in _numbers(folder / str(above)) if run // 1000 == above and 0 < run <= last)
    return found


def remove_empty(folder: pathlib.Path, last: int) -> None:
    """Removes the empty N of folders N/RUN that no run behind this one will be in."""
    for above in _numbers(folder):
        if above * 1000 + 999 <= last:
            with contextlib.suppress(OSError):
                (folder / str(above)).rmdir()


def _numbers(folder: pathlib.Path) -> list[int]:
    try:
        return [int(name) for name in os.listdir(folder) if name.isascii() and name.isdecimal() and len(name) < 10]
    except OSError:
        return []
