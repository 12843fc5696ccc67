"""Caches of actions/cache, in the scopes of branches. All calls may be made from any thread."""
from __future__ import annotations

import dataclasses
import pathlib
import secrets
import threading
from collections.abc import Callable, Sequence
from dataclasses import dataclass

from ..times import now
from .database import Database
from .files import FileTooLarge, NewFile, remove_unfinished

MAX_KEY = 512
DAY = 86_400_000
COLUMNS = 'id, repository, scope, key, version, size, digest, created_at, used_at'


class CacheError(ValueError):
    """A cache can't be kept, in words."""


@dataclass(frozen=True, slots=True)
class Cache:
    """A cache: `scope` is the ref that made it, `digest` the SHA-256 of its bytes, in hexadecimal digits."""

    id: int
    repository: str
    scope: str
    key: str
    version: str
    size: int
    digest: str
    created_at: int
    used_at: int


class CacheUpload:
    """A cache that is being written: `write` pieces, then `finish`, or `abandon`."""

    def __init__(self, store: CacheStore, file: NewFile, repository: str, scope: str, key: str, version: str) -> None:
        self._store, self._file = store, file
        self._where = repository, scope, key, version

    def write(self, data: bytes) -> None:
        """Adds a piece."""
        try:
            self._file.write(data)
        except FileTooLarge as fault:
            raise CacheError(f'the cache can not be kept: {fault}') from None

    def finish(self, digest: str | None = None) -> Cache:
        """Keeps it; a digest that is another one is refused."""
        return self._store.add(self._file, *self._where, digest)

    def abandon(self) -> None:
        """Forgets it; does nothing once it is kept."""
        self._file.abandon()


class CacheStore:
    """The caches of all repositories, bounded together: those that were not used for longest go first."""

    def __init__(self, folder: pathlib.Path, database: Database, total_bytes: int, days: int) -> None:
        self.folder, self._database = folder, database
        self.total_bytes, self.days = total_bytes, days
        self._lock = threading.RLock()
        self._rows: dict[int, Cache] = {}
        self._is_loaded = False

    def _load(self) -> None:
        if not self._is_loaded and self._database.is_file:
            self._is_loaded = True
            self._rows.update((row[0], Cache(*row)) for row in self._database.read(f'select {COLUMNS} from caches'))

    def _path(self, number: int) -> pathlib.Path:
        return self.folder / f'{number % 256:02x}' / f'{number:d}'

    def _of(self, repository: str, version: str | None = None) -> list[Cache]:
        with self._lock:
            self._load()
            return [one for one in self._rows.values() if one.repository == repository.lower() and version in (None, one.version)]

    def find(self, repository: str, scopes: Sequence[str], key: str, restore_keys: Sequence[str], version: str) -> Cache | None:
        """The cache that GitHub's rules give: in each scope in turn the key, then what begins with it, then with each restore key in turn; of several the newest."""
        there = self._of(repository, version)
        exact: Callable[[Cache], bool] = lambda one: one.key == key
        for scope in scopes:
            here = [one for one in there if one.scope == scope and self._path(one.id).is_file()]
            for fits in [exact, *(_begins(word) for word in (key, *restore_keys) if word)]:
                found = max((one for one in here if fits(one)), key=lambda one: (one.created_at, one.id), default=None)
                if found is not None:
                    return found
        return None

    def begin(self, repository: str, scope: str, key: str, version: str) -> CacheUpload | None:
        """Begins an upload; None if the scope has this key and version already."""
        if not key or len(key) > MAX_KEY or ',' in key:
            raise CacheError(f'no key of a cache: 1 to {MAX_KEY} characters without a comma are')
        if any((one.scope, one.key) == (scope, key) and self._path(one.id).is_file() for one in self._of(repository, version)):
            return None
        return CacheUpload(self, NewFile(self.folder, self.total_bytes), repository.lower(), scope, key, version)

    def add(self, file: NewFile, repository: str, scope: str, key: str, version: str, digest: str | None) -> Cache:
        """Keeps a file that was written whole; `CacheUpload.finish` calls it. Of two at once the first one counts."""
        at = now()
        made = Cache(secrets.randbits(47) | 1, repository, scope, key, version, file.size, file.digest, at, at)
        with self._lock:
            for one in self._of(repository, version):
                if (one.scope, one.key) == (scope, key):
                    if self._path(one.id).is_file():
                        file.abandon()
                        return one
                    self.delete(one.id)
            file.finish(self._path(made.id), digest)
            self._rows[made.id] = made
            self._database.write(f'insert into caches ({COLUMNS}, file) values (?, ?, ?, ?, ?, ?, ?, ?, ?, ?)', (
                made.id, repository, scope, key, version, made.size, made.digest, at, at, self._path(made.id).name))
            self._shrink(made.id)
        return made

    def _shrink(self, newest: int) -> None:
        """Removes what was not used for longest, till the rest fits."""
        total = sum(one.size for one in self._rows.values())
        for one in sorted(self._rows.values(), key=lambda one: one.used_at):
            if total <= self.total_bytes:
                return
            if one.id != newest:
                total -= one.size
                self.delete(one.id)

    def open(self, number: int) -> pathlib.Path | None:
        """The path of its bytes; it counts as used now."""
        with self._lock:
            self._load()
            found, path = self._rows.get(number), self._path(number)
            if found is None or not path.is_file():
                return None
            self._rows[number] = dataclasses.replace(found, used_at=now())
            self._database.write('update caches set used_at = ? where id = ?', (now(), number))
            return path

    def list(self, repository: str) -> list[Cache]:
        """The caches of a repository, newest use first."""
        return sorted(self._of(repository), key=lambda one: (-one.used_at, one.id))

    def delete(self, number: int) -> bool:
        """Removes one."""
        with self._lock:
            self._load()
            if self._rows.pop(number, None) is None:
                return False
            self._path(number).unlink(missing_ok=True)
            self._database.write('delete from caches where id = ?', (number,))
            return True

    def expire(self, at: int) -> int:
        """Removes those that were not used for the days that caches are kept; says how many."""
        with self._lock:
            self._load()
            over = [one.id for one in self._rows.values() if one.used_at + self.days * DAY <= at]
        remove_unfinished(self.folder)
        return sum(map(self.delete, over))


def _begins(word: str) -> Callable[[Cache], bool]:
    return lambda one: one.key.startswith(word)
