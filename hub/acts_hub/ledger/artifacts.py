"""Artifacts: one zip each, by run, attempt and name. All calls may be made from any thread."""
from __future__ import annotations

import pathlib
import re
import secrets
import threading
from collections.abc import Sequence
from dataclasses import dataclass

from ..times import now
from .database import Database
from .files import FileTooLarge, NewFile, WrongDigest, remove_tree, remove_unfinished, runs_in

NAME = re.compile(r'[^":<>|*?\r\n\\/\0]{1,255}')
MAX_A_RUN = 1000
DAY = 86_400_000
COLUMNS = 'id, run, attempt, name, size, digest, created_at, expires_at'


class ArtifactError(ValueError):
    """An artifact can't be kept, in words."""


@dataclass(frozen=True, slots=True)
class Artifact:
    """An artifact: `digest` is the SHA-256 of its zip, in hexadecimal digits."""

    id: int
    run: int
    attempt: int
    name: str
    size: int
    digest: str
    created_at: int
    expires_at: int


class Upload:
    """An artifact that is being written: `write` pieces of the zip, then `finish`, or `abandon`."""

    def __init__(self, store: ArtifactStore, file: NewFile, run: int, attempt: int, name: str, overwrite: bool) -> None:
        self._store, self._file, self._overwrite = store, file, overwrite
        self._run, self._attempt, self._name = run, attempt, name

    def write(self, data: bytes) -> None:
        """Adds a piece."""
        try:
            self._file.write(data)
        except FileTooLarge as fault:
            raise ArtifactError(f'the artifact can not be kept: {fault}') from None

    def finish(self, digest: str | None = None, days: int | None = None) -> Artifact:
        """Keeps it; a digest that is another one is refused."""
        return self._store.add(self._file, self._run, self._attempt, self._name, self._overwrite, digest, days)

    def abandon(self) -> None:
        """Forgets it; does nothing once it is kept."""
        self._file.abandon()


class ArtifactStore:
    """The artifacts of all runs; their rows are in memory, and in the ledger."""

    def __init__(self, folder: pathlib.Path, database: Database, bytes_each: int, bytes_a_run: int, days: int) -> None:
        self.folder, self._database = folder, database
        self.bytes_each, self.bytes_a_run, self.days = bytes_each, bytes_a_run, days
        self._lock = threading.RLock()
        self._rows: dict[int, Artifact] = {}
        self._by_run: dict[int, set[int]] = {}
        self._is_loaded = False

    def _load(self) -> None:
        if not self._is_loaded and self._database.is_file:
            self._is_loaded = True
            for row in self._database.read(f'select {COLUMNS} from artifacts'):
                self._put(Artifact(*row))

    def _put(self, one: Artifact) -> None:
        self._rows[one.id] = one
        self._by_run.setdefault(one.run, set()).add(one.id)

    def _path(self, one: Artifact) -> pathlib.Path:
        return self.folder / f'{one.run // 1000:d}' / f'{one.run:d}' / f'{one.attempt:d}' / f'{one.id:d}.zip'

    def begin(self, run: int, attempt: int, name: str, overwrite: bool = False) -> Upload:
        """Begins an upload. A name that the attempt has already is refused, unless it is to be overwritten."""
        if not NAME.fullmatch(name) or len(name.encode('utf-8', 'replace')) > 255:
            raise ArtifactError('no name of an artifact: 1 to 255 bytes without " : < > | * ? \\ / and line ends are')
        others = self.list(run)
        if not overwrite and any((one.attempt, one.name) == (attempt, name) for one in others):
            raise ArtifactError('the attempt has an artifact of this name already')
        if len(others) >= MAX_A_RUN:
            raise ArtifactError(f'the run has {MAX_A_RUN} artifacts already')
        left = self.bytes_a_run - sum(one.size for one in others)
        return Upload(self, NewFile(self.folder, min(self.bytes_each, max(0, left))), run, attempt, name, overwrite)

    def add(self, file: NewFile, run: int, attempt: int, name: str, overwrite: bool, digest: str | None, days: int | None) -> Artifact:
        """Keeps a file that was written whole; `Upload.finish` calls it."""
        kept_days = self.days if not days or days < 1 else min(days, self.days)
        with self._lock:
            others = self.list(run)
            created = max([now(), *(one.created_at + 1 for one in others[-1:])])  # (so that their order is the same after a restart)
            made = Artifact(secrets.randbits(47) | 1, run, attempt, name, file.size, file.digest, created, created + kept_days * DAY)
            before = [one for one in others if (one.attempt, one.name) == (attempt, name)]
            try:
                if before and not overwrite:
                    raise ArtifactError('the attempt has an artifact of this name already')
                file.finish(self._path(made), digest)
            except WrongDigest as fault:
                raise ArtifactError(f'the artifact is not kept: {fault}') from None
            finally:
                file.abandon()
            for one in before:
                self.delete(one.id)
            self._put(made)
            self._database.write(f'insert into artifacts ({COLUMNS}, file) values (?, ?, ?, ?, ?, ?, ?, ?, ?)', (
                made.id, run, attempt, name, made.size, made.digest, created, made.expires_at, self._path(made).name))
        return made

    def list(self, run: int, attempt: int | None = None) -> list[Artifact]:
        """The artifacts of a run, of one attempt or of all, oldest first."""
        with self._lock:
            self._load()
            found = [self._rows[number] for number in self._by_run.get(run, ())]
        return sorted((one for one in found if attempt in (None, one.attempt)), key=lambda one: one.created_at)

    def get(self, number: int) -> Artifact | None:
        """An artifact."""
        with self._lock:
            self._load()
            return self._rows.get(number)

    def open(self, number: int) -> pathlib.Path | None:
        """The path of its zip; None if it is not there any more."""
        found = self.get(number)
        path = self._path(found) if found is not None else None
        return path if path is not None and path.is_file() else None

    def delete(self, number: int) -> bool:
        """Removes one."""
        with self._lock:
            found = self.get(number)
            if found is None:
                return False
            del self._rows[number]
            self._by_run[found.run].discard(number)
            self._path(found).unlink(missing_ok=True)
            self._database.write('delete from artifacts where id = ?', (number,))
            return True

    def drop(self, run: int) -> None:
        """Removes all of a run."""
        with self._lock:
            for one in self.list(run):
                self.delete(one.id)
            self._by_run.pop(run, None)
        remove_tree(self.folder / f'{run // 1000:d}' / f'{run:d}')

    def runs(self, last: int) -> Sequence[int]:
        """The runs up to one that have an artifact, or a folder for some."""
        with self._lock:
            self._load()
            found = [run for run in self._by_run if run <= last]
        return sorted({*found, *runs_in(self.folder, last)})

    def expire(self, at: int) -> int:
        """Removes those whose days are over, and what was left half written; says how many."""
        with self._lock:
            self._load()
            over = [one.id for one in self._rows.values() if one.expires_at <= at]
        remove_unfinished(self.folder)
        return sum(map(self.delete, over))
