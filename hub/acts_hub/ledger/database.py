"""The file of SQLite: opened, migrated, written by one thread, so that neither a full disk nor a lock holds up the hub."""
from __future__ import annotations

import os
import pathlib
import sqlite3
import threading
import time
from collections import deque
from collections.abc import Hashable, Iterable, Sequence
from typing import Any, Generic, TypeVar

from ..log import say
from ..times import now
from .schema import STEPS

Statement = tuple[str, Sequence[Any]]
MAX_WAITING = 200_000
BATCH = 500
GATHER_SECONDS = 0.005


class LedgerError(Exception):
    """The file can't be used, in words."""


def migrate(connection: sqlite3.Connection) -> None:
    """Brings the tables to the present version."""
    if connection.execute('pragma user_version').fetchone() == (len(STEPS),):
        return
    connection.execute('begin immediate')
    try:
        version = int(connection.execute('pragma user_version').fetchone()[0])
        if version > len(STEPS):
            raise LedgerError(f'the ledger has version {version}, of a newer acts-hub; this one knows {len(STEPS)}')
        for number in range(version, len(STEPS)):
            for statement in statements_of(STEPS[number]):
                connection.execute(statement)
            connection.execute(f'pragma user_version = {number + 1:d}')
        connection.execute('commit')
    except BaseException:
        if connection.in_transaction:
            connection.execute('rollback')
        raise


def statements_of(script: str) -> list[str]:
    """The statements of a script, one by one: a script as a whole would end the transaction."""
    found, text = [], ''
    for piece in script.split(';'):
        text += piece + ';'
        if sqlite3.complete_statement(text):
            found += [text] if text.strip(' \n;') else []
            text = ''
    return found


def create(path: pathlib.Path) -> None:
    """Makes the file for its user alone; made by root, it is the folder's owner's, so that the hub can write what `acts-hub token` made."""
    descriptor = os.open(path, os.O_CREAT | os.O_RDWR | os.O_CLOEXEC, 0o600)
    try:
        folder = path.parent.stat()
        if os.geteuid() == 0 and folder.st_uid != 0:
            os.fchown(descriptor, folder.st_uid, folder.st_gid)
    finally:
        os.close(descriptor)


def connect(path: pathlib.Path | None, seconds: float = 1) -> sqlite3.Connection:
    """A connection to the file, migrated; to one in memory without a path."""
    if path is not None and not path.exists():  # of a file that is there, closing a descriptor would take the locks of this process's other connections
        create(path)
    connection = sqlite3.connect(':memory:' if path is None else str(path), timeout=seconds, isolation_level=None, check_same_thread=False)
    try:
        connection.execute('pragma journal_mode = wal')
        connection.execute('pragma synchronous = normal')
        connection.execute('pragma journal_size_limit = 16777216')
        migrate(connection)
    except BaseException:
        connection.close()
        raise
    return connection


def connections(path: pathlib.Path) -> tuple[sqlite3.Connection, sqlite3.Connection]:
    """Two connections to the file: one that writes, and one that reads."""
    writer = connect(path)
    try:
        return writer, connect(path, 0.1)
    except BaseException:
        writer.close()
        raise


class Database:
    """Writes wait in memory till the file takes them; `fault` says why it does not, or is None."""

    def __init__(self, path: pathlib.Path) -> None:
        self.path = path
        self.fault: str | None = None
        self.dropped = 0
        self.written = 0
        self._next = 0
        self._waiting: deque[tuple[int, list[Statement]]] = deque()
        self._wake = threading.Condition()
        self._reading = threading.RLock()
        self._ending = False
        self._reader: sqlite3.Connection | None = None
        self._writer: sqlite3.Connection | None = None
        self._thread: threading.Thread | None = None

    def open(self, seconds: float = 0) -> None:
        """Opens the file, and begins to write. If it can't be had in these seconds, the hub goes on from memory, and it is tried again."""
        late = time.monotonic() + seconds
        while not self._opened():
            if time.monotonic() >= late:
                self._reader = connect(None)
                break
            time.sleep(0.2)
        self._thread = threading.Thread(target=self._write_forever, name='ledger', daemon=True)
        self._thread.start()

    def _opened(self) -> bool:
        try:
            writer, reader = connections(self.path)
        except sqlite3.DatabaseError as fault:
            if isinstance(fault, sqlite3.OperationalError) or not self._moved_aside(fault):
                self._say(f'the ledger {self.path} can not be opened: {fault}')
                return False
            return self._opened()
        except OSError as fault:
            self._say(f'the ledger {self.path} can not be opened: {fault.strerror}')
            return False
        with self._reading:
            before, self._reader = self._reader, reader
            if before is not None:
                before.close()
        self._say(None)
        self._writer = writer                               # (last: then what is read is of the file, and no fault is left)
        return True

    def _moved_aside(self, fault: Exception) -> bool:
        """A file that is none of SQLite is kept under another name, and a new one is begun."""
        aside = self.path.with_name(f'{self.path.name}.broken-{now()}')
        try:
            self.path.rename(aside)
            for ending in '-wal', '-shm':
                pathlib.Path(f'{self.path}{ending}').unlink(missing_ok=True)
        except OSError:
            return False
        say(f'the ledger {self.path} is broken ({fault}): it is now {aside}, and a new one is begun')
        return True

    def _say(self, fault: str | None) -> None:
        if fault != self.fault:
            say(fault or 'the ledger is written again')
            self.fault = fault

    def read(self, sql: str, values: Sequence[Any] = ()) -> list[tuple[Any, ...]]:
        """Rows of the file; none if it can't be read. What waits to be written is not in them."""
        with self._reading:
            if self._reader is None:
                return []
            try:
                return self._reader.execute(sql, values).fetchall()
            except sqlite3.DatabaseError as fault:
                self._say(f'the ledger can not be read: {fault}')
                return []

    def write(self, sql: str, values: Sequence[Any] = ()) -> int:
        """Writes a statement soon. The number is that of `written` once it is in the file."""
        return self.write_all([(sql, values)])

    def write_all(self, statements: Iterable[Statement]) -> int:
        """Writes statements soon, in one transaction."""
        with self._wake:
            self._next += 1
            self._waiting.append((self._next, list(statements)))
            if len(self._waiting) > MAX_WAITING:
                self._waiting.popleft()
                self.dropped += 1
            self._wake.notify()
            return self._next

    def write_now(self, statements: Iterable[Statement], seconds: float = 10) -> None:
        """Writes statements, and returns once they are in the file; raises `LedgerError` if they are not in that time."""
        wanted = self.write_all(statements)
        if not self.flushed(wanted, seconds):
            raise LedgerError(self.fault or 'the ledger is not written in time')

    def flushed(self, wanted: int | None = None, seconds: float = 10) -> bool:
        """Waits until all up to a number is in the file."""
        late = time.monotonic() + seconds
        with self._wake:
            wanted = self._next if wanted is None else wanted
            while self.written < wanted:
                left = late - time.monotonic()
                if left <= 0 or self._thread is None:
                    return False
                self._wake.wait(min(left, 0.2))
            return True

    def _write_forever(self) -> None:
        pause = 0.1
        while True:
            with self._wake:
                is_idle = not self._waiting
                while not self._waiting and not self._ending and self._writer is not None:
                    self._wake.wait(1)
                if not self._waiting and self._ending:
                    return
            if is_idle and self._writer is not None:
                time.sleep(GATHER_SECONDS)                  # what is written at about the same time is one transaction
            with self._wake:
                batch = [self._waiting[index] for index in range(min(BATCH, len(self._waiting)))]
            if self._try(batch):
                pause = 0.1
                continue
            with self._wake:
                if self._ending:
                    return
                self._wake.wait(pause)
            pause = min(pause * 2, 5)

    def _try(self, batch: list[tuple[int, list[Statement]]]) -> bool:
        if self._writer is None and not self._opened():
            return False
        writer = self._writer
        assert writer is not None
        if not batch:
            return True
        try:
            writer.execute('begin immediate')
            for _, statements in batch:
                self._unit(writer, statements)
            writer.execute('commit')
        except (sqlite3.DatabaseError, OSError) as fault:
            try:
                if writer.in_transaction:
                    writer.execute('rollback')
            except sqlite3.DatabaseError:
                pass
            self._say(f'the ledger can not be written: {fault}')
            return False
        self._say(None)                                     # (before whoever waits for these writes goes on)
        with self._wake:
            last = batch[-1][0]
            while self._waiting and self._waiting[0][0] <= last:
                self._waiting.popleft()
            self.written = last
            self._wake.notify_all()
        return True

    def _unit(self, writer: sqlite3.Connection, statements: list[Statement]) -> None:
        """One unit of a batch. A statement with a fault of its own is left out with its unit: it would hold up all others for ever."""
        writer.execute('savepoint unit')
        try:
            for sql, values in statements:
                writer.execute(sql, values)
        except (sqlite3.IntegrityError, sqlite3.ProgrammingError, sqlite3.InterfaceError, sqlite3.DataError, OverflowError) as fault:
            writer.execute('rollback to unit')
            say(f'the ledger leaves out a write: {fault}')
        writer.execute('release unit')

    @property
    def is_file(self) -> bool:
        """Whether the file was opened: else what is read is empty."""
        return self._writer is not None

    @property
    def waiting(self) -> int:
        """How many writes wait."""
        return len(self._waiting)

    def close(self, seconds: float = 5) -> None:
        """Writes what waits, for some seconds at most, and closes the file."""
        if self._thread is not None:
            self.flushed(seconds=seconds)
            with self._wake:
                self._ending = True
                self._wake.notify_all()
            self._thread.join(seconds)
            self._thread = None
        with self._reading:
            for connection in self._reader, self._writer:
                if connection is not None:
                    connection.close()
            self._reader = self._writer = None


Key = TypeVar('Key', bound=Hashable)
Value = TypeVar('Value')


class Overlay(Generic[Key, Value]):
    """Values that wait to be written: read from here first."""

    def __init__(self, database: Database) -> None:
        self._database = database
        self._values: dict[Key, tuple[int, Value]] = {}
        self._limit = 1024

    def put(self, key: Key, value: Value, ticket: int) -> None:
        """Keeps a value until what has this number is in the file."""
        self._values[key] = ticket, value
        if len(self._values) > self._limit:
            self._values = {key: pair for key, pair in self._values.items() if pair[0] > self._database.written}
            self._limit = max(1024, 2 * len(self._values))

    def get(self, key: Key) -> Value | None:
        """The value that waits under a key."""
        found = self._values.get(key)
        if found is None:
            return None
        if found[0] <= self._database.written:
            del self._values[key]
            return None
        return found[1]

    def items(self) -> list[tuple[Key, Value]]:
        """All that wait."""
        return [(key, value) for key, (ticket, value) in self._values.items() if ticket > self._database.written]

    def drop(self, test: Any) -> None:
        """Forgets those whose keys pass a test."""
        self._values = {key: pair for key, pair in self._values.items() if not test(key)}
