"""Windows of a log: any line of a long file is found by an index of few marks, and no more is read than is shown."""
from __future__ import annotations

import bisect
import threading
from collections import OrderedDict
from collections.abc import Iterator
from dataclasses import dataclass

from ..ledger.logs import LogStore

LINES_A_MARK, BYTES_A_MARK = 1_000, 1 << 20  # a mark is kept after so many lines, or bytes
PIECE, COUNTED = 1 << 18, 1 << 22  # bytes that are read at once: of a window, and where lines are counted
MOST_READ = 8 << 20  # bytes that are looked at for one window
MOST_KEPT = 1 << 14  # bytes of a line that are kept; folding cuts it again for the page
MOST_LOGS = 128


@dataclass(frozen=True)
class Key:
    """Which log: that of a leg under a lease."""

    run: int
    attempt: int
    job: str
    leg: int
    lease: int


class LogFile:
    """The log of a leg, by lines. It is used by one thread at a time."""

    def __init__(self, store: LogStore, key: Key) -> None:
        self.store, self.key = store, key
        self.lock = threading.Lock()
        self._lines, self._offsets = [0], [0]  # so many lines end before this offset
        self._seen = self._seen_lines = 0

    def size(self) -> int:
        """How many bytes of it can be read."""
        key = self.key
        return self.store.length(key.run, key.attempt, key.job, key.leg, key.lease)

    def read(self, offset: int, limit: int) -> bytes:
        """A piece of it."""
        key = self.key
        return self.store.read(key.run, key.attempt, key.job, key.leg, key.lease, offset, limit)

    def _pieces(self, offset: int, end: int, most: int = PIECE) -> Iterator[bytes]:
        while offset < end:
            piece = self.read(offset, min(most, end - offset))
            if not piece:
                return
            yield piece
            offset += len(piece)

    def _grow(self) -> None:
        size = self.size()
        if size < self._seen:  # it was dropped, and begins anew
            self._lines, self._offsets, self._seen, self._seen_lines = [0], [0], 0, 0
        for many in self._pieces(self._seen, size, COUNTED):
            for at in range(0, len(many), PIECE):
                self._take(many[at:at + PIECE])

    def _take(self, piece: bytes) -> None:
        """Counts the lines of a piece; a mark is set behind a line end where one is due."""
        count = piece.count(b'\n')
        end = piece.rfind(b'\n') + 1
        lines, length = self._seen_lines + count - self._lines[-1], self._seen + end - self._offsets[-1]
        if end and (lines >= LINES_A_MARK or length >= BYTES_A_MARK):
            self._lines.append(self._seen_lines + count)
            self._offsets.append(self._seen + end)
        self._seen += len(piece)
        self._seen_lines += count

    def line_at(self, offset: int) -> int:
        """How many lines end before an offset."""
        with self.lock:
            self._grow()
            mark = bisect.bisect_right(self._offsets, offset) - 1
            return self._lines[mark] + sum(piece.count(b'\n')
                                           for piece in self._pieces(self._offsets[mark], min(offset, self._seen)))

    def window(self, first: int, count: int, end: int) -> list[bytes]:
        """The lines from `first` on, counted from 0, that begin before `end`; fewer where they are very long."""
        with self.lock:
            self._grow()
            mark = bisect.bisect_right(self._lines, first) - 1
            offset, skip = self._offsets[mark], first - self._lines[mark]
            return _cut(self._pieces(offset, min(end, self._seen)), skip, count)


def _cut(pieces: Iterator[bytes], skip: int, count: int) -> list[bytes]:
    found: list[bytes] = []
    held, looked = b'', 0
    for piece in pieces:
        looked += len(piece)
        parts = piece.split(b'\n')
        parts[0] = held + parts[0]
        held = parts.pop()[:MOST_KEPT]
        left = parts[min(skip, len(parts)):]
        skip -= len(parts) - len(left)
        found += [line[:MOST_KEPT] for line in left[:count - len(found)]]
        if len(found) >= count or (looked >= MOST_READ and found):
            return found
    if held and not skip:
        found.append(held)
    return found


class LogFiles:
    """The logs that were looked at last."""

    def __init__(self, store: LogStore) -> None:
        self.store = store
        self._files: OrderedDict[Key, LogFile] = OrderedDict()

    def of(self, key: Key) -> LogFile:
        """The log of a leg under a lease."""
        found = self._files.pop(key, None) or LogFile(self.store, key)
        self._files[key] = found
        while len(self._files) > MOST_LOGS:
            self._files.popitem(last=False)
        return found

    def newest(self, run: int, attempt: int, job: str, leg: int) -> LogFile | None:
        """The log of a leg under its last lease; None if it has none."""
        leases = self.store.leases(run, attempt, job, leg)
        return self.of(Key(run, attempt, job, leg, leases[-1])) if leases else None
