"""The ZIP of a run's logs, as `gh` reads it: a file for each job, and a folder with a file for each of its steps."""
from __future__ import annotations

import re
import tempfile
import zipfile
from collections.abc import Iterator, Sequence
from typing import IO

from ..ledger.logs import LogStore
from .legs import JobView

PIECE = 1 << 20
MAX_TITLE = 80
_CONTROL = re.compile(r'[\x00-\x1f\x7f\\]')
_UNSAFE = re.compile(r'[\x00-\x1f\x7f/\\:*?"<>|]')


def log_of(logs: LogStore, view: JobView, start: int = 0, end: int | None = None) -> Iterator[bytes]:
    """The text of a job's log, in pieces."""
    if view.lease is None:
        return
    where = view.number.run, view.number.attempt, view.id, view.number.leg, view.lease
    while end is None or start < end:
        piece = logs.read(*where, start, PIECE if end is None else min(PIECE, end - start))
        if not piece:
            return
        yield piece
        start += len(piece)


def next_piece(pieces: Iterator[bytes]) -> bytes:
    """The next piece; empty after the last."""
    return next(pieces, b'')


def has_log(logs: LogStore, view: JobView) -> bool:
    """Whether there is a log of a job."""
    return view.lease is not None and any(log_of(logs, view, 0, 1))


def safe_name(text: str) -> str:
    """A text as the name of a file in a ZIP: nothing that leaves its folder."""
    name = _UNSAFE.sub('', text)
    return name if name.strip('. ') else '_'


def folders_of(name: str) -> list[str]:
    """The folders of a job's steps: `gh` 2.23 looks for the name as it is, later ones without `/` and `:`."""
    bare = safe_name(name)
    is_plain = not _CONTROL.search(name) and all(part.strip('. ') for part in name.split('/'))
    return [bare, name] if is_plain and bare != name else [bare]


def archive_of(logs: LogStore, views: Sequence[JobView]) -> IO[bytes] | None:
    """A file with the ZIP; None if there is no log."""
    file = tempfile.TemporaryFile()
    try:
        has_some = _fill(file, logs, views)
    except BaseException:
        file.close()
        raise
    if not has_some:
        file.close()
        return None
    file.seek(0)
    return file


def _fill(file: IO[bytes], logs: LogStore, views: Sequence[JobView]) -> bool:
    count = 0
    with zipfile.ZipFile(file, 'w', zipfile.ZIP_DEFLATED, compresslevel=1) as made:
        for index, view in enumerate(views):
            if not has_log(logs, view):
                continue
            count += 1
            name = safe_name(view.name)
            _write(made, f'{index}_{name}.txt', log_of(logs, view))
            assert view.lease is not None
            for mark in logs.steps(view.number.run, view.number.attempt, view.id, view.number.leg, view.lease):
                title = safe_name(mark.name)[:MAX_TITLE]
                for folder in folders_of(view.name):
                    _write(made, f'{folder}/{mark.number}_{title}.txt', log_of(logs, view, mark.offset, mark.end))
    return count > 0


def _write(made: zipfile.ZipFile, name: str, pieces: Iterator[bytes]) -> None:
    if name in made.NameToInfo:
        return  # two jobs of one name: the first is in the folder, each has its own file beside it
    with made.open(zipfile.ZipInfo(name, (1980, 1, 1, 0, 0, 0)), 'w', force_zip64=True) as out:
        for piece in pieces:
            out.write(piece)
