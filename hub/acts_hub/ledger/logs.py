"""Logs of legs: files below a folder, by run, attempt, job, leg and lease. All calls may be made from any thread."""
from __future__ import annotations

import json
import os
import pathlib
import re
import threading
from collections.abc import Callable, Iterator
from dataclasses import dataclass, replace
from typing import Any

from ..times import iso_exact, now
from .files import remove_tree, runs_in

JOB = re.compile(r'[A-Za-z_][A-Za-z0-9_-]{0,99}')
MAX_NUMBER = 999_999_999
MAX_MARKS = 4 << 20
MAX_NAME = 300
MAX_READ = 4 << 20
OUTCOMES = 'success', 'failure', 'cancelled', 'skipped'


class LogError(Exception):
    """A log can't be kept, in words."""


@dataclass(frozen=True, slots=True)
class StepMark:
    """A step as the runner marked it. `outcome`, `ended_at` and `end` are None while it goes on; `offset` and `end` bound its text."""

    number: int
    name: str
    outcome: str | None
    started_at: int | None
    ended_at: int | None
    offset: int
    end: int | None


@dataclass(frozen=True, slots=True)
class Found:
    """A line that a search found: its number from 1, its offset, and its text."""

    line: int
    offset: int
    text: str


class LogStore:
    """Text lines 'ISO8601Z text', appended at offsets, and step marks beside them."""

    def __init__(self, folder: pathlib.Path, bytes_a_leg: int) -> None:
        self.folder, self.bytes_a_leg = folder, bytes_a_leg
        self._locks = [threading.Lock() for _ in range(64)]
        self._cut: dict[pathlib.Path, int | None] = {}

    def _of_run(self, run: int) -> pathlib.Path:
        _numbers(run)
        return self.folder / f'{run // 1000:d}' / f'{run:d}'

    def _path(self, run: int, attempt: int, job: str, leg: int, lease: int) -> pathlib.Path:
        """The file of a leg: made of numbers, and of a job's id, which has no dot and no slash."""
        _numbers(run, attempt, leg, lease)
        if not JOB.fullmatch(job):
            raise LogError('no id of a job')
        return self._of_run(run) / f'{attempt:d}' / f'{job}.{leg:d}.{lease:d}.log'

    def append(self, run: int, attempt: int, job: str, leg: int, lease: int, offset: int, data: bytes) -> int:
        """Appends at an offset, and gives how much is there. What is there already is left as it is; behind a gap nothing is appended."""
        path = self._path(run, attempt, job, leg, lease)
        with self._lock(path):
            cut = self._cut_at(path)
            if cut is not None:
                self._cut[path] = max(cut, offset + len(data))
                return max(cut, offset + len(data))
            try:
                path.parent.mkdir(mode=0o700, parents=True, exist_ok=True)
                size = self._append(path, offset, data)
            except OSError as fault:
                raise LogError(f'the log can not be written: {fault.strerror}') from None
        return size

    def _lock(self, path: pathlib.Path) -> threading.Lock:
        """Of two pieces of one log that come at once, one waits."""
        return self._locks[hash(path) % len(self._locks)]

    def _append(self, path: pathlib.Path, offset: int, data: bytes) -> int:
        descriptor = os.open(path, os.O_WRONLY | os.O_APPEND | os.O_CREAT | os.O_CLOEXEC | os.O_NOFOLLOW, 0o600)
        try:
            size = os.fstat(descriptor).st_size
            if offset > size or offset + len(data) <= size:
                return size
            new = data[size - offset:]
            if size + len(new) <= self.bytes_a_leg:
                _write(descriptor, new)
                return size + len(new)
            return self._cut_off(path, descriptor, size, new)
        finally:
            os.close(descriptor)

    def _cut_off(self, path: pathlib.Path, descriptor: int, size: int, new: bytes) -> int:
        """Keeps whole lines up to the bound, and says in a last line that the rest is dropped."""
        kept = new[:max(0, self.bytes_a_leg - size)]
        kept = kept[:kept.rfind(b'\n') + 1]
        _write(descriptor, kept)
        end = size + len(kept)
        starts_line = end == 0 or (kept if kept else _last_byte(path, end)).endswith(b'\n')
        words = f'{iso_exact(now())} The log is longer than {self.bytes_a_leg} bytes: what comes after is dropped.\n'
        _write(descriptor, (b'' if starts_line else b'\n') + words.encode())
        self._mark(path, {'cut': end})
        self._cut[path] = size + len(new)
        return size + len(new)

    def _cut_at(self, path: pathlib.Path) -> int | None:
        """How much was received of a log that was cut off; None of one that was not."""
        if path not in self._cut:
            if len(self._cut) > 10_000:
                self._cut.clear()
            cuts = [mark['cut'] for mark in self._marks(path) if isinstance(mark.get('cut'), int)]
            self._cut[path] = cuts[0] if cuts else None
        return self._cut[path]

    def size(self, run: int, attempt: int, job: str, leg: int, lease: int) -> int:
        """How much is there: where a runner goes on."""
        path = self._path(run, attempt, job, leg, lease)
        cut = self._cut_at(path)
        return cut if cut is not None else _size(path)

    def length(self, run: int, attempt: int, job: str, leg: int, lease: int) -> int:
        """How long the text is that `read` gives."""
        return _size(self._path(run, attempt, job, leg, lease))

    def read(self, run: int, attempt: int, job: str, leg: int, lease: int, offset: int = 0, limit: int = 1 << 20) -> bytes:
        """A piece of the text; empty where there is none."""
        path = self._path(run, attempt, job, leg, lease)
        try:
            with open(path, 'rb') as file:
                file.seek(max(0, offset))
                return file.read(min(max(0, limit), MAX_READ))
        except FileNotFoundError:
            return b''
        except OSError as fault:
            raise LogError(f'the log can not be read: {fault.strerror}') from None

    def path(self, run: int, attempt: int, job: str, leg: int, lease: int) -> pathlib.Path | None:
        """The file of the text, to be sent as it is; None if there is none."""
        found = self._path(run, attempt, job, leg, lease)
        return found if found.is_file() else None

    def step(self, run: int, attempt: int, job: str, leg: int, lease: int, number: int, name: str, offset: int, at: int) -> None:
        """Marks that a step has begun at an offset of the text. A mark that is there already is left as it is."""
        path = self._path(run, attempt, job, leg, lease)
        _numbers(number, offset, most=1 << 53)
        with self._lock(path):
            if not any(mark.number == number for mark in self._steps(path)):
                self._mark_checked(path, {'step': number, 'name': name[:MAX_NAME], 'offset': offset, 'at': at})

    def step_end(self, run: int, attempt: int, job: str, leg: int, lease: int, number: int, outcome: str, offset: int, at: int) -> None:
        """Marks how a step has ended, at an offset of the text: `success`, `failure`, `cancelled` or `skipped`."""
        path = self._path(run, attempt, job, leg, lease)
        _numbers(number, offset, most=1 << 53)
        if outcome not in OUTCOMES:
            raise LogError('no outcome of a step')
        with self._lock(path):
            if any(mark.number == number and mark.outcome is None for mark in self._steps(path)):
                self._mark_checked(path, {'end': number, 'outcome': outcome, 'offset': offset, 'at': at})

    def steps(self, run: int, attempt: int, job: str, leg: int, lease: int) -> list[StepMark]:
        """The steps that were marked, in the order in which they began."""
        return self._steps(self._path(run, attempt, job, leg, lease))

    def _steps(self, path: pathlib.Path) -> list[StepMark]:
        found: dict[int, StepMark] = {}
        for mark in self._marks(path):
            if 'step' in mark:
                found[mark['step']] = StepMark(mark['step'], mark['name'], None, mark['at'], None, mark['offset'], None)
            elif mark.get('end') in found:
                found[mark['end']] = replace(found[mark['end']], outcome=mark['outcome'], ended_at=mark['at'], end=mark['offset'])
        return list(found.values())

    def _marks(self, path: pathlib.Path) -> Iterator[dict[str, Any]]:
        try:
            with open(path.with_suffix('.steps'), 'rb') as file:
                text = file.read(MAX_MARKS + 4096)
        except OSError:
            return
        for line in text.splitlines():
            try:
                mark = json.loads(line)
            except ValueError:
                continue
            if isinstance(mark, dict):
                yield mark

    def _mark_checked(self, path: pathlib.Path, mark: dict[str, Any]) -> None:
        try:
            path.parent.mkdir(mode=0o700, parents=True, exist_ok=True)
            self._mark(path, mark)
        except OSError as fault:
            raise LogError(f'the marks of steps can not be written: {fault.strerror}') from None

    def _mark(self, path: pathlib.Path, mark: dict[str, Any]) -> None:
        """Adds a line to the marks; one that an earlier failure left half is ended first."""
        marks = path.with_suffix('.steps')
        descriptor = os.open(marks, os.O_RDWR | os.O_APPEND | os.O_CREAT | os.O_CLOEXEC | os.O_NOFOLLOW, 0o600)
        try:
            size = os.fstat(descriptor).st_size
            if size > MAX_MARKS:
                raise LogError('the leg has too many steps')
            begun = size > 0 and os.pread(descriptor, 1, size - 1) != b'\n'
            _write(descriptor, (b'\n' if begun else b'') + json.dumps(mark, separators=(',', ':')).encode() + b'\n')
        finally:
            os.close(descriptor)

    def search(self, run: int, attempt: int, job: str, leg: int, lease: int, words: str, limit: int = 200) -> list[Found]:
        """The lines that have a text, whatever its case. It reads all of the log: in a loop, call it in a thread."""
        found: list[Found] = []
        wanted = words.casefold()
        path = self.path(run, attempt, job, leg, lease)
        if path is None or not wanted:
            return found
        offset = 0
        with open(path, 'rb') as file:
            for number, line in enumerate(file, 1):
                text = line.decode(errors='replace').rstrip('\r\n')
                if wanted in text.casefold():
                    found.append(Found(number, offset, text))
                    if len(found) >= limit:
                        break
                offset += len(line)
        return found

    def leases(self, run: int, attempt: int, job: str, leg: int) -> list[int]:
        """The leases of which there is a log, ascending."""
        folder = self._path(run, attempt, job, leg, 1).parent
        pattern = re.compile(rf'{re.escape(job)}\.{leg:d}\.([0-9]+)\.log')
        try:
            names = os.listdir(folder)
        except OSError:
            return []
        return sorted(int(match[1]) for match in map(pattern.fullmatch, names) if match)

    def forget(self, run: int, attempt: int, job: str, leg: int, lease: int) -> None:
        """Removes the log of a lease that stands for something else by now, as after a restore of the service's file."""
        path = self._path(run, attempt, job, leg, lease)
        path.unlink(missing_ok=True)
        path.with_suffix('.steps').unlink(missing_ok=True)
        self._cut.pop(path, None)

    def drop(self, *runs: int) -> None:
        """Removes all of these runs."""
        folders = set(map(self._of_run, runs))
        for folder in folders:
            remove_tree(folder)
        for path in [path for path in list(self._cut) if path.parent.parent in folders]:
            self._cut.pop(path, None)

    def runs(self, last: int) -> list[int]:
        """The runs up to one of which there is a folder."""
        return runs_in(self.folder, last)

    def expire(self, before: int, keep: Callable[[int], bool] = lambda run: False) -> int:
        """Removes the runs of which nothing was written since a time, but for those to keep; says how many."""
        count = 0
        for folder in [one for many in self.folder.glob('[0-9]*') for one in many.glob('[0-9]*')]:
            try:
                newest = max((file.stat().st_mtime for file in folder.rglob('*.*')), default=folder.stat().st_mtime)
            except OSError:
                continue
            if newest * 1000 < before and folder.name.isdecimal() and not keep(int(folder.name)):
                self.drop(int(folder.name))
                count += 1
        return count


def _numbers(*values: int, most: int = MAX_NUMBER) -> None:
    if any(not isinstance(value, int) or isinstance(value, bool) or not 0 <= value <= most for value in values):
        raise LogError('no number of a leg')


def _write(descriptor: int, data: bytes) -> None:
    view = memoryview(data)
    while view:
        view = view[os.write(descriptor, view):]


def _size(path: pathlib.Path) -> int:
    try:
        return path.stat().st_size
    except OSError:
        return 0


def _last_byte(path: pathlib.Path, end: int) -> bytes:
    with open(path, 'rb') as file:
        file.seek(end - 1)
        return file.read(1)
