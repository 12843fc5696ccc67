"""Logs of legs: idempotent by offset, bounded, readable while they grow."""
from __future__ import annotations

import concurrent.futures
import errno
import os
import pathlib
from typing import Any

import pytest

from acts_hub.ledger import logs
from acts_hub.ledger.logs import Found, LogError, LogStore, StepMark

LEG = 7, 1, 'build', 0, 3
pytestmark = pytest.mark.quick


@pytest.fixture
def store(tmp_path: pathlib.Path) -> LogStore:
    return LogStore(tmp_path / 'logs', 1000)


def test_what_was_appended_is_not_appended_again(store: LogStore) -> None:
    assert store.append(*LEG, 0, b'one\n') == 4
    assert store.append(*LEG, 0, b'one\n') == 4
    assert store.append(*LEG, 0, b'one\ntwo\n') == 8       # the first four bytes are there already
    assert store.append(*LEG, 20, b'late\n') == 8          # behind a gap: the runner goes on at 8
    assert store.read(*LEG) == b'one\ntwo\n'
    assert store.read(*LEG, 4, 3) == b'two'
    assert store.size(*LEG) == store.length(*LEG) == 8


def test_another_lease_attempt_leg_and_job_have_logs_of_their_own(store: LogStore) -> None:
    others = (7, 1, 'build', 0, 4), (7, 2, 'build', 0, 3), (7, 1, 'build', 1, 3), (7, 1, 'test', 0, 3), (8, 1, 'build', 0, 3)
    for leg in (LEG, *others):
        store.append(*leg, 0, repr(leg).encode())
    assert [store.read(*leg) for leg in (LEG, *others)] == [repr(leg).encode() for leg in (LEG, *others)]
    assert store.leases(7, 1, 'build', 0) == [3, 4]
    store.drop(7)
    assert store.read(*LEG) == b'' and store.read(8, 1, 'build', 0, 3) != b''


def test_beyond_the_bound_lines_are_dropped_and_one_last_line_says_so(store: LogStore) -> None:
    line = b'x' * 99 + b'\n'
    offset = 0
    for _ in range(30):
        offset = store.append(*LEG, offset, line)
    assert offset == store.size(*LEG) == 3000              # the runner goes on as if all were kept
    lines = store.read(*LEG).splitlines()
    assert lines[:10] == [b'x' * 99] * 10 and len(lines) == 11
    assert b'longer than 1000 bytes: what comes after is dropped' in lines[10]
    again = LogStore(store.folder, 1000)                   # another life of the hub
    assert again.append(*LEG, 3000, line) == 3100
    assert again.read(*LEG) == store.read(*LEG)


def test_a_line_that_alone_is_too_long_is_cut(store: LogStore) -> None:
    store.append(*LEG, 0, b'head')
    assert store.append(*LEG, 4, b'y' * 5000) == 5004
    assert store.read(*LEG).splitlines()[0] == b'head' and store.length(*LEG) < 1200


@pytest.mark.parametrize('job', ['..', '../x', 'a/b', 'a.b', '', 'a\0', 'a\n', 'x' * 101, '-a', '1a', '%2e%2e'])
def test_no_name_leads_out_of_the_folder(store: LogStore, job: str) -> None:
    with pytest.raises(LogError):
        store.append(7, 1, job, 0, 3, 0, b'x')
    with pytest.raises(LogError):
        store.read(7, 1, job, 0, 3)
    assert not store.folder.exists()


@pytest.mark.parametrize('leg', [(-1, 1, 'a', 0, 1), (1, -1, 'a', 0, 1), (1, 1, 'a', -1, 1), (1, 1, 'a', 0, -1), (10 ** 9, 1, 'a', 0, 1), ('1', 1, 'a', 0, 1)])
def test_numbers_are_bounded(store: LogStore, leg: Any) -> None:
    with pytest.raises(LogError):
        store.append(*leg, 0, b'x')


def test_step_marks_have_outcomes_and_times(store: LogStore) -> None:
    store.step(*LEG, 1, 'Set up job', 0, 1000)
    store.step(*LEG, 1, 'again', 5, 2000)                  # sent again: the first one counts
    store.step_end(*LEG, 1, 'success', 4, 3000)
    store.step_end(*LEG, 1, 'failure', 9, 9000)
    store.step(*LEG, 2, 'Run "x"\n##[end]', 4, 3000)
    store.step_end(*LEG, 3, 'success', 4, 3000)            # never begun
    assert store.steps(*LEG) == [
        StepMark(1, 'Set up job', 'success', 1000, 3000, 0, 4), StepMark(2, 'Run "x"\n##[end]', None, 3000, None, 4, None)]
    with pytest.raises(LogError):
        store.step_end(*LEG, 2, 'great', 4, 3000)


def test_half_a_mark_does_not_hide_those_after_it(store: LogStore) -> None:
    store.step(*LEG, 1, 'a', 0, 1000)
    path = store.path(*LEG)
    assert path is None
    marks = next(store.folder.rglob('*.steps'))
    with open(marks, 'ab') as file:
        file.write(b'{"step":2,"na')                       # a full disk, or a kill
    store.step(*LEG, 3, 'c', 5, 2000)
    assert [mark.number for mark in store.steps(*LEG)] == [1, 3]


def test_search_finds_lines_whatever_their_case(store: LogStore) -> None:
    store.append(*LEG, 0, 'one\nTwo Straße\nthree two\n'.encode())
    assert store.search(*LEG, 'two') == [Found(2, 4, 'Two Straße'), Found(3, 16, 'three two')]
    assert store.search(*LEG, 'STRASSE') == [Found(2, 4, 'Two Straße')]
    assert store.search(*LEG, 'two', limit=1) == [Found(2, 4, 'Two Straße')]
    assert store.search(*LEG, '.*') == [] and store.search(*LEG, '') == []


def test_pieces_that_come_at_once_are_kept_once(store: LogStore) -> None:
    store.bytes_a_leg = 1 << 20
    lines = [f'{number:07d}\n'.encode() for number in range(1000)]
    with concurrent.futures.ThreadPoolExecutor(8) as pool:
        for number in range(0, 1000, 10):
            data = b''.join(lines[number:number + 10])
            sizes = [each.result() for each in [pool.submit(store.append, *LEG, number * 8, data) for _ in range(8)]]
            assert sizes == [number * 8 + 80] * 8
            assert store.read(*LEG, number * 8) == data            # readable while it grows
    assert store.read(*LEG) == b''.join(lines)


def test_a_full_disk_loses_nothing_that_was_acknowledged(store: LogStore, monkeypatch: pytest.MonkeyPatch) -> None:
    real = os.write

    def half(descriptor: int, data: bytes) -> int:
        if len(data) < 3:
            raise OSError(errno.ENOSPC, 'No space left on device')
        return real(descriptor, data[:2])
    assert store.append(*LEG, 0, b'one\n') == 4
    monkeypatch.setattr(logs.os, 'write', half)
    with pytest.raises(LogError, match='No space left'):
        store.append(*LEG, 4, b'two\n')
    monkeypatch.setattr(logs.os, 'write', real)
    assert store.size(*LEG) == 6                           # half of it is there
    assert store.append(*LEG, 4, b'two\n') == 8            # the runner sends it again
    assert store.read(*LEG) == b'one\ntwo\n'


def test_what_is_older_than_its_days_goes(store: LogStore) -> None:
    store.append(*LEG, 0, b'old\n')
    store.append(8, 1, 'a', 0, 1, 0, b'old too\n')
    store.append(9, 1, 'a', 0, 1, 0, b'new\n')
    for path in [*store.folder.rglob('7/1/*'), *store.folder.rglob('8/1/*')]:
        os.utime(path, (1000, 1000))
    assert store.expire(2_000_000, keep=lambda run: run == 8) == 1
    assert [store.read(*LEG), store.read(8, 1, 'a', 0, 1), store.read(9, 1, 'a', 0, 1)] == [b'', b'old too\n', b'new\n']
