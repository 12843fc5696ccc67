"""The ledger's file: versions, a full disk, a lock, a broken file. None of them holds up the hub."""
from __future__ import annotations

import contextlib
import os
import pathlib
import sqlite3
import subprocess
import time
from collections.abc import Callable, Iterator

import pytest
from harness import HubProcess, Service, until

from acts_hub.ledger import database as module
from acts_hub.ledger.database import Database, LedgerError, Overlay, connect, statements_of
from acts_hub.ledger.schema import STEPS

ADD = "insert or replace into meta (name, value) values (?, ?)"


@pytest.fixture
def made(tmp_path: pathlib.Path) -> Iterator[Database]:
    one = Database(tmp_path / 'ledger.sqlite')
    one.open()
    yield one
    one.close()


def value(one: Database, name: str) -> str | None:
    rows = one.read('select value from meta where name = ?', (name,))
    return rows[0][0] if rows else None


def say_late(one: Database, monkeypatch: pytest.MonkeyPatch) -> None:
    """What is said of the file from now on takes a while: whoever looks too early sees what was said before."""
    said = one._say

    def said_late(fault: str | None) -> None:
        time.sleep(0.2)
        said(fault)
    monkeypatch.setattr(one, '_say', said_late)


@pytest.mark.quick
def test_what_is_written_is_read_again(made: Database) -> None:
    for number in range(2000):
        made.write(ADD, (f'n{number}', str(number)))
    assert made.flushed() and value(made, 'n1999') == '1999' and made.waiting == 0 and made.fault is None
    assert made.read('pragma journal_mode') == [('wal',)]
    assert made.path.stat().st_mode & 0o777 == 0o600
    made.close()
    with contextlib.closing(sqlite3.connect(made.path)) as connection:
        assert connection.execute('select count(*) from meta where name like ?', ('n%',)).fetchone() == (2000,)


@pytest.mark.quick
def test_a_write_with_a_fault_of_its_own_holds_up_no_other(made: Database, capfd: pytest.CaptureFixture[str]) -> None:
    made.write_all([(ADD, ('a', '1')), ('insert into meta (name, value) values (?, null)', ('b',))])
    made.write(ADD, ('c', '3'))
    made.write('insert into meta (name, value) values (?, ?)', ('only one',))
    made.write(ADD, ('d', '4'))
    assert made.flushed() and [value(made, name) for name in 'abcd'] == [None, None, '3', '4']      # of a unit all or nothing
    assert 'leaves out a write' in capfd.readouterr().err


@pytest.mark.quick
def test_a_lock_of_another_holds_up_nobody(made: Database) -> None:
    made.write(ADD, ('before', '1'))
    assert made.flushed()
    with contextlib.closing(sqlite3.connect(made.path, isolation_level=None)) as other:
        other.execute('begin immediate')
        made.write(ADD, ('while', '1'))
        assert value(made, 'before') == '1' and made.waiting == 1                                   # it is neither waited for nor lost
        until(lambda: made.fault is not None and 'locked' in made.fault)
        with pytest.raises(LedgerError, match='locked'):
            made.write_now([(ADD, ('now', '1'))], 0.2)
        other.execute('rollback')
    assert made.flushed() and value(made, 'while') == '1' and made.fault is None


@pytest.mark.quick
def test_once_a_write_is_in_the_file_no_fault_is_left(made: Database, monkeypatch: pytest.MonkeyPatch) -> None:
    with contextlib.closing(sqlite3.connect(made.path, isolation_level=None)) as other:
        other.execute('begin immediate')
        made.write(ADD, ('while', '1'))
        until(lambda: made.fault is not None)
        say_late(made, monkeypatch)
        other.execute('rollback')
    assert made.flushed() and made.fault is None


@pytest.mark.quick
def test_a_file_that_is_locked_at_the_start_is_waited_for_and_then_done_without(tmp_path: pathlib.Path) -> None:
    path = tmp_path / 'ledger.sqlite'
    first = Database(path)
    first.open()
    first.write_now([(ADD, ('before', '1'))])
    first.close()
    with contextlib.closing(sqlite3.connect(path, isolation_level=None)) as other:
        other.execute('pragma locking_mode = exclusive')
        other.execute('begin exclusive')
        waiting = Database(path)
        without = Database(path)
        without.open()
        assert not without.is_file and value(without, 'before') is None and without.fault is not None and 'locked' in without.fault
        without.write(ADD, ('while', '1'))
        other.execute('rollback')
    waiting.open(10)
    assert waiting.is_file and value(waiting, 'before') == '1'
    assert without.flushed() and value(without, 'before') == value(waiting, 'while') == '1' and without.fault is None
    waiting.close()
    without.close()


@pytest.mark.quick
def test_a_file_that_comes_later_is_opened_without_a_write(tmp_path: pathlib.Path, monkeypatch: pytest.MonkeyPatch) -> None:
    one = Database(tmp_path / 'nowhere' / 'ledger.sqlite')
    one.open()
    assert not one.is_file
    say_late(one, monkeypatch)
    (tmp_path / 'nowhere').mkdir()
    until(lambda: one.is_file)
    assert one.fault is None and value(one, 'tokens') == '0'
    one.close()


@pytest.mark.quick
def test_writes_that_wait_are_bounded(tmp_path: pathlib.Path, monkeypatch: pytest.MonkeyPatch) -> None:
    monkeypatch.setattr(module, 'MAX_WAITING', 10)
    one = Database(tmp_path / 'nowhere' / 'ledger.sqlite')
    one.open()
    for number in range(30):
        one.write(ADD, (f'n{number}', 'x'))
    assert one.waiting <= 10 and one.dropped == 20 and one.fault is not None and one.read('select 1') == [(1,)]
    (tmp_path / 'nowhere').mkdir()                                 # it can be had later: what waits is written
    assert one.flushed() and value(one, 'n29') == 'x' and value(one, 'n0') is None and one.fault is None
    one.close()


@pytest.mark.quick
def test_a_file_of_an_earlier_version_is_brought_to_the_present_one(tmp_path: pathlib.Path, monkeypatch: pytest.MonkeyPatch) -> None:
    path = tmp_path / 'ledger.sqlite'
    connect(path).close()
    monkeypatch.setattr(module, 'STEPS', (*STEPS, 'create table more (x); insert into more values (7);'))
    with contextlib.closing(connect(path)) as connection:
        assert connection.execute('select x from more').fetchall() == [(7,)]
        assert connection.execute('pragma user_version').fetchone() == (len(STEPS) + 1,)
    monkeypatch.setattr(module, 'STEPS', STEPS)
    with pytest.raises(LedgerError, match='newer acts-hub'):
        connect(path)


@pytest.mark.quick
def test_a_step_of_the_schema_is_taken_whole_or_not_at_all(tmp_path: pathlib.Path, monkeypatch: pytest.MonkeyPatch) -> None:
    path = tmp_path / 'ledger.sqlite'
    connect(path).close()
    monkeypatch.setattr(module, 'STEPS', (*STEPS, 'create table more (x); insert into nowhere values (7);'))
    with pytest.raises(sqlite3.OperationalError):
        connect(path)
    monkeypatch.setattr(module, 'STEPS', STEPS)
    with contextlib.closing(connect(path)) as connection:
        assert connection.execute("select count(*) from sqlite_master where name = 'more'").fetchone() == (0,)
    assert len(statements_of("create trigger t after insert on a begin update a set x = ';'; end; select 1;")) == 2


@pytest.mark.quick
def test_a_broken_file_is_kept_aside(tmp_path: pathlib.Path, capfd: pytest.CaptureFixture[str]) -> None:
    path = tmp_path / 'ledger.sqlite'
    path.write_bytes(b'this is no ledger' * 1000)
    one = Database(path)
    one.open()
    one.write(ADD, ('a', '1'))
    assert one.flushed() and value(one, 'a') == '1'
    one.close()
    aside = [other for other in tmp_path.iterdir() if '.broken-' in other.name]
    assert len(aside) == 1 and aside[0].read_bytes().startswith(b'this is no ledger')
    assert 'is broken' in capfd.readouterr().err


@pytest.mark.quick
@pytest.mark.skipif(os.geteuid() != 0, reason='needs root')
def test_what_root_makes_is_the_folders_owners(tmp_path: pathlib.Path) -> None:
    os.chown(tmp_path, 12345, 12346)
    one = Database(tmp_path / 'ledger.sqlite')
    one.open()
    one.write(ADD, ('a', '1'))
    assert one.flushed()
    assert {(path.stat().st_uid, path.stat().st_gid) for path in tmp_path.iterdir()} == {(12345, 12346)} and len(list(tmp_path.iterdir())) == 3
    one.close()


@pytest.mark.quick
def test_what_waits_is_read_from_memory(made: Database) -> None:
    overlay: Overlay[str, int] = Overlay(made)
    with contextlib.closing(sqlite3.connect(made.path, isolation_level=None)) as other:
        other.execute('begin immediate')
        overlay.put('a', 1, made.write(ADD, ('a', '1')))
        assert overlay.get('a') == 1 and overlay.items() == [('a', 1)]
        other.execute('rollback')
    assert made.flushed() and overlay.get('a') is None and overlay.items() == []


@pytest.fixture
def small_disk(tmp_path: pathlib.Path) -> Iterator[pathlib.Path]:
    if os.geteuid() != 0:
        pytest.skip('a small disk needs root')
    folder = tmp_path / 'small'
    folder.mkdir()
    if subprocess.run(['mount', '-t', 'tmpfs', '-o', 'size=2m', 'none', str(folder)], capture_output=True).returncode != 0:
        pytest.skip('this machine mounts no tmpfs')
    try:
        yield folder
    finally:
        subprocess.run(['umount', '-l', str(folder)], check=True)


def test_a_full_disk_stops_no_run(service: Service, make_hub: Callable[..., HubProcess], small_disk: pathlib.Path) -> None:
    hub = make_hub(tables={'hub': {'folder': str(small_disk / 'state')}})
    tokens = hub.command('token', '--config', str(hub.config), 'create', 'mona', 'admin')
    token = tokens.stdout.strip()
    first = service.admit()
    path = '/api/v3/repos/octo/hello/actions/runs/'
    until(lambda: hub.get(f'{path}{first}', token).status == 200)
    fill = small_disk / 'fill'
    with contextlib.suppress(OSError), open(fill, 'wb', buffering=0) as file:
        while True:
            file.write(b'x' * 4096)
    runs = [service.admit() for _ in range(20)]
    lines = service.lines()
    for _ in runs:
        lease = lines.claim('r1')
        assert lines.done('r1', lease[1]) == 'ok'
    until(lambda: hub.get(f'{path}{runs[-2]}', token).json()['conclusion'] == 'success')          # it goes on from memory
    until(lambda: 'ledger can not be written' in hub.get('/healthz').text)
    assert hub.get('/healthz').status == 200 and 'ledger can not be written' in hub.process.said() if hub.process else False
    assert hub.command('token', '--config', str(hub.config), 'create', 'other', 'read').returncode == 1
    fill.unlink()
    until(lambda: hub.get('/healthz').text == 'ok\n')
    hub.restart()
    found = hub.get(f'{path}{runs[0]}', token).json()
    assert found['conclusion'] == 'success'
    with contextlib.closing(sqlite3.connect(small_disk / 'state' / 'ledger.sqlite')) as connection:
        assert connection.execute("select count(*) from runs where created_source = 'seen'").fetchone() == (21,)
        assert connection.execute("select count(*) from legs where state = 'success' and ended_at is not null").fetchone()[0] >= 20
