"""Windows of logs: the right lines wherever they are, and no more memory than is shown."""
from __future__ import annotations

import http.client
import pathlib
import random
import re
import time
from collections.abc import Callable

import pytest
from harness import HubProcess, Service
from pages_stage import Stage

from acts_hub.ledger.logs import LogStore, StepMark
from acts_hub.pages import steps
from acts_hub.pages.lines import Key, LogFile

KEY = Key(1, 1, 'build', 0, 1)
LEG = 1, 1, 'build', 0, 1
LONG = 1 << 28  # bytes


def log_of(folder: pathlib.Path, data: bytes) -> LogFile:
    store = LogStore(folder, 1 << 32)
    for offset in range(0, len(data), 1 << 20):
        store.append(*LEG, offset, data[offset:offset + (1 << 20)])
    return LogFile(store, KEY)


@pytest.mark.quick
@pytest.mark.parametrize('seed', range(12))
def test_windows_are_those_of_a_list_of_all_lines(tmp_path: pathlib.Path, seed: int) -> None:
    dice = random.Random(seed)
    longest = dice.choice([3, 80, 5_000, 300_000])
    lines = [bytes([97 + number % 26]) * dice.randrange(1, longest)
             for number in range(dice.choice([1, 50, 3_000]) if longest < 300_000 else 40)]
    data = b'\n'.join(lines) + (b'\n' if seed % 2 else b'')
    whole = data.split(b'\n')[:-1] if seed % 2 else data.split(b'\n')
    file = log_of(tmp_path, data)
    for _ in range(60):
        first, count = dice.randrange(len(whole)), dice.randrange(1, 200)
        found, wanted = file.window(first, count, len(data)), whole[first:first + count]
        assert found == [line[:1 << 14] for line in wanted[:len(found)]]
        assert found and (len(found) == len([*wanted]) or sum(map(len, wanted)) > 1 << 20)
        offset = dice.randrange(len(data) + 1)
        assert file.line_at(offset) == data[:offset].count(b'\n')


@pytest.mark.quick
def test_a_log_that_grows_or_begins_anew_is_read_as_it_is(tmp_path: pathlib.Path) -> None:
    file = log_of(tmp_path, b'one\ntw')
    assert file.window(0, 9, 99) == [b'one', b'tw'] and file.line_at(99) == 1
    file.store.append(*LEG, 6, b'o\nthree\n')
    assert file.window(0, 9, 99) == [b'one', b'two', b'three'] and file.line_at(99) == 3
    file.store.drop(1)
    assert file.window(0, 9, 99) == []
    file.store.append(*LEG, 0, b'new\n')
    assert file.window(0, 9, 99) == [b'new'] and file.line_at(4) == 1


@pytest.mark.quick
def test_steps_bound_their_lines(tmp_path: pathlib.Path) -> None:
    file = log_of(tmp_path, b'before\none\ntwo\nthree\n')
    marks = [StepMark(1, 'First', 'success', 1, 2, 7, 11), StepMark(2, 'Second', None, 3, None, 11, None)]
    found = steps.steps_of(marks, file.size(), False)
    assert [(step.number, step.name, step.state, step.is_open)
            for step in found] == [(0, 'Set up job', 'success', False), (1, 'First', 'success', False),
                                   (2, 'Second', 'running', True)]
    assert [[line.text for line in steps.window_of(file, step).lines]
            for step in found] == [['before'], ['one'], ['two', 'three']]
    assert steps.steps_of(marks, file.size(), True)[2].state == 'cancelled'      # its runner said nothing more
    assert [(step.number, step.name) for step in steps.steps_of([], 20, True)] == [(0, 'Log')]
    assert steps.steps_of([], 0, True) == []


@pytest.mark.quick
def test_a_step_of_many_lines_is_shown_by_windows(tmp_path: pathlib.Path) -> None:
    data = b''.join(b'line %d\n' % number for number in range(1, 5_001))
    file = log_of(tmp_path, data)
    failed, = steps.steps_of([StepMark(1, 'Run', 'failure', 1, 2, 0, len(data))], len(data), True)
    window = steps.window_of(file, failed)
    assert (window.first, window.lines[0].text, window.lines[-1].text,
            window.total) == (4001, 'line 4001', 'line 5000', 5000)
    window = steps.window_of(file, failed, 1500)
    assert (window.first, window.lines[0].text, window.lines[-1].text) == (1001, 'line 1001', 'line 2000')
    made = steps.window_html(window, 1500)
    assert re.findall('data-line="([0-9]+)"', made) == ['1', '1000', '2001', '5000']
    assert made.count('class="l"') == 1000 and 'id="step:1:1500"' in made
    for line in (0, 10 ** 9):
        assert steps.window_of(file, failed, line).lines


def peak(hub: HubProcess) -> int:
    """The most memory that the hub has had, in bytes."""
    assert hub.process is not None
    found = re.search(r'VmHWM:\s+([0-9]+) kB', pathlib.Path(f'/proc/{hub.process.id}/status').read_text())
    assert found is not None
    return int(found[1]) << 10


def test_a_log_of_an_operator_with_a_larger_bound_does_not_fill_memory(service: Service, make_hub: Callable[..., HubProcess]) -> None:
    hub = make_hub(tables={'retention': {'log_bytes_a_leg': 2 * LONG}})
    stage = Stage(service, hub)
    stage.logs = LogStore(hub.state / 'logs', 2 * LONG)
    stage.admit()
    leg = stage.claim()
    leg.begin('Run it')
    text = b'2026-11-30T19:30:00.0000000Z line %012d of a log that is long, so that it has many lines\n'
    piece = b''.join(text % number for number in range(12_000))
    count = LONG // len(piece) + 1
    for number in range(count):
        leg.length = stage.logs.append(*leg.key(), leg.length, piece)
    assert leg.length > LONG
    leg.end('failure').done('failure')
    stage.seen(leg.run, 'completed')
    token, before, begun = hub.token('mona', 'read'), peak(hub), time.monotonic()
    lines = count * 12_000
    page = hub.request('GET', leg.page, None, token, timeout=120)
    first = time.monotonic() - begun
    assert page.status == 200 and len(page.body) < 1_000_000 and f'Last of {lines:,} lines' not in page.text
    assert f'id="step:1:{lines}"' in page.text
    begun = time.monotonic()
    window = hub.request('GET', f'{leg.page}/lines?step=1&line={lines // 2}', None, token, timeout=120)
    second = time.monotonic() - begun
    assert f'id="step:1:{lines // 2}"' in window.text and f'Last of {lines:,} lines' in window.text
    assert len(window.body) < 1_000_000
    connection = http.client.HTTPConnection('127.0.0.1', hub.port, timeout=120)
    connection.request('GET', f'{leg.page}/raw', headers={'Authorization': f'Bearer {token}'})
    answer, length = connection.getresponse(), 0
    while piece := answer.read(1 << 20):
        length += len(piece)
    connection.close()
    assert length == leg.length
    grown = peak(hub) - before
    print(f'a log of {leg.length >> 20} MiB: its page in {first:.2f} s, a window of the middle in {second:.2f} s, '
          f'and {grown >> 20} MiB more memory')
    assert grown < 96 << 20
