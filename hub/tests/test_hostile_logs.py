"""Logs of a gigabyte from a runner that bounds nothing: the hub keeps its bound and says so in the log, its memory and its disk stay small, and the page of the log is quick.
What is measured is the processor time of the hub, which other work on the machine does not change."""
from __future__ import annotations

import json
import os
import pathlib
import re
from collections.abc import Iterator
from dataclasses import dataclass

import pytest
from harness import HubProcess, Service, body_of, until
from wires import Wire

GIGABYTE, PIECE, BOUND = 1 << 30, 1 << 20, 64 << 20
LINE = b'2026-12-01T00:00:00.0000000Z a line that a step prints again and again, as fast as it can, and nobody stops it.....\n'
SENT = {
    'lines': (LINE * (PIECE // len(LINE) + 1))[:PIECE - PIECE % len(LINE)],
    'one line': b'x' * PIECE,
    'line ends': b'\n' * PIECE}


@dataclass
class Cost:
    """What a hub has used: seconds of processors, and the most bytes of memory."""

    seconds: float
    memory: int

    @classmethod
    def of(cls, hub: HubProcess) -> 'Cost':
        """Up to now."""
        assert hub.process
        folder = pathlib.Path(f'/proc/{hub.process.id}')
        times = (folder / 'stat').read_text().rpartition(') ')[2].split()[11:13]
        peak = re.search(r'VmHWM:\s+([0-9]+) kB', (folder / 'status').read_text())
        assert peak
        return cls(sum(map(int, times)) / os.sysconf('SC_CLK_TCK'), int(peak[1]) << 10)


@pytest.fixture(scope='module')
def hub(shared: HubProcess) -> HubProcess:
    """The hub of this module, with the bound that it has by itself."""
    return shared


@pytest.fixture
def wire(hub: HubProcess) -> Iterator[Wire]:
    """A runner by hand."""
    made = Wire(hub, hub.token('loud', 'runner', labels=('linux',)))
    yield made
    made.close()


def on_disk(hub: HubProcess) -> int:
    """The bytes that the logs take."""
    return sum(path.stat().st_blocks * 512 for path in (hub.state / 'logs').rglob('*') if path.is_file())


def shout(wire: Wire, place: str, claim: str, piece: bytes) -> None:
    """Sends a gigabyte for a step that fails, and is told each time that all was taken."""
    marks = [json.dumps({'step': 1, 'at': at, 'bytes': at * GIGABYTE, **more}).encode() + b'\n' for at, more in (
        (0, {'begins': True, 'name': 'Shout'}), (1, {'ends': True, 'conclusion': 'failure'}))]
    sent = 0
    assert wire.put('marks', place, marks[0], claim, offset=0).status == 200
    while sent < GIGABYTE:
        sent += len(piece)
        assert wire.put('logs', place, piece, claim, offset=sent - len(piece)).json() == {'size': sent}
    assert wire.put('marks', place, marks[1], claim, offset=len(marks[0])).status == 200


def report(service: Service, name: str, lease: str) -> None:
    """Says that the leg failed: not by the stream of the runner, which the hub may have closed if the sending took over a minute."""
    lines = service.lines()
    lines.numbers[name] = 1
    assert lines.done(name, lease, 'failure') == 'ok'
    lines.close()


@pytest.mark.parametrize('kind', SENT)
def test_a_log_of_a_gigabyte(hub: HubProcess, wire: Wire, kind: str, capsys: pytest.CaptureFixture[str]) -> None:
    service, name = hub.service, f'r-{kind.replace(" ", "-")}'
    assert isinstance(service, Service)
    run, lease = service.admit(body_of()), wire.claim(name)[1]
    before, disk = Cost.of(hub), on_disk(hub)
    shout(wire, f'{run}/1/build/0/{lease}', wire.claims[lease], SENT[kind])
    after = Cost.of(hub)
    report(service, name, lease)
    path, = (hub.state / 'logs').glob(f'*/{run}/1/*.log')
    with open(path, 'rb') as file:
        file.seek(-200, os.SEEK_END)
        last = file.read().splitlines()[-1]
    assert re.fullmatch(rb'\S+Z The log is longer than 67108864 bytes: what comes after is dropped\.', last)
    assert BOUND - PIECE < path.stat().st_size < BOUND + 200 and on_disk(hub) - disk < BOUND + PIECE
    reader, jobs = hub.token('reader', 'read'), f'/api/v3/repos/octo/hello/actions/runs/{run}/jobs'
    until(lambda: hub.get(jobs, reader).json()['jobs'][0]['conclusion'] == 'failure', what='the end of the job')
    page = hub.request('GET', f'/octo/hello/actions/runs/{run}/job/{hub.get(jobs, reader).json()["jobs"][0]["id"]}', None, reader, timeout=120)
    viewed = Cost.of(hub)
    with capsys.disabled():
        print(f'\na gigabyte of {kind}: {after.seconds - before.seconds:.1f} s of the hub, its page {viewed.seconds - after.seconds:.2f} s, '
              f'{(viewed.memory - before.memory) >> 20} MiB more memory, {(on_disk(hub) - disk) >> 20} MiB of disk')
    assert page.status == 200 and 'what comes after is dropped' in page.text and len(page.body) < 2_000_000
    assert after.seconds - before.seconds < 60 and viewed.seconds - after.seconds < 3
    assert after.memory - before.memory < 32 << 20 and viewed.memory - before.memory < 64 << 20
    assert hub.get('/healthz').text == 'ok\n'
