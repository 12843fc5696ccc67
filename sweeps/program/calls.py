"""The calls that a process makes on the file of a store, in their order, as a library notes them (`calls.c`): those of `acts init`, `acts grow`, an opening, a commit and a checkpoint.

What they have to be is what docs/FORMATS.md says of the disk of a store and docs/MODEL.md of a checkpoint, byte by byte. Without a C compiler they are left out.
"""

import os
import shutil
import subprocess

from checking import expect, opened, served, stopped
from encoded import LATEST, area, file, latest, look, number, record, text
from files import AREA, EMPTY, READY, write as write_file
from sizes import generation

HERE = os.path.dirname(os.path.abspath(__file__))
OPEN, CLOSED = b'\xa5', b'\0'
# The closed gate of the first record of a new store.
FIRST_GATE = 38
BEAT = b'BEAT nobody 1\n'
SLICE, LARGE, BODY_BYTES, CHECKPOINTS, MOST_ASKED = 4096, 32_768, 9_000, 3, 9_000
SECONDS = 60
# Three requests at once, and their commands.
THREE = b'POST /runs/1/cancel HTTP/1.1\r\n\r\nPOST /runners/r1/lost HTTP/1.1\r\n\r\nGET /runs/1/body HTTP/1.1\r\n\r\n'
AT_ONCE = (b'\5' + number(1), b'\6' + text('r1'), b'\10' + number(1))


def left_out():
    return None if shutil.which('cc') else 'left out: cc is not here'


def wrote(at, data):
    return f'write {at} {data.hex()}'


class Noted:
    """The calls on a file of the processes that are started with these settings."""

    def __init__(self, folder, path):
        self.path, self.calls, self.place = path, os.path.join(folder, 'calls'), 0
        self.settings = {'LD_PRELOAD': served.library(os.path.join(HERE, 'calls.c'), folder), 'CALLS': self.calls, 'CALLS_OF': os.path.realpath(path)}

    def more(self):
        """The calls since the last look."""
        if not os.path.exists(self.calls):
            return []
        with open(self.calls, encoding='ascii') as it:
            it.seek(self.place)
            lines = it.read()
            self.place = it.tell()
        return lines.splitlines()

    def ran(self, acts, *words):
        it = subprocess.run([acts, *words], env={**os.environ, **self.settings}, stdin=subprocess.DEVNULL, capture_output=True, text=True, timeout=SECONDS)
        expect((it.returncode, it.stderr) == (0, ''), 'acts', words, 'ends with', it.returncode, it.stderr)
        return self.more()


def expect_calls(found, wanted, what):
    expect(found == wanted, what, 'makes the calls', found, 'and not', wanted)


def expect_read(found, what):
    """It asks the system to drop its clean pages, syncs, and then reads alone."""
    reads = all(it.startswith('read ') for it in found[2:])
    expect(found[:2] == ['advice', 'sync'] and found[2:] and reads, what, 'makes the calls', found)


def made_with(length):
    """The calls that make a store of the empty table, with areas of this length."""
    front = area(length, 1, latest(EMPTY), layout=LATEST)[1:FIRST_GATE + 1]
    return ['advice', 'folder', wrote(0, CLOSED + front), wrote(length, CLOSED), wrote(2 * length - 1, CLOSED), 'sync', wrote(0, OPEN), 'sync']


def made(acts, folder):
    """A store is made with its folder synced, and its gate is opened once all else is durable. So is the copy of a store, which is only read."""
    if left_out():
        return left_out()
    path, new = f'{folder}/store', f'{folder}/there/larger'
    os.mkdir(f'{folder}/there')
    noted = Noted(folder, path)
    expect_calls(noted.ran(acts, 'init', path, str(AREA)), made_with(AREA), 'init')
    expect_read(noted.ran(acts, 'grow', path, new, str(2 * AREA)), 'grow, of the store that it copies,')
    os.remove(new)
    noted = Noted(f'{folder}/there', new)
    expect_calls(noted.ran(acts, 'grow', path, new, str(2 * AREA)), made_with(2 * AREA), 'grow')
    return f'{2 * len(made_with(AREA))} calls of init and of grow'


def looked(acts, folder):
    """Whoever opens a store syncs before it reads, and writes nothing."""
    if left_out():
        return left_out()
    path = f'{folder}/store'
    write_file(path, file(latest(EMPTY), length=AREA, layout=LATEST))
    noted = Noted(folder, path)
    for words in ('show', 'runners', 'queue'):
        expect_read(noted.ran(acts, words, path), words)
    service = served.Forever(acts, path, settings=noted.settings)
    expect(service.ready, 'a service is not ready')
    expect_read(noted.more(), 'serve')
    stopped(service)
    return 'a sync before each of four commands reads, and no write'


def committed(gate, commands):
    """The calls of a commit of these commands behind a gate, and the next gate."""
    behind = record(*commands)[1:]
    return [wrote(gate + 1, behind + CLOSED), 'sync', wrote(gate, OPEN), 'sync'], gate + 1 + len(behind)


def commits(acts, folder):
    """A record is written and synced, then its gate, before an answer comes. What comes at once has one record."""
    if left_out():
        return left_out()
    noted = Noted(folder, f'{folder}/store')
    service, _ = opened(acts, folder, area=AREA, settings=noted.settings)
    hook, gate = service.hook(), FIRST_GATE
    noted.more()
    for asked, commands in ((served.look(1), (look(1),)), (THREE, AT_ONCE), *((served.look(it), (look(it),)) for it in range(2, 30))):
        hook.send(asked)
        for _ in commands:
            expect(hook.answer()[0] == 404, asked, 'has another answer')
        wanted, gate = committed(gate, commands)
        expect_calls(noted.more(), wanted, f'{asked!r}')
    stopped(service)
    return '30 commits, one of three commands, each with two writes and two syncs before its answers'


class Areas:
    """Two areas as the calls of a service leave them: which is active, where its next record goes, and what was written behind the gate of the other."""

    def __init__(self, length):
        self.length, self.active, self.gate, self.is_other_open = length, 0, FIRST_GATE, False
        self.put, self.commits, self.finished = None, 0, 0

    def follow(self, calls):
        """Takes the calls of commits and of checkpoints."""
        calls = [it.split(' ') for it in calls]
        while calls:
            (word, at, data), *calls = calls
            expect(word == 'write', 'a write has to come, and not', word)
            place = int(at) - (self.length - self.active)
            if 0 <= place < self.length:
                calls = self.prepare(place, bytes.fromhex(data), calls)
            else:
                calls = self.commit(int(at) - self.active, bytes.fromhex(data), calls)

    def commit(self, place, data, calls):
        expect(place == self.gate + 1 and data[-1:] == CLOSED and int.from_bytes(data[:4], 'big') == len(data) - 5, 'a record of', len(data), 'bytes is written at', place, 'behind the gate at', self.gate)
        calls = self.synced_gate(self.active + self.gate, calls, 'a commit')
        self.gate, self.commits = self.gate + len(data), self.commits + 1
        return calls

    def synced_gate(self, at, calls, what):
        """A sync, the open gate, and a sync."""
        wanted = [['sync'], wrote(at, OPEN).split(' '), ['sync']]
        expect(calls[:3] == wanted, what, 'goes on with', calls[:3], 'and not', wanted)
        return calls[3:]

    def prepare(self, place, data, calls):
        """A write into the other area: it closes its gate, or is a slice of what stands behind it, or the last part with the sync and the gate of a finish."""
        if self.put is None and self.is_other_open:
            expect((place, data, calls[:1]) == (0, CLOSED, [['sync']]), 'a checkpoint begins with', data, 'at', place, 'and', calls[:1])
            self.is_other_open, self.put = False, b''
            return calls[1:]
        self.put = self.put or b''
        expect(place == 1 + len(self.put), 'a part of a checkpoint is written at', place, 'behind', len(self.put), 'bytes')
        self.put += data
        if calls[:1] != [['sync']]:
            expect(len(data) <= SLICE, 'a slice has', len(data), 'bytes')
            return calls
        return self.finish(calls)

    def finish(self, calls):
        """The text of the next generation is whole, with a closed gate behind all."""
        other = self.length - self.active
        calls = self.synced_gate(other, calls, 'a checkpoint')
        self.finished += 1
        end = 17 + int.from_bytes(self.put[9:17], 'big')
        expect(self.put[:9] == bytes([LATEST]) + (1 + self.finished).to_bytes(8, 'big') and end < len(self.put) and self.put[-1:] == CLOSED, 'a checkpoint begins with', self.put[:17])
        self.active, self.gate, self.is_other_open, self.put = other, len(self.put), True, None
        return calls


def checkpoints(acts, folder):
    """Each checkpoint closes the other gate, writes that area in slices, syncs, opens its gate, and syncs; commits go on meanwhile. The next one goes back to the first area."""
    if left_out():
        return left_out()
    noted, areas, asked = Noted(folder, f'{folder}/store'), Areas(LARGE), 1
    service, path = opened(acts, folder, area=LARGE, settings=noted.settings)
    noted.more()
    expect(service.hook().ask(served.event('d1', served.BODY.ljust(BODY_BYTES)))[1] == 'created 1', 'an event is not admitted')
    while max(generation(path, 0), generation(path, LARGE)) <= CHECKPOINTS:
        expect(asked < MOST_ASKED, 'after', asked, 'commands there are no', CHECKPOINTS, 'checkpoints')
        asked += beats_in_turn(service)
    # (the turn of the next answer begins after that of the last sync)
    asked += beats_in_turn(service)
    stopped(service)
    areas.follow(noted.more())
    expect((areas.commits, areas.finished) == (asked, CHECKPOINTS), asked, 'commands one after another have', areas.commits, 'commits and', areas.finished, 'checkpoints')
    shown = served.show(acts, path)
    expect(shown == READY.splitlines(), 'after', areas.finished, 'checkpoints the file shows', shown)
    return f'{areas.finished} checkpoints beside {areas.commits} commits'


def beats_in_turn(service):
    """Ten beats of nobody, each after the answer to the one before."""
    runner = service.runner()
    for _ in range(10):
        expect(runner.ask(BEAT)[1] == 'refused 45', 'a beat of nobody is answered otherwise')
    runner.close()
    return 10


CHECKS = made, looked, commits, checkpoints
