"""What has to hold at the end: the history in the file, played by the plain model, gives the answers that the clients had, and the views."""

import collections
import concurrent.futures
import os
import re
import subprocess
import sys

from load import HOOKS, RUNNERS, Runner, Sender
from processes import Broken, Wrong, expect

HERE = os.path.dirname(os.path.abspath(__file__))
PLAIN = os.path.join(HERE, '../compared/plain.py')
WORDS = {2: b'claim', 3: b'done', 4: b'beat', 5: b'cancel', 6: b'lost', 7: b'look', 8: b'fetch'}
RESULTS = {1: b'success', 2: b'failure', 3: b'cancelled'}
OPEN, SESSION = 0xA5, 60


class Encoded:
    """Bytes of stored commands."""

    def __init__(self, data):
        self.data, self.at = data, 0

    def take(self, count):
        self.at += count
        return self.data[self.at - count:self.at]

    def number(self):
        return int.from_bytes(self.take(4), 'big')

    def text(self):
        return self.take(self.number())

    def command(self):
        """A command as the line of a script."""
        kind = self.take(1)[0]
        if kind == 1:
            return b' '.join((b'admit', self.text(), self.text(), self.text()))
        fields = [WORDS[kind]]
        if kind in (2, 3, 4, 6):
            fields.append(self.text())
        if kind != 6:
            fields.append(b'%d' % self.number())
        if kind == 2:
            fields.append(b','.join(self.text() for _ in range(self.number())))
        if kind == 3:
            fields += [b'%d' % self.number(), RESULTS[self.take(1)[0]]]
        return b' '.join(fields)


def history(path):
    """The commands in the first area of a store that has made no checkpoint."""
    with open(path, 'rb') as file:
        data = file.read()
    area = len(data) // 2
    expect(data[0] == OPEN and data[area] != OPEN and int.from_bytes(data[2:10], 'big') == 1, 'the file has made a checkpoint')
    at, lines = 18 + int.from_bytes(data[10:18], 'big'), []
    while data[at] == OPEN:
        size = int.from_bytes(data[at + 1:at + 5], 'big')
        batch = Encoded(data[at + 5:at + 5 + size])
        lines += [batch.command() for _ in range(batch.number())]
        at += 5 + size
    return lines


def played(lines):
    """What the plain model answers to each line."""
    out = subprocess.run([sys.executable, '-c', PLAY, os.path.dirname(PLAIN)], input=b'\n'.join(lines), stdout=subprocess.PIPE, check=True).stdout
    return out.splitlines()


PLAY = '''import sys
sys.path.insert(0, sys.argv[1])
import plain
store = plain.Store()
for line in sys.stdin.buffer.read().split(b"\\n"):
    sys.stdout.buffer.write(store.answer(line).replace(b"\\n", b" ") + b"\\n")
'''


def send_again(load, host):
    """Sends each delivery that any client ever sent once more, and each runner's last line. The answers are kept with the others."""
    parts = []
    for port, lines in ((HOOKS, [line for line in load.answers.sent if line.startswith(b'admit ')]), (RUNNERS, unanswered(load))):
        parts += [(port, lines[start:start + SESSION]) for start in range(0, len(lines), SESSION)]
    with concurrent.futures.ThreadPoolExecutor(8) as pool:
        list(pool.map(lambda part: ask_all(load, host, *part), parts))


def unanswered(load):
    """The lines of runners that were sent and not answered. A look or a cancel without an answer stays so: another one may follow it."""
    return [client.line for client in load.clients if client.line and not isinstance(client, Sender)]


def ask_all(load, host, port, lines):
    stream = load.network.connect(host.name, port, 20)
    stream.settimeout(20)
    client, held = (Sender if port == HOOKS else Runner)(load, 'again', host.name, load.over), b''
    for line in lines:
        with load.answers.lock:
            load.answers.sent[line] += 1
        stream.sendall(client.encoded(line))
        while (found := client.answer_in(held)) is None:
            more = stream.recv(65536)
            expect(more, 'the stream ended before the answer to', line)
            held += more
        answer, held, _ = found
        load.answers.note(host.name, line, answer)
    stream.close()


def hold(holds, *what):
    expect(holds, *what, kind=Broken)


def check(load, acts, path):
    """The file at PATH, of a service that has ended. Gives the numbers of entries, runs and leases."""
    answers, lines = load.answers, history(path)
    check_clients(answers)
    views = [b'look %d' % place for place in range(1, 1 + sum(line.startswith(b'admit ') for line in lines))]
    replies = played(lines + views)
    entries = collections.Counter(zip(lines, replies))
    lost = answers.answered - entries
    hold(not lost, 'LOST:', sum(lost.values()), 'answered commands are not in the history with that answer:', *list(lost)[:3])
    surplus = collections.Counter(lines) - answers.sent
    hold(not surplus, 'DOUBLED:', sum(surplus.values()), 'entries that nobody sent:', *list(surplus)[:3])
    views = [reply for reply in replies[len(lines):] if reply != b'refused 40']
    shown = subprocess.run([acts, 'show', path], stdout=subprocess.PIPE, check=True).stdout.splitlines()
    hold(shown == views, 'acts show differs from the plain model, first in', *[pair for pair in zip(shown, views) if pair[0] != pair[1]][:1])
    check_runs(answers, len(shown))
    return len(lines), len(shown), check_leases(answers)


def check_clients(answers):
    """No client was answered something that its command never is, or failed itself."""
    wrong = [fault for fault in answers.faults if isinstance(fault, Wrong)]
    expect(wrong == answers.faults, 'clients failed:', *map(repr, answers.faults[:2]))
    hold(not wrong, len(wrong), 'clients were answered wrongly:', *wrong[:2])


def check_runs(answers, count):
    """Each delivery has one run, and each run one delivery."""
    runs = collections.defaultdict(set)
    for line, answer in answers.answered:
        if found := re.fullmatch(rb'created (\d+)', answer):
            runs[line.split(b' ')[1]].add(int(found[1]))
    deliveries = {line.split(b' ')[1] for line in answers.sent if line.startswith(b'admit ')}
    hold(set(runs) == deliveries, len(deliveries - set(runs)), 'deliveries were never answered')
    hold(all(len(of) == 1 for of in runs.values()), 'DOUBLED: a delivery has several runs')
    places = sorted(place for of in runs.values() for place in of)
    hold(places == list(range(1, count + 1)), 'not each run has one delivery:', count, 'runs,', len(runs), 'deliveries')


def check_leases(answers):
    """Each lease was given to one claim, and each leg leased once."""
    claims, legs = collections.defaultdict(set), collections.defaultdict(set)
    for line, answer in answers.answered:
        if found := re.fullmatch(rb'lease (\d+) (\d+ \S+ \d+) .*', answer):
            claims[found[1]].add(line)
            legs[found[2]].add(found[1])
    hold(all(len(of) == 1 for of in claims.values()), 'DOUBLED: a lease was given twice')
    hold(all(len(of) == 1 for of in legs.values()), 'DOUBLED: a leg was leased twice')
    return len(claims)
