"""Long sessions, and requests that are cut, over many histories: each gets the bytes that a session without a cut gets."""

import copy
import json
import random
import threading
import time

from checking import at_once, expect, module, opened, served, stopped, turned_over

plain = module('plain', '../compared/plain.py')

MOMENT = 0.001


def body(label, second=False, space=0):
    jobs = {'build': {'runs-on': label}}
    if second:
        jobs['check'] = {'runs-on': [label, 'x64'], 'needs': 'build'}
    return json.dumps({'repo': 'o/r', 'path': 'ci.json', 'workflow': {'jobs': jobs}}, separators=(',', ':')).encode() + b' ' * space


def request(first, fields=(), given=b''):
    return ''.join(f'{line}\r\n' for line in [first, *fields, '']).encode() + given


def event(delivery, given, name='push'):
    return request('POST /events HTTP/1.1', [f'X-GitHub-Delivery: {delivery}', f'X-GitHub-Event: {name}', f'Content-Length: {len(given)}'], given)


class Talker:
    """A client, with the session of the model that it has to equal."""

    def __init__(self, client, session, name):
        self.client, self.session, self.name, self.bytes = client, session, name, 0

    def say(self, *pieces):
        """Sends the pieces of something, and compares what comes back."""
        wanted = b''.join(self.session.hear(piece) for piece in pieces)
        self.client.send(pieces)
        try:
            got = self.client.take(len(wanted))
        except served.Ended as end:
            got = end.args[0]
        except TimeoutError:
            got = self.client.held
        expect(got == wanted, self.name, 'has asked', pieces, 'and was answered', got, 'and not', wanted)
        self.bytes += len(got)
        return wanted

    def end(self, more):
        """The session is over: nothing more is answered, and the stream ends."""
        expect(self.session.over, self.name, 'has a session that goes on')
        try:
            self.client.send(more)
        except served.Ended:
            pass
        got, _ = self.client.rest()
        expect(got == b'', self.name, 'was given', got, 'after the end of its session')
        self.client.close()


def runner_line(dice, table, name, labels):
    """Something that a runner says: mostly what fits its state."""
    runner = table.runners.get(name.encode()) or plain.Runner()
    number, lease = runner.number + 1, runner.holds[0] if runner.holds else dice.randint(1, 9)
    kind = dice.randint(0, 99)
    if kind < 30 or (kind < 60 and not runner.holds):
        return f'CLAIM {name} {number} {labels}\n'
    if kind < 60:
        return f'DONE {name} {number} {lease} {dice.choice(("success", "success", "failure", "cancelled"))}\n'
    if kind < 75:
        return f'BEAT {name} {lease}\n'
    if kind < 80:
        return f'CLAIM {name} {max(1, runner.number)} {labels}\r\n'
    if kind < 84:
        return f'DONE {name} {number + dice.randint(0, 2)} {lease + dice.randint(0, 1)} failure\n'
    if kind < 92:
        return f'FETCH {dice.randint(1, 2 + len(table.runs))}\n'
    return dice.choice((f'claim {name} {number} {labels}\n', '\n', f'BEAT nobody {lease}\n', f'FETCH 0{number}\n', f'CLAIM  {name} 1 x\n', 'x' * 500 + '\n'))


def hook_request(dice, table, deliveries):
    """Something that a sender asks of a table: mostly new events."""
    run, kind = dice.randint(1, 1 + len(table.runs)), dice.randint(0, 99)
    if kind < 45:
        delivery = next(deliveries)
        return event(delivery, body('linux', dice.random() < 0.5, dice.choice((0, 0, 3000))))
    if kind < 60:
        return request(f'GET /runs/{run} HTTP/1.1', ['Host: x'])
    if kind < 70:
        return request(f'GET /runs/{run}/body HTTP/1.1')
    if kind < 78:
        return request(f'POST /runs/{dice.randint(1, 1 + len(table.runs))}/cancel HTTP/1.1')
    return look_alike(dice, table, run)


def look_alike(dice, table, run):
    """A request that changes nothing."""
    known = dice.choice(table.runs).event if table.runs else None
    return dice.choice((
        request('POST /runners/nobody/lost HTTP/1.1'),
        request('GET /nowhere HTTP/1.1'),
        request(f'GET /runs/0{run} HTTP/1.1', ['Content-Length: 7'], b'a body.'),
        request(f'POST /runs/{run} HTTP/1.1'),
        request('GET /events HTTP/1.1'),
        event('broken', b'['),
        event(known.delivery.decode(), known.body) if known else request('PUT /events HTTP/1.1'),
    ))


def pieces(dice, data):
    """Bytes, in one piece or in some."""
    if dice.random() < 0.7:
        return [data]
    cuts = sorted(dice.sample(range(len(data) + 1), dice.randint(1, 3) if len(data) > 3 else 1))
    return [data[start:end] for start, end in zip([0, *cuts], [*cuts, len(data)]) if start < end]


def one_of_each(acts, folder, turn_over, dice):
    """A session of 64 requests and one of 1,024 lines, alternately, over histories of so many commands. Gives a summary."""
    service, path = opened(acts, folder, turn_over=turn_over)
    store, deliveries = plain.Store(), (f'd{n}' for n in range(1, 100))
    hook = Talker(service.hook(), plain.Requests(store), 'the sender')
    runner = Talker(service.runner(), plain.Lines(store), 'the runner')
    for turn in range(plain.MAX_LINES):
        if turn % (plain.MAX_LINES // plain.MAX_REQUESTS) == 0:
            hook.say(*pieces(dice, hook_request(dice, store.table, deliveries)))
        runner.say(*pieces(dice, runner_line(dice, store.table, 'r1', 'linux,X64').encode()))
    hook.end(request('GET /runs/1 HTTP/1.1'))
    runner.end(b'BEAT nobody 1\n')
    histories, entries = len(service.settled), sum(service.settled)
    expect(histories >= 10, 'only', histories, 'histories')
    expect(0 <= store.entries - entries <= 2 * turn_over, store.entries, 'commands, and histories of', entries, 'entries in all')
    stopped(service)
    shown = served.show(acts, path)
    expect(shown == store.views(), 'the file shows', shown, 'and not', store.views())
    return f'64 requests and 1,024 lines over {histories} histories, {hook.bytes + runner.bytes} bytes as wanted'


def prepared(service):
    """A store for many sessions: run 1 has ended, run 2 is at work, run 3 waits, and 30 are for a runner named `mine`."""
    store = plain.Store()
    hook, runner = Talker(service.hook(), plain.Requests(store), 'the first sender'), Talker(service.runner(), plain.Lines(store), 'the first runner')
    for place in range(1, 4):
        hook.say(event(f'd{place}', body('linux', place == 2, 2000)))
    for place in range(4, 34):
        hook.say(event(f'd{place}', body('mine')))
    for line in (b'CLAIM r1 1 linux\n', b'DONE r1 2 1 success\n', b'CLAIM r1 3 linux\n'):
        runner.say(line)
    hook.client.close()
    runner.client.close()
    return store


def all_at_once(talker, data, more, dice):
    """Sends a whole session and bytes after it without waiting, and compares what came up to the end."""
    wanted = talker.session.hear(data)
    expect(talker.session.over, talker.name, 'has a session that goes on')

    def send():
        try:
            for piece in pieces(dice, data + more):
                talker.client.send(piece)
        except served.Ended:
            pass

    sender = threading.Thread(target=send, daemon=True)
    sender.start()
    got, whole = talker.client.rest()
    sender.join(20)
    talker.client.close()
    expect(got == wanted, talker.name, 'was given', len(got), 'bytes and not', len(wanted), difference(got, wanted), '' if whole else 'and a reset')
    talker.bytes += len(got)


def difference(got, wanted):
    at = next((place for place, (one, other) in enumerate(zip(got, wanted)) if one != other), min(len(got), len(wanted)))
    return f'from byte {at} on {got[at:at + 60]!r} and not {wanted[at:at + 60]!r}'


def lines_ahead(dice, store, name):
    """The lines of a whole session, none of which shows what others do: they ask for the first run only, which has ended."""
    given, session = b'', plain.Lines(store)
    while not session.over:
        line = runner_line(dice, store.table, name, 'mine' if name == 'mine' else 'none').encode()
        if not line.startswith(b'FETCH') or line == b'FETCH 1\n':
            given += line
            session.hear(line)
    return given


def requests_ahead(dice, table, place):
    """The requests of a whole session. The first sender posts events; the others ask for what does not change."""
    if place == 0:
        return b''.join(event(f'e{number}', body('nobody')) for number in range(plain.MAX_REQUESTS))
    return b''.join(dice.choice((look_alike(dice, table, 1), request('GET /runs/1 HTTP/1.1'), request('GET /runs/3/body HTTP/1.1'),
                                 request('POST /runs/1/cancel HTTP/1.1'))) for _ in range(plain.MAX_REQUESTS))


def pipelined(acts, folder, turn_over, dice):
    """Sixteen clients send whole sessions at once over histories that turn over meanwhile."""
    service, path = opened(acts, folder, turn_over=turn_over)
    store = prepared(service)
    before, talkers, tasks = len(service.settled), [], []
    for place in range(8):
        name, own = 'mine' if place == 0 else f'p{place}', copy.deepcopy(store)
        given = lines_ahead(dice, own, name) if place % 2 == 0 else b'FETCH 1\n' * plain.MAX_LINES
        talkers.append(Talker(service.runner(), plain.Lines(copy.deepcopy(store)), f'the runner {name}'))
        tasks.append((talkers[-1], given, b'BEAT nobody 1\n' * 3, random.Random(f'runner {place}')))
    for place in range(8):
        talkers.append(Talker(service.hook(), plain.Requests(copy.deepcopy(store)), f'the sender {place}'))
        tasks.append((talkers[-1], requests_ahead(dice, store.table, place), request('GET /runs/1 HTTP/1.1'), random.Random(f'sender {place}')))
    at_once([lambda task=task: all_at_once(*task) for task in tasks], 120)
    histories = len(service.settled) - before
    expect(histories >= 10, 'only', histories, 'histories')
    stopped(service)
    expect(len(served.show(acts, path)) == len(store.table.runs) + 64, 'the number of runs')
    return f'8 sessions of 64 requests and 8 of 1,024 lines, each sent at once, over {histories} histories, {sum(it.bytes for it in talkers)} bytes as wanted'


class Cut:
    """Clients that are cut: each sends a part of something, a history turns over, and it sends the rest."""

    def __init__(self, service, store):
        self.service, self.store, self.other, self.talker, self.sessions = service, store, service.runner(), None, 0

    def session(self, kind):
        """The session that it goes on with, or a new one."""
        if self.talker is None or self.talker.session.over or not isinstance(self.talker.session, kind):
            self.end()
            self.talker = Talker(self.service.hook() if kind is plain.Requests else self.service.runner(), kind(self.store), 'that is cut')
            self.sessions += 1
        return self.talker

    def say(self, kind, data, cuts):
        talker = self.session(kind)
        for start, end in zip([0, *cuts], cuts):
            expect(talker.session.hear(data[start:end]) == b'', 'an answer to half a request')
            talker.client.send(data[start:end])
            time.sleep(MOMENT)
            self.other = turned_over(self.service, self.other)
        talker.say(data[cuts[-1]:])

    def end(self):
        if self.talker is not None:
            self.talker.client.close()


def cut_at_each_byte(acts, folder):
    """A request and a line are cut at each of their bytes, and a history turns over there; and then at all bytes."""
    service, path = opened(acts, folder, turn_over=2)
    store, given = plain.Store(), body('linux')
    cut, last, beat = Cut(service, store), event('c999', given), b'BEAT runner-1 99\n'
    requests = [event(f'c{100 + place}', given) for place in range(len(last) - 1)]
    lines = [f'CLAIM runner-1 {number} linux,x64\n'.encode() for number in range(1, 100)]
    for place, data in enumerate(requests, 1):
        cut.say(plain.Requests, data, [place])
    for place, data in enumerate(lines[:len(lines[0]) - 1], 1):
        cut.say(plain.Lines, data, [place])
    cut.say(plain.Requests, last, list(range(1, len(last))))
    cut.say(plain.Lines, beat, list(range(1, len(beat))))
    cut.end()
    cuts, histories = 2 * (len(last) - 1) + len(lines[0]) - 1 + len(beat) - 1, len(service.settled)
    stopped(service)
    expect(served.show(acts, path) == store.views(), 'the runs that are shown')
    return f'{cuts} cuts in {cut.sessions} sessions, a history turned over in each ({histories} in all)'


def halves(acts, folder, dice):
    """Forty clients have each sent half of something, ten histories turn over, and each sends the rest, in another order."""
    service, path = opened(acts, folder, turn_over=3)
    store, other, clients = plain.Store(), service.runner(), []
    for place in range(20):
        for client, kind, data in ((service.hook(), plain.Requests, event(f'h{place}', body('linux', space=place))),
                                   (service.runner(), plain.Lines, f'CLAIM h{place} 1 none\n'.encode())):
            cut = dice.randint(1, len(data) - 1)
            client.send(data[:cut])
            clients.append((client, kind, data, cut))
    for _ in range(10):
        other = turned_over(service, other)
    dice.shuffle(clients)
    for client, kind, data, cut in clients:
        talker = Talker(client, kind(store), 'that sent a half')
        talker.session.hear(data[:cut])
        talker.say(data[cut:])
        client.close()
    stopped(service)
    expect(served.show(acts, path) == store.views(), 'the runs that are shown')
    return f'{len(clients)} halves kept over ten histories'


def check(acts, folder, amount):
    dice = random.Random(amount.seed)
    for turn_over in (3, 90):
        yield one_of_each(acts, folder, turn_over, dice)
    yield pipelined(acts, folder, 40, dice)
    yield cut_at_each_byte(acts, folder)
    yield halves(acts, folder, dice)
