"""The streams of clients: what comes at once or in halves, the ends of sessions, and clients that are silent, reset their stream or stay; and a device that fails."""

import json
import resource
import socket
import time

from checking import at_once, expect, opened, served, stopped
from command_lines import is_refused
from files import expect_answers

AREA = 1 << 16
FETCH, UNKNOWN = b'FETCH 9\n', 'refused 40'
CLAIM, LEASED = b'CLAIM r1 1 linux\n', 'lease 1 1 build 0 {}'
DONE = b'DONE r1 2 1 success\n'
COMPLETED = 'run 1 1 completed success build:success(success)'
LOOK = served.look(1)
RUNS = b'GET /runs HTTP/1.1\r\n\r\n'
HEALTH, WELL = b'GET /healthz HTTP/1.1\r\n\r\n', (200, 'ok')
SECONDS = 60


def silent(acts, folder):
    """Clients that say nothing, or a half of a request, hold up nobody."""
    service, _ = opened(acts, folder)
    quiet, half = service.runner(), service.hook()
    half.send(LOOK[:14])
    expect_answers(service.hook(), ((served.event('d1'), 'created 1'),))
    expect_answers(service.runner(), ((CLAIM, LEASED), (DONE, 'ok')))
    expect_answers(half, ((LOOK[14:], COMPLETED),))
    expect_answers(quiet, ((FETCH, UNKNOWN),))
    stopped(service)
    return 'a sender with half a request and a silent runner, beside others'


def over_histories(acts, folder):
    """Half a request is kept from one history to the next, and in the third one two requests come at once."""
    service, _ = opened(acts, folder, turn_over=2)
    hook, runner = service.hook(), service.runner()
    expect_answers(hook, ((served.event('d1') + LOOK[:9], 'created 1'),))
    expect_answers(runner, ((CLAIM, LEASED),))
    expect(service.wait_settled(1), 'a history of two commands does not turn over')
    expect_answers(runner, ((DONE, 'ok'),))
    expect_answers(hook, ((LOOK[9:], COMPLETED),))
    expect(service.wait_settled(2), 'the second history of two commands does not turn over')
    hook.send(LOOK + LOOK)
    for _ in range(2):
        expect(hook.answer() == (200, COMPLETED), 'one of two requests that come at once has another answer')
    expect(service.settled[:2] == [2, 2], 'histories of two commands turn over with', service.settled)
    stopped(service)
    return 'two sessions over three histories'


def keeps_runs(acts, folder):
    """With `--keep-runs` completed runs but the last ones are forgotten where a history turns over, and at a start. A run that goes on keeps those behind it."""
    path, views = f'{folder}/store', served.free_port()
    served.init(acts, path, AREA)

    def begun(keep):
        service = served.Forever(acts, path, turn_over=4, keep_runs=keep, view_port=views)
        expect(service.ready, 'a service is not ready')
        return service

    def post(service, run, then=True):
        hook = service.hook()
        expect_answers(hook, ((served.event(f'd{run}'), f'created {run}'), *(((f'POST /runs/{run}/cancel HTTP/1.1\r\n\r\n'.encode(), 'ok'),) if then else ())))
        hook.close()

    def expect_left(*runs):
        """The runs that are left, the newest first."""
        for _ in range(SECONDS * 20):
            found = [row['run'] for row in json.loads(served.Hook(views).ask(RUNS)[1])['runs']]
            if found == list(runs):
                return
            time.sleep(0.05)
        expect(False, 'the runs that are left are', found, 'and not', runs)

    service = begun(2)
    for run in 1, 2, 3, 4:
        post(service, run)
    expect(service.wait_settled(2), 'histories of four commands do not turn over')
    expect_left(4, 3)
    post(service, 5, then=False)
    stopped(service)
    service = begun(1)
    expect_left(5)
    post(service, 6)
    stopped(service)
    service = begun(1)
    expect_left(6, 5)
    stopped(service)
    return 'two of four runs are forgotten, two more at the next start, and none behind one that goes on'


def reset_after_an_answer(client, asked):
    """Ends the stream with a request that is cut off and an answer that is not read."""
    client.send(asked)
    client.stream.recv(1)
    client.reset()


def resets(acts, folder):
    """A reset ends one session, and nothing else."""
    service, _ = opened(acts, folder)
    reset_after_an_answer(service.runner(), FETCH + FETCH[:5])
    reset_after_an_answer(service.hook(), served.look(9) + b'GET')
    expect_answers(service.hook(), ((served.event('d1'), 'created 1'),))
    expect_answers(service.runner(), ((FETCH, UNKNOWN),))
    stopped(service)
    return 'two resets, and two clients after them'


def idle(acts, folder):
    """A client of any port that is silent for a second is disconnected: after an answer and half a request, and from the start. Others come after it."""
    views = served.free_port()
    service, _ = opened(acts, folder, idle=1, view_port=views)
    silent = service.hook(), service.runner(), served.Hook(views), served.Hook(views)
    silent[1].send(FETCH + FETCH[:5])
    silent[2].send(HEALTH + HEALTH[:5])
    expect(silent[1].answer()[1] == UNKNOWN and silent[2].answer() == WELL, 'a client has another answer before it is silent')
    begin = time.monotonic()
    for client in silent:
        expect(client.rest() == (b'', True) and time.monotonic() - begin < 20, 'a silent client is not disconnected')
    expect_answers(service.hook(), ((served.event('d1'), 'created 1'),))
    stopped(service)
    return f'{len(silent)} silent clients of three ports are disconnected'


# As many come together as the system keeps in the queue of a port.
SLOTS, TOGETHER, STREAMS = 1024, 256, 3_200


def answer_of(client):
    """Its answer, or what comes in place of one."""
    try:
        return client.answer()
    except (OSError, served.Ended) as none:
        return repr(none)


def ask_each(clients, port, asked, wanted, before=0):
    """Clients ask at once, and each is answered. So many more are connected to the port already."""
    for client in clients:
        client.send(asked)
    for place, client in enumerate(clients, before):
        found = answer_of(client)
        expect(found == wanted, 'client', place, 'of', before + len(clients), 'of the port of', port, 'is answered', found, 'and not', wanted)


def every_slot(acts, folder):
    """As many clients as there are places, on three ports at a time: each asks and is answered, when it has come and when all are there. One more waits until one of them has gone."""
    if not served.room_for_streams(STREAMS):
        return f'left out: no process may have {STREAMS} files open'
    views = served.free_port()
    service, _ = opened(acts, folder, idle=86_400, view_port=views)
    ports = {'senders': (service.hook, served.look(9), (404, UNKNOWN)), 'runners': (service.runner, FETCH, (None, UNKNOWN)), 'viewers': (lambda: served.Hook(views), HEALTH, WELL)}
    crowds = {port: [] for port in ports}
    for port, (come, asked, wanted) in ports.items():
        while len(crowds[port]) < SLOTS:
            some = [come() for _ in range(TOGETHER)]
            ask_each(some, port, asked, wanted, len(crowds[port]))
            crowds[port] += some
    for port, (come, asked, wanted) in ports.items():
        ask_each(crowds[port], port, asked, wanted)
        one_more = come()
        crowds[port].pop().close()
        ask_each([one_more], port, asked, wanted, SLOTS)
        for client in crowds[port]:
            client.close()
    stopped(service)
    return f'{SLOTS} clients on each of {len(ports)} ports at a time, and one more'


FIRST, SECOND = 500, 100


def together(acts, folder):
    """Lines that come at once, more than one turn takes, and more while these are answered. Another client is answered beside them."""
    service, _ = opened(acts, folder)
    runner = service.runner()
    runner.send(FETCH * FIRST)
    expect(runner.answer()[1] == UNKNOWN, 'a fetch has another answer')
    runner.send(FETCH * SECOND)
    expect_answers(service.runner(), ((FETCH, UNKNOWN),))
    left = FIRST + SECOND - 1
    expect(runner.take(left * 11) == b'refused 40\n' * left, 'lines that come at once have other answers')
    stopped(service)
    return f'{FIRST} and {SECOND} lines of one client'


def lost(acts, folder):
    """The device fails at a byte of the file: what was answered stays, the client whose entry is lost is answered 52, and the service ends with 51."""
    path = f'{folder}/store'
    served.init(acts, path, AREA)
    service = served.Forever(acts, path, limits=("trap '' XFSZ",))
    expect(service.ready, 'a service is not ready')
    resource.prlimit(service.child.pid, resource.RLIMIT_FSIZE, (AREA // 2, AREA // 2))
    hook, runner = service.hook(), service.runner()
    expect_answers(hook, ((served.event('d1'), 'created 1'),))
    expect_answers(runner, ((CLAIM, LEASED),))
    hook.send(served.event('d2', served.BODY + b' ' * (AREA // 2)))
    wanted = b'HTTP/1.1 503 Service Unavailable\r\nContent-Type: text/plain\r\nContent-Length: 11\r\nConnection: close\r\n\r\nrefused 52\n'
    found = hook.rest()
    expect(found == (wanted, True), 'the client whose entry is lost gets', found)
    ended = service.end(SECONDS)[:3]
    expect(ended == (1, '', 'acts: refused 51\n'), 'a service whose device fails ends with', ended)
    expect(served.show(acts, path) == ['run 1 1 in_progress - build:open(running)'], 'the file of a service whose device has failed is another one')
    return 'an entry that the device loses is answered 52'


# As many bodies as a session may ask for without its end, each as long as it may be: more than the system takes for a client that reads nothing.
BODIES, BODY = 63, served.BODY.ljust(65_536)
ROOM = 32_768


class Slow(served.Client):
    """A client with little room for what it has not read."""

    def __init__(self, port, asked):
        self.held, self.stream = b'', socket.socket()
        self.stream.setsockopt(socket.SOL_SOCKET, socket.SO_RCVBUF, ROOM)
        self.stream.settimeout(SECONDS)
        self.stream.connect(('127.0.0.1', port))
        self.send(asked)


def with_a_body(acts, folder):
    """A service with a run whose body is the longest, the client that posted it, its view port, and what asks for many bodies on each port, with the answers."""
    views = served.free_port()
    service, _ = opened(acts, folder, view_port=views)
    sender = service.hook()
    expect_answers(sender, ((served.event('d1', BODY), 'created 1'),))
    fields = f'HTTP/1.1 200 OK\r\nContent-Type: application/json\r\nContent-Length: {len(BODY)}\r\n'
    get, seen = b'GET /runs/1/body HTTP/1.1\r\n\r\n', [fields.encode() + more + b'\r\n' + BODY for more in (b'', b'Cache-Control: no-store\r\n')]
    return service, sender, ((service.hooks, get, seen[0]), (service.runners, b'FETCH 1\n', b'body %d\n%s\n' % (len(BODY), BODY)), (views, get, seen[1]))


def read_late(asked):
    """Clients that ask for many bodies and read them late, all at the same time. Whether one was cut off, as one is that gets no processor for a second."""
    readers = [(Slow(port, request * BODIES), wanted) for port, request, wanted in asked]
    time.sleep(0.2)
    try:
        for place in range(BODIES):
            for reader, wanted in readers:
                found = reader.take(len(wanted))
                expect(found == wanted, 'body', place, 'of', BODIES, 'differs, after', found[:100])
    except served.Ended:
        return True
    finally:
        for reader, _ in readers:
            reader.close()
    return False


def full_sockets(acts, folder):
    """What a socket does not take stays for its client, on each port: it reads later, and gets every byte. Others are answered meanwhile."""
    service, sender, asked = with_a_body(acts, folder)
    tries = 1
    while read_late(asked):
        expect(tries < 10, 'clients that read late are cut off, in', tries, 'tries')
        tries += 1
    expect_answers(sender, ((served.look(9), UNKNOWN),))
    stopped(service)
    return f'{BODIES} bodies of {len(BODY)} bytes, read late by a client of each of {len(asked)} ports, in {tries} tries'


def clients_of(views):
    """How many clients each port has, as the metrics say; of the view port without the one that asks."""
    viewer = served.Hook(views)
    page = viewer.ask(b'GET /metrics HTTP/1.1\r\n\r\n')[1]
    viewer.close()
    hook, runner, view = (int(page.split(f'acts_clients{{port="{port}"}} ')[1].split('\n')[0]) for port in ('hook', 'runner', 'view'))
    return hook, runner, view - 1


def gives_back(acts, folder):
    """A client that takes nothing of what it is sent gives its place back, on each port, and so does one that stays after the end of its session."""
    service, sender, asked = with_a_body(acts, folder)
    sender.close()
    views = asked[2][0]
    # (the system may take all that a sender can be sent, which ends its session then; a runner and a viewer can be sent more)
    readers = [Slow(service.hooks, asked[0][1] * 64), Slow(service.runners, asked[1][1] * 1024), Slow(views, b'GET /backup HTTP/1.1\r\n\r\n')]
    stays = [Slow(port, request) for port, request in ((service.hooks, b'GET\r\n\r\n'), (service.runners, b'x' * 512), (views, b'GET\r\n\r\n'))]
    begin = time.monotonic()
    while (left := clients_of(views)) != (0, 0, 0):
        expect(time.monotonic() - begin < SECONDS, 'of clients that read nothing, and of those that stay after their end, the ports have', left, 'after', SECONDS, 's')
        time.sleep(0.1)
    for client in readers + stays:
        client.close()
    stopped(service)
    return f'{len(readers)} clients that read nothing and {len(stays)} that stay after their end are disconnected'


def lost_claim(acts, folder):
    """The device fails as a claim is made durable: the runner is answered 52, and not with the lease that the device has lost."""
    path = f'{folder}/store'
    served.init(acts, path, AREA)
    service = served.Forever(acts, path, limits=("trap '' XFSZ",))
    expect(service.ready, 'a service is not ready')
    hook, runner = service.hook(), service.runner()
    expect_answers(hook, ((served.event('d1'), 'created 1'),))
    expect_answers(runner, ((FETCH, UNKNOWN),))
    resource.prlimit(service.child.pid, resource.RLIMIT_FSIZE, (1, 1))
    runner.send(CLAIM)
    found = runner.rest()
    expect(found == (b'refused 52\n', True), 'the runner whose claim is lost gets', found)
    ended = service.end(SECONDS)[:3]
    expect(ended == (1, '', 'acts: refused 51\n'), 'a service whose device fails ends with', ended)
    expect(served.show(acts, path) == ['run 1 1 queued - build:open(ready)'], 'the file of a service whose device has failed is another one')
    return 'a claim that the device loses is answered 52'


CREATED = 'HTTP/1.1 201 Created\r\nContent-Type: text/plain\r\nContent-Length: 10\r\n{}\r\ncreated 1\n'
CLOSES = 'Connection: close\r\n'
TOO_LONG = b'POST /events HTTP/1.1\r\nX-GitHub-Delivery: d2\r\nX-GitHub-Event: push\r\nContent-Length: 65537\r\n\r\n'
# What ends a session of requests, and the whole answer: a request that closes it, a body that is too long, and a head that is none.
HOOKS = ((served.event('d1').replace(b'Content-Length', b'Connection: close\r\nContent-Length'), CREATED.format(CLOSES)),
         (served.event('d1') + TOO_LONG, CREATED.format('') + 'HTTP/1.1 413 Payload Too Large\r\nContent-Type: text/plain\r\nContent-Length: 11\r\n'
          + CLOSES + '\r\nrefused 24\n'),
         (b'GET\r\n\r\n', 'HTTP/1.1 400 Bad Request\r\nContent-Type: text/plain\r\nContent-Length: 11\r\n' + CLOSES + '\r\nrefused 70\n'))
# Three lines; what is sent after them is a line that is too long.
RUNNERS = ((FETCH * 3, 'refused 40\n' * 3 + 'refused 75\n'),)
EXTRA = b'x' * 262_144
ROUNDS, TRIES = 24, 5


def has_ended(client, asked, wanted):
    """Ends a session and sends more: the client gets exactly this answer, and then the end of the stream without a reset."""
    client.send(asked + EXTRA)
    found = client.rest()
    expect(found == (wanted.encode(), True), 'a client that has ended its session gets', found)


def end_sessions(client_of, ends, read):
    """Ends a session in each round, and counts in `read` those on which more can be sent after the end."""
    for turn in range(ROUNDS):
        client = client_of()
        has_ended(client, *ends[turn % len(ends)])
        try:
            client.send(EXTRA)
            read.append(turn)
        except served.Ended:
            pass
        client.close()


def last_answers(acts, folder):
    """Whatever a client sends after the end of its session, it gets its last answers. At least half of what is sent then is read, in one of some
    tries: the service closes a client that gets no processor for a quarter of a second."""
    for _ in range(TRIES):
        hooks, runners = sessions_that_end(acts, f'{folder}/store')
        if min(hooks, runners) >= ROUNDS // 2:
            return f'{ROUNDS} sessions on each port that end and go on sending'
    expect(False, 'after its end a session reads', hooks, runners, 'of', ROUNDS, 'times')


def sessions_that_end(acts, path):
    """Ends sessions on both ports, and gives on how many of each more was read."""
    served.init(acts, path, AREA)
    service = served.Service(acts, path, 1, rounds=ROUNDS)
    expect(service.ready, 'a service is not ready')
    hooks, runners = [], []
    at_once((lambda: end_sessions(service.hook, HOOKS, hooks), lambda: end_sessions(service.runner, RUNNERS, runners)), SECONDS)
    ended = service.end(SECONDS)[:3]
    expect(ended == (0, 'settled 4\nsettled 4\nsettled 3\n' * (ROUNDS // 3), ''), 'rounds of sessions that end so end with', ended)
    return len(hooks), len(runners)


def stays(acts, folder):
    """A client that does not close its stream after its session, and one that sends for as long as it can, hold no place in a round."""
    path = f'{folder}/store'
    served.init(acts, path, AREA)
    service = served.Service(acts, path, 1)
    expect(service.ready, 'a service is not ready')
    stays_open, sends_on = service.hook(), service.runner()

    def send_on():
        try:
            for _ in range(256):
                sends_on.send(EXTRA)
        except served.Ended:
            return
        expect(False, 'a line without an end is read to its 67,108,864th byte')

    at_once((lambda: has_ended(stays_open, *HOOKS[0]), send_on), SECONDS)
    ended = service.end(SECONDS)[:3]
    expect(ended == (0, 'settled 1\n', ''), 'a round with clients that do not close ends with', ended)
    return 'two clients that do not close their streams'


def failed_stream(acts, folder):
    """A stream that is reset ends no round: the rounds after it are served, and then the service says that a stream has failed."""
    path = f'{folder}/store'
    served.init(acts, path, AREA)
    service = served.Service(acts, path, 1, rounds=3)
    expect(service.ready, 'a service is not ready')
    for turn in range(3):
        hook, runner = service.hook(), service.runner()
        expect_answers(hook, ((served.event('d1'), 'created 1'),))
        hook.close()
        if turn == 0:
            reset_after_an_answer(runner, FETCH + FETCH[:5])
        else:
            expect_answers(runner, ((FETCH, UNKNOWN) if turn == 1 else (CLAIM, LEASED),))
            runner.close()
    ended = service.end(SECONDS)[:3]
    expect(ended == (1, 'settled 2\n' * 3, is_refused(61)[2]), 'three rounds, of which one stream fails, end with', ended)
    return 'three rounds, of which one stream fails'


CHECKS = silent, over_histories, keeps_runs, resets, idle, every_slot, together, lost, lost_claim, full_sockets, gives_back, last_answers, stays, failed_stream
