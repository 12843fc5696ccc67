"""Readers of `/changes` that have gone, and many that wait beside a slow device.

1,030 readers wait for changes and hang up, half of them by a reset: a look at `/healthz` is answered within SOON seconds. A reader that has closed its side alone
is answered at once, also where it did so before its request was taken. A wait ends once its time has come. Beside commits of COMMIT seconds 200 readers follow the
changes, each over a new stream for each answer, and one more, which waits for WAIT seconds, is answered within two commits.
"""

import itertools
import json
import socket
import threading
import time

from checking import expect, served
from slow_device import SlowService

READERS, SLOTS = 1_030, 1_024
SOON, LATE = 1.0, 0.5
# A commit has two syncs.
FOLLOWERS, COMMIT, WAIT, ASKED = 200, 6, 5, 3


def request(cursor, wait, field=''):
    return f'GET /changes?after={cursor}&wait={wait} HTTP/1.1\r\n{field}\r\n'.encode()


def cursor_of(body):
    return json.loads(body.splitlines()[-1])['cursor']


def present(slow):
    """The cursor of the present."""
    status, body = slow.look('/changes')
    expect(status == 200, 'the present is', status, body)
    return cursor_of(body)


def timed(ask):
    """What is answered, and after how long."""
    start = time.monotonic()
    return ask(), time.monotonic() - start


def waiting_readers(slow, cursor):
    """As many readers as come, each of which waits for a minute, unless there is no slot for it."""
    readers = []
    for _ in range(READERS):
        readers.append(slow.viewer())
        readers[-1].send(request(cursor, 60))
    end = time.monotonic() + 30
    while slow.service.descriptors() < SLOTS and time.monotonic() < end:
        time.sleep(0.05)
    time.sleep(0.5)
    return readers


def hung_up(slow):
    for place, reader in enumerate(waiting_readers(slow, present(slow))):
        if place % 2:
            reader.reset()
        else:
            reader.close()
    try:
        (status, body), took = timed(lambda: slow.look('/healthz', 10))
    except TimeoutError:
        status, body, took = None, 'nothing for 10 s', 10.0
    expect((status, body) == (200, 'ok') and took < SOON, f'after {READERS} readers have hung up, /healthz is answered {status} {body} after {took:.1f} s')
    return f'{READERS} readers of /changes hang up: /healthz is answered after {1000 * took:.0f} ms'


def half_closed(slow):
    """One that closes its side before its request is taken, and one that does while it waits."""
    slowest = 0.0
    for pause in (0.0, 0.3):
        cursor, reader = present(slow), slow.viewer()
        reader.send(request(cursor, 60))
        time.sleep(pause)
        reader.stream.shutdown(socket.SHUT_WR)
        (status, body), took = timed(reader.answer)
        expect(status == 200 and cursor_of(body) == cursor and took < SOON, f'a reader that has closed its side is answered {status} {body} after {took:.1f} s')
        expect(reader.rest() == (b'', True), 'after its answer the stream does not end')
        reader.close()
        slowest = max(slowest, took)
    return f'a reader that has closed its side is answered after {1000 * slowest:.0f} ms at the longest'


def in_time(slow):
    """Waits of a second each, by one reader."""
    reader, latest = slow.viewer(), 0.0
    for _ in range(5):
        (status, _), took = timed(lambda: reader.ask(request(present(slow), 1)))
        expect(status == 200 and 1 <= took < 1 + LATE, f'a wait of a second ends after {took:.2f} s, with {status}')
        latest = max(latest, took - 1)
    reader.close()
    return f'a wait ends {1000 * latest:.0f} ms late at the longest'


def follow(slow, over):
    """Follows the changes, over a new stream for each answer."""
    cursor = None
    while not over.is_set():
        try:
            cursor = cursor or present(slow)
            reader = slow.viewer(120)
            cursor = cursor_of(reader.ask(request(cursor, 60, 'Connection: close\r\n'))[1])
            reader.close()
        except (OSError, served.Ended):
            pass


def beside_followers(slow):
    over = threading.Event()
    for _ in range(FOLLOWERS):
        threading.Thread(target=follow, args=(slow, over), daemon=True).start()
    time.sleep(0.5)
    slow.takes(COMMIT / 2)
    slow.keep_busy()
    for _ in range(2):
        slow.wait_sync()
    longest, cursor = 0.0, present(slow)
    try:
        for _ in range(ASKED):
            (status, body), took = timed(lambda: slow.look(f'/changes?after={cursor}&wait={WAIT}', 120))
            expect(status == 200, 'changes', status, body)
            cursor, longest = cursor_of(body), max(longest, took)
    finally:
        over.set()
    told = f'beside {FOLLOWERS} readers and commits of {COMMIT} s one that waits for {WAIT} s is answered after {longest:.1f} s at the longest'
    expect(longest < 2 * COMMIT, told)
    return told


def check(acts, folder, amount):
    if not served.room_for_streams(2_500):
        yield 'left out, since there is no room for the streams'
        return
    for name, part in enumerate((hung_up, half_closed, in_time, beside_followers)):
        slow = SlowService(acts, f'{folder}/{name}')
        try:
            yield part(slow)
        finally:
            slow.stop()
