"""A device that takes seconds for a sync (`slow_sync.c`) cuts off no client that takes what it is sent and says what it has to say.

- A reader of `/backup` has taken all that it was sent when a sync of 7 s begins, and reads on.
- A reader of 63 bodies reads steadily beside syncs of 3 s.
- With `--idle 2` a client of each port that was silent for a second asks during a sync of 4 s.
- Of each port one that reads nothing is disconnected nevertheless, beside syncs of a second.
"""

import socket
import threading
import time

from checking import expect, milliseconds, served
from slow_device import SlowService

AREA = 4 << 20
# As many as a session may ask for without its end, each as long as it may be: more than the system takes for a client that reads nothing.
BODIES, BODY = 63, served.BODY.ljust(65_536)
ROOM, PAUSE = 32_768, 0.01
# The most seconds after which those that read nothing have no streams any more.
LATEST = 40


class Steady(served.Hook):
    """A client that reads a piece now and then, some MB a second. It has little room for what it has not read yet."""

    def __init__(self, port):
        self.held, self.stream = b'', socket.socket()
        self.stream.setsockopt(socket.SOL_SOCKET, socket.SO_RCVBUF, ROOM)
        self.stream.settimeout(60)
        self.stream.connect(('127.0.0.1', port))

    def more(self):
        time.sleep(PAUSE)
        super().more()


def posted(slow, name, body=served.BODY):
    hook = slow.service.hook()
    status, answer = hook.ask(served.event(name, body))
    expect(status == 201, 'an event is answered', status, answer)
    hook.close()


def post_slowly(slow, name, seconds):
    """An event whose sync takes so long. It has begun, and the next one takes no time."""
    slow.takes(seconds)
    thread = threading.Thread(target=posted, args=(slow, name))
    thread.start()
    slow.wait_sync()
    slow.takes(0)
    return thread


def reads_a_backup(slow):
    reader, start = Steady(slow.view_port), time.monotonic()
    reader.send(b'GET /backup HTTP/1.1\r\n\r\n')
    reader.until(b'\r\n\r\n')
    time.sleep(0.3)
    thread = post_slowly(slow, 'slow', 7)
    try:
        length = len(reader.take(2 * AREA))
    except served.Ended as end:
        length = len(end.args[0])
    expect(length == 2 * AREA, f'a reader of /backup beside a sync of 7 s got {length} bytes of {2 * AREA}')
    thread.join()
    reader.close()
    return f'a reader of /backup beside a sync of 7 s got all {length} bytes in {time.monotonic() - start:.1f} s'


def reads_bodies(slow):
    posted(slow, 'big', BODY)
    reader, start, count = Steady(slow.service.hooks), time.monotonic(), 0
    reader.send(b'GET /runs/1/body HTTP/1.1\r\n\r\n' * BODIES)
    time.sleep(0.3)
    slow.takes(3)
    slow.keep_busy()
    slow.wait_sync()
    try:
        while count < BODIES:
            expect(reader.answer() == (200, BODY.decode()), 'another body')
            count += 1
            if count == 50:
                slow.takes(0)
    except served.Ended:
        pass
    expect(count == BODIES, f'a reader of {BODIES} bodies beside syncs of 3 s got {count}')
    reader.close()
    return f'a reader of {BODIES} bodies beside syncs of 3 s got all in {time.monotonic() - start:.1f} s'


def answer_of(client):
    try:
        return client.answer()
    except (served.Ended, OSError) as end:
        return repr(end)


def ask_meanwhile(slow):
    asked = ((slow.service.hook(), b'GET /runs/9 HTTP/1.1\r\n\r\n', (404, 'refused 40')), (slow.service.runner(), b'BEAT nobody 1\n', (None, 'refused 45')),
             (slow.viewer(), b'GET /healthz HTTP/1.1\r\n\r\n', (200, 'ok')))
    for client, what, wanted in asked:
        expect(client.ask(what) == wanted, what, 'is answered otherwise')
    time.sleep(1)
    thread = post_slowly(slow, 'slow', 4)
    time.sleep(0.5)
    for client, what, _ in asked:
        client.send(what)
    for client, what, wanted in asked:
        answer = answer_of(client)
        expect(answer == wanted, 'with --idle 2', what, 'during a sync of 4 s is answered', answer)
        client.close()
    thread.join()
    return f'with --idle 2 clients of {len(asked)} ports that asked during a sync of 4 s are answered'


def clients(slow):
    """How many clients the hook port and the view port have, but for the one that asks."""
    metrics = slow.look('/metrics')[1]
    hook, view = (int(metrics.split(f'acts_clients{{port="{port}"}} ')[1].split('\n')[0]) for port in ('hook', 'view'))
    return hook, view - 1


def reads_nothing(slow):
    posted(slow, 'big', BODY)
    readers = [Steady(slow.service.hooks), Steady(slow.view_port)]
    readers[0].send(b'GET /runs/1/body HTTP/1.1\r\n\r\n' * BODIES)
    readers[1].send(b'GET /backup HTTP/1.1\r\n\r\n')
    time.sleep(0.3)
    start = time.monotonic()
    expect(clients(slow) == (1, 1), 'there are other clients than two that read nothing')
    slow.takes(1)
    slow.keep_busy()
    while clients(slow) != (0, 0):
        expect(time.monotonic() - start < LATEST, 'beside syncs of a second clients that read nothing have their streams after', LATEST, 'seconds')
    for reader in readers:
        reader.close()
    return f'beside syncs of a second two that read nothing have no streams after {milliseconds(time.monotonic() - start)}'


def check(acts, folder, amount):
    for part, how in ((reads_a_backup, {'area': AREA}), (reads_bodies, {}), (ask_meanwhile, {'idle': 2}), (reads_nothing, {'area': AREA})):
        slow = SlowService(acts, f'{folder}/{part.__name__}', **how)
        try:
            yield part(slow)
        finally:
            slow.stop()
