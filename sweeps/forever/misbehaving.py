"""Clients that misbehave, a crowd of each kind on both ports beside eight good ones, over one service; and one of a kind beside one
other. The good ones are answered within seconds, each crowd is disconnected, and the service goes on.
"""

import os
import socket
import threading
import time

from checking import at_once, expect, milliseconds, opened, served, stopped

GOOD, TURNS, PAUSE = 4, 30, 0.03
BIG = served.BODY + b' ' * 60_000


class Crowd:
    """Clients that misbehave, on one port, until `over`."""

    def __init__(self, service, port, over):
        self.service, self.port, self.over = service, port, over
        self.request = served.event(f'x-{port}') if port == 'hook' else b'CLAIM x 1 none\n'
        self.last = (b'GET /nowhere HTTP/1.1\r\nConnection: close\r\n\r\n', b'refused 72\n') if port == 'hook' else (b'x' * 512, b'refused 75\n')

    def come(self):
        return getattr(self.service, self.port)()

    def say_nothing(self):
        client = self.come()
        self.over.wait(30)
        client.close()

    def reset(self):
        """Halves of requests, one after the other, each with a reset."""
        while not self.over.is_set():
            client = self.come()
            client.send(self.request[:len(self.request) // 2])
            time.sleep(0.02)
            client.reset()

    def reset_afterwards(self):
        """A reset instead of reading the answer."""
        while not self.over.is_set():
            client = self.come()
            client.send((b'GET /runs/1 HTTP/1.1\r\n\r\n' if self.port == 'hook' else b'FETCH 1\n') * 5)
            client.reset()
            time.sleep(0.2)

    def close_at_once(self):
        while not self.over.is_set():
            self.come().close()
            time.sleep(0.005)

    def dribble(self):
        """A byte now and then, and the end of the stream before the end of the request."""
        client = self.come()
        for byte in self.request[:-1]:
            client.send(bytes([byte]))
            if self.over.wait(0.05):
                break
        client.close()

    def half_close(self):
        """The sending half is closed after a request: it is answered, and then the stream ends."""
        while not self.over.is_set():
            client = self.come()
            client.send(b'GET /runs/999 HTTP/1.1\r\n\r\n' if self.port == 'hook' else b'FETCH 999\n')
            client.stream.shutdown(socket.SHUT_WR)
            got, whole = client.rest()
            expect(got.endswith(b'refused 40\n') and whole, 'after the end of its sending half a client was given', got, '' if whole else 'and a reset')
            client.close()
            time.sleep(0.01)

    def send_afterwards(self):
        """The end of the session, and then many bytes that nobody answers."""
        last, answer = self.last
        while not self.over.is_set():
            client = self.come()
            client.send(last + b'x' * 262_144)
            got, whole = client.rest()
            expect(got.endswith(answer) and got.count(b'refused') == 1 and whole, 'after its end a session was given', got[-200:], '' if whole else 'and a reset')
            client.close()

    def stay(self):
        """The end of the session, and then bytes for as long as it can."""
        last, answer = self.last
        client = self.come()
        client.send(last)
        client.until(answer)
        expect(client.stream.recv(1) == b'', 'more than one answer')
        try:
            while not self.over.is_set():
                client.send(b'x' * 100)
                time.sleep(0.02)
        except served.Ended:
            pass
        client.close()

    def never_read(self):
        """Asks for 4 MiB and more, and reads nothing of it."""
        client = unread(self.service, self.port)
        self.over.wait(30)
        client.close()


def unread(service, port):
    """A client that asks for much and has little room for it. Run 1 has to be there, with a body of 60,000 bytes."""
    client = served.Hook.__new__(served.Hook)
    client.held, client.stream = b'', socket.socket()
    client.stream.setsockopt(socket.SOL_SOCKET, socket.SO_RCVBUF, 4096)
    client.stream.settimeout(20)
    client.stream.connect(('127.0.0.1', service.hooks if port == 'hook' else service.runners))
    client.send(b'GET /runs/1/body HTTP/1.1\r\n\r\n' * 64 if port == 'hook' else b'FETCH 1\n' * 1024)
    return client


def behave(service, port, name, longest, slowest):
    """Asks now and then, and is answered soon."""
    client = getattr(service, port)()
    for turn in range(1, TURNS + 1):
        start = time.monotonic()
        status, answer = client.ask(served.event(f'{name}-{turn}') if port == 'hook' else f'CLAIM {name} {turn} none\n'.encode())
        took = time.monotonic() - start
        expect(answer.startswith('created ') if port == 'hook' else answer == 'nothing', name, 'is answered', status, answer)
        expect(took < longest, name, 'was answered after', milliseconds(took))
        slowest.append(took)
        time.sleep(PAUSE)
    client.close()


def meet(service, kind, count, longest):
    """A crowd of a kind, so many on each port, beside the good ones. How long the slowest of these waited."""
    over, slowest, faults = threading.Event(), [], []

    def misbehave(crowd):
        try:
            getattr(crowd, kind)()
        except (served.Ended, OSError):
            pass
        except Exception as fault:
            faults.append(fault)

    crowd = [threading.Thread(target=misbehave, args=(Crowd(service, port, over),), daemon=True) for port in ('hook', 'runner') for _ in range(count)]
    for it in crowd:
        it.start()
    time.sleep(0.2)
    try:
        at_once([lambda port=port, name=f'{kind.replace("_", "-")}-{port}{place}': behave(service, port, name, longest, slowest)
                 for port in ('hook', 'runner') for place in range(GOOD)], 60)
    finally:
        over.set()
    for it in crowd:
        it.join(45)
    expect(not any(it.is_alive() for it in crowd), kind, 'goes on without an end')
    expect(not faults, kind, *faults[:1])
    return max(slowest)


def stay_until_cut_off(service):
    """How long one on each port can go on after the end of its session, which is less than 40 seconds."""
    took, over = [], threading.Event()

    def stay(port):
        start = time.monotonic()
        Crowd(service, port, over).stay()
        expect(not over.is_set(), port, 'goes on after the end of its session for 40 seconds')
        took.append(time.monotonic() - start)

    timer = threading.Timer(40, over.set)
    timer.start()
    at_once([lambda port=port: stay(port) for port in ('hook', 'runner')], 50)
    timer.cancel()
    return sorted(took)


def ask_beside(acts, folder, kind, longest):
    """There is one client on each port that misbehaves. How long another one waits for its answer."""
    service, _ = opened(acts, folder)
    hook = service.hook()
    expect(hook.ask(served.event('big', BIG))[0] == 201, 'an event')
    hook.close()
    waits = []
    for port in ('hook', 'runner'):
        client = getattr(service, port)()
        client.ask(b'GET /runs/9 HTTP/1.1\r\n\r\n' if port == 'hook' else b'FETCH 9\n')
        over = threading.Event()
        thread = threading.Thread(target=lambda port=port, over=over: swallow(getattr(Crowd(service, port, over), kind)), daemon=True)
        thread.start()
        time.sleep(0.1)
        for _ in range(3):
            start = time.monotonic()
            client.ask(b'GET /runs/9 HTTP/1.1\r\n\r\n' if port == 'hook' else b'FETCH 9\n')
            waits.append(time.monotonic() - start)
        over.set()
        thread.join(45)
        client.close()
    stopped(service)
    expect(max(waits) < longest, 'beside one that does', kind, 'another one waits for', milliseconds(max(waits)))
    return max(waits)


def swallow(misbehave):
    try:
        misbehave()
    except (served.Ended, OSError):
        pass


def check(acts, folder, amount):
    service, path = opened(acts, folder, area=64 << 20, turn_over=500)
    hook = service.hook()
    expect(hook.ask(served.event('big', BIG)) == (201, 'created 1'), 'an event')
    hook.close()
    kinds = (('say_nothing', 100), ('close_at_once', 8), ('reset', 16), ('reset_afterwards', 4), ('dribble', 40), ('half_close', 8), ('send_afterwards', 8),
             ('stay', 8), ('never_read', 2))
    for kind, count in kinds:
        slowest = meet(service, kind, count, amount.longest)
        yield f'{2 * count} that {kind.replace("_", " ")}: eight good clients were answered {2 * GOOD * TURNS} times, {milliseconds(slowest)} at the longest'
    one, other = stay_until_cut_off(service)
    yield f'two that stay after the end of their session were cut off after {one:.1f} and {other:.1f} s'
    stopped(service)
    runs = len(served.show(acts, path))
    expect(runs == 1 + len(kinds) * GOOD * TURNS, runs, 'runs in the file')
    for kind in ('stay', 'send_afterwards', 'never_read'):
        os.remove(path)
        wait = milliseconds(ask_beside(acts, folder, kind, amount.longest))
        yield f'one that does {kind.replace("_", " ")} alone: another one waits for {wait} at the longest'
