"""A thousand clients on each port: each is answered, sixteen busy ones get about the same share, and the others are not forgotten."""

import threading
import time

from checking import expect, at_once, milliseconds, opened, served, stopped

CLIENTS, BUSY, SECONDS = 1000, 16, 3
# Commands, so that histories turn over meanwhile.
TURN_OVER = 3000
ASKS = {'runner': (b'FETCH 999999999\n', (None, 'refused 40'), 1024), 'hook': (b'GET /runs/999999999 HTTP/1.1\r\n\r\n', (404, 'refused 40'), 64)}


def ask_each(clients, port):
    """Each asks once, one after the other. How long the slowest waited for its answer."""
    what, wanted, _ = ASKS[port]
    slowest = 0.0
    for client in clients:
        start = time.monotonic()
        answer = client.ask(what)
        slowest = max(slowest, time.monotonic() - start)
        expect(answer == wanted, 'a client is answered', answer)
    return slowest


class Busy:
    """A client that asks all the time, so many things at once, in one session after the other."""

    def __init__(self, service, port, client, ahead, over):
        self.service, self.port, self.client, self.ahead, self.over, self.answers = service, port, client, ahead, over, 0
        # It may have asked once before.
        self.turns = 1

    def run(self):
        what, wanted, most = ASKS[self.port]
        while not self.over.is_set():
            count = min(self.ahead, most - self.turns)
            self.client.send(what * (count - 1))
            for place in range(count):
                answer = self.client.ask(what if place == 0 else b'')
                expect(answer == wanted, 'a busy client is answered', answer)
                self.answers += not self.over.is_set()
            self.turns += count
            if self.turns == most:
                self.client.close()
                self.client, self.turns = getattr(self.service, self.port)(), 0


def busy_ones(service, clients, port, ahead):
    """Keeps the first clients busy for some seconds, while others ask now and then."""
    over, busy, slowest = threading.Event(), [], [0.0]
    busy = [Busy(service, port, client, ahead, over) for client in clients[:BUSY]]

    def others():
        place = BUSY
        while not over.is_set():
            slowest[0] = max(slowest[0], ask_each(clients[place:place + 1], port))
            place = place + 1 if place + 1 < len(clients) else BUSY
            time.sleep(0.01)

    timer = threading.Timer(SECONDS, over.set)
    timer.start()
    at_once([it.run for it in busy] + [others], SECONDS + 30)
    for place, it in enumerate(busy):
        it.client.close()
        clients[place] = getattr(service, port)()
    counts = [it.answers for it in busy]
    expect(min(counts) * 10 >= max(counts), port, 'busy ones that ask', ahead, 'at a time are answered', counts, 'times')
    return min(counts), max(counts), slowest[0]


def check(acts, folder, amount):
    room = served.room_for_streams(2 * CLIENTS + 200)
    clients = CLIENTS if room else 400
    service, _ = opened(acts, folder, turn_over=TURN_OVER)
    crowd = {port: [] for port in ASKS}
    for _ in range(clients):
        for port, those in crowd.items():
            those.append(getattr(service, port)())
    for port, those in crowd.items():
        start = time.monotonic()
        slowest = ask_each(those, port)
        yield f'{port}: each of {clients} clients is answered, in {time.monotonic() - start:.2f} s, {milliseconds(slowest)} at the longest'
    for port, those in crowd.items():
        for ahead in (1, 32):
            fewest, most, slowest = busy_ones(service, those, port, ahead)
            yield (f'{port}: {BUSY} busy ones that ask {ahead} at a time are answered {fewest} to {most} times in {SECONDS} s, '
                   f'{fewest / most:.2f} of one another; others {milliseconds(slowest)} at the longest')
    for port, those in crowd.items():
        slowest = ask_each(those[BUSY:], port)
        yield f'{port}: each of the {clients - BUSY} others is answered once more, {milliseconds(slowest)} at the longest; {len(service.settled)} histories'
    expect(len(service.settled) > 0, 'no history has turned over')
    for those in crowd.values():
        for client in those:
            client.close()
    stopped(service)
