"""When a history turns over: after so many commands, or after 64 MiB of bodies that were sent or answered; and the printed number of its entries."""

import os
import time

from checking import at_once, expect, opened, served, stopped

TURN_OVER, COMMANDS, CLIENTS = 100, 1000, 8
BODY = served.BODY + b' ' * 60_000
# The bytes after which a history turns over, and how much later it may.
BYTES, MORE = 64 << 20, 8 << 20


def by_commands(acts, folder):
    """Eight clients ask a thousand commands together. No history has fewer than it may have, and all of them together have all that was asked."""
    service, _ = opened(acts, folder, turn_over=TURN_OVER)

    def ask():
        client = service.runner()
        for _ in range(COMMANDS // CLIENTS):
            expect(client.ask(b'BEAT nobody 1\n') == (None, 'refused 45'), 'a beat')
        client.close()

    at_once([ask] * CLIENTS, 60)
    expect(service.wait_settled(1), 'no history has turned over')
    time.sleep(0.5)
    settled = list(service.settled)
    # A history turns over at the end of a turn, which takes 16 commands of each client at most.
    most = TURN_OVER + 16 * CLIENTS
    expect(all(TURN_OVER <= count <= most for count in settled), 'histories of', settled, 'entries')
    expect(0 <= COMMANDS - sum(settled) <= most, COMMANDS, 'commands in histories of', settled, 'entries')
    stopped(service)
    left = COMMANDS - sum(settled)
    return f'{COMMANDS} commands of {CLIENTS} clients: {len(settled)} histories of {min(settled)} to {max(settled)} entries, and {left} in the last'


def events(service):
    """Posts the same event again and again, 64 times in a session."""
    client = service.hook()
    for _ in range(64):
        expect(client.ask(served.event('d1', BODY)) == (201, 'created 1'), 'an event')
    client.close()
    return 64


def bodies(service):
    """Asks for the body of that event again and again."""
    client, wanted = service.runner(), b'body %d\n' % len(BODY) + BODY + b'\n'
    for _ in range(64):
        client.send(b'FETCH 1\n')
        expect(client.take(len(wanted)) == wanted, 'a body')
    client.close()
    return 64


def by_bytes(acts, folder, what):
    """Bodies of 60,000 bytes are sent, or asked for, until a history turns over. Otherwise what it keeps of them would take all memory."""
    service, path = opened(acts, folder, area=64 << 20)
    hook = service.hook()
    expect(hook.ask(served.event('d1', BODY)) == (201, 'created 1'), 'an event')
    hook.close()
    asked = 1
    while not service.settled and asked * len(BODY) < BYTES + MORE:
        asked += what(service)
    expect(service.wait_settled(1, 5), 'no history has turned over after', asked * len(BODY), 'bytes of', what.__name__)
    first = service.settled[0] * len(BODY)
    expect(BYTES - MORE <= first <= BYTES + MORE, 'a history turned over after', first, 'bytes of', what.__name__)
    stopped(service)
    expect(len(served.show(acts, path)) == 1, 'a second run')
    os.remove(path)
    return f'{what.__name__} of {len(BODY)} bytes: a history turned over after {service.settled[0]} of them, {first / (1 << 20):.1f} MiB'


def check(acts, folder, amount):
    yield by_commands(acts, folder)
    yield by_bytes(acts, folder, events)
    yield by_bytes(acts, folder, bodies)
