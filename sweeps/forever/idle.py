"""`--idle 2`: a client that says nothing for two seconds is disconnected, as at the end of its input, and no other is."""

import time

from checking import at_once, expect, opened, served, stopped

IDLE, SECONDS = 2, 7
# The earliest and the latest end of a silent client, in seconds.
EARLIEST, LATEST = 1.8, 4.5


def check(acts, folder, amount):
    service, path = opened(acts, folder, idle=IDLE)
    ends = []

    def let_go(client, said):
        """Says something, or a part of it, and then nothing."""
        if said:
            client.send(said)
            if said.endswith(b'\n'):
                client.until(b'\n')
        start = time.monotonic()
        got, whole = client.rest()
        took = time.monotonic() - start
        expect(got == b'' and whole, 'a silent one was given', got, '' if whole else 'and a reset')
        expect(EARLIEST <= took <= LATEST, 'a silent one was let go after', f'{took:.1f} s')
        ends.append(took)
        client.close()

    def goes_on(client, what, answer, pause):
        """Asks now and then, with pauses shorter than the limit; or sends a byte at a time."""
        start, asked = time.monotonic(), 0
        while time.monotonic() - start < SECONDS:
            pieces = [what] if pause else [bytes([byte]) for byte in what]
            for piece in pieces:
                client.send(piece)
                time.sleep(pause or IDLE / 4)
            got = client.until(b'\n') if answer.startswith(b'refused') else client.take(len(answer))
            expect(got == answer, 'a busy one was answered', got)
            asked += 1
        client.close()

    look = b'GET /runs/9 HTTP/1.1\r\n\r\n'
    seen = b'HTTP/1.1 404 Not Found\r\nContent-Type: text/plain\r\nContent-Length: 11\r\n\r\nrefused 40\n'
    tasks = [lambda said=said: let_go(service.runner(), said) for said in (b'', b'BEAT r', b'BEAT nobody 1\n')]
    tasks += [lambda said=said: let_go(service.hook(), said) for said in (b'', look[:9], served.event('d1')[:-3])]
    tasks += [lambda: goes_on(service.runner(), b'BEAT nobody 1\n', b'refused 45\n', IDLE / 2), lambda: goes_on(service.hook(), look, seen, IDLE / 2)]
    tasks += [lambda: goes_on(service.runner(), b'BEAT r 1\n', b'refused 45\n', 0)]
    at_once(tasks, 60)
    stopped(service)
    expect(served.show(acts, path) == [], 'a run of half an event')
    yield f'{len(ends)} silent clients were let go after {min(ends):.1f} to {max(ends):.1f} s; three that went on for {SECONDS} s and more were not'
