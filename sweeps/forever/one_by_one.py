"""Two hundred connections one after the other beside 24 silent clients: nobody holds them up, and the silent ones are answered after them."""

import time

from checking import expect, milliseconds, opened, served, stopped

SILENT, CONNECTIONS = 24, 200
# The longest that one may take, in seconds, and all of them.
ONE, ALL = 2, 20


def check(acts, folder, amount):
    service, _ = opened(acts, folder)
    # Half of those on each port have said nothing, and half of them a part of something.
    silent = []
    for place in range(SILENT // 2):
        for client, data in ((service.hook(), served.event(f'silent{place}')), (service.runner(), f'BEAT silent{place} 1\n'.encode())):
            cut = 0 if place % 2 == 0 else len(data) // 2
            client.send(data[:cut])
            silent.append((client, data[cut:]))
    slowest, begin = 0.0, time.monotonic()
    for place in range(CONNECTIONS):
        start = time.monotonic()
        client = service.hook() if place % 2 == 0 else service.runner()
        answer = client.ask(served.event(f'd{place}') if place % 2 == 0 else f'CLAIM r{place} 1 none\n'.encode())
        expect(answer == ((201, f'created {place // 2 + 1}') if place % 2 == 0 else (None, 'nothing')), 'connection', place, 'is answered', answer)
        client.close()
        took = time.monotonic() - start
        expect(took < ONE, 'connection', place, 'took', milliseconds(took))
        slowest = max(slowest, took)
    took = time.monotonic() - begin
    expect(took < ALL, CONNECTIONS, 'connections took', milliseconds(took))
    for place, (client, rest) in enumerate(silent):
        answer = client.ask(rest)
        expect(answer == ((201, f'created {CONNECTIONS // 2 + place // 2 + 1}') if place % 2 == 0 else (None, 'refused 45')), 'a silent one is answered', answer)
        client.close()
    stopped(service)
    yield f'{CONNECTIONS} connections beside {SILENT} silent clients in {took:.2f} s, {milliseconds(slowest)} at the longest; the silent ones are answered then'
