"""How long a line of a runner takes through the hub, and how long without it: medians of 50 to 100 of each, in turns.

    ACTS=PROGRAM tests/measure_claims.py"""
from __future__ import annotations

import os
import pathlib
import statistics
import sys
import tempfile
import time
from collections.abc import Callable

sys.path.insert(0, os.path.dirname(os.path.abspath(__file__)))
from harness import HubProcess, Service, body_of
from wires import Wire

COUNT = 100


def took(call: Callable[[], object]) -> float:
    """Milliseconds of a call."""
    began = time.perf_counter()
    call()
    return 1000 * (time.perf_counter() - began)


def main() -> None:
    """Measures, and prints a line for each kind."""
    folder = pathlib.Path(tempfile.mkdtemp())
    service = Service(folder / 'service').start()
    hub = HubProcess(folder / 'hub', service).start()
    try:
        direct = service.lines()
        every = Wire(hub, hub.token('every', 'runner', prefix='h', labels=('linux',)))
        some = Wire(hub, hub.token('some', 'runner', prefix='s', labels=('linux',), repositories=('octo/*',)))
        kinds: dict[str, Callable[[], object]] = {
            'a claim that finds nothing, without a hub': lambda: direct.claim('d1'),
            'the same through the hub': lambda: every.claim('h1'),
            'the same, of a token for some repositories': lambda: some.claim('s1')}
        times: dict[str, list[float]] = {name: [] for name in kinds}
        for _ in range(COUNT):
            for name, call in kinds.items():
                times[name].append(took(call))
        for when, pause in (('that waits', 0.05), ('at once after its admission', 0.0)):
            for number in range(COUNT):
                service.admit(body_of())
                time.sleep(pause)
                words: list[str] = []
                if number % 2:
                    times.setdefault(f'a claim that gets a leg {when}, without a hub', []).append(took(lambda: words.extend(direct.claim('d1'))))
                    direct.done('d1', words[1])
                else:
                    times.setdefault(f'a claim that gets a leg {when}, through the hub', []).append(took(lambda: words.extend(every.claim('h1'))))
                    every.done('h1', words[1])
        for name, found in times.items():
            print(f'{name}: median {statistics.median(found):.2f} ms, best {min(found):.2f} ms')
        print(f'load {os.getloadavg()[0]:.0f} of {os.cpu_count()} processors')
        every.close()
        some.close()
    finally:
        hub.kill()
        service.kill()


if __name__ == '__main__':
    main()
