"""Services over the same file, one after the other, each with a write or a sync that fails at random under load.

`sweeps/crashes/failing.c` fails the call with a given number, alone or with all after it, and of a write nothing or half is written. Each client that
has asked before has to get its reply, 51 or 52; the service ends by itself with 51 or 52, status 1, within seconds; and the next one opens the
file.
"""

import collections
import os
import random
import subprocess
import time

import killed
from checking import HERE, expect, served, stopped
from load import Load

AREA = killed.AREA
SECONDS = 5
MAX_CALLS, MAX_RUNS = 400, 700


def meet(acts, path, load, dice, settings):
    """One service with one failing call. How it ended, how long after the fault, and whether the fault came before it was ready."""
    service = served.Forever(acts, path, turn_over=killed.TURN_OVER, settings=settings)
    if not service.ready:
        status, out, err, failed = service.end(SECONDS)
        expect((status, out, err, failed) == (1, '', 'acts: refused 51\n', True), settings, 'an opening that failed', status, out, err)
        return 'at the opening', 0.0, 0
    load.begin(service, 1 << 30)
    fault = service.wait_failure(60)
    expect(fault is not None, settings, 'no call has failed for 60 seconds, after', load.log.answers, 'answers')
    try:
        status, out, err, failed = service.end(SECONDS)
    except subprocess.TimeoutExpired:
        load.end()
        expect(False, settings, 'the service goes on', SECONDS, 'seconds after a call failed')
    took = time.monotonic() - fault
    load.end()
    expect(status == 1 and out == '' and err in ('acts: refused 51\n', 'acts: refused 52\n') and failed, settings, 'the end', status, out, err)
    silent = [client.name for client in load.clients() if client.asked is not None and client.asked < fault]
    expect(not silent, settings, len(silent), 'clients had asked before the call failed, and the service ended without an answer:', silent)
    return f'with {err.split()[-1]}', took, sum(client.refused is not None for client in load.clients())


def check(acts, folder, amount):
    dice, path, ends, slowest, refused = random.Random(amount.seed), os.path.join(folder, 'store'), collections.Counter(), 0.0, 0
    shim, stores, failed = served.library(os.path.join(HERE, '../crashes/failing.c'), folder), 0, 0
    while failed < amount.faults:
        load, stores = Load(f'{amount.seed} fault {stores}'), stores + 1
        served.init(acts, path, AREA)
        while failed < amount.faults and len(load.log.runs) < MAX_RUNS:
            settings = {'LD_PRELOAD': shim, 'FAIL_AT': dice.randint(1, 3 if dice.random() < 0.1 else MAX_CALLS)}
            settings.update({name: 1 for name in ('FAIL_AFTER', 'FAIL_HALF') if dice.random() < 0.5})
            end, took, refusals = meet(acts, path, load, dice, settings)
            load.look_at(served.show(acts, path))
            failed, slowest, refused = failed + 1, max(slowest, took), refused + refusals
            ends[end] += 1
        service = killed.begin(acts, path)
        load.settle(service)
        stopped(service)
        load.all_ended(served.show(acts, path))
    kinds = ', '.join(f'{count} {end}' for end, count in sorted(ends.items()))
    yield (f'{failed} calls failed over {stores} stores: services ended {kinds}, {slowest:.1f} s after the call at most; '
           f'{refused} clients were refused 51 or 52, none was left without an answer, nothing was lost')
