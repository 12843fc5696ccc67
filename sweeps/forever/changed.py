"""Sessions whose bytes were changed, over histories that turn over every one to five commands, beside a single round of `acts serve` on the same bytes.

`sweeps/compared/mutations/make` makes them; each is sent to two fresh services, in random pieces. What comes back, and the runs that the file shows, have to
be the same. If a stream was reset, the last answers may be lost on the way: then a prefix of the other's answers will do, and the sweep prints how often.
"""

import collections
import multiprocessing
import os
import random
import re
import threading

from checking import Wrong, expect, module, served, stopped

AREA, MAX_CUT_SHORT = 262_144, 0.05
make = module('make', '../compared/mutations/make')
mutations = module('mutations', '../compared/mutations/run')


def beat(service, over):
    """Asks things that change nothing, so that histories turn over, until `over`."""
    while not over.is_set():
        client = service.runner()
        try:
            while not over.is_set():
                client.ask(b'BEAT nobody 1\n')
        except served.Ended:
            pass
        client.close()


class Lane:
    """What one process tries."""

    def __init__(self, acts, folder):
        self.acts, self.path = acts, os.path.join(folder, f'store{os.getpid()}')

    def admit(self, service, taken):
        """Posts what is there before a session of lines."""
        hook = service.hook()
        for line in taken:
            _, delivery, _, body = line.split(b' ', 3)
            expect(hook.ask(served.event(delivery.decode(), body))[0] == 201, 'an event')
        hook.close()

    def in_a_round(self, seed, what, given, taken):
        served.init(self.acts, self.path, AREA)
        service = served.Service(self.acts, self.path, 1)
        if not service.ready:
            raise Wrong(f'not ready: {service.end()}')
        if what == 'lines':
            self.admit(service, taken)
        else:
            service.runner().close()
        stream = mutations.Stream(random.Random(f'round {seed}'), service.hooks if what == 'hook' else service.runners, given)
        status, out, err, _ = service.end()
        expect(re.fullmatch(r'settled \d+\n', out) and (status, err) in ((0, ''), (1, 'acts: refused 61\n')), 'the end of a round', status, out, err)
        return stream, served.show(self.acts, self.path)

    def forever(self, seed, what, given, taken):
        served.init(self.acts, self.path, AREA)
        dice = random.Random(f'forever {seed}')
        service = served.Forever(self.acts, self.path, turn_over=dice.randint(1, 5))
        if not service.ready:
            raise Wrong(f'not ready: {service.end()}')
        if what == 'lines':
            self.admit(service, taken)
        over = threading.Event()
        beside = threading.Thread(target=beat, args=(service, over))
        beside.start()
        stream = mutations.Stream(dice, service.hooks if what == 'hook' else service.runners, given)
        over.set()
        beside.join()
        turned = len(service.settled)
        stopped(service)
        return stream, served.show(self.acts, self.path), turned

    def compare(self, what, seed):
        """How a session went, and how many histories turned over in it."""
        taken = make.made(seed, seed % 5, None).splitlines() if what == 'lines' else []
        given = make.made(seed, 1 + seed % (20 if what == 'hook' else 60), what)
        once, shown = self.in_a_round(seed, what, given, taken)
        cut, shown_then, turned = self.forever(seed, what, given, taken)
        expect(shown == shown_then, what, 'seed', seed, 'the runs', shown, 'and', shown_then)
        if once.got == cut.got:
            return 'the same', turned
        short = (once.reset and cut.got.startswith(once.got)) or (cut.reset and once.got.startswith(cut.got))
        expect(short, what, 'seed', seed, given, 'is answered', cut.got, 'and in a round', once.got)
        return 'cut short by a reset', turned


def begin(*words):
    global lane
    lane = Lane(*words)


def trial(given):
    try:
        return lane.compare(*given)
    except (Wrong, OSError) as wrong:
        return f'WRONG {given}: {wrong}', 0
    finally:
        served.kill_all()


def check(acts, folder, amount):
    lanes = int(os.environ.get('LANES', '2'))
    for what in ('hook', 'lines'):
        kinds, turned, count = collections.Counter(), 0, amount.changed // 2
        with multiprocessing.Pool(lanes, begin, (acts, folder)) as pool:
            for kind, histories in pool.imap_unordered(trial, [(what, seed) for seed in range(amount.seed, amount.seed + count)], chunksize=4):
                expect(not kind.startswith('WRONG'), kind)
                kinds[kind] += 1
                turned += histories
        expect(kinds['cut short by a reset'] <= max(2, MAX_CUT_SHORT * count), 'resets have cut short', kinds)
        summary = ', '.join(f'{times} {kind}' for kind, times in sorted(kinds.items()))
        yield f'{count} changed sessions of {what} beside a single round: {summary}; {turned} histories turned over'
