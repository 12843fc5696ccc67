"""Inputs of sessions one after another, all in one session, beside the plain model.

The inputs are those of the rows in `tests/rows`, of both protocols: HTTP on one port, and runner lines on the other. Each two of one
protocol are sent to one session, in pieces; the session has to write what the model does, over the same table of runs and runners. The longest
inputs come first, each with what it has to be answered.
"""

import glob
import os
import random

from checking import expect, module, opened, served, stopped

HERE = os.path.dirname(os.path.abspath(__file__))
ROWS = os.path.join(HERE, '../../tests/rows')
plain = module('plain', '../compared/plain.py')
streams = module('streams', '../compared/streams.py')
COUNT = 1500
LOOK = 'GET /runs/1 HTTP/1.1\r\n'
LABELS = 'a' * 64 + (',' + 'b' * 64) * 6 + ','


def answer(status, text, *fields):
    return '\r\n'.join([f'HTTP/1.1 {status}', 'Content-Type: text/plain', f'Content-Length: {len(text)}', *fields, '', '']) + text


SEEN, SEEN_LAST = (answer('200 OK', 'run 1 1 queued - build:open(ready)\n', *more) for more in ((), ('Connection: close',)))
BAD_HEAD = answer('400 Bad Request', 'refused 70\n', 'Connection: close')
# The longest head, the most fields, the longest body and the last request, and one more of each.
LONG_REQUESTS = (
    (LOOK + 'x:' + 'y' * 8167, ''), (LOOK + 'x:' + 'y' * 8168, BAD_HEAD), (LOOK + 'x:' + 'y' * 8164 + '\r\n\r\n', SEEN),
    (LOOK + 'x:' + 'y' * 8165 + '\r\n\r\n', BAD_HEAD), (LOOK + 'x:y\r\n' * 64 + '\r\n', SEEN), (LOOK + 'x:y\r\n' * 65 + '\r\n', BAD_HEAD),
    ('GET /runs/0 HTTP/1.1\r\nContent-Length: 65536\r\n\r\n' + 'x' * 65536, answer('404 Not Found', 'refused 72\n')),
    ((LOOK + '\r\n') * 65, SEEN * 63 + SEEN_LAST))
# The longest line with its line feed, one that is a byte longer, and the last line of a session.
LONG_LINES = (
    (f'CLAIM idle 1 {LABELS}{"c" * 43}\nFETCH 9\n', 'nothing\nrefused 40\n'), (f'CLAIM idle 1 {LABELS}{"c" * 44}\nFETCH 9\n', 'refused 75\n'),
    ('x' * 511 + '\n', 'refused 75\n'), ('x' * 511 + '\nFETCH 9\n', 'refused 75\nrefused 40\n'), ('x' * 512 + '\nFETCH 9\n', 'refused 75\n'),
    ('x' * 511, ''), ('x' * 512, 'refused 75\n'), ('FETCH 9\n' + 'x' * 512, 'refused 40\nrefused 75\n'), ('x' * 510 + '\r\n', 'refused 75\n'),
    ('FETCH 9\n' * 1025, 'refused 40\n' * 1024), ('\n' * 1023 + 'FETCH 9\n' * 2, 'refused 75\n' * 1023 + 'refused 40\n'))


def inputs(suffix):
    """The inputs of the rows with this suffix, without the longest."""
    found = sorted(glob.glob(f'{ROWS}/*/*{suffix}'))
    rows = []
    for path in found:
        with open(path, 'rb') as file:
            rows.append(file.read())
    expect(len(rows) > 3, 'there are', len(rows), 'rows', suffix)
    return [row for row in rows if len(row) < 10_000]


def compare(port, session, given, dice):
    wanted = session.hear(given)
    found, whole = streams.said(port, given, dice)
    expect(found == wanted, given, 'is answered', found, 'and not', wanted)
    expect(whole, given, 'ends with a reset')


def longest(acts, folder):
    """The longest inputs, over a table of one run."""
    service, _ = opened(acts, folder)
    dice = random.Random(7)
    hook = service.hook()
    expect(hook.ask(served.event('d1')) == (201, 'created 1'), 'an event is not admitted')
    hook.close()
    for port, rows in ((service.hooks, LONG_REQUESTS), (service.runners, LONG_LINES)):
        for given, wanted in rows:
            found, _ = streams.said(port, given.encode(), dice)
            expect(found == wanted.encode(), given[:100], 'of', len(given), 'bytes is answered', found[:100], 'of', len(found), 'bytes')
    stopped(service)
    return f'{len(LONG_REQUESTS)} long requests, {len(LONG_LINES)} long lines'


def in_pairs(acts, folder):
    service, _ = opened(acts, folder, area=32 << 20)
    store, dice, counts = plain.Store(), random.Random(7), []
    for port, suffix, kind in ((service.hooks, '.http', plain.Requests), (service.runners, '.runner', plain.Lines)):
        rows = inputs(suffix)
        couples = [(one, other) for one in rows for other in rows]
        chosen = couples if len(couples) <= COUNT else dice.sample(couples, COUNT)
        for one, other in chosen:
            compare(port, kind(store), one + other, dice)
        counts.append(f'{len(chosen)} of {len(couples)} pairs of {len(rows)} inputs {suffix}')
    stopped(service)
    return '; '.join(counts)


CHECKS = longest, in_pairs
