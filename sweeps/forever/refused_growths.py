"""Services that are refused one growth of memory each, over histories that turn over every three commands.

A run is played to its end over one stream on each port, and then from where it stopped over the next ones. A refused client is answered 50, or comes to the
end of the stream; and the service goes on, unless it ends with 50 before its first client. At the end there is one run.
"""

import collections
import os
import select

from checking import HERE, expect, module, served, stopped

refused = module('refused_memory', '../refused_memory/served')
AREA, TURN_OVER, SESSIONS = 65536, 3, 5


def failed(service):
    return bool(select.select([service.seen], [], [], 0)[0])


def play(service):
    """Plays all commands, in another session on each port after each refusal. How many were answered, and how many sessions it took."""
    done, sessions, commands = 0, 0, refused.WHOLE
    while done < len(commands) and sessions < SESSIONS:
        try:
            count, answer, clients = served.play(service, commands[done:])
        except OSError:
            count, answer, clients = 0, None, {}
        served.close(clients)
        expect(answer in (None, 'refused 50'), 'the command', commands[done:][count:count + 1], 'is answered', answer)
        done, sessions = done + count, sessions + 1
    return done, sessions


def try_growth(acts, path, shim, growth):
    """Refuses a growth. The outcome, or None if there is no such growth."""
    served.init(acts, path, AREA)
    service = served.Forever(acts, path, turn_over=TURN_OVER, settings={'LD_PRELOAD': shim, 'FAIL_AT': growth})
    done, sessions = play(service) if service.ready else (0, 0)
    if done == 0:
        status, out, err, was_refused = service.end(10)
        expect((status, out, err, was_refused) == (1, '', 'acts: refused 50\n', True), 'growth', growth, 'the end before the first client', status, out, err)
        return 'the service ended with 50 before its first client'
    was_refused = failed(service)
    expect(done == len(refused.WHOLE), 'growth', growth, 'only', done, 'commands were answered in', sessions, 'sessions')
    expect(was_refused or sessions == 1, 'growth', growth, 'a session ended and no growth was refused')
    stopped(service)
    expect(served.show(acts, path) == [refused.COMPLETED], 'growth', growth, 'the run that is shown')
    if not was_refused:
        return None
    return 'nothing changed' if sessions == 1 else 'a session was refused, and the service went on'


def check(acts, folder, amount):
    shim, path, ends, growth = served.library(os.path.join(HERE, '../refused_memory/failing.c'), folder), os.path.join(folder, 'store'), collections.Counter(), 1
    while (end := try_growth(acts, path, shim, growth)) is not None:
        ends[end] += 1
        growth += amount.growths
    expect(sum(ends.values()) > 1, 'no growth was refused')
    kinds = ', '.join(f'{count} times {end}' for end, count in sorted(ends.items()))
    yield f'{sum(ends.values())} growths refused, of {growth} each {amount.growths}th: {kinds}'
