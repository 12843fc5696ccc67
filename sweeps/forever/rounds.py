"""Rounds, without `--forever`: a stream that fails does not end the service; the next round comes, and the service ends with 61 after the last one.
A round in which no session can be started, since there are no threads, ends it with 50.
"""

import os
import shutil
import time

from checking import Wrong, expect, served
from limits import of_a_user, threads

ROUNDS = 3


def hold(service, turn):
    """A round: one session on each port. In the first the stream of HTTP is reset."""
    hook, runner = service.hook(), service.runner()
    expect(hook.ask(served.event(f'd{turn}')) == (201, f'created {turn + 1}'), 'an event of round', turn + 1)
    if turn == 0:
        hook.send(served.event('half')[:50])
        time.sleep(0.1)
        hook.reset()
    expect(runner.ask(b'BEAT nobody 1\n') == (None, 'refused 45'), 'a beat of round', turn + 1)
    hook.close()
    runner.close()


def check(acts, folder, amount):
    path = os.path.join(folder, 'store')
    served.init(acts, path, 1 << 20)
    service = served.Service(acts, path, 1, rounds=ROUNDS)
    expect(service.ready, 'not ready')
    for turn in range(ROUNDS):
        try:
            hold(service, turn)
        except (served.Ended, OSError) as end:
            raise Wrong(f'round {turn + 1}: {end!r}; the service ended with {service.end(5)}') from None
    status, out, err, _ = service.end()
    expect((status, out, err) == (1, 'settled 2\n' * ROUNDS, 'acts: refused 61\n'), 'after a reset in the first round: status', status, out, err)
    expect(len(served.show(acts, path)) == ROUNDS, 'the runs')
    yield f'a reset in the first of {ROUNDS} rounds: all come, and the status is 61 then'
    if os.getuid() != 0:
        yield 'threads: left out, since only an administrator can be another user'
        return
    own = os.path.join(folder, 'acts')
    shutil.copy(acts, own)
    os.chmod(own, 0o755)
    user, path = of_a_user(own, folder)
    with threads(1):
        service = served.Service(own, path, 2, rounds=2, user=user)
    status, out, err, _ = service.end(10)
    expect(status == 1 and err == 'acts: refused 50\n', 'no thread for a round: status', status, out, err)
    yield 'no thread for a round: the service ends with 50'
