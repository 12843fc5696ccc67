"""More clients than can be accepted, and a service that can start no thread.

With `ulimit -n 64` a hundred clients come to a port, and without it 1,120: those that are accepted are answered, the others once these have gone, and meanwhile
the service rests. As a user of its own without threads (RLIMIT_NPROC, which does not bind root) it serves both ports.
"""

import contextlib
import os
import resource
import select
import shutil
import time

from checking import expect, opened, served, stopped

# The seconds in which a client is answered, or a service has ended.
SECONDS = 10
BEAT, TOLD = b'BEAT nobody 1\n', b'refused 45\n'


def answered(waiting, seconds):
    """The clients that get an answer before nothing has come for so many seconds."""
    got, poll, clients = [], select.poll(), {client.stream.fileno(): client for client in waiting}
    for client in waiting:
        poll.register(client.stream, select.POLLIN)
    while clients and (ready := poll.poll(1000 * seconds)):
        for descriptor, _ in ready:
            poll.unregister(descriptor)
            got.append(clients.pop(descriptor))
            expect(got[-1].until(b'\n') == TOLD, 'a client is answered otherwise')
    waiting[:] = clients.values()
    return got


def more_than_are_accepted(acts, folder, what, count, least, limits=()):
    """So many clients come to a port; LEAST of them have to be accepted at once."""
    service, path = opened(acts, folder, limits=limits)
    waiting = [service.runner() for _ in range(count)]
    for client in waiting:
        client.send(BEAT)
    first = answered(waiting, 1)
    expect(least <= len(first) < count, len(first), 'of', count, 'clients are answered at once')
    before, start = service.processor_time(), time.monotonic()
    time.sleep(2)
    share = (service.processor_time() - before) / (time.monotonic() - start)
    expect(share < 0.5, f'while it can accept nobody the service takes {100 * share:.0f}% of a processor')
    now, groups = first, 1
    while waiting:
        for client in now:
            client.close()
        now = answered(waiting, SECONDS)
        expect(now, len(waiting), 'clients are not answered, though all others have gone')
        groups += 1
    for client in now:
        client.close()
    hook = service.hook()
    expect(hook.ask(served.event('d1')) == (201, 'created 1'), 'an event after all')
    hook.close()
    stopped(service)
    os.remove(path)
    return (f'{what}: {len(first)} of {count} clients are answered at once, the others as these go, in groups {groups - 1}; '
            f'{100 * share:.1f}% of a processor while nobody can be accepted')


def works(service, name):
    """Both ports answer."""
    hook, runner = service.hook(), service.runner()
    try:
        for turn in range(30):
            expect(hook.ask(served.event(f'{name}-{turn}'))[0] == 201, 'an event')
            expect(runner.ask(BEAT) == (None, 'refused 45'), 'a beat')
    finally:
        hook.close()
        runner.close()


@contextlib.contextmanager
def threads(count):
    """What is started meanwhile may have so many threads, counted over all of its user. Root is not bound."""
    limits = resource.getrlimit(resource.RLIMIT_NPROC)
    resource.setrlimit(resource.RLIMIT_NPROC, (count, limits[1]))
    try:
        yield
    finally:
        resource.setrlimit(resource.RLIMIT_NPROC, limits)


def of_a_user(acts, folder):
    """The program and a store for a user of its own."""
    user, place = 200_000 + os.getpid() % 100_000, os.path.join(folder, 'of_a_user')
    os.chmod(folder, 0o755)
    os.makedirs(place, exist_ok=True)
    path = os.path.join(place, 'store')
    served.init(acts, path, 1 << 20)
    for it in (place, path):
        os.chown(it, user, user)
    return user, path


def without_threads(acts, folder):
    """A service that may start no thread serves both ports, over histories that turn over."""
    user, path = of_a_user(acts, folder)
    with threads(1):
        service = served.Forever(acts, path, turn_over=20, user=user)
    expect(service.ready, 'not ready without threads')
    works(service, 'd')
    expect(service.wait_settled(1), 'no history has turned over')
    stopped(service)
    return f'no thread can be started: both ports are served, and {len(service.settled)} histories turn over'


def check(acts, folder, amount):
    yield more_than_are_accepted(acts, folder, '64 descriptors', 100, 20, ['ulimit -n 64'])
    if served.room_for_streams(2500):
        yield more_than_are_accepted(acts, folder, 'as many descriptors as are asked for', 1120, 1000)
    if os.getuid() != 0:
        yield 'threads: left out, since only an administrator can be another user'
        return
    own = os.path.join(folder, 'acts')
    shutil.copy(acts, own)
    os.chmod(own, 0o755)
    yield without_threads(own, folder)
