"""Commands on the hook port of services that are refused one growth of memory each: `refused 50` says that the command was not carried out.

A service is killed after a run that a runner carries out and one that has completed. Over its file each growth of memory from `ready` on is refused in turn to a
service that gets one command: an event, a cancel, a lost runner, or a run that is to be run again. It is answered as if nothing had been refused, or `refused 50`,
and then the file has nothing of it; or the session ends without an answer, as it does if the command was carried out and there is no memory for its answer.
"""

import collections
import os

from checking import HERE, Wrong, expect, opened, served, stopped

# What the file has, and the line of `acts show` that a command changes or adds.
RUNNING, COMPLETED = 'run 1 1 in_progress - build:open(running)', 'run 2 2 completed success build:success(success)'
COMMANDS = (
    ('an event', served.event('d3'), 'created 3', [RUNNING, COMPLETED, 'run 3 3 queued - build:open(ready)']),
    ('a cancel', b'POST /runs/1/cancel HTTP/1.1\r\n\r\n', 'ok', ['run 1 1 in_progress - build:open(stopping)', COMPLETED]),
    ('a lost runner', b'POST /runners/r1/lost HTTP/1.1\r\n\r\n', 'ok', ['run 1 1 completed failure build:failure(failure)', COMPLETED]),
    ('a run again', served.rerun(2, 2), 'again 2 2', [RUNNING, 'run 2 2.2 queued - build:open(ready)']),
)
BEFORE = (
    ('hook', served.event('d1'), 'created 1'),
    ('runner', b'CLAIM r1 1 linux\n', 'lease 1 1 build 0 {}'),
    ('hook', served.event('d2'), 'created 2'),
    ('runner', b'CLAIM r2 1 linux\n', 'lease 2 2 build 0 {}'),
    ('runner', b'DONE r2 2 2 success\n', 'ok'),
)


def file_of_a_killed(acts, folder):
    """The file of a service that was killed, as bytes."""
    service, path = opened(acts, folder, area=65_536)
    count, answer, clients = served.play(service, BEFORE)
    expect(count == len(BEFORE), 'the command', BEFORE[count:count + 1], 'is answered', answer)
    stopped(service)
    served.close(clients)
    expect(served.show(acts, path) == [RUNNING, COMPLETED], 'the file has', served.show(acts, path))
    with open(path, 'rb') as file:
        return path, file.read()


def asked(service, command):
    """The answer to a command, or None."""
    try:
        hook = service.hook()
        answer = hook.ask(command)[1]
        hook.close()
        return answer
    except (OSError, served.Ended):
        return None


def outcome(answer, wanted, shown, after):
    """What an answer and the file say, or a fault."""
    expect(shown in ([RUNNING, COMPLETED], after), 'the file has', shown)
    is_done = shown == after
    if answer is None:
        return 'without an answer, and it was carried out' if is_done else 'without an answer, and nothing was done'
    expect(answer in (wanted, 'refused 50'), 'it is answered', answer)
    expect(is_done == (answer == wanted), f'it is answered `{answer}`, and was {"" if is_done else "not "}carried out')
    return 'answered' if is_done else 'refused 50, and nothing was done'


def try_growth(acts, path, shim, growth, command):
    """Refuses a growth. The outcome; None if there is no such growth; or an empty text if the service was not ready."""
    _, what, wanted, after = command
    service = served.Forever(acts, path, settings={'LD_PRELOAD': shim, 'FAIL_AT': growth})
    if not service.ready:
        service.end(10)
        return ''
    answer = asked(service, what)
    if answer is None:
        asked(service, served.look(9))  # once this is answered, what was carried out before is in the file
    service.child.kill()
    was_refused = service.end()[3]
    told = outcome(answer, wanted, served.show(acts, path), after)
    return told if was_refused else None


def check(acts, folder, amount):
    shim = served.library(os.path.join(HERE, '../refused_memory/failing.c'), folder)
    path, before = file_of_a_killed(acts, folder)
    first = 1
    for command in COMMANDS:
        ends, growth = collections.Counter(), first
        while True:
            with open(path, 'wb') as file:
                file.write(before)
            try:
                end = try_growth(acts, path, shim, growth, command)
            except Wrong as fault:
                raise Wrong(f'{command[0]}, growth {growth}: {fault}') from None
            if end is None:
                break
            first = growth + 1 if end == '' else first
            ends.update([end] if end else [])
            growth += 1
        expect(ends['without an answer, and it was carried out'] and ends['refused 50, and nothing was done'], command[0], 'was not tried as it should be:', dict(ends))
        yield f'{command[0]}: {sum(ends.values())} growths refused: ' + ', '.join(f'{count} times {end}' for end, count in sorted(ends.items()))
