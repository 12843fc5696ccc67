"""The bytes of stores, encoded by docs/FORMATS.md: numbers and texts, the commands of events and runners, tables of each layout, records, areas."""

from service import BODY


def number(value):
    return value.to_bytes(4, 'big')


def wide(value):
    return value.to_bytes(8, 'big')


def text(words):
    words = words if isinstance(words, bytes) else words.encode()
    return number(len(words)) + words


def event(run, body=BODY):
    """The delivery, the event and the body with which a run was admitted."""
    return text(f'd{run}') + text('push') + text(body)


def admit(run, body=BODY):
    return b'\1' + event(run, body)


def claim(name, last, label='linux'):
    return b'\2' + text(name) + number(last) + number(1) + text(label)


def report(name, last, lease):
    """A report of success."""
    return b'\3' + text(name) + number(last) + number(lease) + b'\1'


def look(run):
    return b'\7' + number(run)


def rerun(run, attempt):
    return b'\11' + number(run) + number(attempt)


def forget(run):
    return b'\14' + number(run)


def discharge(name):
    return b'\15' + text(name)


def leg(phase, lease=0):
    return bytes([phase]) + number(lease)


def job(state, *legs):
    return bytes([state]) + number(len(legs)) + b''.join(legs)


def run(place, phase, stops, *jobs, attempt=b'', body=BODY):
    """A run. The first layout has no attempt."""
    return event(place, body) + attempt + bytes([phase, stops]) + b''.join(jobs)


def ready(place):
    return run(place, 1, 0, job(1, leg(2)))


def running(place, lease):
    return run(place, 1, 0, job(1, leg(3, lease)))


def succeeded(place, lease):
    return run(place, 2, 0, job(2, leg(5, lease)))


def runner(name, last, command, reply, lease=0, holds=0):
    """A runner of the first layout: after the byte of the kept reply comes its lease."""
    return text(name) + number(last) + command + bytes([reply]) + number(lease) + number(holds)


def keeper(name, last, command, lease, run, holds=0):
    """A runner of the second layout, whose kept reply is the lease of the first leg of the first job of a run at its first attempt."""
    return text(name) + number(last) + command + b'\1' + number(lease) + number(run) + number(1) + number(0) + number(0) + number(holds)


def idle(name, last, command):
    """A runner of the second and of the third layout, whose kept reply is nothing."""
    return text(name) + number(last) + command + b'\0' + number(0)


def table(last_lease, runs=(), runners=()):
    return number(last_lease) + number(len(runs)) + b''.join(runs) + number(len(runners)) + b''.join(runners)


# The version of the third layout, which new areas have.
LATEST = 4


def latest(words, counts=(), deliveries=()):
    """The text of a table of the second layout, in the third: with the repository, the path and the count of each workflow of which runs are
    forgotten, and the deliveries of these runs, which are kept."""
    of_each = b''.join(text(repository) + text(path) + number(count) for repository, path, count in counts)
    forgotten = number(sum(count for *_, count in counts)) + number(len(counts)) + of_each + b''.join(map(text, deliveries))
    return words[:4] + forgotten + words[4:]


def batch(*commands):
    return number(len(commands)) + b''.join(commands)


def record(*commands):
    return b'\xa5' + text(batch(*commands))


def area(length, generation, words, *records, layout=1):
    """An area whose gate is open: its head, the text of its table, and its records."""
    return (bytes([0xA5, layout]) + wide(generation) + wide(len(words)) + words + b''.join(records)).ljust(length, b'\0')


def file(words, *records, length=4096, generation=1, other=None, layout=1):
    """Two areas; the other one is closed unless given."""
    return area(length, generation, words, *records, layout=layout) + (bytes(length) if other is None else other)
