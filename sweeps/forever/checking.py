"""What the checks of a service without end share: how they report a fault, and how they do several things at a time."""

import importlib.machinery
import importlib.util
import os
import sys
import threading
import time

HERE = os.path.dirname(os.path.abspath(__file__))
sys.path.insert(0, os.path.join(HERE, '..'))
import service as served


def module(name, path):
    """A program of another sweep, as a module."""
    loader = importlib.machinery.SourceFileLoader(name, os.path.join(HERE, path))
    made = importlib.util.module_from_spec(importlib.util.spec_from_loader(name, loader))
    loader.exec_module(made)
    return made


class Wrong(Exception):
    """Something is not as it has to be."""


def expect(holds, *what):
    if not holds:
        raise Wrong(' '.join(str(it) if isinstance(it, (str, int, Wrong)) else repr(it) for it in what))


def at_once(tasks, seconds):
    """Does tasks at the same time, each in a thread, and waits so long for all. Raises the first fault of one."""
    faults = []

    def do(task):
        try:
            task()
        except (Wrong, OSError, served.Ended) as fault:
            faults.append(fault)

    threads = [threading.Thread(target=do, args=(task,), daemon=True) for task in tasks]
    end = time.monotonic() + seconds
    for thread in threads:
        thread.start()
    for thread in threads:
        thread.join(max(0, end - time.monotonic()))
    expect(not faults, len(faults), 'of', len(threads), 'clients:', *faults[:1])
    alive = sum(thread.is_alive() for thread in threads)
    expect(alive == 0, alive, 'of', len(threads), 'clients have not ended after', seconds, 'seconds')


def opened(acts, folder, area=8 << 20, **how):
    """A service over a new store."""
    path = os.path.join(folder, 'store')
    served.init(acts, path, area)
    service = served.Forever(acts, path, **how)
    if not service.ready:
        raise Wrong(f'not ready: {service.end()}')
    return service, path


def stopped(service):
    """Kills a service that has to be running until then."""
    fault = service.kill()
    expect(fault is None, fault)


def turned_over(service, client):
    """Lets a runner ask until one more history has turned over. Gives its client, which is another one if its session has ended."""
    wanted = len(service.settled) + 1
    while len(service.settled) < wanted:
        try:
            _, answer = client.ask(b'BEAT nobody 1\n')
            expect(answer == 'refused 45', 'a beat of nobody is answered', answer)
        except served.Ended:
            client.close()
            client = service.runner()
    return client


def milliseconds(seconds):
    return f'{1000 * seconds:.0f} ms'
