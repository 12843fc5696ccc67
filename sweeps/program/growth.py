"""A full area: a deployment whose report does not fit, `acts grow`, and how it goes on; and what `acts grow` copies and refuses."""

import os

from checking import expect, served, stopped
from command_lines import is_refused, ran
from encoded import LATEST, admit, area, claim, file, job, latest, leg, number, record, run, table
from files import AFTERWARDS, AREA, EMPTY, PLAYED_ON, expect_answers, expect_shown, held, holders, play_on, read, running_runs, write

SMALL, LARGE, LONG = 16_384, 65_536, 1_000
DEPLOY = b'{"repo":"o/r","path":"deploy.json","workflow":{"concurrency":"live","jobs":{"deploy":{"runs-on":"linux"}}}}'
FULL, GROWN = 'refused 47', (0, 'grown\n', '')
CLAIM, LEASE = b'CLAIM r1 1 linux\n', 'lease 1 1 deploy 0 {}'
REPORT = b'DONE r1 2 1 success\n'
SHOWN = 'show', 'runners', 'queue'


def begun(acts, path):
    service = served.Forever(acts, path)
    expect(service.ready, 'a service is not ready')
    return service


def grow(acts, path, new, size):
    return ran(acts, ['grow', path, new, str(size)])


def posted(service, run, spaces):
    """Posts a deployment with so many spaces behind its body, in a session of its own. Whether it is admitted as this run, or refused 47."""
    hook = service.hook()
    answer = hook.ask(served.event(f'd{run}', DEPLOY + b' ' * spaces))[1]
    hook.close()
    expect(answer in (FULL, f'created {run}'), 'an event is answered', answer)
    return answer != FULL


def fill(acts, path):
    """Fills the area of a service to its last byte, while r1 runs the first deployment. Returns how many there are. The report of r1 is refused."""
    service, runs, spaces = begun(acts, path), 1, LONG
    expect(posted(service, 1, 0), 'the first event does not fit')
    expect_answers(service.runner(), ((CLAIM, LEASE),))
    while spaces == LONG:
        if posted(service, runs + 1, spaces):
            runs += 1
        else:
            spaces -= 1
    while not posted(service, runs + 1, spaces):
        spaces -= 1
        expect(spaces >= 0, 'no event fits what is left of the area')
    expect_answers(service.runner(), ((REPORT, FULL),))
    stopped(service)
    return runs + 1


def full(acts, folder):
    """A deployment whose report does not fit, in this process and in the next. In a larger file all goes on, with the ids and leases that there were."""
    path, new = f'{folder}/store', f'{folder}/larger'
    served.init(acts, path, SMALL)
    runs = fill(acts, path)
    service = begun(acts, path)
    expect_answers(service.runner(), ((REPORT, FULL),))
    stopped(service)
    before, shown = read(path), [ran(acts, [words, path]) for words in SHOWN]
    expect(grow(acts, path, new, SMALL) == is_refused(47), 'a table that fits no area of', SMALL, 'bytes is copied into some')
    expect(grow(acts, path, new, LARGE) == GROWN, 'a full store is not copied')
    expect(read(path) == before and os.path.getsize(new) == 2 * LARGE, 'a store is written, or its copy has', os.path.getsize(new), 'bytes')
    expect([ran(acts, [words, new]) for words in SHOWN] == shown, 'a copy shows something else')
    service = begun(acts, new)
    expect_answers(service.runner(), ((CLAIM, LEASE), (REPORT, 'ok'), (REPORT, 'ok'), (b'CLAIM r1 3 linux\n', f'lease 2 {runs} deploy 0 {{}}')))
    expect_answers(service.hook(), ((served.event('d1', DEPLOY), 'created 1'), (served.event('d', DEPLOY), f'created {runs + 1}'),
                                    (served.look(1), 'run 1 1 completed success deploy:success(success)')))
    stopped(service)
    return f'{runs} runs fill areas of {SMALL} bytes; in {LARGE} the report that was refused 47 is taken, and the next deployment begins'


def with_records(layout):
    """A store whose second area is active. Its table is empty, and two records follow; the first area has another table, and is older."""
    old = area(AREA, 1, table(9), layout=layout)
    return old + area(AREA, 2, EMPTY, record(admit(1)), record(claim('r1', 1)), layout=layout)


def copied(acts, folder):
    """What the active area stands for is copied: its text and the records behind it, of each layout, and nothing of the other area."""
    path, new = f'{folder}/store', f'{folder}/larger'
    after = table(1, [run(1, 1, 0, job(1, leg(3, 1)), attempt=number(1))], [held('r1', 1, claim('r1', 1), 1, (1, 1), 1)])
    for layout, size in ((1, AREA), (1, 2 * AREA), (2, AREA), (2, 2 * AREA)):
        before = with_records(layout)
        write(path, before)
        expect(grow(acts, path, new, size) == GROWN, 'a store of layout', layout, 'is not copied')
        expect(read(new) == file(latest(after), length=size, layout=LATEST), 'the copy of a store of layout', layout, 'has other bytes')
        expect(read(path) == before, 'a store is not as it was')
        os.remove(new)
    write(path, file(table(3, running_runs(), holders()), layout=2))
    expect(grow(acts, path, new, 2 * AREA) == GROWN, 'a store with three runs is not copied')
    play_on(acts, new, PLAYED_ON, AFTERWARDS)
    return 'stores with records, of both layouts, and one that is played on'


def refused(acts, folder):
    """What is refused makes no file, and changes none."""
    path, new = f'{folder}/store', f'{folder}/larger'
    many = table(0, [run(place, 1, 0, job(1, leg(2)), attempt=number(1)) for place in range(1, 41)])
    write(path, file(EMPTY, layout=2))
    for there, data in ((new, b''), (new, b'x'), (new, file(EMPTY, layout=2)), (path, file(EMPTY, layout=2))):
        write(there, data)
        expect(grow(acts, path, there, AREA) == is_refused(55, f'{there}: it exists already') and read(there) == data, 'a file that is there is written')
    os.remove(new)
    for data, refusal in ((b'', 53), (bytes(2 * AREA), 53), (file(EMPTY + b'\0', layout=2), 54), (file(many, length=2 * AREA, layout=2), 47)):
        write(path, data)
        expect(grow(acts, path, new, AREA) == is_refused(refusal) and read(path) == data, 'of a file of', len(data), 'bytes, not refused', refusal)
    for words in ((path, f'{folder}/none/larger'), (f'{folder}/none/store', new)):
        status, out, err = grow(acts, *words, 2 * AREA)
        expect((status, out, err[:17]) == (1, '', 'acts: refused 61\n'), 'without a folder', status, out, err)
    expect(not os.path.exists(new), 'a growth that is refused makes a file')
    expect(grow(acts, path, new, 2 * AREA) == GROWN, 'a growth after others that were refused')
    return 'files that are there (55), no stores (53, 54), areas that are too small (47), no folder (61)'


def locked(acts, folder):
    """A store that is served is not copied."""
    path, new = f'{folder}/store', f'{folder}/larger'
    served.init(acts, path, AREA)
    service = served.Service(acts, path, 1)
    expect(service.ready, 'a service is not ready')
    wanted = is_refused(61, f'{path}: another process has its lock')
    expect(grow(acts, path, new, AREA) == wanted and not os.path.exists(new), 'a store that is served is copied')
    for client in (service.hook(), service.runner()):
        client.close()
    expect(service.end()[:3] == (0, 'settled 0\n', ''), 'the round ends otherwise')
    expect_shown(acts, path, (('show', '', None),))
    return 'a store that is served (61)'


CHECKS = full, copied, refused, locked
