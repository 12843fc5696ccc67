"""Files of stores: made, damaged, served and shown; and the ports and rounds of a service."""

import socket

from checking import expect, served
from command_lines import BUILD, is_refused, ran
from encoded import LATEST, area, batch, claim, file, job, latest, leg, look, number, rerun, run, table, text

AREA = 4096
EMPTY = table(0)
EVENT = BUILD.encode()
GROUPED = ('{"repo":"o/r","path":"ci.json","workflow":{"concurrency":"Deploy",'
           '"jobs":{"a":{"runs-on":["linux","${{ matrix.os }}"],"strategy":{"matrix":{"os":["x64","a\\"b"]}}}}}}').encode()
LOCKED = ('{"repo":"o/r","path":"ci.json","workflow":{'
          '"jobs":{"b":{"runs-on":"linux","concurrency":"lock","strategy":{"matrix":{"n":[1,2]}}}}}}').encode()
BUSY = ((BUILD.encode(), GROUPED, GROUPED, LOCKED), (('r1', 'linux', 'lease 1 1 build 0 {}'), ('r2', 'linux,x64', 'lease 2 2 a 0 {"os":"x64"}'),
                                                     ('r3', 'windows', 'nothing')))
RUNNERS = 'runner r1 1 lease 1 1 build 0\nrunner r2 1 lease 2 2 a 0\nrunner r3 1 -\n'
RUNNERS_AS_JSON = '''\
{"runner":"r1","number":1,"lease":{"lease":1,"run":1,"job":"build","leg":0}}
{"runner":"r2","number":1,"lease":{"lease":2,"run":2,"job":"a","leg":0}}
{"runner":"r3","number":1,"lease":null}
'''
QUEUE = '''\
ready 2 a 1 ["linux","a\\"b"]
ready 4 b 0 ["linux"]
group "o/r" "deploy" in_progress run 2 pending run 3
group "o/r" "lock" in_progress leg 4 b 0 pending leg 4 b 1
'''
QUEUE_AS_JSON = '''\
{"run":2,"job":"a","leg":1,"labels":["linux","a\\"b"]}
{"run":4,"job":"b","leg":0,"labels":["linux"]}
{"repository":"o/r","group":"deploy","in_progress":{"run":2},"pending":{"run":3}}
{"repository":"o/r","group":"lock","in_progress":{"run":4,"job":"b","leg":0},"pending":{"run":4,"job":"b","leg":1}}
'''
FIRST, SECOND = 'run 1 1 in_progress - build:open(running)\n', 'run 2 2 in_progress - a:open(running,ready)\n'
THIRD, FOURTH = 'run 3 3 pending - a:blocked\n', 'run 4 4 queued - b:open(ready,waiting)\n'
SECOND_AS_JSON = ('{"run":2,"number":2,"attempt":1,"status":"in_progress","conclusion":"-",'
                  '"jobs":[{"id":"a","state":"open","legs":["running","ready"]}]}\n')
THIRD_AS_JSON = '{"run":3,"number":3,"attempt":1,"status":"pending","conclusion":"-","jobs":[{"id":"a","state":"blocked","legs":[]}]}\n'
# What is shown of the store that BUSY leaves, and the number of a refusal.
SHOWN = (('show', FIRST + SECOND + THIRD + FOURTH, None), ('show 2', SECOND, None), ('show 2 --json', SECOND_AS_JSON, None),
         ('show 3 --json', THIRD_AS_JSON, None), ('show 5', '', 40), ('runners', RUNNERS, None), ('runners --json', RUNNERS_AS_JSON, None),
         ('queue', QUEUE, None), ('queue --json', QUEUE_AS_JSON, None))
NOTHING_SHOWN = (('show', '', None), ('show 1 --json', '', 40), ('runners', '', None), ('queue --json', '', None))
READY = 'run 1 1 queued - build:open(ready)\n'
ONE_RUN = (run(1, 1, 0, job(1, leg(2)), attempt=number(1)),)
OF_THE_FIRST_LAYOUT = (run(1, 1, 0, job(1, leg(2))),)


def write(path, data):
    with open(path, 'wb') as it:
        it.write(data)


def read(path):
    with open(path, 'rb') as it:
        return it.read()


def expect_shown(acts, path, rows):
    before = read(path)
    for words, out, refused in rows:
        first, *more = words.split()
        wanted = (0, out, '') if refused is None else is_refused(refused)
        found = ran(acts, [first, path, *more])
        expect(found == wanted, 'acts', words, 'of a file gives', found, 'and not', wanted)
    expect(read(path) == before, 'a file is not as it was before it was shown')


def made(acts, folder):
    """A store is made in an empty file alone."""
    path = f'{folder}/store'
    expect(ran(acts, ['init', path, str(AREA)]) == (0, 'made\n', ''), 'no store is made')
    new = read(path)
    expect(new == file(latest(EMPTY), layout=LATEST), 'a new store has other bytes')
    for before in (new, b'x', new + bytes(1)):
        write(path, before)
        expect(ran(acts, ['init', path, str(AREA)]) == is_refused(55) and read(path) == before, 'a store is made in a file that is not empty')
    write(path, b'')
    expect(ran(acts, ['init', path, str(AREA)]) == (0, 'made\n', '') and read(path) == new, 'no store is made in an empty file')
    expect_shown(acts, path, NOTHING_SHOWN)
    return 'a store is made in an empty file, and in no other (55)'


def changed(at, byte):
    """A new store with another byte."""
    it = bytearray(file(EMPTY, layout=2))
    it[at] = byte
    return bytes(it)


def with_record(body, layout=2, gate=b'\xa5'):
    return area(AREA, 1, EMPTY, gate + text(body), layout=layout) + bytes(AREA)


def damaged():
    """Files, and the number with which each is refused, or none."""
    yield from ((b'', 53), (bytes(2 * AREA), 53), (changed(0, 0), 53), (changed(0, 0xA4), 53), (changed(1, 0), 54), (changed(1, 1), None),
                (changed(1, 3), 54), (changed(18, 0xFF), 54), (changed(30, 1), None), (changed(30, 0xA5), 54))
    yield from ((file(EMPTY, layout=2)[:length], 53) for length in (8_190, 8_191))
    yield file(EMPTY, layout=2) + b'\0', 53
    yield from ((with_record(batch(look(1)), layout), None) for layout in (1, 2))
    yield from ((with_record(batch(rerun(1, 2)), layout), refused) for layout, refused in ((1, 54), (2, None)))
    yield with_record(batch(rerun(1, 0))), 54
    yield from ((with_record(body), 54) for body in (batch(look(1)) + b'\0', b'', number(0), number(2) + look(1), number(1) + b'\12' + number(1)))
    yield with_record(number(1) + b'\12' + number(1), gate=b'\0'), None
    yield area(AREA, 1, EMPTY, b'\xa5' + number(4096), layout=2) + bytes(AREA), 54
    yield from ((file(words, layout=2), 54) for words in (EMPTY + b'\0', EMPTY[:-1], number(0) + number(1) + number(0)))
    yield from ((file(table(0, runs), layout=layout), 54) for runs, layout in ((ONE_RUN, 1), (OF_THE_FIRST_LAYOUT, 2)))


def opened(acts, folder):
    path, count = f'{folder}/store', 0
    for data, refused in damaged():
        write(path, data)
        found, wanted = ran(acts, ['show', path]), (0, '', '') if refused is None else is_refused(refused)
        expect(found == wanted, 'file', count, 'of', len(data), 'bytes is shown as', found, 'and not', wanted)
        count += 1
    for runs, layout in ((ONE_RUN, 2), (OF_THE_FIRST_LAYOUT, 1)):
        write(path, file(table(0, runs), layout=layout))
        expect_shown(acts, path, (('show', READY, None),))
    return f'{count} files that are no stores (53, 54) or empty ones, two with a run'


def expect_answers(client, pairs):
    for asked, wanted in pairs:
        found = client.ask(asked)[1]
        expect(found == wanted, asked, 'is answered', found, 'and not', wanted)


def shown(acts, folder):
    """What is shown of a store while it is served and afterwards; another server and `init` are refused meanwhile."""
    path = f'{folder}/store'
    served.init(acts, path, AREA)
    service = served.Service(acts, path, 1)
    expect(service.ready, 'a service is not ready')
    hook, runner = service.hook(), service.runner()
    expect_answers(hook, ((served.event(f'd{place}', body), f'created {place}') for place, body in enumerate(BUSY[0], 1)))
    expect_answers(runner, ((f'CLAIM {name} 1 {labels}\n'.encode(), reply) for name, labels, reply in BUSY[1]))
    expect_shown(acts, path, SHOWN)
    for words in (['init', path, str(AREA)], ['serve', path, '--hook-port', str(served.free_port()), '--runner-port', str(served.free_port()),
                                              '--sessions', '1']):
        expect(ran(acts, words) == is_refused(61, f'{path}: another process has its lock'), 'a file that is served is not refused 61 by', words[0])
    hook.close()
    runner.close()
    expect(service.end()[:3] == (0, 'settled 7\n', ''), 'the round of 7 commands ends otherwise')
    expect_shown(acts, path, SHOWN)
    return f'{len(SHOWN)} views of a store that is served (61 for init and another server) and closed'


def listens(address, port):
    with socket.socket() as it:
        it.settimeout(5)
        return it.connect_ex((address, port)) == 0


def in_rounds(acts, folder):
    """Each port of 127.0.0.1 alone speaks its own protocol, in each round."""
    path = f'{folder}/store'
    served.init(acts, path, 1 << 16)
    service = served.Service(acts, path, 1, rounds=2)
    expect(service.ready, 'a service is not ready')
    for port in (service.hooks, service.runners):
        expect(not listens('127.0.0.2', port), 'port', port, 'is open at 127.0.0.2')
    for turn in (1, 2):
        hook, runner = service.hook(), service.runner()
        expect_answers(hook, ((served.event(f'd{turn}'), f'created {turn}'), (served.look(turn), served.view(turn, 3 * turn - 2))))
        expect_answers(runner, ((f'GET /runs/{turn} HTTP/1.1\n'.encode(), 'refused 75'), (b'FETCH 9\n', 'refused 40'),
                                (f'CLAIM r1 {2 * turn - 1} linux\n'.encode(), f'lease {turn} {turn} build 0 {{}}'),
                                (f'DONE r1 {2 * turn} {turn} success\n'.encode(), 'ok')))
        hook.send(b'FETCH 9\r\n\r\n')
        got, _ = hook.rest()
        expect(got.startswith(b'HTTP/1.1 400 Bad Request\r\n') and got.endswith(b'refused 70\n'), 'a runner line on the hook port gives', got)
        hook.close()
        runner.close()
    expect(service.end()[:3] == (0, 'settled 5\nsettled 5\n', ''), 'two rounds of 5 commands end otherwise')
    expect_shown(acts, path, (('show', '\n'.join([*served.views(6), '']), None),))
    return 'two rounds, each protocol on its port, of 127.0.0.1 alone'


def held(name, last, command, lease, at, holds):
    """A runner whose last reply was a lease of the first job and leg of a run, in an attempt."""
    return text(name) + number(last) + command + b'\1' + b''.join(map(number, (lease, *at, 0, 0, holds)))


def running_runs(attempt=1):
    """Three runs whose legs run; the first is in an attempt."""
    bodies = (EVENT, EVENT.replace(b'ci.json', b'cd.json'), EVENT)
    return [text(f'd{place}') + text('push') + text(body) + number(attempt if place == 1 else 1) + b'\1\0' + job(1, leg(3, place))
            for place, body in enumerate(bodies, 1)]


def holders(lease=1):
    """Their runners; the lease that was kept for the first."""
    return [held(f'r{place}', 1, claim(f'r{place}', 1), lease if place == 1 else place, (place, 1), place) for place in (1, 2, 3)]


PLAYED_ON = (('hook', served.look(1), 'run 1 1 in_progress - build:open(running)'), ('hook', served.look(2), 'run 2 1 in_progress - build:open(running)'),
             ('hook', served.look(3), 'run 3 2 in_progress - build:open(running)'), ('runner', b'CLAIM r1 1 linux\n', 'lease 1 1 build 0 {}'),
             ('runner', b'CLAIM r1 1 gpu\n', 'refused 43 1'), ('runner', b'CLAIM r1 2 linux\n', 'refused 42'),
             ('runner', b'DONE r1 2 2 success\n', 'refused 44'), ('hook', served.event('d4'), 'created 4'),
             ('runner', b'CLAIM r4 1 linux\n', 'lease 4 4 build 0 {}'), ('runner', b'DONE r1 2 1 failure\n', 'ok'))
AFTERWARDS = (('hook', served.look(1), 'run 1 1 completed failure build:failure(failure)'),
              ('hook', served.look(4), 'run 4 3 in_progress - build:open(running)'))
# Run 1 is in its second attempt, and the lease kept for its runner is that of the first, with the number of the leg of run 2.
SECOND_ATTEMPT = (('hook', served.look(1), 'run 1 1.2 in_progress - build:open(running)'), ('runner', b'CLAIM r1 1 linux\n', 'lease 2 1 build 0 {}'),
                  ('runner', b'CLAIM r2 1 linux\n', 'lease 2 2 build 0 {}'), ('runner', b'DONE r1 2 1 success\n', 'ok'),
                  ('hook', served.look(1), 'run 1 1.2 completed success build:success(success)'))
# No commands lead to a table without runs whose last lease is 5.
AFTER_LEASE_5 = (('hook', served.event('d1'), 'created 1'), ('runner', b'CLAIM r1 1 linux\n', 'lease 6 1 build 0 {}'))


def play_on(acts, path, *parts):
    """Serves a file, asks these commands, and serves it again for the next ones."""
    for commands in parts:
        service = served.Service(acts, path, 1)
        expect(service.ready, 'a service is not ready')
        count, found, clients = served.play(service, commands)
        expect(count == len(commands), commands[min(count, len(commands) - 1)], 'is answered', found)
        served.close(clients)
        expect(service.end()[:3] == (0, f'settled {count}\n', ''), 'a round ends otherwise')


def played_on(acts, folder):
    path = f'{folder}/store'
    write(path, file(table(3, running_runs(), holders()), layout=2))
    play_on(acts, path, PLAYED_ON, AFTERWARDS)
    write(path, file(table(3, running_runs(attempt=2), holders(lease=2)), layout=2))
    play_on(acts, path, SECOND_ATTEMPT)
    write(path, file(table(5), layout=2))
    play_on(acts, path, AFTER_LEASE_5)
    return 'three tables with kept replies, leases and attempts are played on'


CHECKS = made, opened, shown, in_rounds, played_on
