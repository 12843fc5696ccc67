"""Each command and each view at the limits of what is documented: with memory, nothing is answered 50."""

import json
import threading

import pairs
from checking import expect, opened, served, stopped
from command_lines import ran
from encoded import file, table
from files import write
from sizes import BEAT, BODY_BYTES, COMMANDS, IN_A_TURN, SECONDS, SESSION_LINES, SESSION_REQUESTS, ask, stored, wait_generation

LAST_RUN, FIRST_READY, LAST_AREA, SECONDS_OF_TURN = 100_000, 99_990, 16 << 20, 20
# The most that a history has: of the entries that it may have at all, 16 of each of 1,024 clients of two ports have to find room. And more lines than that, at once.
FULL_HISTORY, CROWD = 100_000 - 2 * 1_024 * 16, 96
BODY_REPLY = b'body %d\n%s\n' % (len(served.BODY), served.BODY)


def full_table():
    """A table that has room for one more run: the last ones are ready, and those before have ended, each under the lease of its number."""
    runs = [stored(it, 'ended', it) if it < FIRST_READY else stored(it, 'ready') for it in range(1, LAST_RUN)]
    return table(FIRST_READY - 1, runs)


def crowd_together(service):
    """As many lines at once as no history can have, while a checkpoint of a full table goes on: the history turns over once that is finished, and hears nobody before if there is no
    room for one more turn. Each line is answered."""
    crowd = [served.Runner(service.runners, SECONDS) for _ in range(CROWD)]
    for runner in crowd:
        runner.send(BEAT * SESSION_LINES)
    for runner in crowd:
        found = runner.take(SESSION_LINES * len(b'refused 45\n'))
        expect(found == b'refused 45\n' * SESSION_LINES and runner.rest() == (b'', True), 'a beat of nobody beside a checkpoint is answered otherwise')
        runner.close()
    expect(service.wait_settled(1, SECONDS), CROWD * SESSION_LINES, 'lines at once leave a history that does not turn over')
    expect(all(COMMANDS <= it < FULL_HISTORY + IN_A_TURN for it in service.settled), 'histories beside a checkpoint have', service.settled, 'commands')


def command_each(service, views):
    """Each command once, over a table that is full."""
    hook, runner = served.Hook(service.hooks, SECONDS), served.Runner(service.runners, SECONDS)
    lease = f'lease {FIRST_READY} {FIRST_READY} build 0 {{}}'
    ask(hook, served.event(f'd{LAST_RUN}'), f'created {LAST_RUN}')
    ask(hook, served.look(LAST_RUN), f'run {LAST_RUN} {LAST_RUN} queued - build:open(ready)')
    ask(hook, served.event('d1'), 'created 1')
    for asked, wanted in ((b'CLAIM r1 1 linux\n', lease), (f'BEAT r1 {FIRST_READY}\n'.encode(), 'go on'), (f'DONE r1 2 {FIRST_READY} success\n'.encode(), 'ok'),
                          (b'CLAIM r1 3 linux\n', lease.replace(str(FIRST_READY), str(FIRST_READY + 1)))):
        ask(runner, asked, wanted)
    runner.send(f'FETCH {LAST_RUN}\n'.encode())
    expect(runner.take(len(BODY_REPLY)) == BODY_REPLY, 'the body of the last run is another one')
    for path, wanted in (('runners/r1/lost', 'ok'), (f'runs/{FIRST_READY + 2}/cancel', 'ok')):
        ask(hook, f'POST /{path} HTTP/1.1\r\n\r\n'.encode(), wanted)
    ask(hook, served.rerun(1, 2), 'again 1 2')
    ask(hook, f'GET /runs/{LAST_RUN}/body HTTP/1.1\r\n\r\n'.encode(), served.BODY.decode())
    answer = hook.ask(served.event('one-more'))
    expect(answer == (503, 'refused 48'), 'a run too many is answered', answer)
    view_each(served.Hook(views, SECONDS))


def view_each(viewer):
    """Each view once, over a table that is full. The runners are one, and no group has a holder."""
    first, at = {'run': LAST_RUN, 'number': LAST_RUN, 'attempt': 1, 'status': 'queued'}, {'run': 1, 'attempt': 2, 'status': 'queued'}
    for target, wanted in (('/runs?limit=1', {'runs': [first], 'looked': 1, 'before': LAST_RUN}), ('/runs/1', at), (f'/runs/{LAST_RUN}', first),
                           ('/runs?status=in_progress', {'runs': [], 'looked': 10_000, 'before': LAST_RUN - 9_999}),
                           (f'/queue?from={FIRST_READY + 2}', {'queue': [{'run': it} for it in range(FIRST_READY + 3, LAST_RUN + 1)], 'from': None}),
                           ('/runners', {'runners': [{'runner': 'r1', 'number': 3, 'lease': None}], 'after': None}), ('/groups', {'groups': [], 'looked': 10_000})):
        status, found = viewer.ask(f'GET {target} HTTP/1.1\r\n\r\n'.encode())
        expect(status == 200 and has(json.loads(found), wanted), target, 'of a full table is answered', status, found[:200])
    for target, wanted in (('/healthz', 'ok'), (f'/runs/{LAST_RUN}/body', served.BODY.decode())):
        ask(viewer, f'GET {target} HTTP/1.1\r\n\r\n'.encode(), wanted)
    page = viewer.ask(b'GET /metrics HTTP/1.1\r\n\r\n')[1]
    expect(f'acts_runs{{status="completed",conclusion="success"}} {FIRST_READY - 1}\n' in page, 'the metrics of a full table have other counts')
    lines = viewer.ask(b'GET /changes HTTP/1.1\r\n\r\n')[1]
    expect(list(json.loads(lines)) == ['cursor'], 'the changes without a cursor begin with', lines[:200])
    viewer.close()


def has(found, wanted):
    """Whether a value has all that is wanted of it: members of an object, and all items of a list."""
    if isinstance(wanted, dict):
        return isinstance(found, dict) and all(name in found and has(found[name], it) for name, it in wanted.items())
    if isinstance(wanted, list):
        return isinstance(found, list) and len(found) == len(wanted) and all(map(has, found, wanted))
    return found == wanted


def last_run(acts, folder):
    """The last run of a table, and one more. Each command and each view is answered over the full table, which is checkpointed under load, and copied by `acts grow`."""
    path, new, views = f'{folder}/store', f'{folder}/larger', served.free_port()
    write(path, file(full_table(), length=LAST_AREA, layout=2))
    service = served.Forever(acts, path, view_port=views)
    crowd_together(service)
    command_each(service, views)
    wait_generation(path, LAST_AREA, 2, 'a full table is not checkpointed')
    histories = service.settled
    stopped(service)
    expect(ran(acts, ['grow', path, new, str(2 * LAST_AREA)]) == (0, 'grown\n', ''), 'the store of a full table is not copied')
    status, out, err = ran(acts, ['show', new, str(LAST_RUN)])
    expect((status, out, err) == (0, f'run {LAST_RUN} {LAST_RUN} queued - build:open(ready)\n', ''), 'the copy of a full table shows', out[:200], err)
    return f'{LAST_RUN} runs, and then 48; a checkpoint beside histories of {histories} commands; each command and each view, and a copy'


def in_one_session(client, asked):
    """Sends all at once, and compares what comes with what is wanted of each."""
    sender = threading.Thread(target=lambda: client.send(b''.join(given for given, _ in asked)), daemon=True)
    sender.start()
    for place, (given, wanted) in enumerate(asked):
        found = client.take(len(wanted))
        expect(found == wanted, given[:100], 'of', len(given), 'bytes is answered', found[:100], 'as request', place + 1, 'of a session')
    sender.join(SECONDS)
    expect(client.rest() == (b'', True), 'a session that is as long as it can be goes on')


def of_last(answers):
    """The same answers, of which the last one ends its session."""
    *others, last = answers
    return [*others, last.replace(b'\r\n\r\n', b'\r\nConnection: close\r\n\r\n', 1)]


def long_sessions(acts, folder):
    """Sessions of as many lines and requests as they can have, each as long as it can be, and then with answers that are as long as they can be: after 64 MiB of them
    the history turns over."""
    views = served.free_port()
    service, _ = opened(acts, folder, area=16 << 20, view_port=views)
    bodies = [served.BODY[:-1] + b',"n":"%05d"}' % it + b' ' * (BODY_BYTES - len(served.BODY) - 12) for it in range(SESSION_REQUESTS)]
    created = [b'HTTP/1.1 201 Created\r\nContent-Type: text/plain\r\nContent-Length: %d\r\n\r\ncreated %d\n' % (9 + len(str(it)), it) for it in range(1, 1 + SESSION_REQUESTS)]
    in_one_session(service.hook(), list(zip((served.event(f'd{it:063}', body) for it, body in enumerate(bodies)), of_last(created))))
    seen = [pairs.SEEN.encode()] * SESSION_REQUESTS
    head = pairs.LOOK.encode() + b'x:' + b'y' * 8164 + b'\r\n\r\n'
    in_one_session(service.hook(), [(head, answer) for answer in of_last(seen)])
    lines = [f'CLAIM idle {it} {pairs.LABELS}{"c" * (44 - len(str(it)))}\n'.encode() for it in range(1, 1 + SESSION_LINES)]
    expect({len(it) for it in lines} == {512}, 'lines are not as long as they can be')
    in_one_session(service.runner(), [(line, b'nothing\n') for line in lines])
    in_one_session(service.runner(), [(b'FETCH 1\n', b'body %d\n%s\n' % (BODY_BYTES, bodies[0]))] * SESSION_LINES)
    expect(service.wait_settled(1, SECONDS_OF_TURN), SESSION_LINES, 'bodies that are sent leave a history that does not turn over')
    for port, more in ((service.hooks, b''), (views, b'Cache-Control: no-store\r\n')):
        answers = [b'HTTP/1.1 200 OK\r\nContent-Type: application/json\r\nContent-Length: %d\r\n%s\r\n%s' % (BODY_BYTES, more, body) for body in bodies]
        asked = [b'GET /runs/%d/body HTTP/1.1\r\n\r\n' % it for it in range(1, 1 + SESSION_REQUESTS)]
        in_one_session(served.Hook(port, SECONDS), list(zip(asked, of_last(answers))))
    stopped(service)
    return f'sessions of {SESSION_REQUESTS} requests and {SESSION_LINES} lines, with the longest bodies, heads, lines and answers'


def padded(workflow):
    """An event whose body is as long as it can be, with a text in the place of TEXT; and that text."""
    body = json.dumps({'repo': 'o/r', 'path': 'ci.json', 'workflow': workflow})
    filled = 'G' * (BODY_BYTES - len(body) + len('TEXT'))
    return body.replace('TEXT', filled).encode(), filled


def long_names(acts, folder):
    """The longest group, label of a job, job id, delivery, event, name of a runner, and label of a runner."""
    path, views = f'{folder}/store', served.free_port()
    service, _ = opened(acts, folder, view_port=views)
    label, job_id, name = 'b' * 64, 'j' * 100, 'r' * 64
    grouped, group = padded({'concurrency': 'TEXT', 'jobs': {'build': {'runs-on': 'gpu'}}})
    labelled, own = padded({'jobs': {job_id: {'runs-on': 'TEXT'}}})
    small = json.dumps({'repo': 'o/r', 'path': 'ci.json', 'workflow': {'jobs': {job_id: {'runs-on': label}}}}).encode()
    hook, runner, viewer = service.hook(), service.runner(), served.Hook(views)
    for place, body in enumerate((grouped, grouped.replace(b'G' * 9, b'g' * 9), labelled, small), 1):
        request = served.event(f'd{place:063}', body).replace(b'push', b'e' * 64)
        for _ in range(2):
            ask(hook, request, f'created {place}')
    ask(runner, f'CLAIM {name} 1 {label}{(","  + "c" * 64) * 5}\n'.encode(), f'lease 1 4 {job_id} 0 {{}}')
    ask(runner, f'BEAT {name} 1\n'.encode(), 'go on')
    shown = ['run 1 1 queued - build:open(ready)', 'run 2 2 pending - build:blocked', f'run 3 3 queued - {job_id}:open(ready)', f'run 4 4 in_progress - {job_id}:open(running)']
    for place, line in enumerate(shown, 1):
        ask(hook, served.look(place), line)
    holders = [{'repository': 'o/r', 'group': group.lower(), 'state': state, 'run': place} for place, state in ((1, 'in_progress'), (2, 'pending'))]
    for target, wanted in (('/groups', {'groups': holders, 'from': None}), ('/runs/3', {'jobs': [{'id': job_id, 'legs': [{'labels': [own]}]}]}), ('/runs/2', {'group': group.lower()}),
                           ('/queue', {'queue': [{'run': 1}, {'run': 3, 'job': job_id, 'labels': [own]}]}),
                           (f'/runners?name={name}', {'runners': [{'runner': name, 'labels': [label, *['c' * 64] * 5]}]})):
        status, found = viewer.ask(f'GET {target} HTTP/1.1\r\n\r\n'.encode())
        expect(status == 200 and has(json.loads(found), wanted), target, 'is answered', status, found[:200])
    page = viewer.ask(b'GET /metrics HTTP/1.1\r\n\r\n')[1]
    expect(own in page, 'the metrics lack the longest label')
    stopped(service)
    queue = f'ready 1 build 0 ["gpu"]\nready 3 {job_id} 0 ["{own}"]\ngroup "o/r" "{group.lower()}" in_progress run 1 pending run 2\n'
    for words, wanted in (('show', '\n'.join([*shown, ''])), ('queue', queue), ('runners', f'runner {name} 1 lease 1 4 {job_id} 0\n')):
        status, out, err = ran(acts, [words, path])
        expect((status, out, err) == (0, wanted, ''), words, 'of the longest names prints', out[:200], err)
    return f'a group of {len(group)} bytes, a label of {len(own)}, and the longest of the other names'


CHECKS = last_run, long_names, long_sessions
