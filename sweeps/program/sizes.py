"""Sizes that a team has. `sweeps/edits/tested_bodies/acts.edits` has a body for each that is right up to half of it, or that lets go of no memory."""

import json
import re
import subprocess
import tempfile
import time

from checking import expect, opened, served, stopped, turned_over
from command_lines import ran
from encoded import claim, file, job, leg, number, run, table
from files import held, write

RUNS, RUNNERS, LEASED_FROM = 20_000, 2_000, 17_000
TABLE_AREA, SECONDS = 4 << 20, 600
# What a history has that turns over by itself, and the most that one more turn of a few clients adds.
COMMANDS, IN_A_TURN, HISTORY_AREA = 50_000, 16, 1 << 18
BODY_BYTES, CONNECTIONS = 65_536, 2_000
SESSIONS, SESSION_LINES, SESSION_REQUESTS = 32, 1_024, 64
RERUNS, LAST_ATTEMPT, NAME, TURN_OVER = 10_000, 1_000, 'g' * 190, 1_000
# Bytes. A group that stays known, or memory that stays taken for it, is several times as much after so many re-runs.
MOST_MEMORY = 512 << 10
# A trial keeps what was freed aside for a while otherwise.
FREED_AT_ONCE = {'ASAN_OPTIONS': 'quarantine_size_mb=0:thread_local_quarantine_size_kb=0'}
JOBS, RUNS_OF_JOBS = 40, 500
BEAT = b'BEAT nobody 1\n'


def stored(place, phase, lease=0):
    """A run of one job: its leg is ready, running or has succeeded."""
    live, state, at = {'ready': (1, 1, 2), 'running': (1, 1, 3), 'ended': (2, 2, 5)}[phase]
    return run(place, live, 0, job(state, leg(at, lease)), attempt=number(1))


def large_table():
    """Runs that have ended, then one for each runner at work, then ready ones."""
    last = LEASED_FROM + RUNNERS
    runs = [stored(it, 'ended', it) if it <= LEASED_FROM else stored(it, 'running', it) if it <= last else stored(it, 'ready')
            for it in range(1, RUNS + 1)]
    runners = sorted(f'r{it}' for it in range(1, RUNNERS + 1))
    return table(last, runs, [held(it, 1, claim(it, 1), lease_of(it), (lease_of(it), 1), lease_of(it)) for it in runners])


def lease_of(runner):
    return LEASED_FROM + int(runner[1:])


def view(place):
    last = LEASED_FROM + RUNNERS
    return served.view(place, 3 * place - (0 if place <= LEASED_FROM else 1 if place <= last else 2))


def generation(path, at):
    with open(path, 'rb') as it:
        it.seek(at)
        gate, _, *rest = it.read(10)
    return int.from_bytes(rest, 'big') if gate == 0xA5 else 0


def wait_generation(path, at, wanted, otherwise):
    """Waits until the area at an offset is of this generation."""
    end = time.monotonic() + SECONDS
    while generation(path, at) < wanted:
        expect(time.monotonic() < end, otherwise, 'in', SECONDS, 's')
        time.sleep(0.1)


def ask(client, asked, wanted):
    found = client.ask(asked)[1]
    expect(found == wanted, asked[:100], 'is answered', found[:200], 'and not', wanted)


def expect_large(acts, path, runs, runners):
    for words, lines in (('show', runs), ('runners', runners)):
        status, out, err = ran(acts, [words, path])
        found = out.splitlines()
        wrong = next((place for place, (one, other) in enumerate(zip(found, lines)) if one != other), min(len(found), len(lines)))
        expect((status, err) == (0, '') and found == lines, words, 'of the large table: line', wrong + 1, 'of', len(found), found[wrong:wrong + 1], err)


def many_runs(acts, folder):
    """A large table is checkpointed, opened and played on."""
    path = f'{folder}/store'
    write(path, file(large_table(), length=TABLE_AREA, layout=2))
    runs = [view(it) for it in range(1, RUNS + 1)]
    runners = [f'runner {it} 1 lease {lease_of(it)} {lease_of(it)} build 0' for it in sorted(f'r{it}' for it in range(1, RUNNERS + 1))]
    service = served.Forever(acts, path)
    hook, runner = service.hook(), service.runner()
    ask(hook, served.event(f'd{RUNS + 1}'), f'created {RUNS + 1}')
    runs.append(f'run {RUNS + 1} {RUNS + 1} queued - build:open(ready)')
    wait_generation(path, TABLE_AREA, 2, 'a large table is not checkpointed')
    stopped(service)
    expect_large(acts, path, runs, runners)
    service = served.Forever(acts, path)
    hook, runner = service.hook(), service.runner()
    first = LEASED_FROM + RUNNERS + 1
    ask(hook, served.event(f'd{RUNS - 1}'), f'created {RUNS - 1}')
    ask(runner, f'CLAIM r{RUNNERS} 1 linux\n'.encode(), f'lease {first - 1} {first - 1} build 0 {{}}')
    ask(runner, f'DONE r{RUNNERS} 2 {first - 1} success\n'.encode(), 'ok')
    ask(hook, served.look(first - 1), served.view(first - 1, 3 * (first - 1)))
    ask(runner, f'CLAIM r{RUNNERS} 3 linux\n'.encode(), f'lease {first} {first} build 0 {{}}')
    stopped(service)
    return f'{RUNS} runs and {RUNNERS} runners are checkpointed, opened and played on'


def long_body(acts, folder):
    """The longest body, posted and fetched on both ports."""
    body = served.BODY[:-1] + b',"more":"'
    body += b'e' * (BODY_BYTES - len(body) - 2) + b'"}'
    service, _ = opened(acts, folder)
    hook = service.hook()
    ask(hook, served.event('d1', body), 'created 1')
    hook.send(b'GET /runs/1/body HTTP/1.1\r\n\r\n')
    head, found = hook.until(b'\r\n\r\n'), hook.take(BODY_BYTES)
    expect(found == body and head.startswith(b'HTTP/1.1 200 OK\r\nContent-Type: application/json\r\n'), 'the longest body differs, after', head)
    answer = hook.ask(served.event('d2', body + b' '))
    expect(answer == (413, 'refused 24'), 'a body that is a byte too long is answered', answer)
    runner = service.runner()
    runner.send(b'FETCH 1\n')
    expect(runner.until(b'\n') == b'body %d\n' % BODY_BYTES and runner.take(BODY_BYTES + 1) == body + b'\n', 'a runner fetches another body')
    stopped(service)
    return f'a body of {BODY_BYTES} bytes is posted, and fetched by a sender and a runner'


def many_legs(acts, folder):
    """256 jobs of 256 legs each: checked, and played."""
    values = ','.join(map(str, range(16)))
    jobs = ','.join(f'"j{it:03}":{{"runs-on":"x","strategy":{{"matrix":{{"a":[{values}],"b":[{values}]}}}}}}' for it in range(256))
    combos = [f'{{"a":{a},"b":{b}}}' for a in range(16) for b in range(16)]
    wanted = ''.join(f'j{it:03} {place} {combo}\n' for it in range(256) for place, combo in enumerate(combos))
    found = ran(acts, ['check'], f'{{"jobs":{{{jobs}}}}}')
    expect(found == (0, wanted, ''), '65,536 legs are checked as', len(found[1]), 'bytes', found[1][-100:], found[2])
    script = f'admit d1 push {{"repo":"o/r","path":"ci.json","workflow":{{"jobs":{{{jobs}}}}}}}\nclaim r1 1 x\ncommit\nlook 1\n'
    states = ' '.join(f'j{it:03}:open({",".join(["running" if it == 0 else "ready"] + ["ready"] * 255)})' for it in range(256))
    wanted = f'created 1\nlease 1 1 j000 0 {combos[0]}\ncommitted 2\nrun 1 1 in_progress - {states}\n'
    found = ran(acts, ['play'], script)
    expect(found == (0, wanted, ''), '65,536 legs are played as', found[1][:100], found[1][-100:], found[2])
    return '256 jobs of 256 legs are checked and played'


def beats(port, count):
    """Beats of nobody, as many in one session."""
    runner = served.Runner(port)
    runner.send(BEAT * count)
    expect(runner.take(count * len(b'refused 45\n')) == b'refused 45\n' * count, 'beats of nobody are answered otherwise')
    runner.close()


def long_history(acts, folder):
    """Two histories of a service without end, as long as they are without an option. Together they have more commands than a history can have, so the second one begins anew. Their
    records are many times as long as an area, so one checkpoint comes after the other."""
    service, path = opened(acts, folder, area=HISTORY_AREA)
    left = 2 * (COMMANDS + IN_A_TURN)
    while left:
        beats(service.runners, min(SESSION_LINES, left))
        left -= min(SESSION_LINES, left)
    expect(service.wait_settled(2, SECONDS), 'histories of', COMMANDS, 'commands do not turn over')
    expect(all(COMMANDS <= it < COMMANDS + IN_A_TURN for it in service.settled), 'the histories that turn over have', service.settled, 'commands')
    checkpoints = max(generation(path, 0), generation(path, HISTORY_AREA)) - 1
    expect(checkpoints > 2, 'beside', sum(service.settled), 'commands there were', checkpoints, 'checkpoints')
    stopped(service)
    return f'histories of {service.settled} commands turn over, beside {checkpoints} checkpoints'


def full_round(acts, folder):
    """As many sessions as a round can have, each as long as it can be. Their transcripts are compared with the history."""
    path = f'{folder}/store'
    served.init(acts, path, TABLE_AREA)
    service = served.Service(acts, path, SESSIONS)
    for _ in range(SESSIONS):
        beats(service.runners, SESSION_LINES)
        hook = service.hook()
        for _ in range(SESSION_REQUESTS):
            ask(hook, served.look(1), 'refused 40')
        hook.close()
    commands = SESSIONS * (SESSION_LINES + SESSION_REQUESTS)
    ended = service.end(SECONDS)[:3]
    expect(ended == (0, f'settled {commands}\n', ''), 'a round of', commands, 'commands ends with', ended)
    return f'{2 * SESSIONS} transcripts of {commands} commands are compared'


def one_after_another(acts, folder):
    """More connections to each port than it has places, one after another."""
    views = served.free_port()
    service, _ = opened(acts, folder, view_port=views)
    ports = ((service.hook, served.look(1), 'refused 40'), (service.runner, BEAT, 'refused 45'), (lambda: served.Hook(views), b'GET /healthz HTTP/1.1\r\n\r\n', 'ok'))
    for _ in range(CONNECTIONS):
        for come, asked, wanted in ports:
            client = come()
            ask(client, asked, wanted)
            client.close()
    stopped(service)
    return f'{CONNECTIONS} connections to each of {len(ports)} ports, one after another'


def attempts_body():
    """A run and a leg in groups that name the attempt, and a leg that never arrives in a group that its need's result names."""
    each = f'{NAME}-${{{{ github.run_id }}}}-${{{{ github.run_attempt }}}}'
    jobs = {'a': {'runs-on': 'x', 'concurrency': f'a-{each}'},
            'b': {'runs-on': 'x', 'needs': 'a', 'concurrency': f'b-{each}-${{{{ needs.a.result }}}}'}}
    return json.dumps({'repo': 'o/r', 'path': 'ci.json', 'workflow': {'concurrency': f'w-{each}', 'jobs': jobs}}).encode()


def rerun_each(service, first, last):
    """Cancels and runs again, from re-run number `first` on: each run up to its last attempt."""
    for begun in range(first, last, SESSION_REQUESTS // 2):
        hook, asked = service.hook(), []
        for it in range(begun, min(last, begun + SESSION_REQUESTS // 2)):
            run, attempt = 1 + it // (LAST_ATTEMPT - 1), 2 + it % (LAST_ATTEMPT - 1)
            asked += [(f'POST /runs/{run}/cancel HTTP/1.1\r\n\r\n'.encode(), 'ok'), (served.rerun(run, attempt), f'again {run} {attempt}')]
        hook.send(b''.join(request for request, _ in asked))
        for _, wanted in asked:
            found = hook.answer()[1]
            expect(found == wanted, 'a cancel or a re-run is answered', found, 'and not', wanted)
        hook.close()


def memory(service):
    """The bytes of memory that a service has taken, once one more history has turned over."""
    turned_over(service, service.runner()).close()
    with open(f'/proc/{service.child.pid}/status') as file:
        return 1024 * int(re.search(r'VmData:\s+(\d+) kB', file.read())[1])


def many_attempts(acts, folder):
    """Runs that are run again, each attempt in groups of its own, take no more memory than after ten."""
    service, _ = opened(acts, folder, turn_over=TURN_OVER, settings=FREED_AT_ONCE)
    hook = service.hook()
    for run in range(1, 2 + RERUNS // (LAST_ATTEMPT - 1)):
        ask(hook, served.event(f'd{run}', attempts_body()), f'created {run}')
    hook.close()
    rerun_each(service, 0, 10)
    after_ten = memory(service)
    rerun_each(service, 10, RERUNS)
    more = memory(service) - after_ten
    expect(more <= MOST_MEMORY, RERUNS, 're-runs take', more, 'bytes more than ten, and not at most', MOST_MEMORY)
    stopped(service)
    return f'{RERUNS} re-runs, each in groups of its own, take {more} bytes more than ten'


def held_memory(pid):
    """The most memory that a process has held so far, in KiB; 0 once it has ended. (`ru_maxrss` begins with what its parent held.)"""
    with open(f'/proc/{pid}/status', encoding='ascii') as status:
        return next((int(line.split()[1]) for line in status if line.startswith('VmHWM:')), 0)


def most_memory(acts, events, jobs=JOBS):
    """The most memory, in KiB, of a script with a run of a workflow of so many jobs for each of these events: the workflow's name and the commit's message."""
    jobs = {f'job{it}': {'runs-on': 'linux'} for it in range(jobs)}
    bodies = [{'repo': 'o/r', 'path': 'ci.json', 'github': {'message': said}, 'workflow': {'name': name, 'jobs': jobs}} for name, said in events]
    lines = [f'admit d{it} push {json.dumps(body, separators=(",", ":"))}' for it, body in enumerate(bodies)]
    with tempfile.TemporaryFile() as script:
        script.write('\n'.join(lines).encode())
        script.seek(0)
        player = subprocess.Popen([acts, 'play'], stdin=script, stdout=subprocess.DEVNULL)
    most = 0
    while player.poll() is None:
        most = max(most, held_memory(player.pid))
        time.sleep(0.001)
    expect(player.returncode == 0, 'a script of', len(lines), 'runs ends with', player.returncode)
    return most


def one_workflow(acts, folder):
    """Runs of one workflow keep its plan once, whatever else is in their events, and so does their history."""
    none = most_memory(acts, [])
    one, each = (most_memory(acts, [(name(it), str(it)) for it in range(RUNS_OF_JOBS)]) - none for name in (lambda it: 'w', lambda it: f'w{it}'))
    expect(one < 0.75 * each, RUNS_OF_JOBS, 'runs of one workflow take', one, 'KiB, of a workflow each', each)
    return f'{RUNS_OF_JOBS} runs of one workflow of {JOBS} jobs take {one} KiB, of a workflow each {each}'


def one_event(acts, folder):
    """Runs of one event's bytes keep these once, with all that was read of them."""
    none = most_memory(acts, [])
    one, each = (most_memory(acts, [('w', f'{said(it):01800}') for it in range(RUNS_OF_JOBS)], 1) - none for said in (lambda it: 7, lambda it: it))
    expect(one < 0.75 * each, RUNS_OF_JOBS, 'runs of the same bytes take', one, 'KiB, of other bytes each', each)
    return f'{RUNS_OF_JOBS} runs of the same event take {one} KiB, of an event with another message each {each}'


CHECKS = many_runs, long_body, many_legs, long_history, full_round, one_after_another, many_attempts, one_workflow, one_event
