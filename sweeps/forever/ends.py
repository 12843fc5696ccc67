"""What ends the process, and with which status: a port that is taken, a file that is no store, a closed standard output, and wrong arguments."""

import os
import socket
import subprocess

from checking import Wrong, expect, served


def ended(acts, words, wanted, what):
    """Runs a program that has to end by itself."""
    try:
        it = subprocess.run([acts, *map(str, words)], stdout=subprocess.PIPE, stderr=subprocess.PIPE, timeout=20)
    except subprocess.TimeoutExpired:
        raise Wrong(f'{what}: the service goes on') from None
    got = it.returncode, it.stdout.decode(), it.stderr.decode()
    expect(got[0] == wanted[0] and (got[1:] == wanted[1:] or wanted[0] == 2), what, 'ends with', got)


def words_of(path, hooks, runners, *more):
    return ['serve', path, '--hook-port', hooks, '--runner-port', runners, '--sessions', 2, *more]


def before_it_is_ready(acts, folder, path):
    """A service that can't begin."""
    one, other = served.free_ports()
    refused = lambda number, why='': (1, '', f'acts: refused {number}\n{why}')
    port_taken = f'acts: port {one}: Address already in use (os error 98)\n'
    none = os.path.join(folder, 'none')
    with socket.socket() as taken:
        taken.bind(('127.0.0.1', one))
        taken.listen()
        ended(acts, words_of(path, one, other, '--forever'), refused(61, port_taken), 'a port that is taken')
        ended(acts, words_of(path, other, one, '--forever'), refused(61, port_taken), 'the other port that is taken')
    no_file = refused(61, f'acts: {none}: No such file or directory (os error 2)\n')
    ended(acts, words_of(none, one, other, '--forever'), no_file, 'a file that is not there')
    empty = os.path.join(folder, 'empty')
    open(empty, 'wb').close()
    ended(acts, words_of(empty, one, other, '--forever'), refused(53), 'an empty file')
    wrong = (['--forever', '--rounds', 2], ['--idle', 5], ['--turn-over', 5], ['--forever', '--idle', 0], ['--forever', '--idle', 86_401],
             ['--forever', '--turn-over', 0], ['--forever', '--turn-over', 50_001], ['--forever', 'more'], ['--view-port', one],
             ['--forever', '--view-port', 0], ['--forever', '--board', folder])
    for words in wrong:
        ended(acts, words_of(path, one, other, *words), (2, '', ''), ' '.join(map(str, words)))
    return len(wrong)


def without_output(acts, path):
    """Nobody reads what the service prints: it ends once it has something to print."""
    service = served.Service(acts, path, 2, endless=['--forever', '--turn-over', '5'])
    expect(service.ready, 'not ready')
    service.child.stdout.close()
    client, answers = service.runner(), 0
    try:
        while answers < 1000:
            expect(client.ask(b'BEAT nobody 1\n') == (None, 'refused 45'), 'a beat')
            answers += 1
    except served.Ended:
        pass
    client.close()
    status = service.child.wait(20)
    err = service.child.stderr.read().decode()
    wanted = 1, 'acts: refused 61\nacts: standard output: Broken pipe (os error 32)\n'
    expect((status, err) == wanted and answers >= 5, 'without a standard output: status', status, err, answers, 'answers')


def check(acts, folder, amount):
    path = os.path.join(folder, 'store')
    served.init(acts, path, 1 << 20)
    count = before_it_is_ready(acts, folder, path)
    yield f'ports that are taken, a file that is not there, and an empty one: refused 61 and 53; {count} faults of the command line: status 2'
    without_output(acts, path)
    yield 'nobody reads the standard output: the service ends with 61 once a history has turned over'
