"""What the sweeps over `acts serve` share: a service in a process of its own, its clients, and a plain play of runs of one job."""

import collections
import os
import random
import re
import resource
import select
import socket
import struct
import subprocess
import threading
import time

MOMENT = 0.002
BODY = b'{"repo":"o/r","path":"ci.json","workflow":{"jobs":{"build":{"runs-on":"linux"}}}}'


class Ended(Exception):
    """The other side ended the stream."""


given_last = collections.deque(maxlen=1000)


def free_port():
    """A free port of this machine, and not one that was given here lately. It is below those that the system gives to clients, since a client could
    take it meanwhile."""
    while True:
        port = random.SystemRandom().randrange(10_000, 32_000)
        with socket.socket() as it:
            try:
                it.bind(('127.0.0.1', port))
            except OSError:
                continue
        if port not in given_last:
            given_last.append(port)
            return port


def free_ports():
    """Two of them."""
    return free_port(), free_port()


def init(acts, path, area):
    """A new store in a file."""
    if os.path.exists(path):
        os.remove(path)
    subprocess.run([acts, 'init', path, str(area)], check=True, stdout=subprocess.DEVNULL)


def show(acts, path):
    """The views that `acts show` prints."""
    return subprocess.run([acts, 'show', path], check=True, capture_output=True).stdout.decode().splitlines()


def library(source, folder):
    """A library for LD_PRELOAD, built of C."""
    built = os.path.join(folder, os.path.basename(source)[:-1] + 'so')
    subprocess.run(['cc', '-O2', '-shared', '-fPIC', '-o', built, source, '-ldl'], check=True)
    return built


started = []


def kill_all():
    """Kills the services that were started here and have not ended."""
    while started:
        child = started.pop()
        if child.poll() is None:
            child.kill()
            child.wait()


class Service:
    """A process of `acts serve`. It is ready, or it has ended already. SETTINGS are variables of its environment, LIMIT is `ulimit -v`, LIMITS are
    shell commands such as `ulimit -n 64`, USER is the id of its user, and ENDLESS are the arguments in place of `--rounds`."""

    def __init__(self, acts, path, sessions, rounds=1, settings=None, limit=None, limits=(), user=None, endless=None):
        self.hooks, self.runners = free_ports()
        self.seen, write_end = os.pipe()
        self.said = b''
        # A shell may only know descriptors of one digit, and another user can't use the path of one.
        first = [f'exec 9>&{write_end};' if write_end < 10 else f'exec 9> /proc/self/fd/{write_end};']
        if limit is not None:
            first.append(f'ulimit -v {limit};')
        first += [f'{words};' for words in limits]
        first += [f'{name}={value}' for name, value in (settings or {}).items()]
        words = ['serve', path, '--hook-port', str(self.hooks), '--runner-port', str(self.runners), '--sessions', str(sessions)]
        words += ['--rounds', str(rounds)] if endless is None else endless
        self.child = subprocess.Popen(['sh', '-c', ' '.join(first) + ' exec "$0" "$@"', acts, *words], stdout=subprocess.PIPE, stderr=subprocess.PIPE,
                                      pass_fds=(write_end,), user=user, group=user, extra_groups=None if user is None else [])
        started.append(self.child)
        os.close(write_end)
        self.ready = self.child.stdout.readline() == b'ready\n'

    def wait_failure(self, timeout):
        """Waits until a library has failed a call, and gives the moment. None: it has not."""
        if not select.select([self.seen], [], [], timeout)[0]:
            return None
        self.said += os.read(self.seen, 64)
        return float(self.said or 'nan')

    def has_failed(self):
        """Whether a library has failed a call of a service that has ended."""
        self.said += os.read(self.seen, 64)
        os.close(self.seen)
        return self.said != b''

    def end(self, timeout=300):
        """Waits for its end: the status, what it wrote after `ready`, standard error, and whether a library has failed a call."""
        try:
            out, err = self.child.communicate(timeout=timeout)
        except subprocess.TimeoutExpired:
            self.child.kill()
            self.child.communicate()
            raise
        return self.child.returncode, out.decode(), err.decode(), self.has_failed()

    def hook(self):
        return Hook(self.hooks)

    def runner(self):
        return Runner(self.runners)


class Forever(Service):
    """A process of `acts serve --forever`. What it prints of its histories is kept as it comes: `settled` has the number of entries of each."""

    def __init__(self, acts, path, turn_over=None, idle=None, view_port=None, keep_runs=None, **how):
        words = ['--forever']
        for option, value in (('--turn-over', turn_over), ('--idle', idle), ('--view-port', view_port), ('--keep-runs', keep_runs)):
            words += [] if value is None else [option, str(value)]
        super().__init__(acts, path, 1, endless=words, **how)
        self.settled, self.strange, self.news = [], [], threading.Condition()
        self.listener = threading.Thread(target=self.listen, daemon=True)
        self.listener.start()

    def listen(self):
        for line in self.child.stdout:
            found = re.fullmatch(rb'settled (\d+)\n', line)
            with self.news:
                if found:
                    self.settled.append(int(found.group(1)))
                else:
                    self.strange.append(line)
                self.news.notify_all()

    def wait_settled(self, count, timeout=300):
        """Waits until so many histories have turned over. Whether they have."""
        with self.news:
            return self.news.wait_for(lambda: len(self.settled) >= count, timeout)

    def end(self, timeout=300):
        """Waits until it ends by itself: the status, what it printed besides `settled COUNT`, standard error, and whether a library has failed
        a call."""
        try:
            status = self.child.wait(timeout)
        except subprocess.TimeoutExpired:
            self.kill()
            raise
        self.listener.join()
        with self.child.stderr as file:
            err = file.read().decode()
        self.child.stdout.close()
        return status, b''.join(self.strange).decode(), err, self.has_failed()

    def kill(self):
        """Ends it as a crash does. What was wrong until then (it has ended before, or said something wrong), or None."""
        before = self.child.poll()
        self.child.kill()
        status, out, err, _ = self.end()
        if before is not None or out or err:
            return f'the service ended with status {status}, {out!r}, {err!r}' if before is not None else f'the service said {out!r}, {err!r}'
        return None

    def descriptors(self):
        """How many descriptors it has open."""
        return len(os.listdir(f'/proc/{self.child.pid}/fd'))

    def processor_time(self):
        """The processor seconds that it has used."""
        with open(f'/proc/{self.child.pid}/stat') as file:
            fields = file.read().rsplit(')', 1)[1].split()
        return (int(fields[11]) + int(fields[12])) / os.sysconf('SC_CLK_TCK')


def room_for_streams(count):
    """Raises the limit of open files as far as possible, for this process and those that it starts. Whether there is room for so many."""
    soft, hard = resource.getrlimit(resource.RLIMIT_NOFILE)
    if soft < count and soft != resource.RLIM_INFINITY:
        soft = count if hard == resource.RLIM_INFINITY else min(count, hard)
        resource.setrlimit(resource.RLIMIT_NOFILE, (soft, hard))
    return soft == resource.RLIM_INFINITY or soft >= count


class Client:
    """A stream to a port."""

    def __init__(self, port, timeout=60):
        self.stream = socket.create_connection(('127.0.0.1', port), timeout=timeout)
        self.stream.setsockopt(socket.IPPROTO_TCP, socket.TCP_NODELAY, 1)
        self.held = b''

    def more(self):
        try:
            got = self.stream.recv(65536)
        except ConnectionResetError:
            got = b''
        if not got:
            raise Ended(self.held)
        self.held += got

    def until(self, end):
        """What comes up to and including an end."""
        while end not in self.held:
            self.more()
        front, self.held = self.held.split(end, 1)
        return front + end

    def take(self, length):
        while len(self.held) < length:
            self.more()
        front, self.held = self.held[:length], self.held[length:]
        return front

    def send(self, data):
        """Sends bytes, or pieces of them with a moment between."""
        first, *rest = data if isinstance(data, tuple) else (data,)
        try:
            self.stream.sendall(first)
            for piece in rest:
                time.sleep(MOMENT)
                self.stream.sendall(piece)
        except (BrokenPipeError, ConnectionResetError):
            raise Ended(self.held) from None

    def ask(self, what):
        """Sends one request, or one line, and waits for its answer."""
        self.send(what)
        return self.answer()

    def close(self):
        self.stream.close()

    def reset(self):
        """Ends the stream by a reset."""
        self.stream.setsockopt(socket.SOL_SOCKET, socket.SO_LINGER, struct.pack('ii', 1, 0))
        self.stream.close()

    def rest(self):
        """What comes up to the end of the stream, and whether that came without a reset."""
        got, self.held = self.held, b''
        try:
            while more := self.stream.recv(65536):
                got += more
        except ConnectionResetError:
            return got, False
        return got, True


class Hook(Client):
    """A sender of requests, which is answered before it sends the next."""

    def answer(self):
        """The status, and the answer without its line feed."""
        head = self.until(b'\r\n\r\n').decode()
        length = int(head.split('Content-Length: ')[1].split('\r\n')[0])
        return int(head.split(' ')[1]), self.take(length).decode().rstrip('\n')


class Runner(Client):
    """A runner."""

    def answer(self):
        return None, self.until(b'\n').decode().rstrip('\n')


def event(delivery, body=BODY):
    """The request that posts an event."""
    head = f'POST /events HTTP/1.1\r\nX-GitHub-Delivery: {delivery}\r\nX-GitHub-Event: push\r\nContent-Length: {len(body)}\r\n\r\n'
    return head.encode() + body


def look(run):
    return f'GET /runs/{run} HTTP/1.1\r\n\r\n'.encode()


def rerun(run, attempt):
    return f'POST /runs/{run}/attempts/{attempt} HTTP/1.1\r\n\r\n'.encode()


def asks(runs, body=BODY):
    """The commands of so many runs of one job: the port, what is sent, and what is to be answered."""
    for run in range(1, runs + 1):
        yield 'hook', event(f'd{run}', body), f'created {run}'
        yield 'runner', f'CLAIM r1 {2 * run - 1} linux\n'.encode(), f'lease {run} {run} build 0 {{}}'
        yield 'runner', f'DONE r1 {2 * run} {run} success\n'.encode(), 'ok'


def view(run, entries):
    """The view of a run after so many of these commands."""
    if entries >= 3 * run:
        return f'run {run} {run} completed success build:success(success)'
    if entries == 3 * run - 1:
        return f'run {run} {run} in_progress - build:open(running)'
    return f'run {run} {run} queued - build:open(ready)'


def views(entries):
    return [view(run, entries) for run in range(1, (entries + 2) // 3 + 1)]


def play(service, commands):
    """Asks commands in turn, over one stream on each port. How many got the wanted answers; the answer to the next one, or None if all did, or
    the stream or the service ended; and the clients."""
    clients = {}
    try:
        clients['hook'] = service.hook()
        clients['runner'] = service.runner()
    except ConnectionRefusedError:
        return 0, None, clients
    for count, (port, ask, wanted) in enumerate(commands):
        try:
            _, answer = clients[port].ask(ask)
        except Ended:
            return count, None, clients
        if answer != wanted:
            return count, answer, clients
    return len(commands), None, clients


def close(clients):
    for client in clients.values():
        client.close()
