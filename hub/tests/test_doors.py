"""The doors of the service: a network namespace of its own, sockets with rights, bounds and half-closes, and its end."""
from __future__ import annotations

import contextlib
import os
import pwd
import shutil
import signal
import socket
import stat
import subprocess
import sys
import tempfile
import threading
import time
from collections.abc import Callable, Iterator
from pathlib import Path

import pytest
from harness import HubProcess, Service, free_ports, limit

from acts_hub.config import ConfigError, config_of
from acts_hub.doors import namespace
from acts_hub.doors.exposure import check_exposure, exposed
from acts_hub.doors.run import NoDoors, ports_of

HUB = Path(__file__).resolve().parent.parent
HOOK, RUNNER, VIEW = map(str, free_ports(3))
PORTS = ('--hook-port', HOOK, '--runner-port', RUNNER, '--view-port', VIEW)

# What stands behind the doors: `hook` answers what came, once it has ended; `runner` counts it, once the file `read` is there; `view` speaks first, closes
# its half, and keeps what it hears. `flood` writes to a client for a second, whether it reads or not, and then resets the connection.
STAND_IN = r'''
import os, socket, struct, sys, threading, time
folder, words = sys.argv[1], sys.argv
def whole(stream):
    return b''.join(iter(lambda: stream.recv(65536), b''))
def hook(stream):
    said = whole(stream)
    if said == b'flood':
        stream.settimeout(1)
        stream.setsockopt(socket.SOL_SOCKET, socket.SO_LINGER, struct.pack('ii', 1, 0))
        try:
            while True:
                stream.sendall(bytes(65536))
        except TimeoutError:
            return stream.close()
    stream.sendall(said)
    stream.close()
def runner(stream):
    while not os.path.exists(folder + '/read'):
        time.sleep(0.05)
    stream.sendall(b'%d' % len(whole(stream)))
    stream.close()
def view(stream):
    stream.sendall(b'hello\n')
    stream.shutdown(socket.SHUT_WR)
    said = whole(stream)
    open(folder + '/heard', 'wb').write(said)
def serve(server, answer):
    while True:
        threading.Thread(target=answer, args=[server.accept()[0]], daemon=True).start()
for name, answer in (('hook', hook), ('runner', runner), ('view', view)):
    server = socket.create_server(('127.0.0.1', int(words[words.index(f'--{name}-port') + 1])), backlog=2048)
    threading.Thread(target=serve, args=[server, answer], daemon=True).start()
print('ready', flush=True)
time.sleep(600)
'''

WHY_NOT = namespace.missing()
needs_namespace = pytest.mark.skipif(WHY_NOT is not None, reason=f'no network namespace here: {WHY_NOT}')
needs_root = pytest.mark.skipif(os.geteuid() != 0, reason='needs root, to be another user')


class Behind:
    """A command behind doors in a folder."""

    def __init__(self, folder: Path, *command: str, options: tuple[str, ...] = (), user: str | None = None) -> None:
        self.folder = folder
        words = [sys.executable, '-m', 'acts_hub', 'doors', '--folder', str(folder), *options, '--', *command, *PORTS]
        group = pwd.getpwnam(user).pw_gid if user else None
        self.process = subprocess.Popen(
            words, cwd=HUB, stdin=subprocess.DEVNULL, stdout=subprocess.PIPE, stderr=subprocess.PIPE, text=True,
            user=user, group=group, extra_groups=[] if user else None)

    def connect(self, door: str, seconds: float = 60) -> socket.socket:
        stream = socket.socket(socket.AF_UNIX)
        stream.settimeout(seconds)
        stream.connect(os.fspath(self.folder / door))
        return stream

    def exchange(self, door: str, text: bytes) -> bytes:
        """What a door answers to a text and its end."""
        with self.connect(door) as stream:
            stream.sendall(text)
            stream.shutdown(socket.SHUT_WR)
            return whole(stream)

    def end(self, number: int = signal.SIGTERM) -> int:
        if self.process.poll() is None:
            self.process.send_signal(number)
        self.process.communicate(timeout=180)
        return self.process.returncode

    def words(self) -> tuple[int, str]:
        """How it ended by itself, and what it said."""
        _, said = self.process.communicate(timeout=180)
        return self.process.returncode, said


def stand_in(place: Path, *options: str, user: str | None = None) -> Behind:
    """The stand-in behind doors, once it is ready."""
    behind = Behind(place / 'doors', sys.executable, '-c', STAND_IN, str(place), options=options, user=user)
    assert behind.process.stdout and behind.process.stderr
    said = behind.process.stdout.readline()
    if said != 'ready\n':
        raise ChildProcessError(said + behind.process.stderr.read())
    return behind


@pytest.fixture
def place() -> Iterator[Path]:
    """A folder with a short name: a socket's path has 107 bytes at most."""
    made = Path(tempfile.mkdtemp(prefix='doors.', dir='/tmp'))
    yield made
    shutil.rmtree(made)


@pytest.fixture
def behind(place: Path) -> Iterator[Behind]:
    made = stand_in(place)
    yield made
    made.end()


def whole(stream: socket.socket) -> bytes:
    return b''.join(iter(lambda: stream.recv(65536), b''))


def wait_for(what: str, is_so: Callable[[], bool], seconds: float = 180) -> None:
    end = limit(seconds)
    while not is_so():
        assert time.monotonic() < end, f'waited {seconds} s for {what}'
        time.sleep(0.02)


def child_of(process: int) -> int:
    return int(Path(f'/proc/{process}/task/{process}/children').read_text().split()[0])


def is_alive(process: int) -> bool:
    try:
        return Path(f'/proc/{process}/stat').read_text().rsplit(')', 1)[1].split()[0] != 'Z'
    except FileNotFoundError:
        return False


@pytest.mark.quick
@needs_namespace
def test_ports_are_inside_alone(behind: Behind) -> None:
    """The service answers by its door; on the machine's own loopback nobody listens, since its namespace is another."""
    assert behind.exchange('hook', b'hello') == b'hello'
    for port in PORTS[1::2]:
        with pytest.raises(ConnectionRefusedError):
            socket.create_connection(('127.0.0.1', int(port)), timeout=5)
    inside = os.readlink(f'/proc/{child_of(behind.process.pid)}/ns/net')
    assert inside == os.readlink(f'/proc/{behind.process.pid}/ns/net') != os.readlink('/proc/self/ns/net')


@needs_namespace
def test_inside_is_loopback_alone(place: Path) -> None:
    """Inside there is `lo`, no other interface and no route, so the service reaches nobody."""
    script = f'import shutil; shutil.copy("/proc/net/dev", {str(place)!r}); shutil.copy("/proc/net/route", {str(place)!r})'
    assert Behind(place / 'doors', sys.executable, '-c', script).words() == (0, '')
    assert [line.split(':')[0].strip() for line in (place / 'dev').read_text().splitlines()[2:]] == ['lo']
    assert (place / 'route').read_text().splitlines()[1:] == []


@pytest.mark.quick
@needs_namespace
def test_sockets_belong_to_one_user(behind: Behind) -> None:
    assert stat.S_IMODE(behind.folder.stat().st_mode) == 0o700
    for door in ('hook', 'runner', 'view'):
        seen = (behind.folder / door).stat()
        assert stat.S_ISSOCK(seen.st_mode)
        assert (stat.S_IMODE(seen.st_mode), seen.st_uid) == (0o600, os.geteuid())


@needs_namespace
@needs_root
def test_another_user_is_kept_out(behind: Behind) -> None:
    """A step that runs as another user gets no connection, also where it can look into the folder."""
    behind.folder.parent.chmod(0o755)
    behind.folder.chmod(0o755)
    script = f'import socket; socket.socket(socket.AF_UNIX).connect({str(behind.folder / "hook")!r})'
    tried = subprocess.run(
        ['/usr/bin/python3', '-c', script], user='nobody', group='nogroup', extra_groups=[], capture_output=True, text=True)
    assert tried.returncode == 1 and 'PermissionError' in tried.stderr


@needs_namespace
@needs_root
def test_user_and_group(place: Path) -> None:
    """Begun by root: doors and service are a user who keeps none of root's rights, and a group may use the doors."""
    place.chmod(0o777)
    behind = stand_in(place, '--user', 'nobody', '--group', 'daemon')
    try:
        for process in (behind.process.pid, child_of(behind.process.pid)):
            status = Path(f'/proc/{process}/status').read_text()
            assert 'Uid:' + 4 * f'\t{pwd.getpwnam("nobody").pw_uid}' in status
            assert 'CapEff:\t0000000000000000' in status
        assert 'NoNewPrivs:\t1' in status
        seen = (behind.folder / 'hook').stat()
        assert (stat.S_IMODE(seen.st_mode), seen.st_gid) == (0o660, 1)
        assert stat.S_IMODE(behind.folder.stat().st_mode) == 0o750
    finally:
        assert behind.end() == 0
    assert [path.name for path in behind.folder.iterdir()] == ['lock']


@needs_namespace
@needs_root
def test_an_ordinary_user_has_doors_too(place: Path) -> None:
    """Without root the namespace is one of a user namespace; where the kernel allows none, it ends with words."""
    place.chmod(0o777)
    try:
        behind = stand_in(place, user='nobody')
    except ChildProcessError as fault:
        assert 'no network namespace for the service (unshare: ' in str(fault)
        pytest.skip('the kernel gives ordinary users no network namespace')
    try:
        assert behind.exchange('hook', b'x') == b'x'  # as root, who may open each socket
        with pytest.raises(ConnectionRefusedError):
            socket.create_connection(('127.0.0.1', int(HOOK)), timeout=5)
        assert (behind.folder / 'hook').stat().st_uid == pwd.getpwnam('nobody').pw_uid
    finally:
        behind.end()


@needs_namespace
def test_half_closes_pass_both_ways(behind: Behind, place: Path) -> None:
    """The service closes its half first; what the client says afterwards arrives, with its end."""
    with behind.connect('view') as stream:
        assert whole(stream) == b'hello\n'
        stream.sendall(b'later')
        stream.shutdown(socket.SHUT_WR)
        wait_for('what it heard', lambda: (place / 'heard').exists() and (place / 'heard').read_bytes() == b'later')


@needs_namespace
def test_a_large_exchange_is_whole(behind: Behind) -> None:
    """Eight megabytes go in and come back, byte by byte the same."""
    text = os.urandom(1 << 16) * 128
    assert behind.exchange('hook', text) == text


@needs_namespace
def test_bytes_in_flight_are_bounded(behind: Behind, place: Path) -> None:
    """A service that does not read stops its client after a few megabytes, most of them the kernel's; none is lost."""
    with behind.connect('runner') as stream:
        stream.settimeout(2)
        sent = 0
        with pytest.raises(TimeoutError):
            while sent < 1 << 28:
                sent += stream.send(bytes(65536))
        assert sent < 16 << 20
        kilobytes = Path(f'/proc/{behind.process.pid}/status').read_text().split('VmRSS:')[1].split()[0]
        assert int(kilobytes) < 100_000
        (place / 'read').touch()
        stream.settimeout(180)
        stream.shutdown(socket.SHUT_WR)
        assert whole(stream) == b'%d' % sent


@needs_namespace
def test_clients_are_bounded(place: Path) -> None:
    """With as many clients as are allowed, the next one waits until one has gone."""
    behind = stand_in(place, '--clients', '3')
    try:
        held = [behind.connect('hook') for _ in range(3)]
        with behind.connect('hook') as waiting:
            waiting.sendall(b'x')
            waiting.shutdown(socket.SHUT_WR)
            waiting.settimeout(1)
            with pytest.raises(TimeoutError):
                waiting.recv(1)
            held.pop().close()
            waiting.settimeout(180)
            assert whole(waiting) == b'x'
        for stream in held:
            stream.close()
    finally:
        behind.end()


@needs_namespace
def test_a_client_that_reads_nothing_gives_its_place_back(place: Path) -> None:
    """The service resets a client that takes nothing; then its place goes to the next one within seconds."""
    behind = stand_in(place, '--clients', '1')
    try:
        with behind.connect('hook') as stuck:
            stuck.sendall(b'flood')
            stuck.shutdown(socket.SHUT_WR)
            assert behind.exchange('hook', b'y') == b'y'
    finally:
        behind.end()


@needs_namespace
def test_a_thousand_silent_clients_are_held_by_few_bytes(behind: Behind) -> None:
    """With 1,000 clients that say nothing the next one is answered, and the doors stay small."""
    silent = [behind.connect('hook') for _ in range(1000)]
    assert behind.exchange('hook', b'z') == b'z'
    kilobytes = Path(f'/proc/{behind.process.pid}/status').read_text().split('VmRSS:')[1].split()[0]
    assert int(kilobytes) < 400_000
    for stream in silent:
        stream.close()


@needs_namespace
def test_it_ends_with_its_child(place: Path) -> None:
    """The exit status is the command's, and no socket stays."""
    assert Behind(place / 'doors', sys.executable, '-c', 'import sys; sys.exit(7)').words() == (7, '')
    assert [path.name for path in (place / 'doors').iterdir()] == ['lock']


@needs_namespace
@pytest.mark.parametrize('number', [signal.SIGTERM, signal.SIGINT])
def test_a_signal_ends_the_child_first(behind: Behind, number: int) -> None:
    child = child_of(behind.process.pid)
    assert behind.end(number) == 0
    assert not is_alive(child)


@needs_namespace
def test_a_kill_leaves_no_child(behind: Behind, place: Path) -> None:
    """After kill -9 of the doors the service is gone, so the next life can open its file; it replaces the sockets."""
    child = child_of(behind.process.pid)
    assert behind.end(signal.SIGKILL) == -signal.SIGKILL
    wait_for('the end of the child', lambda: not is_alive(child))
    assert (behind.folder / 'hook').exists()
    again = stand_in(place)
    assert again.exchange('hook', b'again') == b'again'
    again.end()


@needs_namespace
def test_one_process_for_a_folder(behind: Behind) -> None:
    """A second one ends with words, and the first goes on."""
    words = f'acts-hub doors: another process has the doors in {behind.folder}\n'
    assert Behind(behind.folder, 'true').words() == (1, words)
    assert behind.exchange('hook', b'still') == b'still'


@needs_namespace
def test_a_service_that_is_away_closes_the_client(place: Path) -> None:
    """Before the service listens, a client sees the end of its connection, and tries again."""
    behind = Behind(place / 'doors', sys.executable, '-c', 'import time; time.sleep(60)')
    try:
        wait_for('the doors', lambda: (place / 'doors' / 'view').exists())
        with behind.connect('hook') as stream:
            assert stream.recv(1) == b''
    finally:
        behind.end()


def test_no_namespace_is_said(place: Path) -> None:
    """Where the kernel gives none, it starts with --open-loopback alone, and says what that means."""
    refused = 'namespace.CLONE_NEWNET = namespace.CLONE_NEWUSER = 1'  # a flag that unshare(2) refuses
    script = f'import sys; from acts_hub.doors import namespace; {refused}; from acts_hub.__main__ import main; sys.exit(main())'
    words = [sys.executable, '-c', script, 'doors', '--folder', str(place / 'doors')]
    reason = ('acts-hub doors: no network namespace for the service (unshare: Invalid argument; with a user namespace: Invalid argument), '
              'so every program of this machine can use its ports')
    done = subprocess.run([*words, '--', 'true', *PORTS], cwd=HUB, capture_output=True, text=True, timeout=180)
    assert (done.returncode, done.stderr) == (1, f'{reason}; with --open-loopback it starts nevertheless\n')
    done = subprocess.run([*words, '--open-loopback', '--', 'true', *PORTS], cwd=HUB, capture_output=True, text=True, timeout=180)
    assert (done.returncode, done.stderr) == (0, f'{reason}\n')


@pytest.mark.quick
@pytest.mark.parametrize(('command', 'words'), [
    ('acts serve f --hook-port 1 --runner-port 2', 'the command has no --view-port with a number from 1 to 65535'),
    ('acts serve f --hook-port 1 --runner-port 2 --view-port', 'the command has no --view-port with a number from 1 to 65535'),
    ('acts serve f --hook-port 0 --runner-port 2 --view-port 3', 'the command has no --hook-port with a number from 1 to 65535'),
    ('acts serve f --hook-port 1 --runner-port 65536 --view-port 3', 'the command has no --runner-port with a number from 1 to 65535'),
    ('acts serve f --hook-port ² --runner-port 2 --view-port 3', 'the command has no --hook-port with a number from 1 to 65535'),
    ('acts serve f --hook-port 1 --runner-port 1 --view-port 3', 'two ports of the command are the same')])
def test_a_command_without_its_ports(command: str, words: str) -> None:
    with pytest.raises(NoDoors) as fault:
        ports_of(command.split())
    assert str(fault.value) == words


def test_a_path_that_is_too_long(place: Path) -> None:
    folder = place / ('x' * 100)
    words = f"acts-hub doors: {folder / 'hook'} is longer than the 107 bytes that a socket's path may have\n"
    assert Behind(folder, 'true').words() == (1, words)


@needs_namespace
def test_words_of_what_lacks(place: Path) -> None:
    """A program that is not there, a user that is not there."""
    assert Behind(place / 'a', '/nowhere/acts').words() == (1, 'acts-hub doors: /nowhere/acts: No such file or directory\n')
    status, said = Behind(place / 'b', 'true', options=('--user', 'no-such-user')).words()
    assert (status, 'no-such-user' in said) == (1, True)


def test_the_hub_refuses_open_ports(tmp_path: Path) -> None:
    """Ports of TCP are every program's: the hub starts with open_loopback alone, and says it then too."""
    hub = HubProcess(tmp_path, Service(tmp_path, hook=1, runner=2, view=3), tables={'hub': {'open_loopback': False}})
    hub.start(wait=False)
    assert hub.process
    assert hub.process.process and hub.process.process.wait(30) == 1
    words = 'every program of this machine, so every step too, can use the {} port 127.0.0.1:{}'
    said = '; '.join(words.format(name, port) for name, port in (('hook', 1), ('runner', 2), ('view', 3)))
    advice = '`acts-hub doors` or the units acts-door@ close them; open_loopback = true in [hub] starts nevertheless'
    assert hub.process.said() == f'acts-hub: {said}. {advice}\n'


def test_the_hub_refuses_sockets_that_all_may_open(place: Path) -> None:
    """A socket that every user may open is no door; one that others can't reach is."""
    folder = place / 'doors'
    folder.mkdir()
    with contextlib.ExitStack() as kept:
        for name in ('hook', 'runner', 'view'):
            made = kept.enter_context(socket.socket(socket.AF_UNIX))
            made.bind(str(folder / name))
            (folder / name).chmod(0o600)
        tables = {'service': {name: f'unix:{folder}/{name}' for name in ('hook', 'runner', 'view')}}
        config = config_of(tables)
        assert exposed(config) == []
        (folder / 'hook').chmod(0o666)
        assert exposed(config) == []  # `place` is its owner's alone
        place.chmod(0o755)
        assert exposed(config) == [f'every user of this machine can use the hook port unix:{folder}/hook']
        with pytest.raises(ConfigError):
            check_exposure(config)
        check_exposure(config_of({**tables, 'hub': {'open_loopback': True}}))


def test_a_folder_of_something_else_is_left_alone(place: Path) -> None:
    """Doors set the rights of their folder, so one with other things in it is refused, and stays as it is."""
    (place / 'letter').write_text('private')
    place.chmod(0o755)
    words = f'acts-hub doors: {place} has other things in it (letter): doors need a folder of their own, whose rights they set\n'
    assert Behind(place, 'true').words() == (1, words)
    assert stat.S_IMODE(place.stat().st_mode) == 0o755
