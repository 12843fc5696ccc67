"""What `cephfs` and `rbd` share: commands with a time limit, the blocklist of Ceph, and what is mounted. It needs the Python modules of Ceph, which the package
of the command `ceph` brings along."""

import functools
import json
import os
import subprocess
import sys
import threading
import time
import traceback

import cephfs
import rados

SECONDS = int(os.environ.get('ACTS_SECONDS', '60'))
CONNECT_SECONDS = min(SECONDS, 10)
# An entry names one mount and not the machine, so it need not be lifted: the next mount has a name of its own.
EXPIRES = int(os.environ.get('ACTS_BLOCKLIST_SECONDS', str(10 * 365 * 86400)))


class Refused(Exception):
    """This machine must not serve the file."""


def setting(name):
    if not os.environ.get(name):
        raise Refused(f'{name} is not set')
    return os.environ[name]


def call(*words, seconds=SECONDS):
    """What a command prints. It has to succeed in time."""
    try:
        ended = subprocess.run(words, stdin=subprocess.DEVNULL, stdout=subprocess.PIPE, stderr=subprocess.PIPE, timeout=seconds, check=False, text=True)
    except (OSError, subprocess.TimeoutExpired) as fault:
        raise Refused(f'{" ".join(words)}: {fault}') from None
    if ended.returncode:
        raise Refused(f'{" ".join(words)}: status {ended.returncode}: {ended.stderr.strip()[-300:]}')
    return ended.stdout


def in_time(what, name):
    """What a call of Ceph gives. Some of these wait without end for a server that is gone."""
    given = []

    def do():
        try:
            given.append(what())
        except (rados.Error, cephfs.Error) as fault:
            given.append(fault)

    thread = threading.Thread(target=do, daemon=True)
    thread.start()
    thread.join(SECONDS)
    if not given or isinstance(given[0], Exception):
        raise Refused(f'{name}: {given[0] if given else f"no answer within {SECONDS} seconds"}')
    return given[0]


@functools.lru_cache(maxsize=None)
def cluster():
    """The cluster that CEPH_CONF names, as the user ACTS_ADMIN."""
    name = os.environ.get('ACTS_ADMIN', 'client.admin')
    made = rados.Rados(conffile=os.environ.get('CEPH_CONF', '/etc/ceph/ceph.conf'), name=name)
    in_time(lambda: made.connect(timeout=CONNECT_SECONDS) or True, 'the cluster')
    return made


def answer_in(given, words):
    """The answer to a command, as JSON. The addresses on the blocklist are followed by a second value, of ranges."""
    status, out, err = given
    if status:
        raise Refused(f'{words["prefix"]}: {os.strerror(-status)}: {err}')
    out = out.decode().strip()
    return json.JSONDecoder().raw_decode(out)[0] if out else None


def ask(prefix, **words):
    """A command of the monitors, as `ceph PREFIX` asks it."""
    words, monitors = {'prefix': prefix, 'format': 'json', **words}, cluster()
    return answer_in(in_time(lambda: monitors.mon_command(json.dumps(words), b''), prefix), words)


def tell(server, prefix, **words):
    """A command of a server of CephFS, as `ceph tell mds.SERVER PREFIX` asks it."""
    words, monitors = {'prefix': prefix, 'format': 'json', **words}, cluster()

    def do():
        client = cephfs.LibCephFS(rados_inst=monitors)
        client.init()
        try:
            return client.mds_command(server, json.dumps(words), b'')
        finally:
            client.shutdown()

    return answer_in(in_time(do, prefix), words)


def blocklist():
    """The addresses on the blocklist."""
    return {entry['addr'] for entry in ask('osd blocklist ls')}


def block(addresses):
    """No write of these clients is carried out from now on."""
    for address in addresses:
        say('fence', address)
        ask('osd blocklist', blocklistop='add', addr=address, expire=float(EXPIRES))
    if addresses and (missing := set(addresses) - blocklist()):
        raise Refused(f'not on the blocklist: {" ".join(sorted(missing))}')


def wait_for(what, name):
    """Waits until there is something, and gives it."""
    end = time.monotonic() + SECONDS
    while not (found := what()):
        if time.monotonic() > end:
            raise Refused(f'{name} did not come within {SECONDS} seconds')
        time.sleep(0.2)
    return found


def mount_point():
    """The folder of the mount."""
    os.makedirs(setting('ACTS_MOUNT'), exist_ok=True)
    return setting('ACTS_MOUNT')


def is_mounted(folder):
    with open('/proc/mounts') as mounts:
        return any(line.split(' ')[1] == folder for line in mounts)


def unmount(folder):
    """Takes a mount away, also one whose engine does not answer. A call that was too late, or that failed, may have done it all the same."""
    while is_mounted(folder):
        try:
            call('umount', folder, seconds=5)
        except Refused:
            force(folder)


def force(folder):
    try:
        call('umount', '--force', '--lazy', '--no-canonicalize', folder)
    except Refused:
        if is_mounted(folder):
            raise


def say(*words):
    print(*words, file=sys.stderr, flush=True)


def undo(release):
    try:
        release()
    except Refused as refused:
        say('not released:', refused)


def attempt(name, plan):
    """Does a plan in a process of its own, since a fault of Ceph's library ends its process. The status, or None if a signal has ended it."""
    child = os.fork()
    if child:
        status = os.waitpid(child, 0)[1]
        return None if os.WIFSIGNALED(status) else os.WEXITSTATUS(status)
    try:
        plan()
        status = 0
    except Refused as refused:
        say(f'{name} {sys.argv[1]}: refused: {refused}')
        status = 1
    except BaseException:
        traceback.print_exc()
        status = 1
    os._exit(status)  # a call of Ceph that has no answer would keep the process


def play(acquire, release):
    """The main program of an engine. What a signal has ended is tried once more: each plan begins by taking away what is there."""
    name = os.path.basename(sys.argv[0])
    plans = {'acquire': acquire, 'release': release}
    if len(sys.argv) != 2 or sys.argv[1] not in plans:
        sys.exit(f'usage: {name} acquire|release')
    status = attempt(name, plans[sys.argv[1]])
    if status is None:
        say(f'{name} {sys.argv[1]}: ended by a signal, and tried again')
        status = attempt(name, plans[sys.argv[1]])
    if status != 0 and sys.argv[1] == 'acquire':
        undo(release)
    sys.exit(1 if status is None else status)
