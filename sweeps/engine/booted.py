"""A machine of a trial that runs systemd: process 1 of namespaces of its own, over a copy-on-write copy of this machine's root file system."""

import os
import shutil
import signal
import subprocess

from processes import expect, run, start, until

# What process 1 finds when it begins: its root, no devices but the harmless ones, and control groups of its own.
BEGIN = '''set -eu
mount --make-rprivate /
mount -t tmpfs tmpfs "$1"
mkdir "$1/upper" "$1/work" "$1/root"
mount -t overlay overlay -o "lowerdir=/,upperdir=$1/upper,workdir=$1/work" "$1/root"
cd "$1/root"
mount -t proc proc proc
mount --bind proc/sys proc/sys
mount -o remount,bind,ro proc/sys
mount -t sysfs -o ro sysfs sys
mount -t cgroup2 cgroup2 sys/fs/cgroup
mount -t tmpfs -o mode=755 tmpfs run
mount -t tmpfs -o mode=1777 tmpfs tmp
mount -t tmpfs -o mode=755 tmpfs dev
for device in null zero full random urandom tty fuse loop-control; do [ ! -e "/dev/$device" ] || cp -a "/dev/$device" dev; done
for number in $(seq 0 31); do mknod "dev/loop$number" b 7 "$number"; done
mkdir dev/pts dev/shm
mount -t devpts -o newinstance,ptmxmode=666,mode=620 devpts dev/pts
mount -t tmpfs -o mode=1777 tmpfs dev/shm
ln -s pts/ptmx dev/ptmx
ln -s /proc/self/fd dev/fd
ln -s /proc/self/fd/0 dev/stdin
ln -s /proc/self/fd/1 dev/stdout
ln -s /proc/self/fd/2 dev/stderr
rm -f etc/systemd/system/*.target.wants/* etc/fstab
mkdir -p tmp/before
pivot_root . tmp/before
exec chroot . sh -c 'umount -l /tmp/before && mount --make-rshared / && exec env -i PATH="$PATH" LC_ALL=C container=trial /lib/systemd/systemd --unit=basic.target'
'''
NEEDED = 'unshare', 'nsenter', 'pivot_root', 'chroot', '/lib/systemd/systemd'


def missing():
    """What is not here, and is needed."""
    return [name for name in NEEDED if not shutil.which(name, path=os.environ['PATH'] + ':/usr/sbin:/sbin')] + ['root'] * (os.getuid() != 0)


class Booted:
    """ENTER are the words before a command that begins on the machine's network; without them it has a network of its own, of a loopback interface alone."""

    def __init__(self, folder, enter=()):
        os.makedirs(folder)
        words = [*enter, 'unshare', *(['--net'] if not enter else []), '--mount', '--pid', '--cgroup', '--uts', '--ipc', '--fork', '--kill-child', 'sh', '-c', BEGIN, 'sh', folder]
        self.log = folder + '.log'
        self.child = start(words, self.log)
        until(self.first, 10, 'process 1')
        until(lambda: self.state() in ('running', 'degraded'), 120, 'the start of systemd', 0.2)
        if not enter:
            self.do('ip', 'link', 'set', 'lo', 'up')

    def first(self):
        """The number that process 1 has on this machine."""
        expect(self.child.poll() is None, 'systemd has ended:', open(self.log).read()[-2000:])
        with open(f'/proc/{self.child.pid}/task/{self.child.pid}/children') as file:
            found = file.read().split()
        return int(found[0]) if found else None

    def enter(self, *words):
        return ['nsenter', '--all', '--root', '--wd', f'--target={self.first()}', 'env', '-i', 'PATH=/usr/local/sbin:/usr/local/bin:/usr/sbin:/usr/bin:/sbin:/bin',
                'LC_ALL=C', *words]

    def ask(self, *words, timeout=120, text=None):
        """The status of a command, and what it printed."""
        done = subprocess.run(self.enter(*words), input=text, stdin=subprocess.DEVNULL if text is None else None, stdout=subprocess.PIPE, stderr=subprocess.STDOUT,
                              text=True, timeout=timeout, check=False)
        return done.returncode, done.stdout.strip()

    def do(self, *words, **more):
        """What a command prints; it has to succeed."""
        status, said = self.ask(*words, **more)
        expect(status == 0, *words, 'ended with', status, said)
        return said

    def state(self):
        try:
            return self.ask('systemctl', 'is-system-running', timeout=10)[1]
        except subprocess.TimeoutExpired:
            return None

    def show(self, unit, member):
        return self.do('systemctl', 'show', '--value', '--property', member, unit)

    def path(self, name):
        """Where this machine finds a file of that one."""
        return f'/proc/{self.first()}/root{name}'

    def write(self, name, text, mode=0o644):
        os.makedirs(os.path.dirname(self.path(name)), exist_ok=True)
        with open(self.path(name), 'w') as file:
            file.write(text)
        os.chmod(self.path(name), mode)

    def install(self, acts, root):
        """`make install` of the tree ROOT with a program, which may be a trial: a script that names it."""
        with open(acts, 'rb') as file:
            trial = file.read(2) == b'#!'
        if trial:
            with open(acts) as file:
                words = file.read().split()
            copied = next(word for word in words if word.endswith('.trial'))
            shutil.copyfile(copied, self.path('/usr/local/lib/acts.trial'))
            os.chmod(self.path('/usr/local/lib/acts.trial'), 0o755)
            with open(acts) as file:
                self.write('/usr/local/lib/acts.built', file.read().replace(copied, '/usr/local/lib/acts.trial'), 0o755)
            acts = '/usr/local/lib/acts.built'
        self.do('make', '--silent', '-C', root, 'install', f'ACTS={acts}')
        self.do('systemctl', 'daemon-reload')

    def end(self):
        """As a loss of power."""
        if self.child.poll() is None and self.first():
            os.kill(self.first(), signal.SIGKILL)
        self.child.wait()
