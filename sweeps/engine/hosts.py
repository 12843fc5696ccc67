"""A machine that can have the file: it takes it by the operator's script of examples/two_machines, and serves it by `acts serve`."""

import os
import signal
import subprocess
from unittest import mock

from processes import end, expect, start

HERE = os.path.dirname(os.path.abspath(__file__))
SCRIPTS = os.path.join(HERE, '../../examples/two_machines')
# The seconds that a step of a script may take, one of a script that has to refuse, and an answer to a look.
STEP, REFUSAL_STEP, HEALTH = 60, 15, 3


class Host:
    """SCRIPT is `cephfs` or `rbd`, SETTINGS are its environment."""

    def __init__(self, network, name, script, folder, acts, settings):
        self.network, self.name, self.acts, self.folder = network, name, acts, folder
        self.mount, self.script = os.path.join(folder, f'at_{name}'), os.path.join(SCRIPTS, script)
        os.makedirs(self.mount)
        self.settings = {**os.environ, 'ACTS_MOUNT': self.mount, 'ACTS_SECONDS': str(STEP), **settings}
        self.service = None

    @property
    def file(self):
        return os.path.join(self.mount, 'runs.store')

    def ask(self, word, timeout=180):
        """The status and the last words of the script."""
        words = [*self.network.enter(self.name), self.script, word]
        ended = subprocess.run(words, env=self.settings, stdin=subprocess.DEVNULL, capture_output=True, text=True, timeout=timeout, check=False)
        return ended.returncode, ended.stderr.strip()

    def acquire(self):
        status, words = self.ask('acquire')
        expect(status == 0, self.name, 'did not acquire the file:', words)

    def release(self):
        status, words = self.ask('release')
        expect(status == 0, self.name, 'did not release the file:', words)

    def refusal(self, *whys):
        """What the script says that does not acquire the file, for one of these reasons. It has to refuse, with nothing mounted."""
        with mock.patch.dict(self.settings, ACTS_SECONDS=str(REFUSAL_STEP)):
            status, words = self.ask('acquire')
        expect(status == 1 and not os.path.ismount(self.mount), self.name, 'acquired the file, and should not have:', status, words)
        expect(any(f'refused: {why}' in words for why in whys), self.name, 'refuses for another reason than', whys, 'that is', words)
        return next(line for line in words.splitlines() if 'refused:' in line)[:140]

    def is_healthy(self):
        words = [*self.network.enter(self.name), os.path.join(SCRIPTS, 'health'), '8080', str(HEALTH)]
        return subprocess.run(words, stdin=subprocess.DEVNULL, timeout=60, check=False).returncode == 0

    def engines(self):
        """The processes that serve the mount."""
        for pid in filter(str.isdigit, os.listdir('/proc')):
            try:
                with open(f'/proc/{pid}/cmdline', 'rb') as file:
                    words = file.read().decode(errors='replace').split('\0')
            except OSError:
                continue
            if os.path.basename(words[0]) in ('ceph-fuse', 'nbdkit', 'nbdfuse', 'glusterfs') and any(self.mount in word for word in words):
                yield int(pid)

    def crash(self):
        """What a loss of power does to the processes: the mount ends, so that the service, which may wait for it, can end too."""
        for pid in self.engines():
            os.kill(pid, signal.SIGKILL)
        self.end_service()
        self.release()

    def serve(self, seats=8, preload=None):
        """Starts a service, and does not wait until it is ready."""
        words = [*self.network.enter(self.name), self.acts, 'serve', self.file, '--hook-port', '8080', '--runner-port', '8081',
                 '--sessions', str(seats), '--forever']
        settings = {**os.environ, **({'LD_PRELOAD': preload} if preload else {})}
        self.service = start(words, stdout=subprocess.PIPE, stderr=subprocess.PIPE, env=settings)

    def is_ready(self):
        return self.service.stdout.readline() == b'ready\n'

    def ended(self, seconds):
        """How the service ended by itself, or None if it has not."""
        try:
            _, err = self.service.communicate(timeout=seconds)
        except subprocess.TimeoutExpired:
            return None
        status, self.service = self.service.returncode, None
        return status, err.decode().strip()

    def locked_out(self):
        """How a service ends if another process has the lock of the file."""
        return 1, f'acts: refused 61\nacts: {self.file}: another process has its lock'

    def waits(self):
        """What a service says whose file system has not answered for two seconds."""
        return f'acts: {self.file}: the file system has not answered for 2 seconds; waiting for the file and its lock'

    def said(self):
        """What the service has said on standard error since the last time."""
        os.set_blocking(self.service.stderr.fileno(), False)
        said = self.service.stderr.read() or b''
        os.set_blocking(self.service.stderr.fileno(), True)
        return said.decode().strip()

    def end_service(self):
        """Kills the service, and says how it had ended before, or None."""
        if not self.service:
            return None
        before = self.service.poll()
        end(self.service)
        err = self.service.stderr.read().decode().strip()
        self.service.stdout.close()
        self.service.stderr.close()
        self.service = None
        return None if before is None else (before, err)
