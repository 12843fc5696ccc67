"""`acts-hub up` in a folder, as a test drives it."""
from __future__ import annotations

import os
import pathlib
import signal
import ssl
import subprocess

from harness import HUB, PYTHON, Answer, Process, acts, request, until

NAMES = ('service', 'hub', 'runner')


class Up:
    """The command, its folder, and what it has printed. In the folder's place sockets need a short path."""

    def __init__(self, place: pathlib.Path, *words: str) -> None:
        self.place, self.folder = place, place / 'up'
        self.process = Process([PYTHON, '-m', 'acts_hub', 'up', str(self.folder), '--acts', acts(), '--listen', '127.0.0.1:0', *words], place, 'up',
                               {'PYTHONPATH': str(HUB)})

    def start(self) -> Up:
        """Starts it, and waits till the example's run has ended."""
        before = self.said().count('Ctrl-C ends all of this')
        self.process.start()
        until(lambda: self.said().count('Ctrl-C ends all of this') > before or self._ended(), 120, 'the end of the example')
        return self

    def _ended(self) -> bool:
        if not self.process.is_running():
            raise AssertionError(f'it has ended: {self.said()}')
        return False

    def said(self) -> str:
        return self.process.said()

    def line(self, head: str) -> str:
        """What follows the head of a line, at its last occurrence."""
        return [line for line in self.said().splitlines() if line.startswith(head)][-1][len(head):]

    @property
    def url(self) -> str:
        return self.line('Address: ')

    @property
    def port(self) -> int:
        return int(self.url.rpartition(':')[2])

    @property
    def token(self) -> str:
        return self.line('Token: ')

    @property
    def hook(self) -> pathlib.Path:
        """The door to the hook port."""
        return self.folder / 'doors' / 'hook'

    @property
    def view(self) -> pathlib.Path:
        """The door to the view port."""
        return self.folder / 'doors' / 'view'

    def get(self, path: str, token: str | None = None) -> Answer:
        """From the hub, whose certificate is the folder's."""
        context = ssl.create_default_context(cafile=str(self.folder / 'certificate.pem'))
        headers = {'Authorization': f'Bearer {token}'} if token else {}
        return request(self.port, 'GET', path, None, headers, context)

    def admit(self, body: bytes, delivery: str) -> int:
        """Admits an event by the door, as the hub does; the run."""
        answer = request(self.hook, 'POST', '/events', body, {'X-GitHub-Delivery': delivery, 'X-GitHub-Event': 'push'})
        assert answer.status == 201, answer.text
        return int(answer.text.split()[1])

    def conclusion(self, run: int) -> str | None:
        """How a run has ended; None if it has not."""
        found: str | None = request(self.view, 'GET', f'/runs/{run}').json()['conclusion']
        return found

    def children(self) -> dict[str, int]:
        """The processes that it started, by their names."""
        found = {}
        for number in pathlib.Path(f'/proc/{self.process.id}/task/{self.process.id}/children').read_text().split():
            words = pathlib.Path(f'/proc/{number}/cmdline').read_bytes().split(b'\0')
            name = {b'doors': 'service', b'serve': 'hub', b'--hub': 'runner'}.get(words[4] if len(words) > 4 else b'')
            if name:
                found[name] = int(number)
        return found

    def service(self) -> int:
        """The process of the service itself."""
        doors = self.children()['service']
        return int(pathlib.Path(f'/proc/{doors}/task/{doors}/children').read_text().split()[0])

    def gh(self, *words: str) -> subprocess.CompletedProcess[str]:
        """The real gh, as the printed line sets it up."""
        host = self.url.partition('://')[2]
        environment = {**os.environ, 'SSL_CERT_FILE': str(self.folder / 'certificate.pem'), 'GH_HOST': host, 'GH_ENTERPRISE_TOKEN': self.token,
                       'GH_CONFIG_DIR': str(self.place / 'gh'), 'NO_COLOR': '1'}
        return subprocess.run(['gh', *words, '-R', f'{host}/octo/hello'], env=environment, capture_output=True, text=True, timeout=120)

    def end(self, number: int = signal.SIGINT) -> int:
        """Ctrl-C; the status."""
        return self.process.kill(number)


def is_alive(process: int) -> bool:
    """Whether a process runs, also if it is nobody's child."""
    try:
        return pathlib.Path(f'/proc/{process}/stat').read_text().rsplit(')', 1)[1].split()[0] != 'Z'
    except FileNotFoundError:
        return False
