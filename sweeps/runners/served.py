"""A service on this machine or another one, and runners on theirs."""
import contextlib
import http.client
import json
import os
import re
import select
import shutil
import socket
import subprocess
import sys
import threading

HERE = os.path.dirname(os.path.abspath(__file__))
HUB = os.path.join(HERE, '..', '..', 'hub')
sys.path += [HUB, os.path.join(HUB, 'tests')]
from harness import free_ports
from runner_trials import Host


def carry(one, other):
    """Passes on what two streams say, until one of them ends."""
    peers = {one: other, other: one}
    with one, other, contextlib.suppress(OSError):
        while True:
            for stream in select.select([one, other], [], [])[0]:
                while data := stream.recv(65536):
                    peers[stream].sendall(data)
                    break
                else:
                    return


def forward(listener, connect):
    """Passes on each stream of a listener to one that a call gives."""
    def hold(client):
        with contextlib.suppress(OSError):
            carry(client, connect())
        client.close()

    def accept():
        with contextlib.suppress(OSError):
            while True:
                threading.Thread(target=hold, args=listener.accept()[:1], daemon=True).start()
    threading.Thread(target=accept, daemon=True).start()


class Here:
    """The machine of the trial, where a service and hosts are by default."""
    words = ()  # before a command that begins there

    def connect(self, port):
        """A stream to a port of its loopback interface."""
        return socket.create_connection(('127.0.0.1', port), 60)

    def reach(self, service):
        """The words by which a runner here reaches the runner port of a service here."""
        return ['--port', str(service.runners)]


class Service:
    """A service over a new store in a folder, on this machine or another one."""

    def __init__(self, acts, folder, machine=Here()):
        self.acts, self.store, self.machine = acts, os.path.join(folder, 'store'), machine
        subprocess.run([acts, 'init', self.store, '4194304'], check=True, stdout=subprocess.DEVNULL)
        self.hooks, self.runners = free_ports(2)
        self.copies, self.process = 0, None
        self.start()

    def start(self):
        words = ['serve', self.store, '--hook-port', str(self.hooks), '--runner-port', str(self.runners), '--sessions', '32', '--forever']
        self.process = subprocess.Popen([*self.machine.words, self.acts, *words], stdout=subprocess.PIPE, stderr=subprocess.DEVNULL)
        assert self.process.stdout.readline() == b'ready\n', 'there is no service'

    def stop(self):
        self.process.kill()
        self.process.wait()
        self.process.stdout.close()

    def copy(self):
        """A copy of the store, made between two processes."""
        self.copies += 1
        self.stop()
        shutil.copy(self.store, f'{self.store}.{self.copies}')
        self.start()
        return f'{self.store}.{self.copies}'

    def restore(self, copy):
        """Goes back to a copy."""
        self.stop()
        shutil.copy(copy, self.store)
        self.start()

    def ask(self, method, path, body=None, **headers):
        """The answer of the hook port."""
        client = http.client.HTTPConnection('127.0.0.1', self.hooks)
        client.sock = self.machine.connect(self.hooks)
        client.request(method, path, body, {name.replace('_', '-'): value for name, value in headers.items()})
        answer = client.getresponse().read().decode().rstrip('\n')
        client.close()
        return answer

    def post(self, delivery, workflow, **more):
        """Admits a run, and gives its id."""
        body = json.dumps({'repo': 'octo/hello', 'path': 'ci.yml', 'workflow': workflow, **more})
        answer = self.ask('POST', '/events', body, X_GitHub_Delivery=delivery, X_GitHub_Event='push')
        assert re.fullmatch('created [0-9]+', answer), answer
        return int(answer.split()[1])


class Placed(Host):
    """A runner on a machine."""

    def __init__(self, reach, folder, notes, name='r1', machine=Here()):
        super().__init__(reach, folder, notes, name)
        self.machine = machine

    def start(self, *more, **how):
        return super().start(*more, before=tuple(self.machine.words), **how)
