"""Where the service and the hosts of a trial are: each on a machine of its own, which is a network namespace, where these are to be had."""
import os
import shutil
import signal
import socket
import sys
import time

HERE = os.path.dirname(os.path.abspath(__file__))
sys.path += [os.path.join(HERE, '..', 'engine')]
import machines
import processes
from served import Here, forward


class Machine:
    """A machine of a network, on which a service or a runner may be."""

    def __init__(self, places, name):
        self.places, self.network, self.name = places, places.network, name
        self.words = self.network.enter(name)

    def connect(self, port):
        return self.network.connect(self.name, port, 60)

    def reach(self, service):
        return self.places.reach(self.name, service)


class Apart:
    """A machine `service`, and one for each host. The service listens on the loopback interface of its machine alone. A proxy listens on its machine's
    address. A runner reaches that address by a port of its own machine."""

    def __init__(self, hosts):
        self.network = machines.Network(f'runners{os.getpid()}', ['service', *hosts])
        self.address, self.listeners, self.cuts = self.network.addresses['service'], [], 0
        self.service, self.machines = Machine(self, 'service'), [Machine(self, name) for name in hosts]

    def listen(self, name, address, connect):
        """Passes on what comes to an address of a machine. Gives the port."""
        with machines.Inside(self.network, name):
            listener = socket.create_server((address, 0))
        self.listeners.append(listener)
        forward(listener, connect)
        return listener.getsockname()[1]

    def join(self, name, port):
        with machines.Inside(self.network, name):
            return socket.create_connection((self.address, port), 60)

    def begin(self, service):
        """The proxy of a service, which is on its machine."""
        self.port = self.listen('service', self.address, lambda: self.service.connect(service.runners))

    def reach(self, name, service):
        return ['--port', str(self.listen(name, '127.0.0.1', lambda: self.join(name, self.port)))]

    def cut(self, host, seconds):
        """Cuts the link of a host for a while; gives False if there is none."""
        self.cuts += 1
        self.network.cut(host.machine.name)
        time.sleep(seconds)
        self.network.heal(host.machine.name)
        return True

    def end(self):
        """Of a trial."""
        for listener in self.listeners:
            listener.shutdown(socket.SHUT_RDWR)
            listener.close()
        self.listeners.clear()

    def remove(self):
        self.network.remove()

    def __str__(self):
        return f'each host in a network namespace of its own, by a port of its own to a proxy, {self.cuts} cuts of a link'


class Together:
    """All of it on this machine."""

    def __init__(self, hosts, why):
        self.why, self.service, self.machines = why, Here(), [Here()] * hosts

    def begin(self, service):
        pass

    def cut(self, host, seconds):
        return False

    def end(self):
        pass

    def remove(self):
        pass

    def __str__(self):
        return f'all hosts on this machine, since {self.why}'


def places(hosts):
    """Namespaces, if they are to be had; says if not."""
    missing = [name for name in ('ip', 'nsenter') if not shutil.which(name)]
    if os.geteuid() or missing:
        return Together(hosts, f'{missing[0]} is not here' if missing else 'only root makes namespaces')
    signal.signal(signal.SIGTERM, lambda *_: sys.exit('ended by a signal'))  # so that the namespaces are removed
    try:
        return Apart([f'host{number}' for number in range(hosts)])
    except processes.Wrong as fault:
        return Together(hosts, f'no namespace could be made: {fault}')
