"""Machines of a trial: network namespaces on a bridge, whose links go down and up, and which lose their sockets when they restart."""

import ctypes
import os
import socket
import threading

from processes import expect, libc, run

NEW_NETWORK = 0x40000000
SUBNET = '10.88.0'


class Network:
    """A machine `engine` with a bridge, and others, each with a link to it."""

    def __init__(self, tag, others):
        self.tag, self.made, self.addresses = tag, [], {}
        try:
            self.begin(others)
        except BaseException:
            self.remove()
            raise

    def begin(self, others):
        self.add('engine', 1)
        self.inside('engine', 'ip', 'link', 'add', 'bridge', 'type', 'bridge')
        self.inside('engine', 'ip', 'addr', 'add', f'{self.addresses["engine"]}/24', 'dev', 'bridge')
        self.inside('engine', 'ip', 'link', 'set', 'bridge', 'up')
        for place, name in enumerate(others):
            self.add(name, place + 2)
            self.join(name)

    def add(self, name, place):
        run('ip', 'netns', 'add', self.space(name))
        self.made.append(name)
        self.addresses[name] = f'{SUBNET}.{place}'
        self.inside(name, 'ip', 'link', 'set', 'lo', 'up')

    def join(self, name):
        self.inside('engine', 'ip', 'link', 'add', f'to_{name}', 'type', 'veth', 'peer', 'name', 'eth0', 'netns', self.space(name))
        self.inside('engine', 'ip', 'link', 'set', f'to_{name}', 'master', 'bridge', 'up')
        self.inside(name, 'ip', 'addr', 'add', f'{self.addresses[name]}/24', 'dev', 'eth0')
        self.inside(name, 'ip', 'link', 'set', 'eth0', 'up')

    def space(self, name):
        return f'{self.tag}_{name}'

    def enter(self, name):
        """The words before a command that begins on a machine."""
        return ['nsenter', f'--net=/run/netns/{self.space(name)}']

    def inside(self, name, *words):
        return run(*self.enter(name), *words)

    def cut(self, name):
        self.inside('engine', 'ip', 'link', 'set', f'to_{name}', 'down')

    def heal(self, name):
        self.inside('engine', 'ip', 'link', 'set', f'to_{name}', 'up')

    def restart(self, name):
        """The machine loses power, and with it what its sockets had not sent. Its processes have ended before."""
        self.inside('engine', 'ip', 'link', 'del', f'to_{name}')
        run('ip', 'netns', 'del', self.space(name))
        self.made.remove(name)
        self.add(name, int(self.addresses[name].rsplit('.', 1)[1]))
        self.join(name)

    def unsent(self, name):
        """The bytes that sockets without a process still want to send."""
        sockets = (line.split() for line in self.inside(name, 'ss', '-Htan').splitlines())
        return sum(int(it[2]) for it in sockets if it[0] != 'ESTAB' and it[2].isdigit() and not it[3].startswith('127.'))

    def connect(self, name, port, timeout):
        """A stream to a port of a machine's loopback interface."""
        with Inside(self, name):
            stream = socket.create_connection(('127.0.0.1', port), timeout)
        stream.setsockopt(socket.IPPROTO_TCP, socket.TCP_NODELAY, 1)
        return stream

    def remove(self):
        for name in reversed(self.made):
            run('ip', 'netns', 'del', self.space(name))


class Inside:
    """This thread is on a machine for a while."""

    def __init__(self, network, name):
        self.there = f'/run/netns/{network.space(name)}'

    def __enter__(self):
        self.home = os.open(f'/proc/self/task/{threading.get_native_id()}/ns/net', os.O_RDONLY)
        there = os.open(self.there, os.O_RDONLY)
        try:
            expect(libc.setns(there, NEW_NETWORK) == 0, 'setns', ctypes.get_errno())
        finally:
            os.close(there)

    def __exit__(self, *_):
        expect(libc.setns(self.home, NEW_NETWORK) == 0, 'setns back', ctypes.get_errno())
        os.close(self.home)
