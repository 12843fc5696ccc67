"""A small cluster of Ceph on the machine `engine`: a monitor, three OSDs, and two servers of CephFS, of which one stands by. No manager, whose
statistics nothing here needs."""

import json
import os
import uuid

from processes import end, expect, resident, run, start, until

SETTINGS = """[global]
fsid = {fsid}
mon host = [v2:{address}:3300,v1:{address}:6789]
public network = {address}/24
auth cluster required = none
auth service required = none
auth client required = none
run dir = {folder}/run
log file = {folder}/log/$name.$pid.log
admin socket = {folder}/run/$name.$pid.asok
crash dir = {folder}/crash
mon cluster log file = {folder}/log/cluster.log
mon data avail warn = 1
mon data avail crit = 1
mon osd min down reporters = 1
mon osd reporter subtree level = osd
mon tick interval = 1
osd pool default size = 3
osd pool default min size = 2
osd pool default pg autoscale mode = off
osd crush chooseleaf type = 0
osd heartbeat interval = 1
osd heartbeat grace = 4
mds tick interval = 1
mds beacon interval = 1
mds beacon grace = 4
[mon]
mon data = {folder}/mon
mon memory target = 134217728
[osd]
osd data = {folder}/osd.$id
osd objectstore = bluestore
bluestore block size = 2147483648
bluestore cache autotune = false
bluestore cache size = 33554432
osd memory target = 939524096
osd op num shards = 2
osd op num threads per shard = 1
[mds]
mds data = {folder}/mds.$id
mds cache memory limit = 67108864
[client]
objecter tick interval = 1
objecter timeout = 2
"""


class Cluster:
    def __init__(self, network, folder):
        self.network, self.folder, self.children = network, folder, {}
        for name in ('run', 'log', 'crash', 'mon', 'osd.0', 'osd.1', 'osd.2', 'mds.f', 'mds.g'):
            os.makedirs(os.path.join(folder, name))
        self.settings = os.path.join(folder, 'ceph.conf')
        self.environment = {**os.environ, 'CEPH_CONF': self.settings}

    def begin(self):
        self.begin_monitor()
        for place in '012':
            self.begin_osd(place)
        until(lambda: self.osds_up() == 3, 120, 'three OSDs', 0.2)

    def begin_monitor(self):
        address, fsid, made = self.network.addresses['engine'], str(uuid.uuid4()), os.path.join(self.folder, 'monmap')
        with open(self.settings, 'w') as file:
            file.write(SETTINGS.format(fsid=fsid, address=address, folder=self.folder))
        self.do('monmaptool', '--create', '--addv', 'm', f'[v2:{address}:3300,v1:{address}:6789]', '--fsid', fsid, made)
        self.do('ceph-mon', '--mkfs', '-i', 'm', '--monmap', made)
        self.start('mon', 'm')

    def begin_osd(self, place):
        name = str(uuid.uuid4())
        self.ask('osd', 'new', name, place)
        self.do('ceph-osd', '-i', place, '--mkfs', '--osd-uuid', name)
        self.start('osd', place)

    def begin_file_system(self):
        for pool in ('metadata', 'data'):
            self.ask('osd', 'pool', 'create', pool, '8', '8')
        self.ask('fs', 'new', 'acts', 'metadata', 'data')
        # The least that the program takes. By default it is 60 seconds.
        self.ask('fs', 'set', 'acts', 'session_timeout', '30')
        self.start('mds', 'f')
        self.start('mds', 'g')
        until(self.active_server, 120, 'a server of CephFS', 0.2)

    def begin_images(self):
        self.ask('osd', 'pool', 'create', 'images', '8', '8')
        self.do('rbd', 'pool', 'init', 'images')

    def do(self, *words):
        return run(*self.network.enter('engine'), *words, env=self.environment)

    def ask(self, *words):
        """The answer to a command, the first value of JSON in it."""
        answer = self.do('ceph', '--connect-timeout', '60', '--format', 'json', *words).strip()
        return json.JSONDecoder().raw_decode(answer)[0] if answer else None

    def start(self, kind, place):
        words = [*self.network.enter('engine'), f'ceph-{kind}', '-f', '-i', place]
        self.children[kind, place] = start(words, os.path.join(self.folder, 'log', f'{kind}.{place}.out'), env=self.environment)

    def kill(self, kind, place):
        end(self.children.pop((kind, place)))

    def osds_up(self):
        return self.ask('osd', 'stat')['num_up_osds']

    def active_server(self):
        """The server of CephFS that is active, or None."""
        servers = self.ask('fs', 'get', 'acts')['mdsmap']['info'].values()
        return next((it['name'] for it in servers if it['state'] == 'up:active'), None)

    def blocked(self):
        return [entry['addr'] for entry in self.ask('osd', 'blocklist', 'ls')]

    def check(self):
        """All that was started is there."""
        for (kind, place), child in self.children.items():
            expect(child.poll() is None, kind, place, 'has ended with', child.poll())

    def memory(self):
        return {f'{kind}.{place}': resident(child.pid) for (kind, place), child in self.children.items()}

    def stop(self):
        for child in self.children.values():
            child.kill()
        for child in self.children.values():
            child.wait()
