"""The sweep over an image of RBD with ext4, mapped under its exclusive lock by librbd (`map_by_nbd`), since that needs no module of the kernel."""

import os
import random
import threading
import time

import units
from failovers import Trial, fault_in, say_control
from hosts import HERE, Host
from processes import Broken, expect, run, say

IMAGE, PLAIN, SIZE = 'images/acts', 'images/plain', '160M'
MAP = os.path.join(HERE, 'map_by_nbd')


def hosts_over(cluster, folder, acts, names='ab'):
    """Two hosts over a new image."""
    cluster.do('rbd', 'create', '--size', SIZE, IMAGE)
    hosts = []
    for name in names:
        below = os.path.join(folder, f'at_{name}.nbd')
        settings = {'CEPH_CONF': cluster.settings, 'ACTS_IMAGE': IMAGE, 'ACTS_MAP': f'{MAP} map {below}', 'ACTS_UNMAP': f'{MAP} unmap {below}'}
        hosts.append(Host(cluster.network, name, 'rbd', folder, acts, settings))
    device = mapped(hosts[0])
    run('mkfs.ext4', '-q', device)
    hosts[0].release()
    return hosts


def mapped(host, **more):
    """Maps the image by hand. Gives the device."""
    words = [*host.network.enter(host.name), *host.settings['ACTS_MAP'].split(), IMAGE]
    return run(*words, env={**host.settings, **more}).strip()


def units_tried(cluster, hosts, folder, acts):
    """The units over the image, without a store."""
    hosts[0].acquire()
    if os.path.exists(hosts[0].file):
        os.remove(hosts[0].file)
    hosts[0].release()

    def settings(name):
        below = f'{MAP} %s /run/acts_{name}.nbd'
        return {'ACTS_IMAGE': IMAGE, 'ACTS_MAP': below % 'map', 'ACTS_UNMAP': below % 'unmap'}

    try:
        units.tried(cluster, folder, acts, 'rbd', settings)
    finally:
        for device in loops_left():
            run('losetup', '--detach', device)


def loops_left():
    """Devices of machines that have lost power: the kernel lives on, and their file has no folder any more."""
    lines = run('losetup', '--list', '--noheadings', '--output', 'NAME,BACK-FILE').splitlines()
    return [line.split()[0] for line in lines if line.split()[1:2] == ['/nbd']]


def refused_without_lock(cluster, host):
    """An image that has no exclusive lock is not served."""
    cluster.do('rbd', 'create', '--size', SIZE, '--image-feature', 'layering', PLAIN)
    host.settings['ACTS_IMAGE'] = PLAIN
    say('    acquire of an image without an exclusive lock:', host.refusal('the image has no exclusive lock'))
    host.settings['ACTS_IMAGE'] = IMAGE


def sweep(cluster, hosts, folder, seed, dice, times, faults):
    trial = Trial(cluster.network, hosts, seed, dice)
    trial.begin()
    trial.play(times, faults)
    faults[1]()
    refused_without_lock(cluster, trial.there)
    trial.spell()
    found = trial.close(folder)
    cluster.check()
    trial.report('RBD', found)


def without_lock(cluster, hosts, folder, seed):
    """The control: both hosts map the image without the lock, mount it and serve. Whether that was found."""
    trial = Trial(cluster.network, hosts, seed, random.Random(seed))

    def play():
        serve_shared(trial, hosts)
        status, words = hosts[0].ask('acquire')
        expect(status == 0, "the image can't be mounted any more:", words, kind=Broken)
        trial.begin_service(hosts[0])
        trial.load.stop()
        trial.close(folder)

    return say_control('an image that two hosts map without its exclusive lock', fault_in(trial, play))


def serve_shared(trial, hosts):
    """Both hosts serve, with clients of their own, and end."""
    stop = threading.Event()
    trial.make_store()
    for host in hosts:
        host.release()
        run('mount', mapped(host, SHARED='1'), host.mount)
        trial.start(host)
        trial.strays(stop, host)
        time.sleep(2)
    stop.set()
    for host in hosts:
        host.end_service()
        host.release()
