"""Services over the same file, one after the other, that end by `kill -9` under load, with histories that turn over every 150 commands."""

import os
import random
import subprocess
import time

from checking import Wrong, expect, served, stopped
from load import Load

TURN_OVER, AREA = 150, 262_144
MAX_ANSWERS, MAX_RUNS = 500, 700


def begin(acts, path):
    service = served.Forever(acts, path, turn_over=TURN_OVER)
    if not service.ready:
        raise Wrong(f'not ready: {service.end()}')
    return service


def checkpoints_in(path):
    """How many checkpoints the file has had: the generations after an open gate count them."""
    with open(path, 'rb') as file:
        heads = []
        for place in (0, AREA):
            file.seek(place)
            heads.append(file.read(10))
    return max(int.from_bytes(head[2:], 'big') for head in heads if head[0] == 0xA5) - 1


class Chain:
    """One store, and the services over it, each of which is killed."""

    def __init__(self, acts, path, dice, seed):
        self.acts, self.path, self.dice, self.load = acts, path, dice, Load(seed)
        self.kills, self.early, self.turned, self.answers = 0, 0, 0, 0
        served.init(acts, path, AREA)

    def kill_early(self):
        """Kills a service about when it opens the file."""
        hooks, runners = map(str, served.free_ports())
        words = [self.acts, 'serve', self.path, '--hook-port', hooks, '--runner-port', runners, '--sessions', '1', '--forever']
        service = subprocess.Popen(words, stdout=subprocess.DEVNULL)
        time.sleep(self.dice.random() * 0.03)
        service.kill()
        service.wait()
        self.early += 1

    def kill(self):
        """Kills a service after a number of answers, or about when a history turns over, and looks at what the file shows."""
        service = begin(self.acts, self.path)
        self.load.begin(service, self.dice.randint(1, MAX_ANSWERS))
        if self.dice.random() < 0.3:
            service.wait_settled(self.dice.randint(1, 3), 20)
            time.sleep(self.dice.random() * 0.003)
        else:
            self.load.log.over.wait(30)
            time.sleep(self.dice.random() * 0.01)
        fault = service.kill()
        self.load.end()
        expect(fault is None, fault)
        self.kills, self.turned, self.answers = self.kills + 1, self.turned + len(service.settled), self.answers + self.load.log.answers
        self.load.look_at(served.show(self.acts, self.path))

    def is_long(self):
        return len(self.load.log.runs) >= MAX_RUNS

    def end(self):
        """A last service, over which everything is finished."""
        service = begin(self.acts, self.path)
        self.load.settle(service)
        stopped(service)
        self.load.all_ended(served.show(self.acts, self.path))


def check(acts, folder, amount):
    dice, path = random.Random(amount.seed), os.path.join(folder, 'store')
    chains, kills = [], 0
    while kills < amount.kills:
        chain = Chain(acts, path, dice, f'{amount.seed} {len(chains)}')
        while kills < amount.kills and not chain.is_long():
            if dice.random() < 0.1:
                chain.kill_early()
            else:
                chain.kill()
            kills += 1
        chain.end()
        chains.append((chain, checkpoints_in(path)))
        os.remove(path)
    runs, leases = (sum(len(getattr(chain.load.log, name)) for chain, _ in chains) for name in ('runs', 'leases'))
    again = sum(attempt - 1 for chain, _ in chains for attempt in chain.load.log.begun.values())
    yield (f'{kills} services killed, {sum(chain.early for chain, _ in chains)} of them as they began, over {len(chains)} stores; '
           f'{sum(chain.turned for chain, _ in chains)} histories had turned over, {sum(count for _, count in chains)} checkpoints in the files, '
           f'{sum(chain.answers for chain, _ in chains)} answers; {runs} runs of as many deliveries, run again {again} times, {leases} leases, none lost and none twice')
