#!/usr/bin/env python3
"""Makes random scripts and workflows, for `sweeps/compared/run`.

    sweeps/compared/scripts.py SEED LINES                 a script of so many lines
    sweeps/compared/scripts.py SEED LINES --workflow      a workflow
    sweeps/compared/scripts.py SEED RUNS --groups GROUPS  a script of so many runs in so many groups

A script is made line by line together with the plain model, so most runners ask in turn for what there is: claims and reports with the next
number, leases that are held, runs that have ended. Runs are forgotten, and runners discharged. Some lines are out of turn, repeated or no commands. Most workflows have no fault; in the
others a member or some bytes were changed. The store's own lines (`commit`, `begin`, `slice`, `finish`) are among the others.

With `--groups` all runs and legs share so many concurrency groups, whose names come from texts, `vars`, matrices, results of needs and attempts, in
spellings that are one name. Many arrivals cancel what is in progress, and runs are cancelled and run again until each is so for the last time.
"""

import json
import random
import sys

import plain

IDS = ('a', 'b', 'build', 'c', 'd-1', 'test', '_x', 'Z')
LABELS = ('linux', 'linux', 'Linux', 'x64', 'gpu', '')
CONDITIONS = ('success()', 'failure()', 'always()', 'cancelled()', '!cancelled()', '${{ always() }}', ' success() ', 'true', 'false', True, False)
GROUPS = ('deploy', 'DEPLOY', 'prod', '', '${{ github.ref_name }}', 'g-${{ inputs.n }}', '${{ github.run_attempt }}', 'Stra\u00dfe', 'STRASSE')
OF_LEGS = ('${{ matrix.n }}', "m-${{ matrix.os || 'none' }}", '${{ strategy.job-index }}', '${{ needs.a.result }}', "${{ needs.b.result || 'far' }}")
SENT = ('linux', 'main', 'x64', True, False, 0, 1, -7, None, '', 1.5, ['linux'], {'x': 'gpu'})
SAID = ('Build it', 'Build it\n\nand more\r\n', '\nafter a line', 'a "quote"\\ \u2028\u00e9', '', None, 7, ['x'])
STRANGE = (None, True, 0, 7, 1.5, '', 'x', [], {}, ['x'], {'x': 1}, '${{ x }}', '${{ matrix.n', '${{ github.ref }}', '${{ needs.a.result }}')
MANY = 'linux,x64,gpu,main,success,failure,1,2,true,m-none,m-1,m-linux,deploy,prod,far,g-'
NAMES = ('n', 'os', 'k')
VALUES = (1, 2, 'x64', 'linux', True, False, None, '1', '\u00e9"\n')


def chance(dice, share):
    return dice.random() < share


def text_for_a_leg(dice, plain_texts):
    return dice.choice(plain_texts if chance(dice, 0.7) else OF_LEGS + GROUPS)


def matrix(dice):
    made = {name: [dice.choice(VALUES) for _ in range(dice.randint(1, 3))] for name in dice.sample(NAMES, dice.choice((0, 1, 1, 1, 2, 2)))}
    for name in ('include', 'exclude'):
        if chance(dice, 0.3):
            made[name] = [{key: dice.choice(VALUES) for key in dice.sample(NAMES, dice.randint(1, 2))} for _ in range(dice.randint(0, 3))]
    return made


def concurrency(dice):
    if chance(dice, 0.5):
        return text_for_a_leg(dice, GROUPS[:4])
    made = {'group': text_for_a_leg(dice, GROUPS[:4])}
    if chance(dice, 0.7):
        made['cancel-in-progress'] = dice.choice((True, True, False, 'true', '${{ inputs.go }}', '${{ inputs.go || matrix.n }}'))
    return made


def job(dice, before):
    made = {'runs-on': text_for_a_leg(dice, LABELS)}
    if chance(dice, 0.2):
        made['runs-on'] = [text_for_a_leg(dice, LABELS) for _ in range(dice.randint(1, 3))]
    if before and chance(dice, 0.6):
        made['needs'] = dice.sample(before, dice.randint(1, min(3, len(before))))
        if len(made['needs']) == 1 and chance(dice, 0.5):
            made['needs'] = made['needs'][0]
    if chance(dice, 0.3):
        made['if'] = dice.choice(CONDITIONS)
    if chance(dice, 0.2):
        made['continue-on-error'] = dice.choice((True, False, '${{ matrix.k }}', '${{ inputs.go }}', 'true'))
    if chance(dice, 0.2):
        made['concurrency'] = concurrency(dice)
    if chance(dice, 0.5):
        made['strategy'] = {'matrix': matrix(dice)} if chance(dice, 0.8) else {}
        if chance(dice, 0.3):
            made['strategy']['fail-fast'] = dice.choice((True, False))
        if chance(dice, 0.3):
            made['strategy']['max-parallel'] = dice.randint(1, 3)
    return made


def workflow(dice):
    names, jobs = dice.sample(IDS, dice.randint(1, 5)), {}
    for place, name in enumerate(names):
        jobs[name] = job(dice, names[:place])
    made = {'jobs': jobs}
    if chance(dice, 0.2):
        made['name'] = dice.choice(('CI', '', 'linux'))
    if chance(dice, 0.3):
        made['concurrency'] = dice.choice(GROUPS) if chance(dice, 0.5) else {
            'group': dice.choice(GROUPS), 'cancel-in-progress': dice.choice((True, True, False, '${{ inputs.go }}'))}
    return made


def change(dice, value):
    """Changes one member or item somewhere in a value."""
    while True:
        keys = list(value) if isinstance(value, dict) else list(range(len(value)))
        if not keys or chance(dice, 0.1):
            if isinstance(value, dict):
                value[dice.choice(('uses', 'x', 'concurrency', 'strategy', 'if', 'needs', 'include', '1a'))] = dice.choice(STRANGE)
            return
        key = dice.choice(keys)
        if isinstance(value[key], (dict, list)) and chance(dice, 0.8):
            value = value[key]
        elif isinstance(value, dict) and chance(dice, 0.2):
            del value[key]
            return
        else:
            value[key] = dice.choice(STRANGE)
            return


def break_one(dice, made):
    """Puts a fault into a workflow that has none."""
    jobs = made['jobs']
    name = dice.choice(list(jobs))
    kind, it = dice.randrange(17), jobs[name]
    if kind < 6:
        it['strategy'] = ({'matrix': {'n': [1.5]}}, {'matrix': {'n': []}}, {'matrix': {f'n{place}': [1, 2] for place in range(13)}},
                          {'max-parallel': 0}, {'matrix': {'n': list(range(257))}}, {'matrix': {'n': [1], 'include': [{}]}})[kind]
    elif kind == 6:
        jobs[dice.choice(('1a', '', 'a.b', 'x' * 101))] = dict(it)
    elif kind == 7:
        jobs.update((f'j{place}', {'runs-on': 'x'}) for place in range(257))
    elif kind == 8:
        made['concurrency'] = '${{ matrix.n }}'
    elif kind == 9:
        made['more'] = 'x' * dice.randint(60_000, 70_000)
    elif kind < 12:
        it['needs'] = [name] if kind == 10 else ['none']
    elif kind == 12:
        for one, other in zip(jobs, list(jobs)[1:] + [name]):
            jobs[one]['needs'] = [other]
    else:
        member, value = (('runs-on', []), ('runs-on', '${{ secrets.x }}'), ('uses', './x.yml'), ('if', 'github.ref'))[kind - 13]
        it[member] = value


def encoded(dice, value):
    """The bytes of a value; at times some are changed."""
    data = json.dumps(value, ensure_ascii=chance(dice, 0.5), separators=dice.choice(((',', ':'), (', ', ': ')))).encode()
    if chance(dice, 0.04):
        at = dice.randrange(len(data))
        data = data[:at] + dice.choice((b'', b'"', b'\xff', b'}', b'[', b'1e999', b'\\ud800', b'-0', b'\\u0041')) + data[at + dice.randint(0, 1):]
    return data.replace(b'\n', b' ').removesuffix(b'\r')


def told(dice):
    """What a sender tells of an event, beside the name of its branch."""
    made = {name: dice.choice(SENT) for name in dice.sample(('ref', 'sha', 'head_ref', 'actor'), dice.randint(0, 4))}
    event = {'head_commit': {'message': dice.choice(SAID)}} if chance(dice, 0.5) else {}
    if chance(dice, 0.4):
        event['pull_request'] = {'title': dice.choice(SAID)}
    return {**made, 'event': event}


def body(dice):
    made = {'repo': dice.choice(('o/r', 'o/r', 'O/R')), 'path': dice.choice(('ci.json', 'cd.json')), 'workflow': workflow(dice)}
    if chance(dice, 0.5):
        made['inputs'] = {name: dice.choice(SENT) for name in dice.sample(('n', 'go', 'os'), dice.randint(0, 3))}
    if chance(dice, 0.4):
        made['github'] = {'ref_name': dice.choice(SENT), 'workflow': {'x': 'linux'}, **told(dice)}
    if chance(dice, 0.2):
        made['vars'] = {'l': dice.choice(SENT)}
    if chance(dice, 0.1):
        change(dice, made)
    elif chance(dice, 0.1):
        break_one(dice, made['workflow'])
    return encoded(dice, made)


class Script:
    """A script that is made together with the model."""

    def __init__(self, seed):
        self.dice, self.store, self.lines, self.deliveries = random.Random(f'script {seed}'), plain.Store(), [], 0
        self.table = self.store.table

    def run(self):
        return self.dice.randint(max(1, self.table.forgotten), max(1, self.table.last() + chance(self.dice, 0.05)))

    def number(self, name):
        runner = self.table.runners.get(name.encode())
        return (runner.number if runner else 0) + (1 if chance(self.dice, 0.95) else self.dice.randint(-1, 2))

    def lease(self, name):
        runner = self.table.runners.get(name.encode())
        return runner.holds[0] if runner and runner.holds and chance(self.dice, 0.95) else self.dice.randint(1, self.table.last_lease + 1)

    def step(self):
        """A line for the store: mostly the next step of a checkpoint."""
        if chance(self.dice, 0.4):
            return self.dice.choice((b'commit', b'commit', b'begin', b'slice', b'finish'))
        return b'begin' if self.store.left is None else b'slice' if self.store.left else b'finish'

    def line(self):
        dice, kind, name = self.dice, self.dice.random(), f'r{self.dice.randint(1, 4)}'
        holds = getattr(self.table.runners.get(name.encode()), 'holds', None)
        if kind < 0.17:
            self.deliveries += not chance(dice, 0.05)
            return b'admit d%d push %s' % (self.deliveries, body(dice))
        if kind < 0.70:
            if holds and chance(dice, 0.9):
                result = dice.choice(('success', 'success', 'success', 'failure', 'failure', 'cancelled'))
                return f'done {name} {self.number(name)} {self.lease(name)} {result}'.encode()
            labels = dice.choice(('linux', 'LINUX,x64,gpu', MANY, MANY, MANY))
            return f'claim {name} {self.number(name)} {labels}'.encode()
        if kind < 0.78:
            return f'look {self.run()}'.encode()
        if kind < 0.82:
            return f'beat {name} {self.lease(name)}'.encode()
        if kind < 0.85:
            return f'cancel {self.run()}'.encode()
        if kind < 0.87:
            return f'lost {name}'.encode()
        if kind < 0.92:
            run = self.run()
            found = self.table.known(run)
            return f'rerun {run} {(found.attempt if found else 1) + dice.choice((1, 1, 1, 0, 2))}'.encode()
        if kind < 0.93:
            return f'fetch {self.run()}'.encode()
        if kind < 0.94:
            return f'forget {self.run()}'.encode()
        if kind < 0.945:
            return f'discharge {name}'.encode()
        if kind < 0.96 and self.lines:
            return dice.choice(self.lines)
        if kind < 0.99:
            return self.step()
        return dice.choice((b'look', b'claim r1  linux', b'done r1 1 1 skipped', b'Commit', b' ', b'look 01', b'admit d_1 push {}', b'\xff', b'forget 0', b'discharge r_', b'claim r1 1 a,,b'))

    def made(self, count):
        for _ in range(count):
            line = self.line()
            self.store.answer(line)
            self.lines.append(line)
        self.lines += [b'look %d' % place for place in range(1, 1 + self.table.last())]
        return b''.join(line + b'\n' for line in self.lines)


def script(seed, count):
    return Script(seed).made(count)


NAMED = ('Stra\u00dfe {}', 'STRASSE {}', 'strasse {}')
BY_RESULTS = ('success', 'failure', 'cancelled', 'skipped')
FLAGS = (True, True, False, '${{ vars.go }}')


class Crowded(Script):
    """A script of many runs in few groups. Four of these are named by results, the others by numbers."""

    def __init__(self, seed, runs, groups):
        super().__init__(f'groups {seed}')
        self.most, self.numbers = runs, max(1, groups - len(BY_RESULTS))

    def any_number(self):
        return self.dice.randint(1, self.numbers)

    def group(self, names, flags):
        dice, one = self.dice, self.dice.choice(names)
        name = dice.choice(NAMED).format(one if one != '' else dice.choice([*map(str, range(1, 1 + self.numbers)), *BY_RESULTS]))
        return name if chance(dice, 0.4) else {'group': name, 'cancel-in-progress': dice.choice(flags)}

    def job(self, before):
        dice = self.dice
        made = {'runs-on': dice.choice(('linux', 'linux', 'x64'))}
        names, flags = ['', '${{ vars.g }}', '${{ github.run_attempt }}'], list(FLAGS)
        if before and chance(dice, 0.7):
            made['needs'] = dice.choice(before)
            names += [f'${{{{ needs.{made["needs"]}.result }}}}'] * 4
            if chance(dice, 0.6):
                made['if'] = dice.choice(('always()', 'failure()', '!cancelled()'))
        if chance(dice, 0.5):
            made['strategy'] = {'matrix': {'n': [self.any_number() for _ in range(dice.randint(1, 3))], 'go': [chance(dice, 0.5)]}, 'fail-fast': chance(dice, 0.5)}
            names += ['${{ matrix.n }}'] * 3
            flags.append('${{ matrix.go }}')
        if chance(dice, 0.8):
            made['concurrency'] = self.group(names, flags)
        return made

    def body(self):
        dice, jobs = self.dice, {}
        for name in dice.sample(IDS, dice.choice((1, 1, 2, 2, 3))):
            jobs[name] = self.job(list(jobs))
        made = {'jobs': jobs}
        if chance(dice, 0.4):
            made['concurrency'] = self.group(['', '${{ vars.g }}', '${{ github.run_attempt }}'], FLAGS)
        event = {'repo': 'o/r', 'path': 'ci.json', 'vars': {'g': str(self.any_number()), 'go': chance(dice, 0.5)}, 'workflow': made}
        return json.dumps(event, ensure_ascii=chance(dice, 0.5)).encode()

    def some_run(self, ended):
        """A run that has ended, or one that has not, if there is one."""
        found = [run.place for run in self.table.runs if (run.phase == 'ended') == ended]
        return self.dice.choice(found) if found else 1

    def line(self):
        dice, kind, name = self.dice, self.dice.random(), f'r{self.dice.randint(1, 8)}'
        holds = getattr(self.table.runners.get(name.encode()), 'holds', None)
        if kind < 0.36:
            self.deliveries += 1
            return b'admit d%d push %s' % (self.deliveries, self.body())
        if kind < 0.78:
            if holds:
                result = dice.choice(('success', 'success', 'success', 'failure', 'failure', 'cancelled'))
                return f'done {name} {self.number(name)} {self.lease(name)} {result}'.encode()
            return f'claim {name} {self.number(name)} linux,x64'.encode()
        if kind < 0.85:
            return f'cancel {self.some_run(False)}'.encode()
        if kind < 0.96:
            run = self.some_run(True)
            return f'rerun {run} {self.table.runs[run - 1].attempt + 1 if self.table.runs else 2}'.encode()
        return f'lost {name}'.encode() if kind < 0.97 else f'look {self.run()}'.encode()

    def whole(self):
        """All runs come, and each has ended: what is ready is done, and then the runs that are left are cancelled."""
        while len(self.table.runs) < self.most:
            self.made_line(self.line())
        for run in range(1, 1 + self.most):
            self.made_line(b'look %d' % run)
        while any(run.phase != 'ended' for run in self.table.runs):
            self.made_line(f'cancel {self.some_run(False)}'.encode() if chance(self.dice, 0.3) else self.line_of_runner())
        for run in range(1, 1 + self.most):
            self.made_line(b'look %d' % run)
        return b''.join(line + b'\n' for line in self.lines)

    def line_of_runner(self):
        name = f'r{self.dice.randint(1, 8)}'
        holds = getattr(self.table.runners.get(name.encode()), 'holds', None)
        number = self.table.runners[name.encode()].number + 1 if name.encode() in self.table.runners else 1
        return f'done {name} {number} {holds[0]} success'.encode() if holds else f'claim {name} {number} linux,x64'.encode()

    def made_line(self, line):
        self.store.answer(line)
        self.lines.append(line)


def crowded(seed, runs, groups):
    return Crowded(seed, runs, groups).whole()


def workflow_text(seed):
    dice = random.Random(f'workflow {seed}')
    made = workflow(dice)
    if chance(dice, 0.3):
        change(dice, made)
    elif chance(dice, 0.3):
        break_one(dice, made)
    return encoded(dice, made)


def main():
    if len(sys.argv) not in (3, 4, 5) or sys.argv[3:4] not in ([], ['--workflow'], ['--groups']):
        sys.exit(__doc__)
    seed, count, *more = sys.argv[1:]
    made = workflow_text(seed) + b'\n' if more == ['--workflow'] else crowded(seed, int(count), int(more[1])) if more else script(seed, int(count))
    with open(1, 'wb', closefd=False) as out:
        out.write(made)


if __name__ == '__main__':
    main()
