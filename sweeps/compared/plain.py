#!/usr/bin/env python3
"""A plain model of docs/MODEL.md and docs/FORMATS.md: what `acts play`, `acts check` and sessions of both kinds have to write.

    sweeps/compared/plain.py play < SCRIPT
    sweeps/compared/plain.py check < WORKFLOW
    sweeps/compared/plain.py hook AREA [--preload SCRIPT] < BYTES
    sweeps/compared/plain.py lines AREA [--preload SCRIPT] < BYTES

It folds the lines over a table of lists and dictionaries, and finds everything by going over the whole table from the first run: no store, no
index, no limit of memory. `hook` and `lines` play SCRIPT first, and then print what a session over the table writes for BYTES and the end of
its input; AREA is ignored. It is written from the two pages, and for heads from the grammar of `httparse`. So where the program and this
differ, one of them does not do what the pages say. It needs Python 3.9 or later and nothing else. Left out: an area that is full (47), for
which no script is long enough, and more than 999,999,999 leases or runs. Case folding is that of this Python's Unicode, which may be older than the
program's.
"""

import itertools
import json
import re
import sys

LETTERS = r'[A-Za-z_][A-Za-z0-9_-]*'
CONTEXTS = ('github', 'inputs', 'vars', 'strategy', 'matrix')
CONDITIONS = {'success()': 'success', 'true': 'success', 'failure()': 'failure', 'always()': 'always', 'cancelled()': 'cancelled',
              '!cancelled()': 'not cancelled', 'false': 'never'}
FORMS = {'delivery': rb'[A-Za-z0-9-]{1,64}', 'event': rb'[a-z0-9_]{1,64}', 'runner': rb'[A-Za-z0-9_.-]{1,64}', 'number': rb'[1-9][0-9]{0,8}',
         'labels': rb'[!-+\--~]{1,64}(?:,[!-+\--~]{1,64}){0,15}', 'result': rb'success|failure|cancelled'}
COMMANDS = {'claim': ('runner', 'number', 'labels'), 'done': ('runner', 'number', 'number', 'result'), 'beat': ('runner', 'number'),
            'cancel': ('number',), 'lost': ('runner',), 'look': ('number',), 'fetch': ('number',), 'rerun': ('number', 'number'),
            'forget': ('number',), 'discharge': ('runner',)}
ENDED = ('success', 'failure', 'cancelled')
MAX_SCRIPT_BYTES, MAX_BODY_BYTES, MAX_LINE_BYTES, SLICE = 1 << 20, 65_536, 512, 4096
MAX_ENTRIES, MAX_RUNS, MAX_ATTEMPTS, MAX_LINES = 100_000, 100_000, 1000, 1024
# How many deliveries of forgotten runs are kept.
KEPT_DELIVERIES = 10_000
# Refusals of commands that end a session.
ENDING = (46, 47, 48, 50, 51, 52, 57, 60)
MAX_HEAD_BYTES, MAX_FIELDS, MAX_REQUESTS = 8192, 64, 64
TOKEN, TARGET, VALUE = (re.compile(rb'[%s]*' % them) for them in (rb"!#$%&'*+\-.^_`|~0-9A-Za-z", rb'!-~\x80-\xff', rb'\t -~\x80-\xff'))
PATHS = ((rb'/runs/(%s)' % FORMS['number'], b'GET', 200, 'look'), (rb'/runs/(%s)/body' % FORMS['number'], b'GET', 200, 'fetch'),
         (rb'/runs/(%s)/cancel' % FORMS['number'], b'POST', 202, 'cancel'),
         (rb'/runs/(%s)/attempts/(%s)' % (FORMS['number'], FORMS['number']), b'POST', 201, 'rerun'),
         (rb'/runs/(%s)/forget' % FORMS['number'], b'POST', 202, 'forget'), (rb'/runners/(%s)/lost' % FORMS['runner'], b'POST', 202, 'lost'),
         (rb'/runners/(%s)/forget' % FORMS['runner'], b'POST', 202, 'discharge'))
PHRASES = {200: 'OK', 201: 'Created', 202: 'Accepted', 400: 'Bad Request', 404: 'Not Found', 405: 'Method Not Allowed', 409: 'Conflict',
           411: 'Length Required', 413: 'Payload Too Large', 422: 'Unprocessable Entity', 503: 'Service Unavailable'}


class Refused(Exception):
    """A refusal: its number, and what follows it."""

    def __str__(self):
        return ' '.join(map(str, ('refused', *self.args)))


def by_bytes(names):
    return sorted(names, key=str.encode)


# Values. A scalar is a kind and a value, since true, 1 and "1" are three.


class Float:
    """A number that is not a signed whole number of 64 bits."""

    def __init__(self, _):
        pass


def whole(digits):
    number = int(digits)
    return Float(digits) if digits == '-0' or not -(1 << 63) <= number < 1 << 63 else number


def real(digits):
    if float(digits) in (float('inf'), float('-inf')):
        raise ValueError(digits)
    return Float(digits)


def no_constant(word):
    raise ValueError(word)


def json_of(data):
    """The value of JSON in UTF-8, nested 127 deep at most."""
    try:
        text = data.decode()
        depth = deepest = 0
        for mark in re.findall(r'"(?:[^"\\]|\\.)*"|[\[\]{}]', text, re.S):
            depth += (mark in '[{') - (mark in ']}')
            deepest = max(deepest, depth)
        if deepest > 127:
            raise ValueError('too deep')
        value = json.loads(text, parse_int=whole, parse_float=real, parse_constant=no_constant)
        # A lone surrogate has no bytes.
        json.dumps(value, ensure_ascii=False, default=lambda _: None).encode()
        return value
    except ValueError:
        raise Refused(10) from None


def scalar_of(value):
    """The scalar that a JSON value is, or None."""
    if value is None:
        return 'null', None
    for kind in (bool, int, str):
        if isinstance(value, kind):
            return kind.__name__, value
    return None


def text_of(scalar):
    kind, value = scalar
    return {'null': '', 'bool': 'true' if value else 'false'}.get(kind, str(value))


def need(holds, number):
    if not holds:
        raise Refused(number)


def is_text(value):
    return isinstance(value, str)


# Templates.


class Template:
    """The pieces of a template: texts, and expressions as lists of operands. An operand is a quoted text, or a path as a tuple."""

    def __init__(self, text, place='job'):
        self.text, self.at, self.references, self.pieces = text, 0, [], []
        while (start := text.find('${{', self.at)) >= 0:
            if start > self.at:
                self.pieces.append(text[self.at:start])
            self.at = start + 3
            self.pieces.append(self.expression())
        if text[self.at:]:
            self.pieces.append(text[self.at:])
        need(len(self.references) <= 32, 17)
        need(place == 'job' or all(path[0] in CONTEXTS[:3] for path in self.references), 18)

    def takes(self, form):
        found = re.compile(form).match(self.text, self.at)
        if found:
            self.at = found.end()
        return found

    def expression(self):
        operands = [self.operand()]
        while self.takes(r' *\|\|'):
            operands.append(self.operand())
        need(self.takes(r' *\}\}'), 17)
        return operands

    def operand(self):
        self.takes(' *')
        if quoted := self.takes("'((?:[^']|'')*)'"):
            return quoted[1].replace("''", "'")
        found = self.takes(rf'{LETTERS}(?: *\. *{LETTERS})+')
        need(found, 17)
        path = tuple(re.split(r' *\. *', found[0]))
        need(path[0] in CONTEXTS or (path[0] == 'needs' and len(path) == 3 and path[2] == 'result'), 17)
        self.references.append(path)
        return path

    def value(self, context):
        """The scalar of the template in a context that gives paths their scalars."""
        values = [('str', piece) if is_text(piece) else self.first_true(piece, context) for piece in self.pieces]
        if len(values) == 1 and not is_text(self.pieces[0]):
            return values[0]
        return 'str', ''.join(map(text_of, values))

    @staticmethod
    def first_true(operands, context):
        value = None
        for operand in operands:
            value = ('str', operand) if is_text(operand) else context(operand) or ('str', '')
            if value[1]:
                break
        return value


def flag_of(template, context):
    """Whether a flag is set, which is a truth value or a template."""
    return template if isinstance(template, bool) else text_of(template.value(context)) == 'true'


# Reading a workflow. The first fault is raised.


def flag_in(value, place):
    need(isinstance(value, (bool, str)), 11)
    return Template(value, place) if is_text(value) else value


def concurrency_in(value, place):
    """The template of the group, and the flag."""
    if is_text(value):
        return Template(value, place), False
    need(isinstance(value, dict) and set(value) <= {'group', 'cancel-in-progress'} and is_text(value.get('group')), 11)
    flag = value.get('cancel-in-progress', False)
    need(isinstance(flag, (bool, str)), 11)
    return Template(value['group'], place), flag_in(flag, place)


def labels_in(job):
    need('runs-on' in job and job['runs-on'] != [], 15)
    value = job['runs-on']
    need(not isinstance(value, dict), 16)
    need(isinstance(value, (str, list)), 11)
    labels = []
    for item in [value] if is_text(value) else value:
        need(is_text(item), 11)
        labels.append(Template(item))
    return labels


def needs_in(value):
    need(isinstance(value, (str, list)), 11)
    names = [value] if is_text(value) else value
    need(all(map(is_text, names)), 11)
    return names


def condition_in(value):
    if isinstance(value, bool):
        return 'success' if value else 'never'
    need(is_text(value), 26)
    word = value.strip(' ')
    if word.startswith('${{') and word.endswith('}}') and len(word) >= 5:
        word = word[3:-2].strip(' ')
    need(word in CONDITIONS, 26)
    return CONDITIONS[word]


def scalar_in(value):
    scalar = scalar_of(value)
    need(scalar, 19)
    return scalar


def objects_in(matrix, name):
    objects = []
    need(isinstance(matrix.get(name, []), list), 19)
    for item in matrix.get(name, []):
        need(isinstance(item, dict), 19)
        need(item, 20)
        objects.append({key: scalar_in(item[key]) for key in by_bytes(item)})
    return objects


def matrix_in(matrix):
    """The variables, the include objects and the exclude objects."""
    need(isinstance(matrix, dict), 25)
    include, exclude = objects_in(matrix, 'include'), objects_in(matrix, 'exclude')
    variables = {}
    for name in by_bytes(set(matrix) - {'include', 'exclude'}):
        need(isinstance(matrix[name], list), 19)
        need(matrix[name], 20)
        variables[name] = [scalar_in(value) for value in matrix[name]]
    return variables, include, exclude


def is_number(value, least, most):
    return isinstance(value, int) and not isinstance(value, bool) and least <= value <= most


class Job:
    """A job of a plan."""

    def __init__(self, name, job):
        need(re.fullmatch(LETTERS, name) and len(name) <= 100, 12)
        need(isinstance(job, dict), 11)
        need('uses' not in job, 16)
        self.name, self.labels = name, labels_in(job)
        self.needs = needs_in(job.get('needs', []))
        self.condition = condition_in(job.get('if', True))
        self.passes_over = flag_in(job.get('continue-on-error', False), 'job')
        self.concurrency = concurrency_in(job['concurrency'], 'job') if 'concurrency' in job else None
        strategy = job.get('strategy', {})
        need(isinstance(strategy, dict) and set(strategy) <= {'matrix', 'fail-fast', 'max-parallel'}, 25)
        self.fails_fast = strategy.get('fail-fast', True)
        need(isinstance(self.fails_fast, bool), 25)
        self.most = strategy.get('max-parallel')
        need('max-parallel' not in strategy or is_number(self.most, 1, 256), 25)
        self.matrix = matrix_in(strategy['matrix']) if 'matrix' in strategy else None
        self.ancestors = set()


def combinations(variables, include, exclude):
    count = 1
    for values in variables.values():
        count *= len(values)
    need(count <= 4096, 21)
    originals = [dict(zip(variables, choice)) for choice in itertools.product(*variables.values())] if variables else []
    kept = [it for it in originals if not any(all(it.get(name) == value for name, value in out.items()) for out in exclude)]
    found, used = [], set()
    for original in kept:
        final = dict(original)
        for place, more in enumerate(include):
            if all(original[name] == value for name, value in more.items() if name in original):
                used.add(place)
                final.update((name, value) for name, value in more.items() if name not in original)
        found.append(final)
    found += [more for place, more in enumerate(include) if place not in used]
    need(1 <= len(found) <= 256, 22)
    return found


def combination_text(combination):
    return json.dumps({name: combination[name][1] for name in by_bytes(combination)}, ensure_ascii=False, separators=(',', ':'))


class Workflow:
    """What a workflow plans."""

    def __init__(self, workflow):
        need(isinstance(workflow, dict), 11)
        self.name = workflow.get('name', '')
        need(is_text(self.name), 11)
        self.concurrency = concurrency_in(workflow['concurrency'], 'workflow') if 'concurrency' in workflow else None
        jobs = workflow.get('jobs')
        need(isinstance(jobs, dict) and jobs, 11)
        need(len(jobs) <= 256, 23)
        self.jobs = [Job(name, jobs[name]) for name in by_bytes(jobs)]

    def plan(self):
        """Plans the legs of the jobs, and then their needs."""
        for job in self.jobs:
            job.legs = [{}] if job.matrix is None else combinations(*job.matrix)
        of = {job.name: job for job in self.jobs}
        need(all(name in of for job in self.jobs for name in job.needs), 13)
        for job in self.jobs:
            left = list(job.needs)
            while left:
                name = left.pop()
                if name not in job.ancestors:
                    job.ancestors.add(name)
                    left += of[name].needs
        in_a_cycle = [job.name for job in self.jobs if job.name in job.ancestors]
        if in_a_cycle:
            raise Refused(14, *in_a_cycle)


class Event:
    """An admitted event."""

    def __init__(self, delivery, name, body):
        need(len(body) <= MAX_BODY_BYTES, 24)
        value = json_of(body)
        need(isinstance(value, dict), 11)
        for member in ('repo', 'path'):
            need(is_text(value.get(member)) and value[member], 11)
        for member in CONTEXTS[:3]:
            need(isinstance(value.get(member, {}), dict), 11)
        need('workflow' in value, 11)
        self.delivery, self.name, self.body, self.sent = delivery, name, body, value
        self.repo, self.path, self.workflow = value['repo'], value['path'], Workflow(value['workflow'])
        self.workflow.plan()

    def source(self):
        """The repository and the path, which name its workflow."""
        return self.repo, self.path

    def sent_value(self, path):
        """The scalar that the sender gives a path, or None."""
        if path[0] not in CONTEXTS[:3]:
            return None
        value = self.sent
        for name in path:
            if not isinstance(value, dict) or name not in value:
                return None
            value = value[name]
        return scalar_of(value)


# The table.


class Leg:
    def __init__(self):
        self.phase, self.lease, self.group = 'new', 0, None


class State:
    """A job of a run: `blocked`, `open` or its result, with its legs."""

    def __init__(self):
        self.state, self.legs = 'blocked', []


class Run:
    """A run at an attempt. It is `waiting`, `live` or `ended`."""

    def __init__(self, place, number, event):
        self.place, self.number, self.event, self.attempt = place, number, event, 0
        self.plan = event.workflow.jobs

    def begin(self):
        self.attempt += 1
        self.phase, self.stops, self.group = 'waiting', False, None
        self.jobs = [State() for _ in self.plan]
        self.group, self.cancels = self.asks(self.event.workflow.concurrency, self.context())

    def asks(self, concurrency, context):
        """The group and the flag of a `concurrency`."""
        if concurrency is None:
            return None, False
        name = text_of(concurrency[0].value(context))
        return (self.event.repo, name.casefold()) if name else None, flag_of(concurrency[1], context)

    def context(self, job=None, leg=0):
        """Gives a path its scalar in the context of the run, or of a leg of one of its jobs."""
        event = self.event
        said = {('github', 'workflow'): event.workflow.name or event.path, ('github', 'repository'): event.repo,
                ('github', 'event_name'): event.name.decode(), ('github', 'run_id'): str(self.place),
                ('github', 'run_number'): str(self.number), ('github', 'run_attempt'): str(self.attempt)}
        said = {path: ('str', text) for path, text in said.items()}
        if job is not None:
            planned = self.plan[job]
            count = len(planned.legs)
            said[('strategy', 'fail-fast')] = ('bool', planned.fails_fast)
            for name, value in (('job-index', leg), ('job-total', count), ('max-parallel', planned.most or count)):
                said[('strategy', name)] = ('int', value)
            said.update((('matrix', name), value) for name, value in planned.legs[leg].items())
            results = {it.name: state.state for it, state in zip(self.plan, self.jobs)}
            said.update((('needs', name, 'result'), ('str', results[name])) for name in planned.needs if results[name] not in ('blocked', 'open'))
        return lambda path: said.get(path) or event.sent_value(path)

    def results(self, names):
        return [state.state for job, state in zip(self.plan, self.jobs) if job.name in names]

    def holds(self, job):
        """Whether the condition of a job holds."""
        results = self.results(self.plan[job].ancestors)
        return {'always': True, 'never': False, 'cancelled': self.stops, 'not cancelled': not self.stops,
                'success': not self.stops and all(it == 'success' for it in results),
                'failure': not self.stops and 'failure' in results}[self.plan[job].condition]

    def passes_over(self, job, leg):
        return flag_of(self.plan[job].passes_over, self.context(job, leg))

    def end_leg(self, job, leg, result):
        """A leg ends. If it failed and is not passed over, the others of a job that fails fast are stopped."""
        legs = self.jobs[job].legs
        legs[leg].phase = result
        if result == 'failure' and self.plan[job].fails_fast and not self.passes_over(job, leg):
            for other in legs:
                stop_leg(other)

    def stop(self):
        if self.phase == 'waiting':
            self.phase = 'ended'
            for state in self.jobs:
                state.state = 'cancelled'
        elif self.phase == 'live' and not self.stops:
            self.stops = True
            for job, state in enumerate(self.jobs):
                if state.state == 'open' and not self.holds(job):
                    for leg in state.legs:
                        stop_leg(leg)

    def result(self, job):
        """The result of a job whose legs have ended."""
        phases = [it.phase for it in self.jobs[job].legs]
        if any(phase == 'failure' and not self.passes_over(job, leg) for leg, phase in enumerate(phases)):
            return 'failure'
        return 'cancelled' if 'cancelled' in phases else 'success'

    def conclusion(self):
        states = [it.state for it in self.jobs]
        return next((word for word in ('failure', 'cancelled') if word in states), 'success') if self.phase == 'ended' else '-'

    def view(self):
        claimed = any(leg.lease for state in self.jobs for leg in state.legs)
        status = {'waiting': 'pending', 'ended': 'completed', 'live': 'in_progress' if claimed else 'queued'}[self.phase]
        number = f'{self.number}.{self.attempt}' if self.attempt > 1 else f'{self.number}'
        words = [job.name + ':' + (it.state if it.state == 'blocked' else f'{it.state}({",".join(leg.phase for leg in it.legs)})')
                 for job, it in zip(self.plan, self.jobs)]
        return ' '.join(['run', str(self.place), number, status, self.conclusion(), *words])


def stop_leg(leg):
    if leg.phase in ('new', 'waiting', 'ready'):
        leg.phase = 'cancelled'
    elif leg.phase == 'running':
        leg.phase = 'stopping'


class Runner:
    """The last number, command and reply of a runner, the run of that reply if it is a lease, and what it holds: a lease, and its run, job and leg."""

    def __init__(self):
        self.number, self.command, self.reply, self.holds, self.kept_lease = 0, None, None, None, None


class Table:
    """The runs that are not forgotten, and the runners. Of those that are forgotten it knows how many, how many of each workflow, and the last deliveries."""

    def __init__(self):
        self.runs, self.runners, self.last_lease = [], {}, 0
        self.forgotten, self.counts, self.deliveries = 0, {}, []

    # Concurrency groups.

    def holders(self, group):
        """All runs and legs that wait for a group or hold it."""
        for run in self.runs:
            if run.group == group and run.phase != 'ended':
                yield run
            for state in run.jobs:
                yield from (leg for leg in state.legs if leg.group == group and leg.phase in ('waiting', 'ready', 'running', 'stopping'))

    def may_start(self, group):
        return group is None or not any(it.phase != 'waiting' for it in self.holders(group))

    def arrive(self, newcomer, group, cancels):
        """The others that wait for the group end, and with `cancel-in-progress` its holder is stopped."""
        if group is None:
            return
        others = [it for it in self.holders(group) if it is not newcomer]
        for other in others:
            if other.phase == 'waiting':
                other.stop() if isinstance(other, Run) else stop_leg(other)
        for other in others if cancels else []:
            if other.phase == 'live':
                other.stop()
            elif isinstance(other, Leg):
                stop_leg(other)

    # Settling: the rule at the first place where one applies, again and again.

    def settle(self):
        while any(self.rule(run) for run in self.runs):
            pass

    def rule(self, run):
        """Applies the first rule that applies in a run. Whether one did."""
        if run.phase == 'ended' or (run.phase == 'waiting' and not self.may_start(run.group)):
            return False
        if run.phase == 'waiting':
            run.phase = 'live'
            return True
        if any(self.rule_of_job(run, job) for job in range(len(run.jobs))):
            return True
        if all(it.state not in ('blocked', 'open') for it in run.jobs):
            run.phase = 'ended'
            return True
        return False

    def rule_of_job(self, run, job):
        state, planned = run.jobs[job], run.plan[job]
        if state.state == 'blocked':
            if any(it in ('blocked', 'open') for it in run.results(planned.needs)):
                return False
            if run.holds(job):
                state.state, state.legs = 'open', [Leg() for _ in planned.legs]
            else:
                state.state = 'cancelled' if run.stops else 'skipped'
            return True
        if state.state != 'open':
            return False
        for place, leg in enumerate(state.legs):
            if leg.phase == 'new':
                self.begin_leg(run, job, place)
                return True
            if leg.phase == 'waiting' and self.may_start(leg.group):
                leg.phase = 'ready'
                return True
        if all(leg.phase in ENDED for leg in state.legs):
            state.state = run.result(job)
            return True
        return False

    def begin_leg(self, run, job, place):
        """A new leg arrives in its group; one whose group is its own run's is cancelled."""
        leg = run.jobs[job].legs[place]
        group, cancels = run.asks(run.plan[job].concurrency, run.context(job, place))
        if group is not None and group == run.group:
            leg.phase = 'cancelled'
            return
        leg.phase, leg.group = 'waiting', group
        self.arrive(leg, group, cancels)

    # Commands. Each answers the reply.

    def run(self, place):
        need(self.forgotten < place <= self.last(), 40)
        return self.runs[place - self.forgotten - 1]

    def known(self, place):
        """The run with this id, or None."""
        return self.runs[place - self.forgotten - 1] if self.forgotten < place <= self.last() else None

    def last(self):
        """The id of the last run."""
        return self.forgotten + len(self.runs)

    def begin_run(self, run):
        run.begin()
        self.arrive(run, run.group, run.cancels)
        self.settle()

    def admit(self, event):
        for run in self.runs:
            if run.event.delivery == event.delivery:
                return f'created {run.place}'
        if event.delivery in self.deliveries:
            return f'created {self.forgotten - len(self.deliveries) + 1 + self.deliveries.index(event.delivery)}'
        need(len(self.runs) < MAX_RUNS, 48)
        number = 1 + self.counts.get(event.source(), 0) + sum(run.event.source() == event.source() for run in self.runs)
        run = Run(self.last() + 1, number, event)
        run.phase, run.jobs, run.group = 'ended', [], None
        self.runs.append(run)
        self.begin_run(run)
        return f'created {run.place}'

    def in_turn(self, name, number, command):
        """The runner of a numbered command, and the kept reply if the command is its last one again."""
        runner = self.runners.get(name) or Runner()
        if (number, command) == (runner.number, runner.command):
            return runner, runner.reply
        if number != runner.number + 1:
            raise Refused(43, runner.number)
        return runner, None

    def keep(self, name, runner, number, command, reply):
        runner.number, runner.command, runner.reply = number, command, reply
        self.runners[name] = runner
        self.settle()
        return reply

    def fitting(self, labels):
        """The first ready leg whose labels a runner has."""
        has = {label.lower() for label in labels.split(b',')}
        for run in self.runs:
            for job, state in enumerate(run.jobs):
                at_work = sum(leg.phase in ('running', 'stopping') for leg in state.legs)
                if run.plan[job].most is not None and at_work >= run.plan[job].most:
                    continue
                for place, leg in enumerate(state.legs):
                    if leg.phase == 'ready':
                        context = run.context(job, place)
                        if all(text_of(it.value(context)).encode().lower() in has for it in run.plan[job].labels):
                            return run, job, place
        return None

    def claim(self, name, number, labels):
        command = ('claim', labels)
        runner, kept = self.in_turn(name, number, command)
        if kept is not None:
            return kept
        need(runner.holds is None, 42)
        found = self.fitting(labels)
        runner.kept_lease = found[0] if found else None
        if found is None:
            return self.keep(name, runner, number, command, 'nothing')
        run, job, place = found
        leg, planned = run.jobs[job].legs[place], run.plan[job]
        self.last_lease += 1
        leg.phase, leg.lease, runner.holds = 'running', self.last_lease, (self.last_lease, *found)
        reply = f'lease {self.last_lease} {run.place} {planned.name} {place} {combination_text(planned.legs[place])}'
        return self.keep(name, runner, number, command, reply)

    def done(self, name, number, lease, result):
        command = ('done', lease, result)
        runner, kept = self.in_turn(name, number, command)
        if kept is not None:
            return kept
        need(runner.holds and runner.holds[0] == lease, 44)
        _, run, job, place = runner.holds
        runner.holds, runner.kept_lease = None, None
        run.end_leg(job, place, result.decode())
        return self.keep(name, runner, number, command, 'ok')

    def beat(self, name, lease):
        need(name in self.runners, 45)
        holds = self.runners[name].holds
        need(holds and holds[0] == lease, 44)
        _, run, job, place = holds
        return 'stop' if run.jobs[job].legs[place].phase == 'stopping' else 'go on'

    def cancel(self, place):
        run = self.run(place)
        need(run.phase != 'ended', 41)
        run.stop()
        self.settle()
        return 'ok'

    def lost(self, name):
        need(name in self.runners, 45)
        runner = self.runners[name]
        need(runner.holds, 44)
        _, run, job, place = runner.holds
        runner.holds = None
        run.end_leg(job, place, 'cancelled' if run.jobs[job].legs[place].phase == 'stopping' else 'failure')
        self.settle()
        return 'ok'

    def look(self, place):
        return self.run(place).view()

    def fetch(self, place):
        body = self.run(place).event.body
        return b'body %d\n%s' % (len(body), body)

    def rerun(self, place, attempt):
        run = self.run(place)
        if attempt != run.attempt:
            if attempt != run.attempt + 1:
                raise Refused(43, run.attempt)
            need(run.attempt < MAX_ATTEMPTS, 48)
            need(run.phase == 'ended', 49)
            self.begin_run(run)
        return f'again {place} {attempt}'

    def forget(self, place):
        """The first runs that have completed, up to this id, go. A kept reply that is the lease of one is nothing from then on."""
        while self.runs and self.runs[0].phase == 'ended' and self.runs[0].place <= place:
            run = self.runs.pop(0)
            self.forgotten = run.place
            self.counts[run.event.source()] = self.counts.get(run.event.source(), 0) + 1
            self.deliveries = [*self.deliveries, run.event.delivery][-KEPT_DELIVERIES:]
            for runner in self.runners.values():
                if runner.kept_lease is run:
                    runner.reply, runner.kept_lease = 'nothing', None
        return f'forgotten {self.forgotten}'

    def discharge(self, name):
        need(name in self.runners, 45)
        need(self.runners[name].holds is None, 42)
        del self.runners[name]
        return 'ok'

    def length(self):
        """How many bytes the table takes in a checkpoint."""
        runs = sum(4 + len(run.event.delivery) + 4 + len(run.event.name) + 4 + len(run.event.body) + 6
                   + sum(5 + 5 * len(state.legs) for state in run.jobs) for run in self.runs)
        forgotten = sum(12 + len(repo.encode()) + len(path.encode()) for repo, path in self.counts) + sum(4 + len(it) for it in self.deliveries)
        return 20 + forgotten + runs + sum(map(runner_length, self.runners.items()))


def runner_length(entry):
    name, runner = entry
    kind, *fields = runner.command
    command = 4 + sum(4 + len(label) for label in fields[0].split(b',')) if kind == 'claim' else 5
    return 4 + len(name) + 4 + 5 + len(name) + 4 + command + 1 + (20 if runner.kept_lease else 0) + 4


# Lines.


def command_of(line):
    """The word of a line and its fields, or 75. An `admit` has the event."""
    word, *fields = line.split(b' ', 3) if line.startswith(b'admit ') else line.split(b' ')
    if word == b'admit':
        need(len(fields) == 3 and all(re.fullmatch(FORMS[form], field) for form, field in zip(('delivery', 'event'), fields)), 75)
        return 'admit', [Event(*fields)]
    word = word.decode('latin-1')
    forms = COMMANDS.get(word, ())
    need(len(forms) == len(fields) and forms and all(re.fullmatch(FORMS[form], field) for form, field in zip(forms, fields)), 75)
    return word, [int(field) if form == 'number' else field for form, field in zip(forms, fields)]


class Store:
    """The table, how many entries its history has, and how many bytes are left to write if a checkpoint is begun."""

    def __init__(self):
        self.table, self.entries, self.left = Table(), 0, None

    def answer(self, line):
        """The bytes of the answer to a line, without the line feed after them."""
        try:
            steps = {b'commit': self.commit, b'begin': self.begin, b'slice': self.slice, b'finish': self.finish}
            reply = steps[line]() if line in steps else self.ask(*command_of(line))
        except Refused as refused:
            reply = str(refused)
        return reply if isinstance(reply, bytes) else reply.encode()

    def views(self):
        """What `acts show` prints, line by line."""
        return [run.view() for run in self.table.runs]

    def ask(self, word, fields):
        need(self.entries < MAX_ENTRIES, 46)
        self.entries += 1
        return getattr(self.table, word)(*fields)

    def commit(self):
        return f'committed {self.entries}'

    def begin(self):
        need(self.left is None, 56)
        self.left = 17 + self.table.length()
        return f'begun {self.left}'

    def slice(self):
        need(self.left, 56)
        self.left = max(0, self.left - SLICE)
        return f'left {self.left}'

    def finish(self):
        need(self.left == 0, 56)
        self.left = None
        return f'checked {self.entries}'


def lines_of(script):
    *lines, last = script.split(b'\n')
    return [line for line in [*(line.removesuffix(b'\r') for line in lines), last] if line]


def play(script, store):
    return b''.join(store.answer(line) + b'\n' for line in lines_of(script))


def check(workflow):
    """The lines of `acts check`."""
    need(len(workflow) <= MAX_SCRIPT_BYTES, 76)
    need(len(workflow) <= MAX_BODY_BYTES, 24)
    planned = Workflow(json_of(workflow))
    planned.plan()
    return ''.join(f'{job.name} {place} {combination_text(leg)}\n' for job in planned.jobs for place, leg in enumerate(job.legs)).encode()


class Cut(Exception):
    """The input ends inside a request."""


class Answered(Exception):
    """The answer to a request that asks nothing: the status, the number of the refusal, whether it ends the session, and the method that is taken."""


class Head:
    """The head that bytes begin with, as `httparse` reads it: its parts, and where it ends."""

    def __init__(self, data):
        self.data, self.at, self.fields = data, 0, []
        while self.byte() in b'\r\n':
            self.new_line()
        self.method = self.word(TOKEN, b' ')
        self.target = self.word(TARGET, b' ')
        try:
            self.target.decode()
        except ValueError:
            raise Refused(70) from None
        for mark in b'HTTP/1.':
            self.take(bytes([mark]))
        self.is_old = self.take(b'01') == ord('0')
        self.new_line()
        while self.byte() not in b'\r\n':
            name = self.word(TOKEN, b':')
            value = self.run(VALUE)
            self.new_line()
            self.fields.append((name.lower(), value.strip(b' \t')))
            need(len(self.fields) <= MAX_FIELDS, 70)
        self.new_line()

    def byte(self):
        if self.at == len(self.data):
            raise Cut
        return self.data[self.at]

    def take(self, marks):
        found = self.byte()
        need(found in marks, 70)
        self.at += 1
        return found

    def new_line(self):
        if self.take(b'\r\n') == ord('\r'):
            self.take(b'\n')

    def run(self, form):
        start, self.at = self.at, form.match(self.data, self.at).end()
        self.byte()
        return self.data[start:self.at]

    def word(self, form, end):
        found = self.run(form)
        need(found, 70)
        self.take(end)
        return found

    def values(self, name):
        return [value for other, value in self.fields if other == name]

    def length(self):
        """How long the body is."""
        given = self.values(b'content-length')
        if self.values(b'transfer-encoding'):
            raise Answered(411, 71, True)
        if len(given) > 1 or (given and not re.fullmatch(rb'[0-9]{1,9}', given[0])):
            raise Answered(400, 71, True)
        if given and int(given[0]) > MAX_BODY_BYTES:
            raise Answered(413, 24, True)
        if (self.method, self.target) == (b'POST', b'/events'):
            if not given:
                raise Answered(411, 71, True)
            for name, form in ((b'x-github-delivery', 'delivery'), (b'x-github-event', 'event')):
                if len(self.values(name)) != 1 or not re.fullmatch(FORMS[form], self.values(name)[0]):
                    raise Answered(400, 74, True)
        return int(given[0]) if given else 0

    def closes(self):
        """Whether the request asks for the end of the session."""
        words = [word.strip(b' \t').lower() for value in self.values(b'connection') for word in value.split(b',')]
        return self.is_old or b'close' in words

    def asked(self, body):
        """What is asked: the status of its answer, the word of the command, and its fields."""
        if self.target == b'/events':
            if self.method != b'POST':
                raise Answered(405, 73, False, 'POST')
            try:
                return 201, 'admit', [Event(self.values(b'x-github-delivery')[0], self.values(b'x-github-event')[0], body)]
            except Refused as refused:
                raise Answered(422, refused, False) from None
        for path, method, status, word in PATHS:
            if found := re.fullmatch(path, self.target):
                if self.method != method:
                    raise Answered(405, 73, False, method.decode())
                return status, word, list(found.groups()) if word in ('lost', 'discharge') else list(map(int, found.groups()))
        raise Answered(404, 72, False)


def written(status, text, ends, taken=None, kind='text/plain'):
    """The bytes of an answer."""
    lines = [f'HTTP/1.1 {status} {PHRASES[status]}', f'Content-Type: {kind}', f'Content-Length: {len(text)}']
    lines += [f'Allow: {taken}'] if taken else []
    lines += ['Connection: close'] if ends else []
    return '\r\n'.join([*lines, '', '']).encode() + text


def answer_to(head, body, store, ends):
    """The bytes of the answer to a request, and whether it ends the session."""
    try:
        status, word, fields = head.asked(body)
        reply = store.ask(word, fields)
    except Answered as answer:
        status, number, _, *taken = answer.args
        return written(status, (str(number) if isinstance(number, Refused) else f'refused {number}').encode() + b'\n', ends, *taken), ends
    except Refused as refused:
        number = refused.args[0]
        ends = ends or number in ENDING
        status = 404 if number in (40, 45) else 503 if number in ENDING else 409
        return written(status, f'{refused}\n'.encode(), ends), ends
    if word == 'fetch':
        return written(status, reply.split(b'\n', 1)[1], ends, kind='application/json'), ends
    return written(status, reply.encode() + b'\n', ends), ends


class Session:
    """A session over a store that no other session uses. It gets bytes as they arrive; `over` says that it has ended."""

    def __init__(self, store):
        self.store, self.held, self.turns, self.over = store, b'', 0, False

    def hear(self, data):
        """The bytes that it writes once these bytes have arrived."""
        out, self.held = b'', self.held + data
        while not self.over and (answer := self.next()) is not None:
            out += answer
        return out

    def end(self, status, number):
        """The answer to a head that ends the session."""
        self.over = True
        return written(status, b'refused %d\n' % number, True)


class Requests(Session):
    """A session of HTTP."""

    def next(self):
        """The answer to the first request of the held bytes, or None if it is not whole."""
        try:
            head = Head(self.held[:MAX_HEAD_BYTES])
            length = head.length()
        except Cut:
            return None if len(self.held) < MAX_HEAD_BYTES else self.end(400, 70)
        except Refused:
            return self.end(400, 70)
        except Answered as answer:
            return self.end(*answer.args[:2])
        if len(self.held) < head.at + length:
            return None
        body, self.held = self.held[head.at:head.at + length], self.held[head.at + length:]
        self.turns += 1
        answer, self.over = answer_to(head, body, self.store, head.closes() or self.turns == MAX_REQUESTS)
        return answer


class Lines(Session):
    """A session of runner lines."""

    def next(self):
        """The answer to the first line of what is held, or None if that is not whole."""
        end = self.held.find(b'\n', 0, MAX_LINE_BYTES)
        if end < 0:
            self.over = len(self.held) >= MAX_LINE_BYTES
            return b'refused 75\n' if self.over else None
        line, self.held = self.held[:end].removesuffix(b'\r'), self.held[end + 1:]
        word, *fields = line.split(b' ', 1)
        known = word in (b'CLAIM', b'DONE', b'BEAT', b'FETCH') and fields
        answer = self.store.answer(word.lower() + b' ' + fields[0]) if known else b'refused 75'
        refused = re.fullmatch(rb'refused (\d+)', answer)
        self.turns += 1
        self.over = self.turns == MAX_LINES or (refused is not None and int(refused[1]) in ENDING)
        return answer + b'\n'


def main():
    what, words = sys.argv[1] if len(sys.argv) > 1 else None, sys.argv[2:]
    given = sys.stdin.buffer.read() if what in ('play', 'check', 'hook', 'lines') else sys.exit(__doc__)
    store, out = Store(), b''
    try:
        if what == 'play':
            need(len(given) <= MAX_SCRIPT_BYTES, 76)
            out = play(given, store)
        elif what == 'check':
            out = check(given)
        else:
            if len(words) > 2 and words[1] == '--preload':
                with open(words[2], 'rb') as file:
                    play(file.read(), store)
            out = (Requests if what == 'hook' else Lines)(store).hear(given)
    except Refused as refused:
        sys.exit(f'acts: {refused}')
    sys.stdout.buffer.write(out)
    sys.stdout.flush()


if __name__ == '__main__':
    main()
