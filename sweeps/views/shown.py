"""The views of docs/VIEWS.md, as the plain model of `sweeps/compared/plain.py` has them: what each path answers for a table."""

import json

FULL = 1_000
LOOKED = 10_000
STATES = ('waiting', 'ready', 'running', 'stopping', 'success', 'failure', 'cancelled')
ENTRIES_REFUSED = (40, 41, 42, 43, 44, 45, 48, 49)


def text(value):
    """A JSON object as the service writes it."""
    return json.dumps(value, ensure_ascii=False, separators=(',', ':')) + '\n'


def status(run):
    return run.view().split(' ')[3]


def conclusion(run):
    return None if run.conclusion() == '-' else run.conclusion()


def name_of(group):
    return None if group is None else group[1]


def sent_text(run, *path):
    value = run.event.sent_value(path)
    return value[1] if value and value[0] == 'str' else None


def title_of(run):
    title = sent_text(run, 'github', 'event', 'pull_request', 'title')
    message = sent_text(run, 'github', 'event', 'head_commit', 'message')
    return title if title is not None else message and message.split('\n')[0]


def row(run):
    event = run.event
    sent = {name: sent_text(run, 'github', name) for name in ('ref', 'sha', 'ref_name', 'head_ref', 'actor')}
    return {'run': run.place, 'number': run.number, 'attempt': run.attempt, 'repository': event.repo, 'path': event.path,
            'workflow': event.workflow.name or '', 'event': event.name.decode(), 'delivery': event.delivery.decode(), **sent,
            'title': title_of(run), 'status': status(run), 'conclusion': conclusion(run), 'group': name_of(run.group)}


def runs(table, before=None, limit=100, **wanted):
    """A page of `/runs`."""
    top = len(table.runs) if before is None else max(0, min(before - 1 - table.forgotten, len(table.runs)))
    names = {'repo': 'repository'}
    if 'group' in wanted:
        wanted['group'] = wanted['group'].casefold()
    rows, looked = [], 0
    while looked < min(top, LOOKED) and len(rows) < limit:
        made = row(table.runs[top - 1 - looked])
        if all(made[names.get(name, name)] == value for name, value in wanted.items()):
            rows.append(made)
        looked += 1
    return text({'runs': rows, 'looked': looked, 'before': table.forgotten + top - looked + 1 if looked < top else None})


def for_group(group):
    return {'for': 'group', 'group': name_of(group)}


def leg_waits_for(run, job, leg, group):
    planned, state = run.plan[job], run.jobs[job]
    if leg.phase == 'waiting':
        return for_group(group)
    if leg.phase != 'ready':
        return None
    at_work = sum(other.phase in ('running', 'stopping') for other in state.legs)
    if planned.most is not None and at_work >= planned.most:
        return {'for': 'max_parallel', 'max_parallel': planned.most}
    return {'for': 'runner'}


def runner_of(table, leg):
    if leg.phase in ('running', 'stopping'):
        for name, runner in table.runners.items():
            if runner.holds and runner.holds[0] == leg.lease:
                return name.decode()
    return None


def leg_runner(table, leg, names):
    """The runner that has the lease of a leg, or had it; `names` has those of the leases that were given since the service began."""
    return runner_of(table, leg) or names.get(leg.lease)


def labels_of(plain, run, job, place):
    context = run.context(job, place)
    return [plain.text_of(label.value(context)) for label in run.plan[job].labels]


def combination(plain, run, job, place):
    return json.loads(plain.combination_text(run.plan[job].legs[place]))


def leg_row(plain, table, run, job, place, names):
    leg = run.jobs[job].legs[place]
    group, _ = run.asks(run.plan[job].concurrency, run.context(job, place))
    return {'leg': place, 'combination': combination(plain, run, job, place), 'state': leg.phase, 'lease': leg.lease or None,
            'runner': leg_runner(table, leg, names), 'labels': labels_of(plain, run, job, place), 'group': name_of(group),
            'waits_for': leg_waits_for(run, job, leg, group)}


def job_row(plain, table, run, job, names):
    planned, state = run.plan[job], run.jobs[job]
    return {'id': planned.name, 'state': state.state, 'needs': planned.needs, 'max_parallel': planned.most,
            'legs': [leg_row(plain, table, run, job, place, names) for place in range(len(state.legs))]}


def one_run(plain, table, place, first, names):
    """`/runs/RUN`, or None."""
    run = table.known(place)
    if run is None:
        return None
    jobs, legs, looked = [], 0, min(first, len(run.jobs))
    while looked < len(run.jobs) and legs < FULL:
        jobs.append(job_row(plain, table, run, looked, names))
        legs += len(run.jobs[looked].legs)
        looked += 1
    return text({**row(run), 'stopping': run.stops, 'waits_for': for_group(run.group) if run.phase == 'waiting' else None,
                 'jobs': jobs, 'from': looked if looked < len(run.jobs) else None})


def by_runs(name, table, rows_of, first, limit):
    """A page that goes run by run."""
    rows, looked, start = [], 0, max(0, first - 1 - table.forgotten)
    left = max(0, len(table.runs) - start)
    while looked < min(left, LOOKED) and len(rows) < limit:
        rows += rows_of(table.runs[start + looked])
        looked += 1
    return text({name: rows, 'looked': looked, 'from': table.forgotten + start + looked + 1 if looked < left else None})


def legs_of(run):
    for job, state in enumerate(run.jobs):
        for place, leg in enumerate(state.legs):
            yield job, place, leg


def queue(plain, table, first=1, limit=100):
    def rows_of(run):
        return [{'run': run.place, 'job': run.plan[job].name, 'leg': place, 'labels': labels_of(plain, run, job, place)}
                for job, place, leg in legs_of(run) if leg.phase == 'ready']
    return by_runs('queue', table, rows_of, first, limit)


def groups(table, first=1, limit=100, repo=None, group=None):
    def holder(run, its, phase, job, place):
        if its is None or (repo is not None and its[0] != repo) or (group is not None and its[1] != group.casefold()):
            return []
        return [{'repository': its[0], 'group': its[1], 'state': 'pending' if phase == 'waiting' else 'in_progress', 'run': run.place, 'job': job, 'leg': place}]

    def rows_of(run):
        made = [] if run.phase == 'ended' else holder(run, run.group, run.phase, None, None)
        for job, place, leg in legs_of(run):
            if leg.phase in ('waiting', 'ready', 'running', 'stopping'):
                made += holder(run, leg.group, leg.phase, run.plan[job].name, place)
        return made
    return by_runs('groups', table, rows_of, first, limit)


def claimed_labels(runner):
    """The labels of a claim, if that was the last command of a runner."""
    kind, *fields = runner.command
    return fields[0].decode().split(',') if kind == 'claim' else None


def runner_row(name, runner):
    lease = None
    if runner.holds:
        number, run, job, place = runner.holds
        lease = {'lease': number, 'run': run.place, 'job': run.plan[job].name, 'leg': place}
    return {'runner': name.decode(), 'number': runner.number, 'lease': lease, 'labels': claimed_labels(runner)}


def runners(table, after=None, limit=100, name=None):
    """A page of `/runners`, without the seconds."""
    left = [it for it in sorted(table.runners) if after is None or it > after.encode()]
    rows, looked = [], 0
    while looked < min(len(left), LOOKED) and len(rows) < limit:
        if left[looked].startswith((name or '').encode()):
            rows.append(runner_row(left[looked], table.runners[left[looked]]))
        looked += 1
    return {'runners': rows, 'looked': looked, 'after': left[looked - 1].decode() if looked < len(left) else None}


def metrics(plain, table, refused):
    """The values of the metrics that a table and the refused entries decide."""
    made = {}
    for name in ('pending', 'queued', 'in_progress'):
        made[f'acts_runs{{status="{name}",conclusion=""}}'] = sum(status(run) == name for run in table.runs)
    for name in ('success', 'failure', 'cancelled'):
        made[f'acts_runs{{status="completed",conclusion="{name}"}}'] = sum(conclusion(run) == name for run in table.runs)
    legs = [(run, job, place, leg) for run in table.runs for job, place, leg in legs_of(run)]
    for name in STATES:
        made[f'acts_legs{{state="{name}"}}'] = sum(leg.phase == name for *_, leg in legs)
    lists = {}
    for run, job, place, leg in legs:
        if leg.phase == 'ready':
            wanted = text(labels_of(plain, run, job, place))[:-1]
            lists[wanted] = lists.get(wanted, 0) + 1
    for wanted, count in list(lists.items())[:50]:
        escaped = wanted.replace('\\', '\\\\').replace('"', '\\"')
        made[f'acts_ready_legs{{labels="{escaped}"}}'] = count
    made['acts_ready_legs{labels="other"}'] = sum(list(lists.values())[50:])
    made['acts_runners'] = len(table.runners)
    made['acts_leases'] = sum(1 for it in table.runners.values() if it.holds)
    made['acts_forgotten_runs'] = table.forgotten
    made['acts_first_open_run'] = next((run.place for run in table.runs if run.phase != 'ended'), 0)
    for number in ENTRIES_REFUSED:
        if refused.get(number):
            made[f'acts_refusals_total{{number="{number}"}}'] = refused[number]
    return made


def legs_now(table, run, names):
    """The legs of a run, each by its job and its index: its state, its lease and its runner."""
    return {(run.plan[job].name, place): (leg.phase, leg.lease or None, leg_runner(table, leg, names)) for job, place, leg in legs_of(run)}


class Displacing:
    """A table that notes which runs, in which attempts, arrivals in their groups have ended or asked to stop. Before `plain.Table` among the bases of a class."""

    def __init__(self):
        super().__init__()
        self.displaced = set()

    def arrive(self, newcomer, group, cancels):
        before = [(run, run.phase, run.stops) for run in self.runs]
        super().arrive(newcomer, group, cancels)
        self.displaced.update((run.place, run.attempt) for run, *was in before if was != [run.phase, run.stops])


def next_in_group(table, run):
    """The other run or leg that is pending in the group of a run, or else in progress."""
    others = sorted((it for it in table.holders(run.group) if it is not run), key=lambda it: it.phase != 'waiting')
    if not others:
        return None
    for other in table.runs:
        for job, place, leg in legs_of(other):
            if leg is others[0]:
                return {'run': other.place, 'attempt': other.attempt, 'job': other.plan[job].name, 'leg': place}
    return {'run': others[0].place, 'attempt': others[0].attempt, 'job': None, 'leg': None}


class Told:
    """What the lines of `/changes` have told of each run: its attempt, status and conclusion, and the state and lease of its legs; and which are forgotten."""

    def __init__(self):
        self.runs, self.forgotten = {}, 0

    def forget(self, table):
        """What is told of runs that a table has forgotten."""
        if table.forgotten == self.forgotten:
            return []
        self.forgotten = table.forgotten
        self.runs = {place: told for place, told in self.runs.items() if place > table.forgotten}
        return [{'type': 'forgotten', 'through': table.forgotten}]

    def news(self, table, names, cancelled=()):
        """What is told of a table, without place and time: which runs it has forgotten; each run that begins an attempt or is not as it was told; that arrivals have
        displaced it since, where no command of the same commit has cancelled it; and then its legs that are not as they were told."""
        displaced, table.displaced = {place: attempt for place, attempt in sorted(table.displaced) if place not in cancelled}, set()
        gone = self.forget(table)
        return gone + [line for run in table.runs for line in self.news_of(table, run, names, displaced.get(run.place) == run.attempt)]

    def news_of(self, table, run, names, is_displaced):
        attempt, *state = self.runs.get(run.place, (0,))
        now, legs = (status(run), conclusion(run)), legs_now(table, run, names)
        is_begun = attempt != run.attempt
        if not is_begun and state[0] == 'completed':
            return []
        made = []
        if is_begun:
            made.append(row(run))
        elif now != tuple(state[:2]):
            made.append({'run': run.place, 'attempt': run.attempt, 'status': now[0], 'conclusion': now[1]})
        if is_displaced:
            made.append({'run': run.place, 'attempt': run.attempt, 'displaced_by': next_in_group(table, run)})
        told = {} if is_begun else state[2]
        for (job, place), (phase, lease, runner) in legs.items():
            if told.get((job, place)) != (phase, lease):
                made.append({'run': run.place, 'attempt': run.attempt, 'job': job, 'leg': place, 'state': phase, 'lease': lease, 'runner': runner})
        self.runs[run.place] = (run.attempt, *now, {key: leg[:2] for key, leg in legs.items()})
        return made
