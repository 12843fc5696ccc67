"""A service with a view port, and a script that is played over its two other ports and by the plain model (`sweeps/compared/plain.py`)."""

import http.client
import json
import os
import random
import subprocess
import sys
import time
import urllib.parse

HERE = os.path.dirname(os.path.abspath(__file__))
sys.path[:0] = [HERE, os.path.join(HERE, '..', 'compared'), os.path.join(HERE, '..')]
import follower
import plain
import scripts
import service as served
import shown


class Wrong(Exception):
    """An answer that is not as it has to be."""


class Table(shown.Displacing, plain.Table):
    """A table that notes what is displaced."""


class Viewed(served.Forever):
    """A service with a view port."""

    def __init__(self, acts, path, settings=None):
        self.views = served.free_port()
        served.Service.__init__(self, acts, path, 1, settings=settings, endless=['--forever', '--turn-over', '40', '--view-port', str(self.views)])
        self.settled, self.strange, self.news = [], [], served.threading.Condition()
        self.listener = served.threading.Thread(target=self.listen, daemon=True)
        self.listener.start()

    def get(self, target, method='GET'):
        """The status, the fields and the body of an answer."""
        line = http.client.HTTPConnection('127.0.0.1', self.views, timeout=30)
        line.request(method, target)
        answer = line.getresponse()
        body = answer.read()
        line.close()
        return answer.status, dict(answer.getheaders()), body

    def json(self, target):
        return json.loads(self.get(target)[2])


class Play:
    """A script that is played over the two old ports and by the model."""

    def __init__(self, service, seed, made=None):
        self.service, self.made, self.dice = service, made or scripts.Script(seed), random.Random(f'views {seed}')
        self.store = self.made.store
        self.table = self.store.table = self.made.table = Table()
        self.hook, self.runner = service.hook(), service.runner()
        self.asked, self.refused, self.entries = 0, {}, []
        self.compared = self.listed = 0
        self.cursor = self.follow(None)[-1]['cursor']
        self.known, self.told, self.names = follower.Known.of_listing(self.json), shown.Told(), {}
        self.began = time.time()

    # The old ports.

    def request(self, word, fields):
        """The request or the line of a command, and its port."""
        if word == 'admit':
            event = fields[0]
            head = (f'POST /events HTTP/1.1\r\nX-GitHub-Delivery: {event.delivery.decode()}\r\nX-GitHub-Event: {event.name.decode()}\r\n'
                    f'Content-Length: {len(event.body)}\r\n\r\n')
            return 'hook', head.encode() + event.body
        texts = [field.decode() if isinstance(field, bytes) else str(field) for field in fields]
        if word in ('claim', 'done', 'beat'):
            return 'runner', ' '.join([word.upper(), *texts]).encode() + b'\n'
        path = {'look': 'GET /runs/{}', 'fetch': 'GET /runs/{}/body', 'cancel': 'POST /runs/{}/cancel', 'rerun': 'POST /runs/{}/attempts/{}',
                'lost': 'POST /runners/{}/lost', 'forget': 'POST /runs/{}/forget', 'discharge': 'POST /runners/{}/forget'}[word].format(*texts)
        return 'hook', f'{path} HTTP/1.1\r\n\r\n'.encode()

    def ask(self, port, what):
        """Sends it over the stream of its port, which is opened again once a session has had enough."""
        self.asked += 1
        if self.asked % 50 == 0:
            self.hook.close()
            self.hook = self.service.hook()
        return (self.hook if port == 'hook' else self.runner).ask(what)[1]

    def line(self):
        """The next line of the script, if it is a command."""
        line = self.made.line()
        try:
            word, fields = plain.command_of(line)
        except plain.Refused:
            return
        port, what = self.request(word, fields)
        wanted = self.store.answer(line).decode()
        if wanted.startswith('refused '):
            number = int(wanted.split(' ')[1])
            self.refused[number] = self.refused.get(number, 0) + 1
        got = self.ask(port, what)
        if word == 'fetch' and wanted.startswith('body '):
            reply, wanted = wanted.split('\n', 1)
        else:
            reply = wanted
            if word == 'look' and wanted.startswith('run '):
                reply = f'run {fields[0]}'
        self.made.lines.append(line)
        self.same(f'the answer to {line[:80]!r}', got, wanted)
        self.entries.append((word, fields, reply))
        if word == 'claim' and reply.startswith('lease '):
            self.names[int(reply.split(' ')[1])] = fields[0].decode()
        self.read_changes()

    def same(self, what, got, wanted):
        self.compared += 1
        if got != wanted:
            raise Wrong(f'{what}:\n got    {got!r}\n wanted {wanted!r}')

    # The views.

    def view(self, target, wanted, status=200):
        """Compares the answer to a view, and the head of it with the answer to HEAD."""
        got, fields, body = self.service.get(target)
        self.same(target, (got, body.decode()), (status, wanted))
        self.same(f'{target}: its length', fields.get('Content-Length'), str(len(body)))
        if self.dice.random() < 0.1:
            head, others, none = self.service.get(target, 'HEAD')
            self.same(f'HEAD {target}', (head, others.get('Content-Length'), none), (got, fields.get('Content-Length'), b''))

    def parameters(self, **given):
        given = [(name, value) for name, value in given.items() if value is not None]
        self.dice.shuffle(given)
        return ('?' if given else '') + urllib.parse.urlencode(given, quote_via=urllib.parse.quote)

    def maybe(self, *values):
        return self.dice.choice(values) if self.dice.random() < 0.5 else None

    def place(self):
        return self.dice.randint(1, self.table.last() + 2)

    def look_at_runs(self):
        names = ('status', 'conclusion', 'repo', 'path', 'event', 'ref', 'group')
        runs = self.table.runs
        sample = shown.row(self.dice.choice(runs)) if runs else {}
        sample['repo'] = sample.get('repository')
        given = {name: sample.get(name) for name in self.dice.sample(names, self.dice.choice((0, 0, 1, 1, 2)))}
        given = {name: value for name, value in given.items() if value is not None}
        if 'group' in given:
            given['group'] = self.dice.choice((given['group'], given['group'].upper()))
        before, limit = self.maybe(self.place()), self.maybe(1, 2, 5, 100)
        kept = {name: value for name, value in (('before', before), ('limit', limit)) if value is not None}
        self.view('/runs' + self.parameters(**given, **kept), shown.runs(self.table, **kept, **given))

    def look_at_run(self):
        place, first = self.place(), self.maybe(0, 1, 2, 9)
        wanted = shown.one_run(plain, self.table, place, first or 0, self.names)
        target = f'/runs/{place}' + self.parameters(**{'from': first})
        if wanted is None:
            got, _, body = self.service.get(target)
            self.same(target, (got, json.loads(body)['code']), (404, 'unknown_run'))
        else:
            self.view(target, wanted)

    def look_at_body(self):
        place = self.place()
        target = f'/runs/{place}/body'
        got, fields, body = self.service.get(target)
        run = self.table.known(place)
        if run is None:
            self.same(target, (got, json.loads(body)['code']), (404, 'unknown_run'))
        else:
            self.same(target, (got, fields.get('Content-Type'), body), (200, 'application/json', run.event.body))

    def look_at_queue(self):
        first, limit = self.maybe(self.place()), self.maybe(1, 3, 100)
        self.view('/queue' + self.parameters(**{'from': first}, limit=limit), shown.queue(plain, self.table, first or 1, limit or 100))

    def look_at_groups(self):
        first, limit = self.maybe(self.place()), self.maybe(1, 3, 100)
        group, repo = self.maybe('deploy', 'DEPLOY', 'Stra\u00dfe', 'nobody', ''), self.maybe('o/r', 'O/R')
        wanted = shown.groups(self.table, first or 1, limit or 100, repo, group)
        self.view('/groups' + self.parameters(**{'from': first}, limit=limit, group=group, repo=repo), wanted)

    def look_at_runners(self):
        after, limit, name = self.maybe('r', 'r1', 'r2', 'r9'), self.maybe(1, 2, 100), self.maybe('r1', 'r', 'r12', 'x', '')
        target = '/runners' + self.parameters(after=after, limit=limit, name=name)
        got, _, body = self.service.get(target)
        answer = json.loads(body)
        for runner in answer['runners']:
            if runner.pop('heard_seconds_ago') not in range(int(time.time() - self.began) + 3):
                raise Wrong(f'{target}: {body!r}')
        self.same(target, (got, answer), (200, shown.runners(self.table, after, limit or 100, name)))

    def look_at_metrics(self):
        _, _, body = self.service.get('/metrics')
        values = dict(line.rsplit(' ', 1) for line in body.decode().splitlines() if not line.startswith('#'))
        most = 60 if any(runner.holds for runner in self.table.runners.values()) else 0
        if int(values['acts_longest_silence_seconds']) not in range(0, most + 1):
            raise Wrong(f'the longest silence: {values["acts_longest_silence_seconds"]}')
        wanted = {name: str(value) for name, value in shown.metrics(plain, self.table, self.refused).items()}
        wanted['acts_entries_total'] = str(len(self.entries))
        ours = {name: value for name, value in values.items()
                if name.startswith(('acts_runs', 'acts_legs', 'acts_ready', 'acts_runners', 'acts_leases', 'acts_refusals', 'acts_entries', 'acts_forgotten_runs',
                                   'acts_first_open_run'))}
        self.same('/metrics', ours, wanted)

    def look_at_health(self):
        got, _, body = self.service.get('/healthz')
        self.same('/healthz', (got, body), (200, b'ok\n'))

    def look_at_faults(self):
        for target, method, status, code in (('/runs?status=x', 'GET', 400, 'bad_parameter'), ('/runs?x=1', 'GET', 400, 'unknown_parameter'),
                                             ('/runs?limit=101', 'GET', 400, 'bad_parameter'), ('/runs?limit=1&limit=1', 'GET', 400, 'bad_parameter'),
                                             ('/runs?limit', 'GET', 400, 'bad_parameter'), ('/runs/01', 'GET', 404, 'unknown_path'),
                                             ('/runs/', 'GET', 404, 'unknown_path'), ('/queue', 'POST', 405, 'method_not_allowed'),
                                             ('/nothing', 'POST', 404, 'unknown_path'), ('/changes?wait=61', 'GET', 400, 'bad_parameter'),
                                             ('/changes?after=1.2-3.4', 'GET', 410, 'unknown_cursor'), ('/runs?repo=%ff', 'GET', 400, 'bad_parameter'),
                                             ('/runs?repo=%', 'GET', 400, 'bad_parameter'), ('/runners?name=a%4', 'GET', 400, 'bad_parameter'),
                                             ('/groups?group=%zz', 'GET', 400, 'bad_parameter'), ('/groups?repo=%2525', 'GET', 200, None),
                                             ('/runs/0/body', 'GET', 404, 'unknown_path'), ('/runs/1/body/', 'GET', 404, 'unknown_path'),
                                             ('/runs/body', 'GET', 404, 'unknown_path'), ('/runs/1/body?from=0', 'GET', 400, 'unknown_parameter'),
                                             ('/runs/1/body', 'POST', 405, 'method_not_allowed'),
                                             ('/runs?', 'GET', 200, None), ('/metrics?x=1', 'GET', 400, 'unknown_parameter')):
            got, fields, body = self.service.get(target, method)
            self.same(f'{method} {target}', (got, json.loads(body).get('code')), (status, code))
            if status == 405:
                self.same('Allow', fields.get('Allow'), 'GET, HEAD')

    # The changes.

    def follow(self, cursor):
        """The lines after a cursor."""
        target = '/changes' if cursor is None else f'/changes?after={cursor}'
        got, _, body = self.service.get(target)
        if got != 200:
            raise Wrong(f'{target}: {got} {body!r}')
        return [json.loads(line) for line in body.splitlines()]

    def command(self, word, fields):
        texts = [field.decode() if isinstance(field, bytes) else field for field in fields]
        if word == 'admit':
            event = fields[0]
            return {'name': word, 'delivery': event.delivery.decode(), 'event': event.name.decode(), 'repository': event.repo, 'path': event.path}
        names = {'claim': ('runner', 'number', 'labels'), 'done': ('runner', 'number', 'lease', 'result'), 'beat': ('runner', 'lease'),
                 'lost': ('runner',), 'discharge': ('runner',), 'rerun': ('run', 'attempt')}.get(word, ('run',))
        made = {'name': word, **dict(zip(names, texts))}
        if word == 'claim':
            made['labels'] = made['labels'].split(',')
        return made

    def behind(self):
        """All lines behind the cursor, which goes on."""
        lines = []
        while True:
            *page, last = self.follow(self.cursor)
            lines += page
            self.cursor = last['cursor']
            if not page:
                return lines

    def read_changes(self):
        """Reads the lines of the last entry, and compares what is known by them with what is listed now."""
        word, fields, reply = self.entries[-1]
        place = len(self.entries)
        wanted = [{'entry': place, 'command': self.command(word, fields), 'reply': reply},
                  *({'after': place, **line} for line in self.told.news(self.table, self.names))]
        lines = self.behind()
        for line in lines:
            if not self.began - 2 < line.pop('at') / 1000 < time.time() + 2:
                raise Wrong(f'the time of {line}')
            self.known.take(line)
        self.same('the lines of /changes', lines, wanted)
        self.list()

    def list(self):
        """Compares what is known by the lines with what all runs and legs are listed as now."""
        self.same('what lines have told', follower.difference(self.known, follower.Known.of_listing(self.json)), None)
        self.listed += 1

    def json(self, target):
        """The JSON object at a path."""
        got, _, body = self.service.get(target)
        self.same(target, got, 200)
        return json.loads(body)

    def look_at_changes(self):
        self.list()
        wanted = {(run.place, job, place): (run.attempt, *leg) for run in self.table.runs for (job, place), leg in shown.legs_now(self.table, run, self.names).items()}
        self.same('the legs that lines have told', {key: (leg.attempt, leg.state, leg.lease, leg.runner) for key, leg in self.known.legs.items()}, wanted)
        self.same('the rows that lines have told', self.known.rows, {run.place: shown.row(run) for run in self.table.runs})

    def look(self):
        for name in ('runs', 'runs', 'run', 'run', 'body', 'queue', 'groups', 'runners', 'metrics', 'changes', 'health'):
            getattr(self, f'look_at_{name}')()

    def backup(self, acts, folder, path):
        got, fields, body = self.service.get('/backup')
        self.same('/backup', (got, len(body), fields.get('Content-Length')), (200, os.path.getsize(path), str(os.path.getsize(path))))
        copy = os.path.join(folder, 'copy')
        with open(copy, 'wb') as out:
            out.write(body)
        for words in (['show', '--json'], ['runners', '--json'], ['queue', '--json']):
            of_copy, of_file = (subprocess.run([acts, words[0], name, *words[1:]], capture_output=True, check=True).stdout for name in (copy, path))
            self.same(f'acts {words[0]} of the backup', of_copy, of_file)
