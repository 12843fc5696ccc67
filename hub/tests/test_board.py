"""The board of the service in Chromium: runs in each state, before and after they change, with keys alone, on a narrow screen, as a screen reader finds it, with 300 runs
and with 256 legs, and over a restart. The service itself serves the page; where nginx is here, it passes it on by board.nginx."""
from __future__ import annotations

import json
import os
import pathlib
import shutil
import subprocess
import time
from collections.abc import Callable, Iterator
from typing import Any

import pytest
from harness import RunnerLines, Service, acts, body_of, free_ports, limit, request, until
from pages_browser import Browser, chromium
from selenium.webdriver.common.keys import Keys

pytestmark = pytest.mark.browser
FILES = pathlib.Path(__file__).resolve().parents[2] / 'examples' / 'board'
NGINX = shutil.which('nginx', path=os.environ['PATH'] + ':/usr/sbin')
AROUND = '''
user root;
daemon off;
pid {folder}/pid;
error_log {folder}/log;
events {{ worker_connections 256; }}
http {{
    include /etc/nginx/mime.types;
    access_log off;
    client_body_temp_path {folder}/body;
    proxy_temp_path {folder}/proxy;
    fastcgi_temp_path {folder}/fastcgi;
    uwsgi_temp_path {folder}/uwsgi;
    scgi_temp_path {folder}/scgi;
    {server}
}}
'''
ONE = {'one': {'runs-on': 'linux'}}
JOBS = {'build': {'runs-on': 'linux'}, 'tests': {'needs': 'build', 'runs-on': 'linux', 'strategy': {'matrix': {'part': [1, 2, 3]}, 'max-parallel': 1}},
        'report': {'needs': ['build', 'tests'], 'runs-on': ['linux', 'big']}}
# The texts of what a script finds, a line each.
TEXTS = "[...document.querySelectorAll('%s')].map(it => it.innerText.replace(/\\s+/g, ' ').trim())"
RUNS, ROWS, STATE = TEXTS % 'li.run', TEXTS % 'tbody tr', "document.getElementById('state').textContent"
IDS = "[...document.querySelectorAll('li.run')].map(it => it.id)"
HEAD = (TEXTS % 'h1') + '[0]'
FOCUS = "(document.activeElement.innerText || document.activeElement.name || document.activeElement.tagName).trim()"
WORDS_OF_NOBODY = r"document.body.innerText.match(/null|undefined|NaN|\[object/g)"


class Shown:
    """A service that shows the board, and its page in a browser."""

    def __init__(self, folder: pathlib.Path, browser: Browser | None = None, board: pathlib.Path | None = FILES, area: int = 4 << 20) -> None:
        self.window = browser
        self.service = Service(folder, area, ('--board', str(board)) if board else ())
        self.service.start()
        self.lines: RunnerLines = self.service.lines()
        self.held = ''

    def admit(self, jobs: Any, path: str = '.github/workflows/ci.yml', name: str = '', repository: str = 'octo/hello', ref: str = 'refs/heads/main',
              **workflow: Any) -> None:
        """An event with no more of `github` than its ref."""
        body = json.loads(body_of(name, jobs, repository=repository, path=path, workflow=workflow))
        body['github'] = {'ref': ref}
        if not name:
            del body['workflow']['name']
        self.service.admit(json.dumps(body).encode())

    def claim(self, name: str, labels: str = 'linux') -> str:
        """The lease of the next leg."""
        return self.lines.claim(name, labels)[1]

    def work(self, name: str, result: str = 'success', labels: str = 'linux') -> None:
        """Takes a leg, and ends it."""
        self.lines.done(name, self.claim(name, labels), result)

    def get(self, path: str, method: str = 'GET') -> tuple[int, str | None, int, bytes]:
        """The status, the type, the length, and the body of an answer."""
        answer = request(self.service.view, method, path)
        return answer.status, answer.headers['Content-Type'], int(answer.headers['Content-Length']), answer.body

    # the page

    @property
    def browser(self) -> Browser:
        """The window."""
        assert self.window is not None
        return self.window

    def open(self, view: str) -> None:
        """Opens a view anew."""
        self.browser.driver.get('about:blank')
        self.browser.driver.get(f'http://127.0.0.1:{self.service.view}/#/{view}')

    def value(self, script: str) -> Any:
        """The value of an expression in the page."""
        return self.browser.run(f'return {script}')

    def shows(self, script: str, wanted: Any, seconds: float = 60) -> None:
        """Waits till an expression has a value."""
        late, found = limit(seconds), None
        while time.monotonic() < late:
            try:
                found = self.value(script)
            except Exception as fault:  # (of a page that is not there yet)
                found = fault
            if found == wanted:
                return
            time.sleep(0.05)
        assert found == wanted

    def end(self) -> None:
        """Ends it, and says what went wrong in the page."""
        self.lines.close()
        self.service.kill()


@pytest.fixture(scope='module')
def window() -> Iterator[Browser]:
    with chromium() as made:
        made.look((1000, 700))
        yield made


@pytest.fixture
def make(tmp_path: pathlib.Path, window: Browser) -> Iterator[Callable[..., Shown]]:
    """Boards of a test, without a fault in their pages."""
    made: list[Shown] = []

    def one(**given: Any) -> Shown:
        made.append(Shown(tmp_path / f'service-{len(made)}', window, **given))
        return made[-1]
    window.said()
    yield one
    faults = [line for line in window.said() if 'Uncaught' in line or 'SyntaxError' in line]
    nobodys = made[-1].value(WORDS_OF_NOBODY) if made else None
    window.driver.get('about:blank')
    for each in made:
        each.end()
    assert not faults and nobodys is None


@pytest.fixture
def board(make: Callable[..., Shown]) -> Shown:
    """A run in each state: one that succeeded, one that failed, one at work, one that waits for it in its group, and one that waits for a runner."""
    one = make()
    one.admit(ONE, path='.github/workflows/one.yml', name='First')
    one.work('r1')
    for number in range(3):
        one.admit(JOBS, concurrency='CI')
        if number == 0:
            one.work('r1')
            one.work('r1', 'failure')
        if number == 1:
            one.work('r1')
            one.held = one.claim('r1')
    one.admit({'one': {'runs-on': ['gpu', 'lab'], 'concurrency': 'device'}, 'two': {'runs-on': 'gpu', 'concurrency': 'Device'}}, repository='octo/other', ref='refs/heads/next')
    return one


def test_the_files_of_the_board_alone(tmp_path: pathlib.Path) -> None:
    """To the byte, and no others of their folder."""
    one = Shown(tmp_path / 'service')
    for path, name, kind in (('/', 'board.html', 'html'), ('/board.js', 'board.js', 'javascript'), ('/board.css', 'board.css', 'css')):
        body, kind = (FILES / name).read_bytes(), f'text/{kind}; charset=utf-8'
        assert one.get(path) == (200, kind, len(body), body) and one.get(path, 'HEAD') == (200, kind, len(body), b'')
        assert one.get(path, 'POST')[0] == 405 and one.get(f'{path}?x=1')[0] == 400
    for path in ('/board.html', '/board.nginx', '/board', '/board.js/', '//', '/./board.js', '/../board/board.js', '/board.js%00', '/%62oard.js', '/index.html'):
        assert one.get(path)[0] == 404, path
    one.end()


def test_folders_of_the_board(tmp_path: pathlib.Path) -> None:
    """Without a file, with an empty one and one of the longest kind, with one that is longer or can't be read, and no folder."""
    own = tmp_path / 'own'
    own.mkdir()
    (own / 'board.html').write_bytes(b'')
    (own / 'board.js').write_bytes(bytes(1 << 20))
    one = Shown(tmp_path / 'service', board=own)
    assert [one.get(path)[:3] for path in ('/', '/board.js')] == [(200, 'text/html; charset=utf-8', 0), (200, 'text/javascript; charset=utf-8', 1 << 20)]
    status, kind, _, body = one.get('/board.css')
    assert (status, kind, json.loads(body)['code']) == (404, 'application/json', 'unknown_path')
    (own / 'board.js').write_bytes(b'changed')
    assert one.get('/board.js')[2:] == (1 << 20, bytes(1 << 20))
    one.end()

    def served(*words: str) -> tuple[int, str, str]:
        ports = [word for name, port in zip(('--hook-port', '--runner-port'), free_ports(2)) for word in (name, str(port))]
        done = subprocess.run([acts(), 'serve', str(one.service.store), *ports, '--sessions', '2', '--forever', *words], capture_output=True, text=True, timeout=60)
        return done.returncode, done.stdout, done.stderr
    view = '--view-port', str(free_ports(1)[0])
    (own / 'board.js').write_bytes(bytes((1 << 20) + 1))
    assert [text.split('(')[0].strip() for text in served(*view, '--board', str(own))[1:]] == ['', f'acts: refused 61\nacts: {own}: File too large']
    (own / 'board.js').unlink()
    (own / 'board.js').mkdir()
    assert [text.split('(')[0].strip() for text in served(*view, '--board', str(own))[1:]] == ['', f'acts: refused 61\nacts: {own}: Is a directory']
    status, out, said = served('--board', str(own))
    assert (status, out) == (2, '') and '--view-port' in said
    for options, wanted in ((('--board', str(tmp_path / 'none')), [404, 404, 404, 200]), ((), [404, 404, 404, 200])):
        one.service.options = options
        one.service.start()
        assert [one.get(path)[0] for path in ('/', '/board.js', '/board.css', '/runs')] == wanted
        one.service.kill()


@pytest.mark.skipif(not NGINX, reason='nginx is not here, so board.nginx was not tried')
def test_what_nginx_passes_on(tmp_path: pathlib.Path) -> None:
    one, own, (port,) = Shown(tmp_path / 'service'), tmp_path / 'front', free_ports(1)
    own.mkdir()
    text = (FILES / 'board.nginx').read_text()
    for old, new in (('127.0.0.1:8083', f'127.0.0.1:{one.service.view}'), ('127.0.0.1:8088', f'127.0.0.1:{port}')):
        assert old in text
        text = text.replace(old, new)
    (own / 'conf').write_text(AROUND.format(folder=own, server=text))
    front = subprocess.Popen([str(NGINX), '-c', str(own / 'conf'), '-e', str(own / 'log')])
    try:
        until(lambda: request(port, 'GET', '/').status == 200, what='nginx')
        for path in '/', '/board.js', '/board.css', '/runs', '/runs?limit=1', '/queue', '/runners', '/groups', '/changes':
            assert request(port, 'GET', path).status == 200, path
        for path in '/runs/1', '/metrics', '/backup', '/healthz', '/board.nginx', '/runs/1/body', '/other':
            assert request(port, 'GET', path).status == 404, path
        assert [request(port, 'POST', '/runs').status, request(port, 'HEAD', '/runs').status] == [403, 200]
        assert {request(port, 'GET', '/runs').status for _ in range(200)} == {200}
    finally:
        front.terminate()
        front.wait()
        one.end()


def test_the_list(board: Shown) -> None:
    board.open('runs')
    wanted = ['○ queued ci.yml, run 5 octo/other · next · push · no. 1 one: ▸ open two: ▸ open',
              '· pending ci.yml, run 4 octo/hello · main · push · no. 3 waits for the group ci build: · blocked report: · blocked tests: · blocked',
              '▸ in progress ci.yml, run 3 octo/hello · main · push · no. 2 build: ✓ success report: · blocked tests: ▸ open 0 of 3',
              '✗ failure ci.yml, run 2 octo/hello · main · push · no. 1', '✓ success First, run 1 octo/hello · main · push · no. 1']
    board.shows(RUNS, wanted)
    assert board.value('document.title') == 'Runs'
    board.lines.done('r1', board.held)
    board.service.post('/runs/1/attempts/2')
    board.admit(ONE, path='.github/workflows/one.yml', name='First')
    board.shows(RUNS, ['○ queued First, run 6 octo/hello · main · push · no. 2 one: ▸ open', wanted[0], wanted[1],
                       '▸ in progress ci.yml, run 3 octo/hello · main · push · no. 2 build: ✓ success report: · blocked tests: ▸ open 1 of 3', wanted[3],
                       '○ queued First, run 1 octo/hello · main · push · no. 1 · attempt 2 one: ▸ open'])
    board.service.post('/runs/6/cancel')
    board.shows("document.querySelector('[role=status]').textContent", 'Run 6: cancelled')


def test_filters(board: Shown) -> None:
    """Also by links, which stay."""
    for words, wanted in (('status=completed', [2, 1]), ('conclusion=failure', [2]), ('repo=octo/other', [5]), ('branch=main&status=pending', [4]), ('branch=next', [5]),
                          ('path=.github/workflows/one.yml', [1]), ('group=ci', [4, 3, 2]), ('repo=none', [])):
        board.open(f'runs?{words}')
        board.shows(f"document.querySelector('#status') && {IDS}", [f'run-{run}' for run in wanted])
    assert board.value("document.querySelector('main p').textContent") == 'There are none.'
    board.open('runs?status=queued')
    board.shows(TEXTS % 'h2', ['ci.yml, run 5'])
    board.claim('r9', 'gpu,lab')
    board.shows(RUNS, [])                                   # it does not fit any more
    board.open('runs?status=wrong')
    board.shows("document.querySelector('main p')?.textContent.length > 10", True)


def test_a_run_says_what_each_of_its_parts_waits_for(board: Shown) -> None:
    board.open('runs/3')
    board.shows(ROWS, ['0 ✓ success r1', '0 {"part":1} ▸ running r1', '1 {"part":2} ○ ready another leg of the job: 1 at a time (max-parallel)',
                       '2 {"part":3} ○ ready another leg of the job: 1 at a time (max-parallel)'])
    assert board.value(TEXTS % 'h3') == ['build ✓ success', 'report · blocked (needs build, tests; it waits for tests)', 'tests ▸ open (needs build; max-parallel 1)']
    found = board.value(TEXTS % 'dd')
    assert [found[:5], found[6:]] == [['▸ in progress', 'octo/hello', '.github/workflows/ci.yml', 'main', 'push'], ['2', '1', 'ci']]
    board.open('runs/4')
    board.shows((TEXTS % 'dd') + '[1]', 'the group ci, which run 3 holds')
    assert board.value((TEXTS % 'h3') + '[0]') == "build · blocked (it waits for the run's group)"
    board.open('runs/5')
    board.shows(ROWS, ['0 ○ ready a runner with the labels gpu, lab', '0 · waiting the group device, which run 5, one, leg 0 holds'])
    board.claim('r7', 'gpu,lab')
    board.shows(ROWS + '[0]', '0 ▸ running r7')
    board.open('runs/77')
    board.shows("document.querySelector('main h1')?.textContent", 'Run')


def test_queue_groups_and_runners(board: Shown) -> None:
    board.claim('r7', 'gpu,lab')
    board.open('queue')
    board.shows(ROWS, ['linux 2 legs run 3, tests, leg 1; run 3, tests, leg 2'])
    board.open('groups')
    groups = ['ci octo/hello run 3 run 4', 'device octo/other run 5, one, leg 0 run 5, two, leg 0']
    board.shows(ROWS, groups)
    board.open('groups?repo=octo/other&group=device')
    board.shows(ROWS, groups[1:])
    board.open('runners')
    board.shows("[...document.querySelectorAll('tbody tr')].map(it => [...it.children].slice(0, 2).map(it => it.innerText).join(' '))",
                ['r1 run 3, tests, leg 0', 'r7 run 5, one, leg 0'])
    assert board.value("[...document.querySelectorAll('td:last-child')].every(it => /^[0-9]+ (s|min) ago$/.test(it.innerText))") is True
    board.admit({'one': {'runs-on': 'arm'}})
    board.open('queue')
    board.shows(ROWS + '.length', 2)
    board.work('r8', labels='arm')
    board.shows(ROWS + '.length', 1)


def test_keys_alone(board: Shown) -> None:
    """The first stop leads past the views; a filter is typed; the focus stays where it is while the list changes."""
    board.open('runs')
    board.shows(RUNS + '.length', 5)
    stops = []
    for _ in range(12):
        board.browser.press(Keys.TAB)
        stops.append(board.value(FOCUS))
    assert stops == ['To the list', 'Runs', 'Queue', 'Runners', 'Groups', 'any\npending\nqueued\nin progress\ncompleted', 'any\nsuccess\nfailure\ncancelled', 'repo', 'branch',
                     'path', 'Show', 'ci.yml, run 5']
    board.lines.done('r1', board.held)
    board.shows(RUNS + "[2].includes('1 of 3')", True)
    assert board.value(FOCUS) == 'ci.yml, run 5'
    board.browser.press(Keys.ENTER)
    board.shows(HEAD, 'ci.yml, run 5')
    assert (board.value('location.hash'), board.value('document.activeElement.id')) == ('#/runs/5', 'main')
    board.open('runs')
    board.shows(RUNS + '.length', 5)
    board.browser.one('#repo').send_keys('octo/other', Keys.ENTER)
    board.shows(IDS, ['run-5'])
    assert board.value('location.hash') == '#/runs?repo=octo%2Fother'
    board.browser.one('#branch').send_keys('ma')
    board.admit(ONE, repository='octo/other')
    board.shows(RUNS + '.length', 2)
    board.browser.press('i', 'n')
    assert board.value('[document.activeElement.name, document.activeElement.value]') == ['branch', 'main']


def test_what_a_screen_reader_finds(board: Shown) -> None:
    """In each view a name for each thing that can be reached, one heading of the first rank, and tables with names."""
    board.claim('r7', 'gpu,lab')
    reached = 'link', 'button', 'textbox', 'combobox', 'table', 'form', 'navigation', 'columnheader'
    for view, head in (('runs', 'Runs'), ('runs/3', 'ci.yml, run 3'), ('queue', 'Queue'), ('runners', 'Runners'), ('groups', 'Concurrency groups')):
        board.open(view)
        board.shows(HEAD, head)
        nodes = board.browser.command('Accessibility.getFullAXTree')['nodes']
        tree = [(node['role']['value'], node.get('name', {}).get('value', '')) for node in nodes if not node.get('ignored') and 'role' in node]
        assert {role for role, _ in tree} >= {'navigation', 'main', 'heading', 'status'} and not [role for role, name in tree if role in reached and not name], view
        active = 'Runs' if view.startswith('runs') else head.split()[-1].title()
        assert board.value("document.querySelector('nav [aria-current=page]').innerText") == active
        assert board.value("[document.querySelectorAll('h1').length, document.documentElement.lang]") == [1, 'en']


def test_a_narrow_screen(board: Shown) -> None:
    """Nothing is wider than it, and nothing is cut off."""
    board.claim('r7', 'gpu,lab')
    board.admit({'a-job-with-a-very-long-name-that-has-no-place-where-it-could-be-broken-into-lines': {'runs-on': 'label-of-a-runner-that-is-as-long-as-this-one'}},
                repository='octo/a-repository-with-a-long-name-without-a-break', path='.github/workflows/a_workflow_with_a_name_that_is_as_long_as_this_one.yml')
    board.browser.look((340, 700))
    try:
        for view, lines in (('runs', RUNS), ('runs/3', ROWS), ('runs/6', ROWS), ('queue', ROWS), ('runners', ROWS), ('groups', ROWS)):
            board.open(view)
            board.shows(lines + '.length > 0', True)
            wide = "[...document.querySelectorAll('body *')].filter(it => it.getBoundingClientRect().right > innerWidth + 1).map(it => it.outerHTML.slice(0, 60))"
            assert board.value(wide) == [], view
    finally:
        board.browser.look((1000, 700))


def test_300_runs_and_256_legs(make: Callable[..., Shown], capsys: pytest.CaptureFixture[str]) -> None:
    """300 runs, of which the first goes on again, and a run of 256 legs."""
    board = make(area=16 << 20)
    for run in range(300):
        board.admit(ONE, path=f'.github/workflows/w{run % 7}.yml')
        board.work('r1')
    board.service.post('/runs/1/attempts/2')
    board.open('runs')
    board.shows(RUNS + '.length', 51)
    assert board.value(TEXTS % 'h3 + ol li h2') == ['w0.yml, run 1']
    for count in (101, 151, 201, 251, 300):
        board.value("document.getElementById('more').click()")
        board.shows(RUNS + '.length', count)
    assert board.value("document.getElementById('more')") is None
    board.work('r1')
    board.shows("document.querySelector('#run-1 .state').innerText.includes('success')", True)
    board.admit({'one': {'runs-on': 'linux', 'strategy': {'matrix': {'x': list(range(16)), 'y': list(range(16))}}}})
    board.shows(RUNS + '[0]', '○ queued ci.yml, run 301 octo/hello · main · push · no. 1 one: ▸ open 0 of 256')
    begun = time.monotonic()
    board.open('runs/301')
    board.shows(ROWS + '.length', 256)
    board.claim('r1')
    board.shows(ROWS + '[0]', '0 {"x":0,"y":0} ▸ running r1')
    with capsys.disabled():
        print(f'\n256 legs on the board, and one that has changed, within {time.monotonic() - begun:.1f} s')


def test_a_service_that_is_away(board: Shown) -> None:
    board.open('runs')
    board.shows(RUNS + '.length', 5)
    board.service.kill()
    board.shows(STATE + ".startsWith('no answer')", True)
    assert board.value(RUNS + '.length') == 5
    board.service.start()
    board.admit(ONE)
    board.shows(RUNS + '.length', 6)
    board.shows(STATE + ".startsWith('as of')", True)
