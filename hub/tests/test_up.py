"""`acts-hub up`: one command from nothing to a run that has ended, with its log; its end; and the next start."""
from __future__ import annotations

import os
import pathlib
import re
import shutil
import signal
import socket
import ssl
import stat
import subprocess
import tempfile
from collections.abc import Iterator
from types import SimpleNamespace
from typing import cast

import pytest
from harness import HUB, PYTHON, HubProcess, acts, body_of, request, until
from pages_browser import Browser
from up_stage import NAMES, Up, is_alive

from acts_hub.doors import namespace

pytestmark = pytest.mark.skipif(namespace.missing() is not None, reason=f'no network namespace here: {namespace.missing()}')
JOB = {'build': {'runs-on': 'linux', 'steps': [{'run': 'echo done'}]}}


@pytest.fixture(scope='module')
def up() -> Iterator[Up]:
    """One that is started once. Each test leaves it running."""
    place = pathlib.Path(tempfile.mkdtemp(prefix='up.', dir='/tmp'))
    place.chmod(0o755)
    made = Up(place)
    try:
        yield made.start()
    finally:
        made.end(signal.SIGTERM)
        shutil.rmtree(place)


def test_one_command_runs_the_example(up: Up) -> None:
    """It prints where the hub is, a token, and that the example has succeeded; all its steps ran."""
    assert re.fullmatch(r'https://127\.0\.0\.1:\d+', up.url)
    assert up.line('Run 1: ') == f'{up.url}/octo/hello/actions/runs/1'
    assert up.line('Run 1 has ended: ') == 'success'
    run = request(up.view, 'GET', '/runs/1').json()
    assert {job['id']: [leg['state'] for leg in job['legs']] for job in run['jobs']} == {
        'build': ['success'], 'tests': ['success', 'success'], 'report': ['success']}
    assert sorted(up.children()) == sorted(NAMES)


def test_the_hub_alone_listens(up: Up) -> None:
    """The ports of the service are in its namespace; the hub's needs TLS, and a token for anything but its health."""
    for port in 8080, 8081, 8083:
        with pytest.raises(ConnectionRefusedError):
            socket.create_connection(('127.0.0.1', port), timeout=5)
    assert up.get('/healthz').text == 'ok\n'
    with pytest.raises(ssl.SSLCertVerificationError):
        request(up.port, 'GET', '/healthz', context=ssl.create_default_context())
    assert up.get('/api/v3/repos/octo/hello/actions/runs').status == 401
    assert up.get('/api/v3/repos/octo/hello/actions/runs', up.token).json()['total_count'] >= 1


def test_the_service_keeps_the_last_runs(up: Up) -> None:
    """As many as the unit does; another number, and none to be forgotten, can be asked for."""
    words_of = {pathlib.Path(f'/proc/{name}/cmdline').read_bytes().rstrip(b'\0').split(b'\0')[-1] for name in up.children().values()}
    assert b'10000' in words_of and '--keep-runs 10000\n' in (HUB / 'units' / 'acts.service').read_text()
    assert words(str(up.place / 'x'), '--keep-runs', '50001')[1].endswith('argument --keep-runs: 1 to 50000, or 0, are wanted\n')


def test_what_is_secret_is_its_owners(up: Up) -> None:
    """Key, tokens, secret, store and configuration are for nobody else; the runner's token is the runner's."""
    for name in 'key.pem', 'admin.token', 'webhook.secret', 'runs.store', 'hub.toml', 'runner/token', 'hub.log', 'runner.log', 'service.log':
        assert stat.S_IMODE((up.folder / name).stat().st_mode) == 0o600, name
    for name in 'hub', 'runner', 'doors':
        assert stat.S_IMODE((up.folder / name).stat().st_mode) == 0o700, name
    assert up.token == (up.folder / 'admin.token').read_text().strip()


@pytest.mark.skipif(os.geteuid() != 0, reason='needs root')
def test_begun_by_root_the_runner_is_nobody(up: Up) -> None:
    """Its steps are a user's who can read no token but the runner's, and can't use the doors."""
    status = pathlib.Path(f'/proc/{up.children()["runner"]}/status').read_text()
    assert 'Uid:' + 4 * '\t65534' in status
    script = f'cat {up.folder}/admin.token; curl -s --unix-socket {up.hook} http://x/runs/1; cat {up.folder}/hub.toml; ls {up.folder}/doors'
    tried = subprocess.run(['sh', '-c', script], user='nobody', group='nogroup', extra_groups=[], capture_output=True, text=True)
    assert tried.stdout == '' and tried.stderr.count('Permission denied') == 3


@pytest.mark.gh
@pytest.mark.skipif(not shutil.which('gh'), reason='gh is not here')
def test_gh_lists_it_and_shows_its_log(up: Up) -> None:
    """The real gh, set up by the line that is printed."""
    listed = up.gh('run', 'list')
    assert listed.returncode == 0, listed.stderr
    assert ['completed', 'success', 'Build and test hello'] == listed.stdout.splitlines()[-1].split('\t')[:3]
    log = up.gh('run', 'view', '1', '--log')
    assert log.returncode == 0, log.stderr
    assert re.search(r'^build\tBuild\t.*compiled two$', log.stdout, re.M)
    assert re.search(r'^tests \(2\)\tTest\t.*part 2 has passed$', log.stdout, re.M)


@pytest.mark.browser
@pytest.mark.skipif(not shutil.which('chromium') or not shutil.which('chromedriver'), reason='Chromium is not here')
def test_chromium_shows_the_run_and_its_log(up: Up) -> None:
    """A person signs in with the token: the printed address shows the finished run, and its job the lines of the log."""
    browser = Browser()
    try:
        browser.command('Security.setIgnoreCertificateErrors', ignore=True)  # it is signed by itself
        browser.sign_in(cast(HubProcess, SimpleNamespace(url=up.url)), up.token, '/octo/hello/actions/runs/1')
        browser.until(lambda: 'tests (2)' in browser.text(), 'the run')
        shown = browser.text()
        assert 'Build and test hello' in shown and 'Success' in shown
        link = next(one for one in browser.all('main a') if one.text.strip().split('\n')[0] == 'build')
        browser.driver.get(str(link.get_attribute('href')))
        browser.until(lambda: browser.has('details.step summary'), 'the steps')
        next(one for one in browser.all('details.step summary') if one.text.startswith('Build')).click()
        browser.until(lambda: 'the build is done' in browser.text(), 'the log')
        assert 'compiled two' in str(browser.one('main').get_attribute('textContent'))  # in a group, which is folded
    finally:
        browser.close()


@pytest.mark.parametrize('name', ['service', 'acts', 'hub', 'runner'])
def test_a_kill_of_one_is_mended(up: Up, name: str) -> None:
    """After kill -9 of the doors, the service, the hub or the runner it is started again, and the next run ends well."""
    before = up.said()
    killed = up.service() if name == 'acts' else up.children()[name]
    os.kill(killed, signal.SIGKILL)
    said = 'service' if name == 'acts' else name
    until(lambda: f'{said} has ended' in up.said()[len(before):], what='the word of it')
    until(lambda: up.hook.exists() and request(up.view, 'GET', '/healthz').status == 200, what='the service')
    run = up.admit(body_of(jobs=JOB), f'after-{name}')
    until(lambda: up.conclusion(run) == 'success', 120, 'its run')
    until(lambda: up.get(f'/api/v3/repos/octo/hello/actions/runs/{run}', up.token).json()['conclusion'] == 'success', what='the hub')


def test_ctrl_c_and_again(up: Up) -> None:
    """Ctrl-C ends all of it with status 0; the same command goes on with address, token and runs, and makes no second example."""
    url, token, children = up.url, up.token, {**up.children(), 'acts': up.service()}
    assert up.end() == 0
    assert [name for name, number in children.items() if is_alive(number)] == []
    assert not list((up.folder / 'doors').glob('[!l]*'))
    before = len(list(up.folder.rglob('*.git/HEAD')))
    up.start()
    assert (up.url, up.token) == (url, token)
    runs = request(up.view, 'GET', '/runs?path=.github/workflows/example.yml').json()['runs']
    assert [run['run'] for run in runs] == [1]
    assert len(list(up.folder.rglob('*.git/HEAD'))) == before
    assert up.get('/api/v3/repos/octo/hello/actions/runs/1', token).json()['conclusion'] == 'success'


def test_a_kill_of_all_leaves_nothing(up: Up) -> None:
    """After kill -9 of the command itself none of its processes is left, and the same command goes on."""
    children = {**up.children(), 'acts': up.service()}
    up.process.kill(signal.SIGKILL)
    until(lambda: not [name for name, number in children.items() if is_alive(number)], what='the end of all')
    up.start()
    run = up.admit(body_of(jobs=JOB), 'after-all')
    until(lambda: up.conclusion(run) == 'success', 120, 'its run')


def words(*given: str, **environment: str) -> tuple[int, str]:
    """How a start ends that can't go on, and what it says."""
    done = subprocess.run([PYTHON, '-m', 'acts_hub', 'up', *given], env={**os.environ, 'PYTHONPATH': str(HUB), **environment}, capture_output=True, text=True,
                          timeout=120)
    return done.returncode, done.stderr


def test_what_lacks_is_said(tmp_path: pathlib.Path) -> None:
    """A program that is not there, or that is none; a folder that is too long; openssl that is not there; a runner's user."""
    said = 'acts-hub up: there is no program /nowhere/acts: --acts PATH or the variable ACTS names it; tests/trial makes one\n'
    assert words(str(tmp_path / 'a'), '--acts', '/nowhere/acts') == (1, said)
    status, said = words(str(tmp_path / 'b'), '--acts', '/bin/false')
    assert status == 1 and said.startswith('acts-hub up: /bin/false init: ')
    long = tmp_path / ('x' * 90)
    assert words(str(long), '--acts', acts()) == (1, f'acts-hub up: {long} is longer than the 90 bytes that leave room for sockets\n')
    with tempfile.TemporaryDirectory(dir='/tmp') as folder:
        status, said = words(f'{folder}/c', '--acts', acts(), PATH='/nowhere')
        assert (status, said) == (1, 'acts-hub up: openssl: No such file or directory\n')
    (tmp_path / 'home').mkdir(mode=0o700)
    (tmp_path / 'home' / 'letter').write_text('private')
    said = f'acts-hub up: {tmp_path}/home has other things in it: an empty folder is wanted, or that of an earlier start\n'
    assert words(str(tmp_path / 'home'), '--acts', acts()) == (1, said)
    assert stat.S_IMODE((tmp_path / 'home').stat().st_mode) == 0o700
    if os.geteuid() == 0:
        assert words(str(tmp_path / 'd'), '--acts', acts(), '--runner-user', 'no-such-user') == (1, 'acts-hub up: there is no user no-such-user\n')


def test_a_port_that_is_taken_is_said(tmp_path: pathlib.Path) -> None:
    """The hub does not stay, and the last line says why; nothing is left running."""
    with tempfile.TemporaryDirectory(dir='/tmp') as folder, socket.create_server(('127.0.0.1', 0)) as taken:
        port = taken.getsockname()[1]
        done = subprocess.Popen([PYTHON, '-m', 'acts_hub', 'up', f'{folder}/up', '--acts', acts(), '--listen', f'127.0.0.1:{port}'],
                                env={**os.environ, 'PYTHONPATH': str(HUB)}, stdout=subprocess.PIPE, stderr=subprocess.PIPE, text=True)
        _, said = done.communicate(timeout=120)
        assert done.returncode == 1
        assert 'address already in use' in said.lower()
        assert not list(pathlib.Path(f'{folder}/up/doors').glob('[!l]*'))
