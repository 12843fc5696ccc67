"""Pictures for docs: `ACTS_HUB_PICTURES=docs/pictures pytest tests/test_pages_pictures.py` writes them there."""
from __future__ import annotations

import os
import pathlib
import struct
import zlib
from collections.abc import Iterator
from typing import Any

import pytest
from harness import HubProcess, Service
from pages_browser import NARROW, Browser, chromium
from pages_stage import JOBS, Leg, Stage

pytestmark = pytest.mark.browser
MOST = 150_000
SIZE = (1120, 760)
PULL: dict[str, Any] = {
    'ref': 'refs/pull/7/merge', 'ref_name': '7/merge', 'head_ref': 'feature/greetings', 'base_ref': 'main',
    'actor': 'octocat',
    'event': {'pull_request': {'number': 7, 'title': 'Greet people in many languages',
                               'head': {'sha': 'c0ffee1234567890c0ffee1234567890c0ffee12',
                                        'ref': 'feature/greetings'}}}}
DEPLOY = {'deploy': {'runs-on': 'linux', 'steps': [{'run': 'make deploy'}]}}
TESTS = ['\x1b[1m============================= test session starts ==============================\x1b[0m',
         'platform linux -- Python 3.11.2, pytest-7.2.1', 'collected 212 items', '',
         'tests/test_hello.py \x1b[32m....................................................\x1b[0m [ 24%]',
         'tests/test_french.py \x1b[32m........\x1b[0m\x1b[31mF\x1b[0m\x1b[32m......\x1b[0m [ 31%]', '',
         '\x1b[31m\x1b[1m    def test_salut():\x1b[0m',
         '\x1b[1m\x1b[31mE       AssertionError: assert "Bonjour" == "Salut"\x1b[0m',
         '##[warning]The cache of pip was not found',
         '##[error]tests/test_french.py:41: AssertionError',
         '\x1b[31m================= \x1b[1m1 failed\x1b[0m\x1b[31m, \x1b[32m211 passed\x1b[0m'
         '\x1b[31m in 3.21s ==================\x1b[0m']


def work(leg: Leg, fails: bool) -> None:
    """A leg with steps, as a runner prints them."""
    leg.begin('Set up job').say('Runner ' + leg.name, 'Labels: linux, x64').end()
    leg.begin('Run actions/checkout@v4').say('##[group]Fetching the repository', 'git fetch --depth=1 origin c0ffee1',
                                             '##[endgroup]', 'HEAD is now at c0ffee1').end()
    leg.begin('Install').say('##[group]pip install -r requirements.txt',
                             *(f'Collecting package-{number}' for number in range(20)), '##[endgroup]').end()
    if fails:
        leg.begin('Run pytest').say(*TESTS).end('failure').done('failure')
    else:
        leg.begin('Run pytest').say(*TESTS[:5]).end().done()


def finish(stage: Stage, run: int, failing: dict[str, str] | None = None) -> Leg | None:
    """Works on all legs of a run; one combination of `test` may fail."""
    failed = None
    while stage.service.run(run)['status'] != 'completed':
        leg = stage.claim('linux,x64')
        fails = leg.job == 'test' and leg.combination == failing
        work(leg, fails)
        failed = leg if fails else failed
    return failed


@pytest.fixture(scope='module')
def scene(tmp_path_factory: pytest.TempPathFactory) -> Iterator[tuple[Browser, Stage, dict[str, str]]]:
    folder = tmp_path_factory.mktemp('pictures')
    service = Service(folder / 'service')
    hub = HubProcess(folder / 'hub', service)
    try:
        service.start()
        hub.start()
        stage = Stage(service, hub)
        for message in 'Say hello', 'Say it in three languages', 'Write down how to greet':
            finish(stage, stage.admit(message, jobs={'build': JOBS['build']}))
        finish(stage, stage.admit('Say hello', name='Deploy', path='.github/workflows/deploy.yml',
                                  event='workflow_dispatch', jobs=DEPLOY))
        run = stage.admit('Greet people in many languages', jobs=JOBS, event='pull_request', github=PULL)
        leg = finish(stage, run, {'python': '3.11', 'os': 'linux'})
        assert leg is not None
        stage.admit('Bump the version to 1.2', name='Deploy', path='.github/workflows/deploy.yml', jobs=DEPLOY,
                    workflow={'concurrency': {'group': 'deploy'}})
        stage.claim('linux,x64').begin('Run make deploy').say('copying')
        stage.admit('Thank the translators', name='Deploy', path='.github/workflows/deploy.yml', jobs=DEPLOY,
                    workflow={'concurrency': {'group': 'deploy'}})
        last = stage.admit('Try it on Windows too',
                           jobs={'build': {'runs-on': 'windows-latest', 'steps': [{'run': 'make'}]}},
                           github={'ref': 'refs/heads/windows', 'ref_name': 'windows'})
        stage.seen(last)
        with chromium() as browser:
            browser.look(SIZE, still=True)
            browser.sign_in(hub, hub.token('mona', 'write'))
            yield browser, stage, {'runs': '/octo/hello/actions', 'run': stage.page(run), 'log': leg.page}
    finally:
        hub.kill()
        service.kill()


def colours(picture: bytes) -> int:
    """How many different rows of pixels a PNG has: an empty page has few."""
    data, at, rows = b'', 8, set()
    while at < len(picture):
        length, kind = struct.unpack('>I4s', picture[at:at + 8])
        data += picture[at + 8:at + 8 + length] if kind == b'IDAT' else b''
        at += 12 + length
    raw, width = zlib.decompress(data), struct.unpack('>I', picture[16:20])[0]
    step = len(raw) // struct.unpack('>I', picture[20:24])[0]
    assert step >= width
    for row in range(0, len(raw), step):
        rows.add(raw[row + 1:row + step])
    return len(rows)


@pytest.mark.parametrize('name, dark', [('runs', False), ('run', False), ('log', True)])
def test_a_picture_of_a_page(scene: tuple[Browser, Stage, dict[str, str]], tmp_path: pathlib.Path, name: str,
                             dark: bool) -> None:
    browser, _, pages = scene
    folder = pathlib.Path(os.environ.get('ACTS_HUB_PICTURES') or tmp_path)
    browser.look(SIZE, dark, still=True)
    browser.open(pages[name])
    browser.until(lambda: browser.text('#live') in ('live', 'the job has ended'), 'the page is there')
    path = folder / f'{name}.png'
    browser.picture(path)
    picture = path.read_bytes()
    assert picture.startswith(b'\x89PNG') and struct.unpack('>II', picture[16:24]) == SIZE
    assert 10_000 < len(picture) < MOST and colours(picture) > 100
    browser.look(NARROW, dark, still=True)
    assert browser.overflow() <= 0
    if folder == tmp_path:
        return
    extra = os.environ.get('ACTS_HUB_PICTURES_NARROW')
    if extra:
        browser.picture(pathlib.Path(extra) / f'{name}-narrow.png')
