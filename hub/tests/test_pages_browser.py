"""The pages in Chromium, against the real service and hub."""
from __future__ import annotations

import html.parser
import re
import threading
import time
from collections.abc import Iterator
from dataclasses import dataclass
from typing import Any

import pytest
from harness import HubProcess, Service, until
from pages_browser import NARROW, WIDE, Browser, chromium
from pages_stage import JOBS, MATRIX, Leg, Stage
from selenium.webdriver.common.keys import Keys

from acts_hub.ledger.database import Database
from acts_hub.ledger.refused import RefusedStore

pytestmark = pytest.mark.browser
EVIL = '<script>window.pwned = 1</script><img src=x onerror="window.pwned = 2"> "\'><b>bold</b> a\u202eb'


WIDER = '''
const may = ".graph-frame, .tail, svg, .hidden, thead";
const isWider = it => !it.closest(may) && it.getBoundingClientRect().right > innerWidth + 1;
return [...document.querySelectorAll("main *")].filter(isWider).map(it => it.outerHTML.slice(0, 120));'''
UNNAMED = '''
const those = document.querySelectorAll("a, button, input:not([type=hidden]), select, svg[role=img], summary");
const hasName = it => it.textContent.trim() || it.getAttribute("aria-label") || it.labels?.length;
return [...those].filter(it => !hasName(it) && !it.closest("[aria-hidden]")).map(it => it.outerHTML);'''
POST = '''
const [address, fields] = arguments;
return fetch(address, {method: "POST", body: new URLSearchParams(fields)}).then(answer => answer.status);'''


@dataclass
class World:
    """A service, a hub, a browser that has signed in, and some runs."""

    stage: Stage
    browser: Browser
    writer: str
    reader: str
    failed: int
    going_on: int
    evil: int
    legs: dict[str, Leg]

    @property
    def hub(self) -> HubProcess:
        """The hub."""
        return self.stage.hub

    def pages(self) -> list[str]:
        """An address of each page."""
        base = f'/{self.stage.repository}/actions'
        return ['/', base, f'{base}?q=is:failure', f'{base}/workflows/ci.yml', self.stage.page(self.failed),
                self.stage.page(self.going_on), self.stage.page(self.evil),
                self.legs['failed'].page, self.legs['going on'].page, self.legs['evil'].page,
                f'{self.legs["failed"].page}?q=assert', '/queue', '/runners', '/groups', '/refused',
                f'{base}/refused']


def fail_one(stage: Stage) -> tuple[int, Leg]:
    """A run of the graph in which one leg of the matrix fails."""
    run = stage.admit('Greet people in many languages', jobs=JOBS, event='pull_request', github={
        'ref': 'refs/pull/7/merge', 'ref_name': '7/merge', 'head_ref': 'feature/greetings', 'base_ref': 'main',
        'actor': 'octocat',
        'event': {'pull_request': {'number': 7, 'title': 'Greet people in many languages',
                                   'head': {'sha': 'c0ffee1234567890c0ffee1234567890c0ffee12',
                                            'ref': 'feature/greetings'}}}})
    failed = None
    while stage.service.run(run)['status'] != 'completed':
        leg = stage.claim()
        leg.begin('Set up job').say('Runner runner-1', '\x1b[36mready\x1b[0m').end()
        if leg.job == 'test' and leg.combination == {'python': '3.11', 'os': 'linux'}:
            leg.begin('Install').say('##[group]pip install', *(f'Collecting package-{number}' for number in range(40)),
                                     '##[endgroup]').end()
            leg.begin('Run make test').say('\x1b[1mtest session starts\x1b[0m',
                                           '\x1b[31mE  assert "Bonjour" == "Salut"\x1b[0m',
                                           '##[warning]The cache was not found',
                                           '##[error]tests/test_hello.py:41: AssertionError',
                                           '1 failed, 211 passed').end('failure')
            leg.done('failure')
            failed = leg
        else:
            leg.begin('Run it').say('it works').end().done()
    assert failed is not None
    return run, failed


def make_world(stage: Stage, browser: Browser) -> World:
    """Runs of each kind."""
    writer, reader = stage.hub.token('mona', 'write'), stage.hub.token('hubot', 'read')
    failed, failed_leg = fail_one(stage)
    evil = stage.admit(EVIL, name=EVIL, jobs={'build': {'runs-on': 'linux', 'name': EVIL, 'steps': [{'run': 'x'}]}},
                       github={'ref': 'refs/heads/x', 'ref_name': EVIL, 'actor': EVIL})
    evil_leg = stage.claim(name='evil-runner')
    evil_leg.begin(EVIL).say(EVIL, f'##[error]{EVIL}', f'##[group]{EVIL}', 'inside').end('failure').done('failure')
    going_on = stage.admit('Bump the version',
                           jobs={'build': JOBS['build'],
                                 'test': {**JOBS['test'], 'needs': 'build',
                                          'strategy': {'matrix': MATRIX, 'max-parallel': 2}},
                                                     'gpu': {'runs-on': 'windows-latest', 'steps': [{'run': 'x'}]}},
                           workflow={'concurrency': {'group': 'ci-main'}})
    stage.claims('build').begin('Run make').say('cc -c a.c').end().done()
    leg = stage.claims('test')
    leg.begin('Run make test').say('one', '##[group]Compile', 'cc -c a.c')
    stage.admit('Wait for it', workflow={'concurrency': {'group': 'ci-main'}})
    database = Database(stage.hub.state / 'ledger.sqlite')
    database.open()
    RefusedStore(database).add(int(time.time() * 1000), stage.repository, 'push', 'd' * 64,
                               '.github/workflows/release.yml', 'refs/heads/main', 'c0ffee1' * 5, 26, 14,
                               f'jobs.b.if: a condition that is not supported: {EVIL}',
                               'Put the condition on the steps of the job.')
    database.close()
    stage.seen(going_on)
    return World(stage, browser, writer, reader, failed, going_on, evil,
                 {'failed': failed_leg, 'going on': leg, 'evil': evil_leg})


@pytest.fixture(scope='module')
def world(tmp_path_factory: pytest.TempPathFactory) -> Iterator[World]:
    """What the tests of this module look at."""
    folder = tmp_path_factory.mktemp('pages')
    service = Service(folder / 'service')
    hub = HubProcess(folder / 'hub', service)
    try:
        service.start()
        hub.start()
        with chromium() as browser:
            made = make_world(Stage(service, hub), browser)
            browser.sign_in(hub, made.writer)
            yield made
    finally:
        hub.kill()
        service.kill()


@pytest.fixture
def browser(world: World) -> Iterator[Browser]:
    """The browser, wide and light, with what the console said before forgotten; nothing may be said in a test."""
    world.browser.look()
    world.browser.said()
    yield world.browser
    assert [words for words in world.browser.said() if 'Failed to load resource' not in words] == []


def each_page(world: World) -> list[str]:
    return world.pages()


def test_no_page_says_anything_to_the_console_or_scrolls_sideways(world: World, browser: Browser) -> None:
    for path in world.pages():
        for size in (WIDE, NARROW):
            browser.look(size)
            browser.open(path)
            browser.until(lambda: browser.has('h1'), path)
            assert browser.overflow() <= 0, (path, size)
            assert browser.run(WIDER) == [], (path, size)
        assert browser.said() == [], path


def test_each_page_has_landmarks_and_one_heading(world: World, browser: Browser) -> None:
    for path in world.pages():
        browser.open(path)
        assert len(browser.all('h1')) == len(browser.all('main')) == len(browser.all('header')) == 1, path
        assert browser.has('nav[aria-label]') and browser.run('return document.documentElement.lang') == 'en', path
        assert browser.driver.title.endswith('· acts') and len(browser.driver.title) > 8, path
        assert browser.has('[role=status]'), path
        levels = [int(one.tag_name[1]) for one in browser.all('main h1, main h2, main h3')]
        assert all(after <= before + 1 for before, after in zip(levels, levels[1:])), (path, levels)
        for table in browser.all('table'):
            assert table.find_elements('css selector', 'thead th[scope=col]'), path
            assert table.find_elements('css selector', 'caption'), path
        assert browser.run(UNNAMED) == [], path
        ids = browser.run('return [...document.querySelectorAll("[id]")].map(it => it.id)')
        assert len(ids) == len(set(ids)), (path, [one for one in ids if ids.count(one) > 1])


CONTRAST = '''
const rgb = text => text.match(/[\\d.]+/g).map(Number);
const linear = part => part <= 0.03928 ? part / 12.92 : ((part + 0.055) / 1.055) ** 2.4;
const weights = [0.2126, 0.7152, 0.0722];
const light = colour => weights.reduce((sum, weight, at) => sum + weight * linear(colour[at] / 255), 0);
const ground = it => {
  for (; it; it = it.parentElement) {
    const colour = rgb(getComputedStyle(it).backgroundColor);
    if (colour.length < 4 || colour[3] > 0.99) return colour;
  }
  return [255, 255, 255];
};
const hasText = it => [...it.childNodes].some(node => node.nodeType === 3 && node.data.trim());
const found = [];
for (const it of document.querySelectorAll("body *")) {
  if (it.closest("svg") || !it.checkVisibility() || !hasText(it)) continue;
  const [high, low] = [light(rgb(getComputedStyle(it).color)), light(ground(it))].sort((one, two) => two - one);
  const ratio = (high + 0.05) / (low + 0.05);
  if (ratio < 4.5) found.push(`${ratio.toFixed(2)} ${it.outerHTML.slice(0, 100)}`);
}
return found;'''


@pytest.mark.parametrize('dark', [False, True])
def test_text_has_the_contrast_of_the_guidelines(world: World, browser: Browser, dark: bool) -> None:
    # WCAG 2.1, 1.4.3: 4.5 to 1
    browser.look(dark=dark)
    for path in world.pages():
        browser.open(path)
        assert browser.run(CONTRAST) == [], (path, dark)


def test_dark_and_light_by_the_system_and_by_hand(world: World, browser: Browser) -> None:
    def ground() -> str:
        return str(browser.run('return getComputedStyle(document.body).backgroundColor'))
    browser.look(dark=False)
    browser.open('/queue')
    light = ground()
    browser.look(dark=True)
    dark = ground()
    assert light != dark
    for _, wanted in (('light', light), ('dark', dark), ('system', dark)):
        browser.one('[name=theme]').click()
        browser.until(lambda: ground() == wanted, 'the colours change')
        assert browser.driver.current_url.endswith('/queue')


def test_markup_in_titles_and_names_is_text(world: World, browser: Browser) -> None:
    for path in world.pages():
        browser.open(path)
        assert browser.run('return window.pwned') is None, path
        assert not browser.has('main img, main b b, main script'), path
    browser.open(world.stage.page(world.evil))
    assert '<script>window.pwned = 1</script>' in browser.text('h1') and 'U+202E' in browser.text('h1')
    assert '\u202e' not in browser.driver.page_source and '\u202e' not in browser.driver.title
    browser.open(world.legs['evil'].page)
    browser.until(lambda: 'onerror="window.pwned = 2"' in browser.text('#steps'), 'the lines')
    assert browser.run('return window.pwned') is None and '\u202e' not in browser.driver.page_source


class Inline(html.parser.HTMLParser):
    """Finds scripts and styles that stand in a page."""

    def __init__(self) -> None:
        super().__init__()
        self.found: list[str] = []

    def handle_starttag(self, tag: str, attrs: list[tuple[str, str | None]]) -> None:
        names = dict(attrs)
        if tag == 'style' or (tag == 'script'
                              and 'src' not in names) or any(name.startswith('on') or name == 'style'
                                                             for name in names):
            self.found.append(str(self.get_starttag_text()))


def test_no_script_or_style_stands_in_a_page(world: World, browser: Browser) -> None:
    for path in world.pages():
        answer = world.hub.get(path, world.writer)
        assert answer.status == 200, (path, answer.text[:300])
        policy = answer.headers['Content-Security-Policy']
        assert "default-src 'none'" in policy and 'unsafe' not in policy
        inline = Inline()
        inline.feed(answer.text)
        assert inline.found == [], path


def test_a_list_says_of_each_run_what_it_is(world: World, browser: Browser) -> None:
    browser.open(f'/{world.stage.repository}/actions')
    row = browser.one(f'#run-{world.failed}')
    assert browser.text(f'#run-{world.failed} .title') == 'Greet people in many languages'
    assert 'CI #1: pull request #7 commit c0ffee1 by octocat' in row.text and 'feature/greetings' in row.text
    assert 'merge' not in row.text
    assert browser.one(f'#run-{world.failed} svg[role=img]').get_attribute('aria-label') == 'Failure'
    moment = browser.one(f'#run-{world.failed} time')
    assert re.fullmatch(r'(\d+ (second|minute)s? ago|now)', moment.text)
    assert re.fullmatch(r'\d{4}-\d\d-\d\d \d\d:\d\d:\d\d UTC', str(moment.get_attribute('title')))
    waiting = browser.until(lambda: [one for one in browser.all('.row .why') if 'ci-main' in one.text],
                            'who holds the group')[0]
    assert re.search(r'waits for the concurrency group ci-main, held by CI #\d+', waiting.text)


def test_filters_and_the_search_narrow_the_list(world: World, browser: Browser) -> None:
    base = f'/{world.stage.repository}/actions'
    for query, found in (('q=is:failure greet', [world.failed]), ('branch=GREET', [world.failed]),
                         ('actor=octo&event=pull', [world.failed]), ('q=%237', [world.failed]),
                         ('status=failure&q=greet', [world.failed]), ('q=nothing-has-this', [])):
        browser.open(f'{base}?{query}')
        assert [one.get_attribute('id') for one in browser.all('li.row')] == [f'run-{run}' for run in found], query
    browser.open(base)
    browser.one('#q').send_keys('is:failure greet' + Keys.ENTER)
    browser.until(lambda: 'q=is' in browser.driver.current_url and len(browser.all('li.row')) == 1,
                  'the list is narrowed')


def test_the_reason_of_a_failure_comes_first(world: World, browser: Browser) -> None:
    browser.open(world.stage.page(world.failed))
    body = browser.one('#body')
    reason = browser.one('#body > *')
    assert reason.get_attribute('class') == 'reason'
    assert 'test (3.11, linux) failed in step Run make test' in re.sub(r'\s+', ' ', reason.text)
    assert 'Error: tests/test_hello.py:41: AssertionError' in reason.text
    assert '1 failed, 211 passed' in reason.text and '\x1b' not in reason.text
    assert 'Pull request\n#7' in body.text and 'feature/greetings into main' in re.sub(r'\s+', ' ', body.text)
    assert 'c0ffee1' in body.text and 'merge' not in body.text
    reason.find_elements('css selector', 'a')[1].click()
    browser.until(lambda: 'AssertionError' in browser.text('#steps'), 'the log of the step')


def test_the_graph_has_jobs_legs_and_needs(world: World, browser: Browser) -> None:
    browser.open(world.stage.page(world.failed))
    names = [one.get_attribute('aria-label') for one in browser.all('.graph-wide a')]
    # GitHub names a job of a matrix by its values: `test (3.11, linux)`
    assert {'test (3.10, linux): Success', 'test (3.11, linux): Failure', 'build: Success', 'docs: Success, needs lint',
            'Deploy to staging: Skipped, needs test, docs'} <= set(names)
    assert len(browser.all('.graph-wide .edge')) == 5 and browser.one('.graph-wide').is_displayed()
    assert not browser.one('.graph-narrow').is_displayed()
    browser.look(NARROW)
    assert browser.one('.graph-narrow').is_displayed() and not browser.one('.graph-wide').is_displayed()
    browser.look(WIDE)
    [one for one in browser.all('.graph-wide a')
     if one.get_attribute('aria-label') == 'test (3.11, linux): Failure'][0].click()
    browser.until(lambda: browser.text('.job-title') == 'test (3.11, linux)', 'the log of the leg')


def test_a_run_that_waits_says_why(world: World, browser: Browser) -> None:
    browser.open(world.stage.page(world.going_on))
    text = re.sub(r'\s+', ' ', browser.text('#body'))
    assert 'waits for a runner: no runner has windows-latest' in text
    assert 'max-parallel lets 2 run at a time' in text or 'waits for a runner with linux' in text
    browser.open('/queue')
    assert 'windows-latest' in browser.text() and 'no runner has' in browser.text()
    browser.open('/groups')
    row = [one.text for one in browser.all('tbody tr') if 'ci-main' in one.text][0]
    assert row.index('Bump the version') < row.index('Wait for it')


def test_runners_at_work_come_first(world: World, browser: Browser) -> None:
    browser.open('/runners')
    headings = [one.text for one in browser.all('main h2')]
    assert headings[0] == 'Active' and world.legs['going on'].name in browser.text()
    row = [one.text for one in browser.all('tbody tr') if world.legs['going on'].name in one.text][0]
    assert 'linux' in row and 'test (3.10, ' in row
    browser.open(f'/runners?q={world.legs["going on"].name}')
    assert len(browser.all('tbody tr')) == 1


def test_refused_events_say_where_and_what_to_write(world: World, browser: Browser) -> None:
    browser.open('/refused')
    text = browser.text()
    assert '.github/workflows/release.yml, line 14' in text
    assert 'Instead: Put the condition on the steps of the job.' in text and '<b>bold</b>' in text


def test_a_log_is_folded_marked_coloured_and_linked(world: World, browser: Browser) -> None:
    leg = world.legs['failed']
    browser.open(leg.page)
    assert [one.text for one in browser.all('.step .name')] == ['Set up job', 'Install', 'Run make test']
    assert [one.get_attribute('open') for one in browser.all('.step')] == [None, None, 'true']
    assert browser.text('.l.error') .endswith('Error: tests/test_hello.py:41: AssertionError')
    assert 'Warning:' in browser.text('.l.warning')
    assert browser.one('.fg-red').text == 'E  assert "Bonjour" == "Salut"'
    assert browser.one('.bold').text == 'test session starts'
    browser.all('.step > summary')[1].click()
    browser.until(lambda: browser.has('.step:nth-of-type(2) details.group'), 'the lines of the step')
    group = browser.one('.step:nth-of-type(2) details.group')
    assert 'pip install' in group.text and 'package-7' not in group.text
    browser.one('.step:nth-of-type(2) details.group > summary span').click()
    assert 'Collecting package-7' in group.text
    assert not browser.one('.l time').is_displayed()
    browser.one('#times').click()
    assert browser.all('.step[open] .l time')[-1].is_displayed()
    browser.open(f'{leg.page}#step:2:12')
    browser.until(lambda: browser.one('.here').get_attribute('id') == 'step:2:12'
                  and browser.one('.here').is_displayed(), 'the line of the address')
    assert 'Collecting package-10' in browser.text('.here')
    browser.open(leg.page)
    browser.one('#q').send_keys('ASSERT' + Keys.ENTER)
    hits = browser.until(lambda: browser.all('.hits li'), 'what was found')
    assert len(hits) == 2 and 'Run make test:2' in hits[0].text
    hits[1].find_element('css selector', 'a').click()
    browser.until(lambda: browser.one('.here').get_attribute('id') == 'step:3:4', 'the line that was found')
    raw = world.hub.get(f'{leg.page}/raw', world.reader)
    assert raw.status == 200
    assert raw.body == b''.join(world.stage.logs.read(*leg.key()) for _ in [0])
    assert raw.headers['Content-Type'].startswith('text/plain')
    assert raw.headers['Content-Disposition'].startswith('attachment')


def test_a_log_grows_while_it_is_looked_at(world: World, browser: Browser) -> None:
    leg = world.legs['going on']
    browser.open(leg.page)
    browser.is_live()
    assert 'one' in browser.text('#steps')
    begun = time.monotonic()
    leg.say('this line is new', '##[endgroup]', '##[error]a fault')
    browser.until(lambda: 'this line is new' in browser.run('return document.getElementById("steps").textContent')
                  and browser.has('.l.error'), 'the new lines')
    print(f'a line of a log came to an open page in {time.monotonic() - begun:.3f} s')
    assert browser.has('details.group #step\\:1\\:4')
    assert not browser.has('details.group #step\\:1\\:6')
    leg.say(*(f'line {number}' for number in range(3000)))
    browser.until(lambda: 'line 2999' in str(browser.one('#steps').get_attribute('textContent')), 'the last line')
    assert len(browser.all('.l')) <= 2000
    numbers = [int(one.split(':')[2])
               for one in browser.run('return [...document.querySelectorAll(".l")].map(it => it.id)')]
    assert len(numbers) == len(set(numbers)) and numbers == sorted(numbers)
    leg.end().begin('Clean up').say('swept')
    browser.until(lambda: 'swept' in browser.run('return document.getElementById("steps").textContent'),
                  'the next step')
    assert [one.text for one in browser.all('.step .name')] == ['Run make test', 'Clean up']


APPEARS = '''
const [words, done] = arguments;
const look = () => {
  if (!document.getElementById("list").textContent.includes(words)) return;
  observer.disconnect();
  done(Date.now());
};
const observer = new MutationObserver(look);
observer.observe(document.body, {childList: true, subtree: true});
look();'''


def test_a_new_run_comes_to_an_open_page(world: World, browser: Browser) -> None:
    browser.open(f'/{world.stage.repository}/actions')
    browser.is_live()
    browser.driver.set_script_timeout(30)
    took = []
    for number in range(6):
        admitted: list[float] = []

        def admit() -> None:
            world.stage.admit(f'Come soon {number}',
                              jobs={'build': {'runs-on': 'nobody-has-this', 'steps': [{'run': 'x'}]}})
            admitted.append(time.time() * 1000)
        timer = threading.Timer(0.5, admit)
        timer.start()
        appeared = browser.driver.execute_async_script(APPEARS, f'Come soon {number}')
        timer.join()
        took.append((appeared - admitted[0]) / 1000)
    print('a new run came to an open page in', ' '.join(f'{one:.3f}' for one in took), 's')
    assert min(took) < 2
    assert re.fullmatch(r'\d+ runs', browser.run('return document.getElementById("news").textContent'))


HIDE = '''
Object.defineProperty(document, "hidden", {configurable: true, get: () => arguments[0]});
document.dispatchEvent(new Event("visibilitychange"));'''


def hide(browser: Browser, is_hidden: bool) -> None:
    browser.run(HIDE.replace('arguments[0]', 'true' if is_hidden else 'false'))


def test_a_page_that_is_not_seen_holds_no_connection_and_goes_on_once_it_is(world: World, browser: Browser) -> None:
    browser.open(f'/{world.stage.repository}/actions')
    browser.is_live()
    hide(browser, True)
    jobs = {'build': {'runs-on': 'nobody-has-this', 'steps': [{'run': 'x'}]}}
    run = world.stage.admit('While nobody looked', jobs=jobs)
    world.stage.seen(run)
    time.sleep(0.5)
    assert 'While nobody looked' not in browser.text('#list')
    hide(browser, False)
    browser.until(lambda: 'While nobody looked' in browser.text('#list'), 'the run')
    leg = world.legs['going on']
    browser.open(leg.page)
    browser.is_live()
    leg.say('before it was hidden')
    browser.until(lambda: 'before it was hidden' in browser.text('#steps'), 'the line before')
    hide(browser, True)
    leg.say('while it was hidden')
    hide(browser, False)
    leg.say('after it was hidden')
    browser.until(lambda: 'after it was hidden' in browser.text('#steps'), 'the line after')
    lines = [line for line in browser.text('#steps').split('\n') if 'it was hidden' in line]
    assert lines == ['before it was hidden', 'while it was hidden', 'after it was hidden']


def test_keys_reach_the_buttons_and_the_focus_is_seen(world: World, browser: Browser) -> None:
    run = world.stage.admit('Cancel me by keys',
                            jobs={'build': {'runs-on': 'nobody-has-this', 'steps': [{'run': 'x'}]}})
    world.stage.seen(run)
    browser.open(world.stage.page(run))
    browser.one('body').send_keys(Keys.TAB)
    skip = browser.driver.switch_to.active_element
    assert skip.text == 'Skip to the content' and skip.rect['x'] >= 0
    skip.send_keys(Keys.ENTER)
    assert browser.run('return document.activeElement.id') == 'main'
    there = browser.tabs_to('Cancel run')
    assert browser.run('return getComputedStyle(document.activeElement).outlineStyle') == 'solid'
    there.send_keys(Keys.ENTER)
    browser.until(lambda: 'did=cancel' in browser.driver.current_url and 'Cancelled' in browser.text('#head'),
                  'the run is cancelled')
    assert world.stage.service.run(run)['conclusion'] == 'cancelled'
    assert browser.text('.message') == 'A cancellation of the run was requested.'


def test_run_it_again_and_look_at_the_attempt_before(world: World, browser: Browser) -> None:
    browser.open(world.stage.page(world.failed))
    assert not browser.named('Cancel run')
    browser.named('Re-run all jobs')[0].click()
    browser.until(lambda: 'did=rerun' in browser.driver.current_url and 'attempt' not in browser.text('h1'),
                  'the run begins again')
    assert world.stage.service.run(world.failed)['attempt'] == 2
    browser.until(lambda: 'Attempt #1' in browser.text(), 'its attempts')
    assert 'Re-run triggered via pull_request' in browser.text() and 'mona' in browser.text('.facts')
    browser.named('Attempt #1', 'a')[0].click()
    browser.until(lambda: 'attempt 1 of 2' in browser.text('#head'), 'the first attempt')
    assert 'Failure' in browser.text('#head') and 'AssertionError' in browser.text('.reason')
    assert not browser.named('Re-run all jobs')
    world.stage.service.post(f'/runs/{world.failed}/cancel')


def test_who_may_only_read_has_no_buttons_and_is_refused(world: World, browser: Browser) -> None:
    run = world.stage.admit('Leave me alone', jobs={'build': {'runs-on': 'nobody-has-this', 'steps': [{'run': 'x'}]}})
    world.stage.seen(run)
    browser.sign_in(world.hub, world.reader)
    try:
        browser.open(world.stage.page(run))
        assert not browser.has('.buttons button')
        token = browser.one('[name=form_token]').get_attribute('value')
        status = browser.run(POST, f'{world.stage.page(run)}/cancel', {'form_token': token})
        assert status == 403
        assert world.stage.service.run(run)['status'] == 'queued'
        browser.one('form[action="/sign-out"] button').click()
        browser.until(lambda: browser.driver.current_url.endswith('/sign-in'), 'signed out')
        browser.open(world.stage.page(run))
        assert '/sign-in?back=' in browser.driver.current_url
    finally:
        browser.sign_in(world.hub, world.writer)


@pytest.mark.parametrize('token', ['', 'wrong', 'of another'])
def test_a_button_without_the_token_of_its_form_is_refused(world: World, browser: Browser, token: str) -> None:
    run = world.stage.admit('No forgery', jobs={'build': {'runs-on': 'nobody-has-this', 'steps': [{'run': 'x'}]}})
    world.stage.seen(run)
    browser.open(world.stage.page(run))
    sent = token
    if token == 'of another':
        sent = str(browser.one('[name=form_token]').get_attribute('value'))
        browser.sign_in(world.hub, world.writer, world.stage.page(run))
    for action in 'cancel', 'rerun', 'force-cancel', 'rerun-failed', 'approve':
        status = browser.run(POST, f'{world.stage.page(run)}/{action}', {'form_token': sent})
        assert status == 403, action
    assert world.stage.service.run(run)['status'] == 'queued'


def test_a_wrong_token_does_not_sign_in(world: World, browser: Browser) -> None:
    browser.sign_out()
    try:
        browser.open('/queue')
        assert browser.driver.current_url.endswith(('/sign-in?back=%2Fqueue', '/sign-in?back=/queue'))
        browser.one('#token').send_keys('acts_wrong' + Keys.ENTER)
        browser.until(lambda: browser.has('[role=alert]'), 'it is refused')
        assert 'no token of this hub' in browser.text()
        for path in '/sign-in', '/octo/hello/none', '/sign-in?back=/queue':
            browser.look(NARROW, dark=True)
            browser.open(path)
            assert browser.overflow() <= 0 and browser.run(CONTRAST) == [] and len(browser.all('h1')) == 1, path
        browser.look()
        browser.open('/sign-in?back=https://example.org/')
        assert browser.one('main [name=back]').get_attribute('value') == '/'
        browser.one('#token').send_keys(world.writer + Keys.ENTER)
        browser.until(lambda: browser.driver.current_url == f'{world.hub.url}/', 'signed in')
        cookies = {one['name']: one for one in browser.driver.get_cookies()}
        session = next(cookie for name, cookie in cookies.items() if 'session' in name)
        assert session['httpOnly'] and session['sameSite'] in ('Lax', 'Strict')
    finally:
        browser.sign_in(world.hub, world.writer)
