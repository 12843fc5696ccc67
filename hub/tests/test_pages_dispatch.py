"""Workflows that a person starts, what is refused, and approvals: in Chromium, with events of a real mirror."""
from __future__ import annotations

import json
import pathlib
from collections.abc import Iterator
from dataclasses import dataclass

import pytest
from harness import HubProcess, Service, request, until
from pages_browser import NARROW, Browser, chromium
from repositories import Repository, Sender, tables
from selenium.webdriver.common.by import By
from selenium.webdriver.common.keys import Keys
from selenium.webdriver.support.ui import Select

pytestmark = pytest.mark.browser
BY_HAND = '''name: Release it
on:
  workflow_dispatch:
    inputs:
      version: {description: 'Which <b>version</b>', required: true}
      level: {type: choice, options: [info, debug, warning], default: debug}
      dry: {type: boolean, description: Only try it, default: true}
      many: {type: number, default: 3}
      where: {type: environment, default: staging}
jobs:
  build: {runs-on: linux, steps: [{run: 'true'}]}
'''
PUSHED = 'on: push\njobs:\n  build: {runs-on: linux, steps: [{run: "true"}]}\n'
REFUSED = '''on: push
jobs:
  a: {runs-on: linux}
  b:
    needs: a
    if: needs.a.outputs.changed == 'true'
    runs-on: linux
'''
DEPLOY = '''name: Deploy
on: push
jobs:
  live: {environment: production, runs-on: linux, steps: [{run: 'true'}]}
'''
POST = '''
const [address, fields] = arguments;
return fetch(address, {method: "POST", body: new URLSearchParams(fields)}).then(answer => answer.status);'''


@dataclass
class Place:
    """A service, a hub with a mirror, and a browser."""

    service: Service
    hub: HubProcess
    repository: Repository
    browser: Browser
    runs: dict[str, int]

    def newest(self) -> int:
        """The newest run."""
        return int(request(self.service.view, 'GET', '/runs?limit=1').json()['runs'][0]['run'])

    def body(self, run: int) -> dict[str, object]:
        """An admitted body."""
        return dict(request(self.service.hook, 'GET', f'/runs/{run}/body').json())


@pytest.fixture(scope='module')
def place(tmp_path_factory: pytest.TempPathFactory) -> Iterator[Place]:
    folder = tmp_path_factory.mktemp('dispatch')
    repository = Repository(folder, folder / 'mirrors')
    pushed = repository.only({'release.yml': BY_HAND, 'ci.yml': PUSHED, 'refused.yml': REFUSED, 'deploy.yml': DEPLOY})
    made, more = tables(folder / 'hub', folder / 'mirrors',
                        {'octo/hello': {'environments': {'production': 'approval'}}})
    service = Service(folder / 'service')
    hub = HubProcess(folder / 'hub', service, tables=made, more=more)
    try:
        service.start()
        hub.start()
        lines = Sender(hub).push(pushed)
        runs = {name: int(number) for name, _,
                number in (line.partition(': created ') for line in lines) if number.isdecimal()}
        with chromium() as browser:
            browser.look()
            browser.sign_in(hub, hub.token('mona', 'write'))
            yield Place(service, hub, repository, browser, runs)
    finally:
        hub.kill()
        service.kill()


def open_form(browser: Browser) -> None:
    browser.open('/octo/hello/actions/workflows/release.yml')
    browser.one('#dispatch > summary').click()


def test_a_workflow_that_never_ran_is_started_with_its_inputs(place: Place) -> None:
    browser = place.browser
    browser.open('/octo/hello/actions')
    assert 'Release it' in browser.text('#workflows')
    assert 'Never run' in browser.one('#workflows').get_attribute('textContent')
    open_form(browser)
    fields = {one.get_attribute('name'): one for one in browser.all('.dispatch [name^="input."]')}
    assert {name: (one.tag_name, one.get_attribute('type')) for name,
            one in fields.items()} == {'input.version': ('input', 'text'), 'input.level': ('select', 'select-one'),
                                       'input.dry': ('input', 'checkbox'), 'input.many': ('input', 'number'),
                                       'input.where': ('input', 'text')}
    assert 'Which <b>version</b> (required)' in browser.text('.dispatch')
    assert Select(fields['input.level']).first_selected_option.text == 'debug'
    assert fields['input.dry'].is_selected() and fields['input.many'].get_attribute('value') == '3'
    assert browser.one('#ref').get_attribute('value') == 'main'
    fields['input.version'].send_keys('1.2')
    Select(fields['input.level']).select_by_visible_text('warning')
    fields['input.dry'].click()
    fields['input.version'].send_keys(Keys.ENTER)
    browser.until(lambda: 'did=dispatch' in browser.driver.current_url
                  and browser.text('h1').startswith('Release it #1'), 'the run')
    run = place.newest()
    assert f'/runs/{run}?' in browser.driver.current_url
    assert place.body(run)['inputs'] == {'version': '1.2', 'level': 'warning', 'dry': False, 'many': 3,
                                         'where': 'staging'}
    assert 'Triggered via workflow_dispatch\nmona' in browser.text('.facts')


def test_what_can_not_be_started_says_why_and_keeps_what_was_typed(place: Place) -> None:
    browser, before = place.browser, place.newest()
    open_form(browser)
    browser.one('[name="input.version"]').send_keys('<i>9</i>')
    browser.one('#ref').clear()
    browser.one('#ref').send_keys('no/such' + Keys.ENTER)
    browser.until(lambda: browser.has('.dispatch [role=alert]'), 'why not')
    assert 'No ref found for: no/such' in browser.text('.dispatch [role=alert]')
    assert browser.one('[name="input.version"]').get_attribute('value') == '<i>9</i>'
    assert browser.one('#ref').get_attribute('value') == 'no/such'
    assert place.newest() == before
    browser.look(NARROW)
    assert browser.overflow() <= 0
    browser.look()


def test_only_who_may_write_sees_the_form_and_may_send_it(place: Place) -> None:
    reader = place.hub.token('hubot', 'read')
    page = '/octo/hello/actions/workflows/release.yml'
    assert 'Run workflow' in place.hub.get(page, place.hub.token('m2', 'write')).text
    assert 'Run workflow' not in place.hub.get(page, reader).text
    before = place.newest()
    form = {'Content-Type': 'application/x-www-form-urlencoded'}
    assert place.hub.post(f'{page}/dispatch', 'ref=main&input.version=1', reader, form).status == 403
    assert place.hub.post(f'{page}/dispatch', 'ref=main&input.version=1', None, form).status == 401
    assert place.hub.post(f'{page}/dispatch', 'ref=main&input.version=1',
                          place.hub.token('m3', 'write', repositories=('octo/other',)), form).status == 404
    status = place.browser.run(POST, f'{page}/dispatch', {'ref': 'main', 'input.version': '1'})
    assert status == 403 and place.newest() == before
    assert place.hub.post('/octo/hello/actions/workflows/ci.yml/dispatch', 'ref=main', place.hub.token('m4', 'write'),
                          form).status == 422
    assert place.hub.get('/octo/hello/actions/workflows/none.yml', reader).status == 404


def test_a_refused_workflow_says_its_line_and_what_to_write(place: Place) -> None:
    browser = place.browser
    until(lambda: 'refused.yml' in place.hub.get('/refused', place.hub.token('m5', 'read')).text, what='the refusal')
    browser.open('/octo/hello/actions/refused')
    row = [one.text for one in browser.all('li.row') if 'refused.yml' in one.text][0]
    assert '.github/workflows/refused.yml, line 6' in row and 'Instead: ' in row and 'refusal 26' in row
    assert place.hub.get('/octo/other/actions/refused',
                         place.hub.token('m6', 'read', repositories=('octo/hello',))).status == 404


def test_an_environment_is_approved_on_the_page(place: Place) -> None:
    browser, run = place.browser, place.runs['deploy.yml']
    browser.open(f'/octo/hello/actions/runs/{run}')
    browser.until(lambda: 'waits until somebody approves it' in browser.text('#body'), 'it waits')
    buttons = [one for one in browser.all('.buttons button') if one.text.startswith('Approve')]
    assert [one.text for one in buttons] == ['Approve live']
    buttons[0].send_keys(Keys.ENTER)
    browser.until(lambda: 'did=approve' in browser.driver.current_url, 'it is approved')
    assert 'somebody approves' not in browser.text('#body')
    assert not [one for one in browser.all('.buttons button') if one.text.startswith('Approve')]
    answer = place.hub.get(f'/api/v3/repos/octo/hello/actions/runs/{run}/approvals', place.hub.token('m7', 'read'))
    assert json.loads(answer.body)[0]['user']['login'] == 'mona'
    assert browser.driver.find_elements(By.CSS_SELECTOR, '.message')[0].text.startswith('The environment was approved')
