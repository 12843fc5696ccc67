"""Runners that leave: discharged by REST and by a button, once their token or their host is gone, and when they were ephemeral; also over kills of the hub."""
from __future__ import annotations

import contextlib
import pathlib
import re
import shutil
import sqlite3
from collections.abc import Callable, Iterator
from typing import Any

import pytest
from harness import HubProcess, Service, body_of, request, until
from test_runner_hub import Site
from wires import Wire

RUNNERS = '/api/v3/repos/octo/hello/actions/runners'
Make = Callable[..., HubProcess]


def names(service: Service) -> list[str]:
    """The runners that the service knows."""
    return [row['runner'] for row in request(service.view, 'GET', '/runners').json()['runners']]


def number_of(hub: HubProcess, token: str, name: str) -> int:
    """The number of a runner in GitHub's API."""
    found, = hub.get(f'{RUNNERS}?name={name}', token).json()['runners']
    return int(found['id'])


@pytest.fixture
def sites(tmp_path: pathlib.Path) -> Iterator[Callable[[HubProcess], Site]]:
    """Sites, whose runners end with the test."""
    made: list[Site] = []

    def site(hub: HubProcess) -> Site:
        made.append(Site(tmp_path, hub))
        return made[-1]
    yield site
    for one in made:
        one.close()


@pytest.fixture
def wire(hub: HubProcess) -> Iterator[Callable[..., Wire]]:
    """Streams of runners."""
    made: list[Wire] = []

    def open_one(there: HubProcess | None = None, token: str = '', path: str = '') -> Wire:
        used = there or hub
        made.append(Wire(used, token or used.token(f'runners-{len(made)}', 'runner', labels=('linux',)), path=path))
        return made[-1]
    yield open_one
    for one in made:
        one.close()


@pytest.mark.quick
def test_a_runner_is_removed_by_the_api(service: Service, hub: HubProcess, wire: Callable[..., Wire]) -> None:
    """GitHub Docs, "Delete a self-hosted runner from a repository": 204, and 422 for one that runs a job."""
    first, second = wire(), wire()
    service.admit(body_of())
    lease = first.claim('r1')[1]
    assert second.claim('r2') == ['nothing']
    all_of, some = hub.token('mona', 'admin'), hub.token('hubot', 'admin', repositories=('octo/*',))
    until(lambda: hub.get(f'{RUNNERS}', all_of).json().get('total_count') == 2, what='the runners')
    r1, r2 = (number_of(hub, all_of, name) for name in ('r1', 'r2'))
    busy = hub.request('DELETE', f'{RUNNERS}/{r1}', token=all_of)
    assert (busy.status, busy.json()['message']) == (422, 'Runner "r1" is currently running a job and cannot be deleted.')
    for token in some, hub.token('writer', 'write'):
        assert hub.request('DELETE', f'{RUNNERS}/{r2}', token=token).status == 403
        assert hub.request('DELETE', f'/api/v3/orgs/octo/actions/runners/{r2}', token=token).status == 403
    assert hub.request('DELETE', f'{RUNNERS}/5', token=all_of).status == 404 and hub.request('DELETE', f'{RUNNERS}/{r2}').status == 401
    assert names(service) == ['r1', 'r2']
    gone = hub.request('DELETE', f'{RUNNERS}/{r2}', token=all_of)
    assert (gone.status, gone.body) == (204, b'') and names(service) == ['r1']
    assert hub.request('DELETE', f'{RUNNERS}/{r2}', token=all_of).status == 404
    lines = service.lines()                                 # (at load the hub may have closed the stream, on which nothing was said for a minute)
    lines.numbers['r1'] = 1
    assert lines.done('r1', lease) == 'ok' and hub.request('DELETE', f'/api/v3/orgs/octo/actions/runners/{r1}', token=all_of).status == 204
    assert names(service) == [] and hub.get(RUNNERS, all_of).json()['total_count'] == 0


def test_a_runner_is_removed_by_a_button(service: Service, hub: HubProcess, wire: Callable[..., Wire]) -> None:
    kind = {'Content-Type': 'application/x-www-form-urlencoded', 'Origin': hub.url}
    busy, idle = wire(), wire()
    service.admit(body_of())
    busy.claim('r1')
    idle.claim('r2')
    signed, texts = {}, {}
    for right in 'admin', 'write':
        cookie = hub.post('/sign-in', f'token={hub.token(right, right)}', headers=kind).headers['Set-Cookie']
        signed[right] = {'Cookie': cookie.partition(';')[0]}
        texts[right] = hub.get('/runners', headers=signed[right]).text
    assert '/runners/r2/remove' in texts['admin'] and '/runners/r1/remove' not in texts['admin'] and '/remove' not in texts['write']
    form = {right: re.findall(r'name="form_token" value="([0-9a-f]{64})"', text)[-1] for right, text in texts.items()}
    assert hub.post('/runners/r2/remove', f'form_token={form["write"]}', headers={**kind, **signed['write']}).status == 403
    assert hub.post('/runners/r2/remove', 'form_token=' + '0' * 64, headers={**kind, **signed['admin']}).status == 403
    said = hub.post('/runners/r1/remove', f'form_token={form["admin"]}', headers={**kind, **signed['admin']})
    assert said.status == 409 and 'r1 was not removed: the runner holds a lease.' in said.text and names(service) == ['r1', 'r2']
    for _ in range(2):                                      # the second time it is gone already
        answer = hub.post('/runners/r2/remove', f'form_token={form["admin"]}', headers={**kind, **signed['admin']})
        assert (answer.status, answer.headers['Location']) == (303, '/runners?did=remove') and names(service) == ['r1']
    assert 'The runner was removed.' in hub.get('/runners?did=remove', headers=signed['admin']).text


def test_a_runner_that_is_still_there_comes_again(service: Service, hub: HubProcess, sites: Callable[[HubProcess], Site]) -> None:
    site = sites(hub)
    host = site.host().start(pause=0.1)
    first = site.admit({'run': 'echo first'})
    until(lambda: service.run(first)['conclusion'] == 'success', what='the first run')
    (name,), token = names(service), hub.token('mona')
    assert hub.request('DELETE', f'{RUNNERS}/{number_of(hub, token, name)}', token=token).status == 204
    run = site.admit({'run': 'echo again'})
    until(lambda: service.run(run)['conclusion'] == 'success', what='the run')
    until(lambda: site.said(run)[-1:] == ['again'], what='its log')
    assert names(service) == [name]


def test_a_runner_whose_token_is_revoked_is_discharged_once_it_holds_no_lease(service: Service, make_hub: Make, wire: Callable[..., Wire]) -> None:
    hub = make_hub(tables={'gateway': {'seconds_between_looks': 0.5}})
    there, other = (wire(hub, hub.token(name, 'runner', labels=('linux',))) for name in ('old', 'new'))
    service.admit(body_of())
    assert there.claim('r1')[0] == 'lease' and there.close() is None
    idle = wire(hub, there.token)
    assert idle.claim('r2') == ['nothing'] and other.claim('r3') == ['nothing']
    assert hub.command('token', '--config', str(hub.config), 'revoke', 'old').returncode == 0
    until(lambda: names(service) == ['r1', 'r3'], what='the end of r2')
    hub.restart()
    assert service.post('/runners/r1/lost').status == 202
    until(lambda: names(service) == ['r3'], what='the end of r1')


def test_a_runner_that_says_nothing_for_days_is_discharged(service: Service, make_hub: Make, wire: Callable[..., Wire]) -> None:
    """GitHub Docs, "Removing self-hosted runners": after 14 days, here three seconds."""
    hub = make_hub(tables={'gateway': {'seconds_between_looks': 0.5, 'runner_days': 3 / 86_400}})
    silent, busy, there = wire(hub), wire(hub), wire(hub)
    service.admit(body_of())
    assert busy.claim('r2')[0] == 'lease' and silent.claim('r1') == ['nothing']
    lines = service.lines()
    assert lines.claim('r4')[0] == 'nothing'                # no hub is between

    def is_gone() -> bool:
        there.claim('r3')
        return names(service) == ['r2', 'r3']
    until(is_gone, what='the end of r1 and r4')
    lines.close()


def test_an_ephemeral_runner_takes_one_leg_and_leaves(service: Service, make_hub: Make, sites: Callable[[HubProcess], Site]) -> None:
    hub = make_hub(tables={'gateway': {'seconds_of_grace': 0.5}})
    site = sites(hub)
    runs = [site.admit({'run': 'echo one leg'}) for _ in range(2)]
    host = site.host().start('--ephemeral', pause=0.1)
    until(host.has_ended, what='its end')
    assert [service.run(run)['status'] for run in runs] == ['completed', 'queued'] and site.said(runs[0])[-1:] == ['one leg']
    until(lambda: names(service) == [], what='its discharge')
    host.start('--ephemeral', pause=0.1)                    # the same folder, whose number is past the service's
    until(host.has_ended, what='its end')
    assert service.run(runs[1])['conclusion'] == 'success'
    until(lambda: names(service) == [], what='its discharge')


def test_an_ephemeral_runner_is_discharged_also_after_a_kill_of_the_hub(service: Service, make_hub: Make, wire: Callable[..., Wire]) -> None:
    hub = make_hub(tables={'gateway': {'seconds_of_grace': 1}})
    there, busy = wire(hub, path='?ephemeral=true'), wire(hub, path='?ephemeral=true')
    service.admit(body_of())
    lease = busy.claim('r2')
    assert lease[0] == 'lease' and there.claim('r1') == ['nothing']
    there.close()
    busy.close()
    until(lambda: set(hub_notes(hub, 'leaving')) == {'r1', 'r2'}, what='the notes')
    hub.restart()
    until(lambda: names(service) == ['r2'], what='the end of r1')
    again = wire(hub, busy.token, '?ephemeral=true')
    again.numbers = busy.numbers
    assert again.done('r2', lease[1]) == 'ok' and again.claim('r2') == ['nothing'] and 'r2' in names(service)
    again.close()
    until(lambda: names(service) == [], what='the end of r2')
    until(lambda: not any(hub_notes(hub, kind) for kind in ('leaving', 'runner', 'claim')), what='the end of the notes')


def hub_notes(hub: HubProcess, kind: str) -> list[str]:
    """The names of which there is a note."""
    with contextlib.closing(sqlite3.connect(hub.state / 'ledger.sqlite', timeout=10)) as ledger:
        return [name for name, in ledger.execute('select name from notes where run = 0 and kind = ?', (kind,))]


def test_what_others_discharge_is_forgotten_here(service: Service, make_hub: Make) -> None:
    hub = make_hub(tables={'gateway': {'seconds_between_looks': 0.5}})
    lines = service.lines()
    for name in 'r1', 'r2', 'r3':
        lines.claim(name)

    def kept() -> list[str]:
        with contextlib.closing(sqlite3.connect(hub.state / 'ledger.sqlite', timeout=10)) as ledger:
            return [name for name, in ledger.execute('select name from runners order by name')]
    until(lambda: kept() == ['r1', 'r2', 'r3'], what='the rows')
    assert service.post('/runners/r1/forget').text == 'ok\n'
    until(lambda: kept() == ['r2', 'r3'], what='the end of r1')
    hub.kill()
    assert service.post('/runners/r2/forget').text == 'ok\n'
    service.restart()                                       # so that no line of changes says it
    hub.start()
    until(lambda: kept() == ['r3'], what='the end of r2')
    lines.close()


@pytest.mark.skipif(not shutil.which('protoc'), reason='protobuf-compiler is not installed')
def test_names_of_giteas_protocol_are_discharged(service: Service, make_hub: Make, sites: Callable[[HubProcess], Site]) -> None:
    from gitea_client import Client, Refusal
    hub = make_hub(tables={'gateway': {'silence_of_tasks': 2}})
    site = sites(hub)
    once, stays = Client(hub), Client(hub)
    once.register(site.token, site.label, ephemeral=True)
    stays.register(site.token, site.label)
    for _ in range(2):
        site.admit({'run': 'true'})
    tasks: list[Any] = [once.fetch(), stays.fetch()]
    both = names(service)
    assert len(both) == 2
    once.update(tasks[0], 'SUCCESS')
    until(lambda: len(names(service)) == 1, what='the end of the ephemeral name')
    hub.restart()
    assert once.log(tasks[0], 0, 'late') == 1 and once.update(tasks[0], 'SUCCESS').state.result == 1, 'what comes late is taken'
    stays.update(tasks[1], 'SUCCESS')
    assert stays.fetch() is None and len(names(service)) == 1
    assert hub.command('token', '--config', str(hub.config), 'revoke', f'runners-{site.label}').returncode == 0
    until(lambda: names(service) == [], what='the end of the other name')
    with pytest.raises(Refusal):
        stays.fetch()
    until(lambda: not any(hub_notes(hub, kind) for kind in ('connect-runner', 'connect-slot', 'leaving', 'runner')), what='the end of the notes')
