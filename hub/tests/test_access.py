"""Who may what: tokens, sessions, forms, proxies, rates, and what each refusal is answered."""
from __future__ import annotations

import asyncio
import base64
import contextlib
import pathlib
import re
import sqlite3
from collections.abc import AsyncIterator, Coroutine
from typing import Any

import pytest
from aiohttp import ClientSession, CookieJar, web
from aiohttp.test_utils import TestServer

from acts_hub.access.identity import Identity, Right, identity_of, matches, require
from acts_hub.access.peers import is_among, peer_of
from acts_hub.access.rates import Rates
from acts_hub.access.tokens import TokenError, Tokens, check, secret_of
from acts_hub.app import make_app
from acts_hub.config import Config, config_of
from acts_hub.hub import Hub, make_hub
from acts_hub.ledger.database import Database
from harness import HubProcess

pytestmark = pytest.mark.quick


@pytest.fixture
def database(tmp_path: pathlib.Path) -> Any:
    made = Database(tmp_path / 'ledger.sqlite')
    made.open()
    yield made
    made.close()


def identity(right: Right, *repositories: str, **more: Any) -> Identity:
    return Identity('mona', right, repositories or ('*',), 1, **more)


@pytest.mark.parametrize('patterns, repository, is_one', [
    (('octo/hello',), 'octo/hello', True), (('octo/hello',), 'Octo/HELLO', True), (('Octo/Hello',), 'octo/hello', True), (('octo/hello',), 'octo/hello2', False),
    (('octo/*',), 'octo/any', True), (('octo/*',), 'octo2/any', False), (('octo/*',), 'x/octo/any', False), (('*',), 'any/thing', True), ((), 'octo/hello', False),
    (('octo/hello',), 'octo/*', False), (('octo/hello',), '*', False), (('octo/h.llo',), 'octo/hello', False)])
def test_patterns_name_repositories(patterns: tuple[str, ...], repository: str, is_one: bool) -> None:
    assert matches(patterns, repository) is is_one


def test_rights_include_those_before_them_and_runners_stand_alone() -> None:
    allowed = {right: {asked for asked in Right if identity(right).may(asked, 'octo/hello')} for right in Right}
    assert allowed == {Right.READ: {Right.READ}, Right.WRITE: {Right.READ, Right.WRITE}, Right.ADMIN: {Right.READ, Right.WRITE, Right.ADMIN},
                       Right.RUNNER: {Right.RUNNER}}
    one = identity(Right.ADMIN, 'octo/hello')
    assert one.may(Right.READ) and not one.may(Right.WRITE) and not one.may(Right.ADMIN)      # what is of all repositories needs '*'
    assert identity(Right.ADMIN).may(Right.ADMIN)


def test_a_runner_may_claim_by_prefix_and_labels() -> None:
    one = identity(Right.RUNNER, 'octo/*', prefix='build-', labels=('linux', 'X64'))
    assert one.may_claim('build-1', ('Linux', 'x64')) and one.may_claim('build-1', ('linux',))
    assert not one.may_claim('other', ('linux',)) and not one.may_claim('build-1', ('linux', 'production')) and not identity(Right.ADMIN).may_claim('build-1', ())


@pytest.mark.parametrize('header, secret', [
    ('Bearer abc', 'abc'), ('token abc', 'abc'), ('bearer  abc ', 'abc'), ('Basic ' + base64.b64encode(b'mona:abc').decode(), 'abc'),
    ('Basic ' + base64.b64encode(b'mona:a:c').decode(), 'a:c'), ('Basic ' + base64.b64encode(b'abc').decode(), None), ('Basic !!!', None), ('Digest abc', None),
    ('abc', None), ('', None), (None, None), ('Bearer ' + 'x' * 257, None), ('Bearer ', None), ('Basic ' + 'A' * 4096, None)])
def test_tokens_come_as_bearer_token_and_basic(header: str | None, secret: str | None) -> None:
    assert secret_of(header) == secret


@pytest.mark.parametrize('given', [
    dict(name=''), dict(name='a b'), dict(name='<b>'), dict(name='-x'), dict(name='x' * 65), dict(repositories=()), dict(repositories=('octo',)),
    dict(repositories=('*/hello',)), dict(repositories=('octo/hello/x',)), dict(repositories=('octo/he*',)), dict(repositories=('../x',  '/')), dict(prefix='x'),
    dict(labels=('linux',)), dict(right=Right.RUNNER), dict(right=Right.RUNNER, labels=('a,b',)), dict(right=Right.RUNNER, labels=('a b',)),
    dict(right=Right.RUNNER, labels=('a',), prefix='a/b')])
def test_tokens_that_can_not_be_made(given: dict[str, Any]) -> None:
    with pytest.raises(TokenError):
        check(**{'name': 'mona', 'right': Right.READ, 'repositories': ('*',), 'prefix': '', 'labels': (), **given})


def test_a_token_is_256_random_bits_kept_as_a_digest_alone(database: Database) -> None:
    tokens = Tokens(database)
    made = [tokens.create('mona', Right.WRITE, ('octo/*',)) for _ in range(2)]
    assert made[0] != made[1] and all(re.fullmatch(r'acts_[A-Za-z0-9_-]{43}', one) for one in made)     # 43 of 6 bits hold 256
    database.flushed()
    for path in database.path.parent.iterdir():
        assert made[0].encode() not in path.read_bytes() and made[0][5:].encode() not in path.read_bytes()
    found = tokens.verify(made[0])
    assert found is not None and (found.name, found.right, found.repositories) == ('mona', Right.WRITE, ('octo/*',))
    assert tokens.verify(made[0] + 'x') is None and tokens.verify(made[0][:-1]) is None and tokens.verify('') is None


def test_another_process_revokes_at_once(database: Database, tmp_path: pathlib.Path) -> None:
    tokens = Tokens(database)
    secret, other = tokens.create('mona', Right.READ), tokens.create('hubot', Right.READ)
    assert tokens.verify(secret) and tokens.verify(other)
    with contextlib.closing(sqlite3.connect(database.path)) as connection:                     # as another process does
        connection.execute("update tokens set revoked_at = 1 where name = 'mona'")
        connection.commit()
    assert tokens.verify(secret) is None and tokens.by_name('mona') is None and tokens.verify(other)


def test_a_token_ends_with_its_days(database: Database) -> None:
    tokens = Tokens(database)
    assert tokens.verify(tokens.create('mona', Right.READ, expires_at=1)) is None


class Gone:
    """A request whose connection is gone."""
    transport = None


def test_a_connection_that_is_gone_comes_from_nowhere() -> None:
    found: Any = Gone()
    assert peer_of(found) == '' and not is_among('', ('unix', '127.0.0.1', '0.0.0.0/0', '::/0'))


def test_rates_fill_up_again() -> None:
    at = [0.0]
    rates = Rates(2, 3, lambda: at[0])
    assert [rates.take('a') for _ in range(4)] == [0, 0, 0, 0.5] and rates.take('b') == 0
    at[0] = 0.5
    assert [rates.take('a'), rates.take('a')] == [0, 0.5]
    at[0] = 100
    assert [rates.take('a') for _ in range(4)] == [0, 0, 0, 0.5]                              # never more than the burst
    assert all(Rates(1, 0).take('a') == 0 for _ in range(100))


@pytest.mark.parametrize('address, peers, is_one', [
    ('127.0.0.1', ('127.0.0.1',), True), ('127.0.0.2', ('127.0.0.1',), False), ('10.1.2.3', ('10.0.0.0/8',), True), ('unix', ('127.0.0.1',), False),
    ('unix', ('unix',), True), ('::ffff:10.1.2.3', ('10.0.0.0/8',), True), ('::1', ('::1',), True), ('nonsense', ('10.0.0.0/8', 'unix'), False)])
def test_peers(address: str, peers: tuple[str, ...], is_one: bool) -> None:
    assert is_among(address, peers) is is_one


# over HTTP

class Served:
    """The application of a hub without a service, with a few routes to try it by."""

    def __init__(self, hub: Hub, server: TestServer, client: ClientSession) -> None:
        self.hub, self.server, self.client = hub, server, client

    async def ask(self, method: str, path: str, token: str | None = None, **given: Any) -> tuple[int, str, Any]:
        headers = {**({'Authorization': f'Bearer {token}'} if token else {}), **given.pop('headers', {})}
        async with self.client.request(method, self.server.make_url(path), headers=headers, allow_redirects=False, **given) as answer:
            return answer.status, await answer.text(), answer.headers


async def who(request: web.Request) -> web.Response:
    found = require(request, Right.READ)
    return web.json_response({'name': found.name, 'is_browser': found.is_browser, 'form': request.app['hub'].access.form_token(request)})


async def read(request: web.Request) -> web.Response:
    require(request, Right.READ, f'{request.match_info["owner"]}/{request.match_info["repo"]}')
    return web.Response(text='read')


async def act(request: web.Request) -> web.Response:
    require(request, Right.WRITE, f'{request.match_info["owner"]}/{request.match_info["repo"]}')
    return web.Response(text=f'acted {identity_of(request) is not None}')


async def enter(request: web.Request) -> web.Response:
    made = web.Response(text='in')
    found = request.app['hub'].access.sign_in(request, made, str((await request.post()).get('token', '')))
    return made if found else web.Response(status=401, text='no')


async def leave(request: web.Request) -> web.Response:
    made = web.Response(text='out')
    request.app['hub'].access.sign_out(request, made)
    return made


async def fail(request: web.Request) -> web.Response:
    raise RuntimeError('secret words')


@contextlib.asynccontextmanager
async def served(folder: pathlib.Path, **tables: Any) -> AsyncIterator[Served]:
    config: Config = config_of({'hub': {'folder': str(folder), **tables.pop('hub', {})}, **tables})
    hub = make_hub(config)
    folder.mkdir(exist_ok=True)
    hub.database.open()
    app = make_app(hub)
    app.add_routes([web.get('/try/it/now/who', who), web.get('/try/it/now/{owner}/{repo}', read), web.post('/try/it/now/{owner}/{repo}', act), web.post('/try/it/now/enter', enter),
                    web.post('/try/it/now/leave', leave), web.get('/try/it/now/fail', fail)])
    async with TestServer(app) as server, ClientSession(cookie_jar=CookieJar(unsafe=True)) as client:
        yield Served(hub, server, client)
    hub.database.close()


def play(what: Coroutine[Any, Any, None]) -> None:
    asyncio.run(asyncio.wait_for(what, 180))


def test_refusals_are_401_404_and_403(tmp_path: pathlib.Path) -> None:
    async def test() -> None:
        async with served(tmp_path) as one:
            make = one.hub.access.tokens.create
            reader, writer = make('reader', Right.READ, ('octo/*',)), make('writer', Right.WRITE, ('octo/hello',))
            runner = make('runner', Right.RUNNER, ('*',), 'r', ('linux',))
            status = {(name, method, path): (await one.ask(method, f'/try/it/now/{path}', token))[0] for name, token in
                      (('none', None), ('wrong', 'acts_wrong'), ('reader', reader), ('writer', writer), ('runner', runner))
                      for method in ('GET', 'POST') for path in ('octo/hello', 'octo/other', 'else/hello')}
            for path in 'octo/hello', 'octo/other', 'else/hello':
                assert {status[name, method, path] for name in ('none', 'wrong') for method in ('GET', 'POST')} == {401}
                assert status['runner', 'GET', path] == 404 and status['runner', 'POST', path] == 403
            assert [status['reader', 'GET', path] for path in ('octo/hello', 'octo/other', 'else/hello')] == [200, 200, 404]
            assert [status['reader', 'POST', path] for path in ('octo/hello', 'octo/other', 'else/hello')] == [403, 403, 404]
            assert [status['writer', 'GET', path] for path in ('octo/hello', 'octo/other', 'else/hello')] == [200, 404, 404]
            assert [status['writer', 'POST', path] for path in ('octo/hello', 'octo/other', 'else/hello')] == [200, 404, 404]
            _, text, headers = await one.ask('GET', '/api/v3/try/it/now/octo/hello', 'acts_wrong')
            assert 'Bad credentials' in text and headers['Content-Type'].startswith('application/json') and 'WWW-Authenticate' in headers
    play(test())


def test_every_answer_has_the_security_headers(tmp_path: pathlib.Path) -> None:
    async def test() -> None:
        async with served(tmp_path) as one:
            token = one.hub.access.tokens.create('mona', Right.READ)
            for path in '/healthz', '/nowhere', '/try/it/now/who', '/try/it/now/octo/hello', '/try/it/now/fail', '/try/it/now/%00', '/try/it/now/%2e%2e/x':
                status, text, headers = await one.ask('GET', path, token)
                assert headers['X-Content-Type-Options'] == 'nosniff' and 'Referrer-Policy' in headers, path
                policy = headers['Content-Security-Policy']
                assert "frame-ancestors 'none'" in policy and "default-src 'none'" in policy and 'unsafe' not in policy
                assert 'secret words' not in text and 'Traceback' not in text
            assert (await one.ask('GET', '/try/it/now/fail', token))[0] == 500
            assert 'Strict-Transport-Security' not in headers
        async with served(tmp_path, hub={'url': 'https://acts.example.org'}) as one:
            assert 'Strict-Transport-Security' in (await one.ask('GET', '/healthz'))[2]
    play(test())


def test_a_browser_signs_in_acts_with_its_form_and_signs_out(tmp_path: pathlib.Path) -> None:
    async def test() -> None:
        async with served(tmp_path) as one:
            token = one.hub.access.tokens.create('mona', Right.WRITE)
            assert (await one.ask('POST', '/try/it/now/enter', data={'token': 'acts_wrong'}))[0] == 401
            status, _, headers = await one.ask('POST', '/try/it/now/enter', data={'token': token})
            cookie = headers['Set-Cookie']
            assert status == 200 and all(part in cookie for part in ('HttpOnly', 'SameSite=Lax', 'Path=/', 'Max-Age=1209600')) and 'Secure' not in cookie
            secret = cookie.partition('=')[2].partition(';')[0]
            one.hub.database.flushed()
            assert all(secret.encode() not in path.read_bytes() for path in tmp_path.iterdir())        # kept as a digest
            found = await (await one.client.get(one.server.make_url('/try/it/now/who'))).json()
            assert found['name'] == 'mona' and found['is_browser'] is True and len(found['form']) == 64
            form = {'form_token': found['form']}
            assert (await one.ask('POST', '/try/it/now/octo/hello', data=form))[:2] == (200, 'acted True')
            assert (await one.ask('POST', '/try/it/now/octo/hello', headers={'X-Form-Token': found['form']}))[0] == 200
            for data, headers in (({}, {}), ({'form_token': 'x'}, {}), ({'form_token': 'ä'}, {}), (form, {'Origin': 'https://evil.example'}),
                                  (form, {'Origin': 'null'}), (form, {'Sec-Fetch-Site': 'cross-site'}), ({'form_token': found['form'][:-1]}, {})):
                assert (await one.ask('POST', '/try/it/now/octo/hello', data=data, headers=headers))[0] == 403, (data, headers)
            copied = {'Cookie': f'acts_session={secret}'}
            assert (await one.ask('POST', '/try/it/now/leave', data=form))[0] == 200
            async with ClientSession() as other:           # the cookie is worth nothing any more
                async with other.get(one.server.make_url('/try/it/now/who'), headers=copied) as answer:
                    assert answer.status == 401
    play(test())


def test_a_session_ends_with_its_token_and_survives_a_restart_of_the_hub(tmp_path: pathlib.Path) -> None:
    async def test() -> None:
        async with served(tmp_path) as one:
            token = one.hub.access.tokens.create('mona', Right.WRITE)
            cookie = (await one.ask('POST', '/try/it/now/enter', data={'token': token}))[2]['Set-Cookie'].partition(';')[0]
            form = (await (await one.client.get(one.server.make_url('/try/it/now/who'))).json())['form']
        async with served(tmp_path) as one:
            assert (await one.ask('POST', '/try/it/now/octo/hello', data={'form_token': form}, headers={'Cookie': cookie}))[0] == 200
            one.hub.access.tokens.revoke('mona')
            assert (await one.ask('GET', '/try/it/now/who', headers={'Cookie': cookie}))[0] == 401
    play(test())


def test_cookies_are_secure_behind_tls_and_runners_do_not_sign_in(tmp_path: pathlib.Path) -> None:
    async def test() -> None:
        async with served(tmp_path, hub={'url': 'https://acts.example.org'}) as one:
            person, runner = one.hub.access.tokens.create('mona', Right.READ), one.hub.access.tokens.create('r', Right.RUNNER, labels=('linux',))
            cookie = (await one.ask('POST', '/try/it/now/enter', data={'token': person}))[2]['Set-Cookie']
            assert cookie.startswith('__Host-acts_session=') and 'Secure' in cookie
            assert (await one.ask('POST', '/try/it/now/enter', data={'token': runner}))[0] == 401
            assert (await one.ask('POST', '/try/it/now/enter', data={'token': person}, headers={'Origin': 'https://evil.example'}))[0] == 403
    play(test())


def test_the_header_of_a_proxy_is_believed_from_its_addresses_alone(tmp_path: pathlib.Path) -> None:
    async def test() -> None:
        header = {'X-Remote-User': 'Mona'}
        for addresses, status in (['127.0.0.1', '::1'], 200), (['10.0.0.0/8', 'unix'], 401):
            async with served(tmp_path, access={'proxy_header': 'X-Remote-User', 'proxy_addresses': addresses}) as one:
                if one.hub.access.tokens.by_name('mona') is None:
                    one.hub.access.tokens.create('mona', Right.WRITE)
                    one.hub.access.tokens.create('r1', Right.RUNNER, labels=('linux',))
                assert (await one.ask('GET', '/try/it/now/who', headers=header))[0] == status
                if status == 200:
                    assert (await one.ask('GET', '/try/it/now/who', headers={'X-Remote-User': 'nobody'}))[0] == 401
                    assert (await one.ask('GET', '/try/it/now/who', headers={'X-Remote-User': 'r1'}))[0] == 401
                    assert (await one.ask('POST', '/try/it/now/octo/hello', headers=header))[0] == 403          # a proxy's name needs a form's token too
                    form = (await (await one.client.get(one.server.make_url('/try/it/now/who'), headers=header)).json())['form']
                    assert (await one.ask('POST', '/try/it/now/octo/hello', headers={**header, 'X-Form-Token': form}))[0] == 200
        async with served(tmp_path) as one:
            assert (await one.ask('GET', '/try/it/now/who', headers=header))[0] == 401
    play(test())


def test_wrong_tokens_are_limited_and_do_not_lock_out_who_was_there_before(tmp_path: pathlib.Path) -> None:
    async def test() -> None:
        async with served(tmp_path, access={'wrong_tokens_a_minute': 5}) as one:
            one.hub.access.wrong = Rates(5 / 60, 5, lambda: 0)                   # no time goes by
            known, fresh = one.hub.access.tokens.create('known', Right.READ), one.hub.access.tokens.create('fresh', Right.READ)
            assert (await one.ask('GET', '/try/it/now/who', known))[0] == 200
            found = [(await one.ask('GET', '/try/it/now/who', f'acts_wrong{number}'))[0] for number in range(8)]
            assert found == [401] * 5 + [429] * 3
            status, _, headers = await one.ask('GET', '/try/it/now/who', fresh)
            assert status == 429 and 1 <= int(headers['Retry-After']) <= 60      # even a right one: no guess is told from another
            assert (await one.ask('GET', '/try/it/now/who', known))[0] == 200
            assert (await one.ask('POST', '/try/it/now/enter', data={'token': 'acts_wrong'}))[0] == 429
            assert (await one.ask('GET', '/healthz'))[0] == 200
    play(test())


def test_requests_of_a_client_are_limited(tmp_path: pathlib.Path) -> None:
    async def test() -> None:
        async with served(tmp_path, access={'requests_a_second': 1, 'requests_burst': 10}) as one:
            one.hub.access.requests = Rates(1, 10, lambda: 0)                    # no time goes by
            token = one.hub.access.tokens.create('mona', Right.READ)
            assert [(await one.ask('GET', '/try/it/now/who', token))[0] for _ in range(12)] == [200] * 10 + [429] * 2
            assert (await one.ask('GET', '/healthz'))[0] == 200                   # another client is not meant
    play(test())


def test_another_site_can_not_use_what_a_browser_was_told(tmp_path: pathlib.Path) -> None:
    async def test() -> None:
        async with served(tmp_path) as one:
            token = one.hub.access.tokens.create('mona', Right.WRITE)
            basic = 'Basic ' + base64.b64encode(f'mona:{token}'.encode()).decode()
            for headers, status in (({}, 200), ({'Origin': 'https://evil.example'}, 403), ({'Origin': 'null'}, 403), ({'Origin': 'http://['}, 403),
                                    ({'Sec-Fetch-Site': 'cross-site'}, 403), ({'Sec-Fetch-Site': 'same-site'}, 403), ({'Sec-Fetch-Site': 'same-origin'}, 200)):
                assert (await one.ask('POST', '/try/it/now/octo/hello', headers={'Authorization': basic, **headers}))[0] == status, headers
            own = str(one.server.make_url('')).rstrip('/')
            assert (await one.ask('POST', '/try/it/now/octo/hello', token, headers={'Origin': own}))[0] == 200
            assert 'Basic' not in (await one.ask('GET', '/try/it/now/who'))[2]['WWW-Authenticate']       # no browser asks for a password
    play(test())


def test_tokens_by_command(hub: HubProcess) -> None:
    config = '--config', str(hub.config)
    made = hub.command('token', *config, 'create', 'mona', 'read', '--repository', 'octo/*')
    secret = made.stdout.strip()
    assert made.returncode == 0 and re.fullmatch(r'acts_[A-Za-z0-9_-]{43}', secret)
    assert hub.get('/metrics', secret).status == 403                             # it is known: else 401
    listed = hub.command('token', 'list', *config).stdout
    assert re.search(r'^1 mona read octo/\* valid \S+Z$', listed, re.M) and secret not in listed
    refused = hub.command('token', *config, 'create', 'bad name', 'read')
    assert refused.returncode == 1 and 'no name' in refused.stderr
    assert hub.command('token', *config, 'create', 'r', 'runner').returncode == 1
    assert hub.command('token', *config, 'create', 'r', 'runner', '--prefix', 'r', '--labels', 'linux,x64').returncode == 0
    assert hub.command('token', *config, 'revoke', 'mona').stdout == 'revoked 1 mona\n'
    assert hub.get('/metrics', secret).status == 401                             # at once, without a restart
    assert hub.command('token', *config, 'revoke', 'mona').returncode == 1
