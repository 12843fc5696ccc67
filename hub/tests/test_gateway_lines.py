"""The gateway: which lines of a runner pass, and which do not."""
from __future__ import annotations

import contextlib
import json
import re
import resource
import socket
import time
import uuid
from collections.abc import Callable, Iterator

import pytest
from aiohttp import WSMsgType, WSServerHandshakeError
from harness import HubProcess, Service, body_of, request, until
from wires import Wire

WINDOWS = {'build': {'runs-on': 'windows', 'steps': [{'run': 'true'}]}}
Open = Callable[..., Wire]


@pytest.fixture
def hub(shared: HubProcess) -> HubProcess:
    """The hub of this module."""
    return shared


@pytest.fixture
def service(shared: HubProcess) -> Iterator[Service]:
    """The service of this module, without a leg that waits."""
    assert shared.service
    yield shared.service
    for run in request(shared.service.view, 'GET', '/runs').json()['runs']:
        if run['status'] != 'completed':
            shared.service.post(f'/runs/{run["run"]}/cancel')


@pytest.fixture
def wire(hub: HubProcess) -> Iterator[Open]:
    """Opens WebSockets with tokens of runners, whose names are those of this test alone."""
    opened: list[Wire] = []
    tag = f'-{uuid.uuid4().hex[:8]}'

    def make(prefix: str = 'r', labels: tuple[str, ...] = ('linux',), repositories: tuple[str, ...] = ('*',), token: str = '',
             of: HubProcess | None = None) -> Wire:
        there = of or hub
        secret = token or there.token(f'runners{tag}-{len(opened)}', 'runner', prefix=prefix, labels=labels, repositories=repositories)
        opened.append(Wire(there, secret, tag))
        return opened[-1]
    yield make
    for one in opened:
        with contextlib.suppress(ConnectionError):
            one.close()


def is_forbidden(wire: Wire, line: str) -> str:
    """A line is answered as one that is none, and the stream is closed with a reason."""
    assert wire.ask(line) == 'refused 75'
    frame = wire.frame()
    assert (frame.type, frame.data) == (WSMsgType.CLOSE, 4403), frame
    return str(frame.extra)


@pytest.mark.quick
def test_a_leg_by_hand(wire: Open, service: Service) -> None:
    one = wire()
    assert one.claim('r1') == ['nothing']
    run = service.admit()
    words = one.claim('r1')
    assert words[0] == 'lease' and words[2:5] == [str(run), 'build', '0']
    assert one.ask(f'BEAT r1 {words[1]}') == 'go on'
    assert json.loads(one.ask(f'FETCH {run}'))['repo'] == 'octo/hello'
    assert one.done('r1', words[1]) == 'ok'
    assert service.run(run)['conclusion'] == 'success'


@pytest.mark.quick
def test_another_name_is_refused(wire: Open) -> None:
    assert 'name other-1' in is_forbidden(wire(prefix='build'), 'CLAIM other-1 1 linux')


@pytest.mark.quick
def test_another_label_is_refused(wire: Open, service: Service) -> None:
    """The attack of a certificate that is a name and no right: it got the lease, the body, and reported a success."""
    run = service.admit(body_of(jobs={'deploy': {'runs-on': 'production', 'steps': [{'run': 'true'}]}}))
    words = is_forbidden(wire(), 'CLAIM r1 1 linux,production,life-000000000000')
    assert 'production' in words and 'linux' not in words.partition('labels')[2]
    assert service.run(run)['status'] == 'queued'


def test_a_label_of_an_approval_is_refused(wire: Open) -> None:
    is_forbidden(wire(), 'CLAIM r1 1 linux,approved-1')
    is_forbidden(wire(labels=('linux', 'approved-1')), 'CLAIM r1 1 linux,APPROVED-1')  # not even where a token names it


def test_labels_are_compared_without_case(wire: Open, service: Service) -> None:
    service.admit()
    assert wire(labels=('Linux',)).claim('r1', 'LINUX')[0] == 'lease'


def test_no_token_and_other_tokens_open_nothing(hub: HubProcess, wire: Open) -> None:
    for token, status in ((hub.token('mona', 'admin'), 403), (hub.token('reader', 'read'), 403), ('acts_wrong', 401)):
        with pytest.raises(WSServerHandshakeError) as fault:
            wire(token=token)
        assert fault.value.status == status
    assert hub.get('/runner/v1/lines').status == 401


def test_a_stream_is_for_one_name(wire: Open) -> None:
    one = wire()
    one.claim('r1')
    assert 'one name' in is_forbidden(one, 'CLAIM r2 1 linux')


@pytest.mark.quick
def test_a_lease_of_another_can_not_be_used(wire: Open, service: Service) -> None:
    """Neither beats nor reports of a name that does not hold the lease do anything; a name of another token is refused."""
    run = service.admit()
    one, two, three = wire(), wire(), wire(prefix='s')
    lease = one.claim('r1')[1]
    two.claim('r2')
    assert two.ask(f'BEAT r2 {lease}') == 'refused 44'
    assert two.done('r2', lease) == 'refused 44'
    assert two.ask(f'FETCH {run}') == 'refused 40'
    is_forbidden(three, f'DONE r1 2 {lease} success')
    assert service.run(run)['status'] == 'in_progress'


def test_a_body_goes_to_the_holder_alone(wire: Open, service: Service) -> None:
    one, first, second = wire(), service.admit(), service.admit(body_of(jobs=WINDOWS))
    assert one.ask(f'FETCH {first}') == 'refused 40'
    lease = one.claim('r1')[1]
    assert one.ask(f'FETCH {first}').startswith('{')
    assert one.ask(f'FETCH {second}') == 'refused 40' and one.ask('FETCH 999') == 'refused 40'
    one.done('r1', lease)
    assert one.ask(f'FETCH {first}') == 'refused 40'


@pytest.mark.quick
def test_a_leg_of_another_repository_is_never_taken(wire: Open, service: Service) -> None:
    """With the same labels, and before one's own leg in the queue."""
    foreign, own = service.admit(body_of(repository='octo/secret')), service.admit(body_of(repository='octo/hello'))
    one, all_of_them = wire(repositories=('octo/hello',)), wire()
    assert one.claim('r1') == ['nothing'], 'the labels of both legs are the same, and the foreign one is the first'
    assert service.run(foreign)['status'] == service.run(own)['status'] == 'queued'
    assert all_of_them.claim('r2')[2] == str(foreign)
    assert one.claim('r1')[2] == str(own)
    assert one.ask(f'FETCH {foreign}') == 'refused 40'


def test_a_leg_with_labels_of_its_own_is_taken_past_a_foreign_one(wire: Open, service: Service) -> None:
    service.admit(body_of(repository='octo/secret', jobs={'build': {'runs-on': ['linux', 'big'], 'steps': [{'run': 'true'}]}}))
    own = service.admit(body_of(repository='octo/hello', jobs={'build': {'runs-on': ['linux', 'small'], 'steps': [{'run': 'true'}]}}))
    one = wire(repositories=('octo/hello',), labels=('linux', 'big', 'small'))
    assert one.claim('r1', 'linux,big,small')[2] == str(own)


def test_a_narrowed_claim_is_the_same_after_a_restart_of_the_hub(wire: Open, service: Service, hub: HubProcess) -> None:
    """The answer to a claim is lost, and the hub is killed: the same line has to get its first answer."""
    foreign, own = service.admit(body_of(repository='octo/secret')), service.admit(body_of(repository='octo/hello'))
    token = hub.token('limited', 'runner', prefix='r', labels=('linux',), repositories=('octo/hello',))
    one = wire(token=token)
    assert one.claim('r1') == ['nothing']
    assert wire().claim('r9')[2] == str(foreign)
    hub.restart()
    two = wire(token=token)
    two.life = one.life
    assert two.claim('r1') == ['nothing'], 'the first answer to this number'
    assert two.claim('r1')[2] == str(own)


def test_pages_show_the_labels_that_a_runner_was_given(wire: Open, service: Service, hub: HubProcess) -> None:
    """Not the random one of its life, and also those that its claim goes without while a foreign leg waits."""
    def shown(name: str) -> list[str]:
        page = hub.get(f'/runners?q={name}', token).text
        return re.findall('<span class="tag"><bdi[^>]*>([^<]*)</bdi></span>', page)
    one, two, token = wire(labels=('linux', 'big')), wire(labels=('linux', 'big'), repositories=('octo/hello',)), hub.token()
    name, limited = f'r1{one.tag}', f'r2{one.tag}'
    assert one.claim('r1', 'linux,big') == ['nothing']
    assert until(lambda: shown(name)) == ['linux', 'big']
    service.admit(body_of(repository='octo/secret'))
    assert two.claim('r2', 'linux,big') == ['nothing']
    told = request(service.view, 'GET', '/runners').json()['runners']
    assert next(row['labels'] for row in told if row['runner'] == limited) == [two.life], 'what the service has of it'
    assert until(lambda: shown(limited)) == ['linux', 'big']
    rows = hub.get('/api/v3/orgs/octo/actions/runners?per_page=100', token).json()['runners']
    assert {row['name']: [label['name'] for label in row['labels']] for row in rows if row['name'] in (name, limited)} == {
        name: ['linux', 'big'], limited: ['linux', 'big']}


def test_what_is_no_line(wire: Open) -> None:
    one = wire()
    for line in ('', 'claim r1 1 linux', 'CLAIM r1 01 linux', 'CLAIM r1 1 linux\nFETCH 1', 'FETCH -1', 'BEAT ../x 1', 'CLAIM r1 1 lïnux',
                 'DONE r1 1 1 skipped', 'CLAIM r1 1 ' + ','.join(f'l{number}' for number in range(17)), 'CLAIM r1 1 ' + 'x' * 600):
        assert one.ask(line) == 'refused 75', line
    assert one.claim('r1') == ['nothing'], 'the stream goes on'


def test_a_frame_is_bounded(wire: Open) -> None:
    one = wire()
    one.send('CLAIM r1 1 ' + 'x' * 2000)
    frame = one.frame()
    assert (frame.type, frame.data) == (WSMsgType.CLOSE, 1009)


def test_a_frame_of_bytes_is_none(wire: Open) -> None:
    one = wire()
    one.loop.run_until_complete(one.socket.send_bytes(b'CLAIM r1 1 linux'))
    frame = one.frame()
    assert (frame.type, frame.data) == (WSMsgType.CLOSE, 1003)


def test_a_silence_ends(make_hub: Callable[..., HubProcess], wire: Open) -> None:
    one = wire(of=make_hub(tables={'gateway': {'silence': 0.5}}))
    began = time.monotonic()
    frame = one.frame()
    assert (frame.type, frame.data) == (WSMsgType.CLOSE, 1001) and time.monotonic() - began < 5


def test_streams_of_a_token_are_bounded(make_hub: Callable[..., HubProcess], wire: Open) -> None:
    there = make_hub(tables={'gateway': {'connections_a_token': 2}})
    token = there.token('few', 'runner', prefix='r', labels=('linux',))
    first, _ = wire(of=there, token=token), wire(of=there, token=token)
    with pytest.raises(WSServerHandshakeError) as fault:
        wire(of=there, token=token)
    assert fault.value.status == 429
    assert wire(of=there).claim('r9') == ['nothing'], 'another token has places of its own'
    first.close()

    def again() -> bool:
        try:
            return wire(of=there, token=token).claim('r1') == ['nothing']
        except WSServerHandshakeError:
            return False
    assert until(again)


def test_a_revoked_token_ends_its_streams(hub: HubProcess, wire: Open, service: Service) -> None:
    token = hub.token('gone', 'runner', prefix='r', labels=('linux',))
    one = wire(token=token)
    assert one.claim('r1') == ['nothing']
    done = hub.command('token', '--config', str(hub.config), 'revoke', 'gone')
    assert done.returncode == 0, done.stderr
    service.admit()
    assert 'not valid' in is_forbidden(one, 'CLAIM r1 2 linux')


def test_the_service_is_away(wire: Open, service: Service) -> None:
    """The stream ends, so that the line is sent again over another one."""
    one = wire()
    one.claim('r1')
    service.kill()
    one.send('CLAIM r1 2 linux')
    frame = one.frame()
    assert (frame.type, frame.data) == (WSMsgType.CLOSE, 1013)
    service.start()
    assert wire().ask(f'CLAIM r1 2 linux,{one.life}') == 'nothing'


def test_approval_of_an_environment(wire: Open, service: Service, hub: HubProcess) -> None:
    """A leg with the label of an approval goes to nobody before somebody with the right to write has approved its attempt."""
    before = service.admit()
    service.post(f'/runs/{before}/cancel')
    job = {'runs-on': ['linux', f'approved-{before + 1}'], 'environment': 'production', 'steps': [{'run': 'true'}]}
    run = service.admit(body_of(jobs={'deploy': job}))
    assert run == before + 1
    one = wire()
    assert one.claim('r1') == ['nothing']
    place = f'/api/v3/repos/octo/hello/actions/runs/{run}/pending_deployments'
    said = json.dumps({'environment_ids': [run], 'state': 'approved', 'comment': 'fine'})
    reader, writer = hub.token('reader', 'read'), hub.token('writer', 'write')
    assert [each['environment']['name'] for each in hub.get(place, reader).json()] == ['deploy']
    assert hub.post(place, said, reader).status == 403 and hub.post(place, said).status == 401
    assert hub.post(place, said, hub.token('other', 'write', repositories=('octo/other',))).status == 404
    assert one.claim('r1') == ['nothing']
    for wrong in ('{', '[]', '{"state": "maybe"}', '{"state": "approved", "comment": 7}'):
        assert hub.post(place, wrong, writer).status in (400, 422)
    assert hub.post(place, said, writer).status == 200
    assert hub.get(place, reader).json() == []
    words = one.claim('r1')
    assert words[2:4] == [str(run), 'deploy']
    one.done('r1', words[1])
    assert service.post(f'/runs/{run}/attempts/2').text == f'again {run} 2\n'
    assert one.claim('r1') == ['nothing'], 'another attempt needs another approval'


def test_a_thousand_slow_clients(hub: HubProcess, service: Service, wire: Open) -> None:
    """They open streams and say half a frame, or read nothing: others are answered as before."""
    resource.setrlimit(resource.RLIMIT_NOFILE, (8192, resource.getrlimit(resource.RLIMIT_NOFILE)[1]))
    token = hub.token('slow', 'runner', prefix='s', labels=('linux',))
    head = (f'GET /runner/v1/lines HTTP/1.1\r\nHost: x\r\nUpgrade: websocket\r\nConnection: Upgrade\r\nSec-WebSocket-Version: 13\r\n'
            f'Sec-WebSocket-Key: AAAAAAAAAAAAAAAAAAAAAA==\r\nAuthorization: Bearer {token}\r\n\r\n').encode()
    with contextlib.ExitStack() as stack:
        for number in range(1000):
            stream = stack.enter_context(socket.create_connection(('127.0.0.1', hub.port), 30))
            stream.sendall(head if number % 2 else head[:-20])
            if number % 2:
                assert stream.recv(12) == b'HTTP/1.1 101'
                stream.sendall(b'\x81\xfe\x01')  # the beginning of a frame
        service.admit()
        one, began = wire(), time.monotonic()
        lease = one.claim('r1')[1]
        for _ in range(20):
            assert one.ask(f'BEAT r1 {lease}') == 'go on'
        took = (time.monotonic() - began) / 21
        print(f'a line beside 1,000 slow clients took {1000 * took:.1f} ms')
        assert took < 0.5
        assert hub.get('/healthz').status == 200
