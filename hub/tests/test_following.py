"""The mirror over a stand-in: 20,000 runs, what a later service says, indexes, and faults of the service."""
from __future__ import annotations

import asyncio
import contextlib
import pathlib
import random
import time
from collections.abc import AsyncIterator, Callable, Coroutine
from typing import Any

import pytest
from stand_in import StandIn

from acts_hub.ledger.database import Database
from acts_hub.service import looks
from acts_hub.service.facts import Facts, facts_of
from acts_hub.service.hooks import HookPort, Unsupported, reply_of
from acts_hub.service.index import Index
from acts_hub.service.mirror import Mirror
from acts_hub.service.models import Entry, Forgotten, LegLine, RunLine, change_of
from acts_hub.service.view import ViewPort
from acts_hub.times import iso, iso_exact, of_iso

CREATED = {'name': 'admit', 'event': 'push', 'repository': 'octo/hello', 'path': 'ci.yml'}


def play(what: Coroutine[Any, Any, None], seconds: float = 300) -> None:
    asyncio.run(asyncio.wait_for(what, seconds))


@contextlib.asynccontextmanager
async def mirrored(stand: StandIn, folder: pathlib.Path) -> AsyncIterator[Mirror]:
    database = Database(folder / 'ledger.sqlite')
    database.open()
    made = Mirror(ViewPort(stand.view), HookPort(stand.hook), database)
    task = asyncio.create_task(made.follow())
    try:
        await until(lambda: made.is_whole, 180)
        yield made
    finally:
        task.cancel()
        await asyncio.gather(task, return_exceptions=True)
        await made.view.close()
        await made.hooks.close()
        database.close()


async def until(test: Callable[[], Any], seconds: float = 180) -> None:
    late = time.monotonic() + seconds
    while not test():
        assert time.monotonic() < late, 'it did not come'
        await asyncio.sleep(0.005)


def test_20_000_runs(tmp_path: pathlib.Path, capsys: pytest.CaptureFixture[str]) -> None:
    async def test() -> None:
        async with StandIn() as stand:
            for number in range(1, 20_001):
                stand.add(number, conclusion=('success', 'success', 'failure')[number % 3])
            began, cpu = time.monotonic(), time.process_time()
            async with mirrored(stand, tmp_path) as mirror:
                listed = time.monotonic() - began
                assert len(mirror.runs) == len(mirror.of('octo/hello')) == 20_000
                await until(lambda: all(run.digest for run in mirror.of('octo/hello')[-1000:]))      # the newest come first
                bodies = time.monotonic() - began - listed
                assert stand.asked['/runs/'] <= 300         # not each of 20,000 runs is looked at
                asked: list[dict[str, str]] = [{}, {'branch': 'main'}, {'status': 'completed'}, {'branch': 'main', 'conclusion': 'failure'},
                                               {'branch': 'main', 'event': 'push', 'actor': 'mona'}, {'sha': mirror.runs[19_999].facts.sha or ''}, {'branch': 'nowhere'}]
                figures = []
                for one in asked:
                    times = []
                    for _ in range(50):
                        start = time.perf_counter()
                        found = mirror.select('octo/hello', **one)
                        page, count = found[-20:], len(found)
                        times.append(time.perf_counter() - start)
                    expected = [run for run in mirror.runs.values() if all(value == {
                        'branch': run.facts.branch, 'status': run.row.status, 'conclusion': run.row.conclusion, 'event': run.row.event, 'actor': run.facts.actor,
                        'sha': run.facts.sha}[name] for name, value in one.items())]
                    assert count == len(expected) and [run.id for run in page] == [run.id for run in expected[-20:]]
                    figures.append((one, times[0], sorted(times)[25]))
                start = time.perf_counter()
                for number in range(1, 1001):
                    run = mirror.runs[number]
                    mirror.put(run)
                puts = (time.perf_counter() - start) / 1000
            began_again = time.monotonic()
            async with mirrored(stand, tmp_path) as mirror:
                again = time.monotonic() - began_again
                assert all(run.digest for run in mirror.of('octo/hello')[-1000:])
            with capsys.disabled():
                print(f'\n20,000 runs: listed in {listed:.1f} s, the bodies of the newest 1,000 in {bodies:.1f} s ({time.process_time() - cpu:.1f} s CPU for all of it, '
                      f'stand-in, test and ledger), again in {again:.1f} s; a change {puts * 1e6:.0f} us')
                for one, first, median in figures:
                    print(f'  20 of {one or "all"}: first {first * 1e3:.2f} ms, median {median * 1e3:.3f} ms')
            assert max(median for _, _, median in figures) < 0.05
    play(test(), 600)


@pytest.mark.quick
def test_lines_of_a_later_service_say_all(tmp_path: pathlib.Path) -> None:
    async def test() -> None:
        async with StandIn() as stand:
            async with mirrored(stand, tmp_path) as mirror:
                row = stand.add(1, status='queued', sha='ab' * 20, ref_name='main', actor='mona', title='A title')
                stand.wholes[1] = {'jobs': [{'id': name, 'state': 'open', 'needs': [], 'max_parallel': None, 'legs': [
                    {'leg': 0, 'combination': {}, 'state': 'ready', 'lease': None, 'runner': None, 'labels': ['linux'], 'group': None, 'waits_for': None}]}
                    for name in ('build', 'deploy')]}
                stand.say({'entry': 1, 'command': {**CREATED, 'delivery': 'd1'}, 'reply': 'created 1', 'at': 1000},
                          {'after': 1, **row, 'at': 1000},
                          *({'after': 1, 'run': 1, 'attempt': 1, 'job': job, 'leg': 0, 'state': 'ready', 'lease': None, 'runner': None, 'at': 1000}
                            for job in ('build', 'deploy')))
                await until(lambda: 1 in mirror.runs)
                run = mirror.runs[1]
                assert (run.created_at, run.created_source, run.row.sha, run.row.title) == (1000, 'seen', 'ab' * 20, 'A title')
                assert '/runs' not in stand.asked or stand.asked['/runs'] == 1      # the list at the start alone: the line has the row
                assert 'hook' not in stand.asked                                    # the body came from the view port
                leg = {'after': 2, 'run': 1, 'attempt': 1, 'job': 'build', 'leg': 0}
                stand.say({'entry': 2, 'command': {'name': 'claim', 'runner': 'r1', 'number': 1, 'labels': ['linux']}, 'reply': 'lease 7 1 build 0 {}', 'at': 2000},
                          {**leg, 'state': 'running', 'lease': 7, 'runner': 'r1', 'at': 2000},
                          {'entry': 3, 'command': {'name': 'done', 'runner': 'r1', 'number': 2, 'lease': 7, 'result': 'failure'}, 'reply': 'ok', 'at': 3000},
                          {**leg, 'state': 'failure', 'lease': 7, 'runner': 'r1', 'at': 3000},
                          {**leg, 'job': 'deploy', 'state': 'cancelled', 'lease': None, 'runner': None, 'at': 3000},
                          {'after': 3, 'run': 1, 'attempt': 1, 'status': 'completed', 'conclusion': 'failure', 'at': 3000},
                          {'entry': 4, 'command': {'name': 'rerun', 'run': 1, 'attempt': 2}, 'reply': 'again 1 2', 'at': 4000},
                          {'after': 4, **row, 'attempt': 2, 'status': 'queued', 'conclusion': None, 'at': 4000},
                          {**leg, 'after': 4, 'attempt': 2, 'state': 'ready', 'lease': None, 'runner': None, 'at': 4000})
                stand.rows[1].update(attempt=2, status='queued', conclusion=None)
                await until(lambda: mirror.runs[1].row.attempt == 2)
                assert mirror.runs[1].started_at == 4000 and mirror.runs[1].completed_at is None and mirror.runs[1].created_at == 1000
                first = await mirror.whole(1, 1)
                assert first is not None and first.row.conclusion == 'failure'
                assert [(job.id, leg.state, leg.lease, leg.runner, leg.started_at, leg.ended_at) for job in first.jobs for leg in job.legs] == [
                    ('build', 'failure', 7, 'r1', 2000, 3000), ('deploy', 'cancelled', None, None, None, 3000)]
                was = mirror.attempt(1, 1)
                assert was is not None and (was.started_at, was.completed_at) == (1000, 3000)
                await until(lambda: mirror.attempts.notes[1, 2].started_at == 4000)
                again = await mirror.whole(1)
                assert again is not None and [(job.id, leg.state, leg.started_at, leg.ended_at) for job in again.jobs for leg in job.legs] == [
                    ('build', 'ready', None, None), ('deploy', 'ready', None, None)]
    play(test())


@pytest.mark.quick
def test_a_re_run_has_the_row_of_its_line(tmp_path: pathlib.Path) -> None:
    async def test() -> None:
        async with StandIn() as stand:
            row = stand.add(1, group='deploy-1')
            async with mirrored(stand, tmp_path) as mirror:
                line = change_of({'after': 1, **row, 'attempt': 2, 'status': 'queued', 'conclusion': None, 'group': 'deploy-2', 'at': 5})
                assert line is not None
                await mirror._follower.changes.take([line], None, '1-0')
                assert (mirror.runs[1].row.attempt, mirror.runs[1].row.group) == (2, 'deploy-2')
    play(test())


@pytest.mark.quick
def test_answers_that_were_sent_again_begin_nothing(tmp_path: pathlib.Path) -> None:
    async def test() -> None:
        async with StandIn(has_body=False) as stand:
            stand.add(1, status='queued')
            async with mirrored(stand, tmp_path) as mirror:
                claim = {'entry': 1, 'command': {'name': 'claim', 'runner': 'r1', 'number': 1, 'labels': ['linux']}, 'reply': 'lease 7 1 build 0 {"os":"linux"}'}
                done = {'entry': 2, 'command': {'name': 'done', 'runner': 'r1', 'number': 2, 'lease': 7, 'result': 'failure'}, 'reply': 'ok'}
                rerun = {'entry': 3, 'command': {'name': 'rerun', 'run': 1, 'attempt': 2}, 'reply': 'again 1 2'}
                line = {'after': 3, 'run': 1, 'attempt': 2, 'status': 'queued', 'conclusion': None}
                stand.wholes[1] = {'jobs': []}
                for at, lines in enumerate(([claim], [claim], [done], [done], [rerun, line], [rerun], [done], [claim]), 1):
                    stand.say(*({**one, 'at': at * 1000} for one in lines))
                stand.rows[1].update(attempt=2)
                await until(lambda: mirror.meta.get('cursor') == f'1-{len(stand.lines)}' or mirror.database.flushed() and mirror.runs[1].started_at == 5000)
                note = mirror.attempts.legs(1, 1)['build', 0]
                assert (note.lease, note.started_at, note.ended_at, note.state, note.combination) == (7, 1000, 3000, 'failure', {'os': 'linux'})
                assert mirror.attempts.legs(1, 2) == {} and mirror.runs[1].started_at == 5000
                await until(lambda: mirror.runs[1].digest)
                assert stand.asked['hook'] == 1            # the view port showed no body
    play(test())


@pytest.mark.quick
def test_a_cursor_that_is_not_known_any_more_lists_again(tmp_path: pathlib.Path) -> None:
    async def test() -> None:
        async with StandIn() as stand:
            stand.add(1)
            stand.add(2, status='queued')
            async with mirrored(stand, tmp_path) as mirror:
                await until(lambda: all(run.digest for run in mirror.runs.values()))
                stand.epoch += 1
                stand.lines.clear()
                del stand.rows[1]
                stand.add(3)
                stand.more.set()
                await until(lambda: 3 in mirror.runs)
                assert sorted(mirror.runs) == [2, 3] and [run.id for run in mirror.of('octo/hello')] == [2, 3]
                assert mirror.database.flushed() and mirror.kept.of(1) is not None       # what was kept of it stays till its days are over
                dropped: list[int] = []
                mirror.dropped.append(dropped.append)
                mirror.expire(mirror.runs[2].created_at - 1000 * 86_400_000)
                assert dropped == []
                mirror.expire(mirror.runs[2].created_at + 1000 * 86_400_000)
                assert dropped == [1] and mirror.database.flushed() and mirror.kept.of(1) is None and mirror.kept.of(2) is not None
    play(test())


@pytest.mark.quick
def test_whatever_the_service_says_the_mirror_goes_on(tmp_path: pathlib.Path, capfd: pytest.CaptureFixture[str]) -> None:
    async def test() -> None:
        async with StandIn() as stand:
            stand.add(1, status='queued')
            async with mirrored(stand, tmp_path) as mirror:
                stand.say({'a line': 'of a kind that is not known'}, {'entry': 1, 'command': {'name': 'new'}, 'reply': 'what'}, {'entry': 2, 'command': {'name': 'claim'}, 'reply': 'lease'})
                await until(lambda: mirror.fault is not None)
                stand.add(2, status='queued')
                await until(lambda: 2 in mirror.runs and mirror.fault is None)
                stand.say({'after': 3, 'run': 2, 'attempt': 1, 'status': 'in_progress', 'conclusion': None})
                await until(lambda: mirror.runs[2].row.status == 'in_progress')
    play(test())
    assert 'can not be taken' in capfd.readouterr().err


@pytest.mark.quick
def test_a_body_that_is_no_object_hides_no_run(tmp_path: pathlib.Path) -> None:
    async def test() -> None:
        async with StandIn() as stand:
            for number, body in enumerate((b'[]', b'{"github": [], "workflow": 7}', b'{"github": {"event": []}, "workflow": {"jobs": []}}', b'nonsense', b'\xff'), 1):
                stand.add(number)
                stand.bodies[number] = body
            async with mirrored(stand, tmp_path) as mirror:
                await until(lambda: sum(1 for run in mirror.runs.values() if run.digest) == 3)
                assert len(mirror.of('octo/hello')) == 5 and mirror.runs[4].facts.branch is not None
    play(test())


@pytest.mark.quick
def test_a_run_with_many_legs_is_not_read_at_each_of_its_changes(tmp_path: pathlib.Path, monkeypatch: pytest.MonkeyPatch) -> None:
    monkeypatch.setattr(looks, 'LEGS_A_SECOND', 1)              # it rests for ten minutes, which this test does not wait for

    async def test() -> None:
        async with StandIn() as stand:
            stand.add(1, status='in_progress')
            leg = {'combination': {}, 'state': 'ready', 'lease': None, 'runner': None, 'labels': ['linux'], 'group': None, 'waits_for': None}
            stand.wholes[1] = {'jobs': [{'id': 'build', 'state': 'open', 'needs': [], 'max_parallel': None, 'legs': [{'leg': number, **leg} for number in range(600)]}]}
            async with mirrored(stand, tmp_path) as mirror:
                await until(lambda: 1 in mirror.snapshots)
                before = stand.asked['/runs/']
                for number in range(40):
                    stand.say({'entry': number, 'command': {'name': 'claim', 'runner': f'r{number}', 'number': 1, 'labels': ['linux']},
                               'reply': f'lease {number + 1} 1 build {number} {{}}', 'at': 1000 + number})
                    await until(lambda: len(mirror.attempts.legs(1, 1)) > number)
                assert stand.asked['/runs/'] == before
                mirror._follower.looks._wake(1)                            # its rest is over
                await until(lambda: stand.asked['/runs/'] == before + 1)
                stand.rows[1].update(status='completed', conclusion='failure')
                stand.say({'after': 41, 'run': 1, 'attempt': 1, 'status': 'completed', 'conclusion': 'failure', 'at': 9000})
                await until(lambda: mirror.attempts.has_whole(1, 1))       # its end does not wait
                assert 1 not in mirror.snapshots
                assert mirror.attempts.legs(1, 1)['build', 39].started_at == 1039
    play(test())


@pytest.mark.quick
def test_an_index_says_what_a_look_at_each_run_would() -> None:
    dice = random.Random(7)
    runs: dict[int, tuple[str, dict[str, str | None]]] = {}
    fields = {'branch': ['main', 'a', None], 'status': ['queued', 'completed'], 'actor': ['mona', 'hubot']}
    index = Index()
    for step in range(6000):
        number = dice.randrange(1, 900)
        if number in runs and dice.random() < 0.2:
            index.drop(number, *runs.pop(number))
        else:
            before = runs[number][1] if number in runs else None
            where = runs[number][0] if number in runs else dice.choice(['octo/a', 'octo/b'])
            runs[number] = where, {name: dice.choice(values) for name, values in fields.items()}
            index.put(number, where, before, runs[number][1])
        if step % 40 == 0:
            asked = {name: value for name, values in fields.items() if (value := dice.choice(values)) is not None and dice.random() < 0.7}
            expected = sorted(one for one, (where, values) in runs.items() if where == 'octo/a' and all(values[name] == value for name, value in asked.items()))
            assert list(index.select('octo/a', asked)) == expected
    assert index.select('octo/c', {'branch': 'main'}) == [] and sorted(index.repositories()) == ['octo/a', 'octo/b']


@pytest.mark.quick
def test_facts_of_a_pull_request_are_of_its_head() -> None:
    body = {'github': {'ref': 'refs/pull/7/merge', 'ref_name': '7/merge', 'head_ref': 'topic', 'base_ref': 'main', 'sha': 'merge', 'actor': 'mona', 'event': {
        'pull_request': {'number': 7, 'title': 'Say hello', 'updated_at': '2026-11-30T10:00:00Z', 'head': {'sha': 'head', 'repo': {'full_name': 'fork/hello'}}}}},
        'workflow': {'run-name': 'Deploy 7', 'jobs': {'test': {'name': 'Test', 'strategy': {'matrix': {'os': [1], 'node': [2], 'include': [{'node': 1, 'more': 2}]}}}, 'b': 7}}}
    found = facts_of(body)
    assert (found.sha, found.branch, found.title, found.pull_number, found.base_ref, found.head_repository) == ('head', 'topic', 'Say hello', 7, 'main', 'fork/hello')
    assert found.job_names == {'test': 'Test'} and found.matrix_names == {'test': ('os', 'node', 'more')} and found.run_name == 'Deploy 7'
    assert Facts.of(found.json()) == found and facts_of({}) == Facts() == Facts.of({})


@pytest.mark.quick
def test_lines_of_changes() -> None:
    assert change_of({'entry': 3, 'command': {'name': 'cancel', 'run': 1}, 'reply': 'refused 41'}) == Entry(3, {'name': 'cancel', 'run': 1}, ('refused', '41'), None)
    assert change_of({'after': 3, 'run': 1, 'attempt': 2, 'status': 'queued', 'conclusion': None, 'at': 5}) == RunLine(1, 2, 'queued', None, None, 5)
    assert change_of({'after': 3, 'run': 1, 'attempt': 2, 'job': 'a', 'leg': 0, 'state': 'ready', 'lease': None, 'runner': None, 'at': 5}) == LegLine(
        1, 2, 'a', 0, 'ready', None, None, 5)
    assert change_of({'after': 3, 'type': 'forgotten', 'through': 2, 'at': 5}) == Forgotten(2, 5)
    assert change_of({'else': 1}) is None


@pytest.mark.quick
def test_forgotten_runs_are_shown_no_more(tmp_path: pathlib.Path) -> None:
    async def test() -> None:
        async with StandIn() as stand:
            for run in 1, 2, 3, 4:
                stand.add(run)
            async with mirrored(stand, tmp_path) as mirror:
                await until(lambda: all(run.digest for run in mirror.runs.values()) and mirror.attempts.has_whole(2, 1))
                told: list[int] = []
                mirror.forgot.append(told.append)
                stand.forget(2)
                # runs up to 4 were asked for, of which the third had not completed
                stand.say({'entry': 1, 'command': {'name': 'forget', 'run': 4}, 'reply': 'forgotten 2', 'at': 1000}, {'after': 1, 'type': 'forgotten', 'through': 2, 'at': 1000})
                await until(lambda: 1 not in mirror.runs)
                assert sorted(mirror.runs) == [3, 4] and told == [2] == [mirror.forgotten]
                assert list(mirror.of('octo/hello').ids) == [3, 4] == [run.id for run in mirror.select('octo/hello', status='completed')]
                assert not mirror.attempts.has_whole(2, 1) and mirror.attempts.whole(3, 1) is not None and (2, 1) not in mirror.attempts.notes
                assert await mirror.whole(2) is None and mirror.attempt(2, 1) is None
            stand.forget(3)                                 # while nobody listens, and nothing tells of it but the list
            stand.epoch += 1
            stand.lines.clear()
            async with mirrored(stand, tmp_path) as mirror:
                assert sorted(mirror.runs) == [4] and mirror.forgotten == 3
                # lines of before the list
                stand.say({'entry': 1, 'command': {**CREATED, 'delivery': 'd3'}, 'reply': 'created 3', 'at': 900}, {
                    'after': 1, 'run': 3, 'attempt': 1, 'status': 'queued', 'conclusion': None, 'repository': 'octo/hello', 'path': 'ci.yml', 'workflow': 'CI',
                    'event': 'push', 'delivery': 'd3', 'number': 3, 'ref': None, 'group': None, 'at': 900}, {'after': 1, 'type': 'forgotten', 'through': 2, 'at': 1000})
                stand.add(5, status='queued')
                stand.say({'entry': 2, 'command': {**CREATED, 'delivery': 'd5'}, 'reply': 'created 5', 'at': 1000})
                await until(lambda: 5 in mirror.runs)
                assert mirror.forgotten == 3 and sorted(mirror.runs) == [4, 5]
            stand.forget(4)
            del stand.rows[5]                               # a store that was restored, all of whose runs were forgotten
            async with mirrored(stand, tmp_path) as mirror:
                assert not mirror.runs and mirror.forgotten == 4
    play(test())


def test_half_of_many_runs_are_forgotten_at_once(tmp_path: pathlib.Path, capsys: pytest.CaptureFixture[str]) -> None:
    async def test() -> None:
        async with StandIn() as stand:
            for run in range(1, 20_001):
                stand.add(run)
            async with mirrored(stand, tmp_path) as mirror:
                await until(lambda: all(run.digest for run in mirror.of('octo/hello')[-1000:]))
                asked: list[dict[str, str]] = [{}, {'branch': 'main'}, {'branch': 'main', 'status': 'completed'}, {'sha': mirror.runs[19_999].facts.sha or ''},
                                               {'sha': mirror.runs[9_000].facts.sha or 'none'}]
                wanted = [[run.id for run in mirror.select('octo/hello', **one) if run.id > 10_000] for one in asked]
                began = time.perf_counter()
                mirror.forget_through(10_000)
                took = time.perf_counter() - began
                assert [[run.id for run in mirror.select('octo/hello', **one)] for one in asked] == wanted and len(mirror.runs) == 10_000
            with capsys.disabled():
                print(f'\n10,000 of 20,000 runs are forgotten in {took * 1e3:.0f} ms')
            assert took < 1
    play(test(), 600)


@pytest.mark.quick
def test_commands_that_this_service_does_not_have(tmp_path: pathlib.Path) -> None:
    async def test() -> None:
        from aiohttp import web

        async def handle(request: web.BaseRequest) -> web.StreamResponse:
            words = {'/runs/1/attempts/2/failed-jobs': (404, 'refused 72'), '/runs/1/force-cancel': (405, 'refused 73'), '/runs/9/force-cancel': (404, 'refused 40')}
            status, text = words[request.path]
            return web.Response(status=status, text=text + '\n')
        runner = web.ServerRunner(web.Server(handle))
        await runner.setup()
        await web.TCPSite(runner, '127.0.0.1', 0).start()
        hooks = HookPort(':'.join(map(str, runner.addresses[0][:2])))
        for call in hooks.retry(1, 2), hooks.force(1):
            with pytest.raises(Unsupported):
                await call
        assert (await hooks.force(9)).refusal == 40
        await hooks.close()
        await runner.cleanup()
    play(test())
    assert reply_of(201, b'created 17\n').run == 17 and reply_of(409, b'refused 43 5\n').refusal == 43 and reply_of(409, b'refused 43 5\n').run is None
    assert reply_of(409, b'refused 49\n').sentence == 'the run has not completed'


@pytest.mark.quick
def test_times() -> None:
    assert iso(1_796_067_000_123) == '2026-11-30T19:30:00Z' and iso_exact(1_796_067_000_123) == '2026-11-30T19:30:00.123Z'
    assert of_iso('2026-11-30T19:30:00Z') == of_iso('2026-11-30T20:30:00+01:00') == of_iso('2026-11-30T19:30:00') == 1_796_067_000_000
    assert [of_iso(text) for text in ('', 'yesterday', '2026-13-01', '9' * 400)] == [None] * 4


