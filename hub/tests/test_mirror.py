"""The mirror against the real service: changes, times, earlier attempts, restarts of both sides, restored and foreign stores."""
from __future__ import annotations

import asyncio
import contextlib
import pathlib
import shutil
import uuid
from collections.abc import AsyncIterator, Callable, Coroutine
from typing import Any

import pytest
from harness import RunnerLines, Service, body_of, request

from acts_hub.ledger.database import Database
from acts_hub.service.hooks import HookPort
from acts_hub.service.mirror import Mirror
from acts_hub.service.models import Whole
from acts_hub.service.view import ViewPort
from acts_hub.times import now


class Seen:
    """A mirror of a service, in this process; the ledger is in a folder."""

    def __init__(self, service: Service, folder: pathlib.Path) -> None:
        self.service, self.folder = service, folder
        self.dropped: list[int] = []

    @contextlib.asynccontextmanager
    async def mirror(self, wait: bool = True) -> AsyncIterator[Mirror]:
        """Follows the service while it is used; the ledger is written at the end."""
        self.folder.mkdir(exist_ok=True)
        database = Database(self.folder / 'ledger.sqlite')
        database.open()
        view, hooks = ViewPort(f'127.0.0.1:{self.service.view}'), HookPort(f'127.0.0.1:{self.service.hook}')
        made = Mirror(view, hooks, database)
        made.dropped.append(self.dropped.append)
        task = asyncio.create_task(made.follow())
        try:
            if wait:
                await self.until(made, lambda: made.is_whole and all(run.digest for run in made.runs.values()))
            yield made
        finally:
            task.cancel()
            await asyncio.gather(task, return_exceptions=True)
            await view.close()
            await hooks.close()
            database.close()

    @staticmethod
    async def until(mirror: Mirror, test: Callable[[], Any], seconds: float = 180) -> None:
        """Waits for the mirror."""
        late = asyncio.get_running_loop().time() + seconds
        while not test():
            assert asyncio.get_running_loop().time() < late, f'it did not come: {mirror.runs} {mirror.fault}'
            await asyncio.sleep(0.01)


@pytest.fixture
def seen(service: Service, tmp_path: pathlib.Path) -> Seen:
    return Seen(service, tmp_path / 'ledger')


def play(what: Coroutine[Any, Any, None]) -> None:
    asyncio.run(asyncio.wait_for(what, 300))


def is_ended(mirror: Mirror, run: int, attempt: int = 1) -> bool:
    row = mirror.runs[run].row if run in mirror.runs else None
    return row is not None and row.status == 'completed' and row.attempt >= attempt and mirror.attempts.has_whole(run, attempt)


def is_seen_ended(mirror: Mirror, run: int) -> bool:
    return is_ended(mirror, run) and mirror.runs[run].completed_at is not None and all(
        leg.ended_at is not None for leg in mirror.attempts.legs(run, 1).values())


def legs(whole: Whole | None) -> dict[tuple[str, int], Any]:
    assert whole is not None
    return {(job.id, leg.index): leg for job in whole.jobs for leg in job.legs}


def work(lines: RunnerLines, result: str = 'success', name: str = 'r1') -> list[str]:
    lease = lines.claim(name)
    assert lease[0] == 'lease', lease
    assert lines.done(name, lease[1], result) == 'ok'
    return lease


@pytest.mark.quick
def test_a_run_is_seen_with_its_facts_and_times(service: Service, seen: Seen) -> None:
    async def test() -> None:
        async with seen.mirror() as mirror:
            began = now()
            sha = uuid.uuid4().hex + '12345678'
            run = service.admit(body_of(message='Say hello\n\nMore', github={'sha': sha}))
            await seen.until(mirror, lambda: run in mirror.runs)
            found = mirror.runs[run]
            assert (found.row.sha, found.facts.sha, found.facts.branch, found.facts.actor, found.facts.title) == (sha, sha, 'main', 'mona', 'Say hello')
            assert began - 1 <= found.created_at <= now() and found.created_source == 'seen'
            assert [one.id for one in mirror.of('OCTO/Hello')] == [run] and mirror.repositories() == ['octo/hello']
            lines = service.lines()
            lease = await asyncio.to_thread(work, lines)
            await seen.until(mirror, lambda: is_seen_ended(mirror, run))
            found = mirror.runs[run]
            assert (found.row.status, found.row.conclusion) == ('completed', 'success')
            assert found.completed_at is not None and began <= found.created_at <= found.started_at <= found.completed_at <= now()
            leg = legs(await mirror.whole(run))['build', 0]
            assert (leg.state, leg.runner, leg.lease) == ('success', 'r1', int(lease[1]))
            assert began <= leg.started_at <= leg.ended_at <= now()
            assert [(one.name, one.labels) for one in await mirror.runners()] == [('r1', ('linux',))]
    play(test())


@pytest.mark.quick
def test_watchers_and_waiting_requests_are_told(service: Service, seen: Seen) -> None:
    async def test() -> None:
        async with seen.mirror() as mirror, mirror.watch() as watcher:
            run = service.admit()
            changed: set[int] = set()
            while run not in changed:
                changed |= await asyncio.wait_for(watcher.next(), 180)
            assert service.post(f'/runs/{run}/cancel').status == 202
            assert await mirror.settled(lambda: mirror.runs[run].row.status == 'completed', 180)
            assert mirror.runs[run].row.conclusion == 'cancelled'
            assert not await mirror.settled(lambda: False, 0.05)
    play(test())


@pytest.mark.quick
def test_an_attempt_that_is_run_again_at_once_is_kept(service: Service, seen: Seen) -> None:
    async def test() -> None:
        async with seen.mirror() as mirror:
            lines, runs = service.lines(), []
            jobs = {'a': {'runs-on': 'linux', 'strategy': {'matrix': {'n': [1, 2]}}}, 'b': {'runs-on': 'linux', 'needs': 'a'}}
            leases: dict[int, list[int]] = {}
            for _ in range(10):                             # nobody waits for the mirror: first attempts end and are run again at once
                run = service.admit(body_of(jobs=jobs))
                runs.append(run)
                leases[run] = [int(work(lines, result)[1]) for result in ('success', 'failure')]
                assert service.post(f'/runs/{run}/attempts/2').status == 201
                for result in 'success', 'success', 'success':
                    work(lines, result)
            await seen.until(mirror, lambda: all(is_ended(mirror, run, 2) for run in runs))
            for run in runs:
                first, second = await mirror.whole(run, 1), await mirror.whole(run, 2)
                assert first is not None and first.row.attempt == 1 and first.row.status == 'completed' and first.row.conclusion == 'failure'
                assert [(leg.state, leg.lease, leg.runner) for _, leg in sorted(legs(first).items())] == [
                    ('success', leases[run][0], 'r1'), ('failure', leases[run][1], 'r1')]
                assert all(leg.started_at <= leg.ended_at for leg in legs(first).values())
                assert [leg.combination for _, leg in sorted(legs(first).items())] == [{'n': 1}, {'n': 2}]
                assert [job.id for job in first.jobs] == ['a', 'b']
                assert {job.state for job in first.jobs if job.id == 'b'} <= {'skipped', None}     # never another word
                assert second is not None and (second.row.attempt, second.row.conclusion) == (2, 'success')
                was = mirror.attempt(run, 1)
                assert was is not None and was.row.conclusion == 'failure' and was.completed_at is not None
                assert was.started_at <= was.completed_at <= mirror.runs[run].started_at
            assert await mirror.whole(runs[0], 3) is None and await mirror.whole(runs[0], 0) is None and mirror.attempt(runs[0], 3) is None
    play(test())


def test_a_restart_of_the_hub_loses_nothing_that_the_service_can_still_say(service: Service, seen: Seen) -> None:
    async def test() -> None:
        async with seen.mirror() as mirror:
            first = service.admit()
            lines = service.lines()
            work(lines)
            await seen.until(mirror, lambda: is_seen_ended(mirror, first))
            before, leg = mirror.runs[first], legs(await mirror.whole(first))['build', 0]
        while_away, began = service.admit(), now()
        lease = work(lines, 'failure')
        assert service.post(f'/runs/{while_away}/attempts/2').status == 201
        async with seen.mirror() as mirror:
            assert mirror.runs[first] == before
            assert legs(await mirror.whole(first))['build', 0] == leg
            await seen.until(mirror, lambda: mirror.runs[while_away].row.attempt == 2)
            missed = await mirror.whole(while_away, 1)     # the changes since the cursor say what it did
            assert missed is not None and missed.row.conclusion == 'failure'
            found = legs(missed)['build', 0]
            assert (found.state, found.runner, found.lease) == ('failure', 'r1', int(lease[1]))
            assert found.started_at is not None and found.ended_at is not None  # the service's changes have their times
            assert began <= found.started_at <= found.ended_at <= now()
            assert mirror.runs[while_away].completed_at is None
        assert seen.dropped == []
    play(test())


def test_a_restart_of_the_service_keeps_what_was_seen(service: Service, seen: Seen) -> None:
    async def test() -> None:
        async with seen.mirror() as mirror:
            first, second = service.admit(), service.admit()
            lines = service.lines()
            work(lines)
            await seen.until(mirror, lambda: is_seen_ended(mirror, first) and second in mirror.runs)
            before, leg = mirror.runs[first], legs(await mirror.whole(first))['build', 0]
            await asyncio.to_thread(service.kill)
            await seen.until(mirror, lambda: mirror.fault is not None)
            assert mirror.runs[first] == before            # it is still shown
            assert legs(await mirror.whole(first))['build', 0] == leg
            await asyncio.to_thread(service.start)
            await seen.until(mirror, lambda: mirror.fault is None)
            third = service.admit()
            await seen.until(mirror, lambda: third in mirror.runs)
            assert mirror.runs[first] == before and mirror.runs[third].created_source == 'seen'
            lines = service.lines()
            lines.numbers['r1'] = 2
            assert work(lines)[2] == str(second)
            await seen.until(mirror, lambda: is_ended(mirror, second))
            assert legs(await mirror.whole(second))['build', 0].started_at is not None
        assert seen.dropped == []
    play(test())


def test_both_sides_restart(service: Service, seen: Seen) -> None:
    async def test() -> None:
        async with seen.mirror() as mirror:
            run = service.admit()
            lease = service.lines().claim('r1')
            await seen.until(mirror, lambda: run in mirror.runs and any(leg.started_at for leg in mirror.attempts.legs(run, 1).values()))
            before = mirror.runs[run]
        await asyncio.to_thread(service.restart)
        async with seen.mirror() as mirror:
            assert mirror.runs[run].created_at == before.created_at
            await seen.until(mirror, lambda: run in mirror.snapshots)
            found = legs(await mirror.whole(run))['build', 0]
            assert (found.state, found.lease) == ('running', int(lease[1])) and found.started_at is not None and found.ended_at is None
        assert seen.dropped == []
    play(test())


def test_a_restored_store_drops_what_it_has_forgotten(service: Service, seen: Seen, tmp_path: pathlib.Path) -> None:
    async def test() -> None:
        async with seen.mirror() as mirror:
            kept, undone = service.admit(), service.admit()
            lines = service.lines()
            assert work(lines)[2] == str(kept)
            await seen.until(mirror, lambda: is_seen_ended(mirror, kept))
            before = mirror.runs[kept]
            copy = tmp_path / 'copy.store'
            await asyncio.to_thread(service.kill)
            shutil.copy(service.store, copy)
            await asyncio.to_thread(service.start)
            await seen.until(mirror, lambda: mirror.fault is None)
            lines = service.lines()
            lines.numbers['r1'] = 2
            assert work(lines, 'failure')[2] == str(undone)
            lost, other = service.admit(), service.admit(body_of(message='First life'), delivery='same-delivery')
            work(lines)
            await seen.until(mirror, lambda: is_ended(mirror, undone) and is_ended(mirror, lost) and other in mirror.runs and mirror.runs[other].digest)
            await asyncio.to_thread(service.kill)
            shutil.copy(copy, service.store)
            await asyncio.to_thread(service.start)
            await seen.until(mirror, lambda: mirror.fault is None)
            await seen.until(mirror, lambda: lost not in mirror.runs)
            assert service.admit() == lost                  # the id comes again, for another event
            assert service.admit(body_of(message='Second life'), delivery='same-delivery') == other
            await seen.until(mirror, lambda: other in mirror.runs and mirror.runs[other].facts.title == 'Second life')
            assert mirror.runs[kept] == before
            assert mirror.runs[undone].row.status == 'queued' and mirror.runs[undone].completed_at is None
            found = legs(await mirror.whole(undone))['build', 0]
            assert (found.state, found.lease, found.started_at, found.ended_at) == ('ready', None, None, None)
            assert mirror.runs[lost].row.status == 'queued' and mirror.runs[lost].completed_at is None
            assert mirror.attempts.whole(lost, 1) is None and mirror.attempts.whole(undone, 1) is None
        assert sorted(set(seen.dropped)) == [undone, lost, other]
    play(test())


def test_another_body_under_the_same_delivery_is_another_run_also_after_both_were_down(service: Service, seen: Seen, tmp_path: pathlib.Path) -> None:
    async def test() -> None:
        async with seen.mirror() as mirror:
            run = service.admit(body_of(message='First store'), delivery='d1')
            work(service.lines())
            await seen.until(mirror, lambda: is_ended(mirror, run))
        await asyncio.to_thread(service.kill)
        service.store.unlink()                             # a foreign store: its run 1 has the same delivery, and has ended in the same way
        await asyncio.to_thread(service.start)
        assert service.admit(body_of(message='Second store'), delivery='d1') == run
        work(service.lines())
        async with seen.mirror() as mirror:
            await seen.until(mirror, lambda: mirror.runs[run].facts.title == 'Second store' and seen.dropped == [run])
            await seen.until(mirror, lambda: is_ended(mirror, run))
            found = legs(await mirror.whole(run))['build', 0]
            assert (found.runner, found.started_at, found.ended_at) == ('r1', None, None)       # it had ended before anybody looked
    play(test())


def test_the_ledger_can_be_deleted_without_losing_a_run(service: Service, seen: Seen) -> None:
    async def test() -> None:
        async with seen.mirror() as mirror:
            runs = [service.admit(body_of(message=f'Change {number}')) for number in range(5)]
            work(service.lines())
            await seen.until(mirror, lambda: is_ended(mirror, runs[0]) and runs[-1] in mirror.runs)
            rows = [run.row for run in mirror.of('octo/hello')]
        shutil.rmtree(seen.folder)
        async with seen.mirror() as mirror:
            assert [run.row for run in mirror.of('octo/hello')] == rows
            found = mirror.runs[runs[0]]
            assert found.completed_at is None and found.created_source == 'listed' and found.facts.title == 'Change 0'
            leg = legs(await mirror.whole(runs[0]))['build', 0]
            assert (leg.state, leg.started_at, leg.ended_at) == ('success', None, None)
    play(test())


def test_what_ends_without_a_report_is_noted(service: Service, seen: Seen) -> None:
    async def test() -> None:
        async with seen.mirror() as mirror:
            jobs = {'a': {'runs-on': 'linux'}, 'b': {'runs-on': 'windows'}, 'c': {'runs-on': 'linux', 'needs': 'a'}}
            run = service.admit(body_of(jobs=jobs))
            lines = service.lines()
            lease = lines.claim('r1')
            assert service.post(f'/runs/{run}/cancel').status == 202
            assert lines.ask(f'BEAT r1 {lease[1]}') == 'stop'
            assert service.post('/runners/r1/lost').status == 202
            await seen.until(mirror, lambda: is_seen_ended(mirror, run))
            found = legs(await mirror.whole(run))
            assert {key: leg.state for key, leg in found.items()} == {('a', 0): 'cancelled', ('b', 0): 'cancelled'}
            assert found['a', 0].runner == 'r1' and found['a', 0].ended_at is not None
            assert (found['b', 0].runner, found['b', 0].started_at) == (None, None) and found['b', 0].ended_at is not None
            assert service.post(f'/runs/{run}/attempts/2').status == 201
            await seen.until(mirror, lambda: mirror.runs[run].row.attempt == 2)
            assert {key: leg.state for key, leg in legs(await mirror.whole(run, 1)).items()} == {('a', 0): 'cancelled', ('b', 0): 'cancelled'}
    play(test())


@pytest.mark.quick
def test_who_ran_it_again_is_kept(service: Service, seen: Seen) -> None:
    async def test() -> None:
        async with seen.mirror() as mirror:
            run = service.admit()
            work(service.lines())
            await seen.until(mirror, lambda: is_ended(mirror, run))
            mirror.note_actor(run, 2, 'hubot')
            assert service.post(f'/runs/{run}/attempts/2').status == 201
            await seen.until(mirror, lambda: mirror.runs[run].row.attempt == 2)
            assert mirror.runs[run].triggering_actor == 'hubot'
        async with seen.mirror() as mirror:
            found, was = mirror.runs[run], mirror.attempt(run, 1)
            assert found.triggering_actor == 'hubot' and was is not None and was.triggering_actor in (None, 'mona')
    play(test())


@pytest.mark.quick
def test_hostile_names_and_titles_are_taken_as_they_are(service: Service, seen: Seen) -> None:
    title = '<script>alert(1)</script> ${{ secrets.x }} \u202e \'; drop table runs; --'
    repository = '../..\'"/<b>\n'

    async def test() -> None:
        async with seen.mirror() as mirror:
            github = {'actor': {'login': 'x'}, 'sha': 7, 'ref_name': ['x'], 'head_ref': None, 'ref': 'refs/heads/a b\u0000c',
                      'event': {'head_commit': {'message': title + '\nmore', 'author': 'nobody'}, 'pull_request': {'number': '7', 'head': []}}}
            run = service.admit(body_of('<i>', {'a': {'runs-on': 'linux', 'name': title}}, repository=repository, path='../../etc/passwd', github=github))
            big = service.admit(body_of(message='x' * 50_000))
            await seen.until(mirror, lambda: run in mirror.runs and big in mirror.runs and mirror.runs[big].digest)
            found = mirror.runs[run]
            assert (found.facts.title, found.facts.actor, found.facts.sha, found.facts.pull_number) == (title, None, None, None)
            assert found.facts.branch == 'a b\0c' and found.facts.job_names == {'a': title} and found.row.repository == repository
            assert len(mirror.runs[big].facts.title or '') <= 300
            assert [one.id for one in mirror.select(repository, branch='a b\0c')] == [run]
            await seen.until(mirror, lambda: mirror.kept.of(run) is not None and mirror.kept.of(run).facts)
        async with seen.mirror() as mirror:
            assert mirror.runs[run].facts == found.facts
    play(test())


@pytest.mark.quick
def test_a_runner_is_asked_for_by_its_whole_name(service: Service, seen: Seen) -> None:
    """The service finds runners by the beginning of their names; who asks for one runner gets no other."""
    async def test() -> None:
        async with seen.mirror() as mirror:
            service.admit()
            lease = await asyncio.to_thread(lambda: service.lines().claim('build-2'))
            assert lease[0] == 'lease'
            assert [one.name for one in await mirror.view.runners('build-2')] == ['build-2']
            assert await mirror.view.runners('build') == await mirror.view.runners('build-22') == []
            assert [row['runner'] for row in request(service.view, 'GET', '/runners?name=build').json()['runners']] == ['build-2']
    play(test())


@pytest.mark.quick
def test_a_body_is_read_without_an_entry(service: Service, seen: Seen) -> None:
    """What the mirror reads of a run leaves the history as it was."""
    async def test() -> None:
        body = body_of(message='Say hello')
        run = service.admit(body)
        async with seen.mirror() as mirror:
            assert await mirror.body(run) == body
            assert 'acts_entries_total 1\n' in request(service.view, 'GET', '/metrics').text
    play(test())
