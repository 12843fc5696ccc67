"""Events over failures: kill -9 of the hub and of the service, lost answers, a service that is away or full, fetches that hang."""
from __future__ import annotations

import json
import os
import pathlib
import random
import threading
import time
from collections.abc import Iterator
from typing import Any

import pytest
from harness import request, until
from repositories import Sender, created
from test_events import ONE, Place

TWO = '{on: push, jobs: {two: {runs-on: linux, steps: [{run: "true"}]}}}'


@pytest.fixture
def place(tmp_path: pathlib.Path) -> Iterator[Place]:
    made = Place(tmp_path, wait=0.3, pause=0.5, full_limit=2)
    try:
        yield made.start()
    finally:
        made.end()


def runs(place: Place) -> list[tuple[str, str]]:
    """The runs in the order of their ids: the commit and the file of each."""
    count, found = place.count(), []
    for run in range(1, count + 1):
        body = place.body(run)
        found.append((body['github']['sha'], body['path'].rpartition('/')[2]))
    return found


def spooled(place: Place) -> list[str]:
    return [name for name in os.listdir(place.hub.state / 'events/spool') if name[:1].isdigit() and '.' not in name]


def done(place: Place) -> None:
    until(lambda: not spooled(place), what='the spool')


@pytest.mark.quick
def test_kill_between_the_spool_and_the_post(place: Place) -> None:
    """What was answered 202 while the service was away makes its runs after a kill -9 of the hub, each once and in order."""
    commits = []
    place.service.kill()
    first = place.repository.only({'one.yml': ONE, 'two.yml': TWO})
    for number in range(4):
        pushed = first if not number else place.repository.push('refs/heads/main', str(number), {f'src/{number}': ''})
        commits.append(pushed['after'])
        status, lines = place.sender.send('push', pushed, f'k{number}')
        assert status == 202 and lines[0].startswith('accepted: what becomes of it is in the log')
    assert len(spooled(place)) == 4
    place.hub.kill()
    place.service.start()
    place.hub.start()
    done(place)
    assert runs(place) == [(commit, name) for commit in commits for name in ('one.yml', 'two.yml')]
    place.sender.send('push', pushed, 'k3')
    done(place)
    assert place.count() == 8


def test_kills_at_any_moment(place: Place) -> None:
    """Deliveries while hub and service are killed at random: each makes one run for each workflow, in the order of the deliveries."""
    dice, commits, over = random.Random(7), [], threading.Event()
    first = place.repository.only({'one.yml': ONE, 'two.yml': TWO})

    def kill() -> None:
        while not over.wait(dice.random() * 1.5 + 0.3):
            (place.hub if dice.random() < 0.6 else place.service).restart()
    killer = threading.Thread(target=kill)
    killer.start()
    try:
        for number in range(12):
            pushed = first if not number else place.repository.push('refs/heads/main', str(number), {f'src/{number}': ''})
            commits.append(pushed['after'])
            until(lambda: place.sender.send('push', pushed, f'r{number}')[0] == 202, what='an answer')  # GitHub's redelivery
    finally:
        over.set()
        killer.join()
    done(place)
    assert runs(place) == [(commit, name) for commit in commits for name in ('one.yml', 'two.yml')]


def test_a_full_store_holds_events_back_and_says_so(tmp_path: pathlib.Path) -> None:
    """Over a part of the area new events wait: claims and reports of runs that go on still fit."""
    place = Place(tmp_path, wait=0.5, pause=0.5, held_over=0.1)
    place.service.area = 32768
    try:
        place.start()
        place.repository.only({'one.yml': ONE})
        for number in range(30):
            pushed = place.repository.push('refs/heads/main', str(number), {f'src/{number}': ''})
            status, lines = place.sender.send('push', pushed, f'f{number}')
            if 'it waits: the file of the service is ' in lines[0]:
                break
        else:
            raise AssertionError('no event was held back')
        before = place.count()
        assert 1 <= before < 30 and spooled(place)
        time.sleep(3)
        assert place.count() == before
        runner = place.service.lines()
        assert runner.done('r1', runner.claim('r1')[1]) == 'ok'
    finally:
        place.end()


def test_an_event_that_does_not_fit_is_refused_after_a_while_and_holds_up_no_other_repository(tmp_path: pathlib.Path) -> None:
    place = Place(tmp_path, pause=0.5, full_limit=2, held_over=1.0)
    place.service.area = 12288
    long = '{on: push, jobs: {one: {runs-on: linux, steps: [{run: "true ' + 20000 * 'x' + '"}]}}}'
    try:
        place.start()
        answers: list[list[str]] = []
        pushed = place.repository.only({'long.yml': long})
        waiting = threading.Thread(target=lambda: answers.append(place.sender.push(pushed)))
        waiting.start()
        until(lambda: 'is tried again: the service answers 503, refused 47' in (place.hub.process.said() if place.hub.process else ''))
        assert created(place.of_other.push(place.other.only({'one.yml': ONE}))) == {'one.yml': 1}
        waiting.join()
        assert answers[0][0].startswith('long.yml: refused 47: the file of the service is full')
        until(lambda: place.refused(), what='the ledger')
        assert place.refused()[0][1:3] == ('.github/workflows/long.yml', 47)
    finally:
        place.end()


def test_a_fetch_that_hangs_is_ended_and_holds_up_no_other_repository(tmp_path: pathlib.Path) -> None:
    place = Place(tmp_path, wait=0.5, pause=0.5, fetch_limit=3)
    hangs = f'sleep 3600.{os.getpid()}'
    try:
        place.start()
        for name, value in (('remote.origin.url', 'ssh://127.0.0.1/slow'), ('core.sshCommand', hangs + ' #')):
            place.repository.git('-C', str(place.repository.mirror), 'config', name, value)
        place.sender.send('push', place.repository.only({'one.yml': ONE}), 's1')

        def hanging() -> bool:
            return any(hangs.encode() in path.read_bytes().replace(b'\0', b' ') for path in pathlib.Path('/proc').glob('[0-9]*/cmdline') if readable(path))
        until(hanging, what='the fetch')
        other = place.other.only({'one.yml': ONE})
        place.of_other.send('push', other, 's2')
        until(lambda: place.count() == 1, what='the run of the other repository')
        place.repository.git('-C', str(place.repository.mirror), 'config', 'remote.origin.url', str(place.repository.remote))
        until(lambda: place.count() == 2, what='the run, once the fetch is ended')
        assert 'no fetch: git fetch in' in (place.hub.process.said() if place.hub.process else '')
        until(lambda: not hanging(), what='the end of what hangs')
    finally:
        place.end()


def readable(path: pathlib.Path) -> bool:
    try:
        path.read_bytes()
        return True
    except OSError:
        return False


def test_a_commit_that_is_not_there_yet_lets_others_pass_and_comes_later(place: Place) -> None:
    pushed = place.repository.only({'one.yml': ONE})
    created_first = place.sender.send('push', pushed, 'c0')[0]
    assert created_first == 202
    done(place)
    late = {'ref': 'refs/heads/main', 'before': pushed['after'], 'after': place.repository.commit('late', {'src/late': ''}), 'commits': []}
    place.sender.send('push', late, 'c1')
    assert len(spooled(place)) == 1
    place.repository.git('push', '-q', 'origin', 'HEAD:refs/heads/main')
    done(place)
    assert [commit for commit, _ in runs(place)] == [pushed['after'], late['after']]


def test_what_was_put_aside_is_listed_and_tried_again(place: Place) -> None:
    broken = place.repository.only({'one.yml': '{on: push, jobs: {one: {runs-on: linux, environment: nowhere}}}'})
    until(lambda: place.sender.send('push', broken, 'a1')[0] == 202)
    done(place)
    listed = place.hub.command('events', '--config', str(place.hub.config), 'list')
    assert 'octo/hello push' in listed.stdout and 'nowhere is not named as an environment' in listed.stdout, listed
    name = listed.stdout.split(' ')[0]
    assert place.hub.command('events', '--config', str(place.hub.config), 'retry', 'none').returncode == 1
    assert place.hub.command('events', '--config', str(place.hub.config), 'retry', name).returncode == 0
    until(lambda: place.hub.process and place.hub.process.said().count('nowhere is not named') >= 2, what='another try')
    assert len(place.refused()) == 1  # the same delivery is noted once


def test_a_full_disk_of_the_spool_is_said(place: Place) -> None:
    folder = place.hub.state / 'events/spool'
    folder.rename(folder.with_name('gone'))
    status, lines = place.sender.send('push', place.repository.only({'one.yml': ONE}), 'd1')
    assert status == 503 and lines[0].startswith('not accepted:')
    folder.with_name('gone').rename(folder)
    assert place.sender.send('push', place.repository.push('refs/heads/main', 'x', {'src/x': ''}), 'd2')[0] == 202
    done(place)
    assert place.count() == 1


def test_a_signed_payload_of_twenty_mebibytes_is_taken_in_part(tmp_path: pathlib.Path) -> None:
    """Its run has what fits, and says what is left out."""
    place = Place(tmp_path)
    try:
        place.start()
        pushed = place.repository.only({'one.yml': ONE})
        commit = {'id': pushed['after'], 'message': 'm' * 1000}
        run = created(place.sender.push({**pushed, 'commits': [commit] * 20000}))['one.yml']
        body = place.body(run)
        assert len(json.dumps(body)) < 70000 and body['left_out'] == 'addresses of the API, lists'
        assert (body['github']['sha'], body['github']['event']['ref']) == (pushed['after'], 'refs/heads/main')
    finally:
        place.end()
