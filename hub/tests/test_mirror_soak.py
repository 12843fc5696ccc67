"""The mirror over random events, claims, reports, cancels, re-runs, kills of the service and of the hub: it may not know, and never says what is not so."""
from __future__ import annotations

import asyncio
import contextlib
import os
import pathlib
import random
from typing import Any

import pytest
from harness import RunnerLines, Service, body_of, request
from test_mirror import Seen

from acts_hub.service.mirror import Mirror
from acts_hub.times import now

JOBS: list[dict[str, Any]] = [
    {'a': {'runs-on': 'linux'}},
    {'a': {'runs-on': 'linux', 'strategy': {'matrix': {'n': [1, 2, 3]}, 'fail-fast': False}}, 'b': {'runs-on': 'linux', 'needs': 'a'}},
    {'a': {'runs-on': 'linux', 'strategy': {'matrix': {'n': [1, 2]}}}, 'b': {'runs-on': 'linux', 'needs': 'a', 'if': 'always()'}}]


class World:
    """What this test did, and what it was answered."""

    def __init__(self, service: Service, seed: int) -> None:
        self.service, self.dice = service, random.Random(seed)
        self.attempts: dict[int, int] = {}
        self.results: dict[tuple[int, int, str, int], tuple[str, str, int]] = {}      # run, attempt, job, leg -> result, runner, lease
        self.conclusions: dict[tuple[int, int], str] = {}
        self.held: dict[str, tuple[int, int, str, int, int]] = {}
        self.numbers: dict[str, int] = {}
        self.lines: RunnerLines | None = None

    def session(self) -> RunnerLines:
        if self.lines is None:
            self.lines = self.service.lines()
            self.lines.numbers = self.numbers
        return self.lines

    def step(self) -> None:
        """Something at random."""
        what = self.dice.choices((self.admit, self.claim, self.done, self.cancel, self.rerun), (2, 6, 6, 1, 2))[0]
        what()

    def admit(self) -> None:
        run = self.service.admit(body_of(jobs=self.dice.choice(JOBS), message=f'Change {len(self.attempts)}'))
        self.attempts[run] = 1

    def claim(self) -> None:
        name = self.dice.choice(('r1', 'r2', 'r3'))
        if name not in self.held:
            words = self.session().claim(name)
            if words[0] == 'lease':
                self.held[name] = int(words[2]), self.attempts[int(words[2])], words[3], int(words[4]), int(words[1])

    def done(self) -> None:
        if self.held:
            name = self.dice.choice(sorted(self.held))
            run, attempt, job, leg, lease = self.held.pop(name)
            result = self.dice.choice(('success', 'success', 'failure'))
            assert self.session().done(name, lease, result) == 'ok'
            self.results[run, attempt, job, leg] = result, name, lease
            self.look(run)

    def look(self, run: int) -> None:
        row = self.service.run(run)
        if row['status'] == 'completed':
            self.conclusions[run, row['attempt']] = row['conclusion']

    def cancel(self) -> None:
        if self.attempts:
            run = self.dice.choice(sorted(self.attempts))
            self.service.post(f'/runs/{run}/cancel')
            self.look(run)

    def rerun(self) -> None:
        ended = [run for run, attempt in self.attempts.items() if (run, attempt) in self.conclusions]
        if ended:
            run = self.dice.choice(sorted(ended))
            answer = self.service.post(f'/runs/{run}/attempts/{self.attempts[run] + 1}')
            assert answer.status == 201, answer
            self.attempts[run] += 1

    def restart(self) -> None:
        self.service.restart()
        self.lines = None

    def rows(self) -> dict[int, Any]:
        found: dict[int, Any] = {}
        before = ''
        while True:
            page = request(self.service.view, 'GET', f'/runs?limit=100{before}').json()
            found.update((row['run'], row) for row in page['runs'])
            if page['before'] is None:
                return found
            before = f'&before={page["before"]}'


async def compare(world: World, mirror: Mirror) -> tuple[int, int]:
    """What the mirror says has to be so; gives how many results it knows, and how many it does not."""
    rows = world.rows()
    await Seen.until(mirror, lambda: {run: (one.row.attempt, one.row.status, one.row.conclusion) for run, one in mirror.runs.items()} == {
        run: (row['attempt'], row['status'], row['conclusion']) for run, row in rows.items()}, 30)
    await Seen.until(mirror, lambda: all(one.digest for one in mirror.runs.values()))
    await asyncio.sleep(0.3)
    known = unknown = 0
    for (run, attempt, job, leg), (result, runner, lease) in world.results.items():
        whole = await mirror.whole(run, attempt)
        assert whole is not None and whole.row.attempt == attempt
        found = [one for each in whole.jobs if each.id == job for one in each.legs if one.index == leg]
        one = found[0] if found else None
        if one is None or one.state is None:
            unknown += 1
            continue
        known += 1
        at_work = run, attempt, job, leg
        assert one.state == result and one.runner in (runner, None) and one.lease in (lease, None), (at_work, one, result, runner, lease)
        assert one.started_at is None or one.ended_at is None or one.started_at <= one.ended_at <= now(), (at_work, one)
    for (run, attempt), conclusion in world.conclusions.items():
        was = mirror.attempt(run, attempt)
        assert was is not None and was.row.conclusion in (conclusion, None), (run, attempt, was, conclusion)
        if attempt < mirror.runs[run].row.attempt and was.row.conclusion is None:
            unknown += 1
        elif attempt == mirror.runs[run].row.attempt:
            assert was.row.conclusion == conclusion
    return known, unknown


@pytest.mark.parametrize('seed', range(int(os.environ.get('SOAK_FROM', 0)), int(os.environ.get('SOAK_TO', 4))))
def test_what_it_says_is_so(service: Service, tmp_path: pathlib.Path, seed: int, capsys: pytest.CaptureFixture[str]) -> None:
    """Seeds 0 and 1, and every fourth on: nobody is killed, and nothing is unknown. 2: the hub is away at times. 3: both are."""
    world, seen, kind = World(service, seed), Seen(service, tmp_path / 'ledger'), seed % 4

    async def test() -> None:
        for turn in range(4):
            async with seen.mirror() as mirror:
                for _ in range(60):
                    await asyncio.to_thread(world.step)
                    if kind == 3 and world.dice.random() < 0.02:
                        await asyncio.to_thread(world.restart)
                        await Seen.until(mirror, lambda: mirror.fault is None)
                known, unknown = await compare(world, mirror)
            if kind >= 2 and turn < 3:
                for _ in range(15):
                    await asyncio.to_thread(world.step)
                if kind == 3 and world.dice.random() < 0.5:
                    await asyncio.to_thread(world.restart)
        with capsys.disabled():
            print(f'\n  seed {seed}: {len(world.attempts)} runs, {sum(world.attempts.values())} attempts; {known} results known, {unknown} not')
        assert seen.dropped == [] and known > 20
        if kind < 3:
            assert unknown == 0                             # the changes since the cursor say all
    with contextlib.closing(asyncio.new_event_loop()) as loop:
        loop.run_until_complete(asyncio.wait_for(test(), 300))
