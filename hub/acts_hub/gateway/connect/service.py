"""`runner.v1.RunnerService`: runners register, say their labels, fetch tasks, and report steps, outputs, logs and
results."""
from __future__ import annotations

import asyncio
import json
import time
import uuid
from collections import defaultdict
from typing import TYPE_CHECKING, Any

from aiohttp import web

from ...access.identity import Identity, Right
from ...log import say
from ...rest.numbers import number_of
from ...times import now
from ..findings import Findings
from ..leaving import Leaving
from ..legs import Legs, written
from ..lines import fits
from ..passing import Passing
from . import tasks
from .calls import Method, Refused, handler
from .messages import CANCELLED, FAILURE, IDLE, MESSAGES, SKIPPED, SUCCESS, UNSPECIFIED
from .reports import Reports
from .runners import RUNNERS, Runner, Runners, Slot, labels_for, name_for

if TYPE_CHECKING:
    from ...hub import Hub

BASE = '/api/actions'
ORDERS = {SUCCESS: 'success', SKIPPED: 'success', FAILURE: 'failure', CANCELLED: 'cancelled'}
SECONDS_OF_BEATS = 10  # between two beats of a task: each one is an entry of the service's history
SECONDS_OF_SILENCE = 600  # after which a task whose runner says nothing has failed, as at Gitea
SECONDS_OF_SWEEPS = 15.0
MAX_VERSION = 64  # characters of the version that a runner says


class RunnerService:
    """The calls, over the lines that any runner behind the hub sends."""

    def __init__(self, hub: Hub, passing: Passing, leaving: Leaving, legs: Legs, findings: Findings, silence: float,
                 a_token: int) -> None:
        self.hub, self.passing, self.leaving, self.legs, self.silence = hub, passing, leaving, legs, silence
        self.runners, self.reports = Runners(hub.notes, a_token), Reports(hub, passing.leases, findings)
        self.locks: defaultdict[str, asyncio.Lock] = defaultdict(asyncio.Lock)
        self.heard: dict[str, float] = {}  # slot -> when its runner said something
        self.beaten: dict[str, tuple[float, str]] = {}  # slot -> when it was asked how its lease stands, and the answer
        self.began = time.monotonic()

    def routes(self) -> list[web.RouteDef]:
        """The addresses of the calls."""
        service, ping = f'{BASE}/runner.v1.RunnerService', f'{BASE}/ping.v1.PingService'
        of_runners: dict[str, Method] = {'Declare': self.declare, 'FetchTask': self.fetch_task,
                                         'UpdateTask': self.update_task, 'UpdateLog': self.update_log}
        return [web.post(f'{ping}/Ping', handler('Ping', self.ping)),
                web.post(f'{service}/Register', handler('Register', self.register)),
                *(web.post(f'{service}/{name}', handler(name, method, self.caller)) for name, method in of_runners.items())]

    # Who calls.

    def identity(self, request: web.Request, secret: str) -> Identity:
        """Whose token a secret is."""
        found = self.hub.access.of_secret(request, secret)
        if found is None or found.right is not Right.RUNNER:
            raise Refused('unauthenticated', 'the token is not valid, or no token of runners')
        return found

    def caller(self, request: web.Request) -> tuple[Identity, Runner]:
        """The runner that calls, as its headers say."""
        identity = self.identity(request, request.headers.get('x-runner-token', ''))
        runner = self.runners.runner(request.headers.get('x-runner-uuid', ''))
        if runner is None or runner.token != identity.token_id:
            raise Refused('unauthenticated', 'unregistered runner')
        self.runners.heard(runner)
        return identity, runner

    async def ping(self, _: web.Request, given: Any) -> Any:
        """Whether somebody is here."""
        return MESSAGES['PingResponse'](data=f'Hello, {given.data}!')

    async def register(self, request: web.Request, given: Any) -> Any:
        """A runner is known by an id from now on; its token stays the one by which it has registered."""
        identity = self.identity(request, given.token)
        labels, made = labels_for(identity, list(given.labels)), str(uuid.uuid4())
        runner = Runner(made, name_for(identity, given.name), identity.token_id, labels, given.version[:MAX_VERSION],
                        ephemeral=given.ephemeral, seen=now())
        self.runners.register(runner)
        await written(self.hub.database)
        say(f'{identity.name} registers {runner.name} ({", ".join(labels)})')
        return MESSAGES['RegisterResponse'](runner=shown(runner, given.token))

    async def declare(self, request: web.Request, given: Any) -> Any:
        """The labels of a runner, each time that it begins."""
        identity, runner = self.caller(request)
        runner.labels, runner.version = labels_for(identity, list(given.labels)), given.version[:MAX_VERSION]
        self.runners.keep(runner)
        await written(self.hub.database)
        return MESSAGES['DeclareResponse'](runner=shown(runner))

    # Tasks.

    async def fetch_task(self, request: web.Request, given: Any) -> Any:
        """A task, if there is one. No claim is sent while no leg would fit."""
        identity, runner = self.caller(request)
        nothing = MESSAGES['FetchTaskResponse'](tasks_version=self.hub.mirror.version + 1)
        async with self.locks[runner.uuid]:
            known = self.runners.runner(runner.uuid)
            if known is None or self.runners.is_spent(known):
                await self.forget(known or runner)
                raise Refused('unauthenticated', 'unregistered runner: it was for one task')
            runner = known
            slot = next((each for each in self.runners.slots(runner) if each.task and 'attempt' not in each.task), None)
            if slot is None and not await self.has_claimed(identity, runner):
                return nothing
            slot = slot or next(each for each in self.runners.slots(runner) if each.task and 'attempt' not in each.task)
            task = await self.task(identity, slot)
        return MESSAGES['FetchTaskResponse'](task=task, tasks_version=nothing.tasks_version) if task else nothing

    async def forget(self, runner: Runner) -> None:
        """A runner is known no more. Its names at the service are discharged."""
        for name in runner.slots:
            self.leaving.leave(name)
        self.runners.remove(runner)
        self.locks.pop(runner.uuid, None)
        await written(self.hub.database)
        say(f'{runner.name} is known no more')

    async def has_claimed(self, identity: Identity, runner: Runner) -> bool:
        """Claims for a free slot, if there is one, and a leg that may be for it. Whether it has a leg then."""
        slot = self.runners.free(runner)
        if slot is None or not slot.line and not await self.has_fitting(runner):
            return False
        return await self.claim(identity, runner, slot)

    async def has_fitting(self, runner: Runner) -> bool:
        """Whether a leg waits that may be for a runner with these labels."""
        for leg in await self.hub.view.queue():
            added = self.passing.environments.label_of(leg)
            if fits(leg.labels, (*runner.labels, *([added] if added else []))):
                return True
        return False

    async def ask(self, identity: Identity, slot: Slot, line: str) -> str | bytes:
        """The answer to a line; of a FETCH the body."""
        session = await self.hub.runner_port.open()
        try:
            _, answer = await self.passing.answer(identity, slot.name, line, session)
            return answer.text if answer.body is None else answer.body
        finally:
            session.close()

    async def claim(self, identity: Identity, runner: Runner, slot: Slot) -> bool:
        """Claims for a slot. A line that was not answered is sent again, since it may have been carried out."""
        slot.line = slot.line or f'CLAIM {slot.name} {slot.number + 1} {",".join(runner.labels)},{slot.life}'
        self.runners.keep_slot(slot)
        await written(self.hub.database)
        answer = str(await self.ask(identity, slot, slot.line)).split(' ', 5)
        if answer[0] in ('lease', 'nothing'):
            self.leaving.came(identity, slot.name, runner.ephemeral)
            slot.number, claim, slot.line = int(slot.line.split()[2]), slot.line, None
            if answer[0] == 'lease':
                slot.task = {'lease': int(answer[1]), 'run': int(answer[2]), 'job': answer[3], 'claim': claim,
                             'combination': answer[5]}
        elif answer[1:2] in (['42'], ['43']):
            say(f'{slot.name} is given up: the service answers {" ".join(answer)}, which is past what the ledger has')
            self.leaving.leave(slot.name)
            self.runners.drop(runner, slot)
            return False
        else:
            raise Refused('unavailable', ' '.join(answer))
        self.runners.keep_slot(slot)
        await written(self.hub.database)
        self.heard[slot.name] = time.monotonic()
        return slot.task is not None

    async def task(self, identity: Identity, slot: Slot) -> Any:
        """The task of the leg that a slot holds; None if it may not run, which ends it."""
        held: Any = slot.task
        body = await self.ask(identity, slot, f'FETCH {held["run"]}')
        lease = self.passing.leases.get(held['run'], held['lease'])
        whole = await self.hub.view.run(held['run'])
        if isinstance(body, str) or lease is None or whole is None:
            raise Refused('unavailable', f'run {held["run"]} is not shown')
        admitted, told = json.loads(body), self.legs.told(lease, whole)
        why = tasks.refusal_of(admitted, told, lease.job)
        if why:
            self.reports.refuse(lease, why)
            await self.done(identity, slot, 'failure')
            slot.ended = None  # its runner has not heard of it
            self.runners.keep_slot(slot)
            return None
        held.update(attempt=lease.attempt, leg=lease.leg)
        self.runners.keep_slot(slot)
        return tasks.task_of(admitted, told, lease, json.loads(held['combination']))

    def slot_of(self, runner: Runner, task: int) -> Slot:
        """The slot that holds a task, or has held it last."""
        for slot in self.runners.slots(runner):
            for held in (slot.task, slot.ended):
                if held is not None and held['lease'] == task:
                    self.heard[slot.name] = time.monotonic()
                    return slot
        raise Refused('not_found', f'the runner has no task {task}')

    async def update_task(self, request: web.Request, given: Any) -> Any:
        """Steps, outputs and the result of a task. The answer says whether it is to end."""
        identity, runner = self.caller(request)
        state, outputs = given.state, dict(given.outputs)
        async with self.locks[runner.uuid]:
            slot = self.slot_of(runner, state.id)
            if slot.task is None or slot.task['lease'] != state.id:  # (it has ended, and the slot may have another one)
                return updated(state.id, state.result, list(outputs))
            sent = await self.reports.take(slot.task, state, outputs)
            if state.result != UNSPECIFIED:
                await self.done(identity, slot, ORDERS.get(state.result, 'failure'))
                return updated(state.id, state.result, sent)
            result = UNSPECIFIED if await self.standing(identity, slot) == 'go on' else CANCELLED
            return updated(state.id, result, sent)

    async def standing(self, identity: Identity, slot: Slot) -> str:
        """How the service answers a beat. It is asked now and then."""
        held: Any = slot.task
        asked, answer = self.beaten.get(slot.name, (0.0, ''))
        if not answer or time.monotonic() > asked + SECONDS_OF_BEATS or answer != 'go on':
            answer = str(await self.ask(identity, slot, f'BEAT {slot.name} {held["lease"]}'))
            self.beaten[slot.name] = time.monotonic(), answer
        return answer

    async def done(self, identity: Identity, slot: Slot, result: str) -> None:
        """Reports a task. The line is kept till it is answered."""
        held: Any = slot.task
        slot.line = slot.line or f'DONE {slot.name} {slot.number + 1} {held["lease"]} {result}'
        self.runners.keep_slot(slot)
        await written(self.hub.database)
        answer = str(await self.ask(identity, slot, slot.line))
        if answer not in ('ok', 'refused 44', 'refused 45'):
            raise Refused('unavailable', answer)
        slot.number += answer == 'ok'
        slot.line, slot.task, slot.ended = None, None, held
        self.beaten.pop(slot.name, None)
        self.runners.keep_slot(slot)
        self.reports.complete(held)
        await written(self.hub.database)

    async def update_log(self, request: web.Request, given: Any) -> Any:
        """Lines of a log. The answer says how many there are: where to go on."""
        _, runner = self.caller(request)
        async with self.locks[runner.uuid]:
            slot = self.slot_of(runner, given.task_id)
            task = next(held for held in (slot.task, slot.ended) if held and held['lease'] == given.task_id)
            return MESSAGES['UpdateLogResponse'](ack_index=self.reports.lines(task, given.index, given.rows))

    # Runners that are gone.

    async def watch(self) -> None:
        """Ends tasks whose runners say nothing any more."""
        while True:
            await asyncio.sleep(min(SECONDS_OF_SWEEPS, self.silence / 2))
            for uuid_of_it in self.hub.notes.list(0, 0, RUNNERS):
                try:
                    await self.sweep(uuid_of_it)
                except Exception as fault:  # of whatever kind, it is this runner's alone
                    say(f'a task of {uuid_of_it} is not ended: {fault!r}')

    async def sweep(self, uuid_of_it: str) -> None:
        """Ends the tasks of a runner that is gone, also of one whose token was revoked; forgets it after a while."""
        async with self.locks[uuid_of_it]:
            runner = self.runners.runner(uuid_of_it)
            token = next((each for each in self.hub.access.tokens.all() if runner and each.id == runner.token), None)
            if runner is None or token is None:
                return
            for slot in self.runners.slots(runner):
                silent = time.monotonic() - self.heard.get(slot.name, self.began)
                if silent > self.silence and (task := await self.task_of(token.identity(), runner, slot)):
                    say(f'run {task["run"]} {task["job"]}: {slot.name} was silent for {silent:.0f} seconds')
                    await self.done(token.identity(), slot, 'failure')
            if not any(slot.task for slot in self.runners.slots(runner)):
                await self.age(runner, token.holds(now()))

    async def task_of(self, identity: Identity, runner: Runner, slot: Slot) -> dict[str, Any] | None:
        """The task that a slot holds, also one for which the answer to its claim was lost."""
        if slot.task is None and slot.line and await self.passing.leases.of_runner(slot.name):
            await self.claim(identity, runner, slot)
        return slot.task

    async def age(self, runner: Runner, may_come: bool) -> None:
        """Forgets a runner without a task that has said nothing for long, or may not come again. Of one that an earlier
        version has kept it is not known when it was heard. One that had its task is still heard, for the end of its log."""
        if may_come and not runner.seen:
            self.runners.heard(runner)
        elif not may_come or runner.is_forgotten(now()):
            await self.forget(runner)
        elif self.runners.is_spent(runner):
            for name in self.leaving.known.keys() & runner.slots:
                self.leaving.leave(name)


def shown(runner: Runner, token: str = '') -> Any:
    """A runner as it is told of itself."""
    return MESSAGES['Runner'](
        id=number_of('runner', runner.uuid), uuid=runner.uuid, token=token, name=runner.name, status=IDLE,
        version=runner.version, labels=runner.labels, ephemeral=runner.ephemeral)


def updated(task: int, result: int, outputs: list[str]) -> Any:
    """The answer to a report."""
    state = MESSAGES['TaskState'](id=task, result=result)
    return MESSAGES['UpdateTaskResponse'](state=state, sent_outputs=outputs)
