"""Runs the steps of a leg: what each is given, which are due, and what the job comes to."""
from __future__ import annotations

import contextlib
import json
import os
import platform
import re
import sys
import time
from collections import Counter
from dataclasses import replace
from typing import Any, Iterable, Iterator, Mapping, Sequence

from acts_workflow.values import text_of

from . import act, contained, container, expressions
from .actions import Action
from .builtin import builtin_of
from .builtin.base import Call, Post
from .builtin.cache import Caches
from .commands import annotation
from .contained import InAction
from .documented import VARIABLES
from .folders import folders, remove
from .frames import Frame, Step
from .logs import Log, unused
from .matchers import Matchers
from .options import Options
from .paths import Paths
from .plan import Plan
from .printed import Listener
from .rights import environment_of, is_of_a_fork, secrets_in
from .state import Held
from .steps import ENDINGS, Cancelled, Clock, Files, Process, StepFailed, paths_in, shell_words
from .storage import FolderStorage, Storage, StorageFault
from .uses import Uses

MINUTES = 360  # of a job that names none
MAX_LINES = 20  # of refusals that are asked for
ARCHITECTURES = {'x86_64': 'X64', 'aarch64': 'ARM64', 'armv7l': 'ARM'}
HIDDEN = {'CREDENTIALS_DIRECTORY'}  # of systemd, in which the token of the runner is


def variables(values: Mapping[str, Any], prefix: str) -> dict[str, str]:
    """The members of an object, other than lists and objects, as variables for a step."""
    return {prefix + re.sub(r'\W', '_', name).upper(): text_of(value) for name, value in values.items()
            if not isinstance(value, (dict, list))}


class Job:
    """A leg with all that its steps are given."""

    def __init__(self, order: dict[str, Any], asked: Sequence[float]) -> None:
        self.leg, self.options = Held(**order['leg']), Options.of(order['options'])
        self.body: dict[str, Any] = json.loads(order['body'])
        self.facts: dict[str, Any] = order.get('facts') or {}
        self.workflow: dict[str, Any] = self.body['workflow']
        self.name, self.job = self.leg.job, self.workflow['jobs'][self.leg.job]
        self.matrix: dict[str, Any] = json.loads(self.leg.combo)
        self.workspace, self.temp = folders(self.options)
        self.tool_cache = self.options.tool_cache or os.path.join(os.path.dirname(self.workspace), 'tools')
        self.github = self.context_github()
        is_fork = is_of_a_fork(self.github, self.body['repo'])
        self.secrets = {} if is_fork else secrets_in(self.options.secrets, environment_of(self.job))
        self.inherited = set() if is_fork else set(map(str.upper, secrets_in(self.options.secrets, '')))
        self.log = log_of(self.options, self.leg, self.facts, self.secrets.values())
        self.storage, self.caches = self.stores()
        self.needs = self.needs_of(self.facts.get('results') or {})
        self.github['secret_source'] = 'Actions' if self.secrets else 'None'
        if 'GITHUB_TOKEN' in self.secrets:
            self.github['token'] = self.secrets['GITHUB_TOKEN']
        self.frame, self.env, self.path = Frame(self.body.get('inputs') or {}), dict[str, str](), list[str]()
        self.count, self.number, self.called = 0, 1, Counter[str]()
        self.defaults: dict[str, Any] = {name: value for of in (self.workflow, self.job)
                                         for name, value in ((of.get('defaults') or {}).get('run') or {}).items()}
        self.shell = self.defaults.get('shell')
        self.asked, self.clock = asked, Clock(asked, MINUTES)
        self.by: container.Engine | None = None
        self.container: container.Container | None = None
        self.services: list[container.Service] = []
        self.uses = Uses(self)
        self.contained: dict[str, Action] = {}
        self.matchers = Matchers(lambda words: self.log.write(f'##[warning]{words}'))

    def context_github(self) -> dict[str, Any]:
        """The context `github`: of the body, of the hub, and of this runner. What has a value for pull requests alone
        is empty for other events."""
        body = self.body.get('github') or {}
        return {'base_ref': '', 'head_ref': '', **(self.facts.get('github_defaults') or {}), **body,
                'repository': self.body['repo'], 'workflow': self.workflow.get('name') or self.body['path'],
                'run_id': self.leg.run, 'job': self.name, 'action': '__run', 'workspace': self.workspace,
                'event_path': os.path.join(self.temp, contained.WORKFLOW, 'event.json'),
                **self.files_of(self.temp), **(self.facts.get('github') or {})}

    @staticmethod
    def files_of(folder: str) -> dict[str, str]:
        """The members of `github` that are the files of the present step."""
        return {name.removeprefix('GITHUB_').lower(): path for name, path in paths_in(folder).items()}

    def stores(self) -> tuple[Storage | None, Caches | None]:
        """Where artifacts, outputs and caches are."""
        if self.options.hub:
            from .hub import HubStorage  # a runner without a hub needs no aiohttp
            storage = HubStorage(self)
            return storage, storage
        if not self.options.artifacts:
            return None, None
        attempt = str(self.github.get('run_attempt') or 'unknown')
        return FolderStorage.of(self.options.artifacts, self.body['repo'], self.leg.run, attempt, self.leg.body or '',
                                self.name), None

    def needs_of(self, results: Mapping[str, str]) -> dict[str, Any] | None:
        """The context `needs`; None if something of it is not known. A job without a condition of its own begins after
        success alone."""
        names = self.job.get('needs') or []
        plain = str(self.job.get('if', True)).strip('${} ').lower() in ('true', 'success()')
        found = {}
        for name in [names] if isinstance(names, str) else names:
            result = results.get(name) or ('success' if plain else None)
            has_some = (self.workflow['jobs'].get(name) or {}).get('outputs')
            outputs: dict[str, str] | None = {}
            if has_some:
                outputs = self.storage.outputs_of(name) if self.storage else None
                if outputs is None and result in ('skipped', 'failure', 'cancelled'):
                    outputs = {}  # a job that did not come to its end has handed on none
            if result is None or outputs is None:
                return None
            found[name] = {'result': result, 'outputs': outputs}
        return found

    # What expressions and steps are given.

    def contexts(self, frame: Frame | None = None, env: Mapping[str, str] | None = None) -> dict[str, Any]:
        """The contexts of a step."""
        frame = frame or self.frame
        strategy = {name: value for name, value in (self.job.get('strategy') or {}).items() if name != 'matrix'}
        github = {**self.github, **(self.github_of(frame.action, frame) if frame.action else {})}
        needs = {} if self.needs is None else {'needs': self.needs}
        return {**needs, 'github': github, 'inputs': frame.inputs, 'vars': self.body.get('vars') or {},
                'matrix': self.matrix, 'secrets': self.secrets, 'steps': frame.steps,
                'env': self.env if env is None else env,
                'strategy': {'fail-fast': True, **strategy, **(self.facts.get('strategy') or {}),
                             'job-index': int(self.leg.leg)},
                'job': self.context_job(frame), 'runner': self.context_runner()}

    def github_of(self, action: Action, frame: Frame) -> dict[str, str]:
        """What `github` has in an action besides."""
        return {**action.reference(), 'action_path': action.folder, 'action_status': self.status(frame)}

    def context_job(self, frame: Frame) -> dict[str, Any]:
        """The context `job`."""
        network = {'network': self.by.network} if self.by and self.by.network else {}
        inside = {'container': {'id': self.container.name, **network}} if self.container else {}
        services = {each.label: each.context for each in self.services}
        number = self.facts.get('check_run_id')
        return {'status': self.status(frame), **inside, 'services': services,
                **({'check_run_id': number} if number else {})}

    def context_runner(self) -> dict[str, Any]:
        """The context `runner`."""
        machine, above = platform.machine(), os.path.dirname(self.workspace)
        return {'os': 'Linux', 'arch': ARCHITECTURES.get(machine, machine), 'name': self.options.name,
                'temp': self.temp, 'tool_cache': self.tool_cache, 'workspace': above, 'environment': 'self-hosted',
                **({'debug': '1'} if self.is_debug() else {})}

    def is_debug(self) -> bool:
        """Whether `::debug::` is shown."""
        name = 'ACTIONS_STEP_DEBUG'
        return 'true' in (self.secrets.get(name), text_of((self.body.get('vars') or {}).get(name)))

    def text(self, value: Any, frame: Frame, env: Mapping[str, str]) -> str:
        """A text of a step with its expressions replaced."""
        return expressions.text_in(value, self.contexts(frame, env), self.workspace, lax=frame.action is not None)

    def texts(self, values: Mapping[str, Any] | None, frame: Frame, env: Mapping[str, str]) -> dict[str, str]:
        """Texts of a step."""
        return {name: self.text(value, frame, env) for name, value in (values or {}).items()}

    def given(self, frame: Frame) -> dict[str, str]:
        """The variables that every step has."""
        contexts = self.contexts(frame)
        values = {name: value for name, value in contexts['github'].items() if name != 'token'}
        return {'CI': 'true', 'GITHUB_ACTIONS': 'true', 'COMBO': self.leg.combo, **variables(self.matrix, 'MATRIX_'),
                **variables(values, 'GITHUB_'), **variables(contexts['runner'], 'RUNNER_')}

    def environment(self, frame: Frame, env: Mapping[str, str], files: Files,
                    inside: container.Place | None = None) -> dict[str, str]:
        """All variables of a step. In a container those of this machine have no place, and in that of an action its
        image says what PATH is."""
        outside = {} if inside else {name: value for name, value in os.environ.items() if name not in HIDDEN}
        made: dict[str, str] = {**outside, **env, **self.given(frame), **files.paths,
                                **({'CI': env['CI']} if 'CI' in env else {})}
        if not inside or self.path and not isinstance(inside, InAction):
            last = made.get('PATH') or (self.container.path if self.container else '')
            made['PATH'] = ':'.join([*reversed(self.path), last])
        return {name: value.replace('\0', '') for name, value in made.items()}

    def status(self, frame: Frame) -> str:
        """How the steps so far ended."""
        return 'cancelled' if self.clock.is_cancelled() else frame.status

    # The job.

    def run(self) -> str:
        """Runs the steps, and gives how the leg ended."""
        self.log.mark(step=1, name='Set up job', begins=True)
        refusals = self.set_up()
        for number, refusal in enumerate(refusals):
            place = place_of(refusal) if number < MAX_LINES else ''
            line = self.storage.line_of(place) if self.storage and place else None
            self.log.refuse(refusal, self.body['path'], line)
        self.log.mark(step=1, ends=True, outcome='failure' if refusals else 'success')
        result = 'failure' if refusals else act.run(self) if self.options.act else self.run_steps()
        self.log.mark(complete=True, result=result)
        return result

    def set_up(self) -> list[str]:
        """Makes what steps need. Gives what can't be done, in words: then no step runs."""
        machine = f'{platform.node()}, {platform.system()} {platform.machine()}'
        self.log.quiet(f'runner {self.options.full_name}, machine {machine}')
        for folder in (self.workspace, self.temp):
            remove(folder)
            os.makedirs(folder)
        for name in (contained.HOME, contained.WORKFLOW):
            os.makedirs(os.path.join(self.temp, name))
        if isinstance(self.storage, FolderStorage):
            self.storage.forget_outputs()
        faults = self.faults()
        if faults:
            return faults
        lacking = sorted(VARIABLES - self.given(self.frame).keys())
        if lacking:
            self.log.quiet(f'no value here: {", ".join(lacking)}')
        with open(self.github['event_path'], 'w', encoding='utf-8') as file:
            json.dump(self.github.get('event') or {}, file)
        try:
            self.begin_containers()
        except ValueError as fault:
            return [f'jobs.{self.name}.{"container" if self.job.get("container") else "services"}: {fault}']
        return list(self.make_images())

    def make_images(self) -> Iterator[str]:
        """Has the images of actions that are not of the workspace made. Gives what can't be, in words."""
        for place, action in self.contained.items():
            try:
                self.uses.images.of(action)
            except Cancelled:
                return
            except (StepFailed, ValueError) as fault:
                yield f'{place}: {fault}'

    def run_steps(self) -> str:
        """Runs the steps of the job, and what actions do before and after them."""
        steps: list[Step] = [{**step, 'state': {}} for step in self.job['steps']]
        for step in steps:
            self.uses.begin(step)
        self.run_all(steps, self.frame)
        for post in reversed(self.uses.posts):
            self.run_numbered(post, self.frame)
        self.number += 1
        self.log.mark(step=self.number, name='Complete job', begins=True)
        result = self.hand_on()
        outcome = 'success' if result == self.status(self.frame) else 'failure'
        self.log.mark(step=self.number, ends=True, outcome=outcome)
        return result

    def hand_on(self) -> str:
        """Keeps the outputs of the job, where there is a place for them. One with a secret in it is left out."""
        if self.job.get('outputs') and self.storage:
            try:
                values = self.texts(self.job['outputs'], self.frame, self.env)
                hidden = {name for name, value in values.items() if self.log.masked(value) != value}
                for name in sorted(hidden):
                    self.log.write(f'the output {name} is left out, since a secret is in it')
                self.storage.keep_outputs({name: value for name, value in values.items() if name not in hidden})
            except (ValueError, OSError, StorageFault) as fault:
                self.log.write(f'the outputs are not kept: {fault}')
                return 'failure'
        return self.status(self.frame)

    def begin_containers(self) -> None:
        """Starts the services of the job, and the container of its steps."""
        said: dict[str, Any] = self.job.get('services') or {}
        if not self.job.get('container') and not said:
            return
        by = self.engine()
        by.make_network()
        for label, value in said.items():
            image = container.described(value).each(lambda text: self.text(text, self.frame, self.env))
            self.services.append(container.Service(by, label, image))
        for service in self.services:
            service.wait(self.clock.is_cancelled)
            self.log.quiet(f'service {service.label}: {service.name} is up')
        if self.job.get('container'):
            image = container.described(self.job['container']).each(lambda text: self.text(text, self.frame, self.env))
            self.container = container.Container(by, image, (self.workspace, self.temp))

    def engine(self) -> container.Engine:
        """docker or podman, for this job."""
        if self.by is None:
            self.by = container.Engine()
        return self.by

    def run_engine(self, *words: str) -> None:
        """Has the engine do something that takes its time, with what it prints in the log."""
        self.log.quiet(f'##[group]{" ".join(words[1:3])}')
        process = Process(words, self.workspace, dict(os.environ), replace(self.listener(), obeys=False))
        outcome = process.wait(self.clock, float('inf'), lambda: False)
        self.log.quiet('##[endgroup]')
        if outcome == 'cancelled':
            raise Cancelled
        if outcome != 'success':
            raise StepFailed(f'{os.path.basename(words[0])} {words[1]} has failed')

    def listener(self, inside: container.Place | None = None) -> Listener:
        """Where what a process prints goes."""
        paths = inside.paths if isinstance(inside, InAction) else Paths(self.workspace)
        return Listener(self.log, self.matchers, paths, self.number, self.is_debug())

    def faults(self) -> list[str]:
        """What can't be done, in words. Nothing has run yet."""
        try:
            faults = act.faults(self) if self.options.act else self.planned()
            if not faults:
                for values in (self.workflow.get('env'), self.job.get('env')):
                    self.env.update(self.texts(values, self.frame, self.env))
                minutes = expressions.value_of(self.job.get('timeout-minutes', MINUTES), self.contexts())
                self.clock = Clock(self.asked, float(minutes))
            return faults
        except (ValueError, TypeError, KeyError, AttributeError) as fault:
            return [f'jobs.{self.name}: not of the form of a job ({fault!r})']

    def planned(self) -> list[str]:
        """What can't be done of the steps, in words."""
        plan = Plan(self)
        plan.of_job(self.job, f'jobs.{self.name}')
        self.contained = plan.contained
        return plan.faults

    def run_all(self, steps: Iterable[Step], frame: Frame) -> None:
        """Runs steps in their order. Those of the job have numbers."""
        for step in steps:
            if self.clock.is_over():
                self.log.quiet('##[warning]the time for steps after a cancel is over')
                break
            if frame is self.frame:
                self.run_numbered(step, frame)
            else:
                self.run_step(step, frame)

    def run_numbered(self, step: Step, frame: Frame) -> dict[str, str]:
        """Runs a step of the job, between its marks, and gives what it came to."""
        self.number += 1
        self.github['action'] = step.get('action') or self.action_of(step)
        self.log.mark(step=self.number, name=self.title(step, frame), begins=True)
        result = self.run_step(step, frame)
        self.log.mark(step=self.number, ends=True, **result)
        return result

    def action_of(self, step: Step) -> str:
        """`github.action`: the id of a step, else `__run` or the name of its action, with a number from the second
        on."""
        if step.get('id'):
            return str(step['id'])
        action = str(step.get('uses') or 'run').partition('@')[0]
        name = '__' + re.sub('[^A-Za-z0-9-]+', '_', action).strip('_')
        self.called[name] += 'part' not in step
        return name if self.called[name] < 2 else f'{name}_{self.called[name]}'

    def title(self, step: Step, frame: Frame) -> str:
        """The name of a step, as GitHub shows it."""
        plain = step.get('name') or 'Run ' + (step.get('uses') or str(step.get('run')).strip().partition('\n')[0])
        try:
            return self.text(plain, frame, self.env)[:500]
        except ValueError:
            return str(plain)[:500]

    def run_step(self, step: Step, frame: Frame) -> dict[str, str]:
        """Runs a step if it is due, and notes what it came to."""
        outputs: dict[str, str] = {}
        outcome = 'skipped'
        try:
            env = {**self.env, **frame.env, **step.get('own', {})}
            env.update(self.texts(step.get('env'), frame, env))
            if self.is_due(step, frame, env, self.status(frame)):
                outcome = self.perform(step, frame, env, outputs)
        except Cancelled:
            outcome = 'cancelled'
        except Exception as fault:  # of whatever kind, it is this step's alone
            self.log.write(f'the step fails: {fault}')
            self.log.annotate(annotation('error', f'the step fails: {fault}'), self.number)
            outcome = 'failure'
        conclusion = 'success' if outcome == 'failure' and self.is_allowed(step, frame) else outcome
        if conclusion == 'failure' and frame.status == 'success':
            frame.status = 'failure'
        if step.get('id'):
            frame.steps[step['id']] = {'outputs': outputs, 'outcome': outcome, 'conclusion': conclusion}
        return {'outcome': outcome, 'conclusion': conclusion}

    def is_due(self, step: Step, frame: Frame, env: Mapping[str, str], status: str) -> bool | None:
        """Whether a step runs after steps that ended so."""
        contexts, lax = self.contexts(frame, env), frame.action is not None or 'part' in step
        return expressions.condition_of(step.get('if', ''), contexts, status, self.workspace, lax)

    def is_allowed(self, step: Step, frame: Frame) -> bool:
        """Whether the step may fail."""
        with contextlib.suppress(ValueError):
            return self.text(step.get('continue-on-error', False), frame, self.env) == 'true'
        return False

    def perform(self, step: Step, frame: Frame, env: dict[str, str], outputs: dict[str, str]) -> str:
        """What a step came to. Sets its outputs."""
        folder = self.step_folder()
        self.github.update(self.files_of(folder))
        step = {**step, 'late': self.late_of(step, frame, env), 'frame': frame}
        if 'run' in step:
            return self.run_script(step, frame, env, outputs, folder)
        if 'part' in step:
            return self.uses.run_part(step, env, outputs, folder)
        if 'after' in step:
            after: Post = step['after']
            after(self, self.caller(step, frame, env, folder))
            return 'success'
        builtin = builtin_of(step['uses'], self.options)
        if not builtin:
            return self.uses.run(step, frame, env, outputs)
        given = self.texts(builtin.taken(step.get('with') or {}), frame, env)
        outputs.update(builtin.run(self, given, self.caller(step, frame, env, folder)))
        post = builtin.post(self, given, outputs)
        if post:
            self.uses.posts.append({'name': f'Post {self.title(step, frame)}', 'if': 'success()', 'after': post})
        return 'success'

    def step_folder(self) -> str:
        """A folder for the files of one step."""
        self.count += 1
        folder = os.path.join(self.temp, f'step-{self.count}')
        os.makedirs(folder)
        return folder

    def late_of(self, step: Step, frame: Frame, env: Mapping[str, str]) -> float:
        """Until when a step may run."""
        minutes = expressions.value_of(step.get('timeout-minutes'), self.contexts(frame, env))
        return time.monotonic() + 60 * float(minutes) if minutes is not None else float('inf')

    # Processes.

    def spawn(self, words: Sequence[str], place: str, step: Step, frame: Frame, env: dict[str, str],
              inside: container.Place | None = None) -> tuple[str, Process]:
        """Runs a process to its end, and gives how it ended."""
        if not os.path.isdir(place):
            raise StepFailed(f'there is no folder {place}')
        process = Process(words, place, env, self.listener(inside), inside)
        return process.wait(self.clock, step['late'], lambda: self.is_due(step, frame, env, 'cancelled')), process

    def caller(self, step: Step, frame: Frame, env: dict[str, str], folder: str) -> Call:
        """Runs processes of an action that this runner does itself."""
        def call(*words: str, cwd: str) -> None:
            given = {**self.environment(frame, env, Files(folder)), 'GIT_TERMINAL_PROMPT': '0'}
            outcome, _ = self.spawn(words, cwd, step, frame, given)
            if outcome == 'cancelled':
                raise Cancelled
            if outcome != 'success':
                raise StepFailed(' '.join(words[:2]) + ' has failed')
        return call

    def run_script(self, step: Step, frame: Frame, env: dict[str, str], outputs: dict[str, str], folder: str) -> str:
        """Runs a step of `run`."""
        shell = self.text(step.get('shell', None if frame.action else self.shell), frame, env) or None
        words = shell_words(shell, inside=self.container is not None)
        text = self.text(step['run'], frame, env)
        script = os.path.join(folder, 'script' + ENDINGS.get(shell or '', '.sh'))
        with open(script, 'w', encoding='utf-8') as file:
            file.write(text + '\n')
        self.announce(text, words, step, env)
        default = None if frame.action else self.defaults.get('working-directory')
        place = self.text(step.get('working-directory', default) or '.', frame, env)
        words = [word.replace('{0}', script) for word in words]
        return self.run_process(words, place, step, frame, env, outputs, folder)

    def announce(self, text: str, words: Sequence[str], step: Step, env: Mapping[str, str]) -> None:
        """Writes what is run, as GitHub's logs have it."""
        lines = text.strip('\n').split('\n')
        self.log.quiet(f'##[group]Run {lines[0]}')
        for line in lines:
            self.log.quiet(line)
        self.log.quiet(f'shell: {" ".join(words)}')
        if step.get('env'):
            self.log.quiet('env:')
            for name in step['env']:
                self.log.quiet(f'  {name}: {env.get(name, "")}')
        self.log.quiet('##[endgroup]')

    def run_process(self, words: Sequence[str], place: str, step: Step, frame: Frame, env: dict[str, str],
                    outputs: dict[str, str], folder: str, inside: container.Place | None = None) -> str:
        """Runs the process of a step, in the container of the job if there is no other one, and takes what it hands
        on."""
        files = Files(folder)
        if self.container and not inside:
            inside = container.InJob(self.container, os.path.join(folder, 'process'))
        env = self.environment(frame, env, files, inside)
        outcome, process = self.spawn(words, os.path.normpath(os.path.join(self.workspace, place)), step, frame, env,
                                      inside)
        if outcome == 'failure':
            self.fail('The step is over its time limit.' if process.why else
                      f'Process completed with exit code {process.child.returncode}.')
        summary = files.text('GITHUB_STEP_SUMMARY')
        if summary:
            self.log.summarize(summary, self.number)
        handed_on = process.reader.handed_on
        outputs.update({**handed_on.outputs, **files.values('GITHUB_OUTPUT')})
        step.get('state', {}).update({**handed_on.state, **files.values('GITHUB_STATE')})
        self.set_variables(files.values('GITHUB_ENV'))
        self.path += [line for line in files.text('GITHUB_PATH').splitlines() if line]
        return 'failure' if outcome == 'success' and handed_on.faults else outcome

    def fail(self, words: str) -> None:
        """Says why a step fails, as GitHub does."""
        self.log.quiet(f'##[error]{words}')
        self.log.annotate(annotation('error', words), self.number)

    def set_variables(self, new: Mapping[str, str]) -> None:
        """Sets variables for the steps to come. The default ones stay, and that by which every action of node could be
        changed fails the step, as at GitHub."""
        if 'NODE_OPTIONS' in map(str.upper, new):
            raise StepFailed("GITHUB_ENV can't set NODE_OPTIONS")
        for name in sorted(new.keys() & (VARIABLES - {'CI'})):
            self.log.write(f'##[warning]GITHUB_ENV does not change {name}, which is a default variable')
        self.env.update({name: value for name, value in new.items() if name not in VARIABLES or name == 'CI'})

    # Actions.

def place_of(refusal: str) -> str:
    """The place of the workflow that a refusal is about: of something in an action the step that uses it."""
    found = re.match(r'(?:the workflow\.)?((?:jobs|env|defaults|permissions)\b[^ :]*)', refusal)
    return found[1] if found else ''


def log_of(options: Options, leg: Held, facts: Mapping[str, Any], secrets_of_it: Iterable[str] = ()) -> Log:
    """The log of a leg."""
    name = f'run-{leg.run}-{leg.job}-{leg.leg}-lease-{leg.lease}'
    whose = {'run': leg.run, 'attempt': facts.get('attempt'), 'job': leg.job, 'leg': leg.leg, 'lease': leg.lease,
             'claim': leg.claim} if options.hub else None
    path = unused(options.logs or os.path.abspath('logs'), name, options.logs_kept)
    return Log(path, options.log_bytes, secrets_of_it, whose)


def refused(order: dict[str, Any], fault: Exception) -> str:
    """A leg that can't even be looked at: it says why in its log."""
    words = str(fault) if isinstance(fault, (ValueError, OSError)) else f'not of the form of a job ({fault!r})'
    try:
        log = log_of(Options.of(order['options']), Held(**order['leg']), order.get('facts') or {})
        log.mark(step=1, name='Set up job', begins=True)
        log.refuse(words)
        log.mark(step=1, ends=True, outcome='failure')
        log.mark(complete=True, result='failure')
    except OSError as full:
        print(f'not run: {words}; and there is no log: {full}', file=sys.stderr, flush=True)
    return 'failure'


def run(order: dict[str, Any], asked: Sequence[float]) -> str:
    """How the leg ended."""
    try:
        job = Job(order, asked)
    except (ValueError, KeyError, TypeError, AttributeError, OSError) as fault:
        return refused(order, fault)
    try:
        return job.run()
    except Exception as fault:
        job.log.write(f'the runner fails: {fault!r}')
        raise
    finally:
        if job.storage:
            job.storage.close()
        job.matchers.close()
        if job.container:
            job.container.empty(job.workspace)
        container.remove_left()
