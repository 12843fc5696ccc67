"""What a runner can't do of a job: said before the first step runs."""
from __future__ import annotations

import contextlib
import os
import re
import shutil
from typing import TYPE_CHECKING, Any, Mapping

from acts_workflow.members import JOB, REQUIRED, STEP
from acts_workflow.values import Unknown

from . import contained, container, expressions
from .actions import Action
from .builtin import builtin_of
from .builtin.base import UNKNOWN
from .documented import AVAILABLE, OF_SERVICES, PERMISSIONS, VARIABLES
from .steps import StepFailed, shell_words

if TYPE_CHECKING:
    from .job import Job

TEXTS = 'run', 'with', 'env', 'working-directory', 'continue-on-error'
DEPTH = 10  # of actions that use actions
MAX_SERVICES = 20
VARIABLE = re.compile('(?:GITHUB|RUNNER|ACTIONS)_[A-Z_]+')


class Plan:
    """`faults` are the things that can't be done, each with its place; `contained` the actions whose images are made
    before the first step, by their places."""

    def __init__(self, job: Job) -> None:
        self.job, self.faults, self.contained = job, list[str](), dict[str, Action]()
        rest = {name: Unknown() for name in ('env', 'steps', 'job', 'runner')}
        self.contexts: dict[str, Any] = {**job.contexts(), **rest}
        self.lacking = (VARIABLES - job.given(job.frame).keys()) | OF_SERVICES

    @classmethod
    def of_all(cls, job: Job) -> list[str]:
        """What can't be done of a job."""
        plan = cls(job)
        plan.of_job(job.job, f'jobs.{job.name}')
        return plan.faults

    @classmethod
    def of_one(cls, job: Job, action: Action) -> list[str]:
        """What can't be done of an action of the workspace, which may be another one than that of the mirror."""
        plan = cls(job)
        plan.of_action(action, action.uses, 0)
        return plan.faults

    def fault(self, place: str, words: object) -> None:
        """Notes what can't be done."""
        self.faults.append(f'{place}: {words}')

    def value(self, place: str, text: Any, key: str, lax: bool = False) -> Any:
        """The value of a text as far as it is known, or a fault. The key says which contexts there are."""
        try:
            expressions.check(text, key)
            if key == 'runs.steps' and 'token' not in self.job.github and expressions.names(text, 'github', 'token'):
                raise ValueError(f'github.token has no value here, in {text.strip()[:200]}')
            return expressions.value_of(text, self.contexts, folder=self.job.workspace, lax=lax)
        except ValueError as fault:
            self.fault(place, fault)
            return None

    def texts(self, place: str, value: Any, key: str, lax: bool = False) -> None:
        """Looks at all texts in a value."""
        if isinstance(value, dict):
            for name, item in value.items():
                inner = f'{key}.{name}'
                self.texts(f'{place}.{name}', item, inner if inner in AVAILABLE else key, lax)
        elif isinstance(value, list):
            for number, item in enumerate(value):
                self.texts(f'{place}[{number}]', item, key, lax)
        else:
            self.value(place, value, key, lax)

    def of_objects(self, members: Mapping[str, Any], place: str) -> None:
        """Members that have to be objects."""
        for name in ('env', 'with', 'defaults', 'outputs', 'services'):
            if not isinstance(members.get(name) or {}, dict):
                self.fault(f'{place}.{name}', 'it is no object')

    def of_job(self, job: Mapping[str, Any], place: str) -> None:
        """A job with all that is in it."""
        self.of_objects(self.job.workflow, 'the workflow')
        self.of_objects(job, place)
        for name in sorted(job.keys() - JOB - {REQUIRED}):
            self.fault(f'{place}.{name}', 'this runner does not do it')
        for name, key in (('env', 'jobs.env'), ('defaults', 'jobs.defaults.run'), ('outputs', 'jobs.outputs')):
            self.texts(f'{place}.{name}', job.get(name), key)
        self.texts('env', self.job.workflow.get('env'), 'env')
        self.of_permissions(job, place)
        self.of_secrets(job, place)
        self.of_environment(job.get('environment'), f'{place}.environment')
        self.of_minutes(job, place, 'jobs.timeout-minutes')
        self.of_containers(job, place)
        if not isinstance(job.get('steps'), list) or not job['steps']:
            self.fault(f'{place}.steps', 'there are none')
        else:
            self.of_steps(job['steps'], f'{place}.steps', self.job.shell, 0)

    def of_permissions(self, job: Mapping[str, Any], place: str) -> None:
        """Permissions that are of no use without a service that only GitHub has."""
        where, said = (f'{place}.', job) if 'permissions' in job else ('', self.job.workflow)
        given = said.get('permissions')
        for name, what in PERMISSIONS.items():
            if isinstance(given, dict) and given.get(name) == 'write':
                self.fault(f'{where}permissions.{name}', f'{what} is a service of GitHub\'s, and not here')

    def of_secrets(self, job: Mapping[str, Any], place: str) -> None:
        """The secrets that a called workflow requires, of a call that passes on all: those of an environment are none of
        them, as at GitHub."""
        for name in job.get(REQUIRED) or ():
            if str(name).upper() not in self.job.inherited:
                self.fault(place, f'the called workflow requires the secret {name}, which this runner does not have')

    def of_environment(self, environment: Any, place: str) -> None:
        """The environment of a job, which the operator or an approval has to free."""
        said = environment if isinstance(environment, dict) else {'name': environment}
        name = self.value(place, said.get('name'), 'jobs.environment')
        self.value(f'{place}.url', said.get('url'), 'jobs.environment.url')
        if not environment or self.job.facts.get('is_approved') or name in self.job.options.environment:
            return
        if not isinstance(name, str) or name.lower() not in (self.job.facts.get('free_environments') or ()):
            self.fault(place, f'nobody has said by --environment that {name} is free of approvals')

    def of_containers(self, job: Mapping[str, Any], place: str) -> None:
        """The container of a job, and its services."""
        said = {f'{place}.services.{name}': value for name, value in (job.get('services') or {}).items()} \
            if isinstance(job.get('services') or {}, dict) else {}
        if len(said) > MAX_SERVICES:
            self.fault(f'{place}.services', f'over {MAX_SERVICES}')
        if job.get('container'):
            said = {f'{place}.container': job['container'], **said}
        for where, value in said.items():
            self.texts(where, value, 'jobs.container')
            try:
                container.described(value)
            except ValueError as fault:
                self.fault(where, fault)
            if not re.fullmatch('[A-Za-z0-9_-]{1,63}', where.rpartition('.')[2]):
                self.fault(where, 'it is no name of a host')
        if said and not container.engine():
            self.fault(next(iter(said)), 'neither docker nor podman answers here')

    def of_minutes(self, members: Mapping[str, Any], place: str, key: str) -> None:
        """A time limit."""
        minutes = self.value(f'{place}.timeout-minutes', members.get('timeout-minutes'), key)
        if isinstance(minutes, (str, bool)) or isinstance(minutes, (int, float)) and minutes <= 0:
            self.fault(f'{place}.timeout-minutes', f'{minutes} is no number of minutes')

    def of_steps(self, steps: list[Any], place: str, shell: Any, depth: int, lax: bool = False) -> None:
        """Steps of a job or an action."""
        for number, step in enumerate(steps):
            if isinstance(step, dict):
                self.of_step(step, f'{place}[{number}]', shell, depth, lax)
            else:
                self.fault(f'{place}[{number}]', 'it is no object')

    def of_step(self, step: dict[str, Any], place: str, shell: Any, depth: int, lax: bool) -> None:
        """A step."""
        key = 'runs.steps' if lax else 'jobs.steps'
        self.of_members(step, place)
        self.of_name(step.get('name'), f'{place}.name', key)
        self.texts(place, self.texts_of(step), key, lax)
        self.of_minutes(step, place, key)
        self.of_condition(step.get('if', ''), f'{place}.if', lax)
        if ('run' in step) == ('uses' in step):
            self.fault(place, 'it has to have either `run` or `uses`')
        elif isinstance(step.get('run'), (dict, list)) or not step.get('run', True):
            self.fault(f'{place}.run', 'it is no text')
        elif 'run' in step:
            self.of_shell(self.value(f'{place}.shell', step.get('shell', shell), key, lax), place)
            self.of_variables(step, f'{place}.run')
        else:
            self.of_uses(step, place, key, depth)

    def texts_of(self, step: dict[str, Any]) -> dict[str, Any]:
        """The members of a step in which expressions are replaced, without inputs that change nothing here."""
        kept = {name: value for name, value in step.items() if name in TEXTS}
        with contextlib.suppress(ValueError):
            builtin = builtin_of(str(step.get('uses')), self.job.options)
            if builtin and isinstance(kept.get('with'), dict):
                kept['with'] = builtin.taken(kept['with'])
        return kept

    def of_members(self, step: dict[str, Any], place: str) -> None:
        """The members of a step, and of which kind they are."""
        for name in sorted(step.keys() - STEP):
            self.fault(f'{place}.{name}', 'this runner does not do it')
        self.of_objects(step, place)
        for name in ('id', 'uses', 'shell', 'working-directory'):
            if name in step and not isinstance(step[name], str):
                self.fault(f'{place}.{name}', 'it is no text')
        if isinstance(step.get('id'), str) and not re.fullmatch('[A-Za-z_][A-Za-z0-9_-]*', step['id']):
            self.fault(f'{place}.id', 'it is no name')

    def of_name(self, name: Any, place: str, key: str) -> None:
        """The name of a step, in which a value may lack."""
        try:
            expressions.check(name, key)
        except ValueError as fault:
            self.fault(place, fault)

    def of_condition(self, condition: Any, place: str, lax: bool) -> None:
        """The condition of a step."""
        try:
            expressions.check(condition, 'runs.steps' if lax else 'jobs.steps.if', is_condition=True)
            expressions.condition_of(condition, self.contexts, 'success', self.job.workspace, lax)
        except ValueError as fault:
            self.fault(place, fault)

    def of_variables(self, step: dict[str, Any], place: str) -> None:
        """Variables that the documentation promises to a script, that it names, and that have no value here."""
        own = [of.get('env') for of in (step, self.job.job, self.job.workflow)]
        given = {name for env in own if isinstance(env, dict) for name in env}
        for name in sorted(self.lacking & set(VARIABLE.findall(str(step['run']))) - given):
            self.fault(place, f'{name} has no value here')

    def of_shell(self, shell: Any, place: str) -> None:
        """The shell of a step."""
        if isinstance(shell, Unknown):
            return
        try:
            if not isinstance(shell, (str, type(None))):
                raise ValueError('it is no text')
            shell_words(shell, inside=bool(self.job.job.get('container')))
        except ValueError as fault:
            self.fault(f'{place}.shell', fault)

    def of_uses(self, step: dict[str, Any], place: str, key: str, depth: int) -> None:
        """The action of a step."""
        if not isinstance(step['uses'], str):
            return
        try:
            builtin = builtin_of(step['uses'], self.job.options)
            if builtin:
                said = step['with'] if isinstance(step.get('with'), dict) else {}
                given = {name: self.value(f'{place}.with.{name}', value, key)
                         for name, value in builtin.taken(said).items()}
                builtin.check(self.job, {name: UNKNOWN if isinstance(value, Unknown) else value
                                         for name, value in given.items()})
            else:
                self.of_action(Action.of(self.job, step['uses']), f'{place} ({step["uses"]})', depth)
        except (ValueError, StepFailed) as fault:
            self.fault(f'{place}.uses', fault)

    def of_action(self, action: Action, place: str, depth: int) -> None:
        """An action, with those that it uses."""
        if depth == DEPTH:
            self.fault(place, f'over {DEPTH} actions use one another')
            return
        for name, said in action.inputs.items():
            if isinstance(said, dict):
                self.value(f'{place}.inputs.{name}.default', said.get('default'), 'inputs.default', lax=True)
        if action.using == 'composite':
            given, self.contexts = self.contexts, {**self.contexts, 'inputs': Unknown()}
            self.of_steps(action.runs['steps'], place, None, depth + 1, lax=True)
            self.texts(f'{place}.outputs', action.outputs(), 'outputs.value', lax=True)
            self.contexts = given
        elif action.using == 'docker':
            self.of_contained(action, place)
        elif not re.fullmatch('node[0-9]+', action.using):
            self.fault(place, f'this runner has no actions of {action.using}')
        elif self.job.job.get('container'):
            self.fault(place, 'this runner runs no action of node in a container')
        elif not shutil.which('node'):
            self.fault(place, 'node is not installed')
        else:
            self.of_files(action, place)

    def of_contained(self, action: Action, place: str) -> None:
        """An action that runs in a container of its own."""
        for words in contained.faults_of(action, (self.job.temp, self.job.workspace)):
            self.fault(place, words)
        if not container.engine():
            self.fault(place, 'neither docker nor podman answers here')
        elif not action.is_local:
            self.contained[place] = action

    def of_files(self, action: Action, place: str) -> None:
        """The files that an action of node runs."""
        for name in ('pre', 'main', 'post'):
            said = action.runs.get(name)
            if name != 'main' and said is None:
                continue
            if not isinstance(said, str) or not os.path.isfile(os.path.join(action.folder, said)):
                self.fault(place, f'its {name} is not there: {said}')
