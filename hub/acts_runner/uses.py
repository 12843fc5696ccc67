"""The actions that the steps of a job use: their inputs, their parts before and after the steps of the job, and how
each kind of them runs."""
from __future__ import annotations

import os
from typing import TYPE_CHECKING, Mapping

from . import contained
from .actions import Action
from .builtin import builtin_of
from .contained import InAction
from .frames import Frame, Step
from .paths import Paths
from .plan import Plan
from .steps import StepFailed

if TYPE_CHECKING:
    from .job import Job


class Uses:
    """The actions of a job. `posts` are the steps that run after those of the job, the last one first."""

    def __init__(self, job: Job) -> None:
        self.job, self.posts = job, list[Step]()
        self.images = contained.Images(job.temp, job.engine, job.run_engine)

    def inputs_of(self, action: Action, given: dict[str, str], env: Mapping[str, str]) -> dict[str, str]:
        """The inputs of an action: those that are given, else their defaults."""
        names = {name.lower(): value for name, value in given.items()}
        inner = Frame({}, action)
        said = {name: value if isinstance(value, dict) else {} for name, value in action.inputs.items()}
        defaults = {name: self.job.text(value.get('default', ''), inner, env) for name, value in said.items()}
        missing = [name for name, value in said.items() if str(value.get('required')).lower() == 'true'
                   and not names.get(name.lower(), defaults[name])]
        if missing:
            self.job.log.write(f'{action.uses}: no input {", ".join(missing)}')
        known = {name: names[name.lower()] for name in defaults if name.lower() in names}
        return {**given, **defaults, **known}

    def begin(self, step: Step) -> None:
        """Runs what the action of a step of the job does before all of these. One of the workspace is not there yet."""
        if 'uses' not in step or step['uses'].startswith('./'):
            return
        try:
            action = None if builtin_of(step['uses'], self.job.options) else Action.of(self.job, step['uses'])
        except ValueError:
            return  # which the step itself will say
        if action is None or action.using == 'composite' or not action.part('pre'):
            return
        step['has_begun'] = True
        before = self.part(action, 'pre', step, self.job.frame)
        if self.job.run_numbered(before, self.job.frame)['outcome'] != 'skipped':
            self.clean_up(action, step, self.job.frame)

    def part(self, action: Action, part: str, step: Step, frame: Frame) -> Step:
        """A part of the action of a step, as a step of its own."""
        return {'name': f'{part.capitalize()} {self.job.title(step, frame)}', 'uses': step['uses'], 'of': action,
                'part': part, 'if': action.runs.get(f'{part}-if', 'always()'), 'env': step.get('env'),
                'with': step.get('with'), 'state': step['state']}

    def clean_up(self, action: Action, step: Step, frame: Frame) -> None:
        """Has the last part of an action run after the steps of the job."""
        if 'post' not in step and action.part('post'):
            step['post'] = self.part(action, 'post', step, frame)
            self.posts.append(step['post'])

    def run(self, step: Step, frame: Frame, env: dict[str, str], outputs: dict[str, str]) -> str:
        """Runs the action of a step, and has its last part run later, with the same inputs and variables."""
        action, job = Action.of(self.job, step['uses']), self.job
        if action.is_local:
            faults = Plan.of_one(job, action)
            if faults:
                raise StepFailed('; '.join(faults))
        given = job.texts(step.get('with'), frame, env)
        own = {name: value for name, value in env.items() if job.env.get(name) != value}
        if action.using == 'composite':
            return self.composite(action, Frame(self.inputs_of(action, given, env), action, env=own), env, outputs)
        step = {'state': {}, **step}
        before, main = (self.part(action, part, step, frame) for part in ('pre', 'main'))
        same = {'given': given, 'own': own, 'env': {}}
        if action.part('pre') and not action.is_local and 'has_begun' not in step \
                and job.is_due(before, frame, env, job.status(frame)):
            job.perform({**before, **same}, frame, env, {})
        self.clean_up(action, step, frame)
        step.get('post', {}).update(same)
        more = {'if': step.get('if', ''), 'timeout-minutes': step.get('timeout-minutes')}
        return job.perform({**main, **same, **more}, frame, env, outputs)

    def composite(self, action: Action, inner: Frame, env: Mapping[str, str], outputs: dict[str, str]) -> str:
        """Runs the steps of an action."""
        self.job.run_all(action.runs['steps'], inner)
        outputs.update({name: self.job.text(value, inner, env) for name, value in action.outputs().items()})
        return self.job.status(inner)

    def run_part(self, step: Step, env: dict[str, str], outputs: dict[str, str], folder: str) -> str:
        """Runs a part of an action of node or of one in a container: its first, its main or its last one."""
        action: Action = step['of']
        given = step['given'] if 'given' in step else self.job.texts(step['with'], self.job.frame, env)
        inputs = self.inputs_of(action, given, env)
        env = {**env, **{'INPUT_' + name.replace(' ', '_').upper(): value for name, value in inputs.items()},
               **{f'STATE_{name}': value for name, value in step['state'].items()}}
        if action.using == 'docker':
            call = contained.Call.of(action, step['part'], inputs, given)
            return self.in_container(call, step, env, outputs, folder)
        words = ['node', os.path.join(action.folder, action.part(step['part']))]
        return self.job.run_process(words, '.', step, Frame({}, action), env, outputs, folder)

    def in_container(self, call: contained.Call, step: Step, env: dict[str, str], outputs: dict[str, str],
                     folder: str) -> str:
        """Runs a part of an action in a container of its own, over the workspace, with the files of the step."""
        action, job = step['of'], self.job
        image = self.images.of(action, again=action.is_local and step['part'] == 'main')
        paths = Paths(job.workspace, contained.mounts(job.temp, job.workspace, folder))
        env = {**call.env, **env, 'HOME': os.path.join(job.temp, contained.HOME)}
        inside = InAction.of(job.engine(), image, call.entrypoint, paths)
        return job.run_process(call.words, '.', step, Frame({}, action), env, outputs, folder, inside)
