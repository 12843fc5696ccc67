"""What a step prints: its lines go into the log, commands in them are carried out, and matchers look for problems."""
from __future__ import annotations

import os
import threading
from dataclasses import dataclass, field
from typing import IO

from .commands import NAMES, Command, annotation, annotation_of, command_in
from .logs import Log
from .matchers import BadMatcher, Matchers, Problem, matchers_of
from .paths import Paths

LONGEST_LINE = 1 << 20
NOT_ECHOED = {'add-mask', 'debug', 'error', 'notice', 'warning'}  # which are in the log in another form, or must not be


@dataclass(frozen=True)
class Listener:
    """Where what a step prints goes: the log of the leg, the matchers of its job, and how paths in it are meant. What
    is no step's is written alone, and no command in it is obeyed."""

    log: Log
    matchers: Matchers
    paths: Paths
    step: int | None = None
    debug: bool = False
    obeys: bool = True


@dataclass
class HandedOn:
    """What a step has handed on by what it printed."""

    outputs: dict[str, str] = field(default_factory=dict)
    state: dict[str, str] = field(default_factory=dict)
    faults: int = 0


class Reader(threading.Thread):
    """Reads what a step prints. It goes on while something that the step has left running may print."""

    def __init__(self, pipe: IO[bytes], to: Listener) -> None:
        super().__init__(daemon=True)
        self.pipe, self.to, self.log = pipe, to, to.log
        self.handed_on, self.echoes = HandedOn(), to.debug
        self.paused = ''
        self.start()

    def run(self) -> None:
        """Takes what comes, by whole lines."""
        held = b''
        while data := self.read():
            *lines, held = (held + data).split(b'\n')
            if len(held) > LONGEST_LINE:
                lines, held = [*lines, held], b''
            self.take([line.decode(errors='replace').rstrip('\r') for line in lines])
        if held:
            self.take([held.decode(errors='replace')])

    def read(self) -> bytes:
        """What there is; nothing at the end."""
        try:
            return os.read(self.pipe.fileno(), 1 << 16)
        except (OSError, ValueError):
            return b''

    def take(self, lines: list[str]) -> None:
        """Writes lines, or carries them out."""
        if not self.to.obeys:
            for line in lines:
                self.log.write(line)
            return
        plain: list[str] = []
        for line in lines:
            command = command_in(line)
            if self.paused and command and command.name == self.paused:
                self.paused = ''
            elif self.paused or not command or command.name not in NAMES:
                plain.append(line)
            else:
                self.write(plain)
                plain = []
                if self.echoes and command.name not in NOT_ECHOED:
                    self.log.write(line)
                self.carry_out(command)
        self.write(plain)

    def write(self, lines: list[str]) -> None:
        """Writes lines. One in which there is a problem begins with its severity, and is an annotation."""
        for line, problem in zip(lines, self.to.matchers.look(lines)):
            if problem:
                self.log.write(f'##[{problem.severity}]{problem.line}')
                self.log.annotate(annotation(problem.severity, problem.found['message'], path=self.file_of(problem),
                                             start_line=problem.number('line'),
                                             start_column=problem.number('column')), self.to.step)
            else:
                self.log.write(line)

    def file_of(self, problem: Problem) -> str:
        """The file of a problem, if it is one of the workspace."""
        paths = self.to.paths
        path = paths.outside(problem.file) if problem.file.strip() else ''
        return paths.of_repository(path) if paths.has(path) and os.path.isfile(path) else ''

    def carry_out(self, command: Command) -> None:
        """Does what a command says, and writes what GitHub's log has of it."""
        name, value, named = command.name, command.value, command.properties.get('name', '')
        noted = annotation_of(command, self.to.paths.of_repository)
        if noted:
            self.log.write(f'##[{name}]{value}')
            self.log.annotate(noted, self.to.step)
        elif name == 'add-mask':
            if value.strip():
                self.log.mask(value)
        elif name in ('group', 'endgroup') or name == 'debug' and self.to.debug:
            self.log.write(f'##[{name}]{value}')
        elif name == 'echo':
            self.echo(value)
        elif name == 'stop-commands':
            self.paused = value.lower()
        elif name == 'set-output':
            self.handed_on.outputs[named] = value
        elif name == 'save-state':
            self.handed_on.state[named] = value
        elif name in ('add-matcher', 'remove-matcher'):
            self.match(command)
        elif name in ('set-env', 'add-path'):
            file = 'GITHUB_ENV' if name == 'set-env' else 'GITHUB_PATH'
            self.fault(f'the command {name} is disabled: write to ${file}')

    def fault(self, words: str) -> None:
        """A command that can't be carried out fails its step."""
        self.handed_on.faults += 1
        self.log.write(f'##[error]{words}')
        self.log.annotate(annotation('error', words), self.to.step)

    def echo(self, value: str) -> None:
        """Whether commands are in the log from now on."""
        if value.strip().lower() in ('on', 'off'):
            self.echoes = value.strip().lower() == 'on'
        else:
            self.fault(f'::echo:: is on or off, and not {value}')

    def match(self, command: Command) -> None:
        """Adds the matchers of a file, or removes those of an owner or a file."""
        path, owner = command.value.strip(), command.properties.get('owner', '')
        removes = command.name == 'remove-matcher'
        if bool(path) == (removes and bool(owner)):
            self.log.write(f'##[warning]{command.name} names {"either an owner or a file" if removes else "a file"}')
            return
        try:
            if owner and removes:
                self.to.matchers.remove([owner])
                return
            found = matchers_of(self.to.paths.outside(path))
            if removes:
                self.to.matchers.remove([each['owner'] for each in found])
            else:
                self.to.matchers.add(found)
        except BadMatcher as fault:
            self.fault(f'{command.name} {path}: {fault}')
