"""acts-hub check FILE: what would become of a workflow, before it is pushed."""
from __future__ import annotations

import argparse
import pathlib
import subprocess
import sys
from typing import Any

from acts_runner.options import Options

from ..config import ConfigError, config_of, read_config
from ..events.checking import Checker, CheckError
from ..events.mirrors import LONGEST_FILE, REF
from ..events.settings import WAYS, NotReadable, Repository, Settings, settings_of

NAMES = 'a name of an environment with `=free` or `=approval`'


def add(parsers: Any) -> None:
    """Adds the command."""
    parser = parsers.add_parser('check', help='judge a workflow before it is pushed')
    parser.add_argument('file', type=pathlib.Path, metavar='FILE')
    parser.add_argument('--program', default='acts', help='the program of the service (acts)')
    parser.add_argument('--config', type=pathlib.Path, metavar='FILE', help="the hub's configuration")
    parser.add_argument('--repository', default='octo/hello', metavar='OWNER/NAME', help='the repository (octo/hello)')
    parser.add_argument('--ref', help='the branch or tag, such as refs/heads/main (the branch that is checked out)')
    parser.add_argument('--vars', type=pathlib.Path, metavar='FILE', help='variables of repositories, as a JSON object')
    parser.add_argument('--environment', action='append', default=[], metavar='NAME=WAY', help=NAMES)
    parser.add_argument('--pull-request-target', action='store_true', help='the operator allows pull_request_target')
    parser.add_argument('--no-runner', action='store_true', help='leave out what a runner would refuse')
    parser.add_argument('--mirrors', metavar='FOLDER', help="the runner's mirrors, for actions/checkout")
    parser.add_argument('--actions', metavar='FOLDER', help="the runner's mirrors of actions")
    parser.add_argument('--secrets', metavar='FILE', help="the runner's file of secrets")
    parser.set_defaults(run=run)


def run(given: argparse.Namespace) -> int:
    """Prints what is found; the status is 1 if a fault is."""
    try:
        checker = checker_of(given)
        findings = checker.findings()
    except (ConfigError, CheckError, NotReadable, OSError, UnicodeDecodeError) as fault:
        print(f'acts-hub: {fault}', file=sys.stderr)
        return 2
    for finding in findings:
        print(finding.text(checker.path))
    faults = sum(finding.fault for finding in findings)
    print(f'{faults or "no"} {"faults" if faults > 1 else "fault"}, on {checker.ref}')
    return 1 if faults else 0


def checker_of(given: argparse.Namespace) -> Checker:
    """What is judged, by the command line."""
    path = given.file.resolve()
    folder = next((above for above in path.parents if (above / '.git').exists()), path.parent)
    ref = given.ref or f'refs/heads/{branch_of(folder) or "main"}'
    if not REF.fullmatch(ref):
        raise CheckError(f'{ref} is no full name of a branch or tag, such as refs/heads/main')
    settings, repository = repository_of(given)
    variables = settings.variables(repository.name) if given.vars is None else variables_of(given.vars, repository.name)
    name = str(path.relative_to(folder))
    texts = {name: read(path)}
    for other in sorted((folder / '.github/workflows').glob('*.y*ml')):
        if other.is_file() and not other.is_symlink():
            texts.setdefault(str(other.relative_to(folder)), read(other))
    runner = Options(name='check', labels='check', mirrors=given.mirrors, actions=given.actions,
                     secrets=given.secrets, environment=tuple(repository.environments))
    return Checker(folder, name, ref, repository, variables, given.program, None if given.no_runner else runner, texts)


def read(path: pathlib.Path) -> str:
    """The text of a file that is not too long."""
    with open(path, 'rb') as file:
        return file.read(LONGEST_FILE + 1).decode(errors='replace')


def repository_of(given: argparse.Namespace) -> tuple[Settings, Repository]:
    """The settings, and what they say of the repository, with what the command line adds."""
    config = read_config(given.config) if given.config else config_of({'repository': [{'name': given.repository}]})
    settings = settings_of(config)
    found = settings.repository(given.repository)
    if found is None:
        raise ConfigError(f'{given.repository} is not in {given.config}')
    environments = dict(found.environments)
    for text in given.environment:
        name, _, way = text.partition('=')
        if not name or way not in WAYS:
            raise ConfigError(f'--environment {text}: {NAMES} is wanted')
        environments[name.lower()] = WAYS[way]
    return settings, Repository(found.name, None, found.forks, found.pull_request_target or given.pull_request_target,
                                environments, found.protected)


def variables_of(path: pathlib.Path, repository: str) -> dict[str, Any]:
    """The variables of a repository in a file."""
    return Settings(vars=path).variables(repository)


def branch_of(folder: pathlib.Path) -> str:
    """The branch that is checked out; an empty text if there is none."""
    words = 'git', '-C', str(folder), 'symbolic-ref', '--quiet', '--short', 'HEAD'
    done = subprocess.run(words, capture_output=True, text=True)
    return done.stdout.strip()
