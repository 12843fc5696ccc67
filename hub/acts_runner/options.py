"""What a runner is told on its command line."""
from __future__ import annotations

import argparse
import os
import re
import socket
import sys
import urllib.parse
from dataclasses import dataclass, fields
from typing import Any, Sequence

NAME = '[A-Za-z0-9_.-]{1,51}'
LABELS = '[!-+.-~-]{1,64}(,[!-+.-~-]{1,64}){0,13}'
FOLDERS = 'state', 'work', 'logs', 'actions', 'artifacts', 'secrets', 'tool_cache', 'actions_lock', 'token_file', 'ca'


@dataclass(frozen=True)
class Options:
    """The options, with paths that are absolute. `full_name` is the name by which the service knows the runner."""

    name: str
    labels: str
    hub: str | None = None
    token_file: str | None = None
    ca: str | None = None
    port: int | None = None
    once: bool = False
    ephemeral: bool = False
    pause: float = 5
    beat: float = 20
    state: str = ''
    exact_name: bool = False
    take_over: bool = False
    work: str | None = None
    logs: str | None = None
    log_bytes: int = 1 << 26
    logs_kept: int = 1000
    mirrors: str | None = None
    push_to: str | None = None
    actions: str | None = None
    actions_from: str | None = None
    actions_lock: str | None = None
    tool_cache: str | None = None
    install: str | None = None
    artifacts: str | None = None
    secrets: str | None = None
    environment: tuple[str, ...] = ()
    look: str | None = None
    act: bool = False
    act_option: tuple[str, ...] = ()
    full_name: str = ''

    @classmethod
    def of(cls, value: dict[str, Any]) -> Options:
        """The options that an order has."""
        lists = {name: tuple(value[name]) for name in ('environment', 'act_option')}
        return cls(**{**value, **lists})


def parser() -> argparse.ArgumentParser:
    """How the command line is read."""
    made = argparse.ArgumentParser(prog='acts-runner', description='Takes legs from a hub, and runs their steps.')
    add = made.add_argument
    add('--hub', metavar='URL', help='the address of the hub, such as https://ci.example.org')
    add('--token-file', metavar='FILE', help='a file with a runner token of the hub, for its owner alone')
    add('--ca', metavar='FILE', help="the certificates of who signs the hub's (those of the system)")
    add('--port', type=int, help='in place of the hub: the runner port of `acts serve` on this machine')
    add('--name', default=default_name(), help='the name of this runner; it is known as NAME and a suffix of its own')
    add('--labels', required=True, help='its labels, joined by commas, 14 at most')
    add_waits(made)
    add_names(made)
    add_folders(made)
    add_places(made)
    add('--act', action='store_true', help='let act (nektos/act) run the legs')
    add('--act-option', metavar='WORD', action='append', default=[],
        help='a word more for act, as --act-option=--pull=false')
    return made


def add_waits(made: argparse.ArgumentParser) -> None:
    """When it asks, and when it ends."""
    add = made.add_argument
    add('--once', action='store_true', help='end when there is nothing to do')
    add('--ephemeral', action='store_true', help='end after one leg; the hub then forgets its name, also if its host is gone')
    add('--pause', type=float, default=5, help='seconds until it asks again when there is nothing to do (5)')
    add('--beat', type=float, default=20, help='seconds between two beats (20)')


def add_names(made: argparse.ArgumentParser) -> None:
    """What is known of it."""
    add = made.add_argument
    add('--exact-name', action='store_true', help='use NAME without a suffix: no other host may use it')
    add('--take-over', action='store_true', help='go on under a name that the service knows, which nothing else uses')
    add('--environment', metavar='NAME', action='append', default=[], help='an environment whose jobs need no approval')


def add_folders(made: argparse.ArgumentParser) -> None:
    """What it keeps, and where."""
    add = made.add_argument
    add('--state', default=os.path.expanduser('~/.local/state/acts'),
        help='its folder NAME below this one has its state')
    add('--work', help='a folder, of another file system if you can, for what steps write (that of the state)')
    add('--logs', help='the folder for a log of each leg (logs, beside the state)')
    add('--log-bytes', type=int, default=1 << 26, help='bytes of a log; what follows is left out (67108864)')
    add('--logs-kept', type=int, default=1000, help='how many logs there are; the oldest ones are removed (1000)')
    add('--tool-cache', metavar='FOLDER', help='tools by name, version and architecture, as GitHub lays them out')
    add('--install', metavar='COMMAND',
        help='puts a tool into the tool cache that lacks there: COMMAND NAME VERSION ARCHITECTURE FOLDER')
    add('--secrets', metavar='FILE', help='a JSON object of secrets, in a file for its owner alone')


def add_places(made: argparse.ArgumentParser) -> None:
    """Where it finds what steps ask for."""
    add = made.add_argument
    add('--mirrors', metavar='PLACE',
        help='where actions/checkout finds OWNER/NAME.git: a folder, or the head of a URL')
    add('--push-to', metavar='URL', help='where a checkout pushes to, with {owner}/{repo} in it; nowhere without it')
    add('--actions', metavar='FOLDER', help='a folder with a repository OWNER/NAME.git for each action that steps use')
    add('--actions-from', metavar='URL', help='where actions are fetched by git, with {owner}/{repo} in it')
    add('--actions-lock', metavar='FILE', help='the commits of fetched actions (actions.lock, beside the state)')
    add('--artifacts', metavar='FOLDER', help='without a hub: artifacts, which all runners of a repository see')
    add('--look', metavar='HOST:PORT', help='without a hub: the hook port, which knows number and attempt of a run')


def default_name() -> str:
    """The name of this machine, as far as it can be one of a runner."""
    return re.sub('[^A-Za-z0-9_-]', '', socket.gethostname().partition('.')[0])[:51] or 'runner'


def read_options(words: Sequence[str]) -> Options:
    """The options in the words of a command line. Ends the program if they are not as they have to be."""
    made = parser()
    given = made.parse_args(words)
    if (given.port is None) == (given.hub is None):
        made.error('either --hub URL, or --port N')
    if given.hub is not None:
        check_hub(made, given)
    elif given.ephemeral:
        made.error('--ephemeral is for a runner with a hub')
    if not re.fullmatch(NAME, given.name):
        made.error('a name has 1 to 51 letters, digits, _, - and .')
    if not re.fullmatch(LABELS, given.labels):
        made.error('1 to 14 labels, each of 1 to 64 characters without spaces')
    if given.actions_from and ('{owner}' not in given.actions_from or '{repo}' not in given.actions_from):
        made.error('--actions-from has {owner} and {repo} in it')
    for name in FOLDERS:
        setattr(given, name, getattr(given, name) and os.path.abspath(getattr(given, name)))
    if given.mirrors and os.path.isdir(given.mirrors):
        given.mirrors = os.path.abspath(given.mirrors)
    names = {member.name for member in fields(Options)}
    return Options.of({name: value for name, value in vars(given).items() if name in names})


def check_hub(made: argparse.ArgumentParser, given: argparse.Namespace) -> None:
    """A hub needs a token, and secrecy on the way but for this machine."""
    url = urllib.parse.urlsplit(given.hub)
    if url.scheme not in ('http', 'https') or not url.hostname or url.query or url.fragment or url.username:
        made.error('--hub is a URL such as https://ci.example.org')
    if not given.token_file:
        made.error('--hub needs --token-file')
    if url.scheme == 'http' and url.hostname not in ('127.0.0.1', '::1', 'localhost'):
        made.error('a token is sent over https alone, but to this machine')
    if given.artifacts or given.look:
        made.error('--artifacts and --look are for a runner without a hub, which does both')


def token_in(path: str) -> str:
    """The token in a file, which nobody but its owner may read."""
    if os.stat(path).st_mode & 0o077:
        sys.exit(f'acts-runner: others may read {path}: chmod 600')
    with open(path, encoding='utf-8') as file:
        token = file.read().strip()
    if not re.fullmatch('[!-~]{1,256}', token):
        sys.exit(f'acts-runner: {path} has no token')
    return token
