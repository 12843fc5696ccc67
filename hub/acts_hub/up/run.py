"""The life of `acts-hub up`: its children in order, the example, and the end of all."""
from __future__ import annotations

import asyncio
import contextlib
import os
import pathlib
import pwd
import shutil
import signal
import socket
import ssl
import subprocess
import sys
from collections.abc import Sequence
from dataclasses import dataclass
from typing import Any

import aiohttp

from ..config import Config
from ..service.hooks import HookPort
from ..service.view import ViewPort
from . import example
from .children import Child, Failed
from .folder import REPOSITORY, Folder, Unfit, check_own, prepare

PACKAGES = pathlib.Path(__file__).resolve().parents[2]
LABELS = 'linux'
NAME = 'up'
KEEP_RUNS = 10_000
"""So many runs the service keeps; with them go the logs and artifacts of the others."""
INSIDE = (8080, 8081, 8083)
"""The ports of the service, where they are alone in its namespace."""


@dataclass(frozen=True)
class Wishes:
    """What the command line asks for."""

    folder: pathlib.Path
    acts: str
    listen: str
    once: bool
    no_runner: bool
    open_loopback: bool
    runner_user: str | None
    keep_runs: int = KEEP_RUNS


def say(words: str) -> None:
    """A line for whoever started it."""
    print(words, flush=True)


def run(wishes: Wishes) -> int:
    """Starts all, shows the example's run, and goes on till it is asked to end; the exit status."""
    folder = Folder(wishes.folder.absolute())
    try:
        acts = shutil.which(wishes.acts)
        if acts is None:
            raise Unfit(f'there is no program {wishes.acts}: --acts PATH or the variable ACTS names it; tests/trial makes one')
        check_own(folder)
        user = _runner_user(wishes, folder)
        owner = _numbers(user)
        config = prepare(folder, os.path.abspath(acts), wishes.listen, LABELS, owner)
        if user is None and not wishes.no_runner:
            say('The steps of the runner run as you: a trial alone. On a host of its own, or as another user, it can use nothing of this folder.')
        return asyncio.run(_live(folder, config, os.path.abspath(acts), wishes, user))
    except (Unfit, Failed, OSError) as fault:
        print(f'acts-hub up: {fault}', file=sys.stderr, flush=True)
        return 1


def _runner_user(wishes: Wishes, folder: Folder) -> str | None:
    """As whom the runner runs, if as somebody else: root's steps are another user's, who can't use the doors."""
    if os.geteuid() != 0:
        if wishes.runner_user is not None:
            raise Unfit('--runner-user is for root')
        return None
    name = wishes.runner_user or 'nobody'
    folder.path.mkdir(parents=True, exist_ok=True)
    folder.path.chmod(0o711)
    script = 'import os, sys; sys.path.insert(0, sys.argv[1]); import acts_runner.runner; sys.exit(not os.access(sys.argv[2], os.X_OK))'
    try:
        tried = subprocess.run([sys.executable, '-P', '-c', script, str(PACKAGES), str(folder.path)], user=name, extra_groups=[], cwd='/',
                               stdin=subprocess.DEVNULL, capture_output=True)
    except (KeyError, ValueError):
        raise Unfit(f'there is no user {name}') from None
    if tried.returncode == 0:
        return name
    if wishes.runner_user is not None:
        raise Unfit(f'{name} can not read {PACKAGES} or enter {folder.path}')
    return None


def _numbers(user: str | None) -> tuple[int, int] | None:
    entry = pwd.getpwnam(user) if user else None
    return (entry.pw_uid, entry.pw_gid) if entry else None


def _program(package: str) -> tuple[str, ...]:
    """A program of these packages, without a variable that steps would inherit."""
    script = f'import sys; sys.path.insert(0, {str(PACKAGES)!r}); from {package}.__main__ import main; sys.exit(main())'
    return sys.executable, '-P', '-c', script


def _children(folder: Folder, config: Config, acts: str, wishes: Wishes, user: str | None, view: ViewPort) -> Sequence[Child]:
    """The service behind its doors, the hub, and the runner, in the order of their starts."""
    hook, lines, shown = _free_ports() if wishes.open_loopback else INSIDE
    serve = (acts, 'serve', str(folder.store), '--hook-port', str(hook), '--runner-port', str(lines), '--view-port', str(shown),
             '--sessions', '32', '--forever', *(['--keep-runs', str(wishes.keep_runs)] if wishes.keep_runs else []))
    doors = (*_program('acts_hub'), 'doors', '--folder', str(folder.doors), *(['--open-loopback'] if wishes.open_loopback else []), '--')
    runner = (*_program('acts_runner'), '--hub', config.url, '--token-file', str(folder.runner_token), '--ca', str(folder.certificate),
              '--name', NAME, '--labels', LABELS, '--state', str(folder.runner / 'state'), '--mirrors', str(folder.mirrors), '--pause', '1')
    home = {'HOME': str(folder.runner)} if user else {}
    children = (
        Child('service', (*doors, *serve), folder.log('service'), view.healthy),
        Child('hub', (*_program('acts_hub'), 'serve', '--config', str(folder.config)), folder.log('hub'),
              lambda: _answers(config)),
        Child('runner', runner, folder.log('runner'), lambda: _has_runner(view), user=user, environment=home))
    return children[:2] if wishes.no_runner else children


def _free_ports() -> tuple[int, int, int]:
    with contextlib.ExitStack() as kept:
        made = [kept.enter_context(socket.create_server(('127.0.0.1', 0))).getsockname()[1] for _ in range(3)]
    return made[0], made[1], made[2]


async def _answers(config: Config) -> bool:
    """Whether the hub answers at its address, with its own certificate."""
    context = ssl.create_default_context(cafile=str(config.hub.certificate))
    try:
        async with aiohttp.ClientSession(timeout=aiohttp.ClientTimeout(total=5)) as session:
            async with session.get(f'{config.url}/healthz', ssl=context) as answer:
                return answer.status == 200
    except (aiohttp.ClientError, asyncio.TimeoutError, OSError):
        return False


async def _has_runner(view: ViewPort) -> bool:
    """Whether a runner has been heard lately."""
    rows = await view.runners()
    return any(row.name.startswith(NAME) and row.heard_seconds_ago is not None and row.heard_seconds_ago < 10 for row in rows)


async def _live(folder: Folder, config: Config, acts: str, wishes: Wishes, user: str | None) -> int:
    """Starts the children one after the other, plays the example, and ends them in the other order."""
    view = ViewPort(config.service.view)
    children = _children(folder, config, acts, wishes, user, view)
    loop, asked = asyncio.get_running_loop(), asyncio.Event()
    for number in signal.SIGINT, signal.SIGTERM, signal.SIGHUP:
        loop.add_signal_handler(number, asked.set)
    kept: list[asyncio.Task[None]] = []
    work = loop.create_task(_work(folder, config, children, kept, view, wishes))
    stopped = loop.create_task(asked.wait())
    try:
        await _first(work, stopped, kept)
        return work.result() if work.done() and not work.cancelled() else 0
    finally:
        work.cancel()
        stopped.cancel()
        for child in reversed(children):
            await child.stop()
        for task in kept:
            task.cancel()
        await asyncio.gather(work, stopped, *kept, return_exceptions=True)
        await view.close()


async def _first(work: asyncio.Task[int], stopped: asyncio.Task[bool], kept: list[asyncio.Task[None]]) -> None:
    """Waits for the end of the work, a signal, or a child that does not stay, which is raised."""
    while not work.done() and not stopped.done():
        awaited: set[asyncio.Task[Any]] = {work, stopped, *kept}
        await asyncio.wait(awaited, timeout=0.5, return_when=asyncio.FIRST_COMPLETED)
        for task in kept:
            if task.done():
                task.result()


async def _work(folder: Folder, config: Config, children: Sequence[Child], kept: list[asyncio.Task[None]], view: ViewPort, wishes: Wishes) -> int:
    """What is done between the start and a signal; the exit status."""
    for child in children:
        kept.append(asyncio.get_running_loop().create_task(child.keep(say)))
        await child.ready()
    _greet(folder, config)
    is_well = wishes.no_runner or await _play(folder, config, view)
    if not wishes.once:
        say('Ctrl-C ends all of this; the same command goes on with it.')
        await asyncio.Event().wait()
    return 0 if is_well else 1


async def _play(folder: Folder, config: Config, view: ViewPort) -> bool:
    """Runs the example to its end; whether it has succeeded."""
    hooks = HookPort(config.service.hook)
    try:
        run = await example.play(folder, hooks)
        say(f'Run {run}: {config.url}/{REPOSITORY}/actions/runs/{run}')
        outcome = await example.ended(run, view)
        say(f'Run {run} has ended: {outcome.conclusion}')
        return outcome.conclusion == 'success'
    finally:
        await hooks.close()


def _greet(folder: Folder, config: Config) -> None:
    """Address and token, and how gh uses them."""
    token = folder.token.read_text(encoding='utf-8').strip()
    host = config.url.partition('://')[2]
    say(f'Address: {config.url}')
    say(f'Token: {token}')
    say(f'gh: SSL_CERT_FILE={folder.certificate} GH_HOST={host} GH_ENTERPRISE_TOKEN={token} gh run list -R {host}/{REPOSITORY}')
