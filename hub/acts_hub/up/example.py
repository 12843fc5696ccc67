"""The example of `acts-hub up`: a repository of one workflow, its push, and the wait for the end of its run."""
from __future__ import annotations

import asyncio
import json
import os
import pathlib
import subprocess
from dataclasses import dataclass
from typing import Any

from acts_workflow.reading import read

from ..service.hooks import HookPort
from ..service.http import Away
from ..service.view import ViewPort
from .folder import REPOSITORY, Folder, Unfit

PATH = '.github/workflows/example.yml'
WORKFLOW = pathlib.Path(__file__).with_name('example.yml')
BRANCH = 'main'
WHO = 'octocat'
MESSAGE = 'Build and test hello'
APART = {
    'GIT_AUTHOR_NAME': WHO, 'GIT_AUTHOR_EMAIL': f'{WHO}@example.org', 'GIT_COMMITTER_NAME': WHO, 'GIT_COMMITTER_EMAIL': f'{WHO}@example.org',
    'GIT_CONFIG_GLOBAL': os.devnull, 'GIT_CONFIG_SYSTEM': os.devnull}
"""The environment of git, apart from what the user has set."""


@dataclass(frozen=True)
class Outcome:
    """How the example's run has ended."""

    run: int
    conclusion: str


def make_mirror(folder: Folder) -> str:
    """Makes the bare repository of the example, if it is not there; the commit of its branch."""
    mirror = folder.mirrors / f'{REPOSITORY}.git'
    if not mirror.exists():
        new = folder.mirrors / 'new.git'
        _git('init', '--quiet', '--bare', f'--initial-branch={BRANCH}', str(new))
        blob = _git('-C', str(new), 'hash-object', '-w', '--stdin', text=WORKFLOW.read_text(encoding='utf-8'))
        _git('-C', str(new), 'update-index', '--add', '--cacheinfo', f'100644,{blob},{PATH}', index=new / 'index')
        tree = _git('-C', str(new), 'write-tree', index=new / 'index')
        commit = _git('-C', str(new), 'commit-tree', '-m', MESSAGE, tree)
        _git('-C', str(new), 'update-ref', f'refs/heads/{BRANCH}', commit)
        mirror.parent.mkdir(parents=True, exist_ok=True)
        os.replace(new, mirror)
    return _git('-C', str(mirror), 'rev-parse', f'refs/heads/{BRANCH}')


def _git(*words: str, text: str = '', index: pathlib.Path | None = None) -> str:
    environment = {**os.environ, **APART, **({'GIT_INDEX_FILE': str(index)} if index else {})}
    try:
        done = subprocess.run(['git', *words], input=text, env=environment, check=True, capture_output=True, text=True)
    except OSError as fault:
        raise Unfit(f'git: {fault.strerror}') from None
    except subprocess.CalledProcessError as fault:
        raise Unfit(f'git: {fault.stderr.strip() or fault.returncode}') from None
    return done.stdout.strip()


def push_of(sha: str) -> dict[str, Any]:
    """The event of a push of the commit, as the service takes it."""
    event = {'ref': f'refs/heads/{BRANCH}', 'head_commit': {'id': sha, 'message': MESSAGE, 'author': {'name': WHO, 'email': f'{WHO}@example.org'}},
             'sender': {'login': WHO}, 'repository': {'full_name': REPOSITORY, 'default_branch': BRANCH}}
    github = {'sha': sha, 'ref': f'refs/heads/{BRANCH}', 'ref_name': BRANCH, 'ref_type': 'branch', 'actor': WHO, 'event': event}
    return {'repo': REPOSITORY, 'path': PATH, 'github': github, 'workflow': read(WORKFLOW.read_text(encoding='utf-8'))}


async def play(folder: Folder, hooks: HookPort) -> int:
    """Admits the push, which makes one run however often it comes; its run."""
    sha = make_mirror(folder)
    body = json.dumps(push_of(sha)).encode()
    while True:
        try:
            reply = await hooks.admit(f'example-{sha}', 'push', body)
        except Away:
            await asyncio.sleep(1)
            continue
        if reply.run is None:
            raise Unfit(f'the example is not admitted: {reply.words}')
        return reply.run


async def ended(run: int, view: ViewPort) -> Outcome:
    """Waits for the end of a run."""
    while True:
        try:
            whole = await view.run(run)
            if whole is not None and whole.row.conclusion is not None:
                return Outcome(run, whole.row.conclusion)
        except Away:
            pass
        await asyncio.sleep(0.2)
