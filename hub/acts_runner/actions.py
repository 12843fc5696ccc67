"""Where the actions of steps are: in a mirror, fetched by git at their first use, or in the workspace."""
from __future__ import annotations

import json
import os
import re
from dataclasses import dataclass
from typing import TYPE_CHECKING, Any

from acts_workflow.reading import read as read_yaml

from .git import extract, git

if TYPE_CHECKING:
    from .job import Job

USES = re.compile(r'([\w-][\w.-]*)/([\w.-]+)((?:/[\w.-]+)*)@([\w./+-]+)')
COMMIT = re.compile('[0-9a-f]{40}')
PARTS = {'pre': 'pre-entrypoint', 'main': 'entrypoint', 'post': 'post-entrypoint'}  # of an action in a container


@dataclass(frozen=True)
class Action:
    """An action: the folder in which it is, and what its action.yml says."""

    uses: str
    folder: str
    is_local: bool
    said: dict[str, Any]

    @classmethod
    def of(cls, job: Job, uses: str) -> Action:
        """The action that a step names, or a ValueError."""
        if uses.startswith('docker://'):
            return cls(uses, '', False, {'runs': {'using': 'docker', 'image': uses}})
        is_local = uses.startswith('./')
        folder = local_folder(job, uses) if is_local else fetched_folder(job, uses)
        names = [name for name in ('action.yml', 'action.yaml') if os.path.isfile(os.path.join(folder, name))]
        if not names:
            if os.path.isfile(os.path.join(folder, 'Dockerfile')):
                return cls(uses, folder, is_local, {'runs': {'using': 'docker', 'image': 'Dockerfile'}})
            raise ValueError(f'{uses} has no action.yml')
        with open(os.path.join(folder, names[0]), encoding='utf-8') as file:
            said = read_yaml(file.read(1 << 20))
        if not isinstance(said, dict) or not isinstance(said.get('runs'), dict):
            raise ValueError(f'{uses} has no runs')
        made = cls(uses, folder, is_local, said)
        if made.using == 'composite' and not isinstance(made.runs.get('steps'), list):
            raise ValueError(f'{uses} has no steps')
        return made

    @property
    def runs(self) -> dict[str, Any]:
        """What it runs."""
        found: dict[str, Any] = self.said['runs']
        return found

    @property
    def using(self) -> str:
        """The kind of action, in small letters."""
        return str(self.runs.get('using')).lower()

    @property
    def inputs(self) -> dict[str, Any]:
        """Its inputs."""
        return self.said.get('inputs') or {}

    def outputs(self) -> dict[str, Any]:
        """The texts of its outputs, if it has steps."""
        said = self.said.get('outputs') or {}
        return {name: value.get('value', '') for name, value in said.items() if isinstance(value, dict)}

    def part(self, name: str) -> Any:
        """What it runs as `pre`, `main` or `post`."""
        return self.runs.get(PARTS[name] if self.using == 'docker' else name)

    def reference(self) -> dict[str, str]:
        """What `github` has of an action that is of another repository."""
        found = None if self.is_local else USES.fullmatch(self.uses)
        return {'action_repository': f'{found[1]}/{found[2]}' if found else '', 'action_ref': found[4] if found else ''}


def fetched_folder(job: Job, uses: str) -> str:
    """The files of owner/name[/path]@ref: of a mirror below the folder of actions, else fetched by git."""
    found = USES.fullmatch(uses)
    if not found or '..' in uses:
        raise ValueError(f'{uses} is no owner/name@ref')
    owner, name, path, ref = found.groups()
    if job.options.actions:
        place = os.path.join(job.options.actions, owner, name)
        repository = next((place + end for end in ('.git', '') if os.path.isdir(place + end)), None)
        if repository:
            words = ['-c', 'safe.directory=*', '-C', repository, 'rev-parse', '--verify', '--quiet', '--end-of-options']
            commit = git(*words, ref + '^{commit}').decode().strip()
            return os.path.join(files_of(job, repository, owner, name, commit), path.strip('/'))
        if not job.options.actions_from:
            raise ValueError(f'there is no mirror {place}.git')
    if not job.options.actions_from:
        raise ValueError('there is no mirror of it: neither --actions nor --actions-from is given')
    return os.path.join(Fetched(job).folder(owner, name, ref), path.strip('/'))


def files_of(job: Job, repository: str, owner: str, name: str, commit: str) -> str:
    """The files of a commit, in a folder of this leg."""
    folder = os.path.join(job.temp, '_actions', owner, name, commit)
    if not os.path.isdir(folder):
        extract(repository, commit, '', folder)
    return folder


class Fetched:
    """Actions that are fetched by git at their first use, and kept by commit. The lock file has the commit of each
    `owner/name@ref` that was fetched: a ref that names another commit later is not followed in silence."""

    def __init__(self, job: Job) -> None:
        self.job = job
        self.path = job.options.actions_lock or os.path.abspath('actions.lock')
        self.kept = os.path.abspath('actions')

    def locked(self) -> dict[str, str]:
        """The commits of the lock file."""
        try:
            with open(self.path, encoding='utf-8') as file:
                found = json.load(file)
        except FileNotFoundError:
            return {}
        if not isinstance(found, dict) or not all(COMMIT.fullmatch(str(commit)) for commit in found.values()):
            raise ValueError(f'{self.path} is no JSON object of commits')
        return found

    def lock(self, uses: str, commit: str) -> None:
        """Adds a commit to the lock file."""
        new = f'{self.path}.{os.getpid()}'
        with open(new, 'w', encoding='utf-8') as file:
            json.dump({**self.locked(), uses: commit}, file, indent=1, sort_keys=True)
        os.rename(new, self.path)

    def folder(self, owner: str, name: str, ref: str) -> str:
        """The files of owner/name@ref."""
        uses, repository = f'{owner}/{name}@{ref}', os.path.join(self.kept, owner, f'{name}.git')
        url = (self.job.options.actions_from or '').replace('{owner}', owner).replace('{repo}', name)
        commit = ref if COMMIT.fullmatch(ref) else self.locked().get(uses)
        if not os.path.isdir(repository):
            git('init', '--quiet', '--bare', repository)
        if not commit or not self.has(repository, commit):
            commit = self.fetch(repository, url, uses, ref, commit)
        return files_of(self.job, repository, owner, name, commit)

    @staticmethod
    def has(repository: str, commit: str) -> bool:
        """Whether a commit was fetched."""
        try:
            git('-C', repository, 'cat-file', '-e', commit + '^{commit}')
        except ValueError:
            return False
        return True

    def fetch(self, repository: str, url: str, uses: str, ref: str, commit: str | None) -> str:
        """Fetches a commit, and gives it."""
        wanted = commit or self.named(url, uses, ref)
        git('-C', repository, 'fetch', '--quiet', '--no-tags', '--depth=1', url, wanted)
        got = git('-C', repository, 'rev-parse', 'FETCH_HEAD^{commit}').decode().strip()
        if commit and got != commit:
            raise ValueError(f'{uses}: {url} gave {got}, and not the commit {commit}')
        git('-C', repository, 'update-ref', f'refs/acts/{got}', got)
        if not commit:
            self.lock(uses, got)
            self.job.log.quiet(f'{uses} is {got}, as {self.path} notes')
        return got

    @staticmethod
    def named(url: str, uses: str, ref: str) -> str:
        """The tag or branch that a ref names at the other end."""
        there = {line.split('\t')[1] for line in git('ls-remote', '--', url).decode().splitlines() if '\t' in line}
        found = next((name for name in (f'refs/tags/{ref}', f'refs/heads/{ref}') if name in there), None)
        if not found:
            raise ValueError(f'{uses}: {url} has no tag or branch {ref}')
        return found


def local_folder(job: Job, uses: str) -> str:
    """The folder in the workspace; before there is one, the folder as the mirror of the repository has it in the commit
    of the run."""
    if '..' in uses.split('/'):
        raise ValueError(f'{uses} is not below the workspace')
    there = os.path.normpath(os.path.join(job.workspace, uses))
    if os.path.isdir(there):
        return there
    mirrors, sha = job.options.mirrors, job.github.get('sha')
    if not sha or not mirrors or not os.path.isdir(mirrors):
        raise ValueError(f'{uses} is not here, and there is no mirror in which it could be looked up')
    folder = os.path.join(job.temp, '_actions', 'local')
    extract(os.path.join(mirrors, job.github['repository'] + '.git'), sha, os.path.normpath(uses), folder)
    return os.path.join(folder, os.path.normpath(uses))
