"""`actions/checkout`, over git from a mirror."""
from __future__ import annotations

import os
import re
import shutil
import subprocess
from typing import TYPE_CHECKING, Any, Mapping

from ..steps import StepFailed
from .base import UNKNOWN, Builtin, Call, is_true

if TYPE_CHECKING:
    from ..job import Job

REPOSITORY = re.compile(r'[\w-][\w.-]*/[\w-][\w.-]*')
NOWHERE = 'no-push-address-is-named'  # what git is told in place of an address, so that a push says why it fails


class Checkout(Builtin):
    """Fetches a commit, and checks it out. A push goes nowhere unless the operator names an address."""

    takes = frozenset({'repository', 'ref', 'path', 'fetch-depth', 'fetch-tags', 'clean', 'submodules',
                       'sparse-checkout', 'sparse-checkout-cone-mode'})
    ignores = frozenset({'persist-credentials', 'token', 'show-progress', 'set-safe-directory', 'filter'})

    def check(self, job: Job, given: Mapping[str, Any]) -> None:
        """A ValueError for what it can't do."""
        super().check(job, given)
        if not job.options.mirrors:
            raise ValueError('nobody has said where repositories are: --mirrors is not given')
        if not shutil.which('git'):
            raise ValueError('git is not installed')
        own = given.get('repository', job.github['repository']) == job.github['repository']
        if own and not given.get('ref') and not job.github.get('sha'):
            raise ValueError('the event has no github.sha, and the step no ref')
        depth = str(given.get('fetch-depth', '1') or '1')
        if depth != UNKNOWN and not re.fullmatch('[0-9]{1,9}', depth):
            raise ValueError(f'fetch-depth is {depth}, and no number')
        if str(given.get('submodules', 'false') or 'false').lower() not in ('true', 'false', 'recursive', UNKNOWN):
            raise ValueError('submodules is none of true, false and recursive')
        for line in sparse_in(given):
            if line.startswith('-'):
                raise ValueError(f'sparse-checkout has {line}, which is no folder')

    def run(self, job: Job, given: Mapping[str, str], call: Call) -> dict[str, str]:
        """Fetches and checks out."""
        name = given.get('repository') or job.github['repository']
        if not REPOSITORY.fullmatch(name) or '..' in name:
            raise StepFailed(f'{name} is no owner/name')
        place = os.path.normpath(os.path.join(job.workspace, given.get('path') or '.'))
        if os.path.commonpath([place, job.workspace]) != job.workspace:
            raise StepFailed(f'{place} is not below the workspace')
        mirrors = (job.options.mirrors or '').rstrip('/')
        repository = Repository(f'{mirrors}/{name}.git', place, call)
        repository.begin(is_true(given.get('clean') or 'true'), push_address(job, name))
        is_own = name == job.github['repository']
        ref = given.get('ref') or (job.github['sha'] if is_own else '')
        commit = repository.fetch(ref, int(given.get('fetch-depth') or 1), is_true(given.get('fetch-tags')))
        repository.choose(sparse_in(given), is_true(given.get('sparse-checkout-cone-mode') or 'true'))
        branch = branch_of(job.github.get('ref') or '') if ref == job.github.get('sha') else repository.branch
        repository.check_out(branch, commit)
        if (given.get('submodules') or 'false').lower() != 'false':
            depth = given.get('fetch-depth') or '1'
            repository.submodules(mirrors, name, depth, given['submodules'].lower() == 'recursive')
        return {'ref': given.get('ref') or job.github.get('ref') or '', 'commit': commit}


def sparse_in(given: Mapping[str, Any]) -> list[str]:
    """The folders or patterns that are checked out; none if all is."""
    return [line.strip() for line in str(given.get('sparse-checkout') or '').splitlines() if line.strip()]


def branch_of(ref: str) -> str:
    """The branch of a full ref; the empty text for other refs."""
    return ref[11:] if ref.startswith('refs/heads/') else ''


def push_address(job: Job, name: str) -> str:
    """Where a push goes: by default to nothing that is there."""
    owner, repo = name.split('/')
    return job.options.push_to.replace('{owner}', owner).replace('{repo}', repo) if job.options.push_to else NOWHERE


class Repository:
    """A repository that is fetched from a mirror into a folder."""

    def __init__(self, url: str, place: str, call: Call) -> None:
        self.url, self.place, self.call, self.branch = url, place, call, ''
        self.is_local = os.path.isdir(url)  # a mirror that may be another user's
        self.more = ['--upload-pack', "git -c safe.directory='*' upload-pack"] if self.is_local else []

    def begin(self, clean: bool, push: str) -> None:
        """A repository with the mirror as its origin."""
        os.makedirs(self.place, exist_ok=True)
        if not os.path.isdir(os.path.join(self.place, '.git')):
            for name in os.listdir(self.place):
                path = os.path.join(self.place, name)
                shutil.rmtree(path) if os.path.isdir(path) and not os.path.islink(path) else os.remove(path)
            self.call('git', 'init', '--quiet', '--initial-branch=main', cwd=self.place)
            self.call('git', 'remote', 'add', 'origin', self.url, cwd=self.place)
        else:
            self.call('git', 'remote', 'set-url', 'origin', self.url, cwd=self.place)
            if clean:
                self.call('git', 'clean', '-ffdxq', cwd=self.place)
        self.call('git', 'remote', 'set-url', '--push', 'origin', push, cwd=self.place)

    def fetch(self, ref: str, depth: int, tags: bool) -> str:
        """Fetches a commit, branch or tag, the default branch for the empty text, and gives the commit."""
        wanted = ref if re.fullmatch('[0-9a-f]{40}', ref) else self.named(ref)
        words = ['--no-tags'] if depth and not tags else ['--tags']
        words += [f'--depth={depth}'] if depth else []
        refs = [f'+{wanted}:refs/acts/wanted', *([] if depth else ['+refs/heads/*:refs/remotes/origin/*'])]
        self.call('git', 'fetch', '--quiet', '--force', *self.more, *words, 'origin', *refs, cwd=self.place)
        done = subprocess.run(['git', 'rev-parse', 'refs/acts/wanted^{commit}'], cwd=self.place, capture_output=True,
                              text=True, check=True)
        return done.stdout.strip()

    def named(self, ref: str) -> str:
        """The full name of a branch or tag at the mirror."""
        done = subprocess.run(['git', 'ls-remote', *self.more, '--', self.url], capture_output=True, text=True,
                              timeout=300, check=False, env={**os.environ, 'GIT_TERMINAL_PROMPT': '0'})
        names = {line.split('\t')[1] for line in done.stdout.splitlines() if '\t' in line}
        wanted = (ref, f'refs/heads/{ref}', f'refs/tags/{ref}') if ref else ('HEAD',)
        found = next((name for name in wanted if name in names), None)
        if not found:
            raise StepFailed(f'{self.url} has no branch or tag {ref or "HEAD"}: {done.stderr.strip()}')
        self.branch = branch_of(found)
        return found

    def choose(self, paths: list[str], cone: bool) -> None:
        """Says which folders are checked out, with the files above them, or by which patterns; all without any."""
        words = ['set', '--cone' if cone else '--no-cone', *paths] if paths else ['disable']
        if paths or os.path.exists(os.path.join(self.place, '.git', 'info', 'sparse-checkout')):
            self.call('git', 'sparse-checkout', *words, cwd=self.place)

    def check_out(self, branch: str, commit: str) -> None:
        """Makes the folder that of a commit."""
        how = ['-B', branch, commit] if branch else ['--detach', commit]
        self.call('git', 'checkout', '--quiet', '--force', *how, cwd=self.place)

    def submodules(self, mirrors: str, name: str, depth: str, recursive: bool) -> None:
        """Checks out submodules. Addresses that are relative, or of a repository that is among the mirrors, are fetched
        from these."""
        base = self.url.rpartition('/')[0].rpartition('/')[0] if not self.is_local else mirrors
        words = ['-c', f'url.{base}/.insteadOf=https://github.com/', '-c', f'url.{base}/.insteadOf=git@github.com:']
        words += ['-c', 'protocol.file.allow=always', '-c', 'safe.directory=*'] if self.is_local else []
        more = ['--recursive'] if recursive else []
        more += [f'--depth={depth}'] if depth != '0' else []
        self.call('git', 'submodule', 'sync', *(['--recursive'] if recursive else []), cwd=self.place)
        self.call('git', *words, 'submodule', '--quiet', 'update', '--init', '--force', *more, cwd=self.place)
