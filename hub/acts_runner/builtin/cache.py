"""`actions/cache`, with its parts `restore` and `save`: by key, restore keys and version, in the scope of a branch."""
from __future__ import annotations

import glob
import hashlib
import os
import tarfile
from typing import TYPE_CHECKING, Mapping, Protocol

from ..steps import StepFailed
from .base import Builtin, Call, Post, is_true

if TYPE_CHECKING:
    from ..job import Job

MAX_KEY, MAX_KEYS = 512, 10  # as at GitHub


class Caches(Protocol):
    """Where caches are kept."""

    def restore(self, keys: list[str], version: str, path: str) -> str | None:
        """Puts the archive of the first key that is found, or that begins with a later one, at a path, and gives its
        key."""

    def has(self, key: str, version: str) -> bool:
        """Whether there is a cache of this very key in the scope of this run."""

    def save(self, key: str, version: str, path: str) -> bool:
        """Keeps an archive; whether there was none of this key."""


def version_of(paths: list[str]) -> str:
    """What makes caches of the same key differ: their paths."""
    return hashlib.sha256('|'.join(['tar', *paths]).encode()).hexdigest()


def lines_of(text: str) -> list[str]:
    """The lines of an input."""
    return [line.strip() for line in text.splitlines() if line.strip()]


def keys_of(given: Mapping[str, str]) -> list[str]:
    """The key and the restore keys, or a StepFailed."""
    keys = [given.get('key', ''), *lines_of(given.get('restore-keys', ''))]
    if len(keys) > MAX_KEYS:
        raise StepFailed(f'over {MAX_KEYS} keys')
    for key in keys:
        if not key or len(key) > MAX_KEY or ',' in key:
            raise StepFailed(f'{key[:100]!r} is no key of a cache: it has 1 to {MAX_KEY} characters, and no comma')
    return keys


def found(workspace: str, paths: list[str]) -> set[str]:
    """What is at the paths."""
    full = [os.path.join(workspace, os.path.expanduser(path)) for path in paths]
    return {os.path.normpath(name) for path in full for name in glob.glob(path, recursive=True, include_hidden=True)}


def roots(workspace: str) -> dict[str, str]:
    """The folders whose files can be cached: they have another place at another runner."""
    return {'workspace': workspace, 'home': os.path.expanduser('~')}


def place_of(name: str, workspace: str) -> str | None:
    """The name in an archive of a path."""
    for root, folder in roots(workspace).items():
        if name == folder or name.startswith(folder + '/'):
            return f'{root}/{os.path.relpath(name, folder)}'
    return None


def pack(workspace: str, paths: list[str], archive: str) -> bool:
    """Makes an archive of what is at the paths; whether there was anything."""
    names = found(workspace, [path for path in paths if not path.startswith('!')])
    left_out = found(workspace, [path[1:] for path in paths if path.startswith('!')])
    left = {place_of(name, workspace) for name in left_out}
    with tarfile.open(archive, 'w:gz', compresslevel=1) as file:
        for name in sorted(names):
            place = place_of(name, workspace)
            if not place:
                raise OSError(f'{name} is neither below the workspace nor below the home folder')
            file.add(name, place, filter=lambda member: None if member.name in left else member)
    return bool(names)


def unpack(workspace: str, archive: str) -> None:
    """Puts what is in an archive where it was. What would be elsewhere is a TarError."""
    folders = roots(workspace)
    with tarfile.open(archive, 'r:gz') as file:
        for member in file:
            root, _, rest = member.name.partition('/')
            folder = folders.get(root)
            if not folder or '..' in rest.split('/') or rest.startswith('/') or member.isdev():
                raise tarfile.TarError(f'{member.name} has no place here')
            top, parent = os.path.realpath(folder), os.path.realpath(os.path.dirname(os.path.join(folder, rest)))
            if os.path.commonpath([parent, top]) != top and rest not in ('', '.'):
                raise tarfile.TarError(f'{member.name} is behind a link')
            if member.islnk():
                member.linkname = os.path.join(folder, member.linkname.partition('/')[2])
            member.name = os.path.join(folder, rest)
            file.extract(member, '/', numeric_owner=True)


class Cache(Builtin):
    """Restores what an earlier run has kept, and keeps it after the steps. Without a hub there is never anything."""

    takes = frozenset({'path', 'key', 'restore-keys', 'fail-on-cache-miss', 'lookup-only', 'save-always'})
    ignores = frozenset({'enableCrossOsArchive', 'upload-chunk-size'})
    saves = True
    restores = True

    def run(self, job: Job, given: Mapping[str, str], call: Call) -> dict[str, str]:
        """Restores it."""
        keys, paths = keys_of(given), lines_of(given.get('path', ''))
        if not self.restores:
            self.save(job, keys[0], paths)
            return {}
        key = self.restored(job, keys, paths, is_true(given.get('lookup-only')))
        if not key and is_true(given.get('fail-on-cache-miss')):
            raise StepFailed(f'there is nothing in the cache for {keys[0]}')
        job.log.write(f'cache restored from {key}' if key else f'cache not found for {", ".join(keys)}')
        return {'cache-hit': str(key == keys[0]).lower() if key else '', 'cache-primary-key': keys[0],
                'cache-matched-key': key or ''}

    @staticmethod
    def restored(job: Job, keys: list[str], paths: list[str], lookup: bool) -> str | None:
        """The key of what is restored."""
        if not job.caches:
            return None
        archive = os.path.join(job.step_folder(), 'cache.tgz')
        key = job.caches.restore(keys, version_of(paths), archive)
        try:
            if key and not lookup:
                unpack(job.workspace, archive)
        except (OSError, tarfile.TarError) as fault:
            job.log.write(f'##[warning]the cache {key} is not read: {fault}')
            key = None
        finally:
            if os.path.exists(archive):
                os.remove(archive)
        return key

    @staticmethod
    def save(job: Job, key: str, paths: list[str]) -> None:
        """Keeps what is at the paths. What goes wrong is said, and fails nothing."""
        if not job.caches:
            return
        version = version_of(paths)
        if job.caches.has(key, version):
            job.log.write(f'cache {key} is there already, and stays as it is')
            return
        archive = os.path.join(job.step_folder(), 'cache.tgz')
        try:
            if not pack(job.workspace, paths, archive):
                job.log.write(f'##[warning]there is nothing at {", ".join(paths)} to be cached')
            elif job.caches.save(key, version, archive):
                job.log.write(f'cache saved with key {key}')
        except (OSError, tarfile.TarError) as fault:
            job.log.write(f'##[warning]the cache {key} is not kept: {fault}')
        finally:
            if os.path.exists(archive):
                os.remove(archive)

    def post(self, job: Job, given: Mapping[str, str], outputs: Mapping[str, str]) -> Post | None:
        """Keeps it after the steps, unless the very key was there."""
        if not (self.saves and self.restores) or outputs.get('cache-hit') == 'true':
            return None
        key, paths = keys_of(given)[0], lines_of(given.get('path', ''))
        return lambda job, call: self.save(job, key, paths)


class Restore(Cache):
    """`actions/cache/restore`."""

    saves = False


class Save(Cache):
    """`actions/cache/save`."""

    restores = False
