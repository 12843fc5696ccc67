"""`actions/upload-artifact` and `actions/download-artifact`, as of version 4."""
from __future__ import annotations

import fnmatch
import glob
import os
import re
from typing import TYPE_CHECKING, Any, Mapping

from ..steps import StepFailed
from ..storage import Storage, StorageFault
from .base import Builtin, Call, is_true

if TYPE_CHECKING:
    from ..job import Job


def artifact_name(name: str) -> str:
    """The name, or a StepFailed for what GitHub does not take as one."""
    if name in ('', '.', '..') or len(name) > 255 or re.search(r'[":<>|*?\r\n\\/]', name):
        raise StepFailed(f'{name!r} is no name of an artifact')
    return name


def found_files(workspace: str, paths: str, hidden: bool) -> tuple[list[str], str]:
    """The files at the paths, one a line, `!` before one that leaves files out; and the deepest folder that all these
    paths have in common."""
    found: set[str] = set()
    bases = []
    for line in (line.strip() for line in paths.splitlines() if line.strip()):
        path = os.path.normpath(os.path.join(workspace, os.path.expanduser(line.lstrip('!'))))
        names = set(glob.glob(path, recursive=True, include_hidden=hidden))
        for top in [name for name in names if os.path.isdir(name)]:
            names |= {os.path.join(folder, name) for folder, _, inner in os.walk(top) for name in inner}
        names = {name for name in names if os.path.isfile(name)}
        if line.startswith('!'):
            found -= names
            continue
        found |= names
        fixed = re.split(r'[*?[]', path)[0]
        bases.append(path if os.path.isdir(path) else os.path.dirname(fixed if fixed != path else path))
    if not hidden:
        found = {name for name in found if not is_hidden(os.path.relpath(name, workspace))}
    return sorted(found), os.path.commonpath(bases) if bases else workspace


def is_hidden(path: str) -> bool:
    """Whether a part of a path begins with a dot."""
    return any(part.startswith('.') for part in path.split('/') if part != '..')


class OfArtifacts(Builtin):
    """What both have in common."""

    def check(self, job: Job, given: Mapping[str, Any]) -> None:
        """A ValueError for what it can't do."""
        super().check(job, given)
        if not job.storage:
            raise ValueError('nobody has said where artifacts are kept: neither --hub nor --artifacts is given')

    def storage(self, job: Job) -> Storage:
        """Where artifacts are."""
        if not job.storage:
            raise StepFailed('nobody has said where artifacts are kept')
        return job.storage


class Upload(OfArtifacts):
    """Keeps files of the workspace."""

    takes = frozenset({'name', 'path', 'if-no-files-found', 'overwrite', 'include-hidden-files'})
    ignores = frozenset({'retention-days', 'compression-level'})

    def run(self, job: Job, given: Mapping[str, str], call: Call) -> dict[str, str]:
        """Keeps them."""
        name = artifact_name(given.get('name') or 'artifact')
        files, base = found_files(job.workspace, given.get('path') or '', is_true(given.get('include-hidden-files')))
        if not files:
            words, how = f'no files at {given.get("path")}', given.get('if-no-files-found') or 'warn'
            if how == 'error':
                raise StepFailed(words)
            if how == 'warn':
                job.log.write(f'##[warning]{words}: no artifact is kept')
            return {}
        try:
            found = self.storage(job).upload(name, files, base, is_true(given.get('overwrite')))
        except StorageFault as fault:
            raise StepFailed(str(fault)) from None
        job.log.write(f'artifact {name}: {len(files)} files')
        top = f'{job.github.get("server_url", "")}/{job.github["repository"]}'
        place = f'{top}/actions/runs/{job.leg.run}/artifacts/{found}'
        return {'artifact-id': found, **({'artifact-url': place} if job.options.hub else {})}


class Download(OfArtifacts):
    """Puts files of artifacts of the same attempt into the workspace."""

    takes = frozenset({'name', 'path', 'pattern', 'merge-multiple'})

    def run(self, job: Job, given: Mapping[str, str], call: Call) -> dict[str, str]:
        """Puts them there."""
        place = os.path.normpath(os.path.join(job.workspace, os.path.expanduser(given.get('path') or '.')))
        storage = self.storage(job)
        try:
            there = storage.names()
            if given.get('name'):
                if given['name'] not in there:
                    raise StepFailed(f'the run has no artifact {given["name"]}')
                storage.download(given['name'], place)
            else:
                for name in fnmatch.filter(there, given.get('pattern') or '*'):
                    flat = is_true(given.get('merge-multiple'))
                    storage.download(name, place if flat else os.path.join(place, name))
        except StorageFault as fault:
            raise StepFailed(str(fault)) from None
        return {'download-path': place}
