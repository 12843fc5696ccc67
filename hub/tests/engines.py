"""The engines by which tests run containers: podman, where it runs, with an image of busybox alone, so that no registry is asked; and a stand-in."""
from __future__ import annotations

import os
import pathlib
import shutil
import subprocess
import tarfile
from dataclasses import dataclass
from typing import Any

from runner_trials import ENGINE, lines_of

TINY = 'localhost/tiny'  # the image that podman has
# What a machine may ask for, the simplest first: a sandbox may forbid higher limits, and crun takes no hybrid of the two kinds of control groups.
SETTINGS = '', '[containers]\ndefault_ulimits = ["nofile=1024:1024", "nproc=1024:1024"]\n[engine]\nruntime = "runc"\n'


def root_of_an_image(folder: pathlib.Path) -> pathlib.Path:
    """The file system of an image, as a tar: busybox under all of its names."""
    path = folder / 'root.tar'
    program = shutil.which('busybox') or ''
    names = subprocess.run([program, '--list'], capture_output=True, text=True, check=True).stdout.split()
    with tarfile.open(path, 'w') as made:
        made.add(os.path.realpath(program), arcname='bin/busybox')
        for name in names:
            entry = tarfile.TarInfo(f'bin/{name}')
            entry.type, entry.linkname = tarfile.SYMTYPE, 'busybox'
            if name != 'busybox':
                made.addfile(entry)
        for name in ('tmp', 'etc', 'proc', 'dev', 'www'):
            entry = tarfile.TarInfo(name)
            entry.type, entry.mode = tarfile.DIRTYPE, 0o755
            made.addfile(entry)
    return path


@dataclass(frozen=True)
class Engine:
    """An engine, and the variables by which a runner finds it."""

    name: str
    env: dict[str, Any]
    folder: pathlib.Path

    @property
    def is_real(self) -> bool:
        """Whether what it runs is in a container."""
        return self.name == 'podman'

    def ask(self, *words: str) -> str:
        """What podman prints."""
        done = subprocess.run(['podman', *words], env={**os.environ, **self.env}, capture_output=True, text=True, check=False)
        assert done.returncode == 0, done.stderr
        return done.stdout

    def containers(self) -> list[str]:
        """The containers that are left."""
        return self.ask('ps', '--all', '--format', '{{.Names}}').split() if self.is_real else []

    def images(self, notes: str) -> set[str]:
        """The images that actions have left."""
        if self.is_real:
            return {name for name in self.ask('images', '--format', '{{.Repository}}:{{.Tag}}').split() if 'acts-action' in name}
        made = [line.split() for line in lines_of(notes + '.engine')]
        gone = {line[-1] for line in made if line[:2] == ['image', 'rm']}
        return {line[2] for line in made if line[0] == 'build'} - gone

    def builds(self, notes: str, said: list[str]) -> int:
        """How many images were built, as a log has it."""
        return sum(line == '##[group]build --tag' for line in said)


def programs(folder: pathlib.Path, **texts: str) -> str:
    """A PATH that begins with a folder of these programs."""
    folder.mkdir(parents=True, exist_ok=True)
    for name, text in texts.items():
        (folder / name).write_text(text)
        (folder / name).chmod(0o755)
    return f'{folder}:{os.environ["PATH"]}'


def stand_in(folder: pathlib.Path) -> Engine:
    """The stand-in, as docker."""
    return Engine('stand-in', {'PATH': programs(folder / 'stand-in', docker=ENGINE)}, folder)


def podman(folder: pathlib.Path) -> Engine | str:
    """podman with a store of its own, or why it does not run here. docker does not answer then, so that runners take this one."""
    for name in ('podman', 'busybox'):
        if not shutil.which(name):
            return f'{name} is not installed'
    config, settings = folder / 'storage.conf', folder / 'containers.conf'
    config.write_text(f'[storage]\ndriver = "vfs"\ngraphroot = "{folder}/graph"\nrunroot = "{folder}/run"\n')
    path = programs(folder / 'no-docker', docker='#!/bin/sh\nexit 1\n')
    made = Engine('podman', {'PATH': path, 'CONTAINERS_STORAGE_CONF': str(config), 'CONTAINERS_CONF': str(settings)}, folder)
    why = ''
    for text in SETTINGS:
        settings.write_text(text)
        try:
            if not why:
                made.ask('import', str(root_of_an_image(folder)), TINY)
            made.ask('run', '--rm', TINY, 'sh', '-c', 'true')
            return made
        except AssertionError as fault:
            why = str(fault).strip()
    return f'podman runs nothing here: {why}'
