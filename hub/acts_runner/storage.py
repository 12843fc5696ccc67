"""Where artifacts and outputs of a run are kept. Without a hub: in a folder that all runners of a repository see."""
from __future__ import annotations

import contextlib
import json
import os
import secrets
import shutil
from dataclasses import dataclass
from typing import Protocol, Sequence

MAX_OUTPUTS = 1 << 20  # bytes of the outputs of a job, as at GitHub


class StorageFault(Exception):
    """Why something is not kept, or not found, in words."""


class Storage(Protocol):
    """What a leg hands on, and what it is handed."""

    def keep_outputs(self, values: dict[str, str]) -> None:
        """Hands on the outputs of the job of this leg."""

    def outputs_of(self, job: str) -> dict[str, str] | None:
        """The outputs of a job of the same attempt; None if they are not known."""

    def upload(self, name: str, files: Sequence[str], base: str, overwrite: bool) -> str:
        """Keeps files as an artifact of the run's attempt, and gives its id."""

    def names(self) -> list[str]:
        """The artifacts of the run's attempt."""

    def download(self, name: str, folder: str) -> None:
        """Puts the files of an artifact into a folder."""

    def line_of(self, place: str) -> int | None:
        """The line of a place in the file of the run's workflow; None if it is not known."""

    def close(self) -> None:
        """Closes what is open."""


@dataclass(frozen=True)
class FolderStorage:
    """A folder for each attempt of each run. The body's hash is in its name, since ids of runs come again after a
    restore."""

    root: str
    job: str

    @classmethod
    def of(cls, folder: str, repository: str, run: str, attempt: str, body: str, job: str) -> FolderStorage:
        """The folder of an attempt below that of all artifacts."""
        return cls(os.path.join(folder, repository, f'run-{run}-{attempt}-{body[:12]}'), job)

    def path(self, job: str) -> str:
        """The file with the outputs of a job."""
        return os.path.join(self.root, '.outputs', f'{job}.json')

    def forget_outputs(self) -> None:
        """Removes the outputs of this job."""
        with contextlib.suppress(FileNotFoundError):
            os.remove(self.path(self.job))

    def keep_outputs(self, values: dict[str, str]) -> None:
        """Hands on the outputs of the job."""
        path = self.path(self.job)
        os.makedirs(os.path.dirname(path), exist_ok=True)
        new = f'{path}.{secrets.token_hex(6)}'
        with open(new, 'w', encoding='utf-8') as file:
            json.dump(values, file)
            file.flush()
            os.fsync(file.fileno())
        os.rename(new, path)

    def outputs_of(self, job: str) -> dict[str, str] | None:
        """The outputs of a job of the same attempt."""
        try:
            with open(self.path(job), encoding='utf-8') as file:
                found: dict[str, str] = json.load(file)
                return found
        except FileNotFoundError:
            return None

    def upload(self, name: str, files: Sequence[str], base: str, overwrite: bool) -> str:
        """Keeps files as an artifact."""
        new, kept = os.path.join(self.root, f'.new-{secrets.token_hex(6)}'), os.path.join(self.root, name)
        for file in files:
            there = os.path.join(new, os.path.relpath(file, base))
            os.makedirs(os.path.dirname(there), exist_ok=True)
            shutil.copy2(file, there)
        if overwrite and os.path.isdir(kept):
            os.rename(kept, f'{new}.old')
        try:
            os.rename(new, kept)
        except OSError:
            raise StorageFault(f'the run has an artifact {name} already') from None
        finally:
            for path in (new, f'{new}.old'):
                shutil.rmtree(path, ignore_errors=True)
        return f'{os.path.basename(self.root)}/{name}'

    def names(self) -> list[str]:
        """The artifacts of the attempt."""
        return [name for name in sorted(os.listdir(self.root)) if name[0] != '.'] if os.path.isdir(self.root) else []

    def download(self, name: str, folder: str) -> None:
        """Puts the files of an artifact into a folder."""
        shutil.copytree(os.path.join(self.root, name), folder, dirs_exist_ok=True)

    def line_of(self, place: str) -> int | None:
        """Nobody here has the file."""
        return None

    def close(self) -> None:
        """Nothing is open."""
