"""Deliveries, kept durably in a folder. What can't be handled is put aside with the reason."""
from __future__ import annotations

import json
import os
import pathlib
import re
import time
from typing import Any, Mapping

from ..log import say

NAME = re.compile('[0-9]{19}-[A-Za-z0-9-]{1,64}')
last = 0


def name_of(delivery: str) -> str:
    """The name of a delivery that comes now: names are in the order of time."""
    global last
    last = max(time.time_ns(), last + 1)
    return f'{last:019d}-{delivery}'


def age(name: str) -> float:
    """The seconds since a delivery came."""
    return time.time() - int(name.split('-')[0]) / 1e9


class Spool:
    """A folder. A delivery is NAME while it waits, and NAME.aside once it is put aside, with reasons in NAME.why."""

    def __init__(self, folder: pathlib.Path) -> None:
        self.folder = folder

    def begin(self) -> None:
        """Makes the folder, and removes what was never acknowledged."""
        self.folder.mkdir(mode=0o700, parents=True, exist_ok=True)
        for unfinished in self.folder.glob('*.new'):
            unfinished.unlink()

    def keep(self, name: str, text: str) -> None:
        """Writes a file that is there whole or not at all, also after a crash of the machine."""
        new = self.folder / (name + '.new')
        try:
            with open(new, 'w', encoding='utf-8', errors='surrogatepass') as file:
                file.write(text)
                file.flush()
                os.fsync(file.fileno())
        except OSError:
            new.unlink(missing_ok=True)
            raise
        self.rename(name + '.new', name)

    def rename(self, old: str, new: str) -> None:
        """Renames a file, durably."""
        os.rename(self.folder / old, self.folder / new)
        folder = os.open(self.folder, os.O_RDONLY)
        try:
            os.fsync(folder)
        finally:
            os.close(folder)

    def read(self, name: str) -> Any:
        """What was kept under a name."""
        return json.loads((self.folder / name).read_text(encoding='utf-8', errors='surrogatepass'))

    def add(self, name: str, value: Mapping[str, Any]) -> None:
        """Keeps a delivery."""
        self.keep(name, json.dumps(value))

    def waiting(self) -> list[str]:
        """The names of those that wait, in the order of time."""
        return sorted(path.name for path in self.folder.iterdir() if NAME.fullmatch(path.name))

    def aside(self) -> list[str]:
        """The names of those that were put aside."""
        return sorted(path.stem for path in self.folder.glob('*.aside'))

    def done(self, name: str) -> None:
        """Removes a delivery."""
        (self.folder / name).unlink(missing_ok=True)
        (self.folder / (name + '.why')).unlink(missing_ok=True)

    def put_aside(self, name: str, title: str, reasons: list[str]) -> None:
        """Puts a delivery aside."""
        self.keep(name + '.why', '\n    '.join([f'{name} {title}', *reasons]) + '\n')
        self.rename(name, name + '.aside')

    def why(self, name: str) -> str:
        """Why one was put aside."""
        try:
            return (self.folder / (name + '.why')).read_text(errors='replace')
        except OSError:
            return name + '\n'

    def retry(self, name: str) -> bool:
        """Has one that was put aside tried again."""
        if name not in self.aside():
            return False
        self.rename(name + '.aside', name)
        return True

    def forget(self, seconds: float) -> None:
        """Removes what was put aside and came longer ago."""
        for name in self.aside():
            if NAME.fullmatch(name) and age(name) > seconds:
                say(f'events: {name} is removed, since nobody has tried it again')
                for ending in '.aside', '.why':
                    (self.folder / (name + ending)).unlink(missing_ok=True)
