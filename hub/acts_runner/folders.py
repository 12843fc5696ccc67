"""The folders of a leg: what steps write, and how it is removed."""
from __future__ import annotations

import contextlib
import os
import secrets
import shutil
import stat
from typing import Any

from . import container
from .options import Options


def remove(folder: str) -> None:
    """Removes a folder with all that steps left in it, and makes folders writable where it must."""
    def again(_function: Any, path: str, _fault: Any) -> None:
        for name in (os.path.dirname(path), path):
            with contextlib.suppress(OSError):
                os.chmod(name, stat.S_IRWXU)
        with contextlib.suppress(OSError):
            if os.path.isdir(path) and not os.path.islink(path):
                shutil.rmtree(path)
            else:
                os.unlink(path)
    if os.path.isdir(folder):
        shutil.rmtree(folder, onerror=again)
    if os.path.isdir(folder):  # files of another user's, as from a container
        os.rename(folder, f'{folder}-left-{secrets.token_hex(6)}')


def folders(options: Options) -> tuple[str, str]:
    """The workspace, and the folder for files of the runner's, in the present folder or below --work."""
    root = os.path.join(options.work, options.full_name) if options.work else os.getcwd()
    return os.path.join(root, 'work'), os.path.join(root, 'temp')


def clear(options: Options) -> None:
    """Removes what a leg has left."""
    container.remove_left()
    for folder in folders(options):
        remove(folder)
