"""Calls of git by the runner itself."""
from __future__ import annotations

import os
import subprocess

SECONDS = 300


def git(*words: str) -> bytes:
    """What a call of git prints, or a ValueError with what it complains of."""
    done = subprocess.run(['git', *words], capture_output=True, timeout=SECONDS, check=False, stdin=subprocess.DEVNULL,
                          env={**os.environ, 'GIT_TERMINAL_PROMPT': '0'})
    if done.returncode:
        complaint = done.stderr.decode(errors='replace').strip()
        raise ValueError(f'git {words[-2] if len(words) > 1 else words[0]}: {complaint}')
    return done.stdout


def extract(repository: str, commit: str, path: str, folder: str) -> None:
    """Puts the files of a folder of a commit into a folder of their own."""
    os.makedirs(folder, exist_ok=True)
    words = ['-c', 'safe.directory=*', '-C', repository, 'archive', '--format=tar', commit]
    archive = git(*words, *([path] if path else []))
    subprocess.run(['tar', '-x', '-C', folder], input=archive, check=True, timeout=SECONDS)
