"""The log of a leg: what its steps print, with a time a line, and beside it the marks: when each step began and ended,
annotations and summaries. Secrets are masked before a line is written."""
from __future__ import annotations

import base64
import contextlib
import json
import os
import sys
import threading
import time
import urllib.parse
from itertools import groupby
from operator import itemgetter
from typing import IO, Any, Iterable

MAX_ANNOTATIONS = 100  # of a leg
MAX_SUMMARY = 1 << 20  # bytes of the summary of a step, as at GitHub
SENT_SUMMARY = 1 << 18  # bytes of it that go to the hub
LEFT_OUT = b'the rest of this log is left out, since it is too long\n'


def stamp() -> str:
    """The time, as lines of GitHub's logs begin: in steps of 100 nanoseconds."""
    now = time.time_ns() // 100
    whole, rest = divmod(now, 10 ** 7)
    return time.strftime('%Y-%m-%dT%H:%M:%S', time.gmtime(whole)) + f'.{rest:07d}Z'


def milliseconds() -> int:
    """The time in milliseconds since 1970."""
    return time.time_ns() // 10 ** 6


def unused(folder: str, name: str, kept: int) -> str:
    """A path for a log, without an ending. A name may come again after a restore. Of the older logs as many are kept as
    are asked for."""
    os.makedirs(folder, exist_ok=True)
    logs = [entry for entry in os.scandir(folder) if entry.name.startswith('run-') and entry.name.endswith('.log')]
    logs.sort(key=lambda entry: entry.stat().st_mtime)
    for entry in logs[:max(0, len(logs) - kept + 1)]:
        for ending in ('.log', '.marks', '.leg', '.sent', '.summary.md'):
            with contextlib.suppress(FileNotFoundError):
                os.remove(entry.path[:-4] + ending)
    path, count = os.path.join(folder, name), 1
    while os.path.exists(path + '.log'):
        count += 1
        path = os.path.join(folder, f'{name}-again-{count}')
    return path


class Log:
    """The log of a leg, and its marks. `path` is without an ending."""

    def __init__(self, path: str, most: int, secrets: Iterable[str] = (), leg: dict[str, Any] | None = None) -> None:
        self.path, self.left, self.lock, self.annotations = path, most, threading.Lock(), 0
        self.masks: frozenset[str] = frozenset()
        if leg is not None:  # before the log, so that who sends it finds whose it is
            with open(path + '.leg', 'w', encoding='utf-8') as file:
                json.dump(leg, file)
        self.marks: IO[bytes] = open(path + '.marks', 'ab', buffering=0)
        self.file: IO[bytes] = open(path + '.log', 'ab', buffering=0)
        self.size = 0
        for secret in secrets:
            self.mask(secret)

    def mask(self, secret: str) -> None:
        """Masks a text, its lines, and forms in which a program may print it."""
        forms = {secret, json.dumps(secret)[1:-1], urllib.parse.quote(secret, safe=''),
                 base64.b64encode(secret.encode()).decode()}
        forms |= {line for line in secret.splitlines() if len(line) > 3}
        with self.lock:
            self.masks |= {form for form in forms if form.strip()}

    def masked(self, text: str) -> str:
        """The text with `***` in place of each secret."""
        hidden = [False] * len(text)
        for secret in self.masks:
            at = text.find(secret)
            while at >= 0:
                hidden[at:at + len(secret)] = [True] * len(secret)
                at = text.find(secret, at + 1)
        if not any(hidden):
            return text
        return ''.join('***' if masked else ''.join(map(itemgetter(0), group))
                       for masked, group in groupby(zip(text, hidden), key=itemgetter(1)))

    def write(self, line: str, echo: bool = True) -> None:
        """Writes a line. A disk that is full takes lines away, and does not fail a step."""
        with self.lock:
            text = self.masked(line)
            with contextlib.suppress(OSError):
                if echo:  # nobody may read it
                    os.write(sys.stdout.fileno(), text.encode(errors='replace') + b'\n')
            for part in text.split('\n'):
                self.append(f'{stamp()} {part}'.encode(errors='replace') + b'\n')

    def append(self, data: bytes) -> None:
        """Writes bytes of the log, as far as it may grow."""
        if self.left > 0:
            whole = data if len(data) <= self.left else f'{stamp()} '.encode() + LEFT_OUT
            with contextlib.suppress(OSError):
                self.size += self.file.write(whole)
        self.left -= len(data)

    def quiet(self, line: str) -> None:
        """Writes a line of the runner's own, into the log alone."""
        self.write(line, echo=False)

    def refuse(self, words: str, path: str = '', line: int | None = None) -> None:
        """Says why the steps do not run, and at which line of the workflow if that is known: in the log and as an
        annotation."""
        said = f'not run: {words}' + (f' ({path}:{line})' if line else '')
        self.write(said)
        self.annotate({'annotation_level': 'failure', 'message': said, 'title': None, 'path': path if line else None,
                       'start_line': line, 'end_line': line, 'start_column': None, 'end_column': None})

    def mark(self, **members: Any) -> None:
        """Writes a mark, with the present end of the log."""
        with self.lock, contextlib.suppress(OSError):
            text = json.dumps(self.hidden({**members, 'at': milliseconds(), 'bytes': self.size}), ensure_ascii=False)
            self.marks.write(text.encode(errors='replace') + b'\n')

    def hidden(self, value: Any) -> Any:
        """A value with its texts masked."""
        if isinstance(value, dict):
            return {name: self.hidden(item) for name, item in value.items()}
        return self.masked(value) if isinstance(value, str) else value

    def annotate(self, annotation: dict[str, Any], step: int | None = None) -> None:
        """Keeps an annotation, as far as there are not too many."""
        self.annotations += 1
        if self.annotations <= MAX_ANNOTATIONS:
            self.mark(annotation=annotation, step=step)

    def summarize(self, text: str, step: int) -> None:
        """Keeps the summary of a step, beside the log and as a mark."""
        text = self.masked(text)
        if len(text.encode()) > MAX_SUMMARY:
            self.write(f'the summary is left out: it has over {MAX_SUMMARY} bytes')
            return
        with contextlib.suppress(OSError), open(self.path + '.summary.md', 'a', encoding='utf-8') as file:
            file.write(text)
        self.mark(summary=text.encode()[:SENT_SUMMARY].decode(errors='ignore'), step=step)
