"""Sends the logs of legs to the hub while they grow, and what was not sent in an earlier life. The hub says how much
of a log it has: so a piece is neither lost nor kept twice, whichever side is killed."""
from __future__ import annotations

import json
import os
import threading
import time
from dataclasses import dataclass
from typing import Any

from .files import Slots, read_text
from .hub import Away, Hub, NotTaken, place_of
from .logs import milliseconds
from .options import Options

PIECE = 1 << 18  # bytes
LONGEST_MARK = (1 << 21) - 1  # bytes of a line of marks
PAUSE = 0.25  # seconds between two looks
SECONDS_AT_END = 30


@dataclass
class Sent:
    """How much the hub has of a log: of its lines, and of its marks. None: it is not known yet."""

    log: int | None = None
    marks: int | None = None


class Sender(threading.Thread):
    """A thread of the runner, with a client of its own."""

    def __init__(self, options: Options, hub: Hub) -> None:
        super().__init__(daemon=True)
        self.hub, self.folder, self.runner = hub, options.logs or os.path.abspath('logs'), ''
        self.sent: dict[str, Sent] = {}
        self.ending = threading.Event()
        self.notes = Slots('notes')
        self.home = os.getcwd() + ' '

    def begin(self, runner: str) -> None:
        """Begins, for the logs of a name."""
        self.runner = runner
        self.start()

    def finish(self) -> None:
        """Sends what is left, as far as that is soon done, and ends."""
        self.ending.set()
        self.join(SECONDS_AT_END)

    def run(self) -> None:
        """Sends till the runner ends."""
        try:
            self.look()
        finally:
            self.hub.close()

    def look(self) -> None:
        """Looks again and again."""
        pause, late = PAUSE, float('inf')
        while True:
            if self.ending.is_set():
                late = min(late, time.monotonic() + SECONDS_AT_END - 1)
            try:
                left = [path for path in self.unsent() if not self.push(path)]
                pause = PAUSE
            except Away:
                left, pause = ['?'], min(2 * pause, 10)
            if self.ending.is_set() and (not left or time.monotonic() > late):
                return
            self.ending.wait(pause) if not self.ending.is_set() else time.sleep(min(pause, 1))

    def unsent(self) -> list[str]:
        """The logs of which the hub may lack something, the oldest first; without an ending."""
        try:
            names = os.listdir(self.folder)
        except OSError:
            return []
        there = set(names)
        paths = [os.path.join(self.folder, name[:-4]) for name in names
                 if name.endswith('.leg') and name[:-4] + '.sent' not in there]
        return sorted(paths, key=lambda path: os.stat(path + '.leg').st_mtime if os.path.exists(path + '.leg') else 0)

    def push(self, path: str) -> bool:
        """Sends what the hub lacks. Gives whether the log is whole, and sent."""
        try:
            leg = json.loads(read_text(path + '.leg'))
            whose = leg['claim'].split(' ')[1]
        except (ValueError, KeyError, IndexError, AttributeError):
            return time.time() > os.stat(path + '.leg').st_mtime + 60 if os.path.exists(path + '.leg') else True
        if whose != self.runner or not leg.get('attempt'):
            return True
        is_over = self.is_over(leg)
        sent = self.sent.setdefault(path, Sent())
        try:
            marks_end = self.size(path + '.marks')  # before the log: what a mark points to is in the log already
            sent.log = self.send(leg, 'logs', path + '.log', sent.log, self.size(path + '.log'))
            sent.marks = self.send(leg, 'marks', path + '.marks', sent.marks, marks_end)
        except NotTaken as fault:  # another leg has this lease by now, or the token lost its rights
            self.note_sent(path, f'the hub does not take it: {fault.status} {fault}')
            return True
        if not is_over:
            return False
        if '"complete": true' not in read_text(path + '.marks'):
            self.close_marks(path)
            return False
        self.note_sent(path, 'all of it')
        return True

    @staticmethod
    def size(path: str) -> int:
        """The bytes of a file."""
        return os.stat(path).st_size if os.path.exists(path) else 0

    def send(self, leg: dict[str, Any], kind: str, path: str, at: int | None, end: int) -> int:
        """Sends a file from where the hub is to an end, piece by piece. Gives how far the hub is."""
        if at is None:
            at = self.put(leg, kind, 0, b'')
        while at < end:
            with open(path, 'rb') as file:
                file.seek(at)
                piece = file.read(min(PIECE if kind == 'logs' else LONGEST_MARK, end - at))
            if kind == 'marks':
                piece = whole_lines(piece)
            if not piece:
                break
            now = self.put(leg, kind, at, piece)
            if now == at:
                raise Away(f'the hub stays at {at}')
            at = now
        return at

    def put(self, leg: dict[str, Any], kind: str, at: int, piece: bytes) -> int:
        """Sends a piece, and gives how far the hub is."""
        params = [('offset', str(at))]
        answer = self.hub.ask('PUT', place_of(leg, kind), params=params, claim=leg['claim'], data=piece).json()
        if not isinstance(answer, dict) or not isinstance(answer.get('size'), int):
            raise Away('the hub does not say how far it is')
        return int(answer['size'])

    def is_over(self, leg: dict[str, Any]) -> bool:
        """Whether the process of a leg has ended."""
        noted = self.notes.read() or {}
        if noted.get('token') != self.home + leg['claim'] or 'result' in noted:
            return True
        return f'ACTS_LEG={noted["token"]}' not in read_text(f'/proc/{noted["process"]}/environ').split('\0')

    @staticmethod
    def close_marks(path: str) -> None:
        """Marks the end of a log whose process was killed, and says so."""
        at = os.stat(path + '.log').st_size if os.path.exists(path + '.log') else 0
        words = 'The process of the steps has ended, and nobody knows how the step ended.'
        end: dict[str, Any] = {'at': milliseconds(), 'bytes': at}
        marks = [{'annotation': {'annotation_level': 'failure', 'message': words}, **end},
                 {'complete': True, 'result': 'failure', 'lost': True, **end}]
        whole = read_text(path + '.marks')
        with open(path + '.marks', 'a', encoding='utf-8') as file:
            file.write('' if whole.endswith('\n') or not whole else '\n')
            file.writelines(json.dumps(mark) + '\n' for mark in marks)

    def note_sent(self, path: str, words: str) -> None:
        """Notes that nothing is to be sent any more."""
        self.sent.pop(path, None)
        try:
            with open(path + '.sent', 'w', encoding='utf-8') as file:
                print(words, file=file)
        except OSError:
            pass


def whole_lines(data: bytes) -> bytes:
    """As many whole lines as a piece may have, at least one if there is one; a line without an end is left for
    later."""
    end = data.rfind(b'\n', 0, PIECE) + 1 or data.find(b'\n') + 1
    return data[:end] if end or len(data) < LONGEST_MARK else data
