"""Workflows that an event should have started and that make no run: why, at which line, and what to write instead."""
from __future__ import annotations

import re
from dataclasses import dataclass
from typing import Iterable, Mapping

from acts_workflow import profile, reading
from acts_workflow.values import Fault

from .templates import Note

LONGEST = 1000


@dataclass(frozen=True)
class Refusal:
    """Why one workflow makes no run. `name` is the workflow's own, or an empty text."""

    path: str
    words: str
    code: int | None = None
    line: int | None = None
    advice: str = ''
    name: str = ''

    @property
    def text(self) -> str:
        """A line for the answer to a webhook, and for the log."""
        where = f'{self.path}:{self.line}' if self.line else self.path
        return f'{where}: {self.words}' + (f' {self.advice}' if self.advice else '')


def line_in(texts: Mapping[str, str], path: str, place: str) -> int | None:
    """The line of a place. A job of a called workflow, such as `jobs.ship__build`, is looked for where it is called."""
    if path not in texts:
        return None
    text = texts[path]
    job = re.match(r'jobs\.([A-Za-z0-9_-]+)', place)
    if job and '__' in job[1] and not re.search(rf'^[ \t]*["\']?{re.escape(job[1])}["\']?[ \t]*:', text, re.M):
        place = f'jobs.{job[1].split("__")[0]}'
    return reading.line_of(text, place)


def of_fault(fault: Fault, path: str, texts: Mapping[str, str], name: str = '') -> Refusal:
    """Of what the hub does not send."""
    line = fault.line or (line_in(texts, path, fault.place) if fault.place else None)
    advice = profile.advice(fault.number, fault.words)
    return Refusal(path, f'not sent: {str(fault)[:LONGEST]}', fault.number, line, advice, name)


def of_reply(words: str, code: int | None, notes: Iterable[Note], path: str, texts: Mapping[str, str],
             name: str = '') -> Refusal:
    """Of what the service refuses. The places that are known to be outside of what it takes say which."""
    known = [note for note in notes if note.number == code]
    if not known:
        return Refusal(path, words[:LONGEST], code, None, profile.advice(code, ''), name)
    listed = '; '.join(f'{note.place}: {note.text}' for note in known)
    line = line_in(texts, path, known[0].place)
    return Refusal(path, f'{words}: {listed}'[:LONGEST], code, line, profile.advice(code, known[0].text), name)
