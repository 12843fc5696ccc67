"""The steps of a log, their lines as HTML, and what lines failed."""
from __future__ import annotations

from collections.abc import Iterable, Sequence
from dataclasses import dataclass

from markupsafe import Markup, escape

from ..ledger.logs import StepMark
from . import ansi, folding, states
from .lines import LogFile

WINDOW = 1_000  # lines of a step that are shown at a time
TAIL_BYTES, TAIL_LINES = 1 << 14, 12
BEFORE = 'Set up job'  # what stands before the first step
_WORDS = {'error': 'Error:', 'warning': 'Warning:', 'notice': 'Notice:', 'debug': '', 'command': ''}


@dataclass(frozen=True)
class Step:
    """A step of a log: which bytes are its lines."""

    number: int
    name: str
    state: str
    sign: states.Sign
    begun: int | None
    ended: int | None
    offset: int
    end: int
    is_open: bool


@dataclass(frozen=True)
class Window:
    """Lines of a step that are shown, and how many it has."""

    step: int
    first: int
    lines: tuple[folding.Line, ...]
    total: int


def steps_of(marks: Sequence[StepMark], size: int, is_over: bool) -> list[Step]:
    """The steps of a log of this size. Text before the first mark is a step 0; without marks all of it is one."""
    steps = []
    if not marks or marks[0].offset > 0:
        end = marks[0].offset if marks else size
        if end:
            state = 'success' if marks or is_over else 'running'
            steps.append(Step(0, BEFORE if marks else 'Log', state, states.sign(state), None, None, 0, end,
                              not marks and not is_over))
    for place, mark in enumerate(marks):
        after = marks[place + 1].offset if place + 1 < len(marks) else size
        state = mark.outcome or ('cancelled' if is_over else 'running')
        is_open = mark.outcome is None and not is_over and place + 1 == len(marks)
        steps.append(Step(mark.number, mark.name, state, states.sign(state), mark.started_at, mark.ended_at,
                          mark.offset,
                          max(mark.offset, after), is_open))
    return steps


def first_shown(step: Step, total: int, line: int | None) -> int:
    """Where a window begins: with the page of a line; else at the end of a step that failed or goes on; else first."""
    if line is not None:
        return (min(max(line, 1), max(total, 1)) - 1) // WINDOW * WINDOW + 1
    return max(1, total - WINDOW + 1) if step.is_open or step.state == 'failure' else 1


def window_of(file: LogFile, step: Step, line: int | None = None) -> Window:
    """The lines of a step around a line. It reads the file, so it is called in a thread of its own."""
    before = file.line_at(step.offset)
    total = file.line_at(step.end) - before
    if step.end > step.offset and file.read(step.end - 1, 1) != b'\n' and not step.is_open:
        total += 1
    first = first_shown(step, total, line)
    raw = file.window(before + first - 1, min(WINDOW, max(0, total - first + 1)), step.end)
    lines = tuple(folding.line_of(first + place, one.decode('utf-8', 'replace').rstrip('\r')) for place,
                  one in enumerate(raw))
    return Window(step.number, first, lines, total)


def tail_of(file: LogFile, first: int, end: int) -> list[str]:
    """The last lines between two offsets, as plain text."""
    begin = max(first, end - TAIL_BYTES)
    data = file.read(begin, end - begin)
    if begin > first:
        data = data.partition(b'\n')[2] or data
    lines = [line for line in folding.lines_of(data, 1) if line.kind not in ('endgroup', 'debug')]
    texts = [(f'{_WORDS[line.kind]} ' if _WORDS.get(line.kind) else '') + ansi.without(line.text).rstrip()
             for line in lines]
    return [text[:500] for text in texts if text.strip()][-TAIL_LINES:]


def line_html(step: int, line: folding.Line, group: int | None = None) -> str:
    """A line as HTML: its number is a link to it."""
    id = f'step:{step}:{line.number}'
    at = escape(line.at)
    time = f'<time datetime="{at}" title="{at}">{at[11:23].rstrip("Z")}</time>' if at else ''
    words = _WORDS.get(line.kind, '')
    marked = f'<b>{words}</b> ' if words else ''
    where = f' <span class="quiet">{escape(_where(line))}</span>' if line.file else ''
    kind = f' {line.kind}' if line.kind not in ('plain', 'group') else ''
    inside = f' data-group="group:{step}:{group}"' if group is not None else ''
    return (f'<div class="l{kind}" id="{id}"{inside}><a href="#{id}">{line.number}</a>'
            f'<span>{time}{marked}{ansi.html(line.text)}{where}</span></div>')


def _where(line: folding.Line) -> str:
    return line.file if line.line is None else f'{line.file}:{line.line}'


def group_html(step: int, group: folding.Group, is_open: bool) -> str:
    """A group that folds below its first line."""
    assert group.head is not None
    inside = ''.join(line_html(step, line) for line in group.lines if isinstance(line, folding.Line))
    opened = ' open' if is_open else ''
    return (f'<details class="group" id="group:{step}:{group.head.number}"{opened}>'
            f'<summary>{line_html(step, group.head)}</summary>{inside}</details>')


def window_html(window: Window, wanted: int | None = None, is_live: bool = False) -> Markup:
    """A window as HTML, with links to the lines before and behind it."""
    folds = folding.folded(window.lines).lines
    parts = [_more(window, True)]
    for place, one in enumerate(folds):
        if isinstance(one, folding.Line):
            parts.append(line_html(window.step, one))
        else:
            numbers = [line.number for line in one.lines if isinstance(line, folding.Line)]
            is_open = wanted in numbers or (is_live and place == len(folds) - 1) or _has_error(one.lines)
            parts.append(group_html(window.step, one, is_open))
    return Markup(''.join([*parts, _more(window, False)]) or '<p class="more quiet">It has printed nothing.</p>')


def _has_error(lines: Iterable[folding.Line | folding.Group]) -> bool:
    return any(isinstance(line, folding.Line) and line.kind == 'error' for line in lines)


def _more(window: Window, is_before: bool) -> str:
    last = window.first + len(window.lines) - 1
    if is_before:
        links = [(1, 'First lines'), (window.first - 1, 'Earlier lines')] if window.first > 1 else []
    else:
        links = [(last + 1, 'Later lines'), (window.total,
                                             f'Last of {window.total:,} lines')] if last < window.total else []
    if not links:
        return ''
    step = window.step
    made = ' '.join(f'<a href="?step={step}&amp;line={line}#step:{step}:{line}" data-line="{line}">{words}</a>'
                    for line, words in links)
    return f'<p class="more">{made}</p>'


def open_group(window: Window) -> int | None:
    """The line that names the group in which a window ends; None if it ends in none."""
    group = None
    for line in window.lines:
        if line.kind == 'group':
            group = line.number
        elif line.kind == 'endgroup':
            group = None
    return group
