"""Lines of a log as HTML: colours of ANSI as classes, links, everything else escaped."""
from __future__ import annotations

import re

from markupsafe import Markup, escape

from .texts import seen

_SEQUENCE = re.compile('\x1b(?:\\[([0-?]*)[ -/]*([@-~])|\\][^\x07\x1b]*(?:\x07|\x1b\\\\)?'
                       '|[@-Z\\\\^_]|[()*+][A-Za-z0-9])')
_LINK = re.compile(r'https?://[^\s<>"\'`\x1b]{1,2000}[^\s<>"\'`.,;:!?)\]}\x1b]')
_BASIC = ('black', 'red', 'green', 'yellow', 'blue', 'magenta', 'cyan', 'white')
# The sixteen colours of xterm, to find the nearest for one of 256 or 16 million.
_RGB = ((0, 0, 0), (205, 0, 0), (0, 205, 0), (205, 205, 0), (0, 0, 238), (205, 0, 205), (0, 205, 205), (229, 229, 229),
        (127, 127, 127), (255, 0, 0), (0, 255, 0), (255, 255, 0), (92, 92, 255), (255, 0, 255), (0, 255, 255),
        (255, 255, 255))
_ON = {1: 'bold', 2: 'faint', 3: 'italic', 4: 'underline', 9: 'struck'}
_OFF = {22: ('bold', 'faint'), 23: ('italic',), 24: ('underline',), 29: ('struck',)}


class Style:
    """What the sequences so far have set."""

    def __init__(self) -> None:
        self.marks: set[str] = set()
        self.front = self.back = ''

    def reset(self) -> None:
        """Goes back to plain text."""
        self.marks.clear()
        self.front = self.back = ''

    def classes(self) -> str:
        """The classes of a text in this style."""
        return ' '.join([*sorted(self.marks), *(one for one in (self.front, self.back) if one)])

    def take(self, words: str) -> None:
        """Takes the parameters of one 'select graphic rendition'."""
        numbers = [int(word) if word.isdecimal() and len(word) < 5 else 0 for word in re.split('[;:]', words)]
        place = 0
        while place < len(numbers):
            place += self._one(numbers, place)

    def _one(self, numbers: list[int], place: int) -> int:
        number = numbers[place]
        if number == 0:
            self.reset()
        elif number in _ON:
            self.marks.add(_ON[number])
        elif number in _OFF:
            self.marks.difference_update(_OFF[number])
        elif number in (38, 48):
            colour, used = _extended(numbers[place + 1:])
            self._colour(colour, number == 48)
            return 1 + used
        elif number in (39, 49):
            self._colour(None, number == 49)
        elif 30 <= number % 60 < 38 and number < 98:
            self._colour(number % 10 + (8 if number >= 90 else 0), False)
        elif 40 <= number % 60 < 48 and number < 108:
            self._colour(number % 10 + (8 if number >= 100 else 0), True)
        return 1

    def _colour(self, colour: int | None, is_back: bool) -> None:
        kind, bright = 'bg-' if is_back else 'fg-', 'bright-' if colour is not None and colour > 7 else ''
        name = '' if colour is None else f'{kind}{bright}{_BASIC[colour % 8]}'
        if is_back:
            self.back = name
        else:
            self.front = name


def _extended(numbers: list[int]) -> tuple[int | None, int]:
    """The nearest of sixteen colours to that of 38;5;N or 38;2;R;G;B, and how many numbers it took."""
    if numbers[:1] == [5] and len(numbers) > 1:
        return _nearest(*_of_256(min(numbers[1], 255))) if numbers[1] > 15 else numbers[1], 2
    if numbers[:1] == [2] and len(numbers) > 3:
        red, green, blue = numbers[1:4]
        return _nearest(red, green, blue), 4
    return None, len(numbers)


def _of_256(number: int) -> tuple[int, int, int]:
    if number >= 232:
        grey = 8 + 10 * (number - 232)
        return grey, grey, grey
    steps, cube = (0, 95, 135, 175, 215, 255), number - 16
    return steps[cube // 36], steps[cube // 6 % 6], steps[cube % 6]


def _nearest(red: int, green: int, blue: int) -> int:
    return min(range(16), key=lambda at: sum((one - two) ** 2 for one, two in zip(_RGB[at], (red, green, blue))))


def without(text: str) -> str:
    """A text without sequences, and what is left of a line that was written over."""
    return _SEQUENCE.sub('', _last_written(text))


def _last_written(text: str) -> str:
    if '\r' not in text:
        return text
    return next((part for part in reversed(text.split('\r')) if part), '')


def _linked(text: str) -> str:
    parts, end = [], 0
    for found in _LINK.finditer(text):
        parts.append(str(seen(text[end:found.start()])))
        parts.append(f'<a href="{escape(found[0])}" rel="noopener noreferrer nofollow">{seen(found[0])}</a>')
        end = found.end()
    return ''.join([*parts, str(seen(text[end:]))])


def html(text: str) -> Markup:
    """A line of a log as HTML."""
    text = _last_written(text)
    if '\x1b' not in text:
        return Markup(_linked(text) if '://' in text else str(seen(text)))
    style, parts, end = Style(), [], 0
    for found in _SEQUENCE.finditer(text):
        parts.append(_span(text[end:found.start()], style))
        if found[2] == 'm':
            style.take(found[1])
        end = found.end()
    return Markup(''.join([*parts, _span(text[end:], style)]))


def _span(text: str, style: Style) -> str:
    if not text:
        return ''
    classes = style.classes()
    return f'<span class="{classes}">{_linked(text)}</span>' if classes else _linked(text)
