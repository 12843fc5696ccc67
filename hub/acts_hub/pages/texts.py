"""Texts of strangers on a page: characters that change how others are read are shown by their number."""
from __future__ import annotations

import re
import unicodedata

from markupsafe import Markup, escape

# Bidirectional controls, characters without width or ink that are no part of a word, control characters but tab and LF.
_UNSEEN = re.compile('[\u00ad\u034f\u061c\u115f\u1160\u17b4\u17b5\u180b-\u180e\u200b\u200e\u200f\u202a-\u202e\u2060-\u2069'
                     '\u2028\u2029\u2800\u3164\ufeff\uffa0\ufff9-\ufffb\U000e0000-\U000e007f\x00-\x08\x0b-\x1f\x7f-\x9f]')
_MARKS = '[\u0300-\u036f\u0483-\u0489\u1ab0-\u1aff\u1dc0-\u1dff\u20d0-\u20ff\ufe20-\ufe2f]'
_PILED = re.compile(f'({_MARKS}{{4}}){_MARKS}+')  # marks over one letter, which would cover the lines around it


def cleaned(text: str) -> str:
    """A text that a person typed, without characters that are not seen."""
    return _UNSEEN.sub('', text)


def _mark(found: re.Match[str]) -> str:
    character = found[0]
    name = unicodedata.name(character, 'control character').lower()
    return f'<span class="unseen" title="{escape(name)}">U+{ord(character):04X}</span>'


def flat(text: object) -> str:
    """A text with four marks over a letter at most, and an ellipsis for more."""
    return _PILED.sub(r'\1…', '' if text is None else str(text))


def seen(text: object) -> Markup:
    """A text as HTML, escaped, with its unseen characters made visible."""
    return Markup(_UNSEEN.sub(_mark, str(escape(flat(text)))))


def plain(text: object) -> str:
    """A text for a title or an attribute: without markup, its unseen characters by number."""
    return _UNSEEN.sub(lambda found: f'[U+{ord(found[0]):04X}]', flat(text))


def isolated(text: object) -> Markup:
    """A text as HTML whose direction does not change that of the words around it."""
    return Markup(f'<bdi>{seen(text)}</bdi>')


def shortened(text: str, most: int) -> str:
    """At most so many characters of a text, the last one an ellipsis if something is left out."""
    return text if len(text) <= most else text[:most - 1].rstrip() + '…'
