"""Texts of strangers, times, colours and folds of logs, as pages show them."""
from __future__ import annotations

import pytest

from acts_hub.pages import ansi, folding, moments, states, steps, texts

pytestmark = pytest.mark.quick


@pytest.mark.parametrize('character', ['\u202e', '\u202a', '\u2066', '\u2069', '\u061c', '\u200e', '\u200b', '\ufeff',
                                       '\x00', '\x1b', '\x7f', '\u0085', '\U000e0041', '\u00ad', '\u3164', '\u2800', '\u180e', '\uffa0', '\ufffa'])
def test_a_character_that_is_not_seen_is_shown_by_its_number(character: str) -> None:
    assert f'>U+{ord(character):04X}</span>' in texts.seen(f'a{character}b')
    assert character not in texts.seen(f'a{character}b')
    assert texts.plain(f'a{character}b') == f'a[U+{ord(character):04X}]b'


@pytest.mark.parametrize('text', ['שלום', 'مرحبا', 'naïve', '日本語', '👩\u200d👩\u200d👧', 'tab\tand\nline'])
def test_a_text_of_any_language_stays_as_it_is(text: str) -> None:
    assert texts.seen(text) == text


def test_marks_that_are_piled_up_are_cut() -> None:
    """They would cover the lines around them; those of Vietnamese and the like stay."""
    assert texts.seen('e' + '\u0301' * 300 + 'x') == texts.plain('e' + '\u0301' * 300 + 'x') == 'e' + '\u0301' * 4 + '…x'
    assert texts.seen('e\u0302\u0301t') == 'e\u0302\u0301t'


@pytest.mark.parametrize('text', ['<script>alert(1)</script>', '"><img src=x onerror=alert(1)>',
                                  "' onmouseover='alert(1)", '&lt;b&gt;'])
def test_markup_is_text(text: str) -> None:
    for made in (texts.seen(text), texts.isolated(text), ansi.html(text), ansi.html(f'\x1b[31m{text}\x1b[0m')):
        for mark in '<script', '<img', '<b>', '"><', "='alert":
            assert mark not in made
    assert '&amp;lt;b' in texts.seen('&lt;b&gt;')


# GitHub writes durations as `1m 23s` and times as `3 minutes ago`.
@pytest.mark.parametrize('milliseconds, text',
                         [(0, '0s'), (7_000, '7s'), (83_000, '1m 23s'), (3_723_000, '1h 2m 3s'), (270_000_000, '3d 3h'),
                          (-5, '0s'), (None, '')])
def test_a_duration(milliseconds: int | None, text: str) -> None:
    assert moments.lasted(milliseconds) == text


@pytest.mark.parametrize('seconds, text', [(0, 'now'), (-9, 'now'), (1, '1 second ago'), (59, '59 seconds ago'),
                                           (60, '1 minute ago'), (7_199, '1 hour ago'),
                                           (172_800, '2 days ago'), (40_000_000, '1 year ago')])
def test_how_long_ago(seconds: int, text: str) -> None:
    assert moments.ago(1_000_000, 1_000_000 + seconds * 1000) == text


@pytest.mark.parametrize('seconds, text', [(120, '2 minutes'), (60, '1 minute'), (7_200, '2 hours'), (90, '1 minute'), (0, '0 seconds')])
def test_a_time_in_words(seconds: int, text: str) -> None:
    assert moments.span(seconds) == text


def test_an_exact_time() -> None:
    assert moments.exact(1_795_895_169_615) == '2026-11-28 19:46:09 UTC'
    assert moments.machine(1_795_895_169_615) == '2026-11-28T19:46:09Z'
    assert moments.exact(1 << 62) == '9999-12-31 23:59:59 UTC'


@pytest.mark.parametrize('count, text', [(0, '0 bytes'), (1, '1 byte'), (999, '999 bytes'), (1_234_567, '1.23 MB'),
                                         (64_000_000_000, '64 GB'), (5 * 10 ** 15, '5000 TB')])
def test_a_size(count: int, text: str) -> None:
    assert moments.size(count) == text


# ECMA-48, select graphic rendition; 38;5 and 38;2 as xterm takes them.
@pytest.mark.parametrize('codes, classes', [
    ('31', 'fg-red'), ('1;32', 'bold fg-green'), ('97', 'fg-bright-white'), ('44', 'bg-blue'),
    ('105', 'bg-bright-magenta'), ('4;3;9', 'italic struck underline'),
    ('38;5;1', 'fg-red'), ('38;5;12', 'fg-bright-blue'), ('38;5;196', 'fg-bright-red'), ('38;5;16', 'fg-black'),
    ('48;2;0;205;0', 'bg-green'), ('38;2;255;255;254', 'fg-bright-white'),
    ('31;39', ''), ('31;0', ''), ('', ''), ('1;22', ''), ('38;5', ''), ('38', ''), ('999999999999', ''),
    ('31;99', 'fg-red'), ('107', 'bg-bright-white')])
def test_a_colour(codes: str, classes: str) -> None:
    wanted = f'<span class="{classes}">x</span>' if classes else 'x'
    assert ansi.html(f'\x1b[{codes}mx') == wanted


def test_colours_end_where_they_are_reset() -> None:
    wanted = 'a<span class="bold fg-red">b</span><span class="fg-red">c</span>d'
    assert ansi.html('a\x1b[1;31mb\x1b[22mc\x1b[0md') == wanted


@pytest.mark.parametrize('text', ['\x1b[2K\x1b[1Aup', '\x1b]8;;https://example.org\x1b\\up\x1b]8;;\x1b\\',
                                  '\x1b]0;title\x07up', '\x1b(Bup', '10%\r50%\rup', '\x1b[?25lup\x1b[?25h'])
def test_what_moves_the_cursor_is_left_out(text: str) -> None:
    assert ansi.html(text) == 'up'
    assert ansi.without(text) == 'up'


def test_an_escape_that_is_none_is_shown() -> None:
    assert 'U+001B' in ansi.html('\x1b')


def test_an_address_is_a_link() -> None:
    made = ansi.html('see https://example.org/a?b=1&c="2" and https://example.org/x.')
    assert '<a href="https://example.org/a?b=1&amp;c" ' not in made
    assert 'href="https://example.org/a?b=1&amp;c=' in made and 'href="https://example.org/x"' in made
    assert 'javascript' not in ansi.html('javascript://x').replace('javascript://x', '')
    assert '<a' not in ansi.html('javascript://x')


# GitHub's documentation, "Workflow commands for GitHub Actions".
@pytest.mark.parametrize('raw, kind, text', [
    ('::group::Build it', 'group', 'Build it'), ('##[group]Build it', 'group', 'Build it'),
    ('::endgroup::', 'endgroup', ''), ('##[endgroup]', 'endgroup', ''),
    ('::error file=app.js,line=7,title=Bad::Missing%0Asemicolon', 'error', 'Missing\nsemicolon'),
    ('##[error]100%25 lost', 'error', '100%25 lost'),
    ('::warning::careful', 'warning', 'careful'), ('##[notice]look', 'notice', 'look'), ('::debug::x', 'debug', 'x'),
    ('##[command]git fetch', 'command', 'git fetch'),
    ('::other::x', 'plain', '::other::x'), ('say ::error::x', 'plain', 'say ::error::x'),
    ('##[unknown]x', 'plain', '##[unknown]x'), ('', 'plain', '')])
def test_a_line_of_a_log(raw: str, kind: str, text: str) -> None:
    for line, at in ((folding.line_of(5, f'2026-11-30T19:30:00.1234567Z {raw}'), '2026-11-30T19:30:00.1234567Z'),
                     (folding.line_of(5, raw), '')):
        assert (line.number, line.at, line.kind, line.text) == (5, at, kind, text)


def test_an_error_says_where() -> None:
    line = folding.line_of(1, '::error file=src/a%2Cb.js,line=7,title=Bad::No')
    assert (line.file, line.line, line.title) == ('src/a,b.js', 7, 'Bad')
    assert '<b>Error:</b> No' in steps.line_html(3, line) and 'src/a,b.js:7' in steps.line_html(3, line)


def test_a_long_line_is_cut() -> None:
    line = folding.line_of(1, 'x' * 1_000_000)
    assert len(line.text) < 5_000 and line.text.endswith('… 996000 more characters, see the raw log')


def test_groups_do_not_nest() -> None:
    lines = [folding.line_of(number, raw) for number,
             raw in enumerate(['a', '::group::one', 'b', '::group::two', 'c', '::endgroup::', 'd'], 1)]
    outer = folding.folded(lines).lines
    assert [one.number if isinstance(one, folding.Line)
            else [line.number for line in one.lines if isinstance(line, folding.Line)]
            for one in outer] == [1, [3], [5], 7]


def test_every_state_has_words_and_a_shape_of_its_own() -> None:
    kinds = {state: states.sign(state).kind for state in ('success', 'failure', 'cancelled', 'skipped', 'queued',
                                                          'waiting', 'in_progress', 'stopping')}
    assert len(set(kinds.values())) == len(kinds)
    assert states.sign('nobody knows').words == states.sign(None).words == 'Unknown'
