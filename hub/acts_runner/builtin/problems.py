"""The problem matchers that `actions/setup-*` add: what compilers and interpreters print, as annotations."""
from __future__ import annotations

from typing import Any

Matcher = dict[str, Any]


def matcher(owner: str, *patterns: Matcher) -> Matcher:
    """A matcher, in the form of a file."""
    return {'owner': owner, 'pattern': list(patterns)}


TSC = matcher('tsc', {
    'regexp': r'^([^\s].*)[(:](\d+)[,:](\d+)(?:\):\s+|\s+-\s+)(error|warning)\s+(TS\d+)\s*:\s*(.*)$',
    'file': 1, 'line': 2, 'column': 3, 'severity': 4, 'code': 5, 'message': 6})
ESLINT_COMPACT = matcher('eslint-compact', {
    'regexp': r'^(.+):\sline\s(\d+),\scol\s(\d+),\s(Error|Warning)\s-\s(.+)\s\((.+)\)$',
    'file': 1, 'line': 2, 'column': 3, 'severity': 4, 'message': 5, 'code': 6})
ESLINT_STYLISH = matcher(
    'eslint-stylish', {'regexp': r'^\s*([^\s].*)$', 'file': 1},
    {'regexp': r'^\s+(\d+):(\d+)\s+(error|warning)\s+(.*)\s\s+(.*)$',
     'line': 1, 'column': 2, 'severity': 3, 'message': 4, 'code': 5, 'loop': True})
PYTHON = matcher('python', {'regexp': r'^\s*File\s"(.*)",\sline\s(\d+),\sin\s.*$', 'file': 1, 'line': 2},
                 {'regexp': r"^\s*raise\s.*\('(.*)'\)$", 'message': 1})
GO = matcher('go', {'regexp': r'^\s*(\.{0,2}[/\\].+\.go|[^\s:]+\.go):(\d+):(?:(\d+):)?\s+(.*)$',
                    'file': 1, 'line': 2, 'column': 3, 'message': 4})
JAVA = matcher('java', {'regexp': r'^(?:\[\w+\]\s+)?([^\s:].*\.java):(\d+):\s+(error|warning):\s+(.*)$',
                        'file': 1, 'line': 2, 'severity': 3, 'message': 4})
OF_TOOLS = {'node': [TSC, ESLINT_COMPACT, ESLINT_STYLISH], 'python': [PYTHON], 'go': [GO], 'java': [JAVA]}
