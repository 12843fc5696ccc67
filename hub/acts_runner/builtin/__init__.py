"""The actions that the runner does itself."""
from __future__ import annotations

import os
import re

from ..options import Options
from .artifacts import Download, Upload
from .base import Builtin
from .cache import Cache, Restore, Save
from .checkout import Checkout
from .setup import TOOLS

ACTIONS: dict[str, Builtin] = {'checkout': Checkout(), 'upload-artifact': Upload(), 'download-artifact': Download(),
                               'cache': Cache(), 'cache/restore': Restore(), 'cache/save': Save()}


def builtin_of(uses: str, options: Options) -> Builtin | None:
    """What this runner does in place of an action; None if it takes the action itself."""
    found = re.fullmatch(r'actions/([a-z/-]+)@([\w./-]+)', uses)
    if not found:
        return None
    if found[1] in ('upload-artifact', 'download-artifact') and found[2] in ('v1', 'v2', 'v3'):
        raise ValueError('artifacts are those of version 4 and later')
    place = os.path.join(options.actions, 'actions', found[1]) if options.actions else None
    mirrored = place and any(os.path.isdir(place + end) for end in ('.git', ''))
    return ACTIONS.get(found[1]) or (None if mirrored else TOOLS.get(found[1]))
