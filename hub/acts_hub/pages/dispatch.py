"""Starting a workflow by hand: the form of its inputs, and what becomes of what a person sent."""
from __future__ import annotations

from collections.abc import Mapping, Sequence
from dataclasses import dataclass
from typing import Any

from aiohttp import web

from ..access.identity import Right, require
from . import inputs
from .names import repository_link, workflow_link
from .site import Site

MOST_REF = 255


@dataclass(frozen=True)
class Field:
    """An input in the form, with its value."""

    field: str
    kind: str
    label: str
    is_required: bool
    options: tuple[str, ...]
    value: str


@dataclass(frozen=True)
class Form:
    """The form that starts a workflow."""

    action: str
    ref: str
    inputs: tuple[Field, ...]
    faults: tuple[str, ...]


async def form_of(site: Site, request: web.Request, repository: str, path: str, sent: Mapping[str, Any] | None = None,
                  faults: Sequence[str] = ()) -> Form | None:
    """The form of a workflow; None if it can't be started by hand, or not by who looks."""
    if not site.may(request, Right.WRITE, repository):
        return None
    file = (await site.files.of(repository)).get(path)
    if file is None or file.inputs is None:
        return None
    fields = tuple(Field(one.field, one.kind, one.label, one.is_required, one.options,
                         one.default if sent is None else str(sent.get(one.field, '')))
                   for one in file.inputs)
    ref = str(sent.get('ref', '')) if sent else site.hub.config.default_branch(repository)
    return Form(f'{workflow_link(repository, path)}/dispatch', ref, fields, tuple(faults))


async def dispatched(site: Site, request: web.Request, repository: str, path: str) -> tuple[Mapping[str, Any], str]:
    """Starts a workflow as its form says, and goes on at its run; gives what was sent, and why it was not started."""
    identity = require(request, Right.WRITE, repository)
    sent = await site.check_form(request)
    file = (await site.files.of(repository)).get(path)
    if file is None or file.inputs is None:
        return sent, 'This workflow can not be started by hand.'
    ref = sent.get('ref')
    if not isinstance(ref, str) or not 0 < len(ref) <= MOST_REF:
        return sent, 'A branch or tag is wanted.'
    reply = await site.hub.events.dispatch(repository, path, ref, inputs.sent_values(file.inputs, sent), identity.name)
    if not reply.ok:
        return sent, reply.words
    run = reply.run
    if run is not None and await site.hub.mirror.settled(lambda: run in site.hub.mirror.runs, 2):
        raise web.HTTPSeeOther(f'{repository_link(repository)}/runs/{run}?did=dispatch')
    raise web.HTTPSeeOther(f'{workflow_link(repository, path)}?did=dispatch')
