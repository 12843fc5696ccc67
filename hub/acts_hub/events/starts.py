"""Which workflows an event starts: what GitHub's documentation says of each event that is taken."""
from __future__ import annotations

from dataclasses import dataclass
from typing import Any, Mapping, Sequence

from acts_workflow.filters import as_list, chosen, has, passes, triggers_of
from acts_workflow.values import Fault, text_of


@dataclass(frozen=True)
class Rule:
    """What holds of an event. `place` says where it happens: at `push` what was pushed, a `pull` request, the `default`
    branch, the `base` of a pull request, a `ref` that was made, a `release`, or a `group` that is to be merged."""

    place: str
    types: tuple[str, ...] | None = None  # by default; None for all, or for an event without types
    has_types: bool = True


RULES: Mapping[str, Rule] = {
    'push': Rule('push', has_types=False),
    'pull_request': Rule('pull', ('opened', 'synchronize', 'reopened')),
    'pull_request_target': Rule('default', ('opened', 'synchronize', 'reopened')),
    'pull_request_review': Rule('pull'),
    'pull_request_review_comment': Rule('pull'),
    'workflow_dispatch': Rule('ref', has_types=False),
    'schedule': Rule('default', has_types=False),
    'release': Rule('release'),
    'create': Rule('ref', has_types=False),
    'delete': Rule('default', has_types=False),
    'issue_comment': Rule('default'),
    'issues': Rule('default'),
    'label': Rule('default'),
    'milestone': Rule('default'),
    'discussion': Rule('default'),
    'discussion_comment': Rule('default'),
    'watch': Rule('default'),
    'fork': Rule('default', has_types=False),
    'public': Rule('default', has_types=False),
    'gollum': Rule('default', has_types=False),
    'workflow_run': Rule('default', ('completed', 'requested', 'in_progress')),
    'repository_dispatch': Rule('default'),
    'merge_group': Rule('group', ('checks_requested',)),
}
BY_WEBHOOK = frozenset(RULES) - {
    'workflow_dispatch', 'schedule', 'workflow_run', 'repository_dispatch', 'pull_request_target'}
OF_A_PULL = frozenset(
    'assigned auto_merge_disabled auto_merge_enabled closed converted_to_draft demilestoned dequeued edited enqueued '
    'labeled locked milestoned opened ready_for_review reopened review_request_removed review_requested synchronize unassigned '
    'unlabeled unlocked'.split())
TYPES: Mapping[str, frozenset[str]] = {  # those that GitHub has, of the events whose types are few
    'pull_request': OF_A_PULL, 'pull_request_target': OF_A_PULL,
    'issue_comment': frozenset(('created', 'edited', 'deleted')),
    'pull_request_review': frozenset(('submitted', 'edited', 'dismissed')),
    'pull_request_review_comment': frozenset(('created', 'edited', 'deleted')),
    'release': frozenset('published unpublished created edited deleted prereleased released'.split()),
    'workflow_run': frozenset(('completed', 'requested', 'in_progress')),
    'merge_group': frozenset(('checks_requested',)),
    'watch': frozenset(('started',)), 'label': frozenset(('created', 'edited', 'deleted')),
    'milestone': frozenset('created closed opened edited deleted'.split())}
NOT_TAKEN = {
    'workflow_call': 'other workflows call it',
    'workflow_dispatch': 'start it from the page of the workflow, by `gh workflow run`, or over REST',
    'repository_dispatch': 'post it over REST, with a token of the hub',
}


@dataclass(frozen=True)
class Happening:
    """What the filters of `on` ask of an event. `kind` is `branches` or `tags`, and `name` that of the branch or tag;
    `files` are those that changed, or None if that is not known."""

    event: str
    action: str | None = None
    kind: str = 'branches'
    name: str = ''
    files: Sequence[str] | None = None
    workflow: str = ''  # whose run it is, for `workflow_run`


def asks_for_files(on: Any, event: str) -> bool:
    """Whether `on` has filters of paths for an event."""
    filters = triggers_of(on).get(event)
    return isinstance(filters, dict) and has(filters, 'paths')


def not_wanted(on: Any, at: Happening) -> str | None:
    """Why `on` does not start the workflow; None if it does."""
    triggers = triggers_of(on)
    if at.event not in triggers:
        return f'`on` does not name {at.event}'
    filters = triggers[at.event]
    if at.event in ('workflow_dispatch', 'schedule'):
        return None
    return wrong_type(filters, at) or wrong_workflow(filters, at) or wrong_name(filters, at) or wrong_files(filters, at)


def wrong_type(filters: Mapping[str, Any], at: Happening) -> str | None:
    """Whether `types` leave out what was done."""
    rule = RULES[at.event]
    types = filters.get('types', list(rule.types) if rule.types else None) if rule.has_types else None
    if types is None or at.action in [text_of(each) for each in as_list(types)]:
        return None
    return f'its `types` are without {at.action}'


def wrong_workflow(filters: Mapping[str, Any], at: Happening) -> str | None:
    """Whether `workflows` leave out the workflow whose run it is."""
    if at.event != 'workflow_run':
        return None
    if 'workflows' not in filters:
        raise Fault('on.workflow_run has no `workflows`', 'on.workflow_run')
    return None if chosen(at.workflow, filters['workflows']) else f'its `workflows` leave out {at.workflow}'


def wrong_name(filters: Mapping[str, Any], at: Happening) -> str | None:
    """Whether the filters of branches or tags leave out the name."""
    if at.event == 'push':
        other = 'tags' if at.kind == 'branches' else 'branches'
        if has(filters, other) and not has(filters, at.kind):
            return f'it asks for {other} alone'
    elif at.event not in ('pull_request', 'pull_request_target', 'workflow_run', 'merge_group'):
        return None
    return None if passes(filters, at.kind, [at.name]) else f'its `{at.kind}` leave out {at.name}'


def wrong_files(filters: Mapping[str, Any], at: Happening) -> str | None:
    """Whether the filters of paths leave out all files that changed."""
    if at.event not in ('push', 'pull_request', 'pull_request_target') or at.kind == 'tags' or at.files is None:
        return None
    return 'its `paths` leave out all files that changed' if not passes(filters, 'paths', at.files) else None
