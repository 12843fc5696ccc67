"""Where an event happened: the commit whose workflows it may start, and the values of `github` for it."""
from __future__ import annotations

import re
from dataclasses import dataclass, replace
from typing import Any, Mapping

from .mirrors import COMMIT, EMPTY_TREE, REF, Mirror, NoCommit
from .starts import RULES, Happening

Tree = Mapping[str, Any]
LONGEST_ACTION = 100


class NotTaken(Exception):
    """The whole event starts nothing, and why."""


class Malformed(Exception):
    """The payload is not that of such an event."""


@dataclass(frozen=True)
class Occasion:
    """`commit` is the one whose workflows are read, `head` the newest of the event, which gets statuses."""

    happening: Happening
    commit: str
    head: str
    ref: str
    base_ref: str = ''
    head_ref: str = ''
    span: tuple[str, ...] | None = None  # what is compared for the files that changed

    @property
    def github(self) -> dict[str, Any]:
        """The values of `github` that say where it is."""
        name = self.ref.split('/', 2)[2]
        return {'ref': self.ref, 'ref_name': name, 'ref_type': 'tag' if self.ref.startswith('refs/tags/') else 'branch',
                'sha': self.commit, 'base_ref': self.base_ref, 'head_ref': self.head_ref}


def at(value: Any, *names: str) -> Any:
    """A member of a payload; None if it is not there."""
    for name in names:
        value = value.get(name) if isinstance(value, dict) else None
    return value


def text(payload: Any, *names: str) -> str:
    """A text that a payload has to have."""
    found = at(payload, *names)
    if not isinstance(found, str) or not found:
        raise Malformed(f'the payload has no text {".".join(names)}')
    return found


def sha(payload: Any, *names: str) -> str:
    """A commit that a payload has to name by its hash."""
    found = text(payload, *names)
    if not COMMIT.fullmatch(found):
        raise Malformed(f'{".".join(names)} of the payload is no commit')
    return found


def action_of(payload: Tree) -> str | None:
    """What was done."""
    action = payload.get('action')
    return action[:LONGEST_ACTION] if isinstance(action, str) else None


async def default_ref(mirror: Mirror, branch: str) -> str:
    """The default branch: the mirror's, or else the configured one."""
    return await mirror.default_branch() or f'refs/heads/{branch}'


async def occasion_of(event: str, payload: Tree, mirror: Mirror, branch: str) -> Occasion:
    """Where an event happened."""
    place = RULES[event].place
    if place == 'push':
        return await pushed(payload, mirror)
    if place == 'pull':
        return await pulled(event, payload, mirror)
    if place == 'ref':
        return await at_ref(event, payload, mirror)
    if place == 'release':
        return await released(payload, mirror)
    if place == 'group':
        return await grouped(payload, mirror)
    return await at_default(event, payload, mirror, branch)


async def pushed(payload: Tree, mirror: Mirror) -> Occasion:
    """A push to a branch or tag: the commit is the pushed one."""
    if payload.get('deleted') or not text(payload, 'after').strip('0'):
        raise NotTaken('the branch or tag was deleted')
    ref = ref_of(text(payload, 'ref'))
    if not ref.startswith(('refs/heads/', 'refs/tags/')):
        raise NotTaken(f'{ref[:100]} is neither a branch nor a tag')
    commit = await mirror.commit(sha(payload, 'after'))
    happening = Happening('push', None, 'tags' if ref.startswith('refs/tags/') else 'branches', ref.split('/', 2)[2])
    return Occasion(happening, commit, commit, ref, span=await span_of(payload, commit, mirror))


async def span_of(payload: Tree, commit: str, mirror: Mirror) -> tuple[str, ...] | None:
    """For an existing branch what it was before, for a new one the parent of its first new commit. None if there is
    nothing to compare with."""
    before, commits = payload.get('before'), payload.get('commits')
    if not isinstance(before, str) or not COMMIT.fullmatch(before):
        return None
    if not before.strip('0'):
        first = at(commits[0], 'id') if isinstance(commits, list) and commits else None
        if not isinstance(first, str) or not COMMIT.fullmatch(first) or not await mirror.has(first):
            return None
        before = ([*await mirror.parents(first), EMPTY_TREE])[0]
    elif not await mirror.has(before):
        return None
    return before, commit


async def pulled(event: str, payload: Tree, mirror: Mirror) -> Occasion:
    """A pull request: the commit is the merge, if the mirror has it for the newest push, else the head."""
    pull, number = payload.get('pull_request'), pull_number(payload)
    base_ref, head_ref = text(pull, 'base', 'ref'), text(pull, 'head', 'ref')
    head, base = await mirror.commit(sha(pull, 'head', 'sha')), sha(pull, 'base', 'sha')
    ref, commit = f'refs/pull/{number}/merge', head
    if await mirror.has(ref):
        merge = await mirror.commit(ref)
        if (await mirror.parents(merge))[1:] == [head]:  # with another second parent it is the merge of an earlier push
            commit = merge
    happening = Happening(event, action_of(payload), 'branches', base_ref)
    return Occasion(happening, commit, head, ref, base_ref, head_ref, (f'{base}...{head}',))


def pull_number(payload: Tree) -> int:
    """The number of a pull request."""
    for number in payload.get('number'), at(payload, 'pull_request', 'number'):
        if isinstance(number, int) and not isinstance(number, bool) and 0 < number < 1 << 53:
            return number
    raise Malformed('the payload has no number of a pull request')


def ref_of(name: str, kind: str = 'heads') -> str:
    """The full name of a ref. One that git would not take is none."""
    ref = name if name.startswith('refs/') else f'refs/{kind}/{name}'
    if not REF.fullmatch(ref):
        raise Malformed(f'{name[:100]} is no name of a branch or tag')
    return ref


async def at_ref(event: str, payload: Tree, mirror: Mirror) -> Occasion:
    """A branch or tag that was made, or that is named for a run that is started by hand."""
    ref = ref_of(text(payload, 'ref'), 'tags' if payload.get('ref_type') == 'tag' else 'heads')
    if not mirror.is_fetched:
        raise NoCommit(f'{mirror.folder} was not fetched, so {ref} may be another commit by now')
    commit = await mirror.commit(ref)
    kind = 'tags' if ref.startswith('refs/tags/') else 'branches'
    return Occasion(Happening(event, action_of(payload), kind, ref.split('/', 2)[2]), commit, commit, ref)


async def released(payload: Tree, mirror: Mirror) -> Occasion:
    """A release: the commit is the one of its tag. A draft starts nothing when it is made, edited or deleted."""
    action = action_of(payload)
    if at(payload, 'release', 'draft') is True and action in ('created', 'edited', 'deleted'):
        raise NotTaken('the release is a draft')
    ref = ref_of(text(payload, 'release', 'tag_name'), 'tags')
    commit = await mirror.commit(ref)
    return Occasion(Happening('release', action, 'tags', ref.split('/', 2)[2]), commit, commit, ref)


async def grouped(payload: Tree, mirror: Mirror) -> Occasion:
    """A group of pull requests that is to be merged: the commit is the group's."""
    ref = ref_of(text(payload, 'merge_group', 'head_ref'))
    commit = await mirror.commit(sha(payload, 'merge_group', 'head_sha'))
    base = ref_of(text(payload, 'merge_group', 'base_ref')).split('/', 2)[2]
    happening = Happening('merge_group', action_of(payload), 'branches', base)
    return Occasion(happening, commit, commit, ref, base_ref=base)


async def at_default(event: str, payload: Tree, mirror: Mirror, branch: str) -> Occasion:
    """An event of the repository: the commit is the newest of the default branch."""
    ref = await default_ref(mirror, branch)
    commit = await mirror.commit(ref)
    made = Occasion(Happening(event, action_of(payload), 'branches', ref.split('/', 2)[2]), commit, commit, ref)
    if event == 'pull_request_target':
        return await of_target(made, payload, mirror)
    if event == 'workflow_run':
        run, name = payload.get('workflow_run'), at(payload, 'workflow', 'name')
        happening = replace(made.happening, name=text(run, 'head_branch'), workflow=str(name or ''))
        return replace(made, happening=happening)
    return made


async def of_target(made: Occasion, payload: Tree, mirror: Mirror) -> Occasion:
    """A pull request whose workflows are those of the default branch: only its filters are of the pull request."""
    pull = payload.get('pull_request')
    base_ref, head_ref = text(pull, 'base', 'ref'), text(pull, 'head', 'ref')
    base, head = sha(pull, 'base', 'sha'), sha(pull, 'head', 'sha')
    known = await mirror.has(base) and await mirror.has(head)
    return replace(made, happening=replace(made.happening, name=base_ref), base_ref=base_ref, head_ref=head_ref,
                   span=(f'{base}...{head}',) if known else None)


SKIP = re.compile(r'\[(?:skip ci|ci skip|no ci|skip actions|actions skip)\]|^skip-checks: *true', re.M)


async def is_skipped(occasion: Occasion, mirror: Mirror) -> bool:
    """Whether the message of the newest commit asks for no run: of a push or a pull request alone."""
    if occasion.happening.event not in ('push', 'pull_request'):
        return False
    return bool(SKIP.search(await mirror.message(occasion.head)))
