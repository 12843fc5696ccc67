"""Each event by GitHub's documentation, "Events that trigger workflows": its commit, its ref, its types, its filters."""
from __future__ import annotations

import asyncio
import pathlib
from typing import Any

import pytest
from repositories import Repository

from acts_hub.events.deliveries import refuse_forks
from acts_hub.events.mirrors import Mirror
from acts_hub.events.occasions import Malformed, NotTaken, Occasion, occasion_of
from acts_hub.events.settings import Repository as Configured
from acts_hub.events.starts import BY_WEBHOOK, NOT_TAKEN, RULES, Happening, not_wanted

pytestmark = pytest.mark.quick


@pytest.fixture(scope='module')
def made(tmp_path_factory: pytest.TempPathFactory) -> tuple[Repository, dict[str, str]]:
    """A repository with commits: `first` and `main` of the default branch, `topic`, `head` of pull request 5, and the tag `v1` at `first`."""
    folder = tmp_path_factory.mktemp('kinds')
    repository = Repository(folder, folder / 'mirrors')
    names = {'first': repository.push('refs/heads/main', 'first', {'a': '1'})['after']}
    repository.git('push', '-q', 'origin', 'HEAD:refs/tags/v1')
    names['main'] = repository.push('refs/heads/main', 'second', {'b': '1'})['after']
    names['topic'] = repository.push('refs/heads/topic', 'topic', {'c': '1'})['after']
    names['head'] = repository.commit('pull', {'d': '1'})
    repository.git('push', '-q', 'origin', 'HEAD:refs/pull/5/head')
    repository.git('push', '-q', 'origin', 'HEAD:refs/heads/gh-readonly-queue/main/pr-5')
    return repository, names


def occasion(repository: Repository, event: str, payload: dict[str, Any]) -> Occasion:
    async def found() -> Occasion:
        mirror = Mirror(repository.mirror)
        await mirror.fetch(60)
        return await occasion_of(event, payload, mirror, 'main')
    return asyncio.run(found())


def pull(names: dict[str, str], action: str = 'opened', base: str = 'main') -> dict[str, Any]:
    return {'action': action, 'number': 5, 'pull_request': {
        'number': 5, 'base': {'ref': base, 'sha': names['main']}, 'head': {'ref': 'change', 'sha': names['head'], 'repo': {'full_name': 'octo/hello'}}}}


# The columns GITHUB_SHA and GITHUB_REF of the documentation's tables.
ROWS: list[tuple[str, dict[str, Any], str, str]] = [
    ('create', {'ref': 'topic', 'ref_type': 'branch'}, 'topic', 'refs/heads/topic'),
    ('create', {'ref': 'v1', 'ref_type': 'tag'}, 'first', 'refs/tags/v1'),
    ('delete', {'ref': 'gone', 'ref_type': 'branch'}, 'main', 'refs/heads/main'),
    ('issue_comment', {'action': 'created', 'issue': {}, 'comment': {}}, 'main', 'refs/heads/main'),
    ('issues', {'action': 'opened'}, 'main', 'refs/heads/main'),
    ('release', {'action': 'published', 'release': {'tag_name': 'v1', 'draft': False}}, 'first', 'refs/tags/v1'),
    ('repository_dispatch', {'action': 'deploy'}, 'main', 'refs/heads/main'),
    ('schedule', {'schedule': '0 0 * * *'}, 'main', 'refs/heads/main'),
    ('workflow_run', {'action': 'completed', 'workflow_run': {'head_branch': 'topic'}, 'workflow': {'name': 'CI'}}, 'main', 'refs/heads/main'),
    ('workflow_dispatch', {'ref': 'refs/heads/topic'}, 'topic', 'refs/heads/topic'),
    ('workflow_dispatch', {'ref': 'refs/tags/v1'}, 'first', 'refs/tags/v1'),
    ('watch', {'action': 'started'}, 'main', 'refs/heads/main')]


@pytest.mark.parametrize('event, payload, commit, ref', ROWS, ids=[f'{row[0]}-{at}' for at, row in enumerate(ROWS)])
def test_where_it_happens(made: tuple[Repository, dict[str, str]], event: str, payload: dict[str, Any], commit: str, ref: str) -> None:
    repository, names = made
    found = occasion(repository, event, payload)
    assert (found.commit, found.ref) == (names[commit], ref)
    assert found.github['ref_type'] == ('tag' if ref.startswith('refs/tags') else 'branch')


def test_a_pull_request_and_what_follows_it(made: tuple[Repository, dict[str, str]]) -> None:
    repository, names = made
    for event in 'pull_request', 'pull_request_review', 'pull_request_review_comment':
        found = occasion(repository, event, pull(names))
        assert (found.commit, found.ref, found.base_ref, found.head_ref) == (names['head'], 'refs/pull/5/merge', 'main', 'change')


def test_pull_request_target_has_the_workflows_of_the_default_branch(made: tuple[Repository, dict[str, str]]) -> None:
    """Its commit and ref are those of the default branch; its filters those of the pull request's base."""
    repository, names = made
    found = occasion(repository, 'pull_request_target', pull(names, base='release'))
    assert (found.commit, found.ref, found.happening.name, found.base_ref) == (names['main'], 'refs/heads/main', 'release', 'release')


def test_a_merge_group(made: tuple[Repository, dict[str, str]]) -> None:
    repository, names = made
    group = {'head_sha': names['head'], 'head_ref': 'refs/heads/gh-readonly-queue/main/pr-5', 'base_sha': names['main'], 'base_ref': 'refs/heads/main'}
    found = occasion(repository, 'merge_group', {'action': 'checks_requested', 'merge_group': group})
    assert (found.commit, found.ref, found.base_ref) == (names['head'], 'refs/heads/gh-readonly-queue/main/pr-5', 'main')


@pytest.mark.parametrize('action, taken', [('created', False), ('edited', False), ('deleted', False), ('published', True)])
def test_drafts_of_releases(made: tuple[Repository, dict[str, str]], action: str, taken: bool) -> None:
    """GitHub Docs: not triggered for created, edited or deleted of drafts."""
    payload = {'action': action, 'release': {'tag_name': 'v1', 'draft': True}}
    if taken:
        assert occasion(made[0], 'release', payload).ref == 'refs/tags/v1'
    else:
        with pytest.raises(NotTaken):
            occasion(made[0], 'release', payload)


@pytest.mark.parametrize('event, payload', [
    ('push', {}), ('push', {'ref': 5, 'after': 'x'}), ('push', {'ref': 'refs/heads/main', 'after': '--help'}), ('release', {'action': 'published'}),
    ('release', {'release': {'tag_name': '../../x'}}), ('release', {'release': {'tag_name': '--output=x'}}), ('create', {'ref': '-x', 'ref_type': 'branch'}),
    ('pull_request', {'pull_request': []}), ('pull_request', {'number': True, 'pull_request': {'base': {'ref': 'a', 'sha': 40 * 'a'}, 'head': {'ref': 'b', 'sha': 40 * 'b'}}}),
    ('merge_group', {'merge_group': {'head_ref': 'refs/heads/x'}}), ('workflow_run', {'workflow_run': None}), ('create', {'ref': 'a' * 5000, 'ref_type': 'branch'})],
    ids=range(12))
def test_payloads_that_are_none_of_such_an_event(made: tuple[Repository, dict[str, str]], event: str, payload: dict[str, Any]) -> None:
    with pytest.raises((Malformed, NotTaken)):
        occasion(made[0], event, payload)


# `on`, what happened, and whether it starts: by the sections of the events and of the workflow syntax.
WANTED: list[tuple[Any, Happening, bool]] = [
    ('release', Happening('release', 'edited'), True),  # all types by default
    ({'release': {'types': ['published']}}, Happening('release', 'edited'), False),
    ({'release': {'types': 'published'}}, Happening('release', 'published'), True),
    ('pull_request', Happening('pull_request', 'synchronize', name='main'), True),
    ('pull_request', Happening('pull_request', 'labeled', name='main'), False),
    ({'pull_request': {'types': ['labeled']}}, Happening('pull_request', 'labeled', name='main'), True),
    ({'pull_request_target': {'branches': ['main']}}, Happening('pull_request_target', 'opened', name='release'), False),
    ({'pull_request_target': {'paths': ['docs/**']}}, Happening('pull_request_target', 'opened', name='main', files=['docs/a']), True),
    ({'issue_comment': {'types': ['created', 'edited']}}, Happening('issue_comment', 'deleted'), False),
    ('issue_comment', Happening('issue_comment', 'deleted'), True),
    ('create', Happening('create', None, 'tags', 'v1'), True),
    ({'workflow_run': {'workflows': ['CI']}}, Happening('workflow_run', 'in_progress', name='main', workflow='CI'), True),
    ({'workflow_run': {'workflows': ['CI'], 'types': ['completed']}}, Happening('workflow_run', 'requested', name='main', workflow='CI'), False),
    ({'workflow_run': {'workflows': ['CI']}}, Happening('workflow_run', 'completed', name='main', workflow='Other'), False),
    ({'workflow_run': {'workflows': ['CI'], 'branches': ['releases/**']}}, Happening('workflow_run', 'completed', name='main', workflow='CI'), False),
    ({'workflow_run': {'workflows': ['CI'], 'branches-ignore': ['canary']}}, Happening('workflow_run', 'completed', name='main', workflow='CI'), True),
    ({'repository_dispatch': {'types': ['test_result']}}, Happening('repository_dispatch', 'other'), False),
    ('repository_dispatch', Happening('repository_dispatch', 'anything'), True),
    ('merge_group', Happening('merge_group', 'checks_requested', name='main'), True),
    ('merge_group', Happening('merge_group', 'destroyed', name='main'), False),
    ({'push': {'branches': ['main'], 'paths': ['src/**']}}, Happening('push', None, 'branches', 'main', ['docs/a']), False),
    ({'push': {'branches': ['main'], 'paths': ['src/**']}}, Happening('push', None, 'branches', 'main', None), True),
    ({'push': {'paths': ['src/**']}}, Happening('push', None, 'tags', 'v1', ['docs/a']), True),  # not evaluated for tags
    ({'push': {'tags': ['v*']}}, Happening('push', None, 'branches', 'main'), False),
    ({'schedule': [{'cron': '0 0 * * *'}]}, Happening('schedule'), True),
    ('push', Happening('release', 'published'), False)]


@pytest.mark.parametrize('on, at, starts', WANTED, ids=range(len(WANTED)))
def test_what_on_starts(on: Any, at: Happening, starts: bool) -> None:
    assert (not_wanted(on, at) is None) == starts


def test_pull_requests_of_forks() -> None:
    """They start nothing unless the operator allows it; `pull_request_target` runs what the base says."""
    fork = {'pull_request': {'head': {'repo': {'full_name': 'mona/hello'}}}}
    own = {'pull_request': {'head': {'repo': {'full_name': 'Octo/Hello'}}}}

    def configured(forks: bool) -> Configured:
        return Configured('octo/hello', None, forks, False, {}, None)
    for event in 'pull_request', 'pull_request_review', 'pull_request_review_comment':
        with pytest.raises(NotTaken):
            refuse_forks(event, fork, configured(False))
        refuse_forks(event, fork, configured(True))
        refuse_forks(event, own, configured(False))
    refuse_forks('pull_request_target', fork, configured(False))


def test_each_event_is_taken_from_one_place() -> None:
    """What is made here, or needs a token, is not taken from a webhook under the same name."""
    assert not BY_WEBHOOK & {'workflow_dispatch', 'schedule', 'workflow_run', 'pull_request_target'}
    assert BY_WEBHOOK <= RULES.keys() and set(NOT_TAKEN) <= {'workflow_call', 'workflow_dispatch', 'repository_dispatch'}


def test_a_path_of_a_mirror_can_not_leave_its_folder(tmp_path: pathlib.Path) -> None:
    from acts_hub.config import ConfigError, config_of
    for name in '../x', 'octo/../x', 'octo/..', '/etc/passwd', 'octo/hello/x', 'octo/hello\n', 'x/y z', './x':
        with pytest.raises(ConfigError):
            config = config_of({'repository': [{'name': name}]})
            from acts_hub.events.settings import settings_of
            settings_of(config)
