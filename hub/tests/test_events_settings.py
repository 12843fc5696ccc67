"""What an operator may set for events, and the faults of it in words."""
from __future__ import annotations

import pathlib
from typing import Any

import pytest

from acts_hub.config import ConfigError, config_of
from acts_hub.events.bodies import Server, api_of
from acts_hub.events.room import full_of
from acts_hub.events.settings import NotReadable, Settings, settings_of

pytestmark = pytest.mark.quick


def made(events: dict[str, Any] | None = None, **repository: Any) -> Settings:
    return settings_of(config_of({'events': events or {}, 'repository': [{'name': 'Octo/Hello', **repository}]}))


def test_defaults_and_what_a_repository_has_of_its_own() -> None:
    settings = made({'forks': True, 'environments': {'Staging': 'free', 'live': 'approval'}}, environments={'live': 'free'}, pull_request_target=True)
    repository = settings.repository('octo/hello')
    assert repository is not None and repository.name == 'Octo/Hello' and repository.forks and repository.pull_request_target
    assert repository.environments == {'staging': False, 'live': False} and repository.protected is None
    assert (settings.wait, settings.queue_timeout, settings.held_over) == (8, 0, 0.9) and settings.repository('octo/other') is None


@pytest.mark.parametrize('events, repository, words', [
    ({'nothing': 1}, {}, 'there is no nothing'), ({'forks': 'yes'}, {}, 'forks: true or false'), ({'wait': -1}, {}, 'wait: a number of seconds'),
    ({'wait': True}, {}, 'wait: a number'), ({'environments': {'live': 'open'}}, {}, 'environments: a table'), ({'held_over': 0}, {}, 'held_over'),
    ({'statuses': 'ftp://x'}, {}, 'statuses: an address'), ({'statuses': 'https://api.example.org'}, {}, 'statuses needs token_file'),
    ({'post': 'https://example.org'}, {}, 'post needs post_secret_file'), ({'server_url': 'https://a b'}, {}, 'server_url'),
    ({}, {'forks': 1}, 'forks: true or false'), ({}, {'other': 1}, 'there is no other'), ({}, {'protected': 'main'}, 'protected: a list')], ids=range(13))
def test_faults(events: dict[str, Any], repository: dict[str, Any], words: str) -> None:
    with pytest.raises(ConfigError) as raised:
        made(events, **repository)
    assert words in str(raised.value)


def test_secrets_of_repositories(tmp_path: pathlib.Path) -> None:
    (tmp_path / 'a').write_bytes(b'  one \n')
    (tmp_path / 'empty').write_bytes(b' \n')
    tables = [{'name': 'octo/a', 'secret_file': str(tmp_path / 'a')}, {'name': 'octo/b', 'secret_file': str(tmp_path / 'empty')},
              {'name': 'octo/c', 'secret_file': str(tmp_path / 'none')}, {'name': 'octo/d'}]
    assert settings_of(config_of({'repository': tables})).secrets() == {'octo/a': b'one'}


@pytest.mark.parametrize('text', ['{', '[]', '{"octo/hello": 5}', '[' * 100_000])
def test_variables_with_a_fault(tmp_path: pathlib.Path, text: str) -> None:
    (tmp_path / 'vars').write_text(text)
    with pytest.raises(NotReadable):
        made({'vars': str(tmp_path / 'vars')}).variables('octo/hello')


def test_addresses_of_the_sender() -> None:
    assert api_of('https://github.com') == 'https://api.github.com' and api_of('https://git.example.org') == 'https://git.example.org/api/v3'
    payload = {'repository': {'full_name': 'octo/hello', 'html_url': 'https://github.com/octo/hello'}}
    assert Server('https://hub', Settings()).urls(payload) == {
        'server_url': 'https://hub', 'api_url': 'https://api.github.com', 'graphql_url': 'https://api.github.com/graphql'}
    assert Server('https://hub', Settings(server_url='https://git', api_url='https://git/api/v3')).urls({}) == {
        'server_url': 'https://git', 'api_url': 'https://git/api/v3', 'graphql_url': 'https://git/api/graphql'}
    assert Server('https://hub', Settings()).urls({'repository': {'full_name': 'x', 'html_url': 5}}) == {'server_url': 'https://hub'}


def test_how_full_a_file_is() -> None:
    text = '# TYPE acts_area_bytes gauge\nacts_area_bytes 1000\nacts_area_room_bytes 50\nacts_area_bytes_more 7\n'
    assert (full_of(text), full_of(text, 20), full_of(text, 80)) == (0.95, 0.97, 1.0)
    assert full_of('') == 0.0 and full_of('acts_area_bytes 0\nacts_area_room_bytes 0\n') == 0.0
