"""The file of an operator: what it may say, and how its faults are named."""
from __future__ import annotations

import pathlib
from typing import Any

import pytest

from acts_hub.config import ConfigError, address_of, config_of, read_config

pytestmark = pytest.mark.quick

WHOLE = '''
[service]
view = "unix:/run/acts/view"
hook = "127.0.0.1:8080"
[hub]
listen = "[::1]:8443"
url = "https://acts.example.org/"
certificate = "/etc/acts/hub.pem"
key = "/etc/acts/hub.key"
folder = "/var/lib/acts-hub"
[retention]
logs_days = 30
[access]
proxy_header = "X-Remote-User"
proxy_addresses = ["127.0.0.1", "10.0.0.0/8", "unix"]
[events]
mirrors = "/var/lib/mirrors"
default_branch = "trunk"
spool = "/var/spool"
[[repository]]
name = "octo/hello"
secret_file = "/etc/acts/secret"
[[repository]]
name = "octo/other"
default_branch = "main"
forks = true
[gateway]
anything = [1]
'''


def test_a_whole_file(tmp_path: pathlib.Path) -> None:
    (tmp_path / 'hub.toml').write_text(WHOLE)
    found = read_config(tmp_path / 'hub.toml')
    assert (found.service.view, found.service.runner) == ('unix:/run/acts/view', '127.0.0.1:8081')
    assert found.url == 'https://acts.example.org' and found.is_secure and found.retention.logs_days == 30 and found.retention.log_bytes_a_leg == 64 << 20
    assert found.access.proxy_addresses == ('127.0.0.1', '10.0.0.0/8', 'unix')
    assert [found.default_branch(name) for name in ('octo/hello', 'Octo/Other', 'else/where')] == ['trunk', 'main', 'trunk']
    assert found.events.more == {'spool': '/var/spool'} and found.repositories[1].more == {'forks': True} and found.tables == {'gateway': {'anything': [1]}}


def test_an_empty_file_has_defaults(tmp_path: pathlib.Path) -> None:
    (tmp_path / 'hub.toml').write_text('')
    found = read_config(tmp_path / 'hub.toml')
    assert found == config_of({}) and found.url == 'http://127.0.0.1:8443' and not found.is_secure


@pytest.mark.parametrize('tables, words', [
    ({'hub': {'listn': 'x'}}, r'\[hub\]: there is no listn'), ({'hub': 'x'}, r'\[hub\]: a table'), ({'hub': {'listen': 7}}, r'\[hub\] listen: a text'),
    ({'hub': {'listen': 'nowhere'}}, 'no address'), ({'hub': {'listen': '127.0.0.1:99999'}}, 'no port'), ({'hub': {'listen': 'unix:relative'}}, 'no address'),
    ({'hub': {'certificate': '/x'}}, 'go together'), ({'hub': {'url': 'javascript:alert(1)'}}, 'https://HOST'), ({'hub': {'url': 'https://x/path?<b>'}}, 'https://HOST'),
    ({'hub': {'open_loopback': 'yes'}}, 'true or false'), ({'retention': {'logs_days': -1}}, 'whole number'), ({'retention': {'logs_days': True}}, 'whole number'),
    ({'access': {'proxy_header': 'X'}}, 'go together'), ({'access': {'proxy_header': 'X', 'proxy_addresses': ['nonsense']}}, 'an address'),
    ({'access': {'proxy_header': 'X', 'proxy_addresses': '127.0.0.1'}}, 'a list'), ({'repository': [{'name': 'octo'}]}, 'no OWNER/NAME'),
    ({'repository': [{'name': '../x/y'}]}, 'no OWNER/NAME'), ({'repository': [{'name': 'o/r'}, {'name': 'O/R'}]}, 'twice'), ({'repository': {'name': 'o/r'}}, 'tables'),
    ({'gateway': 7}, 'a table')])
def test_faults_are_named(tables: dict[str, Any], words: str) -> None:
    with pytest.raises(ConfigError, match=words):
        config_of(tables)


def test_a_file_that_can_not_be_read(tmp_path: pathlib.Path) -> None:
    for text in b'[hub', b'\xff\xfe':
        (tmp_path / 'hub.toml').write_bytes(text)
        with pytest.raises(ConfigError, match='hub.toml'):
            read_config(tmp_path / 'hub.toml')
    with pytest.raises(ConfigError, match='No such file'):
        read_config(tmp_path / 'nowhere.toml')


def test_addresses() -> None:
    assert address_of('127.0.0.1:80') == ('127.0.0.1', 80) and address_of('[::1]:80') == ('::1', 80) and address_of('unix:/a/b') == pathlib.Path('/a/b')
