"""What an operator sets: a file of TOML."""
from __future__ import annotations

import dataclasses
import ipaddress
import pathlib
import re
import tomllib
from collections.abc import Callable, Mapping
from dataclasses import dataclass, field
from typing import Any

REPOSITORY = re.compile(r'[A-Za-z0-9_.-]{1,100}/[A-Za-z0-9_.-]{1,100}')
ADDRESS = re.compile(r'unix:(?P<path>/.+)|(?P<host>[A-Za-z0-9_.-]+|\[[0-9A-Fa-f:]+\]):(?P<port>[0-9]{1,5})')
MIB = 1 << 20


class ConfigError(Exception):
    """A fault of the file, in words."""


@dataclass(frozen=True)
class ServiceConfig:
    """Where the three ports of the service are: `unix:/path` or `127.0.0.1:8083`."""

    view: str = '127.0.0.1:8083'
    hook: str = '127.0.0.1:8080'
    runner: str = '127.0.0.1:8081'


@dataclass(frozen=True)
class HubConfig:
    """Where the hub listens, what clients call it, and its folder of state."""

    listen: str = '127.0.0.1:8443'
    url: str = ''
    certificate: pathlib.Path | None = None
    key: pathlib.Path | None = None
    unix: pathlib.Path | None = None
    folder: pathlib.Path = pathlib.Path('/var/lib/acts-hub')
    open_loopback: bool = False


@dataclass(frozen=True)
class Retention:
    """How long, and how much, is kept."""

    logs_days: int = 90
    artifacts_days: int = 90
    log_bytes_a_leg: int = 64 * MIB
    artifact_bytes: int = 1024 * MIB
    artifacts_bytes_a_run: int = 4096 * MIB
    caches_bytes: int = 10 * 1024 * MIB
    cache_days: int = 7


@dataclass(frozen=True)
class AccessConfig:
    """Sign-in by a proxy, and how many requests a client may make."""

    proxy_header: str = ''
    proxy_addresses: tuple[str, ...] = ()
    wrong_tokens_a_minute: int = 20
    requests_a_second: int = 100
    requests_burst: int = 1000
    session_days: int = 14
    silence_seconds: int = 60
    trusted_forwarders: tuple[str, ...] = ()


@dataclass(frozen=True)
class EventsConfig:
    """Where events come from; `more` has the members that the part `events` reads itself."""

    mirrors: pathlib.Path | None = None
    default_branch: str = 'main'
    more: Mapping[str, Any] = field(default_factory=dict)


@dataclass(frozen=True)
class RepositoryConfig:
    """A repository that sends webhooks."""

    name: str
    secret_file: pathlib.Path | None = None
    default_branch: str = ''
    more: Mapping[str, Any] = field(default_factory=dict)


@dataclass(frozen=True)
class Config:
    """All of it. `tables` has the tables that parts read themselves, such as `gateway`."""

    service: ServiceConfig = ServiceConfig()
    hub: HubConfig = HubConfig()
    retention: Retention = Retention()
    access: AccessConfig = AccessConfig()
    events: EventsConfig = EventsConfig()
    repositories: tuple[RepositoryConfig, ...] = ()
    tables: Mapping[str, Mapping[str, Any]] = field(default_factory=dict)

    @property
    def url(self) -> str:
        """What clients call the hub, without a slash at the end."""
        scheme = 'https' if self.hub.certificate else 'http'
        return (self.hub.url or f'{scheme}://{self.hub.listen}').rstrip('/')

    @property
    def is_secure(self) -> bool:
        """Whether clients reach the hub by TLS, its own or a proxy's."""
        return self.url.startswith('https://')

    def default_branch(self, repository: str) -> str:
        """The default branch of a repository."""
        own = next((one.default_branch for one in self.repositories if one.name.lower() == repository.lower()), '')
        return own or self.events.default_branch


def address_of(text: str) -> tuple[str, int] | pathlib.Path:
    """The host and port, or the socket of the file system, that a text names."""
    found = ADDRESS.fullmatch(text)
    if not found:
        raise ConfigError(f'no address: {text!r}: an address is "unix:/path" or "127.0.0.1:8083"')
    if found['path']:
        return pathlib.Path(found['path'])
    port = int(found['port'])
    if port > 65535:
        raise ConfigError(f'no port: {text!r}')
    return found['host'].strip('[]'), port


def _text(value: Any) -> str:
    if not isinstance(value, str):
        raise ConfigError('a text is wanted')
    return value


def _flag(value: Any) -> bool:
    if not isinstance(value, bool):
        raise ConfigError('true or false is wanted')
    return value


def _count(value: Any) -> int:
    if not isinstance(value, int) or isinstance(value, bool) or not 0 <= value < 1 << 53:
        raise ConfigError('a whole number of 0 or more is wanted')
    return value


def _path(value: Any) -> pathlib.Path:
    return pathlib.Path(_text(value))


def _address(value: Any) -> str:
    address_of(_text(value))
    return _text(value)


def _peers(value: Any) -> tuple[str, ...]:
    if not isinstance(value, list):
        raise ConfigError('a list of addresses is wanted')
    for one in value:
        try:
            if _text(one) != 'unix':
                ipaddress.ip_network(one)
        except ValueError as fault:
            raise ConfigError(f'{fault}: an address, a network or "unix" is wanted') from None
    return tuple(value)


Readers = Mapping[str, Callable[[Any], Any]]
SERVICE: Readers = {'view': _address, 'hook': _address, 'runner': _address}
HUB: Readers = {'listen': _address, 'url': _text, 'certificate': _path, 'key': _path, 'unix': _path, 'folder': _path, 'open_loopback': _flag}
RETENTION: Readers = {one.name: _count for one in dataclasses.fields(Retention)}
ACCESS: Readers = {
    'proxy_header': _text, 'proxy_addresses': _peers, 'wrong_tokens_a_minute': _count, 'requests_a_second': _count, 'requests_burst': _count,
    'session_days': _count, 'silence_seconds': _count, 'trusted_forwarders': _peers}
EVENTS: Readers = {'mirrors': _path, 'default_branch': _text}
REPOSITORIES: Readers = {'name': _text, 'secret_file': _path, 'default_branch': _text}


def _read(where: str, table: Any, readers: Readers, more: bool = False) -> dict[str, Any]:
    """The members of a table; `more` collects those that another part reads, else they are faults."""
    if not isinstance(table, dict):
        raise ConfigError(f'[{where}]: a table is wanted')
    found: dict[str, Any] = {}
    others = {name: value for name, value in table.items() if name not in readers}
    if others and not more:
        raise ConfigError(f'[{where}]: there is no {", ".join(sorted(others))}')
    for name, value in table.items():
        if name in readers:
            try:
                found[name] = readers[name](value)
            except ConfigError as fault:
                raise ConfigError(f'[{where}] {name}: {fault}') from None
    return {**found, 'more': others} if more else found


def _repositories(value: Any) -> tuple[RepositoryConfig, ...]:
    if not isinstance(value, list):
        raise ConfigError('[[repository]]: tables are wanted')
    members: list[dict[str, Any]] = [{'name': '', **_read('[repository]', one, REPOSITORIES, more=True)} for one in value]
    made = tuple(RepositoryConfig(**one) for one in members)
    for one in made:
        if not REPOSITORY.fullmatch(one.name):
            raise ConfigError(f'[[repository]] name: {one.name!r} is no OWNER/NAME')
    if len({one.name.lower() for one in made}) < len(made):
        raise ConfigError('[[repository]]: a name occurs twice')
    return made


def config_of(tables: Mapping[str, Any]) -> Config:
    """The configuration that these tables give."""
    rest = dict(tables)
    made = Config(
        service=ServiceConfig(**_read('service', rest.pop('service', {}), SERVICE)),
        hub=HubConfig(**_read('hub', rest.pop('hub', {}), HUB)),
        retention=Retention(**_read('retention', rest.pop('retention', {}), RETENTION)),
        access=AccessConfig(**_read('access', rest.pop('access', {}), ACCESS)),
        events=EventsConfig(**_read('events', rest.pop('events', {}), EVENTS, more=True)),
        repositories=_repositories(rest.pop('repository', [])),
        tables=rest)
    if (made.hub.certificate is None) != (made.hub.key is None):
        raise ConfigError('[hub]: certificate and key go together')
    if made.hub.url and not re.fullmatch(r'https?://[A-Za-z0-9_.\[\]:-]+', made.hub.url.rstrip('/')):
        raise ConfigError('[hub] url: https://HOST or https://HOST:PORT is wanted')
    if bool(made.access.proxy_header) != bool(made.access.proxy_addresses):
        raise ConfigError('[access]: proxy_header and proxy_addresses go together')
    for name, table in rest.items():
        if not isinstance(table, dict):
            raise ConfigError(f'{name}: a table is wanted')
    return made


def read_config(path: pathlib.Path) -> Config:
    """The configuration in a file."""
    try:
        with open(path, 'rb') as file:
            return config_of(tomllib.load(file))
    except OSError as fault:
        raise ConfigError(f'{path}: {fault.strerror}') from None
    except (tomllib.TOMLDecodeError, UnicodeDecodeError) as fault:
        raise ConfigError(f'{path}: {fault}') from None
