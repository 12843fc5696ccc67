"""What an operator sets for events: members of `[events]` and of each `[[repository]]`."""
from __future__ import annotations

import json
import pathlib
import re
import urllib.parse
from dataclasses import dataclass, field
from typing import Any, Callable, Mapping

from ..config import Config, ConfigError

Environments = Mapping[str, bool]
WAYS = {'free': False, 'approval': True}  # of an environment, and whether its jobs wait for an approval


class NotReadable(Exception):
    """A file that is read for each delivery has a fault, in words."""


@dataclass(frozen=True)
class Repository:
    """A repository whose events start runs."""

    name: str
    secret_file: pathlib.Path | None
    forks: bool
    pull_request_target: bool
    environments: Environments
    protected: tuple[str, ...] | None


@dataclass(frozen=True)
class Settings:
    """All of it; times are in seconds."""

    repositories: Mapping[str, Repository] = field(default_factory=dict)  # by their names in small letters
    mirrors: pathlib.Path | None = None
    folder: pathlib.Path = pathlib.Path('/var/lib/acts-hub/events')
    vars: pathlib.Path | None = None
    server_url: str = ''
    api_url: str = ''
    wait: float = 8
    pause: float = 30
    keep: float = 3600
    fetch_limit: float = 120
    full_limit: float = 60
    aside_days: float = 30
    queue_timeout: float = 0
    schedules: bool = True
    held_over: float = 0.9
    statuses: str = ''
    token_file: pathlib.Path | None = None
    post: str = ''
    post_secret_file: pathlib.Path | None = None
    notice_pause: float = 60

    def repository(self, name: str) -> Repository | None:
        """A repository of this name, without regard to case."""
        return self.repositories.get(name.lower())

    def secrets(self) -> dict[str, bytes]:
        """The secret of each repository that has one. A file that can't be read gives none."""
        made = {}
        for key, repository in self.repositories.items():
            secret = read_secret(repository.secret_file)
            if secret:
                made[key] = secret
        return made

    def variables(self, repository: str) -> dict[str, Any]:
        """The variables of a repository, by a file that is read again each time."""
        if self.vars is None:
            return {}
        try:
            value = json.loads(self.vars.read_text())
        except (OSError, ValueError, RecursionError) as fault:
            raise NotReadable(f'{self.vars}: {fault}') from None
        if not isinstance(value, dict) or not all(isinstance(each, dict) for each in value.values()):
            raise NotReadable(f'{self.vars}: not an object of repositories, each with an object of its variables')
        return next((each for name, each in value.items() if name.lower() == repository.lower()), {})


def read_secret(path: pathlib.Path | None) -> bytes:
    """The content of a file without the white space around it; nothing if it can't be read."""
    try:
        return path.read_bytes().strip() if path else b''
    except OSError:
        return b''


def flag(value: Any) -> bool:
    """A truth value."""
    if not isinstance(value, bool):
        raise ConfigError('true or false is wanted')
    return value


def seconds(value: Any) -> float:
    """A time."""
    if not isinstance(value, (int, float)) or isinstance(value, bool) or not 0 <= value <= 1e9:
        raise ConfigError('a number of seconds is wanted')
    return float(value)


def path(value: Any) -> pathlib.Path:
    """A path."""
    if not isinstance(value, str) or not value:
        raise ConfigError('a path is wanted')
    return pathlib.Path(value)


def address(value: Any) -> str:
    """An address of HTTP, without a slash at its end."""
    parts = urllib.parse.urlsplit(value if isinstance(value, str) else '')
    if parts.scheme not in ('http', 'https') or not parts.hostname or not re.fullmatch(r'[!-~]+', value):
        raise ConfigError('an address http:// or https:// is wanted')
    return str(value).rstrip('/')


def share(value: Any) -> float:
    """A part of the whole."""
    if not isinstance(value, (int, float)) or isinstance(value, bool) or not 0 < value <= 1:
        raise ConfigError('a number over 0 and up to 1 is wanted')
    return float(value)


def ways(value: Any) -> Environments:
    """Environments, and whether their jobs wait for an approval."""
    if not isinstance(value, dict) or not all(way in WAYS for way in value.values()):
        raise ConfigError('a table of environments is wanted, each "free" or "approval"')
    return {name.lower(): WAYS[way] for name, way in value.items()}


def texts(value: Any) -> tuple[str, ...]:
    """A list of texts."""
    if not isinstance(value, list) or not all(isinstance(each, str) for each in value):
        raise ConfigError('a list of texts is wanted')
    return tuple(value)


Readers = Mapping[str, Callable[[Any], Any]]
SHARED: Readers = {'forks': flag, 'pull_request_target': flag, 'environments': ways}
READERS: Readers = {
    'folder': path, 'vars': path, 'server_url': address, 'api_url': address,
    'wait': seconds, 'pause': seconds, 'keep': seconds,
    'fetch_limit': seconds, 'full_limit': seconds, 'aside_days': seconds, 'queue_timeout': seconds, 'schedules': flag,
    'held_over': share, 'statuses': address, 'token_file': path, 'post': address, 'post_secret_file': path,
    'notice_pause': seconds}
OF_REPOSITORY: Readers = {**SHARED, 'protected': texts}


def read(where: str, table: Mapping[str, Any], readers: Readers) -> dict[str, Any]:
    """The members of a table."""
    found = {}
    for name, value in table.items():
        if name not in readers:
            raise ConfigError(f'[{where}]: there is no {name}')
        try:
            found[name] = readers[name](value)
        except ConfigError as fault:
            raise ConfigError(f'[{where}] {name}: {fault}') from None
    return found


def settings_of(config: Config) -> Settings:
    """The settings of a configuration."""
    found = read('events', config.events.more, {**SHARED, **READERS})
    shared: dict[str, Any] = {'forks': False, 'pull_request_target': False, 'environments': {}, 'protected': None}
    shared.update({name: found.pop(name) for name in SHARED if name in found})
    found.setdefault('folder', pathlib.Path(config.hub.folder) / 'events')
    repositories = {}
    for each in config.repositories:
        if {'.', '..'} & set(each.name.split('/')):
            raise ConfigError(f'[[repository]] name: {each.name!r} is no OWNER/NAME')
        own = {**shared, **read(f'[repository]] of {each.name}', each.more, OF_REPOSITORY)}
        own['environments'] = {**shared['environments'], **own['environments']}
        repositories[each.name.lower()] = Repository(each.name, each.secret_file, **own)
    made = Settings(repositories=repositories, mirrors=config.events.mirrors, **found)
    for url, file, words in ((made.statuses, made.token_file, 'statuses needs token_file'),
                             (made.post, made.post_secret_file, 'post needs post_secret_file')):
        if url and not read_secret(file):
            raise ConfigError(f'[events]: {words}, a file that is not empty')
    return made
