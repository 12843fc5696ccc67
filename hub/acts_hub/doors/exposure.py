"""Whether others than the hub can use the ports of the service, as far as the hub sees."""
from __future__ import annotations

import pathlib
import stat

from ..config import Config, ConfigError, address_of
from ..log import say


def exposed(config: Config) -> list[str]:
    """A sentence for each port of the service that others can use."""
    found = []
    for name in 'hook', 'runner', 'view':
        text = getattr(config.service, name)
        address = address_of(text)
        if not isinstance(address, pathlib.Path):
            found.append(f'every program of this machine, so every step too, can use the {name} port {text}')
        elif _is_open(address):
            found.append(f'every user of this machine can use the {name} port {text}')
    return found


def check_exposure(config: Config) -> None:
    """Refuses a service that others can use, unless the configuration takes that."""
    found = exposed(config)
    if found and not config.hub.open_loopback:
        raise ConfigError(f'{"; ".join(found)}. `acts-hub doors` or the units acts-door@ close them; open_loopback = true in [hub] starts nevertheless')
    for sentence in found:
        say(sentence)


def _is_open(path: pathlib.Path) -> bool:
    """Whether others may open a socket: it and the folders above it have to let them."""
    try:
        if not path.stat().st_mode & stat.S_IWOTH:
            return False
        return all(folder.stat().st_mode & stat.S_IXOTH for folder in path.parents)
    except OSError:
        return False  # not there yet
