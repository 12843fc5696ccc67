"""What `acts-hub up` keeps in its folder: each thing is made once, so the next start goes on with it."""
from __future__ import annotations

import ipaddress
import os
import pathlib
import secrets
import socket
import subprocess
from dataclasses import dataclass

from ..access.identity import Right
from ..access.tokens import Tokens
from ..config import Config, address_of, read_config
from ..ledger.database import Database

REPOSITORY = 'octo/hello'
AREA = 64 << 20
LONGEST_FOLDER = 90
"""Bytes of the folder's path, so that sockets below it have paths that the kernel takes."""


MARKS = ('hub.toml', 'runs.store', 'runs.store.new', 'runner')
"""One of these is in a folder that an earlier start has made."""


class Unfit(Exception):
    """The folder can't be made or used; the text says why."""


@dataclass(frozen=True)
class Folder:
    """The folder. `runner` belongs to the runner's user, all else to the one who starts it."""

    path: pathlib.Path

    @property
    def store(self) -> pathlib.Path:
        """The file of the service."""
        return self.path / 'runs.store'

    @property
    def doors(self) -> pathlib.Path:
        """The sockets of the service."""
        return self.path / 'doors'

    @property
    def config(self) -> pathlib.Path:
        """The configuration of the hub."""
        return self.path / 'hub.toml'

    @property
    def certificate(self) -> pathlib.Path:
        """The certificate of the hub, which signs itself."""
        return self.path / 'certificate.pem'

    @property
    def key(self) -> pathlib.Path:
        """The key of the certificate."""
        return self.path / 'key.pem'

    @property
    def mirrors(self) -> pathlib.Path:
        """Bare repositories: OWNER/NAME.git."""
        return self.path / 'mirrors'

    @property
    def secret(self) -> pathlib.Path:
        """The secret of webhooks of the example's repository."""
        return self.path / 'webhook.secret'

    @property
    def token(self) -> pathlib.Path:
        """The token of the one who started it, who may do all."""
        return self.path / 'admin.token'

    @property
    def runner(self) -> pathlib.Path:
        """The runner's folder."""
        return self.path / 'runner'

    @property
    def runner_token(self) -> pathlib.Path:
        """The runner's token."""
        return self.runner / 'token'

    def log(self, name: str) -> pathlib.Path:
        """What a child has said."""
        return self.path / f'{name}.log'


def check_own(folder: Folder) -> None:
    """Refuses a folder of something else, whose rights would change."""
    try:
        there = {path.name for path in folder.path.iterdir()}
    except FileNotFoundError:
        return
    if there and not there & set(MARKS):
        raise Unfit(f'{folder.path} has other things in it: an empty folder is wanted, or that of an earlier start')


def prepare(folder: Folder, acts: str, listen: str, labels: str, owner: tuple[int, int] | None) -> Config:
    """Makes what is not there yet; `owner` is the runner's user and group, if it is another one."""
    if len(os.fsencode(folder.path)) > LONGEST_FOLDER:
        raise Unfit(f'{folder.path} is longer than the {LONGEST_FOLDER} bytes that leave room for sockets')
    folder.path.mkdir(parents=True, exist_ok=True)
    folder.path.chmod(0o711)
    folder.runner.mkdir(exist_ok=True)
    folder.runner.chmod(0o700)
    _make_store(folder, acts)
    _make_certificate(folder, listen)
    _make_secret(folder.secret, secrets.token_hex(32))
    if not folder.config.exists():
        _write(folder.config, _config_text(folder, _free(listen)))
    config = read_config(folder.config)
    _make_tokens(folder, config, labels)
    if owner is not None:
        for path in folder.runner, folder.runner_token:
            os.chown(path, *owner)
    return config


def _free(listen: str) -> str:
    """The address, with a free port in place of port 0."""
    address = address_of(listen)
    if isinstance(address, pathlib.Path):
        raise Unfit('--listen: an address of TCP is wanted')
    with socket.create_server(address, family=socket.AF_INET6 if ':' in address[0] else socket.AF_INET) as made:
        port = made.getsockname()[1]
    return f'{listen.rpartition(":")[0]}:{port}'


def _config_text(folder: Folder, listen: str) -> str:
    return f'''# Made by acts-hub up. Restart it after a change.
[service]
view = {_quoted(f'unix:{folder.doors}/view')}
hook = {_quoted(f'unix:{folder.doors}/hook')}
runner = {_quoted(f'unix:{folder.doors}/runner')}

[hub]
listen = {_quoted(listen)}
certificate = {_quoted(str(folder.certificate))}
key = {_quoted(str(folder.key))}
folder = {_quoted(str(folder.path / 'hub'))}

[events]
mirrors = {_quoted(str(folder.mirrors))}

[[repository]]
name = {_quoted(REPOSITORY)}
secret_file = {_quoted(str(folder.secret))}
'''


def _quoted(text: str) -> str:
    """A text as TOML writes it."""
    if not text.isprintable():
        raise Unfit(f'{text!r} has characters that are not printable')
    escaped = text.replace('\\', '\\\\').replace('"', '\\"')
    return f'"{escaped}"'


def _write(path: pathlib.Path, text: str, mode: int = 0o600) -> None:
    """Writes a file that is whole or not there."""
    new = path.with_name(path.name + '.new')
    new.unlink(missing_ok=True)
    with open(os.open(new, os.O_WRONLY | os.O_CREAT | os.O_EXCL, mode), 'w', encoding='utf-8') as file:
        file.write(text)
        file.flush()
        os.fsync(file.fileno())
    os.replace(new, path)


def _make_secret(path: pathlib.Path, text: str) -> None:
    if not path.exists():
        _write(path, text + '\n')


def _make_store(folder: Folder, acts: str) -> None:
    if folder.store.exists():
        return
    new = folder.path / 'runs.store.new'
    new.unlink(missing_ok=True)
    _call(acts, 'init', str(new), str(AREA))
    new.chmod(0o600)
    os.replace(new, folder.store)


def _names(listen: str) -> str:
    """The names of the certificate: this machine's, and where the hub listens."""
    host = listen.rpartition(':')[0].strip('[]')
    try:
        listening = f'IP:{ipaddress.ip_address(host)}'
    except ValueError:
        listening = f'DNS:{host}'
    return 'subjectAltName=' + ','.join(dict.fromkeys(['DNS:localhost', f'DNS:{socket.gethostname()}', 'IP:127.0.0.1', 'IP:::1', listening]))


def _make_certificate(folder: Folder, listen: str) -> None:
    if folder.certificate.exists() and folder.key.exists():
        return
    new = folder.path / 'certificate.new'
    names = _names(listen)
    before = os.umask(0o077)
    try:
        _call('openssl', 'req', '-x509', '-newkey', 'ec', '-pkeyopt', 'ec_paramgen_curve:prime256v1', '-nodes', '-days', '3650',
              '-subj', '/CN=acts-hub', '-addext', names, '-keyout', str(folder.key), '-out', str(new))
    finally:
        os.umask(before)
    new.chmod(0o644)
    os.replace(new, folder.certificate)


def _call(*words: str) -> None:
    try:
        subprocess.run(words, check=True, stdin=subprocess.DEVNULL, capture_output=True, text=True)
    except OSError as fault:
        raise Unfit(f'{words[0]}: {fault.strerror}') from None
    except subprocess.CalledProcessError as fault:
        raise Unfit(f'{words[0]} {words[1]}: {fault.stderr.strip() or fault.returncode}') from None


def _make_tokens(folder: Folder, config: Config, labels: str) -> None:
    """Makes tokens where a file has none that the ledger knows."""
    config.hub.folder.mkdir(mode=0o700, parents=True, exist_ok=True)
    database = Database(config.hub.folder / 'ledger.sqlite')
    database.open()
    try:
        tokens = Tokens(database)
        if not _is_valid(tokens, folder.token):
            _write(folder.token, tokens.create('admin', Right.ADMIN) + '\n')
        if not _is_valid(tokens, folder.runner_token):
            made = tokens.create('runner', Right.RUNNER, prefix='up', labels=tuple(labels.split(',')))
            _write(folder.runner_token, made + '\n')
    finally:
        database.close()


def _is_valid(tokens: Tokens, path: pathlib.Path) -> bool:
    return path.exists() and tokens.verify(path.read_text(encoding='utf-8').strip()) is not None
