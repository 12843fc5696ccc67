"""Repositories of a test: a working copy that pushes to a bare repository, of which a hub has a mirror; and signed webhooks."""
from __future__ import annotations

import hashlib
import hmac
import json
import os
import pathlib
import subprocess
import uuid
from collections.abc import Mapping
from typing import Any

from harness import SECONDS, Answer, HubProcess

SECRET = b"It's a Secret to Everybody"  # of GitHub Docs, "Validating webhook deliveries"
ZERO = 40 * '0'


class Repository:
    """A working copy that pushes to a bare repository, of which there is a mirror in a folder."""

    def __init__(self, folder: pathlib.Path, mirrors: pathlib.Path, name: str = 'octo/hello') -> None:
        self.name, self.work = name, folder / name / 'work'
        self.remote, self.mirror = folder / name / 'remote.git', mirrors / f'{name}.git'
        who = {f'GIT_{part}': 'octo@example.org' for part in ('AUTHOR_NAME', 'AUTHOR_EMAIL', 'COMMITTER_NAME', 'COMMITTER_EMAIL')}
        self.env = {**os.environ, 'GIT_CONFIG_GLOBAL': '/dev/null', **who}
        self.work.mkdir(parents=True)
        self.git('init', '-q', '--bare', '-b', 'main', str(self.remote))
        self.git('clone', '-q', str(self.remote), '.')
        self.git('clone', '-q', '--mirror', str(self.remote), str(self.mirror))
        self.git('checkout', '-q', '-B', 'main')

    def git(self, *words: str) -> str:
        """What git prints, in the working copy."""
        done = subprocess.run(['git', *words], cwd=self.work, env=self.env, check=True, capture_output=True, text=True)
        return done.stdout.strip()

    def commit(self, message: str, files: Mapping[str, str]) -> str:
        """Commits files, and gives the commit."""
        for name, text in files.items():
            path = self.work / name
            path.parent.mkdir(parents=True, exist_ok=True)
            path.write_text(text)
        self.git('add', '-A', '.')
        self.git('commit', '-q', '--allow-empty', '-m', message)
        return self.git('rev-parse', 'HEAD')

    def push(self, ref: str, message: str, files: Mapping[str, str] | None) -> dict[str, Any]:
        """Commits and pushes to a branch or tag, and gives what the webhook says of it."""
        before = self.git('ls-remote', 'origin', ref)[:40] or ZERO
        after = self.git('rev-parse', 'HEAD') if files is None else self.commit(message, files)
        self.git('push', '-q', 'origin', f'HEAD:{ref}')
        commits = [] if files is None else [{'id': after, 'message': message}]
        return {'ref': ref, 'before': before, 'after': after, 'deleted': False, 'commits': commits}

    def only(self, files: Mapping[str, str]) -> dict[str, Any]:
        """Pushes these workflows to `main`, in place of all others."""
        self.git('rm', '-q', '-r', '--ignore-unmatch', '.github')
        made = {f'.github/workflows/{name}': text for name, text in files.items()}
        return self.push('refs/heads/main', ' '.join(files), {**made, f'src/{uuid.uuid4()}': ''})


class Sender:
    """Sends webhooks of a repository to a hub, signed as GitHub does."""

    def __init__(self, hub: HubProcess, name: str = 'octo/hello', secret: bytes = SECRET) -> None:
        self.hub, self.name, self.secret = hub, name, secret

    def payload(self, given: Mapping[str, Any]) -> dict[str, Any]:
        """A payload with what all have."""
        owner, _, name = self.name.partition('/')
        repository = {'id': 1296269, 'name': name, 'full_name': self.name, 'owner': {'login': owner, 'id': 21031067}, 'default_branch': 'main',
                      'html_url': f'https://git.example.org/{self.name}', 'url': f'https://git.example.org/api/v3/repos/{self.name}'}
        return {'repository': repository, 'sender': {'login': 'octocat', 'id': 583231, 'html_url': 'https://git.example.org/octocat'}, **given}

    def post(self, event: str, body: bytes, signature: str | None, delivery: str | None = None) -> Answer:
        """Sends bytes."""
        headers = {'X-GitHub-Event': event, 'X-GitHub-Delivery': delivery or str(uuid.uuid4()), 'Content-Type': 'application/json'}
        if signature is not None:
            headers['X-Hub-Signature-256'] = signature
        return self.hub.request('POST', '/webhooks/github', body, headers=headers, timeout=SECONDS + 60)

    def signed(self, body: bytes) -> str:
        """The signature of a body."""
        return 'sha256=' + hmac.new(self.secret, body, hashlib.sha256).hexdigest()

    def send(self, event: str, given: Mapping[str, Any], delivery: str | None = None) -> tuple[int, list[str]]:
        """Sends an event, and gives the status and the lines, by the names of workflows."""
        body = json.dumps(self.payload(given)).encode()
        answer = self.post(event, body, self.signed(body), delivery)
        return answer.status, [line.removeprefix('.github/workflows/') for line in answer.text.splitlines()]

    def push(self, given: Mapping[str, Any], delivery: str | None = None) -> list[str]:
        """Sends a push, and gives the lines."""
        status, lines = self.send('push', given, delivery)
        assert status == 202, lines
        return lines


def tables(folder: pathlib.Path, mirrors: pathlib.Path, names: Mapping[str, Mapping[str, Any]], **more: Any) -> tuple[dict[str, Any], str]:
    """The tables, and further lines, of a hub's configuration with these repositories."""
    folder.mkdir(parents=True, exist_ok=True)
    (folder / 'secret').write_bytes(SECRET + b'\n')
    lines = ''.join(f'[[repository]]\n' + ''.join(f'{key} = {toml(value)}\n' for key, value in
                                                  {'name': name, 'secret_file': str(folder / 'secret'), **given}.items())
                    for name, given in names.items())
    return {'events': {'mirrors': str(mirrors), 'wait': SECONDS, 'pause': 1, **more}}, lines


def toml(value: Any) -> str:
    """A value of TOML."""
    if isinstance(value, dict):
        return '{' + ', '.join(f'{json.dumps(name)} = {toml(item)}' for name, item in value.items()) + '}'
    return json.dumps(value)


def created(lines: list[str]) -> dict[str, int]:
    """The runs that were made, by the names of their workflows."""
    found = (line.partition(': created ') for line in lines)
    return {name: int(number) for name, _, number in found if number.isdecimal()}
