"""What a local mirror of a repository says: commits, their workflows, and the files that changed."""
from __future__ import annotations

import asyncio
import contextlib
import os
import pathlib
import re
import signal
from dataclasses import dataclass

from ..log import say

EMPTY_TREE = '4b825dc642cb6eb9a060e54bf8d69288fbee4904'
SECONDS = 60  # of a command of git that asks no other machine
LONGEST = 64 << 20  # bytes that a command may print
LONGEST_FILE = 1 << 20  # bytes of a workflow
MOST_WORKFLOWS = 500
LONGEST_PATH = 255
COMMIT = re.compile('[0-9a-f]{40}|[0-9a-f]{64}')
REF = re.compile(r'refs/(?:heads|tags|pull)/(?![-/.])(?!.*(?:\.\.|//|@\{|/\.|\.lock(?:/|$)))'
                 r'[^\x00-\x20\x7f~^:?*\[\\]{1,240}(?<![/.])')
ENV = {'GIT_TERMINAL_PROMPT': '0', 'GIT_OPTIONAL_LOCKS': '0', 'GIT_LITERAL_PATHSPECS': '1', 'LC_ALL': 'C'}


class NoCommit(Exception):
    """The mirror does not have this commit, or not yet."""


class GitFault(Exception):
    """A command of git failed, in its words."""


class TooSlow(Exception):
    """A command of git took too long, and was ended."""


@dataclass(frozen=True)
class Entry:
    """A file in `.github/workflows` of a commit."""

    path: str
    mode: str
    size: int
    blob: str

    @property
    def fault(self) -> str | None:
        """Why it is not read."""
        if self.mode not in ('100644', '100755'):
            return 'it is a symbolic link, or no file' if self.mode != '120000' else 'it is a symbolic link'
        return f'it has over {LONGEST_FILE:,} bytes' if self.size > LONGEST_FILE else None


async def ended(process: asyncio.subprocess.Process) -> None:
    """Ends a command with all that it has started: by TERM, so that git removes its locks, then by KILL."""
    for number in signal.SIGTERM, signal.SIGKILL:
        with contextlib.suppress(ProcessLookupError):
            os.killpg(process.pid, number)
        with contextlib.suppress(asyncio.TimeoutError):
            await asyncio.wait_for(process.wait(), 5)
            return


class Mirror:
    """A bare clone of a repository. `is_fetched` is false if its last fetch failed."""

    def __init__(self, folder: pathlib.Path) -> None:
        self.folder, self.is_fetched = folder, True

    async def fetch(self, seconds: float) -> None:
        """Fetches from the remote, if there is one, for so many seconds at most."""
        if not (await self.git('remote')).strip():
            return
        try:
            await self.git('fetch', '--quiet', '--prune', 'origin', seconds=seconds)
            self.is_fetched = True
        except (GitFault, TooSlow) as fault:
            self.is_fetched = False
            say(f'events: {self.folder}: no fetch: {fault}')

    async def git(self, *words: str, seconds: float = SECONDS) -> str:
        """What a command of git prints."""
        return (await self.bytes_of(*words, seconds=seconds)).decode(errors='replace')

    async def bytes_of(self, *words: str, seconds: float = SECONDS, given: bytes = b'') -> bytes:
        """The bytes that a command of git prints."""
        process = await asyncio.create_subprocess_exec(
            'git', '-C', str(self.folder), '-c', 'core.quotePath=false', *words, stdin=asyncio.subprocess.PIPE,
            stdout=asyncio.subprocess.PIPE, stderr=asyncio.subprocess.PIPE, start_new_session=True, limit=1 << 16,
            env={**os.environ, **ENV})
        try:
            output, errors = await asyncio.wait_for(printed(process, given), seconds)
        except asyncio.TimeoutError:
            raise TooSlow(f'git {words[0]} in {self.folder} took over {seconds:g} seconds') from None
        finally:
            if process.returncode is None:
                await ended(process)
        if process.returncode:
            said = ' '.join(errors.decode(errors='replace').split())[:500]
            raise GitFault(said or f'git {words[0]}: {process.returncode}')
        return output

    async def ask(self, *words: str) -> str | None:
        """What a command prints without the line feed at its end; None if git fails."""
        try:
            return (await self.git(*words)).rstrip('\n')
        except GitFault:
            return None

    async def commit(self, name: str) -> str:
        """The commit that a full hash or the full name of a ref stands for."""
        found = None
        if COMMIT.fullmatch(name) or REF.fullmatch(name):
            found = await self.ask('rev-parse', '--verify', '--quiet', '--end-of-options', name + '^{commit}')
        if found is None or not COMMIT.fullmatch(found):
            raise NoCommit(f'{self.folder} has no commit {name[:100]}')
        return found

    async def has(self, name: str) -> bool:
        """Whether there is such a commit."""
        try:
            return bool(await self.commit(name))
        except NoCommit:
            return False

    async def parents(self, commit: str) -> list[str]:
        """The parents of a commit."""
        return (await self.git('rev-list', '--parents', '--max-count=1', '--end-of-options', commit)).split()[1:]

    async def message(self, commit: str) -> str:
        """The message of a commit."""
        return await self.git('log', '--max-count=1', '--format=%B', '--end-of-options', commit)

    async def changed(self, *span: str) -> list[str] | None:
        """The files that differ; None if that is not known."""
        if not all(COMMIT.fullmatch(each) for name in span for each in name.split('...')):
            return None
        try:
            names = await self.ask('diff', '--name-only', '--no-renames', '--no-ext-diff', '-z', *span, '--')
        except TooSlow:
            return None
        return None if names is None else names.split('\0')[:-1]

    async def workflows(self, commit: str) -> list[Entry]:
        """The files of `.github/workflows` whose names end as those of YAML do."""
        listed = await self.ask('ls-tree', '-z', '-l', '--end-of-options', commit, '.github/workflows/') or ''
        made: list[Entry] = []
        for line in listed.split('\0'):
            facts, _, path = line.partition('\t')
            words = facts.split()
            is_file = len(words) == 4 and words[1] != 'tree'
            if is_file and path.endswith(('.yml', '.yaml')) and len(path) <= LONGEST_PATH:
                made.append(Entry(path, words[0], int(words[3]) if words[3].isdecimal() else 0, words[2]))
        return made[:MOST_WORKFLOWS]

    async def texts(self, commit: str) -> dict[str, str]:
        """The texts of all workflows of a commit that can be read."""
        return await self.read(await self.workflows(commit))

    async def read(self, listed: list[Entry]) -> dict[str, str]:
        """The texts of those workflows that can be read."""
        entries = [entry for entry in listed if entry.fault is None]
        blobs = await self.blobs([entry.blob for entry in entries]) if entries else []
        return {entry.path: text for entry, text in zip(entries, blobs) if text is not None}

    async def blobs(self, names: list[str]) -> list[str | None]:
        """The texts of files by their hashes."""
        given = ''.join(name + '\n' for name in names).encode()
        output = await self.bytes_of('cat-file', '--batch', given=given)
        made: list[str | None] = []
        at = 0
        for _ in names:
            end = output.index(b'\n', at)
            words = output[at:end].split()
            if len(words) != 3:  # `HASH missing`
                made.append(None)
                at = end + 1
                continue
            size = int(words[2])
            made.append(output[end + 1:end + 1 + size].decode(errors='replace'))
            at = end + size + 2
        return made

    async def default_branch(self) -> str | None:
        """The branch to which HEAD points, in full."""
        found = await self.ask('symbolic-ref', '--quiet', 'HEAD')
        return found if found and REF.fullmatch(found) else None

    async def note_default(self, branch: str) -> None:
        """Lets HEAD point to the default branch that an event names, if it is there."""
        name = f'refs/heads/{branch}'
        if await self.default_branch() != name and REF.fullmatch(name) and await self.has(name):
            await self.ask('symbolic-ref', 'HEAD', name)


async def printed(process: asyncio.subprocess.Process, given: bytes) -> tuple[bytes, bytes]:
    """What a process prints to both streams, till it ends."""
    assert process.stdin is not None and process.stdout is not None and process.stderr is not None
    output, errors, _ = await asyncio.gather(bounded(process.stdout, LONGEST), bounded(process.stderr, 1 << 16, False),
                                             fed(process.stdin, given))
    await process.wait()
    return output, errors


async def fed(stream: asyncio.StreamWriter, given: bytes) -> None:
    """Writes to a process what it is given, and ends its input."""
    with contextlib.suppress(ConnectionError):
        stream.write(given)
        await stream.drain()
    stream.close()


async def bounded(stream: asyncio.StreamReader, most: int, fault: bool = True) -> bytes:
    """All of a stream: more than so many bytes are a fault, or are left out."""
    pieces, size = [], 0
    while piece := await stream.read(1 << 16):
        size += len(piece)
        if size <= most:
            pieces.append(piece)
        elif fault:
            raise GitFault(f'it prints over {most:,} bytes')
    return b''.join(pieces)
