"""Actions that run in a container of their own: their images, and how such a container is begun. GitHub's pages are
'Metadata syntax' and 'Dockerfile support for GitHub Actions'."""
from __future__ import annotations

import contextlib
import hashlib
import os
import re
import secrets
import subprocess
from collections.abc import Callable, Iterator, Mapping, Sequence
from dataclasses import dataclass
from typing import Any

from . import expressions
from .actions import PARTS, Action
from .container import Engine, note, passed
from .paths import Pairs, Paths

PREFIX = 'docker://'
REFERENCE = re.compile('[A-Za-z0-9][A-Za-z0-9._:/@-]*')
DOCKERFILE = re.compile(r'Dockerfile(\..*)?|.*\.Dockerfile', re.I)
WORDS = re.compile(r'(\\*)(")|([ \t]+)|(\\+|[^\\" \t]+)')
HOME, WORKFLOW = '_github_home', '_github_workflow'  # folders below that of the runner's files


def faults_of(action: Action, roots: Sequence[str]) -> Iterator[str]:
    """What is wrong with an action, in words. Its Dockerfile is below one of the roots."""
    image = action.runs.get('image')
    if not isinstance(image, str) or not image:
        yield 'it names no image'
    elif image.startswith(PREFIX):
        if not REFERENCE.fullmatch(image[len(PREFIX):]):
            yield f'{image} is no image'
    elif not DOCKERFILE.fullmatch(os.path.basename(image)):
        yield f'its image {image} is neither a Dockerfile nor {PREFIX}IMAGE'
    else:
        path = os.path.realpath(os.path.join(action.folder, image))
        if not os.path.isfile(path) or not any(path.startswith(os.path.realpath(root) + '/') for root in roots):
            yield f'its {image} is not there'
    args, env = action.runs.get('args') or [], action.runs.get('env') or {}
    if not isinstance(args, list) or any(isinstance(arg, (list, dict)) for arg in args):
        yield 'its args are no list of texts'
    elif not isinstance(env, dict):
        yield 'its env is no object'
    else:
        for text in (*args, *env.values()):
            yield from misplaced(text)
    for name in PARTS.values():
        if not isinstance(action.runs.get(name, ''), str):
            yield f'its {name} is no text'


def misplaced(text: Any) -> Iterator[str]:
    """What a text of `args` or `env` names that is not one of the inputs."""
    try:
        expressions.check(text, 'runs.args')
    except ValueError as fault:
        yield str(fault)


def words_in(text: str) -> list[str]:
    """The words of `with.args`: between spaces and tabs that are not in double quotes. A backslash makes a quote one of
    the word, and two of them before a quote are one."""
    words, word, quoted = list[str](), None, False
    for slashes, quote, space, plain in WORDS.findall(text):
        if quote:
            word = (word or '') + '\\' * (len(slashes) // 2) + '"' * (len(slashes) % 2)
            quoted ^= len(slashes) % 2 == 0
        elif space and not quoted:
            words += [] if word is None else [word]
            word = None
        else:
            word = (word or '') + space + plain
    return words + ([] if word is None else [word])


@dataclass(frozen=True)
class Call:
    """What an action is given at one of its parts: its entrypoint if it is not that of the image, words, variables."""

    entrypoint: str
    words: list[str]
    env: dict[str, str]

    @classmethod
    def of(cls, action: Action, part: str, inputs: Mapping[str, str], given: Mapping[str, str]) -> Call:
        """`given` are the inputs that the step has named. What the action says itself comes before those."""
        def text(value: Any) -> str:
            return expressions.text_in(value, {'inputs': dict(inputs)})
        said = {name.lower(): value for name, value in given.items()}
        args = action.runs.get('args')
        words = words_in(said.get('args', '')) if args is None else [text(arg) for arg in args]
        entrypoint = str(action.part(part) or (said.get('entrypoint', '') if part == 'main' else ''))
        return cls(entrypoint, words, {name: text(value) for name, value in (action.runs.get('env') or {}).items()})


class Images:
    """The images of the actions of a leg. One of an action that was fetched is kept by its commit; one of the
    workspace is made anew in each leg."""

    def __init__(self, root: str, engine: Callable[[], Engine], run: Callable[..., None]) -> None:
        self.root, self.engine, self.run = root, engine, run
        self.names: dict[tuple[str, str], str] = {}

    def of(self, action: Action, again: bool = False) -> str:
        """The image of an action, which is there then. Steps may have changed one of the workspace: `again`."""
        image = str(action.runs['image'])
        key = action.folder, image
        if key not in self.names or again:
            is_named = image.startswith(PREFIX)
            self.names[key] = self.pulled(image[len(PREFIX):]) if is_named else self.built(action, image)
        return self.names[key]

    def pulled(self, name: str) -> str:
        """An image by its name. One that is here is not asked for again."""
        if not self.engine().has_image(name):
            self.run(self.engine().program, 'pull', name)
        return name

    def built(self, action: Action, image: str) -> str:
        """An image by a Dockerfile, whose folder is what it is made from."""
        place = os.path.relpath(os.path.join(action.folder, image), self.root)
        tag = secrets.token_hex(8) if action.is_local else hashlib.sha256(place.encode()).hexdigest()[:32]
        name, file = f'localhost/acts-action:{tag}', os.path.join(action.folder, image)
        if action.is_local:
            note('image', self.engine().program, name)
        elif self.engine().has_image(name):
            return name
        self.run(self.engine().program, 'build', '--tag', name, '--file', file, os.path.dirname(file))
        return name


def mounts(temp: str, workspace: str, files: str) -> Pairs:
    """The folders that such a container has, with the one in which the files of the step are."""
    return ((os.path.join(temp, HOME), '/github/home'), (os.path.join(temp, WORKFLOW), '/github/workflow'),
            (files, '/github/file_commands'), (temp, '/github/runner_temp'), (workspace, '/github/workspace'))


@dataclass(frozen=True)
class InAction:
    """A container that runs once, for a part of an action."""

    by: Engine
    image: str
    entrypoint: str
    paths: Paths
    name: str

    @classmethod
    def of(cls, by: Engine, image: str, entrypoint: str, paths: Paths) -> InAction:
        """One with a name of its own, by which it is found again if it is left."""
        name = f'acts-{secrets.token_hex(8)}'
        note('container', by.program, name)
        return cls(by, image, entrypoint, paths, name)

    def begun(self, words: Sequence[str], folder: str, env: Mapping[str, str]) -> tuple[list[str], dict[str, str]]:
        """The words by which it is begun, with those that its entrypoint is given."""
        given, own = passed({name: self.paths.inside(value) for name, value in env.items()})
        more = [word for outside, inside in self.paths.mounts for word in ('--volume', f'{outside}:{inside}')]
        more += ['--network', self.by.network] if self.by.network else []
        more += ['--entrypoint', self.entrypoint] if self.entrypoint else []
        return [self.by.program, 'run', '--rm', '--name', self.name, '--workdir', self.paths.inside(folder), *more,
                *given, self.image, *words], own

    def tell(self, child: subprocess.Popen[bytes], number: int) -> None:
        """Sends it a signal, which the program of the engine passes on."""
        with contextlib.suppress(ProcessLookupError):
            child.send_signal(number)

    def kill(self) -> None:
        """Ends it."""
        subprocess.run([self.by.program, 'kill', self.name], capture_output=True, timeout=60, check=False)
