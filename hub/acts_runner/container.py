"""The containers of a job, by docker or podman as found: that in which its steps run, and its services. Workspace and
files of the runner's have the same paths in it as outside."""
from __future__ import annotations

import contextlib
import functools
import os
import re
import secrets
import shlex
import shutil
import subprocess
import time
from dataclasses import dataclass, field
from typing import Any, Callable, Mapping, Protocol, Sequence

NOTE = 'container'  # a file of the runner's folder that names what may be left
SECONDS_OF_HEALTH = 300
MEMBERS = {'image', 'env', 'volumes', 'options', 'ports', 'credentials'}
# What the programs of the engines would follow themselves.
FOLLOWED = set('''BUILDAH_FORMAT BUILDKIT_HOST CONTAINERS_CONF CONTAINERS_REGISTRIES_CONF CONTAINERS_STORAGE_CONF
CONTAINER_CONNECTION CONTAINER_HOST CONTAINER_SSHKEY DOCKER_API_VERSION DOCKER_CERT_PATH DOCKER_CONFIG DOCKER_CONTEXT
DOCKER_HOST DOCKER_TLS DOCKER_TLS_VERIFY GODEBUG HOME LD_LIBRARY_PATH LD_PRELOAD PATH REGISTRY_AUTH_FILE STORAGE_DRIVER
STORAGE_OPTS TMPDIR XDG_CONFIG_HOME XDG_DATA_HOME XDG_RUNTIME_DIR'''.split())


class NoContainer(ValueError):
    """Why there is no container, in words."""


class Place(Protocol):
    """Where a process of a step runs, if not beside the runner."""

    def begun(self, words: Sequence[str], folder: str, env: Mapping[str, str]) -> tuple[list[str], dict[str, str]]:
        """The words by which it is begun there, and the variables of the program of the engine."""

    def tell(self, child: subprocess.Popen[bytes], number: int) -> None:
        """Sends it a signal. The child is the program of the engine."""

    def kill(self) -> None:
        """Ends all that it has begun there."""


def passed(env: Mapping[str, str]) -> tuple[list[str], dict[str, str]]:
    """The words that give variables to what runs in a container, and the variables of the engine's program, which has
    their values: in words all users of the machine could read them. What it would follow itself is in words."""
    words = [word for name, value in env.items()
             for word in ('--env', f'{name}={value}' if name in FOLLOWED else name)]
    return words, {**os.environ, **{name: value for name, value in env.items() if name not in FOLLOWED}}


@dataclass(frozen=True)
class Image:
    """What a job says of a container."""

    image: str
    env: dict[str, Any] = field(default_factory=dict)
    volumes: tuple[Any, ...] = ()
    options: tuple[str, ...] = ()
    ports: tuple[Any, ...] = ()
    credentials: dict[str, Any] = field(default_factory=dict)

    def each(self, text: Callable[[Any], str]) -> Image:
        """The same with each text replaced by what its expressions come to."""
        def texts(values: Mapping[str, Any]) -> dict[str, Any]:
            return {name: text(value) for name, value in values.items()}
        return Image(text(self.image), texts(self.env), tuple(map(text, self.volumes)), tuple(map(text, self.options)),
                     tuple(map(text, self.ports)), texts(self.credentials))


def engine() -> str | None:
    """docker or podman, where it is there and answers; None otherwise."""
    for name in ('docker', 'podman'):
        program = shutil.which(name)
        if program:
            done = subprocess.run([program, 'version'], capture_output=True, timeout=60, check=False)
            if not done.returncode:
                return program
    return None


def described(said: Any) -> Image:
    """What a job's `container` or one of its `services` says, or a ValueError for what is not done."""
    if isinstance(said, str):
        said = {'image': said}
    if not isinstance(said, dict) or not isinstance(said.get('image'), str):
        raise NoContainer('it names no image')
    for name in sorted(said.keys() - MEMBERS):
        raise NoContainer(f'this runner does not do its {name}')
    for name, kind in (('env', dict), ('volumes', list), ('ports', list), ('credentials', dict), ('options', str)):
        if not isinstance(said.get(name) or kind(), kind):
            raise NoContainer(f'its {name} is of the wrong kind')
    return Image(said['image'], said.get('env') or {}, tuple(said.get('volumes') or ()),
                 tuple(shlex.split(said.get('options') or '')), tuple(said.get('ports') or ()),
                 said.get('credentials') or {})


def noted() -> list[list[str]]:
    """What may be left: kind, engine and name of each."""
    with contextlib.suppress(FileNotFoundError), open(NOTE, encoding='utf-8') as file:
        return [words for line in file if len(words := line.split()) == 3]
    return []


def note(kind: str, program: str, name: str) -> None:
    """Notes something before it is made, so that the next life removes it."""
    with open(NOTE, 'a', encoding='utf-8') as file:
        print(kind, program, name, file=file)
        file.flush()
        os.fsync(file.fileno())


def remove_left() -> None:
    """Removes the containers, and then the network, that a leg has left."""
    for kind, program, name in sorted(noted()):
        of_container = [['kill', name], ['rm', '--force', '--volumes', name]]
        for each in of_container if kind == 'container' else [[kind, 'rm', name]]:
            subprocess.run([program, *each], capture_output=True, timeout=300, check=False)
    with contextlib.suppress(FileNotFoundError):
        os.remove(NOTE)


class Engine:
    """docker or podman, and the network of a job."""

    def __init__(self) -> None:
        program = engine()
        if not program:
            raise NoContainer('neither docker nor podman answers here')
        self.program, self.network = program, ''

    def ask(self, *words: str, given: str | None = None) -> str:
        """What the engine prints."""
        done = subprocess.run([self.program, *words], capture_output=True, text=True, timeout=1800, check=False,
                              input=given)
        if done.returncode:
            raise NoContainer(f'{os.path.basename(self.program)} {words[0]}: {done.stderr.strip()}')
        return done.stdout

    def has_image(self, name: str) -> bool:
        """Whether an image is here."""
        done = subprocess.run([self.program, 'image', 'inspect', name], capture_output=True, timeout=300, check=False)
        return not done.returncode

    def look_at_health(self, name: str) -> None:
        """Lets podman check a container's health: it does not do so by itself on a machine without systemd."""
        if os.path.basename(self.program) == 'podman':
            subprocess.run([self.program, 'healthcheck', 'run', name], capture_output=True, timeout=300, check=False)

    def make_network(self) -> None:
        """A network of the job's own, in which containers find one another by name."""
        name = f'acts-{secrets.token_hex(8)}'
        note('network', self.program, name)
        self.ask('network', 'create', name)
        self.network = name

    def start(self, image: Image, more: Sequence[str], end: Sequence[str], alias: str | None = None) -> str:
        """Starts a container, and gives its name."""
        name = f'acts-{secrets.token_hex(8)}'
        note('container', self.program, name)
        self.log_in(image)
        words = [word for place in image.volumes for word in ('--volume', str(place))]
        words += [word for port in image.ports for word in ('--publish', str(port))]
        words += [word for member, value in image.env.items() for word in ('--env', f'{member}={value}')]
        words += ['--network', self.network, *(['--network-alias', alias] if alias else [])] if self.network else []
        self.ask('create', '--name', name, *words, *more, *image.options, *end)
        self.ask('start', name)
        return name

    def log_in(self, image: Image) -> None:
        """Shows the credentials of an image to its registry."""
        user, password = (str(image.credentials.get(name) or '') for name in ('username', 'password'))
        if user and password:
            registry = image.image.split('/')[0] if re.match('[^/]*[.:][^/]*/', image.image) else ''
            self.ask('login', '--username', user, '--password-stdin', *([registry] if registry else []), given=password)


class Container:
    """The container in which the steps of a job run."""

    def __init__(self, by: Engine, image: Image, folders: Sequence[str]) -> None:
        self.by = by
        binds = [word for folder in folders for word in ('--volume', f'{folder}:{folder}')]
        self.name = by.start(image, binds, ['--entrypoint', 'tail', image.image, '-f', '/dev/null'])
        self.path = by.ask('exec', self.name, 'sh', '-c', 'echo "$PATH"').strip()

    def empty(self, folder: str) -> None:
        """Removes what is in a folder, as the user of the container: this user may not."""
        subprocess.run([self.by.program, 'exec', self.name, 'sh', '-c', 'rm -rf "$0"/* "$0"/.[!.]*', folder],
                       capture_output=True, timeout=300, check=False)


@dataclass(frozen=True)
class InJob:
    """The container of the job, for a process that notes its number in a file, for signals."""

    container: Container
    note: str

    def begun(self, words: Sequence[str], folder: str, env: Mapping[str, str]) -> tuple[list[str], dict[str, str]]:
        """The words by which it is begun in the container."""
        given, own = passed(env)
        return [self.container.by.program, 'exec', '--workdir', folder, *given, self.container.name,
                'sh', '-c', 'echo $$ > "$0"; exec "$@"', self.note, *words], own

    def ask(self, *words: str) -> None:
        """Has the engine do something, whatever comes of it."""
        subprocess.run([self.container.by.program, *words], capture_output=True, timeout=60, check=False)

    def tell(self, child: subprocess.Popen[bytes], number: int) -> None:
        """Sends it a signal, inside: the program of the engine passes on none."""
        self.ask('exec', self.container.name, 'sh', '-c', f'kill -{int(number)} "$(cat "$0")"', self.note)

    def kill(self) -> None:
        """Ends all that runs in the container."""
        self.ask('restart', '--time', '0', self.container.name)


class Service:
    """A container beside the steps of a job."""

    def __init__(self, by: Engine, label: str, image: Image) -> None:
        self.by, self.label = by, label
        self.name = by.start(image, [], [image.image], alias=label)

    def wait(self, is_over: Callable[[], bool]) -> None:
        """Waits until it is healthy, where its image or its options say how that is seen."""
        late = time.monotonic() + SECONDS_OF_HEALTH
        form = '{{.State.Status}} {{if .State.Health}}{{.State.Health.Status}}{{end}}'
        while True:
            found = self.by.ask('inspect', '--format', form, self.name).split()
            state = found[-1] if found else ''
            if state in ('healthy', 'running'):
                return
            if state not in ('starting', 'created') or 'exited' in found or time.monotonic() > late or is_over():
                why = self.by.ask('logs', '--tail', '20', self.name).strip()
                raise NoContainer(f'{self.label} is {" and ".join(found)}: {why}')
            self.by.look_at_health(self.name)
            time.sleep(0.5)

    @functools.cached_property
    def context(self) -> dict[str, Any]:
        """What `job.services` has of it."""
        ports: dict[str, str] = {}
        for line in self.by.ask('port', self.name).splitlines():  # 6379/tcp -> 0.0.0.0:49153
            found = re.fullmatch(r'([0-9]+)/\w+ -> .*:([0-9]+)', line.strip())
            if found:
                ports[found[1]] = found[2]
        return {'id': self.name, 'network': self.by.network, 'ports': ports}
