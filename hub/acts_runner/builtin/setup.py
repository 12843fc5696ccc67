"""`actions/setup-*`: tools from a tool cache in GitHub's layout, else as they are installed, else as a command of the
operator's puts them into the tool cache."""
from __future__ import annotations

import os
import platform
import re
import shlex
import shutil
import subprocess
from dataclasses import dataclass
from typing import TYPE_CHECKING, Any, Mapping

from ..steps import StepFailed
from .base import UNKNOWN, Builtin, Call
from .problems import OF_TOOLS

if TYPE_CHECKING:
    from ..job import Job

ANY = ('latest', 'stable', 'node', 'current', '*', 'x')
BEFORE = 'oldstable'  # of go: the newest version of the minor version before the newest one
LTS = {'dubnium': 10, 'erbium': 12, 'fermium': 14, 'gallium': 16, 'hydrogen': 18, 'iron': 20, 'jod': 22, 'krypton': 24}
MACHINES = {'x86_64': 'x64', 'aarch64': 'arm64', 'armv7l': 'arm'}
PART = re.compile(r'(>=|<=|[<>=^~])?v?([0-9]+(?:\.[0-9]+)*)(?:\.[xX*])*')  # of a range
ARCHITECTURE = re.compile('[a-z0-9][a-z0-9_-]*')
MINUTES_OF_INSTALLATION = 30
REGISTRY = frozenset({'registry-url', 'scope', 'always-auth'})  # of npm
NO_TOKEN = 'XXXXX-XXXXX-XXXXX-XXXXX'  # what setup-node gives npm where a step has no NODE_AUTH_TOKEN
PACKAGES = 'jdk', 'jre', 'jdk+fx', 'jre+fx', 'jdk+crac', 'jre+crac', 'jdk+jcef', 'jre+jcef', 'jdk+ft', 'jre+ft'
DISTRIBUTIONS = {  # of Java, and their names in the tool cache
    'temurin': 'Temurin-Hotspot', 'adopt': 'Adopt-Hotspot', 'adopt-hotspot': 'Adopt-Hotspot',
    'adopt-openj9': 'Adopt-OpenJ9', 'zulu': 'Zulu', 'liberica': 'Liberica', 'microsoft': 'Microsoft',
    'corretto': 'Corretto', 'oracle': 'Oracle', 'semeru': 'IBM_Semeru', 'dragonwell': 'Dragonwell',
    'sapmachine': 'SapMachine', 'graalvm': 'GraalVM', 'jetbrains': 'JetBrains'}


def numbers(text: str) -> list[int]:
    """The numbers of a version."""
    return [int(part) for part in re.findall('[0-9]+', text)]


def parts_of(wanted: str) -> list[str]:
    """The parts of a range, all of which hold of a version of it."""
    return re.sub(r'(>=|<=|[<>=^~])\s+', r'\1', wanted).split()


def is_name(part: str) -> bool:
    """Whether a part of a range is a name, such as `latest`, `lts/*` or `lts/iron`."""
    return part in (*ANY, BEFORE, 'lts/*') or part.lower() in {f'lts/{name}' for name in LTS}


def has_name(have: list[int], part: str) -> bool:
    """Whether a version is one of those that a name stands for. Long-term support of node has even numbers."""
    if part.lower().startswith('lts/'):
        return have[0] == LTS.get(part.lower()[4:], have[0] if have[0] % 2 == 0 else None)
    return True


def is_range(wanted: str) -> bool:
    """Whether a text names versions."""
    return all(is_name(part) or PART.fullmatch(part) for each in wanted.split('||') for part in parts_of(each))


def satisfies(version: str, wanted: str) -> bool:
    """Whether a version is one of those that a text names: 20, 3.x, >=1.21, ^1.13, ~3.9, lts/*, or several of them by
    || or spaces."""
    if '||' in wanted:
        return any(satisfies(version, part) for part in wanted.split('||'))
    have = numbers(version)
    for part in parts_of(wanted):
        found = PART.fullmatch(part)
        if is_name(part):
            if not has_name(have, part):
                return False
        elif not found or not compares(have, found[1] or '=', numbers(found[2])):
            return False
    return True


def compares(have: list[int], how: str, need: list[int]) -> bool:
    """Whether a version is as one part of a range says."""
    if how in ('<', '<=', '>', '>='):
        size = len(need) if how in ('<=', '>') else max(len(have), len(need))
        left, right = (list(part) + [0] * (size - len(part)) for part in (have[:size], need))
        return {'<': left < right, '<=': left <= right, '>': left > right, '>=': left >= right}[how]
    leading = next((index for index, part in enumerate(need) if part), len(need) - 1) + 1
    fixed = {'^': leading, '~': min(2, len(need))}.get(how, len(need))
    return have[:fixed] == need[:fixed] and have >= need


@dataclass(frozen=True)
class Tool:
    """A tool: its folder in the tool cache, and how one that is installed says its version."""

    name: str
    cached: str
    programs: tuple[str, ...]
    ask: str
    files: tuple[str, ...]
    home: str = ''


@dataclass(frozen=True)
class Found:
    """A version of a tool; the folder is that of the tool cache, or None for one that is installed."""

    version: str
    folder: str | None


def newest(wanted: str, there: list[Found]) -> Found | None:
    """The first of these versions that is wanted; None if there is none."""
    if wanted == BEFORE:
        last: list[int] = max((numbers(found.version)[:2] for found in there), default=[])
        there = [found for found in there if numbers(found.version)[:2] < last]
    return next((found for found in there if satisfies(found.version, wanted)), None)


class Setup(Builtin):
    """Takes the newest version of the tool cache that fits, then the one that is installed, then what a command of the
    operator's puts into the tool cache, and adds the matchers of what the tool prints. An input that would change what
    the steps get, and is not taken, is refused."""

    def __init__(self, tool: Tool) -> None:
        self.tool = tool
        own = {'node': REGISTRY, 'java': frozenset({'distribution', 'java-package'})}.get(tool.name, frozenset())
        self.takes = own | {f'{tool.name}-version', f'{tool.name}-version-file', 'architecture'}
        self.ignores = frozenset({'cache', 'cache-dependency-path', 'check-latest', 'token', 'update-environment',
                                  'allow-prereleases', 'pip-version', 'pip-install', 'package-manager-cache'})

    def installed(self) -> Found | None:
        """The version that is installed."""
        program = next((word for word in self.tool.programs if shutil.which(word)), None)
        if not program:
            return None
        done = subprocess.run([program, self.tool.ask], capture_output=True, text=True, timeout=60, check=False)
        version = re.search(r'[0-9]+(\.[0-9]+)*', done.stdout + done.stderr)
        return Found(version[0], None) if version else None

    def cached(self, job: Job, given: Mapping[str, Any], architecture: str) -> list[Found]:
        """The versions of the tool cache, the newest first: NAME/VERSION/ARCHITECTURE, with
        NAME/VERSION/ARCHITECTURE.complete beside it."""
        made: list[Found] = []
        for top in dict.fromkeys((self.folder(job, given), os.path.join(job.tool_cache, self.tool.cached))):
            versions = [name for name in (os.listdir(top) if os.path.isdir(top) else []) if re.match('[0-9]', name)
                        and os.path.exists(os.path.join(top, name, architecture + '.complete'))]
            made += [Found(version, os.path.join(top, version, architecture))
                     for version in sorted(versions, key=numbers, reverse=True)]
        return made

    def folder(self, job: Job, given: Mapping[str, Any]) -> str:
        """The folder of the tool cache for the tool: of Java one for each distribution."""
        return os.path.join(job.tool_cache, folder_of_java(given) if self.tool.name == 'java' else self.tool.cached)

    def install(self, job: Job, given: Mapping[str, Any], wanted: str, architecture: str) -> None:
        """Lets the command of the operator's put a version into the tool cache, or a ValueError."""
        words = [*shlex.split(job.options.install or ''), self.tool.name, wanted, architecture, self.folder(job, given)]
        try:
            done = subprocess.run(words, capture_output=True, text=True, errors='replace', stdin=subprocess.DEVNULL,
                                  timeout=60 * MINUTES_OF_INSTALLATION, check=False)
        except (OSError, subprocess.TimeoutExpired) as fault:
            raise ValueError(f'{self.tool.name} {wanted} is not installed: {fault}') from None
        for line in (done.stdout + done.stderr).splitlines():
            job.log.write(line)
        if done.returncode:
            raise ValueError(f'{self.tool.name} {wanted} is not installed: {words[0]} ends with {done.returncode}')

    def wanted(self, job: Job, given: Mapping[str, Any]) -> list[str]:
        """The versions that the step asks for, any of which will do for each line."""
        said = str(given.get(f'{self.tool.name}-version') or '')
        if said:
            return [line.strip() for line in said.splitlines() if line.strip()]
        path = str(given.get(f'{self.tool.name}-version-file') or '')
        return [version_in(job, path)] if path else ['*']

    def choose(self, job: Job, given: Mapping[str, Any], wanted: str) -> Found:
        """The version that is taken, or a ValueError."""
        here = MACHINES.get(platform.machine(), platform.machine())
        architecture = str(given.get('architecture') or here).lower()
        if not ARCHITECTURE.fullmatch(architecture):
            raise ValueError(f'{architecture} is no architecture')
        installed = self.installed() if architecture == here else None
        found = newest(wanted, [*self.cached(job, given, architecture), *([installed] if installed else [])])
        if not found and job.options.install and is_range(wanted):
            self.install(job, given, wanted, architecture)
            found = newest(wanted, self.cached(job, given, architecture))
        if found:
            return found
        if installed:
            raise ValueError(f'{self.tool.name} {installed.version} is installed, and not {wanted}; the tool cache '
                             f'{job.tool_cache} has none for {architecture} that fits')
        raise ValueError(f'{self.tool.name} is not installed, and the tool cache {job.tool_cache} has no {wanted} '
                         f'for {architecture}')

    def check(self, job: Job, given: Mapping[str, Any]) -> None:
        """A ValueError for what it can't do. A version file is not there before the first step."""
        super().check(job, given)
        if UNKNOWN in (given.get(f'{self.tool.name}-version'), given.get('architecture'), given.get('distribution')):
            return
        if not given.get(f'{self.tool.name}-version') and given.get(f'{self.tool.name}-version-file'):
            return
        for line in self.wanted(job, given):
            self.choose(job, given, line)

    def run(self, job: Job, given: Mapping[str, str], call: Call) -> dict[str, str]:
        """Puts the tool into PATH, if it is one of the tool cache."""
        try:
            found = [self.choose(job, given, line) for line in self.wanted(job, given)][-1]
        except ValueError as fault:
            raise StepFailed(str(fault)) from None
        if found.folder:
            job.path += [found.folder, os.path.join(found.folder, 'bin')]
            if self.tool.home:
                job.env[self.tool.home] = found.folder
        job.matchers.add(OF_TOOLS[self.tool.name])
        if given.get('registry-url'):
            use_registry(job, given)
        whence = f'of {found.folder}' if found.folder else 'as it is installed'
        whence += ', of whatever distribution' if given.get('distribution') and not found.folder else ''
        job.log.write(f'{self.tool.name} {found.version}, {whence}')
        more = {'cache-hit': 'false'}
        if self.tool.name == 'python' and found.folder:
            more['python-path'] = os.path.join(found.folder, 'bin', 'python')
        return {f'{self.tool.name}-version': found.version, **more}


def folder_of_java(given: Mapping[str, Any]) -> str:
    """The folder of a distribution of Java in the tool cache, or a ValueError."""
    said, package = str(given.get('distribution') or 'temurin').lower(), str(given.get('java-package') or 'jdk')
    if said not in DISTRIBUTIONS:
        raise ValueError(f'the distribution {said} is not known')
    if package not in PACKAGES:
        raise ValueError(f'the java-package {package} is none of {", ".join(PACKAGES)}')
    return f'Java_{DISTRIBUTIONS[said]}_{package}'


def use_registry(job: Job, given: Mapping[str, str]) -> None:
    """Lets npm of later steps use a registry, with the token of their NODE_AUTH_TOKEN."""
    url = given['registry-url'].rstrip('/') + '/'
    owner = job.github['repository'].split('/')[0] if 'npm.pkg.github.com' in url else ''
    scope = (given.get('scope') or owner).lstrip('@').lower()
    path = os.path.join(job.temp, '.npmrc')
    with open(path, 'w', encoding='utf-8') as file:
        print(re.sub(r'^\w+:', '', url) + ':_authToken=${NODE_AUTH_TOKEN}', file=file)
        print(f'@{scope}:registry={url}' if scope else f'registry={url}', file=file)
        print(f'always-auth={given.get("always-auth") or "false"}', file=file)
    job.env['NPM_CONFIG_USERCONFIG'] = path
    job.env.setdefault('NODE_AUTH_TOKEN', NO_TOKEN)


def version_in(job: Job, path: str) -> str:
    """The version that a file of the workspace names: `.nvmrc`, `.node-version`, `.python-version`, `go.mod`,
    `package.json`, `.tool-versions`, or one with the version alone."""
    place = os.path.realpath(os.path.join(job.workspace, path))
    if os.path.commonpath([place, os.path.realpath(job.workspace)]) != os.path.realpath(job.workspace):
        raise ValueError(f'{path} is not below the workspace')
    try:
        with open(place, encoding='utf-8') as file:
            text = file.read(1 << 16)
    except OSError as fault:
        raise ValueError(f'{path}: {fault.strerror}') from None
    name = os.path.basename(path)
    forms = {'go.mod': r'^go\s+([0-9.]+)', 'go.work': r'^go\s+([0-9.]+)', 'package.json': r'"node"\s*:\s*"([^"]+)"',
             '.tool-versions': r'^(?:nodejs|node|python|golang|java)\s+(\S+)',
             'pyproject.toml': r'^requires-python\s*=\s*"([^"]+)"'}
    found = re.search(forms.get(name, r'^\s*(?:python-)?v?(\S+)'), text, re.M)
    if not found:
        raise ValueError(f'{path} names no version')
    return found[1].replace(',', ' ')


TOOLS = {f'setup-{tool.name}': Setup(tool) for tool in (
    Tool('node', 'node', ('node',), '--version', ('.nvmrc',)),
    Tool('python', 'Python', ('python', 'python3'), '--version', ('.python-version',), 'pythonLocation'),
    Tool('go', 'go', ('go',), 'version', ('go.mod',), 'GOROOT'),
    Tool('java', 'Java', ('java',), '-version', ('.java-version',), 'JAVA_HOME'))}
