"""Stand-ins for what a host of runners has: tools, a tool cache in GitHub's layout, actions of other repositories, and docker. Each prints
how it was called, and fails when that is not how workflows call it, or when what it needs is not there."""
from __future__ import annotations

import json
import pathlib
import platform
import shlex
import subprocess
from collections.abc import Mapping, Sequence
from dataclasses import dataclass

from runner_trials import ENGINE, git

ARCHITECTURE = {'x86_64': 'x64', 'aarch64': 'arm64'}.get(platform.machine(), platform.machine())
IMAGES = 'postgres:11-alpine', 'postgres', 'redis', 'node:20-bookworm-slim'
SCRIPT = '''#!/bin/sh
# Stands in for {name}.
said="$*" more=
{first}
for file in {needs}; do
  [ -e "$file" ] || {{ echo "{name}: there is no $file in $PWD" >&2; exit 66; }}
done
case "$said" in
{patterns}) ;;
*) echo "{name}: nobody calls it so: $said" >&2; exit 64 ;;
esac
{does}
echo "called {name}${{said:+ $said}}{of}$more" | sed "s,${{GITHUB_WORKSPACE:-/nowhere}},WORKSPACE,g; s/ *$//"
'''


@dataclass(frozen=True)
class Tool:
    """A tool: how it may be called, with `*` for anything; the files that have to be there; and what it does, in the language of the shell,
    at once or before it prints."""

    name: str
    calls: tuple[str, ...]
    needs: tuple[str, ...] = ()
    does: str = ''
    first: str = ''


def pattern(call: str) -> str:
    """A way to call, as a pattern of the shell."""
    return '*'.join(shlex.quote(part) if part else '' for part in call.split('*')) or "''"


def script(tool: Tool, of: str = '') -> str:
    """The program that stands in for a tool, of a version of something."""
    return SCRIPT.format(name=tool.name, first=tool.first, needs=' '.join(tool.needs), patterns=' | '.join(map(pattern, tool.calls)), does=tool.does,
                         of=f', of {of}' if of else '')


def put(folder: pathlib.Path, name: str, text: str) -> None:
    """Makes a program."""
    folder.mkdir(parents=True, exist_ok=True)
    (folder / name).write_text(text)
    (folder / name).chmod(0o755)


IS_INSTALLED = '[ -e "$RUNNER_TEMP/installed-{0}" ] || {{ echo "{0} is not installed" >&2; exit 127; }}'
PIP = '''for word in "$@"; do
  case "$word" in
    install | -*) ;;
    *.txt) [ -e "$word" ] || exit 66
           for line in $(cat "$word"); do touch "$RUNNER_TEMP/installed-${line%%[=<>]*}"; done ;;
    *) touch "$RUNNER_TEMP/installed-${word%%[=<>]*}" ;;
  esac
done'''
NPM = '''case "$said" in
  ci | install) mkdir -p node_modules ;;
  publish) [ -n "$NODE_AUTH_TOKEN" ] && [ "$NODE_AUTH_TOKEN" != XXXXX-XXXXX-XXXXX-XXXXX ] &&
           grep -qF '_authToken=${NODE_AUTH_TOKEN}' "$NPM_CONFIG_USERCONFIG" || { echo 'npm: not signed in' >&2; exit 1; }
           more=" to $(sed -n 's/^registry=//p' "$NPM_CONFIG_USERCONFIG")" ;;
  *) [ -d node_modules ] || { echo 'npm: there are no modules' >&2; exit 1; } ;;
esac'''
CARGO = '''more=" in color $CARGO_TERM_COLOR"
case "$said" in
  'build --release'*) [ -e "$RUNNER_TEMP/target-$4" ] || { echo "cargo: $4 is not installed" >&2; exit 101; }
                      mkdir -p "target/$4/release" && echo app > "target/$4/release/app" ;;
esac'''
MAVEN = '''case "$JAVA_HOME" in
  '') echo 'JAVA_HOME is not set' >&2; exit 1 ;;
  */8.* | */11.*) case "$said" in *verify) echo '[ERROR] release version 17 not supported'; exit 1 ;; esac ;;
esac'''
CMAKE = '[ "$1" = --build ] || mkdir -p "$2"; [ -d "$2" ] || { echo "cmake: there is no $2" >&2; exit 1; }'
TOKEN = '[ -n "$GH_TOKEN$GITHUB_TOKEN" ] || { echo "gh: To use GitHub CLI in a GitHub Actions workflow, set the GH_TOKEN environment variable." >&2; exit 4; }'
INSTALLED = (  # on each host
    Tool('make', ('', 'check', 'distcheck', 'lint', 'test-unit', 'test-integration'), ('Makefile',), '[ "$said" != test-integration ] || exit 2'),
    Tool('cmake', ('-B * -DCMAKE_CXX_COMPILER=* -DCMAKE_C_COMPILER=* -DCMAKE_BUILD_TYPE=Release -S *', '--build * --config Release'), (), CMAKE),
    Tool('ctest', ('--build-config Release',)),
    Tool('mvn', ('-B package --file pom.xml', '-B -ntp verify'), ('pom.xml',), MAVEN),
    Tool('cargo', ('build --verbose', 'test --verbose', 'test --all-features', 'build --release --target *'), ('Cargo.toml',), CARGO),
    Tool('rustup', ('toolchain install *', 'default *', 'target add *'), (), '[ "$1" != target ] || touch "$RUNNER_TEMP/target-$3"'),
    Tool('bundle', ('exec rake',), ('Gemfile',), '[ -n "$RUBY_STANDS_IN" ] || { echo "bundle: there is no ruby" >&2; exit 127; }'),
    Tool('gh', ('release create v*', 'issue edit *', 'issue close *', 'pr merge *'), (), TOKEN))
NODE = (Tool('npm', ('ci', 'install', 'test', 'publish', 'run build --if-present'), ('package.json', 'package-lock.json'), NPM),
        Tool('npx', ('webpack',), ('node_modules',)))
PYTHON = (Tool('python', ('manage.py test', '-m pip install *'), (), '[ "$1" = -m ] || [ -e "$1" ] || exit 66',
               'if [ "$1 $2" = "-m pip" ]; then shift 2; exec "$(dirname "$0")/pip" "$@"; fi'),
          Tool('pip', ('install *',), (), PIP),
          Tool('pytest', ('', '--shard=*/3'), (), IS_INSTALLED.format('pytest')),
          Tool('pylint', ('*.py',), (), IS_INSTALLED.format('pylint')),
          Tool('flake8', ('. --count *',), (), IS_INSTALLED.format('flake8')),
          Tool('tox', ('-e py',), (), IS_INSTALLED.format('tox') + '\ncase "$0" in */3.13.*) echo "FAIL py"; exit 1 ;; esac'))
GO = (Tool('go', ('build *', 'test *', 'vet ./...'), ('go.mod',)),)
JAVA = (Tool('java', ('-version',)),)
REAL_NODE = '#!/bin/sh\n[ "$1" != --version ] || {{ echo v{0}; exit; }}\nexec /usr/bin/node "$@"\n'
CACHE: Mapping[str, tuple[tuple[str, ...], tuple[Tool, ...]]] = {  # of the folders of a tool cache: versions, and what each has
    'node': (('14.21.3', '16.20.2', '18.20.4', '20.18.1', '22.12.0'), NODE),
    'Python': (('3.8.18', '3.9.21', '3.10.16', '3.11.11', '3.12.8', '3.13.1'), PYTHON),
    'go': (('1.20.14', '1.21.13', '1.22.10', '1.23.4'), GO),
    'Java_Temurin-Hotspot_jdk': (('8.0.432-6', '11.0.25-9', '17.0.13-11', '21.0.5-11'), JAVA),
    'Java_Zulu_jdk': (('11.0.25-9', '17.0.13-11', '21.0.5-11'), JAVA)}


def make_tools(folder: pathlib.Path) -> None:
    """Makes the tools that are installed."""
    for tool in INSTALLED:
        put(folder, tool.name, script(tool))


def make_tool_cache(folder: pathlib.Path) -> None:
    """Makes a tool cache: NAME/VERSION/ARCHITECTURE, with a file NAME/VERSION/ARCHITECTURE.complete."""
    for name, (versions, tools) in CACHE.items():
        for version in versions:
            place = folder / name / version / ARCHITECTURE
            for tool in tools:
                put(place / 'bin', tool.name, script(tool, f'{name.lower() if name in ("Python", "node", "go") else name} {version}'))
            if name == 'node':
                put(place / 'bin', 'node', REAL_NODE.format(version))
            (folder / name / version / f'{ARCHITECTURE}.complete').touch()


# Actions of other repositories.

MAIN = '''const fs = require('fs')
const given = name => process.env['INPUT_' + name.replace(/ /g, '_').toUpperCase()] || ''
const set = (file, text) => fs.appendFileSync(process.env[file], text + '\\n')
for (const name of REQUIRED)
  if (!given(name)) { console.log(`::error::Input required and not supplied: ${name}`); process.exit(1) }
console.log('called NAME' + (SHOWN.length ? ' with ' + SHOWN.map(name => `${name}=${given(name)}`).join(', ') : ''))
'''


def of_node(name: str, inputs: Mapping[str, str | None], shown: Sequence[str] = (), more: str = '', post: str = '') -> dict[str, str]:
    """The files of an action of node. Inputs have a default, or None if they are required."""
    said = {each: {'description': each, 'required': value is None, **({} if value is None else {'default': value})} for each, value in inputs.items()}
    runs = {'using': 'node20', 'main': 'main.js', **({'post': 'post.js'} if post else {})}
    required = [each for each, value in inputs.items() if value is None]
    main = MAIN.replace('REQUIRED', json.dumps(required)).replace('SHOWN', json.dumps(list(shown))).replace('NAME', name)
    return {'action.yml': json.dumps({'name': name, 'inputs': said, 'runs': runs}), 'main.js': main + more + '\n', **({'post.js': post + '\n'} if post else {})}


def below(path: str, files: Mapping[str, str]) -> dict[str, str]:
    """Files in a folder."""
    return {f'{path}/{name}': text for name, text in files.items()}


SAY = {'loud/action.yml': '''name: Say
inputs: {to: {description: to whom, default: all}}
outputs: {length: {value: "${{ steps.make.outputs.length }}"}, failed: {value: "${{ steps.no.outcome == 'failure' }}"}}
runs:
  using: composite
  steps:
    - id: make
      shell: sh
      env: {TEXT: "Hello ${{ inputs.to }}"}
      run: |
        echo "says: $TEXT!"
        echo "length=${#TEXT}" >> "$GITHUB_OUTPUT"
        cat "$GITHUB_ACTION_PATH/../shared" > /dev/null
    - id: no
      if: failure()
      shell: bash
      run: echo never
''', 'shared': ''}
TOOLCHAIN = {'action.yml': '''name: rustup toolchain install
inputs: {toolchain: {description: which, required: true}}
runs:
  using: composite
  steps:
    - run: rustup toolchain install ${{ inputs.toolchain }} --profile minimal
      shell: bash
    - run: rustup default ${{ inputs.toolchain }}
      shell: bash
'''}
PAGES_ARTIFACT = {'action.yml': '''name: Upload Pages artifact
inputs: {path: {description: which, default: _site/}}
runs: {using: composite, steps: [{run: "test -e ${{ inputs.path }}", shell: sh}]}
'''}
METADATA = '''const tag = process.env.GITHUB_REF.replace('refs/tags/v', '')
set('GITHUB_OUTPUT', `tags=${given('images')}:${tag}`)
set('GITHUB_OUTPUT', `labels=org.opencontainers.image.revision=${process.env.GITHUB_SHA}`)'''
NO_TOKEN = "if (!given('github-token') && !given('repo-token') && !given('token')) process.exit(1)"
ACTIONS: Mapping[tuple[str, str], Mapping[str, str]] = {  # by repository, and the tag or branch that workflows name
    ('octo/say', 'v1'): SAY,
    ('ruby/setup-ruby', 'v1'): of_node(
        'ruby/setup-ruby', {'ruby-version': None, 'bundler-cache': 'false'}, ('ruby-version', 'bundler-cache'),
        "set('GITHUB_ENV', 'RUBY_STANDS_IN=' + given('ruby-version')); set('GITHUB_STATE', 'version=' + given('ruby-version'))",
        "console.log('ruby/setup-ruby is done with ' + process.env.STATE_version)"),
    ('gradle/actions', 'v4'): below('setup-gradle', of_node('gradle/actions/setup-gradle', {'gradle-version': ''}, (), "set('GITHUB_ENV', 'GRADLE_STANDS_IN=1')")),
    ('dtolnay/rust-toolchain', 'master'): TOOLCHAIN,
    ('docker/setup-buildx-action', 'v3'): of_node('docker/setup-buildx-action', {'driver': 'docker-container'}, ('driver',)),
    ('docker/login-action', 'v3'): of_node('docker/login-action', {'registry': '', 'username': None, 'password': None}, ('registry',),
                                           "set('GITHUB_STATE', 'registry=' + given('registry'))", "console.log('logged out of ' + process.env.STATE_registry)"),
    ('docker/metadata-action', 'v5'): of_node('docker/metadata-action', {'images': None, 'tags': ''}, ('images', 'tags'), METADATA),
    ('docker/build-push-action', 'v6'): of_node('docker/build-push-action', {'context': None, 'push': 'false', 'tags': '', 'labels': ''}, ('context', 'push', 'tags')),
    ('codecov/codecov-action', 'v4'): of_node('codecov/codecov-action', {'token': None, 'directory': '', 'fail_ci_if_error': 'false'}, ('directory',)),
    ('golangci/golangci-lint-action', 'v6'): of_node('golangci/golangci-lint-action', {'version': 'latest'}, ('version',)),
    ('actions/first-interaction', 'v1'): of_node('actions/first-interaction', {'repo-token': None, 'issue-message': '', 'pr-message': ''}, (), NO_TOKEN),
    ('actions/configure-pages', 'v5'): of_node('actions/configure-pages', {'token': '${{ github.token }}'}, (), NO_TOKEN),
    ('actions/upload-pages-artifact', 'v3'): PAGES_ARTIFACT,
    ('actions/deploy-pages', 'v4'): of_node('actions/deploy-pages', {'token': '${{ github.token }}'}, (), NO_TOKEN),
    ('aws-actions/configure-aws-credentials', 'v4'): of_node('aws-actions/configure-aws-credentials', {'role-to-assume': '', 'aws-region': None}, ('aws-region',))}


def make_actions(folder: pathlib.Path) -> None:
    """Makes a bare repository OWNER/NAME.git for each action."""
    for (name, ref), files in ACTIONS.items():
        source = folder / 'source' / name
        for path, text in files.items():
            (source / path).parent.mkdir(parents=True, exist_ok=True)
            (source / path).write_text(text)
        git(str(source), 'init', '-q', '-b', 'master')
        git(str(source), 'add', '-A')
        git(str(source), 'commit', '-q', '-m', name)
        if ref != 'master':
            git(str(source), 'tag', ref)
        subprocess.run(['git', 'clone', '-q', '--bare', str(source), str(folder / f'{name}.git')], check=True)


# docker.

DOCKER = '''#!/usr/bin/python3
# Stands in for docker: what runs "in" a container runs here, with the variables that are given alone. Containers of actions are another stand-in's.
import os, pathlib, re, sys

STATE, INSIDE, IMAGES, OF_ACTIONS = pathlib.Path({state!r}), {inside!r}, {images!r}, {of_actions!r}
word, *rest = sys.argv[1:] or ['']


def end(words, status=125):
    print('docker: ' + words, file=sys.stderr)
    sys.exit(status)


def known(name):
    if not (STATE / name).exists():
        end(f'there is no container {{name}}')
    return (STATE / name).read_text().splitlines()


def create():
    words = dict(zip(rest, rest[1:]))
    image = next((one for one in rest if one in IMAGES), None)
    if not image:
        end('manifest unknown: ' + ' '.join(rest))
    said = [two for one, two in zip(rest, rest[1:]) if one == '--publish']
    health = ['health'] if '--health-cmd' in rest else []
    STATE.mkdir(exist_ok=True)
    (STATE / words['--name']).write_text('\\n'.join([image, *health, *('publish ' + port for port in said)]))


def inside():
    env = {{'PATH': INSIDE}}
    while rest[0].startswith('--'):
        name, value = rest.pop(0), rest.pop(0)
        if name == '--workdir':
            os.chdir(value)
        elif name == '--env':
            own, equals, said = value.partition('=')
            env[own] = said if equals else os.environ[own]
        else:
            end(f'unknown flag: {{name}}')
    known(rest[0])
    os.execvpe(rest[1], rest[1:], env)


if word == 'create':
    create()
elif word == 'exec':
    inside()
elif word == 'inspect':
    print('healthy' if 'health' in known(rest[-1]) else 'running')
elif word == 'port':
    for line in known(rest[-1]):
        if line.startswith('publish '):
            own, _, there = line.split()[1].rpartition(':')
            print(f'{{there}}/tcp -> 0.0.0.0:{{own or there}}')
elif word in ('start', 'logs', 'kill', 'restart'):
    known(rest[-1])
elif word == 'rm':
    (STATE / rest[-1]).unlink(missing_ok=True)
elif word in ('run', 'image') or [word, *rest[:1]] == ['build', '--tag']:
    os.execv(OF_ACTIONS, [OF_ACTIONS, word, *rest])
elif word == 'build':
    files = [two for one, two in zip(rest, rest[1:]) if one == '--file']
    if rest[0] != '.' or not files or not os.path.exists(files[0]):
        end('there is nothing to build')
    print(re.sub('[0-9]{{9,}}', 'TIME', 'called docker build ' + ' '.join(rest)))
elif word not in ('version', 'info', 'network', 'pull', 'login'):
    end(f'nobody calls it so: {{word}} ' + ' '.join(rest))
'''


def make_docker(folder: pathlib.Path) -> None:
    """Makes docker, and a folder with what is in the image of node."""
    for tool in NODE:
        put(folder / 'image', tool.name, script(tool, 'the image'))
    put(folder / 'image', 'engine', ENGINE)
    path = f'{folder / "image"}:/usr/bin:/bin'
    put(folder, 'docker', DOCKER.format(state=str(folder / 'containers'), inside=path, images=IMAGES, of_actions=str(folder / 'image/engine')))
