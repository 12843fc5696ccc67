#!/usr/bin/python3
"""Stands in for docker: what runs "in" a container runs here, with the variables that are given alone. Of a Dockerfile it knows COPY, ENV, ENTRYPOINT, CMD and
`RUN false`; paths of a container stand for those of the folders that it is given."""
from __future__ import annotations

import glob
import json
import os
import shutil
import signal
import sys
from typing import Any

NOTES = os.environ['NOTES']
IMAGES = NOTES + '.images'
BASE = {'PATH': '/usr/bin:/bin', 'STANDS_IN': 'for a container'}


def images() -> dict[str, Any]:
    """The images that there are."""
    if not os.path.exists(IMAGES):
        return {'localhost/tiny': {}}
    with open(IMAGES, encoding='utf-8') as file:
        found: dict[str, Any] = json.load(file)
    return found


def keep(made: dict[str, Any]) -> None:
    """Writes the images."""
    with open(IMAGES, 'w', encoding='utf-8') as file:
        json.dump(made, file)


def value_of(word: str) -> tuple[str, str]:
    """A variable that a word gives, by itself or from the present ones."""
    name, equals, value = word.partition('=')
    return name, value if equals else os.environ[name]


def enter(rest: list[str]) -> None:
    """`exec`."""
    env = dict(BASE)
    while rest[0].startswith('--'):
        option, value, *rest = rest
        if option == '--workdir':
            os.chdir(value)
        else:
            env.update([value_of(value)])
    os.execvpe(rest[1], rest[1:], env)


def build(rest: list[str]) -> int:
    """`build --tag NAME --file FILE FOLDER`."""
    name, file, folder = rest[1], rest[3], rest[4]
    made: dict[str, Any] = {'copied': {}, 'env': {}}
    with open(file, encoding='utf-8') as lines:
        for line in lines:
            word, _, said = line.strip().partition(' ')
            if word == 'COPY':
                made['copied'][said.split()[1]] = kept = f'{IMAGES}.{len(images())}.{len(made["copied"])}'
                shutil.copy(os.path.join(folder, said.split()[0]), kept)
            elif word == 'ENV':
                made['env'].update([said.split('=', 1)])
            elif word in ('ENTRYPOINT', 'CMD'):
                made[word] = json.loads(said)
            elif line.strip() == 'RUN false':
                print('the command has failed: ::error::of the build')
                return 1
    keep({**images(), name: made})
    print(f'made {name}')
    return 0


def run(rest: list[str]) -> None:
    """`run`."""
    given: list[tuple[str, str]] = []
    rest = rest[1:]  # --rm
    while rest[0].startswith('--'):
        option, value, *rest = rest
        given.append((option, value))
    image, words = images().get(rest[0], {}), rest[1:]
    pairs = [value.split(':') for option, value in given if option == '--volume']
    said = dict(given)

    def outside(text: str) -> str:
        return next((there + text[len(inside):] for there, inside in pairs if text == inside or text.startswith(inside + '/')), text)
    env = {**BASE, **image.get('env', {}), 'NAME_OF_IT': said['--name']}
    env.update({name: outside(value) for name, value in (value_of(value) for option, value in given if option == '--env')})
    entrypoint = [said['--entrypoint']] if '--entrypoint' in said else image.get('ENTRYPOINT', [])
    words = [*entrypoint, *(words or ([] if '--entrypoint' in said else image.get('CMD', [])))]
    words[0] = image.get('copied', {}).get(words[0], words[0])
    os.chdir(outside(said['--workdir']))
    os.execvpe(words[0], words, env)


def kill(name: str | None) -> None:
    """Ends what runs in a container; in each one without a name."""
    for path in glob.glob('/proc/[0-9]*/environ'):
        try:
            with open(path, encoding='utf-8', errors='replace') as file:
                env = file.read().split('\0')
            if 'STANDS_IN=for a container' in env and (f'NAME_OF_IT={name}' in env if name else f'NOTES={NOTES}' in env):
                os.kill(int(path.split('/')[2]), signal.SIGKILL)
        except OSError:
            pass


def main(word: str, rest: list[str]) -> int:
    """Does what it is asked to."""
    with open(NOTES + '.engine', 'a', encoding='utf-8') as file:
        print(word, *rest, file=file)
    health = NOTES + '.health'
    if word == 'exec':
        enter(rest)
    elif word == 'run':
        run(rest)
    elif word == 'build':
        return build(rest)
    elif word == 'image' and rest[0] == 'inspect':
        return rest[1] not in images()
    elif word == 'image':
        keep({name: made for name, made in images().items() if name != rest[-1]})
    elif word == 'pull':
        return 'missing' in rest[0]
    elif word == 'inspect':
        print(open(health, encoding='utf-8').read().strip() if os.path.exists(health) else 'healthy')
    elif word == 'port':
        print('5432/tcp -> 0.0.0.0:5432')
    elif word == 'logs':
        print('it did not come up')
    elif word in ('restart', 'kill'):
        kill(rest[0] if word == 'kill' else None)
    return 0


if __name__ == '__main__':
    sys.exit(main(sys.argv[1], sys.argv[2:]))
