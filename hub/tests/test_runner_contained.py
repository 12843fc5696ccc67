"""Actions in containers, by GitHub's pages 'Metadata syntax for GitHub Actions' (`runs` for Docker container actions) and 'Dockerfile support for GitHub Actions':
by podman where it runs, and by a stand-in for docker."""
from __future__ import annotations

import json
import os
import pathlib
from collections.abc import Callable, Iterator
from typing import Any

import pytest
from acts_runner.actions import Action
from acts_runner.contained import faults_of, words_in
from acts_runner.paths import Paths
from engines import TINY, Engine, podman, stand_in
from runner_trials import lines_of, mirror, until
from test_runner_hub import Site, site, tls  # noqa: F401  (fixtures)

NEVER = {'run': 'echo never >> "$NOTES"'}


@pytest.fixture(scope='module')
def engines(tmp_path_factory: pytest.TempPathFactory) -> Callable[[str], Engine]:
    """The engine of a name, made when it is asked for the first time; a test without it is left out."""
    folder, made = tmp_path_factory.mktemp('engines'), dict[str, Engine | str]()

    def of(name: str) -> Engine:
        if name not in made:
            made[name] = podman(folder) if name == 'podman' else stand_in(folder)
        found = made[name]
        return pytest.skip(found) if isinstance(found, str) else found
    return of


@pytest.fixture(params=['stand-in', 'podman'])
def engine(request: pytest.FixtureRequest, engines: Callable[[str], Engine]) -> Iterator[Engine]:
    """One of them. Nothing is left running in it after a test."""
    found = engines(request.param)
    yield found
    assert found.containers() == []


def text_of(said: dict[str, Any]) -> str:
    """An action.yml; JSON is YAML, too."""
    return json.dumps({'name': 'an action', **said})


def action(site: Site, name: str, runs: dict[str, Any], files: dict[str, str] | None = None, **more: Any) -> None:
    """A repository with an action in a container, at v1."""
    said = {'runs': {'using': 'docker', **runs}, **more}
    mirror(str(site.folder / 'actions'), name, {'action.yml': text_of(said), **(files or {})}, tags=('v1',))


def dockerfile(*lines: str) -> str:
    return '\n'.join([f'FROM {TINY}', *lines]) + '\n'


def play(site: Site, engine: Engine, *steps: dict[str, Any], result: str = 'success', **job: Any) -> int:
    """Runs a job of these steps."""
    run = site.admit(*steps, **job)
    host = site.run('--actions', str(site.folder / 'actions'), '--mirrors', str(site.folder / 'mirrors'), **engine.env)
    found = site.service.run(run)
    assert found['conclusion'] == result, f'{host.said()} {host.complained()} {site.said(run)}'
    return run


ENTRY = '''#!/bin/sh
for word in "$@"; do echo "word [$word]"; done
echo "cwd=$(pwd)" >> "$GITHUB_OUTPUT"
echo "who=$INPUT_WHO/$INPUT_A_B/$KIND/$OWN/$OF_IMAGE" >> "$GITHUB_OUTPUT"
echo "paths=$HOME $GITHUB_WORKSPACE $GITHUB_EVENT_PATH $RUNNER_TEMP" >> "$GITHUB_OUTPUT"
echo "event=$(cat "$GITHUB_EVENT_PATH")" >> "$GITHUB_OUTPUT"
echo "user=$(id -u) $CI $GITHUB_ACTIONS $GITHUB_REPOSITORY $GITHUB_ACTION_REPOSITORY ${HOST:-no host}" >> "$GITHUB_OUTPUT"
echo "SET=by the action" >> "$GITHUB_ENV"
echo "# Done" >> "$GITHUB_STEP_SUMMARY"
echo "$OWN" > made
echo "of the home" > "$HOME/kept"
echo "::error file=$GITHUB_WORKSPACE/src/a.c,line=3::Bad"
cat before
'''


def test_an_action_of_a_dockerfile(site: Site, engine: Engine) -> None:
    """Arguments, inputs, variables, the mounted folders, the file commands and the event file; what the action writes is there for later steps."""
    runs = {'image': 'Dockerfile', 'args': ['${{ inputs.who }}', 'two words', '', '"quoted"', '$HOME'], 'env': {'KIND': 'a ${{ inputs.who }}', 'OWN': 'of the action'}}
    files = {'Dockerfile': dockerfile('COPY entry.sh /entry.sh', 'ENV OF_IMAGE=image', 'ENTRYPOINT ["/entry.sh"]', 'CMD ["not", "these"]'), 'entry.sh': ENTRY}
    action(site, 'octo/greet', runs, files, inputs={'who': {'default': 'nobody'}, 'a b': {'default': 'c'}})
    run = play(site, engine, {'run': 'mkdir src; touch src/a.c; echo "it was before" > before'},
               {'uses': 'octo/greet@v1', 'id': 'g', 'with': {'who': 'Mona'}, 'env': {'OWN': 'of the step'}},
               {'run': 'printf "%s\\n" "$CWD" "$WHO" "$PATHS" "$EVENT" "$USER" "$SET" "$(cat made)" >> "$NOTES"',
                'env': {name.upper(): f'${{{{ steps.g.outputs.{name} }}}}' for name in ('cwd', 'who', 'paths', 'event', 'user')}},
               github={'event': {'number': 7}})
    said = site.said(run)
    assert [line for line in said if line.startswith('word ')] == ['word [Mona]', 'word [two words]', 'word []', 'word ["quoted"]', 'word [$HOME]']
    cwd, who, paths, event, user, variable, made = site.noted()
    work = os.path.join(site.hosts[0].home(), 'work')
    assert who == 'Mona/c/a Mona/of the step/image' and json.loads(event) == {'number': 7} and variable == 'by the action' and made == 'of the step'
    assert user == '0 true true octo/hello octo/greet no host' or not engine.is_real and user.endswith(' true true octo/hello octo/greet no host')
    wanted = ('/github/workspace', '/github/home /github/workspace /github/workflow/event.json /github/runner_temp')
    assert (cwd, paths) == wanted if engine.is_real else cwd == work, (cwd, paths)
    assert 'it was before' in said and [(one['message'], one['path'], one['start_line']) for one in site.annotations(run)] == [('Bad', 'src/a.c', 3)]
    summary = next(pathlib.Path(site.hosts[0].home(), 'logs').glob('*.summary.md'))
    assert summary.read_text() == '# Done\n'
    if not engine.is_real:
        words = next(line for line in lines_of(site.notes + '.engine') if line.startswith('run '))
        for each in (' --workdir /github/workspace ', f' --volume {work}:/github/workspace ', ':/github/home ', ':/github/workflow ', ':/github/file_commands ', ' --rm '):
            assert each in words, each


PART = '#!/bin/sh\necho "{0} at=$STATE_at who=$INPUT_WHO words=$*" | tee -a parts\necho "at=${{STATE_at}}{0}" >> "$GITHUB_STATE"\n'


def test_before_and_after(site: Site, engine: Engine) -> None:
    """`pre-entrypoint` runs before the first step of the job, `post-entrypoint` after the last one, each in a container of its own; their state is handed on.
    They run by default whatever has failed, and `args` are theirs, too."""
    names = {'first.sh': 'pre', 'main.sh': 'main', 'last.sh': 'post'}
    files = {name: PART.format(part) for name, part in names.items()}
    runs = {'image': 'Dockerfile', 'pre-entrypoint': '/first.sh', 'entrypoint': '/main.sh', 'post-entrypoint': '/last.sh', 'args': ['x']}
    image = dockerfile(*(f'COPY {name} /{name}' for name in files), 'ENTRYPOINT ["/nothing"]')
    action(site, 'octo/parts', runs, {**files, 'Dockerfile': image}, inputs={'who': {'default': 'nobody'}})
    run = play(site, engine, {'run': 'cat parts >> "$NOTES"'}, {'uses': 'octo/parts@v1', 'with': {'who': 'Mona'}}, {'run': 'exit 1'}, result='failure')
    assert site.noted() == ['pre at= who=Mona words=x']
    assert [line for line in site.said(run) if ' who=' in line] == [*site.noted(), 'main at=pre who=Mona words=x', 'post at=premain who=Mona words=x']
    assert [(name, outcome) for _, name, outcome in site.steps(run)] == [
        ('Set up job', 'success'), ('Pre Run octo/parts@v1', 'success'), ('Run cat parts >> "$NOTES"', 'success'), ('Run octo/parts@v1', 'success'), ('Run exit 1', 'failure'),
        ('Post Run octo/parts@v1', 'success'), ('Complete job', 'success')]


def test_conditions_of_parts(site: Site, engine: Engine) -> None:
    """`pre-if` and `post-if` take the place of `always()`; a part that fails fails the job."""
    files = {'say.sh': '#!/bin/sh\necho "it is $0 $1"\n', 'fail.sh': '#!/bin/sh\nexit 3\n'}
    image = {**files, 'Dockerfile': dockerfile('COPY say.sh /say.sh', 'COPY fail.sh /fail.sh', 'ENTRYPOINT ["/say.sh"]')}
    parts = {'image': 'Dockerfile', 'pre-entrypoint': '/fail.sh', 'post-entrypoint': '/fail.sh'}
    action(site, 'octo/never', {**parts, 'pre-if': "runner.os == 'Windows'", 'post-if': 'failure()', 'args': ['never']}, image)
    action(site, 'octo/late', {'image': 'Dockerfile', 'post-entrypoint': '/fail.sh', 'post-if': 'success()'}, image)
    first = play(site, engine, {'uses': 'octo/never@v1'})
    assert [(name, outcome) for _, name, outcome in site.steps(first)][1:4] == [
        ('Pre Run octo/never@v1', 'skipped'), ('Run octo/never@v1', 'success'), ('Post Run octo/never@v1', 'skipped')]
    second = play(site, engine, {'uses': 'octo/late@v1'}, result='failure')
    assert site.steps(second)[2][1:] == ('Post Run octo/late@v1', 'failure')
    assert [one['message'] for one in site.annotations(second)] == ['Process completed with exit code 3.']


def test_an_image_as_a_step(site: Site, engine: Engine) -> None:
    """`uses: docker://IMAGE`, with `args` as one text and `entrypoint`."""
    uses = f'docker://{TINY}'
    run = play(site, engine, {'uses': uses, 'with': {'entrypoint': 'sh', 'args': '-c "echo \\"two words\\" > made; exit 0"'}},
               {'uses': uses, 'with': {'args': 'sh -c "echo $INPUT_ARGS > args"', 'x': 'y'}}, {'run': 'cat made args >> "$NOTES"'},
               {'uses': uses, 'with': {'entrypoint': 'sh', 'args': '-c "exit 7"'}}, NEVER, result='failure')
    assert site.noted() == ['two words', 'sh -c "echo $INPUT_ARGS > args"']
    assert [one['message'] for one in site.annotations(run)] == ['Process completed with exit code 7.']


def test_an_action_of_an_image(site: Site, engine: Engine) -> None:
    """`image: docker://..` in action.yml; an entrypoint and arguments of the action come before those of the step."""
    action(site, 'octo/plain', {'image': f'docker://{TINY}', 'entrypoint': 'sh', 'args': ['-c', 'echo "mine $1" > made', 'name', '${{ inputs.a }}']}, inputs={'a': {}})
    play(site, engine, {'uses': 'octo/plain@v1', 'with': {'a': 'b c', 'entrypoint': 'ls', 'args': 'nothing'}}, {'run': 'cat made >> "$NOTES"'})
    assert site.noted() == ['mine b c']


def test_images_are_kept_by_commit(site: Site, engine: Engine) -> None:
    """The image of an action that was fetched is built once; one of the workspace in each leg, at its step, and it is not left."""
    files = {'Dockerfile': dockerfile('COPY entry.sh /entry.sh', 'ENTRYPOINT ["/entry.sh"]'), 'entry.sh': '#!/bin/sh\necho ran\n'}
    action(site, f'octo/{site.label}', {'image': 'Dockerfile'}, files)
    before = engine.images(site.notes)
    runs = [play(site, engine, {'uses': f'octo/{site.label}@v1'}) for _ in range(2)]
    assert [engine.builds(site.notes, site.said(run)) for run in runs] == [1, 0] and all('ran' in site.said(run) for run in runs)
    kept = engine.images(site.notes)
    assert len(kept - before) == 1
    own = {f'own/{name}': text for name, text in {**files, 'action.yml': text_of({'runs': {'using': 'docker', 'image': 'Dockerfile'}})}.items()}
    sha = mirror(str(site.folder / 'mirrors'), 'octo/hello', own)
    third = play(site, engine, {'uses': 'actions/checkout@v4'}, {'uses': './own'}, {'run': "printf '#!/bin/sh\necho changed\n' > own/entry.sh"}, {'uses': './own'},
                 github={'sha': sha})
    assert engine.builds(site.notes, site.said(third)) == 2 and 'ran' in site.said(third) and 'changed' in site.said(third)
    assert engine.images(site.notes) == kept


def test_a_build_that_fails(site: Site, engine: Engine) -> None:
    """Before the first step, with what the engine said in the log; nothing in it counts as a command."""
    action(site, 'octo/broken', {'image': 'Dockerfile'}, {'Dockerfile': dockerfile('RUN false')})
    run = play(site, engine, NEVER, {'uses': 'octo/broken@v1'}, result='failure')
    assert site.noted() == [] and any('not run: jobs.build.steps[1] (octo/broken@v1): ' in line and 'build has failed' in line for line in site.said(run))
    assert len(site.annotations(run)) == 1


def test_a_cancel(site: Site, engine: Engine) -> None:
    """It ends the container; the steps that clean up run."""
    action(site, 'octo/slow', {'image': f'docker://{TINY}', 'entrypoint': 'sh', 'args': ['-c', 'touch began; sleep 600']})
    run = site.admit({'uses': 'octo/slow@v1'}, NEVER, {'run': 'echo cleaned >> "$NOTES"', 'if': 'always()'})
    host = site.host('h0').start('--actions', str(site.folder / 'actions'), beat=0.5, **engine.env)
    until(lambda: os.path.exists(os.path.join(host.home(), 'work', 'began')))
    site.service.post(f'/runs/{run}/cancel')
    until(host.has_ended)
    assert site.service.run(run)['conclusion'] == 'cancelled' and site.noted() == ['cleaned'], site.said(run)


def test_a_time_limit(site: Site, engine: Engine) -> None:
    play(site, engine, {'uses': f'docker://{TINY}', 'with': {'entrypoint': 'sh', 'args': '-c "sleep 600"'}, 'timeout-minutes': 0.05}, NEVER, result='failure')
    assert site.noted() == []


def test_beside_services(site: Site, engines: Callable[[str], Engine]) -> None:
    """It is on the network of the job, where services have their names; here by the stand-in, as the words that the engine is given."""
    by = engines('stand-in')
    play(site, by, {'uses': f'docker://{TINY}', 'with': {'entrypoint': 'sh', 'args': '-c true'}}, services={'db': 'postgres'})
    words = [line.split() for line in lines_of(site.notes + '.engine')]
    network = next(line[2] for line in words if line[:2] == ['network', 'create'])
    ran = next(line for line in words if line[0] == 'run')
    assert ran[ran.index('--network') + 1] == network


def test_secrets_are_not_in_words(site: Site, engines: Callable[[str], Engine]) -> None:
    """All users of a machine can read the words of a process, so the engine has values by its variables, but for those that it would follow itself."""
    by = engines('stand-in')
    secrets = site.folder / 'secrets'
    secrets.write_text('{"TOKEN": "hush-hush"}')
    secrets.chmod(0o600)
    env = {'T': '${{ secrets.TOKEN }}', 'DOCKER_HOST': 'tcp://elsewhere', 'PATH_OF_MINE': 'x'}
    site.admit({'uses': f'docker://{TINY}', 'with': {'entrypoint': 'sh', 'args': '-c "[ ${#T} = 9 ] && echo $DOCKER_HOST > made"'}, 'env': env},
               {'run': 'cat made >> "$NOTES"'})
    site.run('--secrets', str(secrets), **by.env)
    words = next(line for line in lines_of(site.notes + '.engine') if line.startswith('run '))
    assert site.noted() == ['tcp://elsewhere'] and 'hush' not in words and ' --env T ' in words and ' --env DOCKER_HOST=tcp://elsewhere ' in words, words


# What is refused before the first step.

REFUSED = [({}, 'it names no image'), ({'image': 'alpine:3'}, 'neither a Dockerfile nor docker://IMAGE'), ({'image': 'none/Dockerfile'}, 'is not there'),
           ({'image': '../../../../../../../etc/Dockerfile'}, 'is not there'), ({'image': 'docker://-v'}, 'is no image'), ({'image': 'Dockerfile', 'args': 'a b'}, 'no list of texts'),
           ({'image': 'Dockerfile', 'env': ['A']}, 'its env is no object'), ({'image': 'Dockerfile', 'args': ['${{ github.sha }}']}, 'the context github has no value here'),
           ({'image': 'Dockerfile', 'env': {'A': '${{ secrets.X }}'}}, 'the context secrets has no value here'), ({'image': 'Dockerfile', 'entrypoint': ['a']}, 'its entrypoint is no text')]


@pytest.mark.parametrize('runs, words', REFUSED, ids=[f'{number} {words}' for number, (_, words) in enumerate(REFUSED)])
def test_what_is_refused_of_an_action(tmp_path: pathlib.Path, runs: dict[str, Any], words: str) -> None:
    (tmp_path / 'Dockerfile').touch()
    found = list(faults_of(Action('octo/x@v1', str(tmp_path), False, {'runs': {'using': 'docker', **runs}}), (str(tmp_path),)))
    assert len(found) == 1 and words in found[0], found


@pytest.mark.parametrize('image', ['Dockerfile', 'Dockerfile.build', 'deep/Dockerfile', 'test.Dockerfile', 'docker://registry.example:5000/a/b@sha256:00'])
def test_images_that_are_taken(tmp_path: pathlib.Path, image: str) -> None:
    path = tmp_path / image
    if '//' not in image:
        path.parent.mkdir(exist_ok=True)
        path.touch()
    assert not list(faults_of(Action('octo/x@v1', str(tmp_path), False, {'runs': {'using': 'docker', 'image': image}}), (str(tmp_path),)))


def test_without_an_engine(site: Site) -> None:
    none = {name: '#!/bin/sh\nexit 1\n' for name in ('docker', 'podman')}
    from engines import programs
    run = site.admit(NEVER, {'uses': f'docker://{TINY}'})
    site.run(PATH=programs(site.folder / 'none', **none))
    assert site.noted() == [] and any('jobs.build.steps[1]' in line and 'neither docker nor podman answers here' in line for line in site.said(run)), site.said(run)


def test_an_image_that_is_nowhere(site: Site, engines: Callable[[str], Engine]) -> None:
    by = engines('stand-in')
    run = play(site, by, NEVER, {'uses': 'docker://missing:1'}, result='failure')
    assert site.noted() == [] and any('not run: jobs.build.steps[1] (docker://missing:1): docker pull has failed' in line for line in site.said(run)), site.said(run)


# Words and paths.

WORDS = [('', []), ('a b\tc', ['a', 'b', 'c']), ('"two words" x', ['two words', 'x']), ('""', ['']), ('a\\"b', ['a"b']), ('"say \\"it\\""', ['say "it"']),
         ('--x="y z"', ['--x=y z']), ('C:\\dir\\', ['C:\\dir\\']), ('"C:\\\\" b', ['C:\\', 'b']), ("it's", ["it's"]), ('$HOME `x`', ['$HOME', '`x`'])]


@pytest.mark.parametrize('text, wanted', WORDS)
def test_words_of_args(text: str, wanted: list[str]) -> None:
    """'Workflow syntax', `jobs.<job_id>.steps[*].with.args`: a single argument that includes spaces is surrounded by double quotes; no shell reads it."""
    assert words_in(text) == wanted


def test_paths_of_a_container() -> None:
    paths = Paths('/r/work', (('/r/temp/_github_home', '/github/home'), ('/r/temp', '/github/runner_temp'), ('/r/work', '/github/workspace')))
    assert [paths.inside(text) for text in ('/r/work', '/r/work/a', '/r/works', '/r/temp/_github_home/x', '/r/temp/x', 'in /r/work')] == [
        '/github/workspace', '/github/workspace/a', '/r/works', '/github/home/x', '/github/runner_temp/x', 'in /r/work']
    assert [paths.of_repository(text) for text in ('/github/workspace/src/a.c', 'src/a.c', './src/../a.c', '/r/work/b.c', '/etc/x', '../x')] == [
        'src/a.c', 'src/a.c', 'a.c', 'b.c', '/etc/x', '../x']
