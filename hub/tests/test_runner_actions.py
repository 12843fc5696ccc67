"""Actions that the runner does itself or fetches, and the containers of a job: what they are given, and what is refused."""
from __future__ import annotations

import json
import os
import pathlib
import subprocess
from typing import Any

import pytest
from acts_runner.builtin import builtin_of
from acts_runner.builtin.setup import Found, newest
from acts_runner.options import Options
from runner_trials import ENGINE, Case, git, lines_of, mirror, until

CHECKOUT: dict[str, Any] = {'uses': 'actions/checkout@v4'}
NEVER = {'run': 'echo never >> "$NOTES"'}


def run(case: Case, steps: list[dict[str, Any]], *words: str, sha: str | None = None, result: str = 'success', **job: Any) -> list[str]:
    """Runs a job of these steps, and gives what it noted."""
    github = {'sha': sha, 'ref': 'refs/heads/main'} if sha else {}
    path = job.pop('path', os.environ['PATH'])
    case.events += 1
    number = case.service.post_run(f'd{case.events}', {'jobs': {'build': {'runs-on': 'linux', 'steps': steps, **job}}}, github=github)
    case.start(*words, PATH=path)
    until(case.has_ended)
    assert case.said()[-2:] == [f'r1: run {number} build 0 {result}: ok', 'r1: nothing'], f'{case.said()} {case.complained()}'
    return case.noted()


def engine(case: Case) -> str:
    """A PATH with a stand-in for docker."""
    folder = pathlib.Path(case.folder, 'bin')
    folder.mkdir(exist_ok=True)
    (folder / 'docker').write_text(ENGINE)
    (folder / 'docker').chmod(0o755)
    return f'{folder}:{os.environ["PATH"]}'


# Services, by a stand-in for docker.


def test_services(case: Case) -> None:
    """A network of the job's own, an alias for each service, its ports, and its end with the job."""
    services = {'db': {'image': 'postgres:15', 'env': {'A': '${{ matrix.os }}'}, 'ports': ['5432:5432', '80'], 'options': '--health-cmd "pg ready"'},
                'cache': 'redis'}
    steps = [{'run': 'echo "${{ job.services.db.ports[5432] }} ${{ job.services.db.network != \'\' }}" >> "$NOTES"'}]
    assert run(case, steps, path=engine(case), services=services, strategy={'matrix': {'os': ['a']}}) == ['5432 true']
    words = [line.split() for line in lines_of(case.notes + '.engine')]
    network = next(line[2] for line in words if line[:2] == ['network', 'create'])
    created = [line for line in words if line[0] == 'create']
    for alias, image in (('db', 'postgres:15'), ('cache', 'redis')):
        one = next(line for line in created if line[-1] == image)
        assert one[one.index('--network'):][:4] == ['--network', network, '--network-alias', alias], one
    db = ' '.join(next(line for line in created if line[-1] == 'postgres:15'))
    assert '--publish 5432:5432 --publish 80 --env A=a' in db and '--health-cmd pg ready' in db, db
    removed = [line[:1] + line[-1:] for line in words if line[0] in ('rm', 'network')][1:]
    names = [line[2] for line in created]
    assert sorted(removed) == sorted([['rm', names[0]], ['rm', names[1]], ['network', network]]) and removed[-1][0] == 'network'


def test_a_service_that_is_not_healthy(case: Case) -> None:
    pathlib.Path(case.notes + '.health').write_text('unhealthy')
    assert run(case, [NEVER], path=engine(case), services={'db': {'image': 'postgres'}}, result='failure') == []
    assert 'not run: jobs.build.services: db is unhealthy: it did not come up' in case.said()
    assert lines_of(case.notes + '.engine')[-1].startswith('network rm acts-')


def test_services_without_an_engine(case: Case) -> None:
    folder = pathlib.Path(case.folder, 'bin')
    folder.mkdir()
    for name in ('docker', 'podman'):
        (folder / name).write_text('#!/bin/sh\nexit 1\n')
        (folder / name).chmod(0o755)
    run(case, [NEVER], path=f'{folder}:{os.environ["PATH"]}', services={'db': 'postgres'}, result='failure')
    assert 'not run: jobs.build.services.db: neither docker nor podman answers here' in case.said() and case.noted() == []


def test_services_of_a_wrong_form(case: Case) -> None:
    services = {'a b': 'redis', 'c': {'image': 7}, 'd': {'image': 'redis', 'ports': 80}, 'e': {'image': 'redis', 'network_mode': 'host'}}
    run(case, [NEVER], path=engine(case), services=services, result='failure')
    for words in ('services.a b: it is no name of a host', 'services.c: it names no image', 'services.d: its ports is of the wrong kind',
                  'services.e: this runner does not do its network_mode'):
        assert any(words in line for line in case.said()), words


# Checkout.


def test_a_push_goes_nowhere(case: Case) -> None:
    """It fails, and is not green and lost later."""
    sha = mirror(case.folder, 'octo/hello', {'there': ''})
    steps = [CHECKOUT, {'run': 'git -c user.name=o -c user.email=o@x commit -q --allow-empty -m new; git push origin HEAD:main 2> said && echo pushed >> "$NOTES"; '
                               'grep -o no-push-address-is-named said | head -n 1 >> "$NOTES"; git fetch -q origin && echo fetched >> "$NOTES"'}]
    assert run(case, steps, '--mirrors', case.folder, sha=sha) == ['no-push-address-is-named', 'fetched']
    assert git(os.path.join(case.folder, 'octo/hello.git'), 'rev-parse', 'main') == sha


def test_a_push_to_an_address_of_the_operators(case: Case) -> None:
    sha = mirror(case.folder, 'octo/hello', {'there': ''})
    subprocess.run(['git', 'clone', '-q', '--bare', f'{case.folder}/octo/hello.git', f'{case.folder}/origin/octo/hello.git'], check=True)
    steps = [{**CHECKOUT, 'with': {'fetch-depth': 0}}, {'run': 'git -c user.name=o -c user.email=o@x commit -q --allow-empty -m new; git push -q origin HEAD:main'}]
    run(case, steps, '--mirrors', case.folder, '--push-to', f'{case.folder}/origin/{{owner}}/{{repo}}.git', sha=sha)
    assert git(os.path.join(case.folder, 'origin/octo/hello.git'), 'log', '-1', '--format=%s', 'main') == 'new'
    assert git(os.path.join(case.folder, 'octo/hello.git'), 'rev-parse', 'main') == sha


def with_submodule(case: Case) -> str:
    """A repository with a submodule that has one itself, and its commit."""
    mirror(case.folder, 'octo/inner', {'deep': 'deep\n'})
    for name, of, address in (('octo/lib', 'octo/inner', '../inner.git'), ('octo/hello', 'octo/lib', '../lib.git')):
        mirror(case.folder, name, {'file': name + '\n'})
        work, bare = os.path.join(case.folder, 'source', name), os.path.join(case.folder, name + '.git')
        git(work, 'remote', 'add', 'origin', bare)
        git(work, 'submodule', '--quiet', 'add', address, of.rpartition('/')[2])
        git(work, 'commit', '-q', '-m', 'with a submodule')
        git(work, 'push', '-q', 'origin', 'main')
    return git(os.path.join(case.folder, 'octo/hello.git'), 'rev-parse', 'main')


def test_checkout_with_submodules(case: Case) -> None:
    sha = with_submodule(case)
    look = {'run': 'cat lib/file lib/inner/deep >> "$NOTES" 2> /dev/null || echo none >> "$NOTES"; rm -rf lib .git'}
    steps = [{**CHECKOUT, 'with': {'submodules': value}} if index % 2 == 0 else look for index, value in
             enumerate(('recursive', '', 'true', '', 'false', ''))]
    assert run(case, steps, '--mirrors', case.folder, sha=sha) == ['octo/lib', 'deep', 'octo/lib', 'none', 'none']


def test_checkout_refuses(case: Case) -> None:
    sha = mirror(case.folder, 'octo/hello', {'there': ''})
    steps = [{**CHECKOUT, 'with': {'lfs': 'true'}}, {**CHECKOUT, 'with': {'sparse-checkout': 'a\n--cone'}}, {**CHECKOUT, 'with': {'ssh-key': 'x'}},
             {**CHECKOUT, 'with': {'fetch-depth': 'all'}}, {**CHECKOUT, 'with': {'submodules': 'some'}}]
    run(case, steps, '--mirrors', case.folder, sha=sha, result='failure')
    for number, words in enumerate(('its input lfs', 'sparse-checkout has --cone, which is no folder', 'its input ssh-key', 'fetch-depth is all', 'submodules is none of')):
        assert any(f'steps[{number}].uses' in line and words in line for line in case.said()), words


def test_checkout_of_some_folders(case: Case) -> None:
    """README of checkout: folders with the files above them, or patterns alone; all again without the input."""
    sha = mirror(case.folder, 'octo/hello', {'top': '', 'a/one': '', 'a/deep/two': '', 'b/three': ''})
    look = {'run': 'git ls-files -t | sed -n "s/^H //p" | tr "\\n" " " >> "$NOTES"; find . -name .git -prune -o -type f -print | wc -l >> "$NOTES"'}
    steps = [step for given in ({'sparse-checkout': 'a/deep\n'}, {'sparse-checkout': '/b/*\n', 'sparse-checkout-cone-mode': 'false'}, {})
             for step in ({**CHECKOUT, 'with': given}, look)]
    assert run(case, steps, '--mirrors', case.folder, sha=sha) == ['a/deep/two a/one top 3', 'b/three 1', 'a/deep/two a/one b/three top 4']


def test_checkout_of_paths_outside(case: Case) -> None:
    sha = mirror(case.folder, 'octo/hello', {'there': ''})
    steps = [{**CHECKOUT, 'with': {'path': '../../out'}, 'continue-on-error': True}, {**CHECKOUT, 'with': {'repository': '../x/y'}, 'continue-on-error': True}]
    run(case, steps, '--mirrors', case.folder, sha=sha)
    assert any('is not below the workspace' in line for line in case.said()) and any('../x/y is no owner/name' in line for line in case.said())


# What the runner does itself.


@pytest.mark.quick
def test_versions_of_artifacts() -> None:
    """Those before 4 are refused; an action of a name like theirs is another one."""
    options = Options(name='r1', labels='linux')
    for uses in 'actions/upload-artifact@v3', 'actions/download-artifact@v2':
        with pytest.raises(ValueError, match='version 4'):
            builtin_of(uses, options)
    assert builtin_of('actions/upload-artifact@v4', options) and builtin_of('actions/upload-pages-artifact@v3', options) is None


# Tools.


def tool_cache(case: Case) -> str:
    """A tool cache in GitHub's layout: NAME/VERSION/ARCHITECTURE, with a file NAME/VERSION/ARCHITECTURE.complete."""
    top = pathlib.Path(case.folder, 'cache')
    for name, version, complete in (('node', '18.19.1', True), ('node', '20.11.0', True), ('node', '21.0.0', False), ('Python', '3.9.18', True)):
        place = top / name / version / 'x64'
        (place / 'bin').mkdir(parents=True)
        program = place / 'bin' / name.lower()
        program.write_text(f'#!/bin/sh\necho "{name} {version}"\n')
        program.chmod(0o755)
        if complete:
            (top / name / version / 'x64.complete').touch()
    return str(top)


def test_tools_of_the_cache(case: Case) -> None:
    """Ranges, the newest first, version files, and what has no `.complete` is not there."""
    def node(**given: str) -> list[dict[str, Any]]:
        return [{'uses': 'actions/setup-node@v4', 'id': 'n', 'with': given}, {'run': 'echo "$(node) ${{ steps.n.outputs.node-version }}" >> "$NOTES"'}]
    steps = [*node(**{'node-version': '18'}), *node(**{'node-version': '>=18 <21'}), *node(**{'node-version': '^18.1 || 3'}), *node(**{'node-version': '20.x'}),
             {'run': 'echo v18.19.1 > .nvmrc'}, *node(**{'node-version-file': '.nvmrc'}), *node(**{'node-version': 'lts/*'}),
             {'uses': 'actions/setup-python@v5', 'with': {'python-version': '3.9'}}, {'run': 'echo "$(python) ${pythonLocation##*/cache/}" >> "$NOTES"'}]
    assert run(case, steps, '--tool-cache', tool_cache(case)) == [
        'node 18.19.1 18.19.1', 'node 20.11.0 20.11.0', 'node 18.19.1 18.19.1', 'node 20.11.0 20.11.0', 'node 18.19.1 18.19.1', 'node 20.11.0 20.11.0',
        'Python 3.9.18 Python/3.9.18/x64']


@pytest.mark.quick
@pytest.mark.parametrize('wanted, version', [
    ('lts/*', '22.12.0'), ('lts/iron', '20.18.1'), ('lts/Hydrogen', '18.20.4'), ('lts/krypton', None), ('latest', '23.5.0'), ('current', '23.5.0'), ('*', '23.5.0'),
    ('oldstable', '22.12.0'), ('>=18 <23', '22.12.0'), ('lts/* || 23', '23.5.0'), ('24', None), ('iron', None), ('--help', None), ('', '23.5.0')])
def test_names_of_versions(wanted: str, version: str | None) -> None:
    """README of setup-node: `lts/*`, `lts/NAME` and `latest`; of setup-go: `oldstable`. A name is never any other version."""
    there = [Found(each, None) for each in ('23.5.0', '22.12.0', '20.18.1', '18.20.4')]
    found = newest(wanted, there)
    assert (found.version if found else None) == version


def test_tools_that_are_refused(case: Case) -> None:
    """Before the first step, and no input is ignored in silence that would change what steps get."""
    steps = [{'uses': 'actions/setup-node@v4', 'with': {'node-version': '14.x'}}, {'uses': 'actions/setup-python@v5', 'with': {'registry-url': 'https://x.example'}},
             {'uses': 'actions/setup-go@v5', 'with': {'distribution': 'zulu'}}, {'uses': 'actions/setup-node@v4', 'with': {'node-version': '18', 'architecture': 'arm64'}},
             {'uses': 'actions/setup-java@v4', 'with': {'distribution': 'mine', 'java-version': '17'}}, NEVER]
    run(case, steps, '--tool-cache', tool_cache(case), result='failure')
    for number, words in enumerate(('not 14.x', 'its input registry-url', 'its input distribution', 'for arm64', 'the distribution mine is not known')):
        assert any(f'steps[{number}].uses' in line and words in line for line in case.said()), f'{words}: {case.said()}'
    assert case.noted() == []


def test_a_command_of_the_operators_installs_what_lacks(case: Case) -> None:
    """Once, before the first step; what it does not make, and what is no version, is refused."""
    command = pathlib.Path(case.folder, 'install')
    command.write_text(f'''#!/bin/sh
echo "$*" >> {case.folder}/asked
case "$2" in 23.x) ;; 99) echo "there is no $2"; exit 3 ;; *) exit 0 ;; esac
mkdir -p "$4/23.5.0/$3/bin" && touch "$4/23.5.0/$3.complete"
printf '#!/bin/sh\\necho made\\n' > "$4/23.5.0/$3/bin/node" && chmod +x "$4/23.5.0/$3/bin/node"
''')
    command.chmod(0o755)
    cache = tool_cache(case)
    words = '--tool-cache', cache, '--install', str(command)

    def node(version: str) -> dict[str, Any]:
        return {'uses': 'actions/setup-node@v4', 'with': {'node-version': version}}
    assert run(case, [node('23.x'), {'run': 'node >> "$NOTES"'}, node('23')], *words) == ['made']
    assert lines_of(f'{case.folder}/asked') == [f'node 23.x x64 {cache}/node']
    run(case, [NEVER, node('99'), node('98'), node('--help')], *words, result='failure')
    for number, text in enumerate(('node 99 is not installed', 'not 98', 'not --help'), 1):
        assert any(f'steps[{number}].uses' in line and text in line for line in case.said()), f'{text}: {case.said()}'
    assert lines_of(f'{case.folder}/asked')[1:] == [f'node 99 x64 {cache}/node', f'node 98 x64 {cache}/node'] and case.noted() == ['made']


def test_distributions_of_java(case: Case) -> None:
    """Each has a folder of its own in GitHub's layout, with the newest version that fits."""
    top = pathlib.Path(tool_cache(case))
    for folder, version in (('Java_Zulu_jdk', '17.0.13-11'), ('Java_Zulu_jdk', '17.0.9-8'), ('Java_Temurin-Hotspot_jdk', '17.0.12-7'), ('Java_Temurin-Hotspot_jdk', '21.0.5-11')):
        (top / folder / version / 'x64').mkdir(parents=True)
        (top / folder / version / 'x64.complete').touch()
    steps = list[dict[str, Any]]()
    for name in 'zulu', 'temurin':
        steps += [{'uses': 'actions/setup-java@v4', 'with': {'distribution': name, 'java-version': 17}}, {'run': 'echo "${JAVA_HOME#*/cache/}" >> "$NOTES"'}]
    assert run(case, steps, '--tool-cache', str(top)) == ['Java_Zulu_jdk/17.0.13-11/x64', 'Java_Temurin-Hotspot_jdk/17.0.12-7/x64']


def test_a_registry_of_npm(case: Case) -> None:
    """GitHub Docs, "Publishing Node.js packages": the file that `.npmrc` is for npm, a scope, and the token that a step gives."""
    look: dict[str, Any] = {'run': 'sed "s/^/$NODE_AUTH_TOKEN /" "$NPM_CONFIG_USERCONFIG" >> "$NOTES"'}
    steps = [{'uses': 'actions/setup-node@v4', 'with': {'node-version': '18', 'registry-url': 'https://registry.example.org'}}, look,
             {'uses': 'actions/setup-node@v4', 'with': {'node-version': '18', 'registry-url': 'https://npm.pkg.github.com/', 'scope': '@Mona', 'always-auth': 'true'}},
             {**look, 'env': {'NODE_AUTH_TOKEN': 'hush'}},
             {'uses': 'actions/setup-node@v4', 'with': {'node-version': '18', 'registry-url': 'https://npm.pkg.github.com'}}, {'run': 'sed -n 2p "$NPM_CONFIG_USERCONFIG" >> "$NOTES"'}]
    none = 'XXXXX-XXXXX-XXXXX-XXXXX'
    assert run(case, steps, '--tool-cache', tool_cache(case)) == [
        f'{none} //registry.example.org/:_authToken=${{NODE_AUTH_TOKEN}}', f'{none} registry=https://registry.example.org/', f'{none} always-auth=false',
        'hush //npm.pkg.github.com/:_authToken=${NODE_AUTH_TOKEN}', 'hush @mona:registry=https://npm.pkg.github.com/', 'hush always-auth=true',
        '@octo:registry=https://npm.pkg.github.com/']


# Actions from elsewhere.


def said_by(text: str) -> dict[str, str]:
    """The files of a composite action that notes a text."""
    return {'action.yml': f'name: Say\nruns:\n  using: composite\n  steps:\n    - run: echo {text} >> "$NOTES"\n      shell: sh\n'}


def test_actions_are_fetched_once_and_locked(case: Case) -> None:
    """A tag that names another commit later is not followed, till the operator takes its line out of the lock file."""
    place = os.path.join(case.folder, 'remote')
    first = mirror(place, 'octo/say', said_by('first'), tags=('v1',))
    words = '--actions-from', f'file://{place}/{{owner}}/{{repo}}.git'
    uses = [{'uses': 'octo/say@v1'}]
    assert run(case, uses, *words) == ['first']
    lock = pathlib.Path(case.home(), 'actions.lock')
    assert json.loads(lock.read_text()) == {'octo/say@v1': first}
    source, bare = os.path.join(place, 'source', 'octo/say'), os.path.join(place, 'octo/say.git')
    pathlib.Path(source, 'action.yml').write_text(said_by('second')['action.yml'])
    git(source, 'commit', '-qam', 'second')
    git(source, 'tag', '-f', 'v1')
    git(source, 'push', '-q', '-f', bare, 'main', 'v1')
    assert run(case, uses, *words) == ['first', 'first']
    os.rename(place, place + '-away')
    assert run(case, uses, *words)[2:] == ['first'], 'it is kept by its commit'
    os.rename(place + '-away', place)
    lock.write_text('{}')
    assert run(case, uses, *words)[3:] == ['second']
    assert run(case, [{'uses': f'octo/say@{first}'}], *words)[4:] == ['first'], 'a commit is its own lock'


def test_actions_that_are_not_there(case: Case) -> None:
    place = os.path.join(case.folder, 'remote')
    mirror(place, 'octo/say', said_by('first'), tags=('v1',))
    words = '--actions-from', f'file://{place}/{{owner}}/{{repo}}.git'
    uses = 'octo/say@v9', 'octo/none@v1', 'octo/../say@v1', '--upload-pack=x/y@v1'
    run(case, [NEVER, *({'uses': one} for one in uses)], *words, result='failure')
    for number, text in enumerate(('has no tag or branch v9', 'octo/none', 'is no owner/name@ref', 'is no owner/name@ref'), 1):
        assert any(f'steps[{number}]' in line and text in line for line in case.said()), f'{text}: {case.said()}'
    pathlib.Path(case.home(), 'actions.lock').write_text(json.dumps({'octo/say@v1': '1' * 40}))
    run(case, [NEVER, {'uses': 'octo/say@v1'}], *words, result='failure')
    assert case.noted() == [], 'a lock of a commit that is not there is no reason to take another'
