"""What workflows in the form of well-known ones come to: at GitHub, by the page of its documentation that says so, and here."""
from __future__ import annotations

from collections.abc import Iterable, Mapping
from dataclasses import dataclass, field
from typing import Any

Says = Mapping[str, tuple[str, ...]]


@dataclass(frozen=True)
class Event:
    """What starts a workflow. `given` is what the payload has of its own, or the inputs; `ref` the branch or tag that is pushed or released;
    `files` are those that a push changes."""

    name: str
    given: Mapping[str, Any] = field(default_factory=dict)
    ref: str = ''
    files: Mapping[str, str] = field(default_factory=lambda: {'src/changed.txt': 'changed\n'})


@dataclass(frozen=True)
class Refused:
    """Why it does not run here: the line of its file, words of the reason, and who says so: the hub and the service before there is a run
    (`event`), or the runner before the first step (`runner`)."""

    by: str
    line: int
    words: str


@dataclass(frozen=True)
class Row:
    """A workflow below `examples`: the event that starts it, the page of GitHub's documentation, and what each of its jobs comes to there.
    `says` are lines of the logs of jobs, in their order. `others` are workflows that it needs; `environments` what the operator says of them;
    `elsewhere` are labels of hosts that a Linux host stands in for."""

    file: str
    page: str
    event: Event
    jobs: Mapping[str, str]
    run: str = 'success'
    says: Says = field(default_factory=dict)
    refused: Refused | None = None
    others: tuple[str, ...] = ()
    environments: Mapping[str, str] = field(default_factory=dict)
    elsewhere: tuple[str, ...] = ()

    @property
    def name(self) -> str:
        """The name of its repository, of which it is the only one."""
        return self.file.rpartition('/')[2].removesuffix('.yml')

    @property
    def path(self) -> str:
        """Its path in that repository."""
        return f'.github/workflows/{self.file.rpartition("/")[2]}'


def each(form: str, values: Iterable[str], end: str = 'success') -> dict[str, str]:
    """The legs of a matrix, which all end so."""
    return {form.format(value): end for value in values}


def says(form: str, lines: Mapping[str, Iterable[str]]) -> dict[str, tuple[str, ...]]:
    """What the legs of a matrix say."""
    return {form.format(value): tuple(said) for value, said in lines.items()}


def push(files: Mapping[str, str] | None = None) -> Event:
    """A push to the default branch."""
    return Event('push', ref='refs/heads/main', **({'files': files} if files else {}))


def tag(name: str) -> Event:
    """A tag is pushed."""
    return Event('push', ref=f'refs/tags/{name}')


def pull(user: str = 'mona', **given: Any) -> Event:
    """A pull request of the repository itself is opened, or what is given besides was done with it."""
    return Event('pull_request', {'action': 'opened', 'pull_request': {'user': {'login': user}, 'draft': False}, **given})


NODE = {'18.x': '18.20.4', '20.x': '20.18.1', '22.x': '22.12.0', '14.x': '14.21.3', '16.x': '16.20.2'}
PYTHON = {'3.8': '3.8.18', '3.9': '3.9.21', '3.10': '3.10.16', '3.11': '3.11.11', '3.12': '3.12.8', '3.13': '3.13.1', '3.x': '3.13.1'}
MAIN = push()
VARIABLES = {'TARGETS': '["linux-x64", "linux-arm64"]'}  # of each repository
SYNTAX, EVENTS = 'Workflow syntax for GitHub Actions', 'Events that trigger workflows'


def of_node(version: str, *calls: str) -> list[str]:
    """Calls of a version from the tool cache."""
    return [f'called {call}, of node {NODE[version]}' for call in calls]


def of_python(version: str, *calls: str) -> list[str]:
    """Calls of a version from the tool cache."""
    return [f'called {call}, of python {PYTHON[version]}' for call in calls]


STARTERS = (
    Row('starters/blank.yml', 'Creating an example workflow', MAIN, {'build': 'success'}, says={'build': ('built at main', 'one', 'two')}),
    Row('starters/c-cpp.yml', SYNTAX, MAIN, {'build': 'success'},
        says={'build': ('called ./configure', 'called make', 'called make check', 'called make distcheck')}),
    Row('starters/cmake-multi-platform.yml', 'Running variations of jobs in a workflow', MAIN,
        each('build ({})', ('ubuntu-latest, Release, gcc, g++', 'ubuntu-latest, Release, clang, clang++', 'windows-latest, Release, cl, cl')),
        says=says('build ({})', {f'{os}, Release, {c}, {cpp}': (
            f'called cmake -B WORKSPACE/build -DCMAKE_CXX_COMPILER={cpp} -DCMAKE_C_COMPILER={c} -DCMAKE_BUILD_TYPE=Release -S WORKSPACE',
            'called cmake --build WORKSPACE/build --config Release', 'called ctest --build-config Release')
            for os, c, cpp in (('ubuntu-latest', 'gcc', 'g++'), ('ubuntu-latest', 'clang', 'clang++'), ('windows-latest', 'cl', 'cl'))}),
        elsewhere=('windows-latest',)),
    Row('starters/composite.yml', 'Creating a composite action', MAIN, {'build': 'success'},
        says={'build': ('greets octocat from deep', 'says: Hello Mona!', 'length 10, failed inside: false')}),
    Row('starters/deploy.yml', 'Evaluate expressions in workflows and actions', MAIN, {'deploy': 'failure'}, 'failure',
        {'deploy': ('deploys main', 'https://example.org/app', '##[error]Process completed with exit code 1.', 'rolls back', 'leaves no lock')},
        environments={'Production': 'free'}),
    Row('starters/django.yml', 'Building and testing Python', MAIN, each('build ({})', ('3.9', '3.10', '3.11', '3.x')),
        says=says('build ({})', {version: of_python(version, 'pip install --upgrade pip', 'pip install -r requirements.txt', 'python manage.py test')
                                 for version in ('3.9', '3.10', '3.11', '3.x')})),
    Row('starters/docker-image.yml', 'Publishing Docker images', MAIN, {'build': 'success'},
        says={'build': ('called docker build . --file Dockerfile --tag my-image-name:TIME',)}),
    Row('starters/fail-fast.yml', 'Running variations of jobs in a workflow', MAIN,
        {'parts (1)': 'failure', 'parts (2)': 'cancelled', 'parts (3)': 'cancelled', 'report': 'success'}, 'failure',
        {'parts (1)': ('begins part 1',), 'report': ('reports that parts came to failure',)}),
    Row('starters/go.yml', 'Building and testing Go', MAIN, {'build': 'success'},
        says={'build': ('called go build -v ./..., of go 1.20.14', 'called go test -v ./..., of go 1.20.14')}),
    Row('starters/gradle.yml', 'Building and testing Java with Gradle', MAIN, {'build': 'success'},
        says={'build': ('called gradle/actions/setup-gradle', 'called ./gradlew build')}),
    Row('starters/greetings.yml', 'Use GITHUB_TOKEN for authentication in workflows', Event('issues', {'action': 'opened', 'issue': {'number': 5}}),
        {'greeting': 'success'}, refused=Refused('runner', 12, 'jobs.greeting.steps[0].with.repo-token: secrets.GITHUB_TOKEN has no value here')),
    Row('starters/manual.yml', 'Manually running a workflow', Event('workflow_dispatch', {'name': 'Mona'}), {'greet': 'success'},
        says={'greet': ('Hello Mona',)}),
    Row('starters/maven.yml', 'Building and testing Java with Maven', MAIN, {'build': 'success'}, says={'build': ('called mvn -B package --file pom.xml',)}),
    Row('starters/node-old.yml', 'Building and testing Node.js', MAIN, each('build ({})', ('14.x', '16.x')),
        says=says('build ({})', {version: of_node(version, 'npm ci', 'npm test') for version in ('14.x', '16.x')})),
    Row('starters/node.js.yml', 'Building and testing Node.js', MAIN, each('build ({})', ('18.x', '20.x', '22.x')),
        says=says('build ({})', {version: of_node(version, 'npm ci', 'npm run build --if-present', 'npm test') for version in ('18.x', '20.x', '22.x')})),
    Row('starters/postgres.yml', 'Creating PostgreSQL service containers', MAIN, {'test': 'success'}, says={'test': ('asks localhost:5432',)}),
    Row('starters/pylint.yml', 'Building and testing Python', MAIN, each('build ({})', ('3.8', '3.9', '3.10')),
        says=says('build ({})', {version: of_python(version, 'pip install pylint', 'pylint deep/other.py hello.py manage.py')
                                 for version in ('3.8', '3.9', '3.10')})),
    Row('starters/python-package.yml', 'Building and testing Python', MAIN, each('build ({})', ('3.9', '3.10', '3.11')),
        says=says('build ({})', {version: of_python(
            version, 'pip install --upgrade pip', 'pip install flake8 pytest', 'pip install -r requirements.txt',
            'flake8 . --count --select=E9,F63,F7,F82 --show-source --statistics',
            'flake8 . --count --exit-zero --max-complexity=10 --max-line-length=127 --statistics', 'pytest') for version in ('3.9', '3.10', '3.11')})),
    Row('starters/release.yml', 'Workflow commands for GitHub Actions', MAIN, {'release': 'success'},
        says={'release': ('version v1.2 of 2 tags, by a tool', 'has 3 commits', 'has a summary')}),
    Row('starters/ruby.yml', 'Building and testing Ruby', MAIN, each('test ({})', ('3.1', '3.2', '3.3')),
        says=says('test ({})', {version: (f'called ruby/setup-ruby with ruby-version={version}, bundler-cache=true', 'called bundle exec rake',
                                          f'ruby/setup-ruby is done with {version}') for version in ('3.1', '3.2', '3.3')})),
    Row('starters/rust.yml', 'Building and testing Rust', MAIN, {'build': 'success'},
        says={'build': ('called cargo build --verbose in color always', 'called cargo test --verbose in color always')}),
    Row('starters/static.yml', 'Using custom workflows with GitHub Pages', MAIN, {'deploy': 'success'}, environments={'github-pages': 'free'},
        refused=Refused('runner', 9, 'permissions.id-token: OpenID Connect')),
    Row('starters/webpack.yml', 'Dependency caching reference', MAIN, each('build ({})', ('18.x', '20.x', '22.x')),
        says=says('build ({})', {version: [*of_node(version, 'npm install', 'npx webpack'), f'cache saved with key Linux-node-{version}-HASH']
                                 for version in ('18.x', '20.x', '22.x')})))

WELL_KNOWN = (
    Row('workflows/monorepo.yml', SYNTAX, push({'packages/api/index.js': '// changed\n'}), {'test': 'success'},
        says={'test': tuple(of_node('20.x', 'npm ci', 'npm test'))}),
    Row('workflows/sparse.yml', SYNTAX, push({'packages/shared/index.js': '// changed\n'}), {'test': 'success'}, says={'test': ('shared',)}),
    Row('workflows/release-tag.yml', 'Store and share data with workflow artifacts', tag('v1.4.0'),
        {**each('Build for {}', ('x86_64-unknown-linux-gnu', 'aarch64-unknown-linux-gnu')), 'release': 'success'},
        says={'Build for aarch64-unknown-linux-gnu': ('called rustup target add aarch64-unknown-linux-gnu',
                                                    'called cargo build --release --target aarch64-unknown-linux-gnu in color never'),
              'release': ('app-v1.4.0-aarch64-unknown-linux-gnu.tar.gz', 'app-v1.4.0-x86_64-unknown-linux-gnu.tar.gz',
                          'called gh release create v1.4.0 dist/app-v1.4.0-aarch64-unknown-linux-gnu.tar.gz dist/app-v1.4.0-x86_64-unknown-linux-gnu.tar.gz '
                          '--generate-notes')}),
    Row('workflows/npm-publish.yml', 'Publishing Node.js packages', Event('release', {'action': 'published'}, 'refs/tags/v2.0.0'),
        {'build': 'success', 'publish-npm': 'success'},
        says={'publish-npm': ('called npm ci, of node 20.18.1', 'called npm publish, of node 20.18.1 to https://registry.example.org/')}),
    Row('workflows/tox.yml', SYNTAX, MAIN, {**each('tox ({})', ('3.10', '3.11', '3.12')), 'tox (3.13, true)': 'failure'},
        says={'tox (3.10)': tuple(of_python('3.10', 'pip install tox', 'tox -e py')), 'tox (3.13, true)': ('FAIL py',)}),
    Row('workflows/reusable.yml', 'Reuse workflows', MAIN, {'active / unit': 'success', 'maintenance / unit': 'success', 'done': 'success'},
        says={'active / unit': (*of_node('20.x', 'npm ci', 'npm test'), 'reports active'),
              'maintenance / unit': (*of_node('18.x', 'npm ci', 'npm test'), 'reports maintenance'), 'done': ('both have passed, with 20.18.1 and 18.20.4',)},
        others=('workflows/reusable-test.yml',)),
    Row('workflows/docker-publish.yml', 'Publishing Docker images', tag('v2.0.1'), {'Push Docker image': 'success'},
        says={'Push Docker image': (
            'called docker/setup-buildx-action with driver=docker-container', 'called docker/login-action with registry=registry.example.org',
            'called docker/build-push-action with context=., push=true, tags=registry.example.org/octo/docker-publish:2.0.1',
            'logged out of registry.example.org')}),
    Row('workflows/container-job.yml', 'Running jobs in a container', MAIN, {'container-job': 'success'},
        says={'container-job': ('called npm ci, of the image', 'asks postgres:5432')}),
    Row('workflows/container-action.yml', 'Creating a Docker container action', MAIN, {'count': 'success'},
        says={'count': ('counts requirements.txt of octo/container-action', 'has 2 requirements')}),
    Row('workflows/redis.yml', 'Creating Redis service containers', MAIN, {'runner-job': 'success'},
        says={'runner-job': ('called npm ci, of node 22.12.0', 'asks localhost:6379')}),
    Row('workflows/coverage.yml', 'Store and share data with workflow artifacts', MAIN, {**each('Tests {} of 3', '123'), 'report': 'success'},
        says={**says('Tests {} of 3', {shard: of_python('3.12', 'pip install pytest', f'pytest --shard={shard}/3') for shard in '123'}),
              'report': ('covered by 1', 'covered by 2', 'covered by 3', 'called codecov/codecov-action with directory=all')}),
    Row('workflows/environments.yml', 'Managing environments for deployment', MAIN, {'test': 'success', 'staging': 'success', 'production': 'success'},
        says={'staging': ('deploys COMMIT to ***',), 'production': ('deploys to ***',)}, environments={'staging': 'free', 'production': 'approval'}),
    Row('workflows/release-manual.yml', 'Manually running a workflow', Event('workflow_dispatch', {'level': 'minor'}),
        {'plan': 'success', 'rehearse': 'success', 'publish': 'skipped'},
        says={'plan': ('plans a minor release with 3 tries',), 'rehearse': ('publishes nothing',)}),
    Row('workflows/pull-request.yml', 'Control the concurrency of workflows and jobs', pull(),
        {'lint': 'success', **each('test ({})', (f'{os}, {go}' for os in ('ubuntu-22.04', 'ubuntu-24.04') for go in ('1.22', '1.23')))},
        says={'lint': ('called golangci/golangci-lint-action with version=v1.60',),
              'test (ubuntu-24.04, 1.22)': ('called go vet ./..., of go 1.22.10', 'called go test -race ./..., of go 1.22.10')}),
    Row('workflows/preview.yml', EVENTS, pull(action='labeled', label={'name': 'preview'}), {'preview': 'success', 'other': 'skipped'},
        says={'preview': ('deploys number 7 of change', 'it is at https://7.preview.example.org')}, environments={'preview': 'free'}),
    Row('workflows/all-green.yml', 'Using jobs in a workflow', MAIN,
        {'lint': 'success', 'test (unit)': 'success', 'test (integration)': 'failure', 'all-green': 'failure'}, 'failure',
        {'lint': ('called make lint',), 'all-green': ('lint success, test failure',)}),
    Row('workflows/chatops.yml', EVENTS, Event('issue_comment', {
        'action': 'created', 'issue': {'number': 5, 'pull_request': {'html_url': 'https://git.example.org/octo/chatops/pull/5'}},
        'comment': {'body': '/benchmark parser', 'author_association': 'MEMBER'}}), {'benchmark': 'success'},
        says={'benchmark': ('measures as parser asks, for number 5',)}),
    Row('workflows/after-ci.yml', EVENTS, Event('workflow_run', ref='refs/heads/main'), {'publish': 'success', 'complain': 'skipped'},
        says={'publish': ('publishes what CI has tested on main',)}, others=('starters/blank.yml',)),
    Row('workflows/upstream.yml', EVENTS, Event('repository_dispatch', {'event_type': 'upstream-release', 'client_payload': {'version': '2.3'}}),
        {'integrate': 'success'}, says={'integrate': (*of_python('3.12', 'pip install upstream==2.3'), 'tested with 2.3, as upstream-release asks')}),
    Row('workflows/merge-queue.yml', EVENTS, Event('merge_group'), {'test': 'success'},
        says={'test': ('called make check', 'slow tests for refs/heads/main')}),
    Row('workflows/lint-fails.yml', 'Workflow commands for GitHub Actions', MAIN, {'lint': 'failure'}, 'failure',
        {'lint': ('##[group]All files', 'deep/other.py', '##[endgroup]', '##[error]expected 2 blank lines', '##[error]Process completed with exit code 1.',
                  'keeps the report')}),
    Row('workflows/retry.yml', 'Contexts reference', MAIN, {'e2e': 'success'},
        says={'e2e': ('##[error]Process completed with exit code 1.', 'called ./e2e.sh --retry',
                      '##[warning]passed at the second try, so the first is a success')}),
    Row('workflows/report.yml', SYNTAX, MAIN, {'report': 'success'}, says={'report': ('pushed to refs/heads/main', 'has 2 packages')}),
    Row('workflows/targets.yml', 'Store information in variables', MAIN, each('Build for {}', ('linux-x64', 'linux-arm64')),
        says={'Build for linux-arm64': ('builds linux-arm64, job 1 of 2',)}),
    Row('workflows/jdk-matrix.yml', 'Building and testing Java with Maven', MAIN,
        {f'JDK {java} of {one}': 'failure' if java == 11 else 'success' for one in ('temurin', 'zulu') for java in (11, 17, 21)}, 'failure',
        {'JDK 21 of zulu': ('called java -version, of Java_Zulu_jdk 21.0.5-11', 'called mvn -B -ntp verify'),
         'JDK 17 of temurin': ('called java -version, of Java_Temurin-Hotspot_jdk 17.0.13-11', 'called mvn -B -ntp verify'),
         'JDK 11 of zulu': ('[ERROR] release version 17 not supported',)}),
    Row('workflows/cleanup-preview.yml', EVENTS, Event('delete', {'ref': 'preview-1', 'ref_type': 'branch'}), {'preview': 'success'},
        says={'preview': ('removes the preview of preview-1',)}),
    Row('workflows/triage.yml', EVENTS, Event('issues', {'action': 'labeled', 'label': {'name': 'bug'}, 'issue': {'number': 5}}),
        {'bug': 'success', 'question': 'skipped'}, says={'bug': ('called gh issue edit 5 --add-label needs-triage',)}),
    Row('workflows/version-outputs.yml', 'Passing information between jobs', MAIN, {'version': 'success', **each('build ({})', ('amd64', 'arm64'))},
        says={'build (arm64)': ('called go build -ldflags -X main.version=v1.2 ./..., of go 1.22.10',)}),
    Row('workflows/automerge.yml', 'Automating Dependabot with GitHub Actions', pull('mona'), {'dependabot': 'skipped'}, 'skipped'),
    Row('workflows/changes.yml', 'Passing information between jobs', pull(), {'changes': 'success', 'api': 'skipped'},
        refused=Refused('event', 20, "refused 26: jobs.api.if: ${{ needs.changes.outputs.api == 'true' }}")),
    Row('workflows/dynamic-matrix.yml', 'Running variations of jobs in a workflow', MAIN, {'list': 'success', **each('test ({})', ('api', 'shared'))},
        refused=Refused('event', 20, 'refused 19: jobs.test.strategy.matrix.package: ${{ fromJSON(needs.list.outputs.packages) }} Write the list in the workflow')),
    Row('workflows/cloud-deploy.yml', 'Configuring OpenID Connect in Amazon Web Services', MAIN, {'S3PackageUpload': 'success'},
        refused=Refused('runner', 13, 'jobs.S3PackageUpload.permissions.id-token: OpenID Connect')),
    Row('workflows/nightly.yml', EVENTS, Event('schedule'), each('nightly ({})', ('beta', 'nightly')),  # the last, since its time has to come
        says=says('nightly ({})', {one: (f'called rustup toolchain install {one} --profile minimal', f'called rustup default {one}',
                                         'called cargo test --all-features in color', 'started by schedule true') for one in ('beta', 'nightly')})))

ROWS = STARTERS + WELL_KNOWN
