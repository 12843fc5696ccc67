"""What GitHub's pages promise to a step: each context, variable and place is given here, or refused by its name. No row comes from this program."""
from __future__ import annotations

import json
import pathlib
from typing import Any

import pytest
from acts_hub.events.checking import runner_faults
from acts_runner.options import Options
from harness import body_of
from runner_trials import mirror

GIVEN = 'given'
OPTIONS = Options(name='check', labels='check')


def faults(steps: list[dict[str, Any]] | None = None, workflow: dict[str, Any] | None = None, **job: Any) -> list[str]:
    """What a runner refuses of a job, before its first step."""
    made: dict[str, Any] = {'runs-on': 'linux', 'steps': [{'run': 'true'}] if steps is None else steps, **job}
    body = json.loads(body_of(jobs={'build': made}, workflow=workflow))
    body['vars'] = {'PLACE': 'here'}
    return runner_faults(json.dumps(body).encode(), 'build', '0', json.dumps({'os': 'linux'}), OPTIONS)


# 'Contexts reference'. A member that is empty at GitHub for this event (a push) is empty here.

CONTEXTS = [
    ('github.action', GIVEN), ('github.action_path', 'refused'), ('github.action_ref', 'refused'), ('github.action_repository', 'refused'),
    ('github.action_status', 'refused'), ('github.actor', GIVEN), ('github.actor_id', 'refused'), ('github.api_url', GIVEN), ('github.base_ref', GIVEN),
    ('github.env', GIVEN), ('github.event', GIVEN), ('github.event_name', 'refused'), ('github.event_path', GIVEN), ('github.graphql_url', GIVEN),
    ('github.head_ref', GIVEN), ('github.job', GIVEN), ('github.path', GIVEN), ('github.ref', GIVEN), ('github.ref_name', GIVEN),
    ('github.ref_protected', 'refused'), ('github.ref_type', GIVEN), ('github.repository', GIVEN), ('github.repository_id', GIVEN),
    ('github.repository_owner', 'refused'), ('github.repository_owner_id', GIVEN), ('github.repositoryUrl', 'refused'), ('github.retention_days', GIVEN),
    ('github.run_id', GIVEN), ('github.run_number', GIVEN), ('github.run_attempt', GIVEN), ('github.secret_source', GIVEN), ('github.server_url', GIVEN),
    ('github.sha', GIVEN), ('github.token', 'refused'), ('github.triggering_actor', 'refused'), ('github.workflow', GIVEN), ('github.workflow_ref', 'refused'),
    ('github.workflow_sha', 'refused'), ('github.workspace', GIVEN),
    ('env.NONE', GIVEN), ('vars.PLACE', GIVEN), ('vars.NONE', GIVEN), ('job.status', GIVEN), ('job.container.id', GIVEN), ('job.container.network', GIVEN),
    ('job.services.db.id', GIVEN), ('job.services.db.ports[5432]', GIVEN), ('job.check_run_id', GIVEN), ('jobs.build.result', 'refused'),
    ('steps.x.outputs.y', GIVEN), ('steps.x.outcome', GIVEN), ('steps.x.conclusion', GIVEN), ('runner.name', GIVEN), ('runner.os', GIVEN), ('runner.arch', GIVEN),
    ('runner.temp', GIVEN), ('runner.tool_cache', GIVEN), ('runner.debug', GIVEN), ('runner.environment', GIVEN), ('secrets.NONE', GIVEN),
    ('secrets.GITHUB_TOKEN', 'refused'), ('strategy.fail-fast', GIVEN), ('strategy.job-index', GIVEN), ('strategy.job-total', GIVEN),
    ('strategy.max-parallel', GIVEN), ('matrix.os', GIVEN), ('matrix.none', GIVEN), ('inputs.none', GIVEN), ('needs.none.result', GIVEN), ('nonsense.x', 'refused')]


@pytest.mark.parametrize('name, wanted', CONTEXTS, ids=[name for name, _ in CONTEXTS])
def test_contexts_reference(name: str, wanted: str) -> None:
    """Page 'Contexts reference'. The body of this test names few members of `github`: what it lacks is refused, and never empty."""
    found = faults([{'run': f'echo "${{{{ {name} }}}}"'}])
    member = name if '.' in name and wanted == 'refused' and name.split('.')[0] in ('github', 'secrets') else name.split('.')[0]
    assert (found == []) if wanted == GIVEN else (len(found) == 1 and 'jobs.build.steps[0].run: ' in found[0] and member.lower() in found[0].lower()), found


# 'Variables reference', the table of default variables.

VARIABLES = [
    ('CI', GIVEN), ('GITHUB_ACTION', GIVEN), ('GITHUB_ACTIONS', GIVEN), ('GITHUB_ACTOR', GIVEN), ('GITHUB_ACTOR_ID', 'refused'), ('GITHUB_API_URL', GIVEN),
    ('GITHUB_BASE_REF', GIVEN), ('GITHUB_ENV', GIVEN), ('GITHUB_EVENT_NAME', 'refused'), ('GITHUB_EVENT_PATH', GIVEN), ('GITHUB_GRAPHQL_URL', GIVEN),
    ('GITHUB_HEAD_REF', GIVEN), ('GITHUB_JOB', GIVEN), ('GITHUB_OUTPUT', GIVEN), ('GITHUB_PATH', GIVEN), ('GITHUB_REF', GIVEN), ('GITHUB_REF_NAME', GIVEN),
    ('GITHUB_REF_PROTECTED', 'refused'), ('GITHUB_REF_TYPE', GIVEN), ('GITHUB_REPOSITORY', GIVEN), ('GITHUB_REPOSITORY_ID', GIVEN),
    ('GITHUB_REPOSITORY_OWNER', 'refused'), ('GITHUB_REPOSITORY_OWNER_ID', GIVEN), ('GITHUB_RETENTION_DAYS', GIVEN), ('GITHUB_RUN_ATTEMPT', GIVEN),
    ('GITHUB_RUN_ID', GIVEN), ('GITHUB_RUN_NUMBER', GIVEN), ('GITHUB_SERVER_URL', GIVEN), ('GITHUB_SHA', GIVEN), ('GITHUB_STEP_SUMMARY', GIVEN),
    ('GITHUB_TRIGGERING_ACTOR', 'refused'), ('GITHUB_WORKFLOW', GIVEN), ('GITHUB_WORKFLOW_REF', 'refused'), ('GITHUB_WORKFLOW_SHA', 'refused'),
    ('GITHUB_WORKSPACE', GIVEN), ('RUNNER_ARCH', GIVEN), ('RUNNER_DEBUG', GIVEN), ('RUNNER_ENVIRONMENT', GIVEN), ('RUNNER_NAME', GIVEN), ('RUNNER_OS', GIVEN),
    ('RUNNER_TEMP', GIVEN), ('RUNNER_TOOL_CACHE', GIVEN), ('ACTIONS_ID_TOKEN_REQUEST_URL', 'refused'), ('ACTIONS_RUNTIME_TOKEN', 'refused')]


@pytest.mark.parametrize('name, wanted', VARIABLES, ids=[name for name, _ in VARIABLES])
def test_variables_reference(name: str, wanted: str) -> None:
    """Page 'Variables reference': a variable that has no value here is refused where a script names it, and never empty in silence."""
    found = faults([{'run': f'echo "${name}"'}])
    assert found == ([] if wanted == GIVEN else [f'jobs.build.steps[0].run: {name} has no value here'])


def test_a_variable_of_ones_own() -> None:
    """One of the services that are not here may be set by the workflow; a default variable may not be."""
    assert faults([{'run': 'echo "$ACTIONS_RUNTIME_TOKEN"', 'env': {'ACTIONS_RUNTIME_TOKEN': 'mine'}}]) == []


# 'Contexts reference', 'Context availability': each key with the contexts that may stand there.

JOBS = 'github needs strategy matrix vars inputs'
STEPS = f'{JOBS} job runner env secrets steps'
PLACES: list[tuple[str, str, Any]] = [
    ('env', 'github secrets inputs vars', lambda text: {'workflow': {'env': {'A': text}}}),
    ('jobs.<job_id>.env', f'{JOBS} secrets', lambda text: {'env': {'A': text}}),
    ('jobs.<job_id>.defaults.run', f'{JOBS} env', lambda text: {'defaults': {'run': {'working-directory': text}}}),
    ('jobs.<job_id>.environment.url', f'{JOBS} job runner env steps', lambda text: {'environment': {'name': 'free', 'url': text}}),
    ('jobs.<job_id>.container.image', JOBS, lambda text: {'container': {'image': text}}),
    ('jobs.<job_id>.container.credentials', f'{JOBS} env secrets', lambda text: {'container': {'image': 'a', 'credentials': {'username': text}}}),
    ('jobs.<job_id>.container.env.<env_id>', f'{JOBS} job runner env secrets', lambda text: {'container': {'image': 'a', 'env': {'A': text}}}),
    ('jobs.<job_id>.services', JOBS, lambda text: {'services': {'db': {'image': text}}}),
    ('jobs.<job_id>.services.<service_id>.credentials', f'{JOBS} env secrets', lambda text: {'services': {'db': {'image': 'a', 'credentials': {'username': text}}}}),
    ('jobs.<job_id>.services.<service_id>.env.<env_id>', f'{JOBS} job runner env secrets', lambda text: {'services': {'db': {'image': 'a', 'env': {'A': text}}}}),
    ('jobs.<job_id>.outputs.<output_id>', STEPS, lambda text: {'outputs': {'a': text}}),
    ('jobs.<job_id>.steps.continue-on-error', STEPS, lambda text: {'steps': [{'run': 'true', 'continue-on-error': text}]}),
    ('jobs.<job_id>.steps.env', STEPS, lambda text: {'steps': [{'run': 'true', 'env': {'A': text}}]}),
    ('jobs.<job_id>.steps.if', f'{JOBS} job runner env steps', lambda text: {'steps': [{'run': 'true', 'if': text}]}),
    ('jobs.<job_id>.steps.name', STEPS, lambda text: {'steps': [{'run': 'true', 'name': text}]}),
    ('jobs.<job_id>.steps.run', STEPS, lambda text: {'steps': [{'run': text}]}),
    ('jobs.<job_id>.steps.working-directory', STEPS, lambda text: {'steps': [{'run': 'true', 'working-directory': text}]}),
    ('jobs.<job_id>.steps.with', STEPS, lambda text: {'steps': [{'uses': 'actions/cache@v4', 'with': {'path': 'a', 'key': text}}]})]


@pytest.mark.parametrize('key, names, made', PLACES, ids=[key for key, _, _ in PLACES])
def test_context_availability(key: str, names: str, made: Any) -> None:
    """Page 'Contexts reference', 'Context availability': what may stand at a key, and that anything else is refused, also where it would not count."""
    for name in STEPS.split() + ['jobs']:
        found = [words for words in faults(**made(f"${{{{ false && {name}.x || 'x' }}}}")) if 'the context' in words]
        assert (found == []) == (name in names.split()), f'{key}: {name}: {found}'


@pytest.mark.parametrize('key, names, made', PLACES, ids=[key for key, _, _ in PLACES])
def test_hash_files_availability(key: str, names: str, made: Any) -> None:
    """The same page, its column of special functions: `hashFiles` is for steps."""
    found = [words for words in faults(**made("${{ hashFiles('x') }}")) if 'hashFiles' in words]
    assert (found == []) == ('.steps.' in key), f'{key}: {found}'


def test_hash_files_of_a_step_that_waits() -> None:
    assert faults([{'run': 'true', 'if': "hashFiles('x') != ''"}]) == []


# 'Workflow syntax', `permissions`, and 'OpenID Connect': what needs a service of GitHub's.

PERMISSIONS = [
    ({'permissions': {'id-token': 'write'}}, {}, 'jobs.build.permissions.id-token: OpenID Connect'), ({'permissions': {'pages': 'write'}}, {}, 'jobs.build.permissions.pages'),
    ({}, {'permissions': {'id-token': 'write'}}, 'permissions.id-token: OpenID Connect'), ({'permissions': {'contents': 'write'}}, {'permissions': {'id-token': 'write'}}, None),
    ({'permissions': {'id-token': 'none', 'pages': 'read'}}, {}, None), ({'permissions': 'write-all'}, {}, None), ({}, {'permissions': 'read-all'}, None)]


@pytest.mark.parametrize('job, workflow, wanted', PERMISSIONS)
def test_permissions(job: dict[str, Any], workflow: dict[str, Any], wanted: str | None) -> None:
    found = faults(workflow=workflow, **job)
    assert found == [] if wanted is None else len(found) == 1 and found[0].startswith(wanted), found


def test_the_token_in_an_action(tmp_path: pathlib.Path) -> None:
    """A step of an action that names it is refused. The default of an input may be empty: most actions need none."""
    said = {'inputs': {'token': {'default': '${{ github.token }}'}}, 'runs': {'using': 'composite', 'steps': [{'run': 'echo ${{ inputs.token }}', 'shell': 'sh'}]}}
    needs = {'runs': {'using': 'composite', 'steps': [{'run': 'true', 'shell': 'sh', 'env': {'GH_TOKEN': '${{ github.token }}'}}]}}
    for name, text in (('may', said), ('needs', needs)):
        mirror(str(tmp_path), f'octo/{name}', {'action.yml': json.dumps(text)}, tags=('v1',))
    body = body_of(jobs={'build': {'runs-on': 'linux', 'steps': [{'uses': 'octo/may@v1'}, {'uses': 'octo/needs@v1'}]}})
    found = runner_faults(body, 'build', '0', '{}', Options(name='check', labels='check', actions=str(tmp_path)))
    assert found == ['jobs.build.steps[1] (octo/needs@v1)[0].env.GH_TOKEN: github.token has no value here, in ${{ github.token }}']


def test_secrets_in_an_action(tmp_path: pathlib.Path) -> None:
    """'Contexts reference', the `secrets` context: it is not there for composite actions. Neither are `needs` and `vars`."""
    steps = [{'run': f'echo ${{{{ {name}.x }}}}', 'shell': 'sh'} for name in ('secrets', 'needs', 'vars', 'inputs', 'github', 'runner')]
    mirror(str(tmp_path), 'octo/say', {'action.yml': json.dumps({'runs': {'using': 'composite', 'steps': steps}})}, tags=('v1',))
    body = body_of(jobs={'build': {'runs-on': 'linux', 'steps': [{'uses': 'octo/say@v1'}]}})
    found = runner_faults(body, 'build', '0', '{}', Options(name='check', labels='check', actions=str(tmp_path)))
    assert [words.split(', in')[0].partition(': ')[2] for words in found] == [f'the context {name} has no value here' for name in ('secrets', 'needs', 'vars')], found


def test_a_token_that_changes_nothing() -> None:
    """An input that an action of the runner's own does not need may name it."""
    found = faults([{'uses': 'actions/setup-python@v5', 'with': {'python-version': '3', 'token': '${{ secrets.GITHUB_TOKEN }}'}}])
    assert not any('github_token' in words.lower() for words in found), found
