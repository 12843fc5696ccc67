"""The container of a job, and its services, by podman itself where it runs: GitHub's pages 'Running jobs in a container' and 'About service containers'. The cases by a
stand-in are in test_runner_steps.py and test_runner_actions.py."""
from __future__ import annotations

import os
from collections.abc import Iterator
from typing import Any

import pytest
from engines import TINY, Engine, podman
from runner_trials import until
from test_runner_hub import Site, site, tls  # noqa: F401  (fixtures)

WEB = 'localhost/web'  # an image that serves one page
HEALTH = '--health-cmd "{}" --health-interval 1s --health-retries 2 --health-timeout 5s'
NEVER = {'run': 'echo never >> "$NOTES"'}


@pytest.fixture(scope='module')
def made(tmp_path_factory: pytest.TempPathFactory) -> Engine | str:
    """podman with both images, or why it does not run."""
    folder = tmp_path_factory.mktemp('engines')
    found = podman(folder)
    if isinstance(found, Engine):
        (folder / 'web').mkdir()
        (folder / 'web' / 'index.html').write_text('a page\n')
        (folder / 'web' / 'Dockerfile').write_text(f'FROM {TINY}\nCOPY index.html /www/index.html\nCMD ["httpd", "-f", "-p", "80", "-h", "/www"]\n')
        found.ask('build', '--tag', WEB, str(folder / 'web'))
    return found


@pytest.fixture
def engine(made: Engine | str) -> Iterator[Engine]:
    """It. No container and no network of a job is left after a test."""
    if isinstance(made, str):
        pytest.skip(made)
    yield made
    assert made.containers() == [] and made.ask('network', 'ls', '--format', '{{.Name}}').split() == ['podman']


def play(site: Site, engine: Engine, *steps: dict[str, Any], result: str = 'success', **job: Any) -> list[str]:
    """Runs a job of these steps, and gives its log."""
    run = site.admit(*steps, **job)
    host = site.run('--environment', 'none', **engine.env)
    assert site.service.run(run)['conclusion'] == result, f'{host.said()} {host.complained()} {site.said(run)}'
    return site.said(run)


def test_steps_in_a_container(site: Site, engine: Engine) -> None:
    """Its variables, options and volumes; what steps hand on; its folders have the paths of outside."""
    tool = 'mkdir p; printf "#!/bin/sh\\necho a tool" > p/tool; chmod +x p/tool; echo "$PWD/p" >> "$GITHUB_PATH"'
    container = {'image': TINY, 'env': {'A': 'of the container'}, 'options': '--hostname box', 'volumes': [f'{site.folder}:/seen']}
    said = play(site, engine, {'run': f'echo "[$A $(hostname) $HOST] $(pwd)"; echo x=1 >> "$GITHUB_OUTPUT"; echo "B=later" >> "$GITHUB_ENV"; echo seen > /seen/file; {tool}', 'id': 'one'},
                {'run': 'echo "[$(tool) $B ${{ steps.one.outputs.x }} $GITHUB_WORKSPACE]"'}, {'run': 'ls / | grep -c seen'}, {'run': 'exit 5', 'continue-on-error': True},
                {'run': 'echo "${{ job.container.id }} ${{ job.container.network }}"'}, container=container)
    work = os.path.join(site.hosts[0].home(), 'work')
    assert f'[of the container box ] {work}' in said and f'[a tool later 1 {work}]' in said and (site.folder / 'file').read_text() == 'seen\n'
    assert '##[error]Process completed with exit code 5.' in said
    names = next(line for line in said if line.startswith('acts-') and ' acts-' in line).split()
    assert names[0] != names[1]


def test_a_service_for_steps_of_the_machine(site: Site, engine: Engine) -> None:
    """By a port that the engine has chosen; with a health check that has to hold first, and without one."""
    services = {'web': {'image': WEB, 'ports': ['80'], 'options': HEALTH.format('wget -q -O - http://127.0.0.1/')}, 'plain': {'image': WEB, 'ports': ['80']}}
    play(site, engine, *({'run': f'curl -s http://127.0.0.1:${{{{ job.services.{name}.ports[80] }}}}/ >> "$NOTES"'} for name in services), services=services)
    assert site.noted() == ['a page', 'a page']


def test_a_service_for_steps_in_a_container(site: Site, engine: Engine) -> None:
    """By its name, also for an action in a container of its own."""
    look = 'wget -q -O - http://web/'
    said = play(site, engine, {'run': look}, {'uses': f'docker://{TINY}', 'with': {'args': look}}, container=TINY, services={'web': WEB})
    assert said.count('a page') == 2


def test_a_service_that_is_not_healthy(site: Site, engine: Engine) -> None:
    said = play(site, engine, NEVER, services={'web': {'image': WEB, 'options': HEALTH.format('false')}}, result='failure')
    assert any('not run: jobs.build.services: web is running and unhealthy' in line for line in said) and site.noted() == []


def test_a_cancel_reaches_a_container(site: Site, engine: Engine) -> None:
    """INT first, for the process in it; the steps that clean up run there."""
    run = site.admit({'run': 'trap "echo got INT; exit 1" INT; touch began; while :; do sleep 0.1; done'}, NEVER, {'run': 'echo cleaned', 'if': 'always()'}, container=TINY)
    host = site.host('h0').start(beat=0.5, **engine.env)
    until(lambda: os.path.exists(os.path.join(host.home(), 'work', 'began')))
    site.service.post(f'/runs/{run}/cancel')
    until(host.has_ended)
    said = site.said(run)
    assert site.service.run(run)['conclusion'] == 'cancelled' and 'got INT' in said and 'cleaned' in said, said
