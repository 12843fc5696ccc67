"""The workflows of `examples/starters` and `examples/workflows`, played by a real service, hub and runners, end as the table says."""
from __future__ import annotations

import pathlib
import shutil
import subprocess
from collections.abc import Iterator

import pytest
from harness import HUB
from runner_trials import until
from workflow_stage import EXAMPLES, Stage, has_in_order
from workflow_table import ROWS, STARTERS, WELL_KNOWN, Refused, Row
from workflow_tools import GO, INSTALLED, JAVA, NODE, PYTHON, Tool, make_docker, put, script

needs_node = pytest.mark.skipif(shutil.which('node') is None, reason='not here: node')
REFUSED = [row for row in ROWS if row.refused]


def name_of(given: Row | Tool) -> str:
    """What a row or a tool is called."""
    return given.name


@pytest.fixture(scope='module')
def stage(tmp_path_factory: pytest.TempPathFactory) -> Iterator[Stage]:
    made = Stage(tmp_path_factory.mktemp('workflows'))
    try:
        yield made.start()
    finally:
        made.end()


@needs_node
@pytest.mark.parametrize('row', ROWS, ids=name_of)
def test_workflow(stage: Stage, row: Row) -> None:
    lines = stage.early.get(row.name) or stage.happen(row)
    if row.refused and row.refused.by == 'event':
        is_refused_at_once(stage, row, row.refused, lines)
    elif row.refused:
        is_refused_by_runner(stage, row, row.refused)
    else:
        ends_as_at_github(stage, row)


def is_refused_at_once(stage: Stage, row: Row, refused: Refused, lines: list[str]) -> None:
    """There is no run, and the answer to the webhook says why and at which line."""
    told = [line for line in lines if line.startswith(f'{row.file.rpartition("/")[2]}:')]
    assert len(told) == 1 and told[0].startswith(f'{row.file.rpartition("/")[2]}:{refused.line}: refused ') and refused.words in told[0], lines
    assert stage.runs(row) == []


def is_refused_by_runner(stage: Stage, row: Row, refused: Refused) -> None:
    """No step of any job runs, the run has failed, and an annotation says why and at which line."""
    run = stage.ended(row)
    jobs = stage.jobs(row, run)
    assert run['conclusion'] == 'failure' and jobs.keys() == row.jobs.keys()
    for name, job in jobs.items():
        assert [(step['name'], step['conclusion']) for step in job['steps']] == [('Set up job', 'failure')], job['steps']
        told = until(lambda: stage.annotations(row, job))
        assert all(one['message'].startswith('not run: ') and one['path'] == row.path for one in told), told
        assert any(one['start_line'] == refused.line and refused.words in one['message'] for one in told), told


def ends_as_at_github(stage: Stage, row: Row) -> None:
    """The run, each of its jobs, and what they print."""
    run = stage.ended(row)
    jobs = stage.jobs(row, run)
    logs = {name: stage.log(row, job) for name, job in jobs.items()}
    assert {name: job['conclusion'] for name, job in jobs.items()} == row.jobs, logs
    assert run['conclusion'] == row.run, logs
    for name, wanted in row.says.items():
        def holds(name: str = name, wanted: tuple[str, ...] = wanted) -> bool:
            logs[name] = stage.log(row, jobs[name])
            return has_in_order(logs[name], wanted)
        try:
            until(holds, 60)  # the end of a log may come after the report
        except AssertionError:
            raise AssertionError(f'{name}: {wanted} is not in {logs[name]}') from None


@pytest.mark.quick
def test_what_the_table_has() -> None:
    """All of the examples; at least 38 of 43 as at GitHub, also without those whose legs a host of another system takes."""
    files = {str(path.relative_to(EXAMPLES)) for folder in ('starters', 'workflows') for path in (EXAMPLES / folder).glob('*.yml')}
    named = [row.file for row in ROWS] + [file for row in ROWS for file in row.others if file not in {each.file for each in ROWS}]
    assert sorted(named) == sorted(files) and len({row.name for row in ROWS}) == len(ROWS)
    assert len(STARTERS) == 23 and len(WELL_KNOWN) >= 20
    same = [row for row in ROWS if not row.refused and not row.elsewhere]
    assert len(same) * 43 >= len(ROWS) * 38, f'{len(same)} of {len(ROWS)}'


@pytest.mark.quick
def test_the_line_of_a_refusal_is_that_of_what_is_refused() -> None:
    for row in REFUSED:
        assert row.refused
        member = (EXAMPLES / row.file).read_text().splitlines()[row.refused.line - 1].partition(':')[0].strip()
        assert f'.{member}: ' in row.refused.words, (row.file, member)


@pytest.mark.quick
def test_the_page_has_the_same_numbers() -> None:
    page = (HUB.parent / 'docs/WEBHOOKS.md').read_text()
    same = len(ROWS) - len(REFUSED)
    assert f'{len(ROWS)} workflows, {same} end as at GitHub, and {len(REFUSED)} are refused' in ' '.join(page.split())
    for row in REFUSED:
        assert f'`{row.name}.yml`' in page, row.name


@pytest.mark.quick
@pytest.mark.parametrize('tool', [*INSTALLED, *NODE, *PYTHON, *GO, *JAVA], ids=name_of)
def test_stand_ins_fail_when_they_are_called_wrongly(tmp_path: pathlib.Path, tool: Tool) -> None:
    def call() -> subprocess.CompletedProcess[str]:
        return subprocess.run([str(tmp_path / tool.name), 'nonsense', '--nonsense'], cwd=tmp_path, capture_output=True, text=True)
    put(tmp_path, tool.name, script(tool))
    for name in tool.needs:
        done = call()
        assert done.returncode == 66 and f'there is no {name}' in done.stderr, done
        (tmp_path / name).touch()
    done = call()
    assert done.returncode == 64 and 'nobody calls it so: nonsense --nonsense' in done.stderr and not done.stdout, done


@pytest.mark.quick
def test_the_stand_in_for_docker_fails_when_it_is_called_wrongly(tmp_path: pathlib.Path) -> None:
    make_docker(tmp_path)
    for words in ('fly',), ('exec', 'none', 'true'), ('create', '--name', 'x', 'nobody/image'), ('start', 'none'), ('build', '.', '--file', 'none'):
        done = subprocess.run([str(tmp_path / 'docker'), *words], cwd=tmp_path, capture_output=True, text=True)
        assert done.returncode == 125 and done.stderr.startswith('docker: ') and not done.stdout, words
