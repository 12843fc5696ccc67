"""What the hub keeps of runs that the service forgets: logs, artifacts, rows and pages go with them, and nothing of the others does."""
from __future__ import annotations

import contextlib
import pathlib
import shutil
import sqlite3
from collections.abc import Callable, Iterator

import pytest
from harness import HubProcess, Service, body_of, until
from wires import Wire

from acts_hub.ledger.artifacts import ArtifactStore
from acts_hub.ledger.database import Database
from acts_hub.ledger.logs import LogStore

REPOSITORY = '/api/v3/repos/octo/hello/actions'
TABLES = 'runs', 'attempts', 'legs', 'notes', 'artifacts'
Make = Callable[..., HubProcess]


@contextlib.contextmanager
def stores(hub: HubProcess) -> Iterator[tuple[LogStore, ArtifactStore]]:
    """Logs and artifacts of a hub that does not run."""
    database = Database(hub.state / 'ledger.sqlite')
    database.open()
    try:
        yield LogStore(hub.state / 'logs', 1 << 20), ArtifactStore(hub.state / 'artifacts', database, 1 << 20, 1 << 20, 90)
    finally:
        database.close()


def fill(hub: HubProcess, *runs: int) -> dict[int, int]:
    """A log and an artifact of each run, whose ids are given, while the hub does not run."""
    made = {}
    with stores(hub) as (logs, artifacts):
        for run in runs:
            logs.append(run, 1, 'build', 0, run, 0, b'2026-12-01T00:00:00.0000000Z hello\n')
            upload = artifacts.begin(run, 1, 'dist')
            upload.write(b'zip')
            made[run] = upload.finish().id
    return made


def complete(service: Service, count: int) -> list[int]:
    """Runs that have ended."""
    lines = service.lines()
    made = []
    for _ in range(count):
        made.append(service.admit(body_of()))
        lease = lines.claim('r1')
        assert lines.done('r1', lease[1]) == 'ok'
    lines.close()
    return made


def kept(hub: HubProcess) -> dict[str, list[int]]:
    """The runs of which there is something, by the table or folder."""
    with contextlib.closing(sqlite3.connect(hub.state / 'ledger.sqlite', timeout=10)) as ledger:
        found = {table: [run for run, in ledger.execute(f'select distinct run from {table} where run > 0 order by run')] for table in TABLES}
    for name in 'logs', 'artifacts':
        found[f'{name}/'] = sorted(int(path.name) for path in (hub.state / name).glob('[0-9]*/[0-9]*'))
    return found


def answers(hub: HubProcess) -> bool:
    """Whether a hub has listed the runs."""
    with contextlib.suppress(OSError):
        return 'being listed' not in hub.get('/healthz').text
    return False


def are_gone(hub: HubProcess, last: int) -> bool:
    return not any(run <= last for runs in kept(hub).values() for run in runs)


def statuses(hub: HubProcess, token: str, run: int, artifact: int) -> set[int]:
    """How requests about a run are answered, and its page."""
    paths = f'runs/{run}', f'runs/{run}/jobs', f'runs/{run}/artifacts', f'runs/{run}/attempts/1', f'artifacts/{artifact}'
    return {hub.get(f'{REPOSITORY}/{path}', token).status for path in paths} | {hub.get(f'/octo/hello/actions/runs/{run}', token).status}


@pytest.mark.quick
def test_what_is_kept_of_forgotten_runs_goes(service: Service, make_hub: Make) -> None:
    hub = make_hub()
    token = hub.token()
    runs = complete(service, 4)
    until(lambda: all(kept(hub)[table] == runs for table in ('runs', 'attempts', 'legs')), what='the rows')
    hub.kill()
    made = fill(hub, *runs)
    hub.start()
    assert all(statuses(hub, token, run, made[run]) == {200} for run in runs)
    assert service.post('/runs/2/forget').text == 'forgotten 2\n'
    until(lambda: statuses(hub, token, 2, made[2]) == {404}, what='the end of run 2')
    until(lambda: are_gone(hub, 2), what='the end of what is kept')
    assert statuses(hub, token, 1, made[1]) == {404} and [row['id'] for row in hub.get(f'{REPOSITORY}/runs', token).json()['workflow_runs']] == [4, 3]
    assert all(statuses(hub, token, run, made[run]) == {200} for run in (3, 4))
    assert kept(hub) == {**{name: [3, 4] for name in (*TABLES, 'logs/', 'artifacts/')}, 'notes': kept(hub)['notes']}
    assert [one['name'] for one in hub.get(f'{REPOSITORY}/runs/3/artifacts', token).json()['artifacts']] == ['dist']
    assert hub.get(f'{REPOSITORY}/jobs/{hub.get(f"{REPOSITORY}/runs/3/jobs", token).json()["jobs"][0]["id"]}/logs', token).status == 302


def test_what_was_forgotten_while_the_hub_was_away_goes_at_its_start(service: Service, make_hub: Make) -> None:
    hub = make_hub()
    token = hub.token()
    runs = complete(service, 5)
    until(lambda: kept(hub)['legs'] == runs, what='the rows')
    hub.kill()
    made = fill(hub, *runs)
    service.post('/runs/3/forget')
    # an earlier life has come to its end in the middle: of run 1 the files have gone, of run 2 the rows
    shutil.rmtree(hub.state / 'logs/0/1')
    with contextlib.closing(sqlite3.connect(hub.state / 'ledger.sqlite')) as ledger, ledger:
        for table in TABLES:
            ledger.execute(f'delete from {table} where run = 2')
    hub.start()
    until(lambda: are_gone(hub, 3), what='the end of what is kept')
    assert all(statuses(hub, token, run, made[run]) == {404} for run in (1, 2, 3)) and all(statuses(hub, token, run, made[run]) == {200} for run in (4, 5))
    service.restart()                                       # a new history, so the runs are listed anew
    service.post('/runs/5/forget')                          # and none is left
    until(lambda: are_gone(hub, 5), what='the end of what is kept')
    hub.kill()
    fill(hub, 5)                                            # what came late
    hub.start()
    until(lambda: are_gone(hub, 5), what='the end of what came late')
    assert service.admit(body_of()) == 6
    until(lambda: hub.get(f'{REPOSITORY}/runs/6', token).status == 200, what='run 6')


def test_the_hub_is_killed_again_and_again_while_it_forgets(service: Service, make_hub: Make) -> None:
    hub = make_hub()
    runs = complete(service, 40)
    until(lambda: kept(hub)['legs'] == runs, what='the rows')
    hub.kill()
    fill(hub, *runs)
    for last in range(5, 40, 5):
        hub.start(wait=False)
        if last % 10:
            until(lambda: answers(hub), what='the hub')
        service.post(f'/runs/{last}/forget')
        hub.kill()
    hub.start()
    until(lambda: are_gone(hub, 35), what='the end of what is kept')
    assert kept(hub)['logs/'] == kept(hub)['artifacts'] == kept(hub)['runs'] == runs[35:]


def test_the_service_forgets_by_itself(tmp_path: pathlib.Path) -> None:
    service = Service(tmp_path / 'service', options=('--keep-runs', '2', '--turn-over', '12'))
    hub = HubProcess(tmp_path / 'hub', service)
    try:
        service.start()
        hub.start()
        token = hub.token()
        complete(service, 10)
        until(lambda: hub.get(f'{REPOSITORY}/runs/3', token).status == 404, what='the end of run 3')
        service.restart()
        shown = [8 + 1, 8 + 2]
        until(lambda: sorted(row['id'] for row in hub.get(f'{REPOSITORY}/runs', token).json()['workflow_runs']) == shown, what='the last two runs')
        until(lambda: are_gone(hub, 8), what='the end of what is kept')
        assert kept(hub)['runs'] == shown
    finally:
        hub.kill()
        service.kill()


def test_a_restored_store_shows_what_it_had_forgotten(service: Service, make_hub: Make, tmp_path: pathlib.Path) -> None:
    hub = make_hub()
    token = hub.token()
    complete(service, 3)
    until(lambda: kept(hub)['legs'] == [1, 2, 3], what='the rows')
    service.kill()
    shutil.copy(service.store, tmp_path / 'copy')
    service.start()
    service.post('/runs/2/forget')
    until(lambda: are_gone(hub, 2), what='the end of what is kept')
    service.kill()
    shutil.copy(tmp_path / 'copy', service.store)
    service.start()
    until(lambda: hub.get(f'{REPOSITORY}/runs/1', token).status == 200, what='run 1')
    hub.kill()
    made = fill(hub, 1, 2, 3)
    hub.start()
    until(lambda: kept(hub)['runs'] == [1, 2, 3], what='the rows')
    assert all(statuses(hub, token, run, made[run]) == {200} for run in (1, 2, 3)) and kept(hub)['logs/'] == kept(hub)['artifacts/'] == [1, 2, 3]


def test_nothing_more_is_taken_for_a_forgotten_run(service: Service, hub: HubProcess) -> None:
    run = service.admit(body_of())
    wire = Wire(hub, hub.token('runners', 'runner', labels=('linux',)))
    try:
        lease = wire.claim('r1')
        place, claim = f'{run}/1/build/0/{lease[1]}', wire.claims[lease[1]]
        assert wire.put('logs', place, b'one\n', claim, offset=0).json() == {'size': 4} and wire.done('r1', lease[1]) == 'ok'
        assert wire.put('logs', place, b'two\n', claim, offset=4).json() == {'size': 8}  # what comes late of a run that is kept
        service.post(f'/runs/{run}/forget')
        until(lambda: are_gone(hub, run), what='the end of what is kept')
        late = wire.put('logs', place, b'three\n', claim, offset=8)
        assert (late.status, late.text) == (403, 'the service has forgotten the run, and nothing more is kept of it\n') and are_gone(hub, run)
    finally:
        wire.close()
