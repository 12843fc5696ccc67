"""Fixtures: a service and a hub that end with their test, or with the module that shares them."""
from __future__ import annotations

import pathlib
from collections.abc import Callable, Iterator
from typing import Any

import pytest
from harness import HubProcess, Service
from rest_stand import Stand, standing
from runner_trials import Case


# These take longest. A file's tests go on in one process, so they begin first: else all others would wait for one of them at the end.
FIRST = ('test_runner_steps', 'test_workflows', 'test_runner_hub', 'test_pages_browser', 'test_gateway_gitea', 'test_watchdog', 'test_attacks', 'test_runner_actions',
         'test_doors', 'test_two_hosts', 'test_events_faults', 'test_board', 'test_runner_lines', 'test_runner_hosts', 'test_runner_contained', 'test_mirror_soak',
         'test_events_following', 'test_leaving', 'test_forgetting', 'test_hostile_logs', 'test_up', 'test_gh', 'test_units', 'test_mirror')


def pytest_collection_modifyitems(items: list[pytest.Item]) -> None:
    """Puts the files of `FIRST` before the others."""
    ranks = {name: rank for rank, name in enumerate(FIRST)}
    items.sort(key=lambda item: ranks.get(item.path.stem, len(FIRST)))


@pytest.fixture
def service(tmp_path: pathlib.Path) -> Iterator[Service]:
    """A service with a new store."""
    made = Service(tmp_path / 'service')
    try:
        yield made.start()
    finally:
        made.kill()


@pytest.fixture
def make_hub(tmp_path: pathlib.Path, service: Service) -> Iterator[Callable[..., HubProcess]]:
    """Starts hubs beside the service: the arguments are HubProcess's."""
    made: list[HubProcess] = []

    def make(**given: Any) -> HubProcess:
        made.append(HubProcess(tmp_path / f'hub-{len(made)}', given.pop('service', service), **given))
        return made[-1].start()
    try:
        yield make
    finally:
        for one in made:
            one.kill()


@pytest.fixture
def hub(make_hub: Callable[..., HubProcess]) -> HubProcess:
    """A hub beside the service."""
    return make_hub()


@pytest.fixture(scope='module')
def shared(tmp_path_factory: pytest.TempPathFactory) -> Iterator[HubProcess]:
    """A service and a hub that the tests of a module share."""
    folder = tmp_path_factory.mktemp('shared')
    service = Service(folder / 'service')
    hub = HubProcess(folder / 'hub', service)
    try:
        service.start()
        yield hub.start()
    finally:
        hub.kill()
        service.kill()


@pytest.fixture(scope='session')
def standing_hub(tmp_path_factory: pytest.TempPathFactory) -> Iterator[Stand]:
    """A hub in this process whose runs are filled in by hand, which the tests share."""
    with standing(tmp_path_factory.mktemp('stand')) as made:
        yield made


@pytest.fixture
def stand(standing_hub: Stand) -> Iterator[Stand]:
    """The same without any runs."""
    standing_hub.clear()
    yield standing_hub
    standing_hub.clear()


@pytest.fixture
def case(tmp_path: pathlib.Path) -> Iterator[Case]:
    """A service, and a runner between which and the service something stands."""
    made = Case(tmp_path)
    try:
        yield made
    finally:
        made.close()
