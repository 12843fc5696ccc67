"""Lists of 20,000 runs: how much of the processor's time a page takes, and that pages keep."""
from __future__ import annotations

import re
import time
from collections.abc import Iterator

import pytest
from harness import Answer, request
from rest_stand import Stand, run_of

from acts_hub.service.hooks import HookPort
from acts_hub.service.mirror import Mirror
from acts_hub.service.view import ViewPort

COUNT = 20_000


@pytest.fixture(scope='module')
def full(standing_hub: Stand) -> Iterator[Stand]:
    """The hub with the real mirror, filled by hand."""
    before, hub = standing_hub.mirror, standing_hub.hub
    mirror = Mirror(ViewPort('127.0.0.1:1'), HookPort('127.0.0.1:1'), hub.database)
    for number in range(1, COUNT + 1):
        mirror.put(run_of(number, branch=('main', 'topic/a', 'release')[number % 3],
                          actor=('mona', 'hubot')[number % 5 == 0],
                          conclusion=('success', 'success', 'failure')[number % 3],
                          path=f'.github/workflows/{("ci", "deploy", "nightly")[number % 3]}.yml'))
    mirror.is_whole = True
    hub.mirror = mirror
    yield standing_hub
    hub.mirror = before  # type: ignore[assignment]


def page(stand: Stand, path: str) -> Answer:
    return request(stand.port, 'GET', path, None, {'Authorization': f'token {stand.tokens["read"]}'})


def rows(stand: Stand, path: str) -> tuple[list[int], str]:
    answer = page(stand, path)
    assert answer.status == 200
    return [int(number) for number in re.findall(r'<li class="row" id="run-([0-9]+)"', answer.text)], answer.text


def test_pages_keep_over_all_runs(full: Stand) -> None:
    found, text = rows(full, '/octo/hello/actions')
    assert '20,000 runs' in text
    seen = found
    for _ in range(5):
        older = re.search(r'rel="next" href="([^"]+)"', text)
        assert older is not None
        found, text = rows(full, older[1].replace('&amp;', '&'))
        seen += found
    assert seen == list(range(COUNT, COUNT - 150, -1))
    assert rows(full, '/octo/hello/actions?before=26')[0] == list(range(25, 0, -1))


def test_a_page_takes_little_of_the_processor(full: Stand) -> None:
    for path, limit in (('/octo/hello/actions', 60), ('/octo/hello/actions?before=10000', 60),
                        ('/octo/hello/actions?q=is:failure', 90), ('/octo/hello/actions?q=Change+777', 250),
                        ('/octo/hello/actions?branch=nothing-has-this', 250),
                        ('/octo/hello/actions/workflows/deploy.yml', 60), ('/', 60)):
        page(full, path)
        times = []
        for _ in range(8):
            begun = time.process_time()
            assert page(full, path).status == 200
            times.append((time.process_time() - begun) * 1000)
        times.sort()
        print(f'{path}: {times[0]:.1f} to {times[4]:.1f} ms')
        assert times[0] < limit, path
