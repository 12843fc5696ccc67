"""The metrics of hub and service at one address, for administrators; the alerts and the dashboard over them."""
from __future__ import annotations

import json
import pathlib
import re
import shutil
import subprocess
from collections.abc import Callable, Iterator
from urllib.parse import quote

import pytest
from harness import HUB, HubProcess, Process, Service, free_ports, request, until

FILES = HUB / 'prometheus'
PROMTOOL, PROMETHEUS = shutil.which('promtool'), shutil.which('prometheus')
needs_prometheus = pytest.mark.skipif(not PROMTOOL or not PROMETHEUS, reason="Debian's package prometheus is not here")
VALUE = re.compile(r'([a-zA-Z_:][a-zA-Z0-9_:]*)(?:\{(.*)\})? ([^ ]+)')


def metrics_in(text: str) -> dict[str, float]:
    """Values by name and labels, of Prometheus' text format; each name has its lines HELP and TYPE before it."""
    found, known = {}, set()
    for line in text.splitlines():
        if line.startswith('# TYPE '):
            known.add(line.split(' ')[2])
        elif not line.startswith('#'):
            parts = VALUE.fullmatch(line)
            assert parts, line
            assert parts[1] in known or re.sub('_(bucket|sum|count)$', '', parts[1]) in known, line
            found[parts[1] + ('{' + parts[2] + '}' if parts[2] else '')] = float(parts[3])
    return found


def scraped(hub: HubProcess, token: str) -> dict[str, float]:
    answer = hub.get('/metrics', token)
    assert answer.status == 200
    return metrics_in(answer.text)


@pytest.mark.quick
def test_metrics_are_for_administrators(hub: HubProcess) -> None:
    """Without a token 401; with a lesser right, or one of a repository alone, 403 or 404; and nothing is shown."""
    assert hub.get('/metrics').status == 401
    assert hub.get('/metrics', 'acts_wrong').status == 401
    for kind, repositories, labels in (('read', ('*',), ()), ('write', ('*',), ()), ('admin', ('octo/hello',), ()), ('runner', ('*',), ('linux',))):
        answer = hub.get('/metrics', hub.token(f'a-{kind}', kind, repositories=repositories, labels=labels))
        assert (answer.status in (403, 404), 'acts_' in answer.text) == (True, False), kind


def test_metrics_of_hub_and_service(hub: HubProcess, service: Service) -> None:
    """What was done, as both count it; a service that is away shows as such, with the hub's own."""
    token = hub.token()
    for _ in range(3):
        service.admit()
    lines = service.lines()
    lease = lines.claim('r1')
    assert lines.done('r1', lease[1]) == 'ok'
    until(lambda: scraped(hub, token)['acts_hub_runs'] == 3)
    found = scraped(hub, token)
    assert found['acts_hub_service_up'] == found['acts_hub_is_whole'] == 1
    assert found['acts_runs{status="completed",conclusion="success"}'] == 1
    assert found['acts_runs{status="queued",conclusion=""}'] == 2
    assert found['acts_hub_ledger_fault'] == found['acts_hub_ledger_dropped_total'] == 0
    assert found['acts_hub_answers_total{status="200"}'] >= 1
    assert found['acts_hub_disk_free_bytes'] > 0 and found['process_resident_memory_bytes'] > 1 << 20
    hub.get('/nowhere-at-all', token)
    assert scraped(hub, token)['acts_hub_answers_total{status="404"}'] >= 1
    service.kill()
    until(lambda: scraped(hub, token)['acts_hub_service_up'] == 0)
    assert not [name for name in scraped(hub, token) if name.startswith('acts_') and not name.startswith('acts_hub_')]
    service.start()
    until(lambda: scraped(hub, token)['acts_hub_service_up'] == 1)


def queries() -> list[str]:
    """The queries of alerts and dashboard."""
    rules = re.findall(r'^ +expr: (.+)$', (FILES / 'acts.rules.yml').read_text(), re.M)
    panels = json.loads((FILES / 'dashboard.json').read_text())['panels']
    return rules + [target['expr'] for panel in panels for target in panel['targets']]


def test_queries_ask_for_what_is_there(hub: HubProcess, service: Service) -> None:
    """Each metric that an alert or a panel names is one of the page."""
    service.admit()
    names = {re.sub(r'\{.*', '', name) for name in scraped(hub, hub.token())}
    asked = {name for query in queries() for name in re.findall(r'\bacts_[a-z_]+', query)}
    assert len(asked) > 15
    assert asked - names - {'acts_refusals_total'} == set()  # which shows a number once it has occurred


@needs_prometheus
def test_alerts_and_their_cases() -> None:
    """promtool takes the scrape job and the rules, and each alert comes when its case says."""
    assert PROMTOOL
    for words in (['check', 'rules', 'acts.rules.yml'], ['test', 'rules', 'acts.rules.test.yml'], ['check', 'config', '--syntax-only', 'acts.yml']):
        done = subprocess.run([PROMTOOL, *words], cwd=FILES, capture_output=True, text=True)
        assert done.returncode == 0, done.stdout + done.stderr
    alerts = set(re.findall(r'- alert: (\w+)', (FILES / 'acts.rules.yml').read_text()))
    assert alerts == set(re.findall(r'alertname: (\w+)', (FILES / 'acts.rules.test.yml').read_text()))


@pytest.fixture
def prometheus(make_hub: Callable[..., HubProcess], tmp_path: pathlib.Path) -> Iterator[tuple[HubProcess, int]]:
    """A hub with TLS, and a Prometheus that scrapes it by the job of acts.yml, but for its address, its files and the interval."""
    hub = make_hub(tls=True)
    (tmp_path / 'token').write_text(hub.token() + '\n')
    text = (FILES / 'acts.yml').read_text()
    for old, new in (('ci.example.org:8443', f'localhost:{hub.port}'), ('interval: 15s', 'interval: 1s'), ('- acts.rules.yml', f'- {FILES}/acts.rules.yml'),
                     ('/etc/prometheus/acts.token', str(tmp_path / 'token')), ('/etc/prometheus/acts.pem', str(hub.ca))):
        assert old in text
        text = text.replace(old, new)
    (tmp_path / 'prometheus.yml').write_text('global: {evaluation_interval: 1s}\n' + text)
    port, = free_ports(1)
    words = [f'--config.file={tmp_path}/prometheus.yml', f'--storage.tsdb.path={tmp_path}/data', f'--web.listen-address=127.0.0.1:{port}']
    assert PROMETHEUS
    process = Process([PROMETHEUS, *words], tmp_path, 'prometheus')
    process.start()
    try:
        yield hub, port
    finally:
        process.kill()


def values(port: int, query: str) -> list[float]:
    """The values of a query."""
    answer = request(port, 'GET', f'/api/v1/query?query={quote(query)}')
    return [float(one['value'][1]) for one in answer.json()['data']['result']] if answer.status == 200 else []


@needs_prometheus
def test_prometheus_scrapes_the_hub(prometheus: tuple[HubProcess, int], service: Service) -> None:
    """A Prometheus itself reads the page by TLS and token: its values, all queries of the dashboard, and the alert of a service that is away."""
    hub, port = prometheus
    until(lambda: values(port, 'up{job="acts"}') == [1], what='a scrape')
    service.admit()
    until(lambda: values(port, 'acts_hub_runs') == [1] == values(port, 'acts_runs{status="queued"}'), what='the run')
    panels = json.loads((FILES / 'dashboard.json').read_text())['panels']
    asked = [target['expr'] for panel in panels for target in panel['targets'] if 'refusals' not in target['expr']]
    until(lambda: not [query for query in asked if not values(port, query)], what='all queries')
    until(lambda: values(port, 'ALERTS{alertname="ActsNoRunner",alertstate="pending"}') == [1], what='a leg that waits')
    service.kill()
    until(lambda: values(port, 'ALERTS{alertname="ActsAway",alertstate="pending"}') == [1], what='a service that is away')
    hub.kill()
    until(lambda: values(port, 'ALERTS{alertname="ActsHubAway",alertstate="pending"}') == [1], what='a hub that is away')
