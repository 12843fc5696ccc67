"""Artifacts by run and attempt, caches by GitHub's rules, refused events, notes, and how long each is kept."""
from __future__ import annotations

import errno
import hashlib
import pathlib
from collections.abc import Iterator
from typing import Any

import pytest

from acts_hub.config import config_of
from acts_hub.hub import make_hub
from acts_hub.ledger import files
from acts_hub.ledger.artifacts import ArtifactError, ArtifactStore
from acts_hub.ledger.caches import CacheError, CacheStore
from acts_hub.ledger.database import Database
from acts_hub.ledger.files import NewFile
from acts_hub.ledger.notes import NoteError, NoteStore
from acts_hub.ledger.refused import RefusedStore
from acts_hub.ledger.retention import Retention
from acts_hub.times import now

pytestmark = pytest.mark.quick
DAY = 86_400_000


@pytest.fixture
def database(tmp_path: pathlib.Path) -> Iterator[Database]:
    made = Database(tmp_path / 'ledger.sqlite')
    made.open()
    yield made
    made.close()


def artifacts(database: Database, each: int = 1000, a_run: int = 1500) -> ArtifactStore:
    return ArtifactStore(database.path.parent / 'artifacts', database, each, a_run, 90)


def upload(store: ArtifactStore, run: int, attempt: int, name: str, data: bytes, **more: Any) -> Any:
    made = store.begin(run, attempt, name, more.pop('overwrite', False))
    made.write(data)
    return made.finish(**more)


def files_below(folder: pathlib.Path) -> list[pathlib.Path]:
    return [path for path in folder.rglob('*') if path.is_file()]


def test_artifacts_are_by_run_and_attempt(database: Database) -> None:
    store = artifacts(database)
    first, again, other = (upload(store, *where, data) for *where, data in ((1, 1, 'dist', b'a'), (1, 2, 'dist', b'bb'), (2, 1, 'dist', b'ccc')))
    assert (first.size, first.digest) == (1, hashlib.sha256(b'a').hexdigest())
    assert [one.size for one in store.list(1)] == [1, 2] and [one.size for one in store.list(1, 2)] == [2] and store.list(3) == []
    path = store.open(again.id)
    assert path is not None and path.read_bytes() == b'bb' and store.get(other.id) == other
    database.flushed()
    later = artifacts(database)                                    # another life of the hub
    assert later.list(1) == store.list(1) and later.open(first.id) == store.open(first.id)
    store.drop(1)
    assert store.list(1) == [] and store.open(first.id) is None and store.open(other.id) is not None
    database.flushed()
    assert artifacts(database).list(1) == []


def test_a_name_of_an_artifact_is_taken_once_unless_it_is_overwritten(database: Database) -> None:
    store = artifacts(database)
    first = upload(store, 1, 1, 'dist', b'a')
    with pytest.raises(ArtifactError, match='already'):
        store.begin(1, 1, 'dist')
    one, two = store.begin(1, 1, 'late'), store.begin(1, 1, 'late')
    one.finish()
    with pytest.raises(ArtifactError, match='already'):            # of two at once the first one counts
        two.finish()
    upload(store, 1, 1, 'dist', b'b', overwrite=True)
    assert [one.name for one in store.list(1)] == ['late', 'dist'] and store.open(first.id) is None
    assert len(files_below(store.folder)) == 2


def test_artifacts_of_one_moment_stay_in_the_order_in_which_they_came(database: Database, monkeypatch: pytest.MonkeyPatch) -> None:
    monkeypatch.setattr('acts_hub.ledger.artifacts.now', lambda: 1_000)
    store = artifacts(database)
    for name in ('late', 'dist', 'zip', 'a'):
        upload(store, 1, 1, name, b'a')
    upload(store, 1, 1, 'dist', b'b', overwrite=True)
    assert [one.name for one in store.list(1)] == ['late', 'zip', 'a', 'dist']
    database.flushed()
    assert [one.name for one in artifacts(database).list(1)] == ['late', 'zip', 'a', 'dist']


@pytest.mark.parametrize('name', ['', 'a/b', 'a\\b', '..\\x', 'a:b', 'a"b', 'a<b', 'a>b', 'a|b', 'a*b', 'a?b', 'a\nb', 'a\rb', 'a\0b', 'x' * 256, 'ä' * 128])
def test_names_of_artifacts_that_github_refuses(database: Database, name: str) -> None:
    with pytest.raises(ArtifactError, match='no name'):
        artifacts(database).begin(1, 1, name)


def test_the_name_of_an_artifact_names_no_file(database: Database) -> None:
    store = artifacts(database)
    upload(store, 1, 1, '..', b'x')
    upload(store, 1, 1, '&amp; ${{ x }} \u202e', b'x')
    assert all(path.parent == store.folder / '0' / '1' / '1' and path.suffix == '.zip' for path in files_below(store.folder))


def test_artifacts_are_bounded_and_compared(database: Database) -> None:
    store = artifacts(database)
    with pytest.raises(ArtifactError, match='1000 bytes'):
        upload(store, 1, 1, 'big', b'x' * 1001)
    upload(store, 1, 1, 'a', b'x' * 900)
    with pytest.raises(ArtifactError, match='600 bytes'):          # what is left of the run's 1500
        upload(store, 1, 1, 'b', b'x' * 700)
    with pytest.raises(ArtifactError, match='SHA-256'):
        upload(store, 1, 1, 'c', b'x', digest='0' * 64)
    upload(store, 1, 1, 'd', b'x', digest='sha256:' + hashlib.sha256(b'x').hexdigest())
    assert [one.name for one in store.list(1)] == ['a', 'd'] and len(files_below(store.folder)) == 2      # nothing half is left


def test_a_full_disk_keeps_no_half_artifact(database: Database, monkeypatch: pytest.MonkeyPatch) -> None:
    store = artifacts(database)

    def full(descriptor: int) -> None:
        raise OSError(errno.ENOSPC, 'No space left on device')
    monkeypatch.setattr(files.os, 'fsync', full)
    with pytest.raises(OSError, match='No space left'):
        upload(store, 1, 1, 'a', b'x')
    assert store.list(1) == [] and files_below(store.folder) == []


def test_artifacts_end_with_their_days(database: Database) -> None:
    store = artifacts(database)
    short, long = upload(store, 1, 1, 'short', b'x', days=1), upload(store, 1, 1, 'long', b'x', days=900)
    assert short.expires_at - short.created_at == DAY and long.expires_at - long.created_at == 90 * DAY
    assert store.expire(now() + 2 * DAY) == 1
    assert [one.name for one in store.list(1)] == ['long'] and len(files_below(store.folder)) == 1


def test_a_file_that_was_left_half_written_is_removed(tmp_path: pathlib.Path) -> None:
    NewFile(tmp_path, 10).write(b'x')
    files.remove_unfinished(tmp_path)
    assert len(files_below(tmp_path)) == 1
    files.remove_unfinished(tmp_path, -1)
    assert files_below(tmp_path) == []


def caches(database: Database, total: int = 1000) -> CacheStore:
    return CacheStore(database.path.parent / 'caches', database, total, 7)


def cache(store: CacheStore, scope: str, key: str, data: bytes = b'x', version: str = 'v', repository: str = 'octo/hello') -> Any:
    made = store.begin(repository, scope, key, version)
    assert made is not None
    made.write(data)
    return made.finish()


def test_caches_are_searched_in_the_order_of_the_documentation(database: Database) -> None:
    """docs.github.com, "Caching dependencies": key and restore-keys in the branch, then the same in the default branch."""
    store, asked = caches(database), ('octo/hello', ['refs/heads/feature', 'refs/heads/main'], 'npm-feature-d5ea0750', ['npm-feature-', 'npm-'], 'v')
    order = [('refs/heads/main', 'npm-other'), ('refs/heads/main', 'npm-feature-1'), ('refs/heads/main', 'npm-feature-d5ea0750'),
             ('refs/heads/feature', 'npm-x'), ('refs/heads/feature', 'npm-feature-2'), ('refs/heads/feature', 'npm-feature-d5ea0750')]
    assert store.find(*asked) is None
    for scope, key in order:                                       # each goes before those that were there
        made = cache(store, scope, key)
        assert store.find(*asked) == made
    for _ in order:                                                # and back
        found = store.find(*asked)
        assert found is not None and (found.scope, found.key) == order.pop()
        store.delete(found.id)


def test_of_several_caches_that_begin_with_a_restore_key_the_newest_is_taken(database: Database, monkeypatch: pytest.MonkeyPatch) -> None:
    store = caches(database)
    for number, key in enumerate(('npm-b', 'npm-c', 'npm-a')):
        monkeypatch.setattr('acts_hub.ledger.caches.now', lambda: 1000 + number)
        cache(store, 'refs/heads/main', key)
    found = store.find('octo/hello', ['refs/heads/main'], 'npm-z', ['npm-'], 'v')
    assert found is not None and found.key == 'npm-a'


def test_caches_of_other_branches_versions_and_repositories_are_not_seen(database: Database) -> None:
    store = caches(database)
    cache(store, 'refs/heads/other', 'k')
    cache(store, 'refs/heads/main', 'k', version='other')
    cache(store, 'refs/heads/main', 'k', repository='octo/other')
    assert store.find('octo/hello', ['refs/heads/main'], 'k', ['k'], 'v') is None
    assert store.find('Octo/Hello', ['refs/heads/other'], 'k', [], 'v') is not None
    assert store.find('octo/hello', ['refs/heads/other'], 'K', [], 'v') is None
    assert store.find('octo/hello', ['refs/heads/other'], 'nothing', [''], 'v') is None       # an empty restore key fits nothing


def test_a_key_is_kept_once_in_a_scope(database: Database) -> None:
    store = caches(database)
    first = cache(store, 'refs/heads/main', 'k', b'first')
    assert store.begin('octo/hello', 'refs/heads/main', 'k', 'v') is None
    one, two = store.begin('octo/hello', 'refs/heads/main', 'late', 'v'), store.begin('octo/hello', 'refs/heads/main', 'late', 'v')
    assert one is not None and two is not None and one.finish() == two.finish()
    path = store.open(first.id)
    assert path is not None and path.read_bytes() == b'first'
    for key in '', 'a,b', 'x' * 513:
        with pytest.raises(CacheError):
            store.begin('octo/hello', 'refs/heads/main', key, 'v')


def test_caches_that_were_not_used_for_longest_go_first(database: Database, monkeypatch: pytest.MonkeyPatch) -> None:
    store, at = caches(database, 1000), [0]
    monkeypatch.setattr('acts_hub.ledger.caches.now', lambda: at[0])
    made = []
    for number in range(3):
        at[0] = number * DAY
        made.append(cache(store, 'refs/heads/main', f'k{number}', b'x' * 300))
    at[0] = 3 * DAY
    assert store.open(made[0].id) is not None                      # used: so the second one goes
    cache(store, 'refs/heads/main', 'k3', b'x' * 300)
    assert sorted(one.key for one in store.list('octo/hello')) == ['k0', 'k2', 'k3'] and len(files_below(store.folder)) == 3
    upload_ = store.begin('octo/hello', 'refs/heads/main', 'too big', 'v')
    assert upload_ is not None
    with pytest.raises(CacheError, match='1000 bytes'):
        upload_.write(b'x' * 1001)
    database.flushed()
    later = caches(database)
    assert later.list('octo/hello') == store.list('octo/hello')
    assert later.expire(9 * DAY + 1) == 1                          # not used for 7 days: k2
    assert sorted(one.key for one in later.list('octo/hello')) == ['k0', 'k3']


def test_a_cache_whose_file_is_gone_is_none(database: Database) -> None:
    store = caches(database)
    made = cache(store, 'refs/heads/main', 'k')
    files_below(store.folder)[0].unlink()
    assert store.find('octo/hello', ['refs/heads/main'], 'k', [], 'v') is None and store.open(made.id) is None
    assert cache(store, 'refs/heads/main', 'k').id != made.id


def test_refused_events_are_listed_newest_first(database: Database) -> None:
    store = RefusedStore(database)
    made = [store.add(1000 + number, 'octo/hello' if number % 2 else 'octo/other', 'push', f'd{number}', 'ci.yml', 'refs/heads/main', None, 26, 7,
                      '<b>' + 'x' * 9000, 'write it so') for number in range(6)]
    assert [one.delivery for one in store.list()] == ['d5', 'd4', 'd3', 'd2', 'd1', 'd0'] and len(made[0].words) == 4000
    assert [one.delivery for one in store.list('Octo/Hello', limit=2)] == ['d5', 'd3']
    assert [one.delivery for one in store.list('octo/hello', before=made[3].id)] == ['d1']
    database.flushed()
    later = RefusedStore(database)
    assert later.list() == store.list()
    later.add(2000, 'octo/hello', 'push', 'd6', None, None, None, None, None, 'x')
    assert [one.delivery for one in later.list(limit=2)] == ['d6', 'd5']
    later.expire(1003)
    database.flushed()
    assert [one.delivery for one in later.list()] == ['d6', 'd5', 'd4', 'd3']


def test_notes_are_values_by_kind_and_name(database: Database) -> None:
    store = NoteStore(database)
    store.set(1, 1, 'output', 'a', {'x': ['<b>', None]})
    store.set(1, 2, 'output', 'a', 2)
    store.set(1, 1, 'approval', 'prod', True)
    assert store.get(1, 1, 'output', 'a') == {'x': ['<b>', None]} and store.get(1, 1, 'output', 'b') is None
    database.flushed()
    store.set(1, 1, 'output', 'b', 'x')
    assert store.list(1, 1, 'output') == {'a': {'x': ['<b>', None]}, 'b': 'x'} == NoteStore(database).list(1, 1, 'output') | {'b': 'x'}
    store.set(1, 1, 'output', 'a', None)
    assert store.list(1, 1, 'output') == {'b': 'x'} and store.get(1, 1, 'output', 'a') is None
    with pytest.raises(NoteError):
        store.set(1, 1, 'output', 'big', 'x' * (1 << 21))
    store.drop(1)
    database.flushed()
    assert store.list(1, 1, 'output') == {} and store.get(1, 2, 'output', 'a') is None


def test_what_is_too_old_goes_together(tmp_path: pathlib.Path) -> None:
    hub = make_hub(config_of({'hub': {'folder': str(tmp_path)}, 'retention': {'logs_days': 10, 'artifacts_days': 20}}))
    hub.database.open()
    hub.logs.append(1, 1, 'a', 0, 1, 0, b'x\n')
    hub.logs.append(2, 1, 'a', 0, 2, 0, b'x\n')
    kept = upload(hub.artifacts, 1, 1, 'a', b'x')
    hub.refused.add(now(), 'octo/hello', 'push', 'd', None, None, None, None, None, 'x')
    retention = Retention(hub)
    retention.expire(now() + 9 * DAY, set())
    assert hub.logs.read(1, 1, 'a', 0, 1) == b'x\n' and len(hub.refused.list()) == 1
    retention.expire(now() + 11 * DAY, {2})
    hub.database.flushed()
    assert hub.logs.read(1, 1, 'a', 0, 1) == b'' and hub.logs.read(2, 1, 'a', 0, 2) == b'x\n' and hub.refused.list() == []
    assert hub.artifacts.open(kept.id) is not None
    retention.expire(now() + 21 * DAY, {2})
    assert hub.artifacts.open(kept.id) is None
    hub.database.close()
