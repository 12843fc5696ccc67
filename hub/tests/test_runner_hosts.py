"""Cases of two hosts whose runners have one name, and of a service whose file is restored."""
from __future__ import annotations

import os
import shutil
import time

from runner_trials import HELD, NOTED, TAGGED, Case, Host, is_first_claim, until


def _deploy(case: Case, count: int = 3) -> list[str]:
    """Runs of one concurrency group, whose steps note their runs. Gives what is noted if each runs once, and none beside another."""
    for run in range(1, count + 1):
        case.post(TAGGED.format(f'"$GITHUB_RUN_ID"', 0.7), concurrency=f'prod-{run % 2}')
    return sorted(f'{run} {when}' for run in range(1, count + 1) for when in ('began', 'ended'))


def test_two_hosts(case: Case) -> None:
    """Two hosts have runners of one name, which wait for a leg. Each has a folder of its own."""
    hosts = [case.another().start(pause=0.2), case.another().start(pause=0.2)]
    time.sleep(1.5)
    wanted = _deploy(case)
    until(lambda: sum(map(len, (host.said() for host in hosts))) >= 3)
    assert sorted(case.noted()) == wanted, f'{case.noted()}: {[host.complained() for host in hosts]}'
    for run in (1, 2, 3):
        case.completed('success', run)


def _is_refused(host: Host, words: str) -> None:
    until(host.has_ended)
    assert host.process.returncode == 1 and words in host.complained(), f'{host.process.returncode}: {host.said()} {host.complained()}'


def test_its_folder_is_copied(case: Case) -> None:
    """The copy is noticed before a line is sent."""
    first = case.another().start()
    until(first.has_ended)
    shutil.copytree(first.folder, os.path.join(os.path.dirname(case.folder), 'copied'))
    second = case.another(folder='copied')
    wanted = _deploy(case)
    first.start(pause=0.2)
    second.start(pause=0.2)
    _is_refused(second, 'its folder is a copy')
    until(lambda: len(case.noted()) >= len(wanted))
    time.sleep(1)
    assert sorted(case.noted()) == wanted, case.noted()


def test_its_folder_is_copied_at_work(case: Case) -> None:
    """With --take-over the copy goes on under the name, but never with the leg of the first."""
    case.post('echo 1 began >> "$NOTES"; until [ -e "$NOTES.go" ]; do sleep 0.1; done; echo 1 ended >> "$NOTES"')
    first = case.another().start()
    until(case.noted)
    shutil.copytree(first.folder, os.path.join(os.path.dirname(case.folder), 'copied'))
    second = case.another(folder='copied').start('--take-over')
    _is_refused(second, 'report it lost')
    open(case.notes + '.go', 'w').close()
    until(first.has_ended)
    case.completed('success')
    assert case.noted() == ['1 began', '1 ended'], case.noted()


def test_one_exact_name(case: Case) -> None:
    """The second one ends: the service knows the name already, or a claim that it did not send."""
    wanted = _deploy(case)
    hosts = [case.another().start('--exact-name', pause=0.2), case.another().start('--exact-name', pause=0.2)]
    until(lambda: any(host.has_ended() for host in hosts))
    until(lambda: len(case.noted()) >= len(wanted))
    time.sleep(1)
    assert sorted(case.noted()) == wanted, case.noted()
    ended = [host.complained() for host in hosts if host.has_ended()]
    assert len(ended) == 1 and 'add --take-over' in ended[0], ended
    assert all('its name is used as it is (--exact-name): no other host may use it' in host.complained() for host in hosts), 'there is no warning'


def test_exact_name_is_known(case: Case) -> None:
    case.another().start('--exact-name')
    until(case.others[0].has_ended)
    second = case.another().start('--exact-name')
    _is_refused(second, 'add --take-over')
    case.post(NOTED.format(0))
    second.start('--exact-name', '--take-over')
    until(second.has_ended)
    case.completed('success')


def _restored(case: Case, copy: str, step: str, result: str = 'success') -> None:
    """Goes back to a copy in which nothing was admitted, and admits another event, whose run, lease and numbers are those of the first again. The
    runner has to run it, and to report what its own steps came to."""
    case.between.before = case.between.behind = None
    case.service.restore(copy)
    assert case.post(step) == 1
    if case.has_ended():
        case.start(beat=1)
    until(lambda: any(line.endswith('nothing') for line in case.said()) or case.has_ended())
    assert case.said()[-2:] == [f'r1: run 1 build 0 {result}: ok', 'r1: nothing'], f'{case.said()}: {case.complained()}'
    case.completed(result)


def test_restored_before_its_report(case: Case, second: str = 'two') -> None:
    copy = case.service.copy()
    case.post(TAGGED.format('one', 0))
    case.between.before = lambda line: line.startswith('DONE') and case.kill()
    case.start()
    until(case.has_ended)
    _restored(case, copy, TAGGED.format(second, 0))
    assert case.noted() == ['one began', 'one ended', f'{second} began', f'{second} ended'], case.noted()


def test_restored_before_its_report_and_the_same_again(case: Case) -> None:
    """The second event has the same body, byte by byte."""
    test_restored_before_its_report(case, 'one')


def test_restored_while_it_is_away(case: Case) -> None:
    """The runner is killed while its steps run, and they end well: so the last line that it kept is its claim, which fits the restored service."""
    copy = case.service.copy()
    case.post(HELD)
    case.start()
    until(case.noted)
    case.kill()
    case.go_on()
    until(lambda: len(case.noted()) == 2)
    time.sleep(0.5)
    _restored(case, copy, TAGGED.format('two', 0))
    assert case.noted() == ['began', 'ended', 'two began', 'two ended'], case.noted()


def test_restored_while_its_steps_run(case: Case) -> None:
    """They are ended, since nobody knows of their lease."""
    copy = case.service.copy()
    case.post(TAGGED.format('one', 30))
    case.start(beat=1)
    until(case.noted)
    _restored(case, copy, TAGGED.format('two', 0))
    assert case.noted() == ['one began', 'two began', 'two ended'], case.noted()


def test_restored_to_its_steps(case: Case) -> None:
    """The copy has the lease, of which the runner has forgotten how it ended: a failure."""
    case.post(HELD)
    case.start(beat=1)
    until(case.noted)
    copy = case.service.copy()
    case.go_on()
    case.says('r1: run 1 build 0 success: ok', 'r1: nothing')
    case.process.wait()
    case.service.restore(copy)
    case.start(beat=1)
    case.says('r1: run 1 build 0 success: ok', 'r1: nothing', 'r1: run 1 build 0 failure: ok', 'r1: nothing')
    case.completed('failure')
    assert case.noted() == ['began', 'ended'], case.noted()


def test_restored_twice(case: Case, at: str = 'DONE') -> None:
    """First to before the event, so that another one gets its numbers, and then to a copy in which the runner has the lease of the first. Each of
    the two was claimed by a line of the runner's; only the second one's steps have ended well."""
    empty = case.service.copy()
    case.post(TAGGED.format('one', 30))
    if at == 'DONE':
        case.start()
        until(case.noted)
        case.kill_all()
    else:  # the answer to the claim is lost, so the same line is sent again after the restore
        case.between.behind = lambda line, _: is_first_claim(line) and case.kill()
        case.start()
        until(case.has_ended)
    halfway = case.service.copy()
    case.between.behind, case.between.before = None, lambda line: line.startswith('DONE') and case.kill()
    case.service.restore(empty)
    case.post(TAGGED.format('two', 0))
    case.start()
    until(case.has_ended)
    case.between.before = None
    case.service.restore(halfway)
    case.start()
    until(lambda: any(line.endswith('nothing') for line in case.said()) or case.has_ended())
    case.completed('failure')
    assert case.said() == ['r1: run 1 build 0 failure: ok', 'r1: nothing'] and 'one ended' not in case.noted(), f'{case.said()} {case.noted()}'


def test_restored_twice_around_a_claim(case: Case) -> None:
    test_restored_twice(case, at='CLAIM')


def test_restored_around_a_claim_without_an_answer(case: Case) -> None:
    """The runner sent a claim, and never saw its answer; after two restores that claim is the last one of this name, past all that it knows of."""
    empty = case.service.copy()
    case.start()
    until(case.has_ended)
    case.post(NOTED.format(0))
    case.between.behind = lambda line, answer: answer.startswith('lease') and case.kill()
    case.start()
    until(case.has_ended)
    claimed = case.service.copy()
    case.service.restore(empty)
    case.between.behind = lambda line, answer: is_first_claim(line) and case.kill()
    case.start()
    until(case.has_ended)
    case.between.behind = None
    case.service.restore(claimed)
    case.start()
    until(lambda: case.said()[1:] or case.has_ended())
    until(case.has_ended)
    case.completed('failure')
