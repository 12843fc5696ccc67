"""Cases of a runner and its lines: what it says, and what its next life does when it was killed."""
from __future__ import annotations

import os
import shutil
import time
from typing import Any

from acts_runner.files import Slots
from runner_trials import HELD, NOTED, Case, is_first_claim, until


def test_first_poll_finds_nothing(case: Case) -> None:
    case.start()
    case.says('r1: nothing')
    case.post('echo hello')
    case.start()
    case.says('r1: nothing', 'hello', 'r1: run 1 build 0 success: ok', 'r1: nothing')
    case.completed('success')


def test_polls_with_pauses(case: Case) -> None:
    began = time.monotonic()
    case.start(pause=2)
    until(lambda: sum(line.startswith('CLAIM') for line in case.between.lines) == 2)
    case.post(NOTED.format(0))
    case.says('r1: run 1 build 0 success: ok')
    claims = len({line for line in case.between.lines if line.startswith('CLAIM')})
    assert claims <= 4 + (time.monotonic() - began) / 2, f'{claims} claims'


def test_beats_are_few(case: Case) -> None:
    case.post(NOTED.format(4))
    case.start()
    case.says('r1: run 1 build 0 success: ok', 'r1: nothing')
    beats = sum(line.startswith('BEAT') for line in case.between.lines)
    assert beats <= 2, f'{beats} beats in four seconds, so that 1,024 lines end a session in {4096 // beats} seconds'


def test_service_is_restarted(case: Case) -> None:
    case.post(NOTED.format(3))
    case.start(beat=1)
    until(case.noted)
    case.service.kill()
    time.sleep(1.5)
    case.service.start()
    case.says('r1: run 1 build 0 success: ok', 'r1: nothing')
    case.completed('success')
    assert case.noted() == ['began', 'ended'], case.noted()


def test_streams_are_cut(case: Case) -> None:
    """The first answer to each numbered line, and to each FETCH, is lost."""
    seen: set[str] = set()
    case.between.behind = lambda line, _: not (line in seen or seen.add(line))
    case.post(NOTED.format(0))
    case.start()
    case.says('r1: run 1 build 0 success: ok', 'r1: nothing')
    case.completed('success')
    assert case.noted() == ['began', 'ended'], case.noted()


def _killed(case: Case, result: str = 'success', notes: tuple[str, ...] = ('began', 'ended')) -> None:
    """What has to happen after the runner was killed and is started again: the leg is reported once."""
    until(case.has_ended)
    case.between.before = case.between.behind = None
    case.start()
    until(lambda: any(line.endswith('nothing') for line in case.said()) or case.has_ended())
    said = case.said()
    assert said == [f'r1: run 1 build 0 {result}: ok', 'r1: nothing'], f'it said {said}: {case.complained()}'
    case.completed(result)
    assert case.noted() == list(notes), case.noted()


def test_killed_at_work(case: Case) -> None:
    """The number of its lease is 3, so that CLAIM 1 does not get it again."""
    case.post(NOTED.format(0))
    case.start()
    case.says('r1: run 1 build 0 success: ok', 'r1: nothing')
    case.post(HELD)
    case.start()
    until(lambda: len(case.noted()) == 3)
    case.kill()
    case.go_on()
    case.start()
    case.says('r1: run 1 build 0 success: ok', 'r1: nothing', 'r1: run 2 build 0 success: ok', 'r1: nothing')
    case.completed('success', run=2)
    assert case.noted() == ['began', 'ended'] * 2, case.noted()


def test_killed_before_its_claim(case: Case) -> None:
    case.between.before = lambda line: is_first_claim(line) and case.kill()
    case.post(NOTED.format(0))
    case.start()
    _killed(case)


def _kill_before_the_steps_begin(case: Case, seconds: int) -> None:
    """The process that runs the steps begins late, and the runner is killed before."""
    late = os.path.join(case.folder, 'late')
    os.mkdir(late)
    with open(os.path.join(late, 'sitecustomize.py'), 'w') as file:
        file.write('if open("/proc/self/cmdline").read().endswith("\\0--leg\\0"):\n'
                   f'    import time\n    open("{case.folder}/called", "w")\n    time.sleep(2)\n')
    case.post(NOTED.format(seconds))
    case.start(PYTHONPATH=late)
    until(lambda: os.path.exists(os.path.join(case.folder, 'called')))
    case.kill()


def test_killed_before_the_steps_begin(case: Case) -> None:
    """The next life must not start the steps again."""
    _kill_before_the_steps_begin(case, 0)
    _killed(case)
    time.sleep(3)
    assert case.noted() == ['began', 'ended'], case.noted()


def test_cancelled_before_the_steps_begin(case: Case) -> None:
    """They may begin, but nothing of them is left after the report."""
    _kill_before_the_steps_begin(case, 30)
    case.service.ask('POST', '/runs/1/cancel')
    case.start()
    case.says('r1: run 1 build 0 cancelled: ok', 'r1: nothing')
    case.process.wait()
    count = len(case.noted())
    time.sleep(3)
    assert len(case.noted()) == count < 2 and not case.left(), f'{case.noted()}, and {case.left()} are left'


def test_killed_after_its_claim(case: Case) -> None:
    case.between.behind = lambda _, answer: answer.startswith('lease') and case.kill()
    case.post(NOTED.format(0))
    case.start()
    _killed(case)


def test_killed_before_its_report(case: Case) -> None:
    case.between.before = lambda line: line.startswith('DONE') and case.kill()
    case.post(NOTED.format(0))
    case.start()
    _killed(case)


def test_killed_after_its_report(case: Case) -> None:
    case.between.behind = lambda line, _: line.startswith('DONE') and case.kill()
    case.post(NOTED.format(0))
    case.start()
    _killed(case)


def test_killed_with_its_steps(case: Case) -> None:
    """As by a crash of the machine: the steps are not run again, since they may have done anything."""
    case.post(NOTED.format(30))
    case.start()
    until(case.noted)
    case.kill_all()
    _killed(case, 'failure', ('began',))


def test_killed_and_its_folder_lost(case: Case) -> None:
    """Its next life has another name. The lease of the first stays with it until it is reported lost, and the steps are not run again."""
    case.post(NOTED.format(0))
    case.between.behind = lambda _, answer: answer.startswith('lease') and case.kill()
    case.start()
    until(case.has_ended)
    shutil.rmtree(os.path.join(case.folder, 'state'), ignore_errors=True)
    case.between.behind = None
    name = case.between.lines[0].split()[1]
    case.start()
    case.says('r1: nothing')
    case.process.wait()
    assert case.service.ask('POST', f'/runners/{name}/lost') == 'ok'
    case.completed('failure')
    assert case.noted() == [], case.noted()


def test_lease_is_taken_away(case: Case) -> None:
    """The steps are ended, and nothing is reported. A shell that outlives its child by a moment says so on standard error."""
    case.post('exec 2> /dev/null; ' + NOTED.format(50))
    case.start(beat=1)
    until(case.noted)
    assert case.service.ask('POST', f'/runners/{case.between.lines[0].split()[1]}/lost') == 'ok'
    case.says('r1: nothing')
    case.process.wait()
    assert case.noted() == ['began'] and not case.left(), f'{case.noted()}, and {case.left()} are left'
    case.completed('failure')


def test_left_running(case: Case) -> None:
    """A step ends well and leaves something running, which ends before the report, whatever it did to hide."""
    hidden = case.notes + '.hidden'
    case.post(f'sleep 60 & (env -i setsid sh -c "while :; do date +%s.%N > {hidden}; sleep 0.1; done" &) ; sleep 1; echo began >> "$NOTES"')
    case.start()
    case.says('r1: run 1 build 0 success: ok', 'r1: nothing')
    case.process.wait()
    assert case.noted() == ['began'] and not case.left(), f'{case.noted()}, and {case.left()} are left'
    with open(hidden) as file:
        last = file.read()
    time.sleep(1)
    with open(hidden) as file:
        assert file.read() == last, 'what hid goes on'


def test_killed_before_its_claim_with_the_machine(case: Case) -> None:
    """Another life of the machine, or a clone of it, may have got the answer: the leg is not begun."""
    case.between.before = lambda line: is_first_claim(line) and case.kill()
    case.post(NOTED.format(0))
    case.start()
    until(case.has_ended)
    slots = Slots(os.path.join(case.home(), 'state'))
    slots.write({**slots.read(), 'present': 'another life'})
    _killed(case, 'failure', ())
