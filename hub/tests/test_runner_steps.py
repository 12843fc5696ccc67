"""Cases of the steps of a leg: what they are given, what is refused, how they end, and what is left of them."""
from __future__ import annotations

import contextlib
import json
import os
import signal
import subprocess
import time
from typing import Any, Iterator

from harness import free_ports
from runner_trials import ENGINE, HELD, ROOT, Case, lines_of, mirror, until

NEVER = {'run': 'echo never >> "$NOTES"'}
TOOL = 'mkdir -p tools; printf "#!/bin/sh\\necho tool \\$1" > tools/mine; chmod +x tools/mine; echo "$PWD/tools" >> "$GITHUB_PATH"'


def note(words: str, **more: Any) -> dict[str, Any]:
    return {'run': f'echo {words} >> "$NOTES"', **more}


def _run(case: Case, steps: list[dict[str, Any]], result: str, *words: str, wanted: tuple[str, ...] | list[str] = (), **job: Any) -> None:
    """Runs a job of these steps, and compares what is noted."""
    case.post('', steps=steps, **job)
    case.start(*words)
    until(case.has_ended)
    assert case.noted() == list(wanted), f'{case.noted()}: {case.said()} {case.complained()}'
    assert case.said()[-2:] == [f'r1: run 1 build 0 {result}: ok', 'r1: nothing'], f'{case.said()} {case.complained()}'
    case.completed(result)


def _patched(case: Case, lines: list[str], of: str = '--leg') -> str:
    """A folder for PYTHONPATH with which the process of the steps, or another one, carries out these lines before it begins."""
    folder = os.path.join(case.folder, 'patched')
    os.mkdir(folder)
    with open(os.path.join(folder, 'sitecustomize.py'), 'w') as file:
        file.write(f'import sys\nsys.path.insert(0, {ROOT!r})\nif open("/proc/self/cmdline").read().endswith("\\0{of}\\0"):\n')
        file.writelines(f'    {line}\n' for line in lines)
    return folder


def _programs(case: Case, texts: dict[str, str]) -> str:
    """A PATH that begins with a folder of these programs."""
    folder = os.path.join(case.folder, 'bin')
    os.makedirs(folder)
    for name, text in texts.items():
        with open(os.path.join(folder, name), 'w', opener=lambda path, flags: os.open(path, flags, 0o755)) as file:
            file.write(text)
    return folder + ':' + os.environ['PATH']


# What steps are given.


def test_ran_as_github_does(case: Case) -> None:
    names = '"$COMBO" "$MATRIX_OS" "$MATRIX_NODE_VERSION" "$GITHUB_REPOSITORY" "$GITHUB_RUN_ID" "$GITHUB_JOB" "$A" "$B" "$C"'
    steps = [{'run': f'mkdir -p deep; printf "%s|" {names} >> "$NOTES"', 'env': {'C': 'step'}},
             {'run': 'echo "${PWD##*/}${BASH_VERSION:+ bash}" >> "$NOTES"', 'working-directory': 'deep', 'shell': 'bash'},
             {'run': 'exit 3'}, NEVER, {'name': 'of ${{ matrix.os }}', 'run': 'echo cleaned >> "$NOTES"', 'if': '${{ failure() }}', 'shell': 'sh'}]
    job = {'runs-on': 'linux', 'env': {'B': 2, 'C': 'job'}, 'strategy': {'matrix': {'os': ['linux'], 'node-version': [20]}}, 'steps': steps}
    case.service.post_run('d1', {'env': {'A': True, 'C': 'workflow'}, 'jobs': {'build': job}})
    case.start()
    case.says('r1: run 1 build 0 failure: ok', 'r1: nothing')
    wanted = ['{"node-version":20,"os":"linux"}|linux|20|octo/hello|1|build|true|2|step|deep bash', 'cleaned']
    assert case.noted() == wanted, case.noted()


def test_handed_from_step_to_step(case: Case) -> None:
    """Variables, folders of PATH, outputs of one line and of several, a summary; and none of GITHUB_* by GITHUB_ENV."""
    steps = [{'id': 'one', 'run': 'echo "A=from env" >> "$GITHUB_ENV"; echo "GITHUB_JOB=other" >> "$GITHUB_ENV"; echo "x=1" >> "$GITHUB_OUTPUT"\n'
                                  'printf "many<<E\\nfirst\\nsecond=2\\nE\\n" >> "$GITHUB_OUTPUT"; echo "# Done" >> "$GITHUB_STEP_SUMMARY"'},
             {'run': TOOL}, note('"$A" "$GITHUB_JOB" ${{ steps.one.outputs.x }} $(mine y) ${{ steps.one.outcome }}'),
             {'run': 'printf "%s\\n" "$MANY" >> "$NOTES"', 'env': {'MANY': '${{ steps.one.outputs.many }}'}},
             note('due', **{'if': "steps.one.outputs.x == '1' && env.A == 'from env'"}), {**NEVER, 'if': "steps.one.outputs.x == '2'"}]
    _run(case, steps, 'success', wanted=['from env build 1 tool y success', 'first', 'second=2', 'due'])
    with open(os.path.join(case.home(), 'logs', 'run-1-build-0-lease-1.summary.md')) as file:
        assert file.read() == '# Done\n'


def test_expressions_in_steps(case: Case) -> None:
    steps = [note("${{ github.repository }} ${{ matrix.os }} ${{ inputs.level }} ${{ vars.PLACE }} ${{ format('{0}-{1}', github.job, runner.os) }}"),
             note('${{ toJSON(matrix) }}'.replace('${{', '"${{').replace('}}', '}}"'), **{'if': 'false'}),
             {'run': 'pwd >> "$NOTES"', 'working-directory': '${{ matrix.os }}', 'continue-on-error': '${{ matrix.os == \'linux\' }}'},
             note('${{ job.status }} ${{ env.WHO }}', env={'WHO': '${{ matrix.os }}!'})]
    job = {'runs-on': 'linux', 'strategy': {'matrix': {'os': ['linux']}}, 'steps': steps}
    case.service.post_run('d1', {'jobs': {'build': job}}, inputs={'level': 3}, vars={'PLACE': 'here'})
    case.start()
    case.says('the step fails: there is no folder ' + os.path.join(case.home(), 'work', 'linux'), 'r1: run 1 build 0 success: ok', 'r1: nothing')
    assert case.noted() == ['octo/hello linux 3 here build-Linux', 'success linux!'], case.noted()


def test_checkout_from_a_url(case: Case) -> None:
    """The mirrors are at a URL, here of a git server of this machine."""
    sha, (port,) = mirror(case.folder, 'octo/hello', {'there': ''}), free_ports(1)
    server = subprocess.Popen(['git', 'daemon', '--listen=127.0.0.1', f'--port={port}', f'--base-path={case.folder}', '--export-all', '--reuseaddr'], start_new_session=True,
                              stderr=subprocess.DEVNULL)
    try:
        until(lambda: not subprocess.run(['git', 'ls-remote', f'git://127.0.0.1:{port}/octo/hello.git'], capture_output=True, check=False).returncode)
        job = {'runs-on': 'linux', 'steps': [{'uses': 'actions/checkout@v4'}, note('$(git rev-parse HEAD) there*')]}
        case.service.post_run('d1', {'jobs': {'build': job}}, github={'sha': sha, 'ref': 'refs/heads/main'})
        case.start('--mirrors', f'git://127.0.0.1:{port}')
        until(case.has_ended)
        assert case.noted() == [f'{sha} there'], f'{case.noted()} {case.said()}'
    finally:
        os.killpg(server.pid, signal.SIGKILL)
        server.wait()


def test_outputs_of_jobs(case: Case) -> None:
    """Handed on by the folder of artifacts; the run's number and attempt are asked at the hook port. A second attempt does not see the first one's."""
    first = {'runs-on': 'linux', 'outputs': {'version': '${{ steps.v.outputs.v }}-${{ github.run_attempt }}'},
             'steps': [{'id': 'v', 'run': 'echo v=1.${{ github.run_number }} >> "$GITHUB_OUTPUT"'}]}
    second = {'runs-on': 'linux', 'needs': ['build'], 'if': 'always()', 'steps': [note('${{ needs.build.outputs.version }} ${{ needs.build.result }}')]}
    options = '--artifacts', os.path.join(case.folder, 'artifacts'), '--look', f'127.0.0.1:{case.service.hook}'
    case.service.post_run('d1', {'jobs': {'build': first, 'deploy': second}})
    case.start(*options)
    until(case.has_ended)
    assert case.service.ask('POST', '/runs/1/attempts/2') == 'again 1 2'
    case.start(*options)
    until(case.has_ended)
    assert case.noted() == ['1.1-1 success', '1.1-2 success'], f'{case.noted()} {case.said()}'


def test_other_shells_and_defaults(case: Case) -> None:
    steps = [{'run': 'import os; print("python", os.path.basename(os.getcwd()), file=open(os.environ["NOTES"], "a"))', 'shell': 'python'},
             note('"$0" | sed "s,.*/,,"'), {'run': 'false | true; echo on >> "$NOTES"', 'shell': 'sh'}, {'run': 'false | true\necho never >> "$NOTES"'}]
    case.post('', steps=[{'run': 'mkdir deep', 'working-directory': '.'}, *steps], defaults={'run': {'working-directory': 'deep', 'shell': 'bash'}})
    case.start()
    case.says('r1: run 1 build 0 failure: ok', 'r1: nothing')
    assert case.noted() == ['python deep', 'script.sh', 'on'], case.noted()


def test_secrets_are_masked(case: Case) -> None:
    """In the log and in what the runner prints: secrets, their lines, and what a step masks."""
    path = os.path.join(case.folder, 'secrets')
    with open(path, 'w', opener=lambda name, flags: os.open(name, flags, 0o600)) as file:
        json.dump({'TOKEN': 'hush-hush', 'KEY': 'line one\nline two'}, file)
    steps = [{'run': 'echo "has $T"; echo "$K"; echo "::add-mask::fo${N}und"; echo "it fo${N}und 1"; [ "$T" = hush-hush ]',
              'env': {'T': '${{ secrets.TOKEN }}', 'K': '${{ secrets.KEY }}'}},
             {'run': 'echo "${{ secrets.NONE }}|${{ secrets.TOKEN }}"'}]
    _run(case, steps, 'success', '--secrets', path)
    with open(os.path.join(case.home(), 'logs', 'run-1-build-0-lease-1.log')) as file:
        log = file.read()
    for text in (log, '\n'.join(case.said()), case.complained()):
        assert not any(secret in text for secret in ('hush-hush', 'line one', 'line two', 'found')), text
    assert case.said()[:5] == ['has ***', '***', '***', 'it *** 1', '|***'], case.said()


def test_pull_requests_of_forks_get_no_secrets(case: Case) -> None:
    path = os.path.join(case.folder, 'secrets')
    with open(path, 'w', opener=lambda name, flags: os.open(name, flags, 0o600)) as file:
        file.write('{"TOKEN": "hush"}')
    workflow = {'jobs': {'build': {'runs-on': 'linux', 'steps': [note('"has ${{ secrets.TOKEN }}"')]}}}
    for number, source in enumerate(('octo/hello', 'other/hello', None)):
        event = {'pull_request': {'head': {'repo': {'full_name': source}}}} if source else {}
        case.service.post_run(f'd{number}', workflow, github={'event_name': 'pull_request', 'event': event})
    case.start('--secrets', path)
    until(case.has_ended)
    assert case.noted() == ['has hush', 'has ', 'has '], case.noted()


def test_secrets_that_a_call_requires(case: Case) -> None:
    """Page "Reuse workflows": what is required has to be among the secrets that `inherit` passes on; those of an environment are not."""
    path = os.path.join(case.folder, 'secrets')
    with open(path, 'w', opener=lambda path, flags: os.open(path, flags, 0o600)) as file:
        json.dump({'Token': 'hush', 'environments': {'live': {'MORE': 'of it'}}}, file)
    required = {'required-secrets': ['token', 'MORE']}
    _run(case, [NEVER], 'failure', '--secrets', path, '--environment', 'live', environment='live', **required)
    refused = [line for line in case.log() if 'requires the secret' in line]
    assert refused == ['not run: jobs.build: the called workflow requires the secret MORE, which this runner does not have'], case.log()
    required['required-secrets'].pop()
    case.post('', steps=[note('"has ${{ secrets.TOKEN }}"')], **required)
    case.start('--secrets', path)
    until(case.has_ended)
    assert case.noted() == ['has hush'] and case.said()[-2:] == ['r1: run 2 build 0 success: ok', 'r1: nothing'], case.complained()


def test_others_may_not_read_secrets(case: Case) -> None:
    path = os.path.join(case.folder, 'secrets')
    with open(path, 'w') as file:
        file.write('{}')
    os.chmod(path, 0o644)
    _run(case, [NEVER], 'failure', '--secrets', path)


def test_in_a_container(case: Case) -> None:
    """With docker or podman itself, and an image with a shell, if TRY_IMAGE names one; else with a stand-in. A cancel reaches what runs in it."""
    image = os.environ.get('TRY_IMAGE')
    path = os.environ['PATH'] if image else _programs(case, {'docker': ENGINE})
    steps = [note('inside ${HOME_OF_HOST:-} $A $B $(pwd | sed s,.*/,,) ${0##*/}', env={'B': 'two words'}),
             {'run': TOOL + '; echo x=1 >> "$GITHUB_OUTPUT"', 'id': 'x'},
             {'run': 'echo "$(mine y) ${{ steps.x.outputs.x }}" >> "$NOTES"\ntrap \'echo int >> "$NOTES"; exit 1\' INT; while :; do sleep 0.1; done'},
             note('cleaned', **{'if': 'always()'})]
    folder = os.path.dirname(case.notes)
    container = {'image': image or 'tiny', 'env': {'A': 'of the container', 'NOTES': case.notes}, 'volumes': [f'{folder}:{folder}']}
    case.post('', steps=steps, env={'NOTES': case.notes}, container=container)
    case.start(beat=0.2, PATH=path, HOME_OF_HOST='seen')
    until(lambda: len(case.noted()) == 2 or case.has_ended())
    case.service.ask('POST', '/runs/1/cancel')
    case.says('r1: run 1 build 0 cancelled: ok', 'r1: nothing')
    given = '' if not image else 'of the container '
    assert case.noted() == [f'inside {given}two words work script.sh', 'tool y 1', 'int', 'cleaned'], case.noted()
    if not image:
        words = [line.split()[0] for line in lines_of(case.notes + '.engine')]
        assert words[:5] == ['version', 'version', 'network', 'create', 'start'] and words[-2:] == ['rm', 'network'], words


def test_by_act(case: Case) -> None:
    """A stand-in for act notes how it is called, and what it is to run."""
    act = ('#!/bin/sh\necho "act $1 $2 $4 $5 $6 ${10} in $(ls)" >> "$NOTES"\n'
           'jq -c "[.on, .jobs.build.strategy, .jobs.build.needs, (.jobs | keys)]" "$3" >> "$NOTES"\n')
    job = {'runs-on': 'linux', 'strategy': {'matrix': {'os': ['a', 'b']}}, 'steps': [NEVER]}
    case.service.post_run('d1', {'jobs': {'build': job, 'later': {**job, 'needs': 'build', 'if': 'cancelled()'}}})
    case.start('--act', '--act-option=--pull=false', PATH=_programs(case, {'act': act}))
    case.says('r1: run 1 build 0 success: ok', 'r1: run 1 build 1 success: ok', 'r1: nothing')
    calls = ['act push --workflows --job build --eventpath --pull=false in', '["push",{"matrix":{"os":["%s"]}},null,["build"]]']
    assert [line.strip() for line in case.noted()] == [calls[0], calls[1] % 'a', calls[0], calls[1] % 'b'], case.noted()


# What is refused before the first step.


def _refused(case: Case, words: str, steps: tuple[dict[str, Any], ...] | list[dict[str, Any]] = (), *options: str, **job: Any) -> None:
    _run(case, [NEVER, *steps], 'failure', *options, **job)
    assert any(line.startswith('not run: ') and words in line for line in case.said()), case.said()


def test_container_is_refused(case: Case) -> None:
    folder = _programs(case, {name: '#!/bin/sh\nexit 1\n' for name in ('docker', 'podman')})
    case.post('', steps=[NEVER], container='debian')
    case.start(PATH=folder)
    case.says('not run: jobs.build.container: neither docker nor podman answers here', 'r1: run 1 build 0 failure: ok', 'r1: nothing')
    assert case.noted() == [], case.noted()


def test_environment_is_refused(case: Case) -> None:
    _refused(case, 'jobs.build.environment: nobody has said by --environment that production', environment={'name': 'production'})


def test_environment_is_free(case: Case) -> None:
    _run(case, [note('deployed')], 'success', '--environment', 'staging', wanted=['deployed'], environment='staging')


def test_unknown_member_is_refused(case: Case) -> None:
    _refused(case, 'jobs.build.timeout-minute: this runner does not do it', **{'timeout-minute': 5})


def test_unknown_member_of_a_step_is_refused(case: Case) -> None:
    _refused(case, 'jobs.build.steps[1].when', [{'run': 'true', 'when': 'always'}])


def test_unknown_condition_is_refused(case: Case) -> None:
    _refused(case, 'jobs.build.steps[1].if: there is no function sometimes', [{'run': 'true', 'if': 'sometimes()'}])


def test_text_beside_a_condition_is_refused(case: Case) -> None:
    _refused(case, 'jobs.build.steps[1].if: text beside an expression', [{'run': 'true', 'if': "${{ github.ref }} == 'x'"}])


def test_unknown_context_is_refused(case: Case) -> None:
    _refused(case, 'the context jobs has no value here', [{'run': 'echo ${{ jobs.build.outputs.version }}'}])


def test_outputs_that_are_not_here_are_refused(case: Case) -> None:
    build = {'runs-on': 'linux', 'outputs': {'v': '1'}, 'steps': [{'run': 'true'}]}
    deploy = {'runs-on': 'linux', 'needs': 'build', 'steps': [NEVER, {'run': 'echo ${{ needs.build.outputs.v }}'}]}
    case.service.post_run('d1', {'jobs': {'build': build, 'deploy': deploy}})
    case.start()
    until(case.has_ended)
    said = case.said()
    assert said[1].startswith('not run: jobs.deploy.steps[1].run: the context needs has no value here') and said[2] == 'r1: run 1 deploy 0 failure: ok', said


def test_unknown_value_of_github_is_refused(case: Case) -> None:
    _refused(case, 'github.sha has no value here', [{'run': 'echo ${{ github.sha }}'}])


def test_later_uses_is_refused(case: Case) -> None:
    _refused(case, 'jobs.build.steps[2].uses: there is no mirror of it', [{'run': 'true'}, {'uses': 'octo/unknown@v1'}])


def test_checkout_without_mirrors_is_refused(case: Case) -> None:
    _refused(case, '--mirrors is not given', [{'uses': 'actions/checkout@v4'}])


def test_unknown_shell_is_refused(case: Case) -> None:
    _refused(case, 'the shell nosuchshell is not installed', [{'run': 'true', 'shell': 'nosuchshell {0}'}])


def test_steps_that_are_none_are_refused(case: Case) -> None:
    case.post('', steps=[])
    case.start()
    case.says('not run: jobs.build.steps: there are none', 'r1: run 1 build 0 failure: ok', 'r1: nothing')


# How steps end.


def test_later_steps_run_after_a_fault(case: Case) -> None:
    """A fault of a step is a failure of the step, and the steps that clean up run."""
    steps = [note('effect'), {'run': 'true', 'working-directory': 'nowhere'}, NEVER, note('undone', **{'if': 'failure()'}), note('last', **{'if': 'always()'})]
    _run(case, steps, 'failure', wanted=['effect', 'undone', 'last'])


STUBBORN = '''trap 'echo "INT $(date +%s.%N)" >> "$NOTES"' INT; trap 'echo "TERM $(date +%s.%N)" >> "$NOTES"' TERM
echo "began" >> "$NOTES"; (trap '' INT TERM; while :; do echo "$(date +%s.%N)" >> "$NOTES.child"; sleep 0.1; done) &
while :; do sleep 0.1; done'''


def test_cancelled_by_three_signals(case: Case) -> None:
    """INT at once, TERM after 7.5 seconds, and 2.5 seconds later the rest is killed; then the steps that clean up run, and no others."""
    steps = [{'run': STUBBORN}, NEVER, {**NEVER, 'if': 'failure()'}, note('always', **{'if': 'always()'}),
             note('cancelled ${{ job.status }}', **{'if': 'cancelled()'})]
    case.post('', steps=steps)
    case.start(beat=0.2)
    until(case.noted)
    began = time.time()
    case.service.ask('POST', '/runs/1/cancel')
    until(lambda: 'always' in case.noted())
    ended = time.time() - began
    case.says('r1: run 1 build 0 cancelled: ok', 'r1: nothing')
    case.completed('cancelled')
    words = [line.split()[0] for line in case.noted()]
    assert words == ['began', 'INT', 'TERM', 'always', 'cancelled'] and case.noted()[-1] == 'cancelled cancelled', case.noted()
    int_at, term_at = (float(line.split()[1]) - began for line in case.noted()[1:3])
    with open(case.notes + '.child') as file:
        last = float(file.read().split('\n')[-2]) - began          # (the last one that is whole)
    assert 6.5 < term_at - int_at and 9 < last - int_at and last < ended, f'INT {int_at}, TERM {term_at}, the child {last}, {ended}'


def test_cancelled_step_that_ends_by_itself(case: Case) -> None:
    """It gets no second signal."""
    traps = 'trap \'echo int >> "$NOTES"; exit 0\' INT; trap \'echo term >> "$NOTES"\' TERM'
    case.post('', steps=[{'run': traps + '; echo began >> "$NOTES"; while :; do sleep 0.1; done'}])
    case.start(beat=0.2)
    until(case.noted)
    case.service.ask('POST', '/runs/1/cancel')
    case.says('r1: run 1 build 0 cancelled: ok', 'r1: nothing')
    assert case.noted() == ['began', 'int'], case.noted()


def test_cleanup_is_not_cut(case: Case) -> None:
    """A step that runs after a cancel, too, goes on when the cancel comes."""
    steps = [{'run': 'echo began >> "$NOTES"; sleep 3; echo ended >> "$NOTES"', 'if': 'always()'}, NEVER]
    case.post('', steps=steps)
    case.start(beat=0.2)
    until(case.noted)
    case.service.ask('POST', '/runs/1/cancel')
    case.says('r1: run 1 build 0 cancelled: ok', 'r1: nothing')
    assert case.noted() == ['began', 'ended'], case.noted()


def test_cleanup_has_a_limit(case: Case) -> None:
    """Of five minutes, here of three seconds."""
    steps = [{'run': 'echo began >> "$NOTES"; sleep 600'}, {'run': 'echo cleans >> "$NOTES"; sleep 600; echo cleaned >> "$NOTES"', 'if': 'always()'},
             {**NEVER, 'if': 'always()'}]
    case.post('', steps=steps)
    case.start(beat=0.2, PYTHONPATH=_patched(case, ['from acts_runner import steps', 'steps.SECONDS_OF_CLEANUP = 12']))
    until(case.noted)
    case.service.ask('POST', '/runs/1/cancel')
    case.says('r1: run 1 build 0 cancelled: ok', 'r1: nothing')
    case.process.wait()
    assert case.noted() == ['began', 'cleans'] and not case.left(), f'{case.noted()}, and {case.left()} are left'


def test_timeout_of_a_step(case: Case) -> None:
    steps = [{'run': 'echo began >> "$NOTES"; exec sleep 600', 'timeout-minutes': 0.1}, NEVER, note('undone', **{'if': 'failure()'})]
    _run(case, steps, 'failure', wanted=['began', 'undone'])


def test_timeout_of_a_job(case: Case) -> None:
    steps = [{'run': 'echo began >> "$NOTES"; exec sleep 60'}, NEVER, note('undone ${{ job.status }}', **{'if': 'always()'})]
    _run(case, steps, 'cancelled', wanted=['began', 'undone cancelled'], **{'timeout-minutes': 0.15})


def test_left_running_between_steps(case: Case) -> None:
    """What a step leaves running is there for the next ones, and ends before the report."""
    steps = [{'run': '(while :; do date +%s > "$NOTES.on"; sleep 0.1; done) & echo $! > server'},
             {'run': 'sleep 0.5; kill -0 "$(cat server)" && echo there >> "$NOTES"'}]
    _run(case, steps, 'success', wanted=['there'])
    assert not case.left(), case.left()


def test_drains_on_term(case: Case) -> None:
    """It finishes its leg, and claims no other."""
    case.post(HELD)
    case.post('', steps=[NEVER])
    case.start(pause=1)
    until(case.noted)
    case.process.send_signal(signal.SIGTERM)
    until(lambda: 'ends when its leg has ended' in case.complained())
    case.go_on()
    case.process.wait()
    assert case.process.returncode == 0 and case.said() == ['r1: run 1 build 0 success: ok'] and case.noted() == ['began', 'ended'], case.said()


def test_ends_on_the_second_term(case: Case) -> None:
    """Its steps go on, and its next life takes them up."""
    case.post(HELD)
    case.start(pause=1)
    until(case.noted)
    case.process.send_signal(signal.SIGTERM)
    until(lambda: 'ends when its leg has ended' in case.complained())
    case.process.send_signal(signal.SIGTERM)
    assert case.process.wait(180) != 0 and case.noted() == ['began'], case.noted()
    case.go_on()
    case.start()
    case.says('r1: run 1 build 0 success: ok', 'r1: nothing')
    assert case.noted() == ['began', 'ended'], case.noted()


# What is left of them.


def test_work_is_removed(case: Case) -> None:
    """Also folders that a step has made unwritable."""
    _run(case, [{'run': 'mkdir -p deep/er; echo x > deep/er/file; chmod 500 deep/er deep; echo left > "$RUNNER_TEMP/left"'}], 'success')
    left = sorted(os.listdir(case.home()))
    assert 'work' not in left and 'temp' not in left, left


def test_file_that_cannot_be_removed(case: Case) -> None:
    """It is moved aside with its folder, and the next leg has an empty one."""
    stuck = os.path.join(case.home(), 'work', 'stuck')
    case.post('touch stuck; chattr +i stuck || echo no > "$NOTES.no"')
    case.post('ls >> "$NOTES"; echo empty >> "$NOTES"')
    case.start()
    until(case.has_ended)
    left = [name for name in os.listdir(case.home()) if name.startswith('work-left-')]
    for name in ('work', *left):
        subprocess.run(['chattr', '-i', os.path.join(case.home(), name, os.path.basename(stuck))], capture_output=True, check=False)
    if os.path.exists(case.notes + '.no'):
        return print('file_that_cannot_be_removed: chattr does nothing here, so it was not tried')
    assert len(left) == 1 and case.said()[-2:] == ['r1: run 2 build 0 success: ok', 'r1: nothing'] and case.noted() == ['empty'], f'{left} {case.noted()}'


@contextlib.contextmanager
def _small_disk(path: str, size: str) -> Iterator[bool]:
    """Whether a folder is a file system of its own, of so many bytes."""
    os.mkdir(path)
    is_one = not subprocess.run(['mount', '-t', 'tmpfs', '-o', f'size={size}', 'tmpfs', path], capture_output=True, check=False).returncode
    try:
        yield is_one
    finally:
        if is_one:
            subprocess.run(['umount', '-l', path], check=True)


def test_full_disk_fails_a_leg_alone(case: Case) -> None:
    """A step fills the file system of the runner's folders: the leg is reported, and the next one runs."""
    with _small_disk(os.path.join(case.folder, 'state'), '6m') as is_small:
        if not is_small:
            return print('full_disk_fails_a_leg_alone: no mount is allowed here, so it was not tried')
        case.post('head -c 20000000 /dev/zero > full || true; echo began >> "$NOTES"; ! echo more > more 2> /dev/null')
        case.post('echo next >> "$NOTES"')
        case.start()
        until(case.has_ended)
        assert case.said()[-2:] == ['r1: run 2 build 0 success: ok', 'r1: nothing'] and case.noted() == ['began', 'next'], f'{case.said()} {case.complained()}'


def test_full_work_leaves_the_log(case: Case) -> None:
    """What steps write is on a file system of its own, and a step fills it: the log has what comes after that, and the next leg runs."""
    work = os.path.join(case.folder, 'work')
    with _small_disk(work, '2m') as is_small:
        if not is_small:
            return print('full_work_leaves_the_log: no mount is allowed here, so it was not tried')
        case.post('head -c 20000000 /dev/zero > full || true; ! echo more > more 2> /dev/null; seq 100000 | tail -n 5000; echo last')
        case.post('head -c 1000000 /dev/zero > file; echo next >> "$NOTES"')
        case.start('--work', work)
        until(case.has_ended)
        assert case.said()[-2:] == ['r1: run 2 build 0 success: ok', 'r1: nothing'] and case.noted() == ['next'], f'{case.said()} {case.complained()}'
        log = lines_of(os.path.join(case.home(), 'logs', 'run-1-build-0-lease-1.log'))
        assert any(line.endswith('last') for line in log) and sum(line.endswith('00') for line in log) == 50, log[-3:]
        assert not any(os.path.isfile(os.path.join(path, name)) for path, _, names in os.walk(work) for name in names), 'work is not empty'


def test_note_that_is_not_kept_is_a_failure(case: Case) -> None:
    """How the steps ended can't be written."""
    patch = _patched(case, ['from acts_runner.files import Slots', 'Slots.writes = Slots.write', 'def write(self, value):',
                            '    if "result" in value:', '        raise OSError("no space")', '    self.writes(value)', 'Slots.write = write'])
    case.post('echo began >> "$NOTES"')
    case.start(PYTHONPATH=patch)
    until(case.has_ended)
    assert case.said()[-2:] == ['r1: run 1 build 0 failure: ok', 'r1: nothing'] and case.noted() == ['began'], f'{case.said()} {case.noted()}'


def test_leg_that_is_not_kept_is_a_failure(case: Case) -> None:
    """The lease can't be written: the leg is not begun, and the runner ends."""
    patch = _patched(case, ['from acts_runner.files import Slots', 'Slots.writes = Slots.write', 'def write(self, value):',
                            '    if value.get("leg"):', '        raise OSError("no space")', '    self.writes(value)',
                            'Slots.write = write'], of='--once')
    case.post('echo never >> "$NOTES"')
    case.start(PYTHONPATH=patch)
    until(case.has_ended)
    assert 'run 1 build 0 failure: ok, since its state can\'t be kept: no space' in case.complained() and case.noted() == [], case.complained()
    case.completed('failure')


def test_old_logs_are_removed(case: Case) -> None:
    for run in range(4):
        case.post('true')
    case.start('--logs-kept', '2')
    until(case.has_ended)
    names = sorted(os.listdir(os.path.join(case.home(), 'logs')))
    assert names == [f'run-{run}-build-0-lease-{run}.{ending}' for run in (3, 4) for ending in ('log', 'marks')], names


def test_long_log_is_cut(case: Case) -> None:
    _run(case, [{'run': 'yes | head -c 300000'}], 'success', '--log-bytes', '1000')
    log = os.path.join(case.home(), 'logs', 'run-1-build-0-lease-1.log')
    with open(log) as file:
        text = file.read()
    assert len(text) < 1200 and 'the rest of this log is left out' in text, len(text)
