"""Command lines: the exit status, and what is printed on standard output and standard error."""

import errno
import os
import re
import resource
import subprocess

from checking import expect

BUILD = '{"repo":"o/r","path":"ci.json","workflow":{"jobs":{"build":{"runs-on":"linux"}}}}'
ADMIT = f'admit d1 push {BUILD}'
FIRST = f'{ADMIT}\nclaim r1 1 linux\ndone r1 2 1 success\nlook 1\n'
FIRST_ANSWERS = 'created 1\nlease 1 1 build 0 {}\nok\nrun 1 1 completed success build:success(success)\n'
MATRIX = '{"jobs":{"b":{"runs-on":"linux"},"a":{"runs-on":"linux","strategy":{"matrix":{"n":[1,"x"]}}}}}'
MATRIX_LINES = 'a 0 {"n":1}\na 1 {"n":"x"}\nb 0 {}\n'
NO_LEG = '{"jobs":{"a":{"runs-on":"x","strategy":{"matrix":{}}}}}'
FAULTY = '{"name":5,"jobs":{"build":{"runs-on":["x",5]}}}'
FAULTS = '11 name: of the wrong kind, or missing\n11 jobs.build.runs-on[1]: of the wrong kind, or missing\n'
EXPLAINED = '''\
refused 15: a job has no "runs-on", or an empty list there.
What gets it: the workflow {"jobs":{"a":{}}}.
What helps: name one label at least, as "runs-on":"linux".
'''
NUMBERS = (*range(10, 27), *range(40, 58), 60, 61, *range(70, 77))
ONE_JOB = '{"jobs":{"a":{"runs-on":"x"}}}'
PADDED = '{"jobs":{"a":{"runs-on":"x"}},"env":"'
SECONDS, MAX_BYTES, MAX_BODY, MAX_ENTRIES = 600, 1_048_576, 65_536, 100_000
NOT_FOUND, TOO_LARGE = (f'{os.strerror(it)} (os error {it})' for it in (errno.ENOENT, errno.EFBIG))
SERVE = 'serve FILE --hook-port {} --runner-port {} --sessions {}'

# The words after the program's name, and what is printed over the first script. A FILE can't be opened.
WELL = (('play', FIRST_ANSWERS), ('explain 15', EXPLAINED))
NO_FILE = ('init FILE 4096', 'init FILE 1073741824', 'grow FILE NEW 4096', 'grow FILE NEW 1073741824', 'show FILE', 'show FILE 999999999 --json', 'runners FILE', 'queue --json FILE',
           SERVE.format(65535, 1, 32), SERVE.format(8080, 8081, 1) + ' --rounds 18446744073709551615',
           *(SERVE.format(8080, 8081, 1) + f' --forever --keep-runs {runs}' for runs in (1, 50000)))
# Command lines that the program does not have.
USAGE = ('', 'serve', 'play script', 'check workflow', 'lint workflow', '--verbose play', 'explain', 'explain 17 18', 'explain 9', 'explain 017',
         'explain refused', b'\xff', b'play \xc3', b'init stor\xe9 4096', 'init FILE 4095', 'init FILE 1073741825', 'init FILE', 'grow', 'grow FILE 4096', 'grow FILE NEW', 'grow FILE NEW 4095', 'grow FILE NEW 1073741825', 'grow FILE NEW 4096 1',
         'show', 'show FILE 0', 'show FILE 1000000000', 'show FILE 01', 'show FILE +1', 'show FILE 1 2',
         'runners', 'runners FILE r1', 'queue', 'queue FILE --text', 'serve FILE --hook-port 8080', SERVE.format(0, 8081, 1),
         SERVE.format(8080, 65536, 1), SERVE.format(8080, 8081, 0), SERVE.format(8080, 8081, 33), SERVE.format(8080, 8081, 1) + ' --rounds 0',
         SERVE.format(8080, 8081, 1) + ' --keep-runs 10', *(SERVE.format(8080, 8081, 1) + f' --forever --keep-runs {runs}' for runs in ('0', '50001', '1.5', '')))
# A command and its input, the status, standard output, and the number on standard error.
INPUTS = (('check', MATRIX, 0, MATRIX_LINES, None), ('check', '[', 1, '', 10), ('check', NO_LEG, 1, '', 22),
          ('lint', MATRIX, 0, '', None), ('lint', FAULTY, 1, FAULTS, None))


def ran(acts, words, given='', room=None):
    """The status and what is printed. With ROOM standard output is a file that takes so many bytes."""
    if room is None:
        it = subprocess.run([acts, *words], input=given.encode(), capture_output=True, timeout=SECONDS)
        return it.returncode, it.stdout.decode(), it.stderr.decode()
    with open(os.memfd_create('room'), 'r+b', buffering=0) as page:
        it = subprocess.run([acts, *words], input=given.encode(), stdout=page, stderr=subprocess.PIPE, timeout=SECONDS, restore_signals=False,
                            preexec_fn=lambda: resource.setrlimit(resource.RLIMIT_FSIZE, (room, room)))
        return it.returncode, os.pread(page.fileno(), room + 1, 0).decode(), it.stderr.decode()


def is_refused(number, *reason):
    """The status and what is printed. After 61 standard error has a second line: the file or stream, and the system's words."""
    return 1, '', f'acts: refused {number}\n' + ''.join(f'acts: {it}\n' for it in reason)


def words_of(line, file):
    """The words of a command line, in bytes, with the path of FILE."""
    line = line if isinstance(line, bytes) else line.encode()
    return line.replace(b'FILE', file.encode()).split()


def expect_run(acts, words, given, wanted):
    found = ran(acts, words, given)
    expect(found == wanted, 'acts', *words, 'over', given[:200], 'gives', found, 'and not', wanted)


def statuses(acts, folder):
    missing = f'{folder}/none/store'
    for words, out in WELL:
        expect_run(acts, words.split(), FIRST, (0, out, ''))
    for words in NO_FILE:
        expect_run(acts, words_of(words, missing), FIRST, is_refused(61, f'{missing}: {NOT_FOUND}'))
    for words, given, status, out, number in INPUTS:
        expect_run(acts, [words], given, (status, out, '' if number is None else f'acts: refused {number}\n'))
    for words in USAGE:
        status, out, err = ran(acts, words_of(words, f'{folder}/store'), 'look 1\n')
        expect((status, out) == (2, '') and err, 'acts', words, 'ends with', status, out, err)
    expect(not os.path.exists(f'{folder}/store'), 'an error in the command line makes a file')
    return f'{len(WELL) + len(NO_FILE) + len(INPUTS)} commands, {len(USAGE)} errors in the command line'


def texts(acts, folder):
    """Help, version, and an explanation of each number."""
    status, out, err = ran(acts, ['--help'])
    expect(status == 0 and 'serve' in out and not err, 'acts --help gives', status, out, err)
    status, out, err = ran(acts, ['--version'])
    expect(status == 0 and re.fullmatch(r'acts 0\.1\.0 \((commit [0-9a-f]+(-dirty)?|no commit named)\)\n', out) and not err, '--version', status, out, err)
    for number in NUMBERS:
        status, out, err = ran(acts, ['explain', str(number)])
        expect(status == 0 and out.startswith(f'refused {number}: ') and out.count('\n') == 3 and not err, 'explain', number, status, out, err)
    return f'help, version, {len(NUMBERS)} explanations'


def full_outputs(acts, folder):
    """Standard output that takes no more after some bytes."""
    cases = [(['play'], FIRST, FIRST_ANSWERS, room) for room in range(len(FIRST_ANSWERS))]
    cases += [(['check'], MATRIX, MATRIX_LINES, 10), (['lint'], FAULTY, FAULTS, 0), (['--help'], '', None, 0)]
    cases += [(['explain', str(number)], '', None, 10) for number in NUMBERS]
    for words, given, whole, room in cases:
        status, out, err = ran(acts, words, given, room)
        expect((status, err) == (1, f'acts: refused 61\nacts: standard output: {TOO_LARGE}\n') and len(out) <= room and (whole is None or whole.startswith(out)),
               'acts', *words, 'with room for', room, 'bytes ends with', status, out, err)
    return f'{len(cases)} outputs that do not fit'


def padded(first, most, last=''):
    """A text of so many bytes."""
    return first + ('e' if last else ' ') * (most - len(first) - len(last)) + last


def long_inputs():
    """A command and its input, standard output, and the number on standard error."""
    body = MAX_BODY + len('admit d1 push ')
    looks = 'look 1\n' * MAX_ENTRIES + 'commit\nlook 1\nlook 1\ncommit\nlook\n'
    yield 'play', padded(ADMIT, body), 'created 1\n', None
    yield 'play', padded(ADMIT, body + 1), 'refused 24\n', None
    yield 'play', padded('admit d1 push ' + PADDED, body, '"}'), 'refused 11\n', None
    yield 'play', padded('admit d1 push ' + PADDED, body + 1, '"}'), 'refused 24\n', None
    yield 'play', FIRST.ljust(MAX_BYTES, '\n'), FIRST_ANSWERS, None
    yield 'play', FIRST.ljust(MAX_BYTES + 9, '\n'), '', 76
    yield 'play', '\n' * (MAX_BYTES + 1), '', 76
    yield 'play', looks, 'refused 40\n' * MAX_ENTRIES + 'committed 100000\nrefused 46\nrefused 46\ncommitted 100000\nrefused 75\n', None
    yield 'check', padded(ONE_JOB, MAX_BODY), 'a 0 {}\n', None
    yield 'check', padded(ONE_JOB, MAX_BODY + 1), '', 24
    yield 'check', padded(ONE_JOB, MAX_BYTES), '', 24
    yield 'check', padded(ONE_JOB, MAX_BYTES + 9), '', 76
    yield 'check', '[' * (MAX_BODY + 1), '', 24
    yield 'check', '[' * (MAX_BYTES + 1), '', 76
    yield 'check', padded(PADDED, MAX_BODY, '"}'), 'a 0 {}\n', None
    yield 'check', padded(PADDED, MAX_BODY + 1, '"}'), '', 24


def longest(acts, folder):
    count = 0
    for words, given, out, number in long_inputs():
        found = ran(acts, [words], given)
        wanted = (0, out, '') if number is None else is_refused(number)
        expect(found == wanted, words, 'of', len(given), 'bytes gives', [str(it)[-200:] for it in found])
        count += 1
    return f'{count} inputs of the greatest length and longer'


CHECKS = statuses, texts, full_outputs, longest
