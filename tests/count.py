#!/usr/bin/env python3
"""count.py KIND FOLDER LINES COMMAND...: tries what the console counts, and its totals files.

COMMAND runs the console. FOLDER holds traces, honest and damaged, and LINES what the console says of each. KIND is sanitized,
and then a few runs look for leaks too, or anything else. The counts are made again here, from the traces' own bytes. Ends with
`N passed, M failed`.
"""
import contextlib
import fcntl
import os
import pty
import random
import re
import resource
import select
import signal
import stat
import subprocess
import sys
import tempfile
import termios
import time

sys.dont_write_bytecode = True
from records import OLD, SAMPLES, SHORTEST, STEP_EVENT, STEP_NUMBER, long_trace, step_places  # noqa: E402
from runs import Runs, on_terminal, read, write  # noqa: E402

KIND, FOLDER, LINES, COMMAND = sys.argv[1], os.path.abspath(sys.argv[2]), os.path.abspath(sys.argv[3]), sys.argv[4:]
ROOT = os.path.dirname(SAMPLES)
runs = Runs(COMMAND)
run, expect, expect_run = runs.run, runs.expect, runs.expect_run
os.environ['ASAN_OPTIONS'] = 'detect_leaks=0'  # looking takes some 4 s a run on Arm; try_leaks does
os.environ['LC_ALL'] = 'C'

INTERRUPT_CHECK, LAST_CODE, LAST_ENTERING = 9, 13, 8
MOST = 2**32 - 1
HONEST, REFUSED_EVENT, STALE = (os.path.join(SAMPLES, f'{name}.trace') for name in ('honest', 'refused-event', 'stale-spsr'))
STALE_LINE = f'{STALE}: refused 11 WRONG_STEP at byte 1412 after 6 Steps\n'.encode()


def words(trace, at, count):
    return [int.from_bytes(trace[at + 4 * i:at + 4 * i + 4], 'little') for i in range(count)]


def count_step(counts, code, number, value):
    is_check = code == INTERRUPT_CHECK
    keys = [(1, code if 1 <= code <= LAST_CODE else 0), (2, number)]
    if number == 0 and (code <= LAST_ENTERING or is_check and value):
        keys.append((3, value >> 8 & 0xFF))
    if number == 0 and is_check:
        keys.append((4, value >> 16))
    for key in keys:
        counts[key] = counts.get(key, 0) + 1


def count(*names):
    """The counts of accepted traces, by group and number."""
    counts = {}
    for name in names:
        trace = read(name)
        for step in step_places(trace):
            count_step(counts, *words(trace, step + STEP_EVENT, 1), *words(trace, step + STEP_NUMBER, 2))
    return counts


def lines_of(counts):
    return ''.join(f'{group} {number} {counts[group, number]}\n' for group, number in sorted(counts)).encode()


def together(*many):
    return {key: sum(counts.get(key, 0) for counts in many) for key in set().union(*many)}


def verdicts(lines, folder=''):
    """The files that are accepted, and the lines of the refused ones."""
    names = [os.path.join(folder, line.split(': ')[0]) for line in lines.splitlines() if ': accepted' in line]
    return names, ''.join(f'{line}\n' for line in lines.splitlines() if ': refused' in line).encode()


def try_counts():
    names, refused = verdicts(read(os.path.join(SAMPLES, 'verdicts.txt')).decode(), ROOT)
    every = [line.split(':')[0] for line in read(os.path.join(SAMPLES, 'verdicts.txt')).decode().splitlines()]
    expect('samples/counts.txt', lines_of(count(*names)) == read(os.path.join(SAMPLES, 'counts.txt')))
    expect('every sample', run('--count', *every, cwd=ROOT) == (1, lines_of(count(*names)), refused))

    names, refused = verdicts(read(LINES).decode())
    every = [os.path.join(FOLDER, name) for name in sorted(os.listdir(FOLDER))]
    counts = count(*names)
    status, out, err = run('--count', *every)
    expect(f'{len(names)} accepted of {len(every)} traces: {len(counts)} counts', (status, out) == (1, lines_of(counts)), out)
    expect('and the refused are told, each with its line', err == refused, err[:200])
    steps = sum(len(step_places(read(name))) for name in names)
    of_group = [sum(value for (key, _), value in counts.items() if key == group) for group in (1, 2)]
    expect(f'by code and by answer they add up to all {steps} Steps', of_group == [steps, steps], of_group)


def try_statuses():
    honest = lines_of(count(HONEST))
    expect_run('accepted', ['--count', HONEST], 0, honest)
    expect_run('accepted, twice', ['--count', HONEST, HONEST], 0, lines_of(count(HONEST, HONEST)))
    expect_run('one refused of two', ['--count', STALE, HONEST], 1, honest, STALE_LINE)
    expect_run('none accepted', ['--count', STALE], 1, b'', STALE_LINE)
    expect_run('no Step', ['--count', write('shortest', SHORTEST)], 0, b'')
    expect_run('a file that is not there; the others are counted, and 2 wins', ['--count', STALE, 'missing', HONEST], 2, honest,
               STALE_LINE + b'console: missing: No such file or directory\n')
    expect_run('a directory', ['--count', '.', HONEST], 2, honest, b'console: .: Is a directory\n')
    expect_run('standard input', ['--count', '-'], 0, honest, stdin=None, input=read(HONEST))
    expect_run('--quiet: no count, and the refused are told', ['--count', '--quiet', HONEST, STALE], 1, b'', STALE_LINE)
    for name, long in {'': long_trace(65535), ' of the old layout': long_trace(65535, form=OLD)}.items():
        expect_run(f'the longest trace{name}', ['--count', write('long', long)], 0, lines_of(count('long')))
    os.remove('long')
    with open('/dev/full', 'wb') as full:
        expect_run('counts that cannot be written', ['--count', HONEST], 2, None, b'console: standard output: No space left',
                   stdout=full)
    expect_run('a name that would forge a line', ['--count', write('a\n1 2 3', b'')], 1, b'',
               b'a?1 2 3: refused 8 SHORT at byte 0 after 0 Steps\n')


def try_usage():
    usage = b'usage: console'
    expect_run('no file', ['--count'], 2, b'', usage)
    for option in ['--html', '--trace', '--explain']:
        expect_run(f'--count with {option}', ['--count', option, HONEST], 2, b'', b'console: --count takes --quiet and --totals ')
    expect_run('--totals without --count', ['--totals', 'totals', HONEST], 2, b'', b'console: --totals goes with --count')
    takes = b'console: --totals takes one file, which is read and written\n' + usage
    for name, arguments in {'nothing': [HONEST, '--totals'], '-': ['--totals', '-', HONEST],
                            'two files': ['--totals', 'totals', '--totals', 'other', HONEST]}.items():
        expect_run(f'--totals with {name}', ['--count', *arguments], 2, b'', takes)
    expect_run('--totals and no trace', ['--count', '--totals', 'totals'], 2, b'', usage)
    expect('none of them makes a file', os.listdir() == [], os.listdir())
    out = run('--help')[1]
    expect('--help', b'--count' in out and b'--totals' in out and b'13 FULL' in out, out)


def snapshot(name):
    """What a file has, and what tells that it was not written."""
    about = os.stat(name)
    return read(name), about.st_mtime_ns, about.st_ino, about.st_mode


def expect_totals(name, arguments, status, counts, err=b'', totals='totals', **options):
    """A run with totals prints the new ones, and the file has the same lines."""
    expect_run(name, ['--count', '--totals', totals, *arguments], status, lines_of(counts), err, **options)
    expect('and the file', read(totals) == lines_of(counts), read(totals))


def try_totals():
    once, twice = count(HONEST), count(HONEST, HONEST)
    expect_totals('totals that are missing', [HONEST], 0, once)
    expect_totals('totals of a run before', [HONEST], 0, twice)
    expect('nothing else is left there', os.listdir() == ['totals'], os.listdir())
    before = snapshot('totals')
    expect_totals('a refused trace adds nothing', [STALE], 1, twice, STALE_LINE)
    expect('and the file is written all the same', snapshot('totals')[1:3] != before[1:3])
    expect_totals('a file that cannot be read adds nothing', ['missing', REFUSED_EVENT], 2,
                  together(twice, count(REFUSED_EVENT)), b'console: missing: No such file or directory\n')
    expect_totals('totals that are empty', [HONEST], 0, once, totals=write('empty', b''))
    expect_totals('nothing counted', [STALE], 1, {}, STALE_LINE, totals='new')
    expect_run('--quiet', ['--count', '--quiet', '--totals', 'quiet', HONEST], 0, b'')
    expect('and the file', read('quiet') == lines_of(once))
    expect_totals('options in another order', ['--count', HONEST], 0, once, totals='order')


def try_full():
    """The trace that does not fit is told and adds nothing; others still count."""
    told = b': refused 13 FULL: a count would pass 4294967295, so nothing of this trace is counted\n'
    honest, refused = count(HONEST), count(REFUSED_EVENT)
    for key in sorted(honest):
        full = {key: MOST - honest[key]}
        write('totals', lines_of(full))
        expect_totals(f'count {key} reaches its limit', [HONEST], 0, together(full, honest))
        full = {key: MOST - honest[key] + 1}
        write('totals', lines_of(full))
        expect_totals('and would pass it', [HONEST], 1, full, HONEST.encode() + told)
    full = {(2, 0): MOST}
    write('totals', lines_of(full))
    expect_totals('the others still count', [HONEST, REFUSED_EVENT, HONEST], 1, together(full, refused),
                  (HONEST.encode() + told) * 2)
    name = write('a\nb', read(HONEST))
    expect_totals('a name that would forge a line', [name], 1, together(full, refused), b'a?b' + told)
    expect_run('--quiet still tells it', ['--count', '--quiet', '--totals', 'totals', HONEST], 1, b'', told)


# Files that are no totals, and the line and column at which that shows.
NO_TOTALS = {
    'text': (b'counts\n', 1, 1), 'an empty line': (b'\n', 1, 1), 'an empty line between': (b'1 2 1\n\n1 3 1\n', 2, 1),
    'an empty line at the end': (b'1 2 1\n\n', 2, 1),
    'no line end': (b'1 2 1', 1, 6), 'no line end, later': (b'1 2 1\n2 0 4294967295', 2, 15),
    'a line end of two bytes': (b'1 2 1\r\n', 1, 6),
    'a line that is cut': (b'1 2 \n', 1, 5), 'a line that is cut before': (b'1 2\n', 1, 4), 'a group alone': (b'1\n', 1, 2),
    'a cut file': (b'1 2 1\n2', 2, 2), 'a fourth number': (b'1 2 1 4\n', 1, 6),
    'two spaces': (b'1  2 1\n', 1, 3), 'two spaces later': (b'1 2  1\n', 1, 5), 'a space before': (b' 1 2 1\n', 1, 1),
    'a space behind': (b'1 2 1 \n', 1, 6), 'a tab': (b'1\t2 1\n', 1, 2),
    'group 0': (b'0 2 1\n', 1, 1), 'group 5': (b'5 2 1\n', 1, 1), 'group 01': (b'01 2 1\n', 1, 1),
    'number 32': (b'1 32 1\n', 1, 3), 'number 02': (b'1 02 1\n', 1, 3), 'number 00': (b'1 00 1\n', 1, 3),
    'number -1': (b'1 -1 1\n', 1, 3), 'number +1': (b'1 +1 1\n', 1, 3), 'number 2^32': (b'1 4294967296 1\n', 1, 3),
    'count 0': (b'1 2 0\n', 1, 5), 'count 01': (b'1 2 01\n', 1, 5), 'count 2^32': (b'1 2 4294967296\n', 1, 5),
    'count 2^64 + 1': (b'1 2 18446744073709551617\n', 1, 5), 'count 1.0': (b'1 2 1.0\n', 1, 6), 'count 0x1': (b'1 2 0x1\n', 1, 5),
    'count -1': (b'1 2 -1\n', 1, 5), 'a count of 2,000 digits': (b'1 2 ' + b'9' * 2000 + b'\n', 1, 5),
    'a line twice': (b'1 2 1\n1 2 1\n', 2, 1), 'a number that falls': (b'1 3 1\n1 2 1\n', 2, 1),
    'a group that falls': (b'2 0 1\n1 2 1\n', 2, 1), 'the first line again': (b'1 2 1\n4 3 1\n1 2 1\n', 3, 1),
    'a NUL byte': (b'1 2 1\n\x002 0 1\n', 2, 1), 'a NUL byte behind a count': (b'1 2 1\x00\n', 1, 6),
    'NUL bytes alone': (bytes(512), 1, 1), 'a byte order mark': (b'\xef\xbb\xbf1 2 1\n', 1, 1),
    'a trace': (SHORTEST, 1, 1), 'a file of a megabyte': (b'1 2 1\n' * 200000, 2, 1),
}
FULLEST = {(group, number): MOST for group in range(1, 5) for number in range(32)}


def try_no_totals():
    for name, (content, line, column) in NO_TOTALS.items():
        before = snapshot(write('totals', content))
        expect_run(f'no totals: {name}', ['--count', '--totals', 'totals', HONEST, STALE], 2, b'',
                   f'console: totals: no totals: line {line}, column {column}: '.encode())
        expect('and the file is as it was', snapshot('totals') == before and os.listdir() == ['totals'], os.listdir())
    status, _, err = run('--count', '--totals', 'totals', 'missing', STALE)
    expect('nothing is judged', status == 2 and err.count(b'\n') == 1, err)
    write('totals', lines_of(FULLEST))
    expect_totals('totals of every count, as large as can be', [write('shortest', SHORTEST)], 0, FULLEST)
    before = snapshot(write('totals', lines_of(FULLEST) + b'4 32 1\n'))
    expect_run('and a line more', ['--count', '--totals', 'totals', HONEST], 2, b'', b': no totals: line 129, column 3: ')
    expect('and the file is as it was', snapshot('totals') == before)


def is_totals(content):
    """Whether bytes are the lines of some counts."""
    if not re.fullmatch(rb'([1-4] ([12]?\d|3[01]) [1-9]\d{0,9}\n)*', content):
        return False
    rows = [tuple(map(int, line.split())) for line in content.splitlines()]
    keys = [row[:2] for row in rows]
    return keys == sorted(set(keys)) and all(row[2] <= MOST for row in rows)


def edited(chance, content):
    """Totals with a byte changed, put in, left out or doubled, or two bytes exchanged."""
    content, at = bytearray(content), chance.randrange(len(content))
    piece = bytes([chance.choice(b'0123456789 \n\n  ')])
    first, last, new = chance.choice([(at, at + 1, piece), (at, at, piece), (at, at + 1, b''), (at, at, content[at:at + 1]),
                                      (at, at + 2, content[at:at + 2][::-1])])
    content[first:last] = new
    return bytes(content)


def try_edited_totals():
    """Each edit is taken exactly if it is the lines of some counts."""
    chance, taken, wrong = random.Random(1), 0, []
    content = lines_of({**count(HONEST), (2, 0): MOST - 9, (2, 7): 10, (4, 31): 1})
    trace = write('trace', SHORTEST)
    for _ in range(150):
        totals = edited(chance, content)
        write('totals', totals)
        status, out, err = run('--count', '--totals', 'totals', trace)
        right = (0, totals, b'') if is_totals(totals) else (2, b'', err)
        taken += is_totals(totals)
        if (status, out, err) != right or read('totals') != totals:
            wrong.append((totals, status, out, err))
    expect(f'totals edited by chance: {taken} of 150 still are totals', not wrong and 20 < taken < 130, wrong[:2])


def try_broken_output():
    before = snapshot(write('totals', b'1 2 1\n'))
    with open('/dev/full', 'wb') as full:
        expect_run('totals that cannot be printed', ['--count', '--totals', 'totals', HONEST], 2, None,
                   b'console: standard output: No space left', stdout=full)
    expect('are not written', snapshot('totals') == before)
    expect_run('a standard output that is closed', ['--count', '--totals', 'totals', HONEST], 2, b'',
               b'console: standard output: Bad file descriptor', preexec_fn=lambda: os.close(1))
    expect('and the file is as it was', snapshot('totals') == before)
    status = run('--count', '--totals', 'totals', '--quiet', STALE, HONEST, preexec_fn=lambda: os.close(2))[0]
    expect('a standard error that is closed', (status, read('totals')) == (1, lines_of(together({(1, 2): 1}, count(HONEST)))),
           (status, read('totals')))


def try_places():
    once = count(HONEST)
    os.makedirs('far/away')
    os.symlink('far/link', 'totals')
    os.symlink('away/file', 'far/link')
    expect_totals('links to a file that is missing', [HONEST], 0, once)
    expect_totals('links to a file', [HONEST], 0, count(HONEST, HONEST))
    links = [os.path.islink(name) and os.readlink(name) for name in ('totals', 'far/link')]
    expect('the links stay', links == ['far/link', 'away/file'] and os.listdir('far/away') == ['file'], links)
    os.symlink('circle', 'circle')
    os.mkfifo('fifo')
    for name, reason in {'circle': 'Too many levels of symbolic links', 'far': 'Is a directory', 'fifo': 'not a regular file',
                         'nowhere/file': 'No such file or directory',
                         '': 'No such file or directory'}.items():
        expect_run(f'totals that cannot be: {name!r}', ['--count', '--totals', name, HONEST], 2, b'',
                   f'console: {name}: {reason}\n'.encode())
    expect('and the pipe is one still', stat.S_ISFIFO(os.stat('fifo').st_mode))
    expect_totals('totals that are named like an option', [HONEST], 0, once, totals='--quiet')
    expect_run('a name that would forge a line', ['--count', '--totals', write('a\nb', b'c'), HONEST], 2, b'',
               b'console: a?b: no totals: line 1, column 1: ')


def mode(name):
    return stat.S_IMODE(os.stat(name).st_mode)


def try_permissions():
    for number in (0o600, 0o664, 0o4751):
        os.chmod(write('totals', b''), number)
        expect_totals(f'permissions {number:o} stay', [HONEST], 0, count(HONEST))
        expect('and they are', mode('totals') == number, oct(mode('totals')))
    for mask in (0o022, 0o077, 0o000):
        run('--count', '--totals', f'new-{mask}', HONEST, umask=mask)
        expect(f'a new file under umask {mask:03o}', mode(f'new-{mask}') == 0o666 & ~mask, oct(mode(f'new-{mask}')))
    if os.getuid() == 0:
        os.chown('totals', 1234, 5678)
        os.chmod('totals', 0o4751)
        run('--count', '--totals', 'totals', HONEST)
        about = os.stat('totals')
        expect('the owner stays', (about.st_uid, about.st_gid, mode('totals')) == (1234, 5678, 0o4751), about)
        return
    before = snapshot(write('locked', b'1 2 1\n'))
    os.chmod('locked', 0o444)
    expect_run('a file without the right to write it', ['--count', '--totals', 'locked', HONEST], 2, b'', b'Permission denied')
    expect('and it is as it was', snapshot('locked')[:3] == before[:3])
    os.mkdir('folder')
    write('folder/totals', b'')
    os.chmod('folder', 0o555)
    expect_run('a folder without the right to write there', ['--count', '--totals', 'folder/totals', HONEST], 2,
               lines_of(count(HONEST)), b'console: folder/totals: not written, and as it was: Permission denied\n')
    os.chmod('folder', 0o755)


@contextlib.contextmanager
def held(*arguments, **options):
    """A console that waits for a trace on its standard input, once it has its totals."""
    command = COMMAND + ['--count', '--totals', 'totals', *arguments, '-']
    options.setdefault('stderr', subprocess.PIPE)
    with subprocess.Popen(command, stdin=subprocess.PIPE, stdout=subprocess.PIPE, **options) as console:
        yield console


def wait_until_it_reads(console):
    """Gives it the first byte of a trace, and waits until that is taken: by then it has its totals."""
    console.stdin.write(read(HONEST)[:1])
    console.stdin.flush()
    until = time.monotonic() + 20
    while any(fcntl.ioctl(console.stdin, termios.FIONREAD, bytes(4))) and time.monotonic() < until:
        time.sleep(0.01)


def try_failing_writes():
    before = snapshot(write('totals', b'1 2 1\n'))

    def no_room():
        resource.setrlimit(resource.RLIMIT_FSIZE, (0, 0))
    expect_run('totals that cannot be written', ['--count', '--totals', 'totals', HONEST], 2,
               lines_of(together({(1, 2): 1}, count(HONEST))), b'console: totals: not written, and as it was: File too large\n',
               preexec_fn=no_room, restore_signals=False)  # without the signal that else goes with it
    expect('stay, and nothing is left beside them', snapshot('totals') == before and os.listdir() == ['totals'], os.listdir())
    with held() as console:
        wait_until_it_reads(console)
        os.remove('totals')
        os.mkdir('totals')
        _, err = console.communicate(read(HONEST)[1:])
    expect('totals that became a directory', console.returncode == 2 and b'not written, and as it was: Is a directory' in err,
           (console.returncode, err))
    expect('and nothing is left beside them', os.listdir() == ['totals'] and os.listdir('totals') == [], os.listdir())


def try_signals():
    for number in (signal.SIGINT, signal.SIGTERM, signal.SIGKILL):
        before = snapshot(write('totals', b'1 2 1\n'))
        with held(HONEST) as console:
            wait_until_it_reads(console)
            console.send_signal(number)
            console.communicate()
        expect(f'{number.name} in the middle', console.returncode == -number and snapshot('totals') == before, console.returncode)
    expect_totals('and the next console', [HONEST], 0, together({(1, 2): 1}, count(HONEST)))


def try_two():
    """Consoles with one totals file: none loses what another counts, also where the file is missing at first."""
    with held() as first:
        wait_until_it_reads(first)
        master, slave = pty.openpty()
        with held(stderr=slave) as second:
            os.close(slave)
            waits = select.select([master], [], [], 20)[0] and os.read(master, 4096)
            expect('a second console waits, and tells so on a terminal',
                   waits == b'console: totals: another console has it; waiting\r\n', waits)
            first.communicate(read(HONEST)[1:])
            out = second.communicate(read(HONEST))[0]
        os.close(master)
    expect('and then adds to what the first wrote', (second.returncode, out, read('totals')) ==
           (0, lines_of(count(HONEST, HONEST)), lines_of(count(HONEST, HONEST))), (out, read('totals')))
    os.remove('totals')
    several = [subprocess.Popen(COMMAND + ['--count', '--quiet', '--totals', 'totals', HONEST], stderr=subprocess.PIPE)
               for _ in range(20)]
    ends = {(console.communicate()[1], console.returncode) for console in several}
    expect('twenty at once, and nothing told where there is no terminal', ends == {(b'', 0)} and
           read('totals') == lines_of(count(*[HONEST] * 20)) and os.listdir() == ['totals'], (ends, read('totals')))


def try_progress():
    command = ' '.join(f"'{word}'" for word in COMMAND)
    status, written = on_terminal(f"(sleep 0.5; cat '{HONEST}') | {command} --count --totals totals - '{HONEST}'")
    expect('progress on a terminal', status == 0 and b'1 of 2 files judged' in written, (status, written))
    status, written = on_terminal(f"(sleep 0.5; cat '{HONEST}') | {command} --count - '{STALE}'")
    expect('which makes way for a line', status == 1 and b'judged\r\x1b[K' + STALE_LINE[:-1] in written, (status, written))


def readme_blocks():
    """The blocks of the README's section, as they stand there."""
    section = re.search(r"^## A month's counts\n(.*?)^## ", read(os.path.join(ROOT, 'README.md')).decode(), re.M | re.S)[1]
    return [re.sub(r'^    ', '', block, flags=re.M) for block in re.findall(r'(?:^    .*\n)+', section, re.M)]


def shell(command):
    done = subprocess.run(['sh', '-c', command], capture_output=True, check=False)
    return done.returncode, done.stdout, done.stderr


def try_readme():
    """What the README shows, literally: its examples, the sum, and the spreading over processes."""
    with open('console', 'w', encoding='utf-8') as script:
        script.write('#!/bin/sh\nexec ' + ' '.join(f"'{word}'" for word in COMMAND) + ' "$@"\n')
    os.chmod('console', 0o755)
    os.symlink(SAMPLES, 'samples')
    *examples, awk, spread = readme_blocks()
    for command, out in re.findall(r'^\$ (.*)\n((?:[^$].*\n)*)', ''.join(examples), re.M):
        seen = shell(f'({command}) 2>&1')
        expect(f'README: {command}', seen[1].decode() == out, seen)

    names, refused = verdicts(read(LINES).decode())
    os.mkdir('july')
    for name in os.listdir(FOLDER):
        os.symlink(os.path.join(FOLDER, name), f'july/{name}.trace')
    status, out, err = shell(spread)
    told = sorted(re.sub(rb'^july/(\d+)\.trace', os.fsencode(FOLDER) + rb'/\1', err, flags=re.M).splitlines())
    expect('README: xargs: a refused trace ends it with 123, and no count is printed', (status, out) == (123, b''), (status, out))
    expect('the refused are told, in whole lines', told == sorted(refused.splitlines()), told[:3])
    expect('in several totals files', len(os.listdir('parts')) > 1, os.listdir('parts'))
    expect('README: the sum of them', shell(awk) == (0, lines_of(count(*names)), b''), shell(awk))
    expect_totals('which are totals', [HONEST], 0, together(count(*names), count(HONEST)), totals=write('sum', shell(awk)[1]))
    try_sum(awk)


def try_sum(awk):
    for name in os.listdir('parts'):
        os.remove(f'parts/{name}')
    write('parts/1', lines_of({key: value - 1 for key, value in FULLEST.items()}))
    write('parts/2', lines_of({key: 1 for key in FULLEST}))
    write('parts/3', b'')
    expect('README: a sum as large as can be', shell(awk) == (0, lines_of(FULLEST), b''), shell(awk))
    write('parts/3', b'4 31 1\n')
    expect('README: a sum that passes it', shell(awk) == (1, b'', b'a count passes 4294967295\n'), shell(awk))


def try_leaks():
    looking = {**os.environ, 'ASAN_OPTIONS': 'detect_leaks=1'}
    write('bad', b'1')
    for name, totals, status in (('totals', 'totals', 1), ('no totals', 'bad', 2)):
        seen = run('--count', '--totals', totals, HONEST, STALE, env=looking)
        expect(f'no leak: {name}', seen[0] == status and b'Sanitizer' not in seen[2], seen)


TRIES = [try_counts, try_statuses, try_usage, try_totals, try_full, try_no_totals, try_edited_totals, try_broken_output,
         try_places, try_permissions, try_failing_writes, try_signals, try_two, try_progress, try_readme]
for one in TRIES + ([try_leaks] if KIND == 'sanitized' else []):
    with tempfile.TemporaryDirectory() as room:
        os.chdir(room)
        one()
        os.chdir('/')
runs.end()
