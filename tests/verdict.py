#!/usr/bin/env python3
"""verdict.py SCRIPT SAMPLES: tries the program `verdict` as a user does, through its script.

Worked case l, every sample against the line the console prints for it, input in pieces and of any length, read to its end also
behind a fault, in memory that does not grow; reads that fail, and Ctrl-C. Ends with `N passed, M failed`.
"""
import contextlib
import os
import re
import signal
import subprocess
import sys
import tempfile

sys.dont_write_bytecode = True
from editions import version_line  # noqa: E402
from records import (  # noqa: E402
    LONGEST, OLD, OLD_SHORTEST, SHORTEST, START_SIZE, STEP_SIZE, length_of, long_trace, sample_reports, start_record)
from runs import Live, comes_true, failing_file, is_taken, most_memory, read  # noqa: E402

SCRIPT, SAMPLES = (os.path.abspath(path) for path in sys.argv[1:3])
PROGRAM = os.path.join(os.path.realpath(os.path.dirname(SCRIPT)), 'target', 'bin', 'verdict')
HONEST, STALE = (read(os.path.join(SAMPLES, f'{name}.trace')) for name in ('honest', 'stale-spsr'))
MEGABYTE, GIGABYTE = 1 << 20, 1 << 30
MARGIN = 4096  # kilobytes, where the longest trace has 12,800: an emulator's own memory grows with the code that it has met
results = []


def expect(name, seen, out, status=0):
    held = seen == (status, out)
    results.append(held)
    print(f'ok      {name}' if held else f'FAILED  {name}: {seen}', flush=True)


def run(*arguments, **options):
    done = subprocess.run([SCRIPT, *arguments], stdout=subprocess.PIPE, stderr=subprocess.PIPE, timeout=600, check=False,
                          **options)
    return done.returncode, done.stdout


def try_case_l():
    expect('the shortest trace', run(input=OLD_SHORTEST), b'0 192 0\n')
    expect('without its last byte', run(input=OLD_SHORTEST[:-1]), b'8 184 0\n')
    expect('empty', run(input=b''), b'8 0 0\n')
    expect('the shortest, of -', run('-', input=OLD_SHORTEST), b'0 192 0\n')
    expect('the shortest of the new layout', run(input=SHORTEST), b'0 196 0\n')
    expect('without its last byte', run(input=SHORTEST[:-1]), b'8 188 0\n')


def line_of(*three):
    return '{} {} {}\n'.format(*three).encode()


def try_samples():
    """Each as it is, and with a megabyte behind it: then an accepted one is 12, and a fault that was known before stays."""
    for name, number, place, steps in sample_reports(SAMPLES):
        file = os.path.join(os.path.dirname(SAMPLES), name)
        expect(name, run(file), line_of(number, place, steps))
        if number != 8:
            expect(f'{name}, and more behind it', run(input=read(file) + bytes(MEGABYTE)), line_of(number or 12, place, steps))


class Judging(Live):
    """A run of the script in a group of its own, as a terminal starts it, and with Ctrl-C heard, which a background's is not."""

    def __init__(self, *arguments, **options):
        super().__init__([SCRIPT, *arguments], start_new_session=True,
                         preexec_fn=lambda: signal.signal(signal.SIGINT, signal.SIG_DFL), **options)

    def __exit__(self, *_):
        with contextlib.suppress(ProcessLookupError):  # where nothing is left, as it should be
            os.killpg(self.process.pid, signal.SIGKILL)
        super().__exit__()

    def running(self):
        """The processes of the group, and the words by which each was started; one that has ended has none."""
        for name in filter(str.isdigit, os.listdir('/proc')):
            with contextlib.suppress(OSError):  # it ended meanwhile
                if os.getpgid(int(name)) == self.process.pid and (words := read(f'/proc/{name}/cmdline')):
                    yield int(name), words.decode().split('\0')[:-1]

    def program(self):
        """The program itself, which the script's shell started; by an emulator, where the machine needs one."""
        return next((process for process, words in self.running() if words[-1] == PROGRAM), None)


def judged_from(*command):
    """A run on what a command sends: what it prints, how the sender ends, and the most memory that the program took."""
    with Judging(stdin=subprocess.PIPE) as judging:
        sent = subprocess.run(command, stdout=judging.process.stdin, stderr=subprocess.DEVNULL, check=False).returncode
        comes_true(lambda: is_taken(judging.process.stdin) or judging.process.poll() is not None)
        program = judging.program()
        most = most_memory(program) if program else 0  # it ended before its input did
        return judging.end()[:2], sent, most


def try_pieces():
    with tempfile.NamedTemporaryFile() as file:
        file.write(SHORTEST)
        file.flush()
        expect('a pipe in pieces of one byte',
               judged_from('dd', 'if=' + file.name, 'bs=1', 'status=none')[0], b'0 196 0\n')
        expect('a slow pipe',
               judged_from('sh', '-c', 'head -c 100 "$0"; sleep 1; tail -c +101 "$0"', file.name)[0], b'0 196 0\n')
    for size in (7, STEP_SIZE - 1, STEP_SIZE + 1):
        with Judging(stdin=subprocess.PIPE) as judging:
            for at in range(0, len(HONEST), size):
                judging.send(HONEST[at:at + size])
                comes_true(lambda: is_taken(judging.process.stdin))
            seen = judging.end()[:2]
        expect(f'pieces of {size} bytes', seen, b'0 2032 9\n')


def try_lengths():
    for length in (65536, 65537, 10 * MEGABYTE):
        expect(f'{length} bytes', run(input=SHORTEST + bytes(length - len(SHORTEST))), b'12 196 0\n')
    for steps in (320, 321, 1000):  # the first is the longest below 65,536 bytes
        trace = long_trace(steps)
        expect(f'an honest trace of {len(trace)} bytes', run(input=trace), line_of(0, len(trace), steps))
    expect('the longest of the old layout', run(input=long_trace(LONGEST, form=OLD)),
           line_of(0, length_of(LONGEST, OLD), LONGEST))
    expect('the longest, but for a byte', run(input=long_trace(LONGEST)[:-1]), line_of(8, length_of(LONGEST) - 8, LONGEST))
    expect('the longest, and its last Step wrong', run(input=long_trace(LONGEST, LONGEST)),
           line_of(11, START_SIZE + STEP_SIZE * (LONGEST - 1), LONGEST - 1))
    expect('one Step more', run(input=start_record(LONGEST + 1) + bytes(STEP_SIZE * (LONGEST + 1))), b'10 0 0\n')


def end_of_reading(content, length):
    """What is printed of a file of this length that begins so, and how far it was read."""
    with tempfile.TemporaryFile() as file:
        file.write(content)
        file.truncate(length)
        file.seek(0)
        seen = run(stdin=file)
        return seen, os.lseek(file.fileno(), 0, os.SEEK_CUR)


def try_end():
    """A file is read to its end, also behind a fault. That a sender is not cut off, try_memory sees."""
    for name, content, out in (('no trace', b'', b'9 0 0\n'), ('a wrong Step', STALE, b'11 1412 6\n'),
                               ('a trace', HONEST, b'12 2032 9\n')):
        seen, read_to = end_of_reading(content, 10 * MEGABYTE)
        expect(f'{name}, and zeros behind it', seen, out)
        expect('read to the end', (0, read_to), 10 * MEGABYTE)


def expect_memory(most, least):
    expect(f'and its memory, {most} kB as {least} kB', (0, 0 < most <= least + MARGIN), True)


def try_memory():
    """Input of any length takes the same memory, and its sender is not cut off. Above 4 GB no count of 32 bits has room."""
    with tempfile.NamedTemporaryFile() as short, tempfile.NamedTemporaryFile() as long:
        for file, trace in ((short, SHORTEST), (long, long_trace(LONGEST))):
            file.write(trace)
            file.flush()
        seen, _, least = judged_from('cat', short.name)
        expect('the shortest trace, in a pipe', seen, b'0 196 0\n')
        for name, file, zeros, out in (
                ('the longest trace', long.name, 0, line_of(0, length_of(LONGEST), LONGEST)),
                ('50,000,000 zeros', '/dev/null', 50000000, b'9 0 0\n'),
                ('the longest trace and a gigabyte', long.name, GIGABYTE, line_of(12, length_of(LONGEST), LONGEST)),
                ('the shortest and four gigabytes', short.name, 4 * GIGABYTE, b'12 196 0\n')):
            seen, sent, most = judged_from('sh', '-c', 'cat "$0" && head -c "$1" /dev/zero', file, str(zeros))
            expect(name, seen, out)
            expect('its sender is not cut off', (sent, b''), b'')
            expect_memory(most, least)
    try_endless(least)


def bytes_read(process):
    return int(re.search(rb'rchar: (\d+)', read(f'/proc/{process}/io'))[1])


def try_endless(least):
    """Input without end is read on and on, in the same memory; Ctrl-C ends the reading, and leaves nothing."""
    with Judging('/dev/zero') as judging:
        comes_true(judging.program)
        program = judging.program()
        expect('input without end', (0, comes_true(lambda: bytes_read(program) > GIGABYTE)), True)
        expect_memory(most_memory(program), least)
        expect_interrupted(judging)
    with Judging(stdin=subprocess.PIPE) as judging:
        comes_true(judging.program)
        expect_interrupted(judging)


def expect_interrupted(judging):
    os.killpg(judging.process.pid, signal.SIGINT)
    expect('Ctrl-C: nothing runs on', (0, comes_true(lambda: not list(judging.running()))), True)
    expect('and nothing is printed', judging.end()[:2], b'', -signal.SIGINT)


def try_trouble():
    expect('a directory', run('/'), b'CANNOT READ\n', 2)
    expect('a closed input', run(preexec_fn=lambda: os.close(0)), b'CANNOT READ\n', 2)
    for name, content in (('a part of a trace', HONEST[:1000]), ('a whole trace', HONEST), ('a wrong Step', STALE)):
        with failing_file(content) as file:
            expect(f'a read that fails behind {name}', run(stdin=file), b'CANNOT READ\n', 2)
    with open('/dev/full', 'wb') as full:
        told = subprocess.run([SCRIPT], input=SHORTEST, stdout=full, stderr=subprocess.DEVNULL, timeout=600, check=False)
    expect('output that cannot be written', (told.returncode, b''), b'', 2)
    expect('a file that is not there', run('/nowhere/at/all'), b'', 2)
    expect('two files', run('one', 'two'), b'', 2)


def try_version():
    expect('--version', run('--version'), version_line('verdict'))
    with open('/dev/full', 'wb') as full:
        told = subprocess.run([SCRIPT, '--version'], stdout=full, stderr=subprocess.DEVNULL, timeout=600, check=False)
    expect('a version that cannot be written', (told.returncode, b''), b'', 2)


for one in (try_case_l, try_samples, try_pieces, try_lengths, try_end, try_memory, try_trouble, try_version):
    one()
print(f'{results.count(True)} passed, {results.count(False)} failed')
sys.exit(0 if all(results) else 1)
