#!/usr/bin/env python3
"""pipes.py KIND FOLDER LINES COMMAND...: tries the console on traces as they arrive, by pipes and the like.

COMMAND runs the console. FOLDER holds traces, honest and damaged, and LINES what it says of each. KIND is sanitized, and then a
few runs look for leaks too, or anything else. Ends with `N passed, M failed`.
"""
import os
import re
import socket
import subprocess
import sys
import tempfile

sys.dont_write_bytecode = True
from records import (  # noqa: E402
    END_SIZE, LONGEST, OLD, OLD_SHORTEST, SAMPLES, SHORTEST, START_SIZE, STEP_SIZE, accepted, end_record, layout_of,
    length_of, long_trace, start_record)
from runs import Live, Runs, comes_true, failing_file, is_taken, most_memory, read, write  # noqa: E402

KIND, FOLDER, LINES, COMMAND = sys.argv[1], os.path.abspath(sys.argv[2]), os.path.abspath(sys.argv[3]), sys.argv[4:]
ROOT = os.path.dirname(SAMPLES)
runs = Runs(COMMAND)
run, expect, expect_run = runs.run, runs.expect, runs.expect_run
os.environ['ASAN_OPTIONS'] = 'detect_leaks=0'  # looking takes some 4 s a run on Arm; try_leaks does

A_WHILE = 0.3  # seconds in which what must not come would have come
HONEST, HONEST_OLD, STALE, MIXED, TAKEN_IN_OLD, LINE_TAKEN = (
    read(os.path.join(SAMPLES, f'{name}.trace')) for name in
    ('honest', 'honest-old', 'stale-spsr', 'mixed-layouts', 'debug-taken-in-old', 'virtual-line-taken'))
HONEST_LINE = f'-: {accepted(HONEST)}\n'.encode()
STALE_LINE = b'-: refused 11 WRONG_STEP at byte 1412 after 6 Steps\n'
STALE_KNOWN = b'-: 11 WRONG_STEP known after 1616 bytes\n'
HEAD_SIZE = 4

# With how many bytes a fault is known, from the first of the record at fault (document 02, No. 6), by the layout.
KNOWN_WITH = {9: lambda place, form: HEAD_SIZE, 10: lambda place, form: END_SIZE if place else form.start_size,
              11: lambda place, form: form.step_size, 12: lambda place, form: 1}

# Traces with a fault: its number, its name, its place, and how many Steps were right.
FAULTY = {
    'no Start': (b'\xbc\0\5\0' + SHORTEST[4:], 9, 'BAD_RECORD', 0, 0),
    'the length of a new Start, and the kind of an old one': (b'\xbc\0\1\0' + SHORTEST[4:], 9, 'BAD_RECORD', 0, 0),
    'the length of an old Start, and the kind of a new one': (b'\xb8\0\4\0' + OLD_SHORTEST[4:], 9, 'BAD_RECORD', 0, 0),
    'a new Step behind an old Start': (MIXED, 9, 'BAD_RECORD', 984, 4),
    'an old Start that counts too much': (start_record(LONGEST + 1, bytes(OLD.block_size), OLD) + end_record(0), 10,
                                          'BAD_COUNT', 0, 0),
    'a wrong Step of the old layout': (TAKEN_IN_OLD, 11, 'WRONG_STEP', 384, 1),
    'a virtual line taken in the new layout': (LINE_TAKEN, 11, 'WRONG_STEP', 392, 1),
    'two traces of the old layout': (HONEST_OLD + HONEST_OLD, 12, 'TRAILING', len(HONEST_OLD), 9),
    'no End': (SHORTEST[:START_SIZE] + bytes(END_SIZE), 9, 'BAD_RECORD', START_SIZE, 0),
    'a Start that counts too much': (start_record(LONGEST + 1) + end_record(0), 10, 'BAD_COUNT', 0, 0),
    'an End that counts otherwise': (HONEST[:-END_SIZE] + end_record(8), 10, 'BAD_COUNT', len(HONEST) - END_SIZE, 9),
    'a wrong Step': (STALE, 11, 'WRONG_STEP', 1412, 6),
    'two traces': (HONEST + HONEST, 12, 'TRAILING', len(HONEST), 9),
}


def known(name, trace, number, number_name, place):
    """The line of --follow."""
    last = place + KNOWN_WITH[number](place, layout_of(trace))
    return f'{name}: {number} {number_name} known after {last} bytes\n'.encode()


def live(*arguments, **options):
    options.setdefault('stdin', subprocess.PIPE)
    return Live(COMMAND + list(arguments), **options)


def end_of(console):
    """The console's end when its standard input has come to one."""
    console.process.stdin.close()
    console.process.stdin = None
    return console.end()


def try_pieces():
    for size in (1, 7, STEP_SIZE - 1, STEP_SIZE, STEP_SIZE + 1, len(HONEST)):
        with live('-') as console:
            for at in range(0, len(HONEST), size):
                console.send(HONEST[at:at + size])
                comes_true(lambda: is_taken(console.process.stdin))
            seen = end_of(console)
        expect(f'pieces of {size} bytes', seen == (0, HONEST_LINE, b''), seen)
    for name, trace in {'': HONEST, ', in the old layout': HONEST_OLD}.items():
        with live('-') as console:
            console.send(trace)
            early = console.line(A_WHILE)
            seen = end_of(console)
        expect(f'no verdict before the end{name}', early == b'' and seen == (0, HONEST_LINE, b''), (early, seen))


def try_sources():
    os.mkfifo('fifo')
    sender = subprocess.Popen(['sh', '-c', 'for part in 1 2 3; do sleep 0.1; cat part-$part; done >fifo'])
    for number in range(3):
        write(f'part-{number + 1}', HONEST[700 * number:700 * number + 700])
    expect_run('a pipe with a name', ['fifo'], 0, HONEST_LINE.replace(b'-:', b'fifo:', 1))
    sender.wait()
    ours, theirs = socket.socketpair()
    with live('-', stdin=theirs) as console:
        theirs.close()
        ours.sendall(HONEST)
        ours.close()
        seen = console.end()
    expect('a socket', seen == (0, HONEST_LINE, b''), seen)
    with open(write('honest', HONEST), 'rb') as file:
        file.seek(1)
        expect_run('a file from where it stands', ['-'], 1, b'-: refused 9 BAD_RECORD at byte 0 after 0 Steps\n', stdin=file)
        file.seek(0)
        expect_run('a device that is standard input', ['/dev/stdin'], 0, HONEST_LINE.replace(b'-:', b'/dev/stdin:', 1),
                   stdin=file)
    expect_run('standard input twice', ['-', '-'], 1, HONEST_LINE + b'-: refused 8 SHORT at byte 0 after 0 Steps\n',
               stdin=None, input=HONEST)
    expect_run('a standard input that is closed', ['-', 'honest', '-'], 2, HONEST_LINE.replace(b'-:', b'honest:', 1),
               b'console: -: Bad file descriptor\n' * 2, preexec_fn=lambda: os.close(0))


def try_follow():
    """The line comes with the byte with which a fault is known, not before; the sender goes on, and the verdict comes last."""
    for name, (trace, number, number_name, place, steps) in FAULTY.items():
        last = place + KNOWN_WITH[number](place, layout_of(trace)) - 1
        with live('--follow', '-') as console:
            console.send(trace[:last])
            early = console.line(A_WHILE)
            console.send(trace[last:last + 1])
            line = console.line()
            later = console.line(A_WHILE)
            console.send(trace[last + 1:] + bytes(1 << 20))
            seen = end_of(console)
        due = f'-: refused {number} {number_name} at byte {place} after {steps} Steps\n'.encode()
        expect(f'{name}: told when it is known', line == known('-', trace, number, number_name, place), line)
        expect('not before, and no more until the end', (early, later) == (b'', b''), (early, later))
        expect('and the verdict, when the sender is done', seen == (1, due, b''), seen)
    with live('--follow', '/dev/zero') as console:
        line = console.line()
    expect('a device without end', line == b'/dev/zero: 9 BAD_RECORD known after 4 bytes\n', line)


def followed(lines):
    """Lines of verdicts, and before each that of a fault which is known before the end."""
    for line in lines.decode().splitlines():
        name, number, number_name, place = re.fullmatch(
            r'(.*): (?:accepted.*|refused (\d+) (\w+) at byte (\d+) after .*)', line).groups()
        if number and int(number) in KNOWN_WITH:
            yield known(name, read(name), int(number), number_name, int(place))
        yield f'{line}\n'.encode()


def try_follow_files():
    for name, names in {'samples': sorted(os.listdir(SAMPLES)), 'honest and damaged': sorted(os.listdir(FOLDER))}.items():
        folder = SAMPLES if name == 'samples' else FOLDER
        files = [os.path.join(folder, file) for file in names if folder == FOLDER or file.endswith('.trace')]
        status, lines, err = run(*files)
        expect(f'--follow: {len(files)} traces, {name}',
               run('--follow', *files) == (status, b''.join(followed(lines)), err) and status == 1 and err == b'')
        expect('and --quiet', run('--follow', '--quiet', *files) == (1, b'', b''))
    expect_run('a name that would forge a line', ['--follow', write('a\nb', STALE)], 1,
               (STALE_KNOWN + STALE_LINE).replace(b'-:', b'a?b:'))
    expect_run('a file that is not there; the others are judged, and 2 wins', ['--follow', 'missing', 'a\nb'], 2,
               (STALE_KNOWN + STALE_LINE).replace(b'-:', b'a?b:'), b'console: missing: No such file or directory\n')


def try_usage():
    for option, told in {'--html': b'--html takes no other option', '--count': b'--count takes --quiet and --totals alone',
                         '--explain': b'--follow takes --quiet alone', '--trace': b'--follow takes --quiet alone'}.items():
        status, out, err = run('--follow', option, 'honest')
        expect(f'--follow with {option}', status == 2 and out == b'' and told in err and b'usage: console' in err, err)
    expect_run('--follow and no file', ['--follow'], 2, b'', b'usage: console')
    out = run('--help')[1]
    expect('--help', b'FILE: NUMBER NAME known after N bytes' in out and b'console --follow [--quiet] [--] FILE' in out, out)


def try_output():
    with open('/dev/full', 'wb') as full, live('--follow', '-', stdout=full) as console:
        console.send(STALE)
        status, _, err = console.end()
    expect('a line that cannot be written ends it at once', (status, err) ==
           (2, b'console: standard output: No space left on device\n'), (status, err))


def try_failing():
    """A read that fails in the middle is no end of the trace."""
    trouble = b'console: -: Input/output error\n'
    good = HONEST_LINE.replace(b'-:', b'honest:', 1)
    for name, content, follow in (('a part of a trace', HONEST[:1000], b''), ('a whole trace', HONEST, b''),
                                  ('a wrong Step', STALE, STALE_KNOWN)):
        for options, out in (([], b''), (['--follow'], follow)):
            with failing_file(content) as file:
                expect_run(f'a read that fails behind {name} {options}', [*options, '-', 'honest'], 2, out + good, trouble,
                           stdin=file)


def peak(*files):
    """The most memory, in kilobytes, that the console took to judge files, and its lines; it waits for one more trace then."""
    with live(*files, '-') as console:
        lines = [console.line(10 * 60) for _ in files]
        most = most_memory(console.process.pid)
        end_of(console)
    return most, lines


def try_sizes():
    """A trace of any length takes the same memory: a megabyte more or less, where the longest trace has 13. An emulator's own
    grows with the code that it has met."""
    least, _ = peak('honest')
    margin = 4096 if KIND == 'emulated' else 1024
    longest = long_trace(LONGEST)
    with open(write('huge', longest), 'r+b') as file:
        file.truncate(1 << 30)
    os.mkfifo('zeros')
    sender = subprocess.Popen(['sh', '-c', 'head -c 1073741824 /dev/zero >zeros'], stderr=subprocess.PIPE)
    for name, file, verdict in (
            ('a pipe of a gigabyte', 'zeros', 'refused 9 BAD_RECORD at byte 0 after 0 Steps'),
            ('the longest trace', write('longest', longest), accepted(longest)),
            ('the longest trace in a file of a gigabyte', 'huge',
             f'refused 12 TRAILING at byte {length_of(LONGEST)} after {LONGEST} Steps')):
        most, lines = peak(file)
        expect(name, lines == [f'{file}: {verdict}\n'.encode()], lines)
        expect(f'and its memory, {most} kB as {least} kB', abs(most - least) <= margin)
    expect('the pipe was read to its end', sender.wait() == 0 and sender.stderr.read() == b'')
    sender.stderr.close()


def try_readme():
    """The example of the README, literally."""
    readme = read(os.path.join(ROOT, 'README.md')).decode()
    command, out = re.search(r'^    \$ (.* \| \./console --follow -)\n((?:    [^$].*\n)+)', readme, re.M).groups()
    with open('console', 'w', encoding='utf-8') as script:
        script.write('#!/bin/sh\nexec ' + ' '.join(f"'{word}'" for word in COMMAND) + ' "$@"\n')
    os.chmod('console', 0o755)
    os.symlink(SAMPLES, 'samples')
    done = subprocess.run(['sh', '-c', command], capture_output=True, check=False)
    expect(f'README: {command}', (done.stdout.decode(), done.stderr) == (re.sub('^    ', '', out, flags=re.M), b''), done)


def try_leaks():
    looking = {**os.environ, 'ASAN_OPTIONS': 'detect_leaks=1'}
    expect_run('no leak', ['--follow', '-'], 1, STALE_KNOWN + STALE_LINE, stdin=None, input=STALE, env=looking)


TRIES = [try_pieces, try_sources, try_follow, try_follow_files, try_usage, try_output, try_failing, try_sizes, try_readme]
with tempfile.TemporaryDirectory() as room:
    os.chdir(room)
    for one in TRIES + ([try_leaks] if KIND == 'sanitized' else []):
        one()
    os.chdir('/')
runs.end()
