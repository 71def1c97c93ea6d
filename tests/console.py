#!/usr/bin/env python3
"""console.py KIND FOLDER LINES COMMAND...: tries the console program as a user does.

COMMAND runs the console. FOLDER holds traces, honest and damaged, and LINES what it has to print for them. KIND says how the
program runs: emulated; plain, and then it is tried with little memory too; or sanitized, and then a few runs look for leaks
too. Ends with `N passed, M failed`.
"""
import itertools
import os
import random
import re
import resource
import struct
import subprocess
import sys
import tempfile

sys.dont_write_bytecode = True
from editions import version_line  # noqa: E402
from names import shown  # noqa: E402
from page import Page  # noqa: E402
from records import (  # noqa: E402
    BLOCK_SIZE, END_SIZE, NEW, OLD, OLD_SHORTEST, SAMPLES, SHORTEST, START_SIZE, STEP_NUMBER, STEP_SIZE, accepted,
    long_trace, start_record)
from runs import Live, Runs, on_terminal, read, write  # noqa: E402
from status import differing_fields  # noqa: E402

USAGE = b'usage: console'
WARNING = b'  warning: no Step was done, so the trace shows nothing of what the unit runs\n'

KIND, FOLDER, LINES, COMMAND = sys.argv[1], sys.argv[2], sys.argv[3], sys.argv[4:]
runs = Runs(COMMAND)
run, expect, expect_run = runs.run, runs.expect, runs.expect_run

# Looking for leaks takes some 4 s a run on Arm, whatever the program does. The many runs do without; try_leaks looks.
os.environ['ASAN_OPTIONS'] = 'detect_leaks=0'


def try_verdicts():
    good, cut = write('good', SHORTEST), write('cut', SHORTEST[:-1])
    good_line, cut_line = b'good: accepted, 0 Steps\n', b'cut: refused 8 SHORT at byte %d after 0 Steps\n' % START_SIZE
    missing = b'console: missing: No such file or directory\n'
    expect_run('accepted', [good], 0, good_line)
    expect_run('accepted, of the old layout', [write('old', OLD_SHORTEST)], 0, b'old: accepted, 0 Steps\n')
    expect_run('refused', [cut], 1, cut_line)
    expect_run('one refused of two', [cut, good], 1, cut_line + good_line)
    expect_run('a file that is not there; the others are judged, and 2 wins', [cut, 'missing', good], 2,
               cut_line + good_line, missing)
    expect_run('--quiet', ['--quiet', good, cut], 1, b'')
    expect_run('--quiet still names a file that cannot be read', ['--quiet', good, 'missing'], 2, b'', missing)


def try_usage():
    expect_run('no file', [], 2, b'', USAGE)
    expect_run('options and no file', ['--quiet', '--'], 2, b'', USAGE)
    expect_run('an option that is none', ['--loud', 'good'], 2, b'', b'no option --loud')
    status, out, err = run('--help')
    expect('--help', status == 0 and out.startswith(USAGE) and b'Exit status' in out and err == b'', (status, out, err))
    expect_run('--version', ['--version'], 0, version_line('console'))
    write('--quiet', SHORTEST)
    expect_run('-- ends the options', ['--', '--quiet'], 0, b'--quiet: accepted, 0 Steps\n')
    expect_run('-- and -', ['--', '-'], 1, b'-: refused 8 SHORT at byte 0 after 0 Steps\n')


def try_lists():
    """Names in a list, as `find` writes them or in lines."""
    good_line, cut_line = b'good: accepted, 0 Steps\n', b'cut: refused 8 SHORT at byte %d after 0 Steps\n' % START_SIZE
    for name, text in {'zeros': b'good\0cut\0', 'zeros, the last one missing': b'good\0cut', 'lines': b'good\ncut\n',
                       'lines, the last one without its end': b'good\ncut'}.items():
        expect_run(f'a list of {name}', ['--files-from', write('list', text)], 1, good_line + cut_line)
        expect_run('and on standard input', ['--files-from', '-'], 1, good_line + cut_line, stdin=None, input=text)
    write('one\ntwo', SHORTEST)
    expect_run('a name with an end of line', ['--files-from', write('list', b'one\ntwo\0')], 0, b'one?two: accepted, 0 Steps\n')
    write('--help', SHORTEST)
    expect_run('a name like an option', ['--files-from', write('list', b'--help\n')], 0, b'--help: accepted, 0 Steps\n')
    expect_run('a file that is not there', ['--files-from', write('list', b'cut\nmissing\ngood\n')], 2, cut_line + good_line,
               b'console: missing: No such file or directory\n')
    expect_run('with --quiet', ['--quiet', '--files-from', write('list', b'good\ncut\n')], 1, b'')
    expect_run('with --explain', ['--files-from', write('list', b'good\n'), '--explain'], 0, good_line + WARNING)
    expect_run('with --count', ['--count', '--files-from', 'list'], 0, b'')
    write('log', b'E1002200\n')
    expect_run('with --instructions', ['--instructions', '--files-from', write('list', b'log\n')], 0,
               b'E1002200  MRS r2, R8_usr: read 0\n')
    many = b'good\0' * 300000  # more than arguments have room for
    expect_run('300,000 names', ['--files-from', '-'], 0, good_line * 300000, stdin=None, input=many)
    try_no_lists()


def try_no_lists():
    for name, text, why in (('without a name', b'', b'names no file'), ('with an empty line', b'good\n\ncut\n', b'name 2 is empty'),
                            ('with an empty name', b'\0good\0', b'name 1 is empty'),
                            ('with standard input', b'good\n-\n', b'name 2 is -, which is no file')):
        expect_run(f'a list {name}: nothing is judged', ['--files-from', write('list', text)], 2, b'', b'console: list: %b\n' % why)
    expect_run('a list that is not there', ['--files-from', 'missing'], 2, b'', b'console: missing: No such file or directory\n')
    expect_run('a list that is a directory', ['--files-from', '.'], 2, b'', b'console: .: Is a directory\n')
    for name, arguments in {'none': ['--files-from'], 'two': ['--files-from', 'list', '--files-from', 'list']}.items():
        expect_run(f'--files-from with {name}', arguments, 2, b'', b'console: --files-from takes one file, or - for standard ')
    expect_run('a list and files', ['--files-from', 'list', 'good'], 2, b'', b'console: --files-from stands in place of files')
    expect_run('a list and --html', ['--files-from', 'list', '--html'], 2, b'', b'console: --html takes one file')


def try_input():
    expect_run('standard input', ['-'], 0, b'-: accepted, 0 Steps\n', stdin=None, input=SHORTEST)
    in_pieces = subprocess.Popen(['dd', 'if=good', 'bs=1', 'status=none'], stdout=subprocess.PIPE)
    expect_run('a pipe in pieces of one byte', ['-'], 0, b'-: accepted, 0 Steps\n', stdin=in_pieces.stdout)
    in_pieces.wait()
    write('empty', b'')
    expect_run('an empty file', ['empty'], 1, b'empty: refused 8 SHORT at byte 0 after 0 Steps\n')
    expect_run('a directory', ['.'], 2, b'', b'console: .: Is a directory\n')
    expect_run('an empty device', ['/dev/null'], 1, b'/dev/null: refused 8 SHORT at byte 0 after 0 Steps\n')
    expect_run('a device without end, into which --explain looks', ['--explain', '/dev/zero'], 1,
               b'/dev/zero: refused 9 BAD_RECORD at byte 0 after 0 Steps\n'
               b'  the Start was due, of length 188 and kind 4, or of 184 and 1 in the old layout; '
               b'length 0 and kind 0 are there\n')
    expect_run('a file that fails while it is read', ['/proc/self/mem'], 2, b'', b'console: /proc/self/mem: ')
    with open(write('huge', SHORTEST), 'r+b') as file:
        file.truncate(400 << 20)
    expect_run('a file of 400 megabytes', ['huge'], 1, b'huge: refused 12 TRAILING at byte %d after 0 Steps\n' % len(SHORTEST))
    if os.getuid() == 0:
        return  # root may read every file
    os.chmod(write('locked', SHORTEST), 0)
    expect_run('a file without the right to it', ['locked'], 2, b'', b'console: locked: Permission denied\n')


def try_output():
    with open('/dev/full', 'wb') as full:
        for words in (['good'], ['--version']):
            expect_run(f'output that cannot be written: {words}', words, 2, None, b'console: standard output: No space left',
                       stdout=full)
    command = ' '.join(f"'{word}'" for word in COMMAND)
    status, written = on_terminal(f'(sleep 0.5; cat good) | {command} - good')
    expect('progress on a terminal', status == 0 and b'1 of 2 files judged' in written, (status, written))
    status, written = on_terminal(f'(sleep 0.5; cat good) | {command} -')
    expect('no progress with one file', status == 0 and written == b'', (status, written))


def try_order():
    """Where both outputs go to one place, what is told stands between the lines of the files around it."""
    seen = run('good', 'missing', 'good', stderr=subprocess.STDOUT)
    line = b'good: accepted, 0 Steps\n'
    expect('one place for both outputs', seen[1] == line + b'console: missing: No such file or directory\n' + line, seen)
    os.mkfifo('fifo')
    with Live(COMMAND + ['good', 'fifo']) as console:
        expect('a line is not held back while the next trace is waited for', console.line() == line)
        write('fifo', SHORTEST)
        expect('which then comes', console.end()[:2] == (0, b'fifo: accepted, 0 Steps\n'))
    with open('/dev/full', 'wb') as full:
        expect_run('many lines that cannot be written', ['good'] * 1000, 2, None, b'console: standard output: No space left',
                   stdout=full)


def try_memory():
    def limit():
        resource.setrlimit(resource.RLIMIT_AS, (12 << 20, 12 << 20))
    expect_run('no memory for a whole trace', ['--explain', 'good'], 2, b'', b'console: no memory for 13369337 bytes\n',
               preexec_fn=limit)
    expect_run('and none is needed for one that is judged', ['huge'], 1,
               b'huge: refused 12 TRAILING at byte %d after 0 Steps\n' % len(SHORTEST), preexec_fn=limit)


def try_leaks():
    """Runs that look for leaks, one of each kind. They end and print as they do without: a leak would be told."""
    honest, wrong = (os.path.join(SAMPLES, name) for name in ('honest.trace', 'stale-spsr.trace'))
    looking = {**os.environ, 'ASAN_OPTIONS': 'detect_leaks=1'}
    for arguments in [[honest], [wrong], ['--explain', wrong], ['--trace', honest], ['--html', honest], ['--html', wrong],
                      ['missing', honest], ['--files-from', write('list', b'good\ncut\n')], ['--files-from', '/dev/null']]:
        seen = run(*arguments, env=looking)
        expect(f'no leak: {" ".join(map(os.path.basename, arguments))}', seen == run(*arguments), (seen[0], seen[2]))


def parted(out):
    """The lines of verdicts, and for each the lines that are told under it."""
    verdicts, told = [], []
    for line in out.splitlines(keepends=True):
        if line.startswith(b'  '):
            told[-1].append(line)
        else:
            verdicts.append(line)
            told.append([])
    return verdicts, told


def try_telling():
    expect_run('--explain', ['--explain', 'good', 'cut'], 1,
               b'good: accepted, 0 Steps\n%bcut: refused 8 SHORT at byte %d after 0 Steps\n'
               b'  the End of %d bytes was due; only %d are there\n' % (WARNING, START_SIZE, END_SIZE, END_SIZE - 1))
    expect_run('--explain --quiet', ['--explain', '--trace', '--quiet', 'cut'], 1, b'')
    expect_run('--trace', ['--trace', 'good'], 0, b'good: accepted, 0 Steps\n')


# Beginnings of a trace, and what was due: by the kind of the Start, or either layout's where it does not tell.
NEITHER = 'or of 184 and 1 in the old layout; '
DUE = {
    b'': 'SHORT: the Start of 188 bytes was due, or of 184 in the old layout; only 0 are there',
    b'\xbc\0\4': 'SHORT: the Start of 188 bytes was due, or of 184 in the old layout; only 3 are there',
    b'\xbc\0\4\0': 'SHORT: the Start of 188 bytes was due; only 4 are there',
    b'\xb8\0\1\0': 'SHORT: the Start of 184 bytes was due; only 4 are there',
    b'\xb8\0\4\0': 'BAD_RECORD: the Start was due, of length 188 and kind 4; length 184 and kind 4 are there',
    b'\xbc\0\1\0': 'BAD_RECORD: the Start was due, of length 184 and kind 1; length 188 and kind 1 are there',
    b'\xcc\0\5\0': f'BAD_RECORD: the Start was due, of length 188 and kind 4, {NEITHER}length 204 and kind 5 are there',
    b'\xc8\0\2\0': f'BAD_RECORD: the Start was due, of length 188 and kind 4, {NEITHER}length 200 and kind 2 are there',
    SHORTEST[:-8]: 'SHORT: the End of 8 bytes was due; only 0 are there',
    OLD_SHORTEST[:-8]: 'SHORT: the End of 8 bytes was due; only 0 are there',
    SHORTEST[:-8] + b'\xcc\0\5\0':
        'BAD_RECORD: the End was due, of length 8 and kind 3; length 204 and kind 5 are there',
    SHORTEST[:-8] + b'\xc8\0\2\0':
        'BAD_RECORD: the End was due, of length 8 and kind 3; length 200 and kind 2 are there, '
        'a Step of the old layout behind a Start of the new one',
    start_record(1) + b'\xc8\0\2\0':
        'BAD_RECORD: a Step was due, of length 204 and kind 5; length 200 and kind 2 are there, '
        'a Step of the old layout behind a Start of the new one',
    start_record(1, bytes(OLD.block_size), OLD) + b'\xcc\0\5\0':
        'BAD_RECORD: a Step was due, of length 200 and kind 2; length 204 and kind 5 are there, '
        'a Step of the new layout behind a Start of the old one',
}


def try_due():
    for content, due in DUE.items():
        name, told = due.split(': ', 1)
        status, out, err = run('--explain', write('begun', content))
        line, *under = out.decode().splitlines()
        expect(f'due: {told}', (status, under, err) == (1, [f'  {told}'], b'') and f' {name} at byte ' in line,
               (line, under))
        expect_page('its page', page_of('begun'), told, steps=0)


def try_virtual_lines():
    """What only the old layout knows, in lines and on the page; and the same in the new one."""
    reason = 'refused with 4 BAD_EVENT (a virtual line: in the new layout HCR.VF and VI signal a guest)'
    taken = 'virtual IRQ: enters IRQ mode at 0x18'
    for name, event, outcome in (('virtual-by-hcr', 'no line', taken), ('virtual-line-in-old', 'lines virtual IRQ', taken),
                                 ('virtual-line', 'A 16, above 7', reason), ('virtual-line-taken', 'A 16, above 7', reason)):
        told = f'interrupt check, {event}', 'Non-secure Supervisor, nothing masked', outcome
        sample = os.path.join(SAMPLES, f'{name}.trace')
        line = run('--trace', sample)[1].decode().splitlines()[2]
        expect(f'--trace {name}: the check', line.removesuffix(': WRONG').endswith(f': {"; ".join(told)}'), line)
        page = run('--html', sample)[1].decode()
        expect('its page', all(part in page for part in told), page)


def try_layouts():
    """What only the new layout knows, in lines and on the page; and the same in the old one."""
    for name, due in {'debug': (4, 2), 'debug-in-old': (0, 0), 'honest-old': (0, 0)}.items():
        out = run('--trace', os.path.join(SAMPLES, f'{name}.trace'))[1].decode()
        seen = out.count('debug Prefetch Abort'), out.count('note: HDCR becomes')
        expect(f'--trace {name}: debug aborts and notes of HDCR', seen == due, out)
    out = run('--trace', os.path.join(SAMPLES, 'debug-in-old.trace'))[1].decode()
    refused = re.findall(r': ([^:;]*);[^;]*; (refused .*)', out)
    expect('refused in the old one', refused == [
        (event, 'refused with 4 BAD_EVENT (not known in the old layout)') for event in
        ('Prefetch Abort, A 4, above 3', 'note of 0x00000000, A 44, above 43')], refused)
    try_virtual_lines()
    new, old = (run('--explain', '--trace', os.path.join(SAMPLES, name))[1].decode().splitlines()[1:] for name in
                ('honest.trace', 'honest-old.trace'))
    places = [re.search(r'at byte (\d+): (.*)', line).groups() for lines in (new, old) for line in lines]
    expect('an old trace is told as a new one, but for where its Steps stand', [told for _, told in places[:9]] ==
           [told for _, told in places[9:]] and [int(at) for at, _ in places] ==
           [form.start_size + form.step_size * i for form in (NEW, OLD) for i in range(9)], places)


def due_lines():
    """The lines for the traces of the folder; how many Steps of an accepted one were done is counted here."""
    for line in read(LINES).decode().splitlines():
        name, verdict = line.split(': ')
        yield (line + accepted(read(name)).removeprefix(verdict) if verdict.startswith('accepted') else line).encode() + b'\n'


def wrong_fields(told):
    """The lines of status words in which the fields that differ are not told, or others are; and how many were looked at."""
    lines = [line.decode() for lines in told for line in lines if re.match(rb'    (CPSR|SPSR_\w+) ', line)]
    parts = (line.split(maxsplit=5) for line in lines)
    due = [f'    {name} {due} due, {found} found: {differing_fields(int(found, 16), "due", int(due, 16))}\n'
           for name, due, _, found, *_ in parts]
    return [pair for pair in zip(lines, due) if pair[0] != pair[1]], len(lines)


def try_folder():
    names = [os.path.join(FOLDER, name) for name in sorted(os.listdir(FOLDER))]
    lines = list(due_lines())
    status, out, err = run(*names)
    wrong = [pair for pair in zip(out.splitlines(keepends=True), lines) if pair[0] != pair[1]]
    expect(f'{len(names)} traces, honest and damaged', status == 1 and out == b''.join(lines) and err == b'',
           (status, err, wrong[:3]))
    status, out, err = run('--explain', '--trace', *names)
    verdicts, told = parted(out)
    expect('the same, explained: the same verdicts', status == 1 and verdicts == lines and err == b'', (status, err))
    expect('each refusal is explained', all(told[i] for i, line in enumerate(lines) if b': refused' in line))
    warned = [WARNING in under for under in told]
    due = [b'accepted, 0 Steps' in line or b': 0 done, ' in line for line in lines]
    expect(f'{sum(due)} accepted traces in which nothing was done, and no others, are warned of', warned == due and any(due))
    wrong, count = wrong_fields(told)
    expect(f'{count} status words that differ, by their fields', not wrong and count > 0, wrong[:3])


def try_flips():
    """What a single bit that a transfer turns over comes to, for every bit of a sample: the README has the figures."""
    honest, answers = read(os.path.join(SAMPLES, 'honest.trace')), {}
    os.mkdir('flips')
    names = [write(f'flips/{bit}', (int.from_bytes(honest, 'little') ^ 1 << bit).to_bytes(len(honest), 'little'))
             for bit in range(8 * len(honest))]
    for line in run(*names)[1].splitlines():
        answer = re.search(rb': (accepted|refused \d+)', line)[1].decode()
        answers[answer] = answers.get(answer, 0) + 1
    said = (f'Of the {len(names):,} bits of `samples/honest.trace`, turned over one at a time, {answers["refused 11"]:,} end in '
            f'11 WRONG_STEP; {answers["accepted"]} leave a trace that is accepted')
    readme = ' '.join(read(os.path.join(SAMPLES, '../README.md')).decode().split())
    expect('every bit of a trace turned over, and the figures of the README', said in readme, (said, answers))


def try_disabled():
    """Why a call is refused as disabled, in lines and on the page: of what an older recorder shows, and of honest Steps."""
    hvc, smc = 'HVC is disabled: SCR.HCE is 0', 'SMC is disabled: SCR.SCD is 1'
    for name, told in {'hvc-without-hce': {hvc}, 'smc-under-scd': {smc}, 'disabled-calls': {hvc, smc}, 'honest': set()}.items():
        sample = os.path.join(SAMPLES, f'{name}.trace')
        for option in ['--explain', '--trace', '--html']:
            out = run(option, sample)[1].decode()
            due = told if option != '--explain' or len(told) == 1 else set()
            expect(f'{option} {name}: {len(due)} reasons', {why for why in (hvc, smc) if why in out} == due, out[-1000:])
    trace = bytearray(read(os.path.join(SAMPLES, 'disabled-calls.trace')))
    trace[START_SIZE + STEP_NUMBER] = 5
    expect_run('shown as refused for another reason', ['--explain', write('not-here', trace)], 1,
               b'not-here: refused 11 WRONG_STEP at byte 188 after 0 Steps\n'
               b'  Step 1 at byte 188: HVC\n  it was in Non-secure Supervisor, nothing masked\n'
               b'  the rules give: refused with 16 DISABLED (HVC is disabled: SCR.HCE is 0)\n'
               b'    answer number 0x00000010 due, 0x00000005 found\n')
    expect_page('the page of it', page_of('not-here'), hvc, smc, steps=5, wrong=['1'])


# What is told of the returns of samples, behind their states: the reasons of the illegal ones, and of refusals.
RETURNS = {
    'svc-and-return': 3 * ['returns to Non-secure User at 0x00008004'],
    'illegal-returns': [f'illegal return ({why}): stays in {state}, IL becomes 1, goes on at 0x{address:08X}'
                        for why, state, address in [
                            ('mode 0x14 is none', 'Non-secure Supervisor', 0x9000),
                            ('Hyp is above Exception level 1', 'Non-secure Supervisor', 0x9000),
                            ('Monitor is above Exception level 2', 'Non-secure Hyp', 0x9004),
                            ('Non-secure Supervisor with TGE 1', 'Non-secure Hyp', 0x9004),
                            ('Hyp with NS 0', 'Monitor with NS 0', 0x9008)]],
    'refused-returns': ['refused with 3 BAD_STATE (bits 24-21 of the saved word are not 0)', 'refused with 4 BAD_EVENT',
                        'refused with 4 BAD_EVENT', 'refused with 5 NOT_HERE'],
    'honest': [],
}


def try_returns():
    """What comes of a return, in lines and on the page, where it has a mark of its own; and what is due for a wrong one."""
    for name, due in RETURNS.items():
        sample = os.path.join(SAMPLES, f'{name}.trace')
        lines = run('--trace', sample)[1].decode().splitlines()
        told = [line.rpartition('; ')[2] for line in lines if ': exception return' in line]
        expect(f'--trace {name}: {len(due)} returns', told == due, told)
        marked, drawn = run('--html', sample)[1].count(b'<span class="return">'), page_of(sample).marks['return']
        done = sum(not words.startswith('refused') for words in due)
        expect(f'--html {name}: {done} are marked as returns', (marked, drawn) == (done, done), (marked, drawn))
    honest = read(os.path.join(SAMPLES, 'svc-and-return.trace'))
    answer, block = START_SIZE + STEP_SIZE + STEP_NUMBER, START_SIZE + STEP_SIZE + STEP_SIZE - BLOCK_SIZE
    former = honest[:answer] + struct.pack('<II', 4, 0) + honest[block - STEP_SIZE:block - STEP_SIZE + BLOCK_SIZE] + \
        honest[block + BLOCK_SIZE:]
    expect_run('shown as refused, as before No. 9', ['--explain', write('former', former)], 1,
               b'former: refused 11 WRONG_STEP at byte 392 after 1 Steps\n'
               b'  Step 2 at byte 392: exception return\n  it was in Non-secure Supervisor, masked I\n'
               b'  the rules give: returns to Non-secure User at 0x00008004\n'
               b'    answer number 0x00000000 due, 0x00000004 found\n'
               b'    CPSR 0x00000010 due, 0x00000093 found: I set, due clear; mode Supervisor, due User\n'
               b'    PC 0x00008004 due, 0x10000008 found\n')
    expect_page('the page of it', page_of('former'), 'the rules give: returns to Non-secure User', steps=6, wrong=['2'])


def try_readme():
    """What the README shows of verdicts, literally."""
    write('console', ('#!/bin/sh\nexec ' + ' '.join(f"'{word}'" for word in COMMAND) + ' "$@"\n').encode())
    os.chmod('console', 0o755)
    os.symlink(SAMPLES, 'samples')
    readme = read(os.path.join(SAMPLES, '../README.md')).decode()
    for title, least in {'## Two commands': 3, '### Traces of older recorders': 1}.items():
        section = re.search(rf'^{title}\n(.*?)^##', readme, re.M | re.S)[1]
        shows = re.findall(r'^    \$ (.*)\n((?:    [^$].*\n)*)', section, re.M)
        expect(f'README: {title}', len(shows) >= least, shows)
        for command, out in shows:
            done = subprocess.run(['sh', '-c', command], capture_output=True, check=False)
            expect(f'README: {command}', (done.stdout.decode(), done.stderr) == (re.sub('^    ', '', out, flags=re.M), b''), done)


def compare_telling(page, lines):
    """What the page says of Steps against the lines of --explain and --trace."""
    listed = list(page.told_steps())
    first = int(page.steps[0][1][0]) - 1 if page.steps else 0
    told, differences = lines[first:first + len(listed)], [line for line in lines if line.startswith('    ')]
    right = [line for line in told if not line.endswith('WRONG')]
    marks = {'entry': sum(': enters' in line or '; enters' in line for line in right),
             'return': sum('; returns' in line or '; illegal return' in line for line in right),
             'refusal': sum('; refused' in line for line in right)}
    if listed != told or list(page.told_differences()) != differences:
        page.fault(('Steps', listed, told, differences))
    warnings = [line.strip() for line in lines if line.startswith('  warning: ')]
    if page.warnings != warnings or ('warned' in page.header) != bool(warnings):
        page.fault(('warnings', page.header, page.warnings, warnings))
    drawn = list(page.drawn_lanes())
    if 'A column is one Step' in page.text and (page.marks != marks or drawn != list(page.listed_lanes())):
        page.fault(('timeline', page.marks, marks, drawn))


def page_of(name, **options):
    """The page of a file, with its faults: it has to say what the console says in lines, and nothing else."""
    status, out, err = run('--html', name, **options)
    line_status, lines, line_err = run('--explain', '--trace', name, **options)
    line, *lines = lines.decode().rstrip('\n').split('\n')
    page = Page(out)
    if (status, err + line_err, page.title, page.verdict) != (line_status, b'', line, line):
        page.faults.insert(0, (status, err + line_err, page.title, page.verdict, line))
        return page
    compare_telling(page, lines)
    if page.steps:
        page.faults += page.wrong_changes(read(name))
    return page


def expect_pages(name, files):
    pages = {file: page_of(file) for file in files}
    faults = [(file, page.faults[:3]) for file, page in pages.items() if page.faults]
    expect(f'{name}: {len(files)} pages', not faults, faults[:3])


def expect_page(name, page, *texts, **numbers):
    """A page without fault, that has the texts and, of each kind of number, this one."""
    seen = {'steps': len(page.steps), 'wrong': [cells[0] for style, cells, _ in page.steps if style == 'wrong']}
    missing = [text for text in texts if text not in page.text]
    expect(name, not page.faults and not missing and {**seen, **numbers} == seen, (page.faults[:3], missing, seen))


def try_pages():
    names = sorted(os.listdir(FOLDER))
    expect_pages('samples', [os.path.join(SAMPLES, name) for name in os.listdir(SAMPLES) if name.endswith('.trace')])
    expect_pages('honest and damaged', [os.path.join(FOLDER, name) for name in names[::20]])
    expect_page('the page of an empty file', page_of('empty'), 'only 0 are there', 'There is no Step to list.', steps=0)
    expect_page('the page of standard input', page_of('-', stdin=None, input=SHORTEST), steps=0)
    write('text', b'"><script>alert(1)</script>&lt;' * 400)
    expect_page('the page of a text', page_of('text'), 'the Start was due', steps=0)


def limit_steps(form):
    """Steps of every code and of none, with operands, answer numbers and values at their limits and right behind them."""
    for code, a, (number, value) in itertools.product(
            range(15), (2, 3, 4, 5, 8, 9, 31, 32, 43, 44, 45, 63, 64),
            ((0, 6 << 16), (0, 7 << 16), (4, 0), (14, 0), (15, 0), (16, 0), (17, 0), (18, 0))):
        words = struct.pack('<HHIIIII', form.step_size, form.step_kind, code, a, 0, number, value)
        yield words + bytes(form.block_size)


def try_unjudged(form=NEW):
    """Steps behind a wrong one are shown as far as they go."""
    step = (struct.pack('<HH', form.step_size, form.step_kind) + b'"><script>&' * 20)[:form.step_size]
    start = (b'</pre><b>' * 20)[:form.block_size]
    write('text', start_record(9, start, form) + 4 * step + form.step_size * b'<')
    expect_page('text in the form of a trace', page_of('text'), steps=4, wrong=['1'])
    write('text', start_record(9, start, form) + 4 * step + step[:-1])
    expect_page('the same, cut', page_of('text'), steps=4, wrong=['1'])
    write('text', start_record(3, start, form) + 4 * step)
    expect_page('the same, with more Steps than it counts', page_of('text'), steps=3, wrong=['1'])
    limits = list(limit_steps(form))
    write('limits', start_record(1 + len(limits), start, form) + step + b''.join(limits))
    expect_page('Steps at the limits of what they may have', page_of('limits'), steps=1 + len(limits), wrong=['1'])
    if form is NEW:
        other = next(limit_steps(OLD))
        write('mixed', start_record(9, start) + 4 * step + other + 4 * step)
        expect_page('and not beyond a Step of the other layout', page_of('mixed'), steps=4, wrong=['1'])
        try_unjudged(OLD)


def try_long_pages():
    write('long', long_trace(1000))
    expect_page('a page of 1,000 Steps', page_of('long'), steps=1000)
    write('long', long_trace(1000, 613))
    expect_page('a page of 1,000 Steps with a wrong one', page_of('long'), 'Step 613 WRONG', steps=1000, wrong=['613'])
    write('long', long_trace(2001))
    expect_page('a page of 2,001 Steps', page_of('long'), 'Step 1 is not listed.', 'A column is 2 Steps.', steps=2000)
    write('long', long_trace(65535))
    longest = page_of('long')
    expect_page('a page of 65,535 Steps', longest, 'Steps 1 to 63,535 are not listed.', 'A column is 10 Steps.',
                '65,000', steps=2000)
    expect('and its size', longest.size < 4 << 20, longest.size)
    write('long', long_trace(65535, 40000))
    expect_page('a page of 65,535 Steps with a wrong one', page_of('long'), 'Steps 1 to 39,000 are not listed.',
                'Steps 41,001 to 65,535 are not listed.', 'Step 40,000 WRONG', steps=2000, wrong=['40000'])
    write('long', long_trace(65535)[:-1])
    expect_page('a page of 65,535 Steps, cut', page_of('long'), 'stops here: 8 SHORT at byte 13369328')
    write('long', long_trace(65535, 40000, OLD))
    expect_page('the same of the old layout with a wrong one', page_of('long'), 'Step 40,000 WRONG', steps=2000,
                wrong=['40000'])


# Names that would forge a line, order the terminal about or turn the verdict round, names of signs that a page is made of,
# names that are no text, and one that is only foreign; and how each is shown.
NAMES = {
    b'forged\ngood: accepted, 0 Steps': 'forged?good: accepted, 0 Steps',
    b'line\rend\x7f\x1b[31m': 'line?end??[31m',
    'next\u0085line\u2028end\u2029': 'next??line???end???',
    'red\u009b31m': 'red??31m',
    '\u202edetpecca\u202c': '???detpecca???',
    '\u202a\u202b\u202d \u2066\u2067\u2068\u2069 \u200e\u200f\u061c': '????????? ???????????? ????????',
    b'<script>alert(1)<script>': '<script>alert(1)<script>',
    b'</title><h1>forged': '</title><h1>forged',
    b'"a" \'b\' &amp; &#60;': '"a" \'b\' &amp; &#60;',
    b'\xff\xc3(\xe2\x82 \xed\xa0\x80 \xc0\xbc \xf4\x90\x80\x80': '??(?? ??? ?? ????',
    b'\xf0\x9f\x98': '???',
    '\u010derna \u20ac \U0001f600': '\u010derna \u20ac \U0001f600',
}


def try_names():
    os.mkdir('<')  # so that a name can have the / of a tag that closes
    for name, seen in NAMES.items():
        name = name if isinstance(name, bytes) else name.encode()
        expect_run(f'a file named {name!r}', [write(name, SHORTEST)], 0, f'{seen}: accepted, 0 Steps\n'.encode())
        expect_page('its page', page_of(name), steps=0)
        os.remove(name)
        expect_run('the same when it is gone', [name], 2, b'', f'console: {seen}: No such file or directory\n'.encode())
        expect_run('an option of that name', [b'--' + name], 2, b'', f'console: no option --{seen}\n'.encode())


def try_characters():
    """Options of every character of the first plane and of one above, and of random bytes."""
    planes = [''.join(map(chr, range(first, last))).encode() for first, last in
              [(1, 0x6000), (0x6000, 0xD800), (0xE000, 0x10000), (0xE0000, 0xE1000)]]
    rubbish = bytes(random.Random(1).choices([*range(1, 0x100), *range(0x80, 0xC0), 0xC2, 0xE2, 0xF0], k=100000))
    for name, text in [*((f'each of {len(plane.decode()):,} characters', plane) for plane in planes), ('random bytes', rubbish)]:
        expect_run(f'an option of {name}', [b'--' + text], 2, b'', f'console: no option --{shown(text)}\n'.encode())


def try_page_usage():
    expect_run('--html of two files', ['--html', 'good', 'cut'], 2, b'', b'--html takes one file: ')
    for option in ['--quiet', '--explain', '--trace']:
        expect_run(f'--html with {option}', [option, '--html', 'good'], 2, b'', b'--html takes no other option: ')
    expect_run('--html and no file', ['--html'], 2, b'', USAGE)
    expect_run('--html of a directory', ['--html', '.'], 2, b'', b'console: .: Is a directory\n')
    expect_run('--html of a file that is not there', ['--html', 'missing'], 2, b'', b'console: missing: No such file')
    with open('/dev/full', 'wb') as full:
        expect_run('a page that cannot be written', ['--html', 'long'], 2, None,
                   b'console: standard output: No space left', stdout=full)


FOLDER, LINES = os.path.abspath(FOLDER), os.path.abspath(LINES)
with tempfile.TemporaryDirectory() as room:
    os.chdir(room)
    try_verdicts()
    try_usage()
    try_lists()
    try_input()
    try_output()
    try_order()
    try_telling()
    try_folder()
    try_flips()
    try_pages()
    try_due()
    try_layouts()
    try_disabled()
    try_returns()
    try_readme()
    try_unjudged()
    try_long_pages()
    try_names()
    try_characters()
    try_page_usage()
    if KIND == 'plain':
        try_memory()
    if KIND == 'sanitized':
        try_leaks()
    os.chdir('/')
runs.end()
