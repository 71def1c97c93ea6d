#!/usr/bin/env python3
"""record.py KIND COMMAND...: tries the record program as a supplier does.

COMMAND runs the record program; the console stands beside it, under its name with `console` for `record`. KIND says how they
run: emulated; plain, and then with little memory too; or sanitized, and then more random scripts are tried, and a few runs look
for leaks. What a script has to come to is held against the numbers of host/pomurica.h and against the trace's own bytes. Ends
with `N passed, M failed`.
"""
import itertools
import os
import pty
import random
import re
import resource
import subprocess
import sys
import tempfile

sys.dont_write_bytecode = True
from editions import version_line  # noqa: E402
from names import shown  # noqa: E402
from records import (  # noqa: E402
    CPSR, END_SIZE, LONGEST, PLACES, SAMPLES, SHORTEST, START_BLOCK, START_SIZE, STEP_EVENT, STEP_SIZE, accepted, length_of)
from runs import Runs, failing_file, read, write  # noqa: E402
from sentences import REGISTERS  # noqa: E402

KIND, COMMAND = sys.argv[1], [*sys.argv[2:-1], os.path.abspath(sys.argv[-1])]
CONSOLE = [*COMMAND[:-1], re.sub(r'record(?=[^/]*$)', 'console', COMMAND[-1])]
ROOT = os.path.dirname(SAMPLES)
HEADER = {name: int(number, 0) for name, number in
          re.findall(r'POMURICA_(\w+) = (0x\w+|\d+)', read(os.path.join(ROOT, 'host', 'pomurica.h')).decode())}
USAGE = b'usage: record'
MOST_BYTES = 16 << 20
MOST_WORD = 2**32 - 1

# The events whose word is not their name in the header.
NAMED = {'interrupt': 'INTERRUPT_CHECK', 'read': 'BANKED_READ', 'write': 'BANKED_WRITE'}

runs = Runs(COMMAND)
run, expect, expect_run = runs.run, runs.expect, runs.expect_run
os.environ['ASAN_OPTIONS'] = 'detect_leaks=0'  # looking takes some 4 s a run on Arm; try_leaks does


def number_of(kind, word):
    """The header's number for a word of a script."""
    return HEADER[f'{kind}_{word.upper().replace("-", "_")}']


def code_of(word):
    return HEADER['EVENT_' + NAMED.get(word, word.upper().replace('-', '_'))]


def kinds(kind):
    """The names that the header has of a kind."""
    return {name.removeprefix(kind + '_') for name in HEADER if name.startswith(kind + '_')}


def record(script, *options):
    """What the program does with a script: its status, the trace and what it tells."""
    return run(*options, write('script', script if isinstance(script, bytes) else script.encode()))


def words(data, at=0, count=None):
    count = (len(data) - at) // 4 if count is None else count
    return [int.from_bytes(data[at + 4 * i:at + 4 * i + 4], 'little') for i in range(count)]


def steps(trace):
    """The Steps of a trace, each as its words without the head: code, A, B, number, value and the block."""
    return [words(trace[at:at + STEP_SIZE], STEP_EVENT) for at in range(START_SIZE, len(trace) - END_SIZE, STEP_SIZE)]


def events(script):
    """The events that a script comes to, by the trace; or what went wrong."""
    status, trace, told = record(script)
    return [step[:3] for step in steps(trace)] if (status, told) == (0, b'') else (status, trace, told)


def start_block(script):
    status, trace, told = record(script)
    return words(trace, START_BLOCK, PLACES) if (status, told) == (0, b'') else (status, trace, told)


def judge(*arguments):
    done = subprocess.run([*CONSOLE, *arguments], capture_output=True, stdin=subprocess.DEVNULL, timeout=600, check=False)
    return done.returncode, done.stdout.decode(), done.stderr.decode()


def help_lists():
    """The words that --help lists: events with what follows each, registers and places."""
    text = run('--help')[1].decode()
    forms, registers, places = re.search(
        r'\nEvents:\n\n(.*?)\n\nREGISTER.*?\n\n(.*?)\n\nPLACE.*?\n\n(.*?)\n\n', text, re.S).groups()
    return {word: form for word, *form in map(str.split, forms.splitlines())}, registers.split(), places.split()


def flags_of(form):
    """The words of an event of which each may stand, `[FIQ] [IRQ]`, and of which one, `[less-2|less-4]`, `| debug`."""
    groups = [operand.strip('[]').split('|') for operand in form if operand.startswith('[')]
    alone = [word for before, word in zip(form, form[1:]) if before == '|']
    return ([words[0] for words in groups if len(words) == 1],
            [word for words in groups if len(words) > 1 for word in words] + alone)


def try_help():
    status, out, told = run('--help')
    expect('--help', (status, told) == (0, b'') and out.startswith(USAGE) and b'Exit status' in out, (status, told))
    expect_run('--version', ['--version'], 0, version_line('record'))
    expect('no line of it is too long', max(map(len, out.decode().splitlines())) <= 84)
    forms, registers, places = help_lists()
    plain = {word for word in forms if word != 'event'}
    expect('an event for each code of the header, and one in plain numbers',
           sorted(map(code_of, plain)) == list(range(1, len(plain) + 1)) and len(plain) == len(kinds('EVENT')), forms)
    expect('in the order of their codes', [code_of(word) for word in forms if word != 'event'] == sorted(map(code_of, plain)))
    for word, kind, none in (
            ('interrupt', 'LINE', set()), ('prefetch-abort', 'ABORT', set()), ('data-abort', 'ABORT', {'DEBUG'})):
        flags = {flag.upper().replace('-', '_') for flags in flags_of(forms[word]) for flag in flags}
        expect(f'every {kind} of the header, for {word}', flags == kinds(kind) - none, flags)
    expect('debug stands alone', flags_of(forms['prefetch-abort'])[1] == ['debug'], forms['prefetch-abort'])
    expect('what a return may take off', flags_of(forms['return']) == ([], ['less-2', 'less-4', 'less-8']), forms['return'])
    expect('every place, in order, by the name that the console shows', places == REGISTERS, places)
    expect('and it is the header\'s', [number_of('PLACE', place) for place in places] == list(range(PLACES)))
    expect('every banked register', sorted(registers) == sorted(REGISTERS[:CPSR]), registers)


def try_events():
    """Every event word, with every set of its flags in any order, or one word of a choice: code and A, and B 0."""
    forms, dice = help_lists()[0], random.Random(7)
    script, due = '', []
    for word, form in forms.items():
        flags, choice = flags_of(form)
        if form and not flags + choice:
            continue
        kind = 'LINE' if word == 'interrupt' else 'ABORT'
        for some in itertools.chain.from_iterable(itertools.combinations(flags, size) for size in range(len(flags) + 1)):
            script += ' '.join([word, *dice.sample(some, len(some))]) + '\n'
            due.append([code_of(word), sum(number_of(kind, flag) for flag in some), 0])
        for one in choice:
            script += f'{word} {one}\n'
            amount = int(one.removeprefix('less-')) if one.startswith('less-') else number_of(kind, one)
            due.append([code_of(word), amount, 0])
    expect(f'{len(due)} events without an operand or with words', events(script) == due and len(due) > 40, script)
    expect('note of every place', events(''.join(f'note {place} {7 * i}\n' for i, place in enumerate(REGISTERS))) ==
           [[code_of('note'), number_of('PLACE', place), 7 * i] for i, place in enumerate(REGISTERS)])
    numbers = [0, 1, 9, 10, 13, 14, 255, 2**31, MOST_WORD]
    plain = [list(three) for three in itertools.product(numbers, repeat=3)]
    script = ''.join(f'event {code} {a:#x} {b}\n' for code, a, b in plain)
    expect(f'{len(plain)} events in plain numbers', events(script) == plain)


def reachable_from(register):
    """A block from which a register can be reached, as lines: document 01, "Banked-register rights"."""
    if re.fullmatch(r'R\d+_usr', register):
        return 'CPSR = 0x11\n'  # FIQ
    return 'CPSR = 0x13\n' if register.endswith('_mon') else 'CPSR = 0x16\n'  # Secure Supervisor; Monitor


def try_registers():
    """`read` and `write` of each register: the trace shows that the word of its place is read, and then the new one there."""
    registers, wrong = help_lists()[1], []
    for register in registers:
        place = number_of('PLACE', register)
        script = reachable_from(register) + ''.join(
            f'{name} = {0xBA000000 + i:#X}\n'.replace('X', 'x') for i, name in enumerate(REGISTERS[:CPSR]))
        status, trace, told = record(f'{script}read {register}\nwrite {register} 77\n')
        if (status, told) != (0, b''):
            wrong.append((register, status, told))
            continue
        first, second = steps(trace)
        due = first[5:5 + place] + [77] + first[5 + place + 1:]
        if (first[0], first[2:5]) != (code_of('read'), [0, 0, 0xBA000000 + place]) or \
                (second[0], second[1], second[2:5], second[5:]) != (code_of('write'), first[1], [77, 0, 0], due):
            wrong.append((register, first[:5], second[:5]))
    expect(f'read and write of {len(registers)} registers', not wrong and len(registers) == CPSR, wrong[:3])


def try_block():
    for i, place in enumerate(REGISTERS):
        due = [0] * PLACES
        due[number_of('PLACE', place)] = i + 1
        expect(f'{place} of the start block', start_block(f'{place} = {i + 1}\n') == due)
    everything = ''.join(f'{place} = {0xF0000000 + i}\n' for i, place in enumerate(REGISTERS))
    expect('all of them', start_block(everything) == [0xF0000000 + i for i in range(PLACES)])
    for text, value in {'0': 0, '4294967295': MOST_WORD, '0xFFFFFFFF': MOST_WORD, '0xffffffff': MOST_WORD, '0x0': 0,
                        '0x00000000000000000013': 19, '0xAbCdEf09': 0xABCDEF09}.items():
        expect(f'the number {text}', start_block(f'PC = {text}')[REGISTERS.index('PC')] == value)


def try_text():
    """Ways to write the same script."""
    due = record('SCR = 1\nCPSR = 0x13\nsvc\nwrite SP_usr 9\n')[1]
    expect('two Steps', len(due) == length_of(2))
    for name, script in {
            'without the last line end': b'SCR = 1\nCPSR = 0x13\nsvc\nwrite SP_usr 9',
            'with the line ends of Windows': b'SCR = 1\r\nCPSR = 0x13\r\nsvc\r\nwrite SP_usr 9\r\n',
            'with both kinds': b'SCR = 1\r\nCPSR = 0x13\nsvc\r\nwrite SP_usr 9',
            'with a mark of UTF-8 before it': b'\xef\xbb\xbfSCR = 1\nCPSR = 0x13\nsvc\nwrite SP_usr 9\n',
            'with blanks and empty lines': b'\n  SCR\t=  1  \n\t\n\n CPSR = 0x13\nsvc  \n\twrite \t SP_usr  9\t\n\n\n',
            'without blanks around =': b'SCR=1\nCPSR= 0x13\nsvc\nwrite SP_usr 9\n',
            'in another order of the block': b'CPSR = 0x13\nSCR = 1\nPC = 0\nsvc\nwrite SP_usr 9\n',
            'with comments': '# \u017eica \u20ac \U0001f600 #\t"\n#\nSCR = 1#\nCPSR = 0x13 # svc\n# hvc\nsvc#hvc\n'
                             'write SP_usr 9 # 10\n#'.encode()}.items():
        seen = record(script)
        expect(f'a script {name}', seen == (0, due, b''), (seen[0], len(seen[1]), seen[2]))
    for name, script in {'an empty script': b'', 'a line end': b'\r\n', 'a comment': b'# nothing'}.items():
        expect(name, record(script) == (0, SHORTEST, b''))


NUMBER = 'a number, decimal or 0x and hexadecimal digits, of at most 32 bits'
REGISTER = 'a banked register (record --help lists them)'
EVENT = 'an event (record --help lists them)'
LINE = 'an interrupt line (record --help lists them)'
AMOUNT = 'an amount to take off LR (record --help lists them)'
FIRST = 'an event, or PLACE = NUMBER (record --help lists them)'
ASCII, SHOWN = 'ASCII text, outside of comments', 'a comment of characters that are shown, in UTF-8'
TWICE, LATE = 'each word at most once', 'an event: the start block comes before the first one'
END = 'the end of the line'

# Scripts that are none: line and column of the first thing that is wrong, what is found there, and what was expected.
WRONG = [
    ('foo', 1, 1, '`foo`', FIRST),
    ('\n\n  svcs', 3, 3, '`svcs`', FIRST),
    ('svc\nfoo', 2, 1, '`foo`', EVENT),
    ('SVC', 1, 1, '`SVC`', '`svc`'),
    ('Prefetch_Abort', 1, 1, '`Prefetch_Abort`', '`prefetch-abort`'),
    ('scr = 1', 1, 1, '`scr`', '`SCR`'),
    ('vbar-NS = 1', 1, 1, '`vbar-NS`', '`VBAR_ns`'),
    ('= 1', 1, 1, '`=`', FIRST),
    ('7', 1, 1, '`7`', FIRST),
    ('svc 1', 1, 5, '`1`', END),
    ('svc svc', 1, 5, '`svc`', END),
    ('svc = 1', 1, 5, '`=`', END),
    ('hyp-trap\tx # y', 1, 10, '`x`', END),
    ('SCR', 1, 4, END, '`=` and a number'),
    ('SCR 1', 1, 5, '`1`', '`=` and a number'),
    ('SCR == 1', 1, 6, '`=`', NUMBER),
    ('SCR = ', 1, 6, END, NUMBER),
    ('SCR = # 1', 1, 6, END, NUMBER),
    ('SCR = 1 2', 1, 9, '`2`', END),
    ('SCR = x', 1, 7, '`x`', NUMBER),
    ('SCR = -1', 1, 7, '`-1`', NUMBER),
    ('SCR = 1.5', 1, 7, '`1.5`', NUMBER),
    ('SCR = 0x', 1, 7, '`0x`', NUMBER),
    ('SCR = 0X1', 1, 7, '`0X1`', NUMBER),
    ('SCR = 0x1G', 1, 7, '`0x1G`', NUMBER),
    ('SCR = 1F', 1, 7, '`1F`', NUMBER),
    ('SCR = 010', 1, 7, '`010`', 'no zero before a decimal number, or 0x before a hexadecimal one'),
    ('SCR = 00', 1, 7, '`00`', 'no zero before a decimal number, or 0x before a hexadecimal one'),
    ('SCR = 4294967296', 1, 7, '`4294967296`, which has more than 32 bits', NUMBER),
    ('SCR = 0x100000000', 1, 7, '`0x100000000`, which has more than 32 bits', NUMBER),
    ('SCR = 1' + 38 * '0', 1, 7, f'`1{38 * "0"}`, which has more than 32 bits', NUMBER),
    ('SCR = 1' + 300 * '0', 1, 7, f'`1{39 * "0"}..`, which has more than 32 bits', NUMBER),
    ('SCR = 1\nHCR = 2\nSCR = 1', 3, 1, '`SCR` a second time', TWICE + ', and line 1 gives it'),
    ('SCR = 1\nsvc\n HCR = 1', 3, 2, '`HCR` behind an event', LATE),
    ('svc\nscr = 1', 2, 1, '`scr`', '`SCR`'),
    ('interrupt IRQ FIQ IRQ', 1, 19, '`IRQ` a second time', TWICE),
    ('data-abort stage-2 stage-2', 1, 20, '`stage-2` a second time', TWICE),
    ('interrupt 4', 1, 11, '`4`', LINE),
    ('interrupt IRQ, FIQ', 1, 11, '`IRQ,`', LINE),
    ('interrupt irq', 1, 11, '`irq`', '`IRQ`'),
    ('interrupt external', 1, 11, '`external`', LINE),
    ('prefetch-abort IRQ', 1, 16, '`IRQ`', 'a kind of Prefetch Abort (record --help lists them)'),
    ('prefetch-abort stage_2', 1, 16, '`stage_2`', '`stage-2`'),
    ('prefetch-abort Debug', 1, 16, '`Debug`', '`debug`'),
    ('prefetch-abort debug external', 1, 22, '`external` beside another word', '`debug` alone'),
    ('prefetch-abort external stage-2 debug', 1, 33, '`debug` beside another word', '`debug` alone'),
    ('prefetch-abort debug debug', 1, 22, '`debug` a second time', TWICE),
    ('prefetch-abort debug 4', 1, 22, '`4`', 'a kind of Prefetch Abort (record --help lists them)'),
    ('data-abort debug', 1, 12, '`debug`', 'a kind of Data Abort (record --help lists them)'),
    ('hdcr = 1', 1, 1, '`hdcr`', '`HDCR`'),
    ('read HDCR', 1, 6, '`HDCR`', REGISTER),
    ('read', 1, 5, END, REGISTER),
    ('read # SP_usr', 1, 5, END, REGISTER),
    ('read CPSR', 1, 6, '`CPSR`', REGISTER),
    ('read sp_USR', 1, 6, '`sp_USR`', '`SP_usr`'),
    ('read 5', 1, 6, '`5`', REGISTER),
    ('read SP_usr 5', 1, 13, '`5`', END),
    ('write SP_usr', 1, 13, END, NUMBER),
    ('write SP_usr = 5', 1, 14, '`=`', NUMBER),
    ('write SP_usr 5 6', 1, 16, '`6`', END),
    ('write 5', 1, 7, '`5`', REGISTER),
    ('note', 1, 5, END, 'a place of the block (record --help lists them)'),
    ('note R8', 1, 6, '`R8`', 'a place of the block (record --help lists them)'),
    ('note R8_usr', 1, 12, END, NUMBER),
    ('note R8_usr 7 8', 1, 15, '`8`', END),
    ('return 4', 1, 8, '`4`', AMOUNT),
    ('return less 4', 1, 8, '`less`', AMOUNT),
    ('return less-3', 1, 8, '`less-3`', AMOUNT),
    ('return less-0', 1, 8, '`less-0`', AMOUNT),
    ('return Less_4', 1, 8, '`Less_4`', '`less-4`'),
    ('return less-4 less-2', 1, 15, '`less-2`', END),
    ('svc\nRETURN', 2, 1, '`RETURN`', '`return`'),
    ('event', 1, 6, END, NUMBER),
    ('event 1', 1, 8, END, NUMBER),
    ('event 1 2', 1, 10, END, NUMBER),
    ('event 1 2 3 4', 1, 13, '`4`', END),
    ('event svc 0 0', 1, 7, '`svc`', NUMBER),
    (b'svc\n\0', 2, 1, 'byte 0x00', ASCII),
    (b'sv\0c', 1, 3, 'byte 0x00', ASCII),
    (b'svc # \0', 1, 7, 'byte 0x00', SHOWN),
    (b'\x7f', 1, 1, 'byte 0x7F', ASCII),
    (b'SCR \1', 1, 5, 'byte 0x01', ASCII),
    (b'SCR = \1', 1, 7, 'byte 0x01', ASCII),
    (b'SCR =\1', 1, 6, 'byte 0x01', ASCII),
    (b'read \1', 1, 6, 'byte 0x01', ASCII),
    (b'interrupt IRQ\t\1', 1, 15, 'byte 0x01', ASCII),
    (b'return \1', 1, 8, 'byte 0x01', ASCII),
    (b'return less-4\1', 1, 14, 'byte 0x01', ASCII),
    (b'svc \1', 1, 5, 'byte 0x01', ASCII),
    (b'svc\r', 1, 4, 'byte 0x0D', ASCII),
    (b'svc\rsvc', 1, 4, 'byte 0x0D', ASCII),
    (b'svc\x0c', 1, 4, 'byte 0x0C', ASCII),
    (b'# \x1b[2J', 1, 3, 'byte 0x1B', SHOWN),
    (b'# \xff', 1, 3, 'byte 0xFF', SHOWN),
    (b'# \xc3', 1, 3, 'byte 0xC3', SHOWN),
    (b'\xc3\xbc', 1, 1, 'byte 0xC3', ASCII),
    (b'sv\xc3\xbc', 1, 3, 'byte 0xC3', ASCII),
    ('svc # \u20ac \u202e', 1, 11, 'byte 0xE2', SHOWN),
    ('# \u2028svc', 1, 3, 'byte 0xE2', SHOWN),
    (b'svc\n\xef\xbb\xbfsvc', 2, 1, 'byte 0xEF', ASCII),
    (b'\xef\xbb\xbfsvcs', 1, 1, '`svcs`', FIRST),
    (b'svc\r\nsvc\r\nsvcs\r\n', 3, 1, '`svcs`', EVENT),
    ('x' * 40, 1, 1, f'`{"x" * 40}`', FIRST),
    ('x' * 100000, 1, 1, f'`{"x" * 40}..`', FIRST),
]


def try_wrong():
    for script, line, column, found, due in WRONG:
        script = script if isinstance(script, bytes) else script.encode()
        told = f'script:{line}:{column}: found {found}; expected {due}\n'.encode()
        seen = record(script)
        expect(f'{script[:40]!r}: {found[:40]} at {line}:{column}', seen == (2, b'', told), seen)
    checked = [record(script, '--check') for script, *_ in WRONG]
    expect('and the same with --check', [seen[:2] for seen in checked] == [(2, b'')] * len(WRONG), checked[:3])


def try_most():
    """As many events as a trace may have, and one more; scripts as long as they may be, and longer."""
    script = 'SCR = 1\nCPSR = 0x10\n' + LONGEST * 'svc\n'
    status, trace, told = record(script)
    expect('65,535 events', (status, len(trace), told) == (0, length_of(LONGEST), b''), (status, len(trace), told))
    write('longest', trace)
    expect('which the console accepts', judge('longest') == (0, f'longest: {accepted(trace)}\n', ''), judge('longest'))
    expect_run('--check of them', ['--check', 'script'], 0, b''.join(
        b'script:%d: svc: SVC; Non-secure %s; enters Supervisor mode at 0x08\n' %
        (3 + i, b'Supervisor, masked I' if i else b'User, nothing masked') for i in range(LONGEST)))
    expect('a comment behind them', record(script + '# and no more\n')[0] == 0)
    expect_run('65,536 events', [write('script', script.encode() + b'\n hvc')], 2, b'',
               b'script:65539:2: found `hvc` as one event more; expected at most 65535 events\n')
    comment = b'svc\n# ' + (MOST_BYTES - 6) * b'x'
    expect('a script as long as it may be', record(comment)[:2] == record('svc')[:2])
    expect_run('one byte more', [write('script', comment + b'x')], 2, b'',
               b'record: script: more than 16777216 bytes, which no script has\n')


def told_steps(trace):
    """What the console tells of the Steps of a trace."""
    status, out, told = judge('--trace', trace)
    lines = re.findall(r'^  Step \d+ at byte \d+: (.*)\n', out, re.M)
    return lines if (status, told) == (0, '') else (status, out, told)


def compare_checks(name, script):
    """--check against the console's list of the Steps of what is recorded; each line names its line and word."""
    status, trace, told = record(script)
    write('trace', trace)
    lines = [(i + 1, line.split('#')[0].split()[0]) for i, line in enumerate(script.splitlines()) if line.split('#')[0].split()]
    due = [f'script:{line}: {word}: ' for line, word in lines if word not in REGISTERS]
    seen = run('--check', 'script')
    out = seen[1].decode().splitlines()
    right = (status, told, seen[0], seen[2], len(out)) == (0, b'', 0, b'', len(due)) and \
        [line[:len(start)] for line, start in zip(out, due)] == due and \
        [line[len(start):] for line, start in zip(out, due)] == told_steps('trace')
    expect(f'--check {name}: {len(out)} lines', right, (status, told, seen[0], seen[2], out[:3]))


def any_event(dice, forms, registers):
    """An event of any word, in plain numbers too."""
    word, form = dice.choice(list(forms.items()))
    if '|' in form:
        form = dice.choice([form[:form.index('|')], form[form.index('|') + 1:]])
    out = [word]
    for operand in form:
        if operand.startswith('['):
            out += [dice.choice(operand.strip('[]').split('|'))] * dice.getrandbits(1)
        elif operand.islower():
            out.append(operand)
        else:
            out.append(dice.choice(registers) if operand == 'REGISTER' else dice.choice(REGISTERS) if operand == 'PLACE'
                       else str(dice.choice([0, 1, 2, 9, 12, 13, 31, 33, 0x10, 0x13, 0x1A, 2**31, MOST_WORD])))
    return ' '.join(out)


def any_script(dice, forms, registers, count):
    block = [f'CPSR = {dice.choice([0x10, 0x11, 0x12, 0x13, 0x16, 0x17, 0x1B, 0x1F, 0x1A, 0])}']
    block += [f'{place} = {dice.getrandbits(32):#x}' for place in dice.sample(REGISTERS, 9) if place not in ('CPSR', 'HCR')]
    lines = block + [any_event(dice, forms, registers) for _ in range(count)]
    return ''.join(line + dice.choice(['\n', ' # x\n', '\t\n', '\n\n', '\n# y\n']) for line in lines)


def try_check():
    forms, registers, _ = help_lists()
    dice = random.Random(11)
    for name in sorted(os.listdir(SAMPLES)):
        if name.endswith('.script'):
            compare_checks(name, read(os.path.join(SAMPLES, name)).decode())
    for i in range(20):
        compare_checks(f'random script {i}', any_script(dice, forms, registers, 200))
    refused = run('--check', os.path.join(SAMPLES, 'refused-event.script'))[1].decode().splitlines()
    expect('refused events have number and name',
           [line.rpartition('; ')[2] for line in refused] ==
           ['refused with 5 NOT_HERE', 'refused with 7 NO_RIGHT (no banked register is accessible from User)'], refused)
    disabled = run('--check', os.path.join(SAMPLES, 'disabled-calls.script'))[1].decode().splitlines()
    expect('disabled calls have the reason too, and Undefined in their places is taken',
           [line.rpartition('; ')[2] for line in disabled if ': note: ' not in line] ==
           ['refused with 16 DISABLED (HVC is disabled: SCR.HCE is 0)', 'enters Undefined mode at 0x04',
            'refused with 16 DISABLED (SMC is disabled: SCR.SCD is 1)', 'enters Undefined mode at 0x04'], disabled)
    checks = [run('--check', os.path.join(SAMPLES, name))[1].decode().splitlines()[1] for name in
              ('virtual-by-hcr.script', 'virtual-line.script')]
    expect('a virtual interrupt by HCR is taken, and by its line refused with the reason',
           [line.rpartition('; ')[2] for line in checks] ==
           ['virtual IRQ: enters IRQ mode at 0x18',
            'refused with 4 BAD_EVENT (a virtual line: in the new layout HCR.VF and VI signal a guest)'], checks)
    returns = run('--check', os.path.join(SAMPLES, 'svc-and-return.script'))[1].decode().splitlines()
    expect('returns have what is taken off, and where they go on',
           [line.split(': ', 2)[2] for line in returns if ': return: ' in line] ==
           [f'exception return{less}; Non-secure {state}; returns to Non-secure User at 0x00008004' for less, state in
            [('', 'Supervisor, masked I'), (', LR less 4', 'IRQ, masked A I'), ('', 'Hyp, masked A I F')]], returns)
    expect_run('--check of no event', ['--check', write('script', b'SCR = 1\n')], 0, b'')


def try_accepted():
    """Random scripts are recorded, and accepted by the console with as many Steps."""
    forms, registers, _ = help_lists()
    dice, names, due = random.Random(13), [], ''
    for i in range(40):
        count = dice.randrange(60)
        status, trace, told = record(any_script(dice, forms, registers, count))
        names.append(write(f'any-{i}', trace))
        due += f'any-{i}: {accepted(trace)}\n'
        if (status, told, len(trace)) != (0, b'', length_of(count)):
            expect(f'random script {i}', False, (status, told, len(trace)))
    expect(f'{len(names)} random scripts are accepted', judge(*names) == (0, due, ''), judge(*names)[2])


def try_usage():
    script = write('good', b'svc\n')
    trace = run(script)[1]
    expect_run('no script', [], 2, b'', USAGE)
    expect_run('--check alone', ['--check'], 2, b'', USAGE)
    expect_run('two scripts', [script, script], 2, b'', b'record: a trace is of one script, and here is another: good\nusage: ')
    expect_run('an option that is none', ['--trace', script], 2, b'', b'record: no option --trace\nusage: ')
    expect_run('an option behind the script', [script, '--check'], 0, run('--check', script)[1])
    expect_run('-- ends the options', ['--', write('--check', b'svc\n')], 0, trace)
    expect_run('--help with others', ['--help', script], 0, run('--help')[1])


def try_input():
    trace = run('good')[1]
    expect_run('standard input', ['-'], 0, trace, stdin=None, input=b'svc\n')
    expect_run('--check of it', ['--check', '-'], 0, b'-:1: svc: SVC; mode 0x00, which is none, nothing masked; '
               b'refused with 2 BAD_MODE\n', stdin=None, input=b'svc\n')
    expect_run('what is wrong with it', ['-'], 2, b'', b'-:2:1: found `SVC`; expected `svc`\n', stdin=None, input=b'svc\nSVC\n')
    expect_run('an empty one', ['-'], 0, SHORTEST)
    in_pieces = subprocess.Popen(['dd', 'if=good', 'bs=1', 'status=none'], stdout=subprocess.PIPE)
    expect_run('a pipe in pieces of one byte', ['-'], 0, trace, stdin=in_pieces.stdout)
    in_pieces.wait()
    expect_run('a closed one', ['-'], 2, b'', b'record: -: Bad file descriptor\n', preexec_fn=lambda: os.close(0))
    expect_run('a directory', ['.'], 2, b'', b'record: .: Is a directory\n')
    expect_run('a file that is not there', ['missing'], 2, b'', b'record: missing: No such file or directory\n')
    expect_run('an empty name', [''], 2, b'', b'record: : No such file or directory\n')
    expect_run('a device without end', ['/dev/zero'], 2, b'', b'record: /dev/zero: more than 16777216 bytes, ')
    with failing_file(b'svc\n') as file:
        expect_run('a read that fails', ['-'], 2, b'', b'record: -: ', stdin=file)
    expect_run('a trace as a script', [write('trace', SHORTEST)], 2, b'', b'trace:1:1: found byte 0xBC; expected ')
    if os.getuid() == 0:
        return  # root may read every file
    os.chmod(write('locked', b'svc\n'), 0)
    expect_run('a file without the right to it', ['locked'], 2, b'', b'record: locked: Permission denied\n')


def try_output():
    write('long', b'svc\n' * 3000)
    for arguments in (['good'], ['long'], ['--check', 'good'], ['--check', 'long'], ['--help']):
        with open('/dev/full', 'wb') as full:
            expect_run(f'a full disk: {" ".join(arguments)}', arguments, 2, None,
                       b'record: standard output: No space left on device\n', stdout=full)
        if KIND != 'emulated':  # an emulator may have opened something in its place
            expect_run(f'a closed output: {" ".join(arguments)}', arguments, 2, b'',
                       b'record: standard output: Bad file descriptor\n', preexec_fn=lambda: os.close(1))
    master, slave = pty.openpty()
    expect_run('a trace for a terminal', ['good'], 2, None, b'record: a trace is no text for a terminal; ', stdout=slave)
    expect_run('and --check for it', ['--check', 'good'], 0, None, stdout=slave)
    os.close(slave)
    seen = os.read(master, 4096)
    expect('which prints just its line', seen.startswith(b'good:1: svc: ') and seen.count(b'\n') == 1, seen)
    os.close(master)


# Names that would forge a line, order the terminal about or turn a line round, and names that are no text.
NAMES = [b'forged\ngood:1:1: found', b'line\rend\x7f\x1b[31m', 'next\u0085line\u2028end'.encode(),
         '\u202etpircs\u202c'.encode(), b'\xff\xc3(\xe2\x82 \xed\xa0\x80', b'\xf0\x9f\x98', b'%s%n:7:7: ', b'a b\tc',
         '\u010derna \u20ac \U0001f600'.encode()]


def try_names():
    for name in NAMES:
        seen = shown(name).encode()
        write(name, b'svc\nSVC\n')
        expect_run(f'a script named {name!r}', [name], 2, b'', seen + b':2:1: found `SVC`; expected `svc`\n')
        write(name, b'svc\n')
        expect_run('what is checked of it', ['--check', name], 0, seen + run('--check', 'good')[1].removeprefix(b'good'))
        os.remove(name)
        expect_run('the same when it is gone', [name], 2, b'', b'record: ' + seen + b': No such file or directory\n')
        expect_run('an option of that name', [b'--' + name], 2, b'', b'record: no option --' + seen + b'\nusage: ')


def any_bytes(dice, scripts):
    """Rubbish, words of scripts in no order, or a script with some bytes changed."""
    kind, script = dice.randrange(3), bytearray(dice.choice(scripts))
    if kind == 0:
        return dice.randbytes(dice.randrange(200))
    if kind == 1:
        tokens = [*b''.join(scripts).split(), b'=', b'#', b'0x', b'', b'\r\n', b'\n', b'\n', b'\n', b'\xc3\xbc', b'\0']
        return dice.choice([b' ', b'\t', b'']).join(dice.choices(tokens, k=dice.randrange(40)))
    for _ in range(dice.randrange(1, 4)):
        at = dice.randrange(len(script))
        script[at:at + dice.randrange(3)] = dice.choice([b'', b' ', b'\n', b'#', b'=', b'9', b'F', dice.randbytes(1)])
    return bytes(script)


def is_fault_line(told):
    """One line of the form FILE:LINE:COLUMN: found ..; expected .., of text that shows."""
    return re.fullmatch(rb'script:[1-9]\d*:[1-9]\d*: found [ -~]+; expected [ -~]+\n', told) is not None


def try_random():
    scripts = [read(os.path.join(SAMPLES, name)) for name in sorted(os.listdir(SAMPLES)) if name.endswith('.script')]
    dice, wrong, names, count = random.Random(17), [], [], 2500 if KIND == 'sanitized' else 300
    refused = 0
    for i in range(count):
        script = any_bytes(dice, scripts)
        status, trace, told = record(script)
        refused += status == 2
        if status == 0 and told == b'':
            names.append(write(f'random-{i}', trace))
        elif (status, trace) != (2, b'') or not is_fault_line(told):
            wrong.append((script, status, trace[:20], told))
    expect(f'{count} random scripts, {refused} of them refused: a trace, or nothing and one line', not wrong, wrong[:3])
    expect('both happen often', min(refused, len(names)) > count // 10, (refused, len(names)))
    expect('every one that is recorded is accepted', judge('--quiet', *names) == (0, '', ''), judge(*names)[1][:300])


def try_memory():
    def limit():
        resource.setrlimit(resource.RLIMIT_AS, (12 << 20, 12 << 20))
    expect_run('no memory for a script', ['good'], 2, b'', b'record: good: no memory for 16777217 bytes\n', preexec_fn=limit)


def try_leaks():
    looking = {**os.environ, 'ASAN_OPTIONS': 'detect_leaks=1'}
    write('bad', b'svc\nread\n')
    for arguments in (['good'], ['--check', 'good'], ['bad'], ['missing'], ['--help']):
        seen = run(*arguments, env=looking)
        expect(f'no leak: {" ".join(arguments)}', seen == run(*arguments), (seen[0], seen[2]))


def shell(command):
    done = subprocess.run(['sh', '-c', command], capture_output=True, check=False)
    return done.returncode, done.stdout, done.stderr


def try_readme():
    """What the README shows to suppliers, literally: the script, and each command with what it prints."""
    for name, command in (('record', COMMAND), ('console', CONSOLE)):
        write(name, ('#!/bin/sh\nexec ' + ' '.join(f"'{word}'" for word in command) + ' "$@"\n').encode())
        os.chmod(name, 0o755)
    section = re.search(r'^## For suppliers\n(.*?)^## ', read(os.path.join(ROOT, 'README.md')).decode(), re.M | re.S)[1]
    blocks = ''.join(re.sub(r'^    ', '', block, flags=re.M) for block in re.findall(r'(?:^(?:    .*)?\n)+', section, re.M))
    shows = re.findall(r'^\$ (.*)\n((?:[^$\n].*\n|\n(?!\$|\n))*)', blocks, re.M)
    expect('README: the script and three commands at least', len(shows) > 3 and shows[0][0] == 'cat boot.script', shows)
    write('boot.script', shows[0][1].encode())
    for command, out in shows[1:]:
        seen = shell(f'({command}) 2>&1')
        expect(f'README: {command}', seen[1].decode() == out, (seen, out))


TRIES = [try_help, try_events, try_registers, try_block, try_text, try_wrong, try_most, try_usage, try_input, try_check,
         try_accepted, try_output, try_names, try_random, try_readme]
with tempfile.TemporaryDirectory() as room:
    os.chdir(room)
    for one in TRIES + ([try_memory] if KIND == 'plain' else []) + ([try_leaks] if KIND == 'sanitized' else []):
        one()
    os.chdir('/')
runs.end()
