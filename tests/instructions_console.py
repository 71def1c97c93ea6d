#!/usr/bin/env python3
"""instructions_console.py KIND FOLDER LINES COMMAND...: tries what the console says of the instruction words in logs.

COMMAND runs the console. KIND is plain, and then it is tried with little memory too; sanitized, and then a few runs look for
leaks too; or anything else. FOLDER and LINES are not used. The words are made from the table of docs/FORMAT.md, and what is due
for a log is made again here. Ends with `N passed, M failed`.
"""
import os
import random
import re
import resource
import subprocess
import sys
import tempfile

sys.dont_write_bytecode = True
from names import shown  # noqa: E402
from records import SAMPLES  # noqa: E402
from runs import Live, Runs, failing_file, read, write  # noqa: E402

KIND, COMMAND = sys.argv[1], sys.argv[4:]
ROOT = os.path.dirname(SAMPLES)
PAGE = read(os.path.join(ROOT, 'docs/FORMAT.md')).decode().split('## Instruction words')[1]
OPTION = '--instructions'
runs = Runs(COMMAND)
run, expect, expect_run = runs.run, runs.expect, runs.expect_run
os.environ['ASAN_OPTIONS'] = 'detect_leaks=0'  # looking takes some 4 s a run on Arm; try_leaks does

# Arm's Tables F5-116 and F5-117 (source 004), by A; `-` for a cell that is CONSTRAINED UNPREDICTABLE.
CELLS = ('R8_usr R9_usr R10_usr R11_usr R12_usr SP_usr LR_usr - R8_fiq R9_fiq R10_fiq R11_fiq R12_fiq SP_fiq LR_fiq - '
         'LR_irq SP_irq LR_svc SP_svc LR_abt SP_abt LR_und SP_und - - - - LR_mon SP_mon ELR_hyp SP_hyp '
         '- - - - - - - - - - - - - - SPSR_fiq - '
         'SPSR_irq - SPSR_svc - SPSR_abt - SPSR_und - - - - - SPSR_mon - SPSR_hyp -').split()
CONDITIONS = ['EQ', 'NE', 'CS', 'CC', 'MI', 'PL', 'VS', 'VC', 'HI', 'LS', 'GE', 'LT', 'GT', 'LE', '']
READ, WRITE = 10, 11
ROOM, HELD_BACK = 64 * 1024, 4  # so much of a line is looked at at once, and so little of that may be of a next character
NO_WORD = 'the first field is no word of 1 to 8 hexadecimal digits'


# The fields of both instructions by the page's table: the highest bit, the lowest where there are more, and what stands there.
ROWS = re.findall(r'^\| (\d+)(?:-(\d+))? \| (.*?) \| (.*?) \|', PAGE, re.M)
FIELDS = {code: [(int(low or high), cells[code - READ].strip('()')) for high, low, *cells in ROWS] for code in (READ, WRITE)}


def word_of(code, a, condition, register):
    named = {'condition': condition, 'R': a >> 5, 'SYSm 3-0': a & 15, 'SYSm 4': a >> 4 & 1, 'register': register}
    return sum((named[cell] if cell in named else int(cell, 2)) << low for low, cell in FIELDS[code])


def told_of(code, a, condition, register):
    banked, suffix = CELLS[a] if CELLS[a] != '-' else 'unallocated', CONDITIONS[condition]
    if code == READ:
        return f'MRS{suffix} r{register}, {banked}: read {a}'
    return f'MSR{suffix} {banked}, r{register}: write {a}'


# What is told of each word that is one.
TOLD = {word_of(*parts): told_of(*parts) for parts in
        ((code, a, condition, register) for code in FIELDS for a in range(64) for condition in range(15) for register in range(15))}


def due_for(log):
    """What has to be told of a log: on standard output, and the numbers of the lines without a word."""
    lines = log.removeprefix(b'\xef\xbb\xbf').split(b'\n')
    if not lines[-1]:
        lines.pop()
    out, nameless = [], []
    for number, line in enumerate(lines, 1):
        line = line.removesuffix(b'\r')
        field = re.match(rb'[ \t]*([^ \t]*)', line)[1]
        word = re.fullmatch(rb'(?:0[xX])?([0-9A-Fa-f]{1,8})', field)
        if word:
            text = '\t'.join(shown(part) for part in line.split(b'\t'))
            out.append(f'{text}  {TOLD.get(int(word[1], 16), "NOT_BANKED")}\n')
        elif field:
            nameless.append(number)
    return ''.join(out).encode(), nameless


def complaints(name, nameless):
    return ''.join(f'console: {name}: line {number}: {NO_WORD}\n' for number in nameless).encode()


def first_difference(seen, due):
    pairs = zip(seen.split(b'\n'), due.split(b'\n'))
    return next(((number, one[:200], other[:200]) for number, (one, other) in enumerate(pairs, 1) if one != other), 'length')


def expect_log(name, log, by_pipe=False):
    """All that is told of a log is what is due, as a file or through a pipe."""
    out, nameless = due_for(log)
    options = {'stdin': None, 'input': log} if by_pipe else {}
    file = '-' if by_pipe else write('log', log)
    status, seen, err = run(OPTION, file, **options)
    right = (status, seen, err) == (2 if nameless else 0, out, complaints(file, nameless))
    expect(name, right, (status, first_difference(seen, out), err[:300]))


def lines_of(words):
    return b''.join(b'%08X\n' % word for word in words)


def try_words():
    """Every word that is one; and many that are none, those next to one among them."""
    bits = [bit for high, low, *_ in ROWS for bit in range(int(high), int(low or high) - 1, -1)]
    expect('the table of docs/FORMAT.md has every bit in its place', bits == list(range(31, -1, -1)), bits)
    expect('and 2 by 64 by 15 by 15 words, each once', len(TOLD) == 28800, len(TOLD))
    examples = re.findall(r'^\| `(\w+)` \| (.*?) \| (\d+) \| (\d+) \| (\d+) \| (\d+) \|', PAGE, re.M)
    wrong = [row for row in examples if word_of(*map(int, row[2:])) != int(row[0], 16) or
             told_of(*map(int, row[2:])).split(':')[0] != row[1]]
    expect(f'its {len(examples)} examples', len(examples) >= 5 and not wrong, wrong)
    said = re.search(r'^The conditions from 0: (.*), and always', PAGE, re.M)[1].split(', ')
    expect('its conditions', said == CONDITIONS[:-1], said)
    expect_log('all of them', lines_of(TOLD))
    next_to = {word ^ 1 << bit for word in list(TOLD)[::450] for bit in range(32)}
    expect_log(f'{len(next_to)} words that differ from one in a bit', lines_of(sorted(next_to)))
    last = [condition | register for condition in range(0, 1 << 32, 1 << 28) for code in FIELDS
            for register in [word_of(code, 0, 0, register) for register in range(16)]]
    expect_log('every condition and every register, 15 among them', lines_of(last))
    chance = random.Random(14)
    expect_log('20,000 random words', lines_of(chance.getrandbits(32) for _ in range(20000)))
    expect_run('the first of the paper', [OPTION, write('log', b'E1002200\n')], 0, b'E1002200  MRS r2, R8_usr: read 0\n')
    expect_run('the second', [OPTION, write('log', b'E120F202\n')], 0, b'E120F202  MSR R8_usr, r2: write 0\n')
    expect_run('an unallocated cell', [OPTION, write('log', b'E1072200\n')], 0, b'E1072200  MRS r2, unallocated: read 7\n')
    expect_run('none', [OPTION, write('log', b'EF000000\n')], 0, b'EF000000  NOT_BANKED\n')


# First fields, or whole lines; and the word that each has, None for none.
FIRST_FIELDS = {
    b'E1002200': 0xE1002200, b'e1002200': 0xE1002200, b'e1002200 E120F202': 0xE1002200,
    b'0xE1002200': 0xE1002200, b'0XE1002200': 0xE1002200, b'0xe1002200': 0xE1002200,
    b'  E1002200': 0xE1002200, b'\t0xE1002200\t; r2': 0xE1002200, b'E1002200 ': 0xE1002200,
    b'1002200': 0x01002200, b'0x1002200 EQ': 0x01002200, b'01002200': 0x01002200, b'0': 0, b'0x0': 0, b'00000000': 0,
    b'add r0, r1': 0xADD, b'E100 2200': 0xE100, b'FFFFFFFF': 0xFFFFFFFF, b'0x 1': None,
    b'0x': None, b'x1': None, b'0x0xE1002200': None, b'0E1002200': None, b'0x0E1002200': None, b'E1002200E': None,
    b'E1002200:': None, b'E1002200,': None, b'E1002200;': None, b'E1002200#': None, b'"E1002200"': None, b'#E1002200': None,
    b'# a comment': None, b'-1': None, b'+1': None, b'E100_2200': None, b'E10G2200': None, b'MRS r2, R8_usr': None,
    b'E1002200\0': None, b'\0E1002200': None, b'\x0bE1002200': None, b'E1002200\r ': None, b'\xef\xbb\xbfE1002200': None,
    '\u00a0E1002200'.encode(): None, '\uff11'.encode(): None, b'\xff': None, b'@': None, b'G': None, b'`': None, b'/': None,
    b'E1002200/': None,
}


def try_fields():
    for line, word in FIRST_FIELDS.items():
        log = b'0\n' + line + b'\n'
        out, nameless = due_for(log)
        expect(f'{line!r}: what is due', nameless == [2] if word is None else nameless == [] and
               out.decode().endswith(f'  {TOLD.get(word, "NOT_BANKED")}\n'), (out, nameless))
        expect_log(f'{line!r}', log)


# Logs as they come, and some that are none.
LOGS = {
    'an empty log': b'', 'a line end': b'\n', 'blank lines': b'\n \n\t\n\r\n  \t \r\n', 'no line end': b'E1002200',
    'CR and LF': b'E1002200\r\nE120F202 ; x\r\n', 'both': b'E1002200\r\nE120F202\n0\r\n', 'a CR at the end': b'E1002200\r',
    'CR alone': b'E1002200\rE120F202\r', 'a CR within': b'E1002200 a\rb\n', 'two CRs': b'E1002200 a\r\r\n',
    'a mark of UTF-8': b'\xef\xbb\xbfE1002200\nE120F202\n', 'the mark alone': b'\xef\xbb\xbf', 'a mark and blanks': b'\xef\xbb\xbf \n0\n',
    'half a mark': b'\xef\xbbE1002200\n', 'the mark twice': b'\xef\xbb\xbf\xef\xbb\xbfE1002200\n',
    'lines without a word are named, blank ones counted': b'E1002200\n\n# no\n\nE120F202\nr2\n\n0\nno',
    'tabs': b'E1002200\tr2\t\tR8\t\n', 'zeros': b'E1002200 \0a\0\0\n\0\n0 \0',
    'orders to the terminal': b'E1002200 \x1b[31m\x7f\x08 \xc2\x9b31m\n',
    'turned round': 'E1002200 \u202edeknab\u202c \u2066\u2069\u200e\n'.encode(),
    'a line that would be forged': 'E1002200 \u2028E120F202\u0085E120F202\n'.encode(),
    'letters of others': 'E1002200 \u010derna \u20ac \U0001f600 \u0627\n'.encode(),
    'no UTF-8': b'E1002200 \xff\xc3(\xe2\x82 \xed\xa0\x80 \xc0\xbc \xf4\x90\x80\x80 \xf0\x9f\x98\n0 \xe2\x82',
    'text in another coding': 'E1002200\n'.encode('utf-16'),
}


def try_logs():
    for name, log in LOGS.items():
        expect_log(name, log)
        expect_log('the same through a pipe', log, by_pipe=True)


def try_long():
    """Lines about as long as the room, with characters of each size and every end where it is cut; and far longer ones."""
    for character in ('x', '\u010d', '\u20ac', '\U0001f600', '\t'):
        log = b''.join(b'E1002200 ' + b'.' * shift + character.encode() * (ROOM // len(character.encode())) + end
                       for shift in range(12) for end in (b'\n', b'\r\n'))
        expect_log(f'{character!r} where the room ends', log)
    log = b''.join(b'E1002200 ' + b'.' * (ROOM - size) + end for size in range(24) for end in (b'\n', b'\r\n', b'\r\r\n', b'\0\n'))
    expect_log('ends where the room ends', log)
    expect_log('bytes that go on with nothing', b'E1002200 ' + b'\x80' * (3 * ROOM) + b'\n0\n')
    expect_log('a mark of UTF-8 where the room ends is text', b'E1002200 ' + b'.' * (ROOM - HELD_BACK - 9) + b'\xef\xbb\xbf more\n')
    expect_log('and a field that goes on behind it is no word', b' ' * (ROOM - HELD_BACK - 4) + b'1' * 16 + b'\n0\n')
    expect_log('a line of 3 MB, and one behind it', b'E1002200 ' + b'all in one line ' * (3 << 16) + b'\nE120F202\n')
    expect_log('a last line of 3 MB', b'0\nE1002200 ' + '\u20ac'.encode() * (1 << 20), by_pipe=True)
    expect_log('a field of 3 MB', b'0\n' + b'E1002200' * (3 << 17) + b' E1002200\nE120F202\n')
    expect_log('64 KB of blanks before a word: none', b'0\n' + b' ' * ROOM + b'G\nE120F202\n')
    blanks = b' ' * (2 * ROOM)
    expect_run('and none where it is one', [OPTION, write('log', blanks + b'E1002200\n' + blanks + b'\n0\n')], 2, b'0  NOT_BANKED\n',
               complaints('log', [1, 2]))


def try_random():
    """Random logs, of what matters to them."""
    parts = [b'E1002200', b'e120f202', b'0x', b'0', b' ', b' ', b'\t', b'\n', b'\n', b'\n', b'\r\n', b'\r', b'\0', b'#', b'\xef\xbb\xbf',
             b'\xe2\x82\xac', b'\xe2', b'\x80', b'\xff', b'text']
    for seed in range(8):
        chance = random.Random(seed)
        some = chance.sample(parts, 12) + [b'\n', b'E1002200 ']
        expect_log(f'a random log, {seed}', b''.join(chance.choices(some, k=20000)), by_pipe=seed % 2 == 1)
    expect_log('random bytes', random.Random(1).randbytes(200000))


def try_files():
    one, other = write('one', b'E1002200\n'), write('other', b'E120F202')
    first, second = b'E1002200  MRS r2, R8_usr: read 0\n', b'E120F202  MSR R8_usr, r2: write 0\n'
    bad = write('bad', b'no\nE1002200\n')
    expect_run('two logs', [OPTION, one, other], 0, first + second)
    expect_run('lines are counted in each', [OPTION, bad, one, bad], 2, 3 * first, 2 * complaints('bad', [1]))
    expect_run('standard input among them', [OPTION, one, '-', other], 0, first + b'0  NOT_BANKED\n' + second, stdin=None, input=b'0')
    expect_run('one that is not there; the others are read', [OPTION, one, 'missing', other], 2, first + second,
               b'console: missing: No such file or directory\n')
    expect_run('a directory', [OPTION, '.', one], 2, first, b'console: .: Is a directory\n')
    expect_run('an empty device', [OPTION, '/dev/null'], 0, b'')
    write('--quiet', b'E1002200\n')
    expect_run('-- ends the options', [OPTION, '--', '--quiet'], 0, first)
    expect_run('a name that would forge a line', [OPTION, write('a\nb', b'no\n')], 2, b'', complaints('a?b', [1]))
    long = b'E1002200 ' + b'.' * ROOM
    for name, log, out in [('a line', b'E1002200\nE120F202', first), ('a long line', long, long[:ROOM - HELD_BACK] + b'\n')]:
        with failing_file(log) as failing:
            expect_run(f'a log that fails within {name}', [OPTION, '-', one], 2, out + first, b'console: -: ', stdin=failing)
    if os.getuid() != 0:  # root may read every file
        os.chmod(write('locked', b'E1002200\n'), 0)
        expect_run('a log without the right to it', [OPTION, 'locked'], 2, b'', b'console: locked: Permission denied\n')


def try_usage():
    usage = b'usage: console'
    expect_run('no log', [OPTION], 2, b'', usage)
    for option in (['--quiet'], ['--follow'], ['--explain'], ['--trace'], ['--html'], ['--count'], ['--count', '--totals', 'totals'],
                   ['--totals', 'totals']):
        expect_run(f'with {" ".join(option)}', [OPTION, *option, 'one'], 2, b'',
                   b'console: --instructions takes no other option: a log is no trace\n' + usage)
    expect('none of them makes a file', not os.path.exists('totals'), os.listdir())
    out = run('--help')[1].decode()
    told = re.findall(r'^    ((?:MRS|MSR)\w* .*?: (?:read|write) \d+)', out, re.M)
    wrong = [words for words in told if words not in TOLD.values()]
    expect(f'--help, and its {len(told)} examples', OPTION in out and 'NOT_BANKED' in out and len(told) == 3 and not wrong, out)


def try_output():
    with open('/dev/full', 'wb') as full:
        expect_run('output that cannot be written', [OPTION, 'one'], 2, None, b'console: standard output: No space left', stdout=full)
    done = subprocess.run([*COMMAND, OPTION, write('log', b'0\nno\n1\nno\n')], stdout=subprocess.PIPE, stderr=subprocess.STDOUT,
                          check=False)
    told = [line.split(b':')[-2:][0] for line in done.stdout.splitlines()]
    expect('both outputs in one place stand in the order of the log', told == [b'0  NOT_BANKED', b' line 2', b'1  NOT_BANKED', b' line 4'],
           done.stdout)
    with Live([*COMMAND, OPTION, '-'], stdin=subprocess.PIPE) as live:
        for sent, due in [(b'E1002200\nE120', b'E1002200  MRS r2, R8_usr: read 0\n'),
                          (b'F202\nE1', b'E120F202  MSR R8_usr, r2: write 0\n')]:
            live.send(sent)
            line = live.line()
            expect(f'{due[:8].decode()} is told when its line has come', line == due, line)
        live.process.stdin.close()
        live.process.stdin = None
        expect('and the last one at the end', live.end() == (0, b'E1  NOT_BANKED\n', b''))


def try_memory():
    def limit():
        resource.setrlimit(resource.RLIMIT_AS, (12 << 20, 12 << 20))
    write('log', b'E1002200 ' + b'.' * (20 << 20) + b'\n' + b'E120F202\n' * (1 << 20))
    status, out, err = run(OPTION, 'log', preexec_fn=limit)
    expect('a log of 30 MB, and a line of 20, with little memory', (status, err) == (0, b'') and
           out == read('log').replace(b'.\n', b'.  MRS r2, R8_usr: read 0\n').replace(b'F202\n', b'F202  MSR R8_usr, r2: write 0\n'), err)
    os.remove('log')


def try_leaks():
    looking = {**os.environ, 'ASAN_OPTIONS': 'detect_leaks=1'}
    for arguments in (['one', 'bad', 'missing'], [os.path.join(SAMPLES, 'supplier.log')]):
        seen = run(OPTION, *arguments, env=looking)
        expect(f'no leak: {" ".join(map(os.path.basename, arguments))}', seen == run(OPTION, *arguments), seen)


def try_readme():
    """The sample, and what the README shows of logs, literally."""
    log = os.path.join(SAMPLES, 'supplier.log')
    out, nameless = due_for(read(log))
    expect('samples/instructions.txt', (out, nameless) == (read(os.path.join(SAMPLES, 'instructions.txt')), []), (out, nameless))
    expect_run('samples/supplier.log', [OPTION, log], 0, out)
    write('console', ('#!/bin/sh\nexec ' + ' '.join(f"'{word}'" for word in COMMAND) + ' "$@"\n').encode())
    os.chmod('console', 0o755)
    os.symlink(SAMPLES, 'samples')
    section = re.search(r"^## A supplier's log\n(.*?)^## ", read(os.path.join(ROOT, 'README.md')).decode(), re.M | re.S)[1]
    shows = re.findall(r'^    \$ (.*)\n((?:    [^$].*\n)*)', section, re.M)
    expect('README: two commands at least', len(shows) >= 2, shows)
    for command, lines in shows:
        done = subprocess.run(['sh', '-c', f'({command}) 2>&1'], capture_output=True, check=False)
        expect(f'README: {command}', done.stdout.decode() == re.sub('^    ', '', lines, flags=re.M), done)


TRIES = [try_words, try_fields, try_logs, try_long, try_random, try_files, try_usage, try_output, try_readme]
with tempfile.TemporaryDirectory() as room:
    os.chdir(room)
    for one_try in TRIES + ([try_memory] if KIND == 'plain' else []) + ([try_leaks] if KIND == 'sanitized' else []):
        one_try()
    os.chdir('/')
runs.end()
