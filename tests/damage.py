#!/usr/bin/env python3
"""damage.py SAMPLES: tries samples/damage as a user does.

What it refuses, and that every kind which --help lists makes a sample: ./test makes those again and holds each byte. Ends with
`N passed, M failed`.
"""
import os
import re
import sys

sys.dont_write_bytecode = True
from records import END_SIZE, OLD, START_BLOCK, START_SIZE, STEP_BLOCK, STEP_EVENT, STEP_NUMBER, STEP_SIZE, as_old  # noqa: E402
from runs import Runs, read  # noqa: E402

SAMPLES = os.path.abspath(sys.argv[1])
HONEST, HONEST_OLD, DEBUG = (read(os.path.join(SAMPLES, f'{name}.trace')) for name in ('honest', 'honest-old', 'debug'))
runs = Runs([os.path.join(SAMPLES, 'damage')])
expect = runs.expect

# Arguments that are none, on a trace of 2,032 bytes with 9 Steps, and what is told of them.
MISUSED = [
    ([], 'no kind; --help lists them'),
    (['rot'], "no kind 'rot'; --help lists them"),
    (['--help', 'cut'], "no kind '--help'; --help lists them"),
    (['cut'], 'cut takes LENGTH'),
    (['cut', '1', '2'], 'cut takes LENGTH'),
    (['cut', '2033'], 'the trace has 2032 bytes, and not 2033'),
    (['cut', '-1'], '-1 is below 0'),
    (['cut', 'x'], "'x' is no number"),
    (['add', '1', 'CPSR', ''], "'' is no number"),
    (['skip', '0'], 'no Step 0: the trace has 9'),
    (['undone', '10'], 'no Step 10: the trace has 9'),
    (['stale', '1'], 'stale takes STEP PLACE'),
    (['stale', '1', 'SPSR'], "no place 'SPSR' in the block"),
    (['stale', '1', 'S'], "no place 'S' in the block"),
    (['copy', '1', 'CPSR'], 'copy takes STEP PLACE TO'),
    (['copy', '10', 'CPSR', 'PC'], 'no Step 10: the trace has 9'),
    (['copy', '1', 'CPSR', 'SPSR'], "no place 'SPSR' in the block"),
    (['answer', '1'], 'answer takes STEP NUMBER'),
    (['answer', '10', '7'], 'no Step 10: the trace has 9'),
    (['operand', '1'], 'operand takes STEP NUMBER'),
    (['operand', '10', '7'], 'no Step 10: the trace has 9'),
    (['flip', '1', 'CPSR', '32'], 'no bit 32 in a word'),
    (['flip-all', 'SCR'], 'flip-all takes PLACE BIT'),
    (['flip-all', 'SCR', '-1'], 'no bit -1 in a word'),
    (['flip-all', 'SCR', '32'], 'no bit 32 in a word'),
    (['flip-all', '1', '7'], "no place '1' in the block"),
    (['rubbish', '-1'], '-1 is below 0'),
    (['old', '1'], 'old takes no argument'),
    (['turn'], 'turn takes STEP'),
    (['turn', '10'], 'no Step 10: the trace has 9'),
]

# The same on other traces: the old layout has no HDCR.
OTHERS = [
    (['old'], HONEST_OLD, 'the trace is of the old layout'),
    (['old'], DEBUG, 'HDCR, which the old layout has not, is not 0 throughout'),
    (['flip', '1', 'HDCR', '8'], HONEST_OLD, "no place 'HDCR' in the block"),
    (['turn', '0'], HONEST_OLD, 'no Step 0: the trace has 9'),
]


def damage(*arguments, given=HONEST, **options):
    return runs.run(*arguments, stdin=None, input=given, **options)


def try_misuse():
    for arguments, told in MISUSED:
        seen = damage(*arguments)
        expect(f'damage {" ".join(arguments)}', seen == (2, b'', f'damage: {told}\n'.encode()), seen)
    for arguments, given, told in OTHERS:
        seen = damage(*arguments, given=given)
        expect(f'damage {" ".join(arguments)}: {told}', seen == (2, b'', f'damage: {told}\n'.encode()), seen)
    for name, given in {'empty': b'', 'cut': HONEST[:-1], 'trailing': HONEST + b'x', 'zeros': bytes(2032),
                        'old, cut': HONEST_OLD[:-1], 'an old head': HONEST_OLD[:4] + HONEST[4:],
                        'a new head': HONEST[:4] + HONEST_OLD[4:]}.items():
        due = f'damage: standard input, of {len(given)} bytes, is no whole trace\n'.encode()
        seen = damage('skip', '1', given=given)
        expect(f'no whole trace: {name}', seen == (2, b'', due), seen)
    with open('/dev/full', 'wb') as full:
        seen = damage('skip', '1', stdout=full)
    expect('a full disk', seen[::2] == (2, b'damage: [Errno 28] No space left on device\n'), seen)
    for name, closes in (('input', lambda: os.close(0)), ('output', lambda: os.close(1))):
        seen = damage('skip', '1', preexec_fn=closes)
        expect(f'a closed {name}', seen[0] == 2 and re.match(rb'damage: .*Bad file descriptor', seen[2]) is not None, seen)


def try_kinds():
    status, out, told = damage('--help')
    listed = set(re.findall(rb'^  ([a-z-]+) ', out, re.M))
    expect('--help', (status, told) == (0, b'') and out.startswith(b'usage: damage '), (status, told))
    rows = re.findall(r'^\| \S+\.trace \|.*', read(os.path.join(SAMPLES, 'README.md')).decode(), re.M)
    used = {kind.split()[0].encode() for row in rows for kind in row.split('|')[4].split(';') if kind.strip()}
    expect(f'every kind makes a sample: {len(listed)}', listed == used and len(used) > 8, (listed, used))
    scripts = {row.split('|')[3].strip() for row in rows} - {''}
    there = {name for name in os.listdir(SAMPLES) if name.endswith('.script')}
    expect('every script makes a sample', scripts == there, (scripts, there))
    flipped = damage('flip', '3', 'PC', '0')[1]
    expect('a bit that is turned over twice', damage('flip', '3', 'PC', '0', given=flipped) == (0, HONEST, b''))
    every = HONEST
    for step in range(1, 10):
        every = damage('flip', str(step), 'HDCR', '31', given=every)[1]
    at = START_SIZE - 1  # of the Start, the last byte
    every = every[:at] + bytes([every[at] ^ 0x80]) + every[at + 1:]
    expect('a bit of every block', damage('flip-all', 'HDCR', '31') == (0, every, b''))
    first = damage('flip-all', 'R8_usr', '0')[1]
    expect('and of its first word, in the Start too', first[START_BLOCK] == HONEST[START_BLOCK] ^ 1 and
           sum(one != other for one, other in zip(first, HONEST)) == 10)
    pc, mvbar = START_SIZE + STEP_BLOCK + 4 * 34, START_SIZE + STEP_BLOCK + 4 * 43
    copied = HONEST[:mvbar] + HONEST[pc:pc + 4] + HONEST[mvbar + 4:]
    expect('a word that is copied', damage('copy', '1', 'PC', 'MVBAR') == (0, copied, b'') and copied != HONEST)
    expect('and one to where it is', damage('copy', '1', 'PC', 'PC') == (0, HONEST, b''))
    at = START_SIZE + STEP_NUMBER
    answered = HONEST[:at] + bytes([7, 0, 0, 0]) + HONEST[at + 4:]
    expect('an answer', damage('answer', '1', '7') == (0, answered, b'') and answered != HONEST)
    at = START_SIZE + STEP_EVENT + 4  # behind the code
    operand = HONEST[:at] + bytes([16, 0, 0, 0]) + HONEST[at + 4:]
    expect('an operand', damage('operand', '1', '16') == (0, operand, b'') and operand != HONEST)
    expect('a sum wraps', damage('add', '1', 'R8_usr', '0x100000000') == (0, HONEST, b''))
    expect('a cut of nothing, and of everything', (damage('cut', '0')[1], damage('cut', '2032')[1]) == (b'', HONEST))


def try_layouts():
    """What a recorder of the old layout has of the same events; and a Step alone of the other one."""
    expect('the honest trace, as an old one', damage('old') == (0, HONEST_OLD, b'') and HONEST_OLD == as_old(HONEST))
    for kind in (['flip-all', 'MVBAR', '31'], ['undone', '3'], ['skip', '9'], ['stale', '7', 'SPSR_irq'],
                 ['end-count', '1']):
        new, old = damage(*kind)[1], damage(*kind, given=HONEST_OLD)[1]
        expect(f'{" ".join(kind)}, of a trace of either layout', as_old(new) == old != HONEST_OLD)
    turned, at = damage('turn', '9', given=HONEST_OLD)[1], OLD.start_size + 8 * OLD.step_size
    due = HONEST_OLD[:at] + HONEST[-END_SIZE - STEP_SIZE:]
    expect('the last Step of an old trace, as a new one', turned == due, len(turned))
    turned, at = damage('turn', '1')[1], START_SIZE
    due = HONEST[:at] + HONEST_OLD[OLD.start_size:OLD.start_size + OLD.step_size] + HONEST[at + STEP_SIZE:]
    expect('the first of a new one, as an old one', turned == due, len(turned))


try_misuse()
try_kinds()
try_layouts()
runs.end()
