#!/usr/bin/env python3
"""instructions.py PROGRAM...: instruction words against a foreign assembler and disassembler, GNU's for Arm.

PROGRAM is the command of tests/instruction_lines.c, of one word or several. Every instruction is disassembled, and each word that
differs from one in a bit; every one whose register has a name is assembled. Ends with `N passed, M failed`.
"""
import collections
import itertools
import re
import struct
import subprocess
import sys
import tempfile

PROGRAM = sys.argv[1:]
TOOLS = 'arm-none-eabi-'
DONE, NOT_BANKED = 0, 18
MNEMONICS = {10: 'mrs', 11: 'msr'}
CONDITIONS = ['eq', 'ne', 'cs', 'cc', 'mi', 'pl', 'vs', 'vc', 'hi', 'ls', 'ge', 'lt', 'gt', 'le', '']  # always has no letters
REGISTERS = [*(f'r{i}' for i in range(13)), 'sp', 'lr']  # and pc, 15, which is no part

# Tables F5-116 and F5-117 of source 004: SYSm<2:0> by rows, SYSm<4:3> by columns; - is CONSTRAINED UNPREDICTABLE.
TABLES = ["""
    R8_usr  R8_fiq  LR_irq -
    R9_usr  R9_fiq  SP_irq -
    R10_usr R10_fiq LR_svc -
    R11_usr R11_fiq SP_svc -
    R12_usr R12_fiq LR_abt LR_mon
    SP_usr  SP_fiq  SP_abt SP_mon
    LR_usr  LR_fiq  LR_und ELR_hyp
    -       -       SP_und SP_hyp
""", """
    - -        SPSR_irq -
    - -        -        -
    - -        SPSR_svc -
    - -        -        -
    - -        SPSR_abt SPSR_mon
    - -        -        -
    - SPSR_fiq SPSR_und SPSR_hyp
    - -        -        -
"""]
# The names by A, which is R:SYSm.
NAMES = {32 * r + 8 * column + row: name for r, table in enumerate(TABLES)
         for row, line in enumerate(table.strip().splitlines()) for column, name in enumerate(line.split()) if name != '-'}

Parts = collections.namedtuple('Parts', 'code a condition register')
INSTRUCTIONS = [Parts(*parts) for parts in itertools.product(MNEMONICS, range(64), range(15), range(15))]
results = []


def expect(name, wrong):
    """A case; what is wrong with it, the first few."""
    results.append(not wrong)
    print(f'FAILED  {name}: {len(wrong)}, as {wrong[:5]}' if wrong else f'ok      {name}', flush=True)


def ask(lines):
    """What the program answers, as words of each line."""
    done = subprocess.run(PROGRAM, input=''.join(f'{line}\n' for line in lines), stdout=subprocess.PIPE, text=True, check=True)
    return [line.split() for line in done.stdout.splitlines()]


def read(words):
    """The parts of each word; None where it is not banked."""
    answers = [list(map(int, answer)) for answer in ask(f'read {word:08X}' for word in words)]
    if any(answer[0] not in (DONE, NOT_BANKED) or answer[0] == NOT_BANKED and any(answer[1:]) for answer in answers):
        raise ValueError('a number that is none, or refused parts that are not 0')
    return [Parts(*parts) if number == DONE else None for number, *parts in answers]


def write(all_parts):
    answers = ask('write ' + ' '.join(map(str, parts)) for parts in all_parts)
    if any(number != str(DONE) for number, _ in answers):
        raise ValueError('an instruction that is not written')
    return [int(word, 16) for _, word in answers]


# ---------------------------------------------------------------------------------------------------- The foreign ones

def spoken(parts):
    """The line for an assembler."""
    banked, register = NAMES[parts.a], REGISTERS[parts.register]
    operands = f'{register}, {banked}' if MNEMONICS[parts.code] == 'mrs' else f'{banked}, {register}'
    return f'{MNEMONICS[parts.code]}{CONDITIONS[parts.condition]} {operands}'


def assembled(lines):
    """The words of such lines."""
    with tempfile.NamedTemporaryFile() as built, tempfile.NamedTemporaryFile() as binary:
        source = '.syntax unified\n.arm\n.arch_extension virt\n' + ''.join(f'{line}\n' for line in lines)
        subprocess.run([f'{TOOLS}as', '-mcpu=cortex-a15', '-o', built.name, '-'], input=source, text=True, check=True)
        subprocess.run([f'{TOOLS}objcopy', '-O', 'binary', built.name, binary.name], check=True)
        return [word for word, in struct.iter_unpack('<I', binary.read())]


def disassembled(words):
    """What the disassembler says of each word, the words of that one behind the other."""
    with tempfile.NamedTemporaryFile() as binary:
        binary.write(struct.pack(f'<{len(words)}I', *words))
        binary.flush()
        command = [f'{TOOLS}objdump', '-D', '-z', '-b', 'binary', '-m', 'arm', '-M', 'reg-names-std', binary.name]
        told = subprocess.run(command, stdout=subprocess.PIPE, text=True, check=True).stdout
    lines = re.findall(r'^ *[0-9a-f]+:\t([0-9a-f]{8}) *\t(.*)$', told, re.MULTILINE)
    if [int(word, 16) for word, _ in lines] != words:
        raise ValueError('the disassembler left a word out')
    return [line for _, line in lines]


NUMBERS = {name: a for a, name in NAMES.items()}
CODES = {mnemonic: code for code, mnemonic in MNEMONICS.items()}


def a_of(banked):
    """A of a register by what is told of it; None where it is not banked. One that has no name is told as a number: R, then
    bit 9 of the word, which is 1 of a banked register, then SYSm."""
    nameless = re.fullmatch(r'\(UNDEF: (\d+)\)', banked)
    if not nameless:
        return NUMBERS.get(banked)
    number = int(nameless[1])
    return number >> 6 << 5 | number & 31 if number & 32 else None


def understood(line):
    """The parts that a disassembler's line names; None where it is no MRS or MSR of a banked register, or one with pc."""
    told = re.fullmatch(r'(mrs|msr)(..)?\t(.*), (.*)', line)
    if not told:
        return None
    mnemonic, condition, *operands = told.groups()
    register, banked = operands if mnemonic == 'mrs' else reversed(operands)
    a = a_of(banked)
    if register not in REGISTERS or a is None:
        return None
    return Parts(CODES[mnemonic], a, CONDITIONS.index(condition or ''), REGISTERS.index(register))


def is_loosely_told(word):
    """Whether GNU's disassembler takes it for MSR though bits 11-10 or 7-4, at which it does not look there, are not all 0."""
    return word & 0x0FB0F200 == 0x0120F200 and word & 0x00000CF0 != 0


def differing(names, ours, theirs):
    return [(name, one, other) for name, one, other in zip(names, ours, theirs, strict=True) if one != other]


def main():
    words = write(INSTRUCTIONS)
    expect(f'{len(words)} words are written, each another', [] if len(set(words)) == len(words) == 28800 else words)
    digits = [f'{word:08X}' for word in words]
    expect('and read back', differing(digits, read(words), INSTRUCTIONS))
    expect('and so disassembled', differing(digits, INSTRUCTIONS, map(understood, disassembled(words))))
    named = [parts for parts in INSTRUCTIONS if parts.a in NAMES]
    expect(f'{len(named)} of them have a name, {len(NAMES)} of 64 A',
           [] if len(named) == len(NAMES) * 450 == 33 * 450 else [len(named)])
    expect('and are so assembled', differing(map(spoken, named), write(named), assembled(map(spoken, named))))
    near = sorted({word ^ 1 << bit for word in words for bit in range(32)} - set(words))
    expect(f'{len(near)} other words, that differ from one in a bit, are not read', list(filter(None, read(near))))
    strict = [word for word in near if not is_loosely_told(word)]
    expect(f'nor, {len(strict)} of them, so disassembled', list(filter(None, map(understood, disassembled(strict)))))


main()
print(f'{results.count(True)} passed, {results.count(False)} failed')
sys.exit(0 if all(results) else 1)
