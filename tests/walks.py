"""Long honest traces with every kind of thing in them: walks through the modes, made of Steps whose answer is plain.

The start block is all zero but for CPSR, so HCR routes nothing to Hyp, every vector stands at 0, and of document 01's rules a
few are enough: a note is done where the block that it makes is good, SMC enters Monitor from any mode but User, unless SCD
disables it (No. 8), an interrupt check without a line takes nothing. A return (No. 9) is legal or not without a look at TGE.
"""
import random
import struct

from records import (
    BLOCK_SIZE, END_SIZE, NOTE, PLACES, START_SIZE, STEP_BLOCK, STEP_KIND, STEP_SIZE, end_record, start_record)

R8_USR, LR_SVC, LR_MON, ELR_HYP, SPSR_SVC, SPSR_MON, SPSR_HYP, CPSR, PC, SCR = 0, 16, 22, 24, 28, 31, 32, 33, 34, 35
MODES = USER, FIQ, IRQ, SUPERVISOR, MONITOR, ABORT, HYP, UNDEFINED, SYSTEM = (
    0x10, 0x11, 0x12, 0x13, 0x16, 0x17, 0x1A, 0x1B, 0x1F)
NO_MODE = 0x15
# Of each mode that has them, where its saved word and the address of a return lie.
SAVED = {FIQ: (26, 13), IRQ: (27, 14), SUPERVISOR: (SPSR_SVC, LR_SVC), ABORT: (29, 18), UNDEFINED: (30, 20),
         MONITOR: (SPSR_MON, LR_MON), HYP: (SPSR_HYP, ELR_HYP)}
MODE_BITS, IL, NS, SCD = 0x1F, 1 << 20, 1, 1 << 7
SMC, INTERRUPT_CHECK, BANKED_READ, BANKED_WRITE, RETURN, NO_EVENT = 3, 9, 10, 11, 13, 14
ELR_HYP_CELL, NO_CELL = 30, 7
DONE, BAD_MODE, BAD_STATE, BAD_EVENT, NOT_HERE, NO_REGISTER, NO_RIGHT, DISABLED = 0, 2, 3, 4, 5, 6, 7, 16
LONGEST_STAY = 30


def packed(block):
    return struct.pack(f'<{PLACES}I', *block)


class Walk:
    """A block that moves from Step to Step, and the Steps."""

    def __init__(self, seed, mode):
        self.chance, self.steps = random.Random(seed), []
        self.block = [0] * PLACES
        self.block[CPSR] = mode
        self.start = packed(self.block)

    def mode(self):
        return self.block[CPSR] & MODE_BITS

    def record(self, code, a, b, number, value=0):
        head = struct.pack('<HHIIIII', STEP_SIZE, STEP_KIND, code, a, b, number, value)
        self.steps.append(head + packed(self.block))

    def refusal_of(self, place, word):
        """What a note is answered, by the block that it would make."""
        cpsr, scr = (word if place == changed else self.block[changed] for changed in (CPSR, SCR))
        if cpsr & MODE_BITS not in MODES:
            return BAD_MODE
        return BAD_STATE if cpsr & MODE_BITS == HYP and not scr & NS else DONE

    def note(self, place, word):
        number = self.refusal_of(place, word)
        if number == DONE:
            self.block[place] = word
        self.record(NOTE, place, word, number)

    def call_monitor(self):
        if self.mode() == USER or self.block[SCR] & SCD:
            self.record(SMC, 0, 0, NOT_HERE if self.mode() == USER else DISABLED)
            return
        if self.mode() == MONITOR:
            self.block[SCR] &= ~NS
        self.block[SPSR_MON], self.block[LR_MON] = self.block[CPSR], (self.block[PC] + 4) % 2**32
        self.block[CPSR], self.block[PC] = 0x1C0 | MONITOR, 8
        self.record(SMC, 0, 0, DONE, MONITOR << 8 | 8)

    def access(self, code, word):
        number = DONE if self.mode() in (MONITOR, HYP) else NO_RIGHT
        if number == DONE and code == BANKED_WRITE:
            self.block[ELR_HYP] = word
        self.record(code, ELR_HYP_CELL, word, number, self.block[ELR_HYP] if (code, number) == (BANKED_READ, DONE) else 0)

    def level(self, mode):
        """The Exception level of a mode."""
        return {MONITOR: 3, HYP: 2, USER: 0}.get(mode, 1 if self.block[SCR] & NS else 3)

    def is_legal(self, mode):
        """Whether a return may lead to a mode."""
        return (mode in MODES and self.level(mode) <= self.level(self.mode()) and
                (mode != HYP or self.block[SCR] & NS != 0))

    def leave(self):
        """A return that takes nothing off; the saved words of a walk have T 0."""
        if self.mode() not in SAVED:
            self.record(RETURN, 0, 0, NOT_HERE)
            return
        saved, address = (self.block[place] for place in SAVED[self.mode()])
        is_legal = self.is_legal(saved & MODE_BITS)
        self.block[CPSR] = saved if is_legal else saved & ~MODE_BITS | self.mode() | IL
        self.block[PC] = address & ~3
        self.record(RETURN, 0, 0, DONE)

    def stay(self):
        """A Step that leaves the mode as it is."""
        self.chance.choice([
            lambda: self.note(R8_USR, self.chance.getrandbits(32)),
            lambda: self.note(CPSR, NO_MODE),
            lambda: self.record(INTERRUPT_CHECK, 0, 0, DONE),
            lambda: self.record(NO_EVENT, 0, 0, BAD_EVENT),
            lambda: self.record(BANKED_READ, NO_CELL, 0, NO_REGISTER),
            lambda: self.access(BANKED_READ, 0),
            lambda: self.access(BANKED_WRITE, self.chance.getrandbits(32)),
        ])()

    def move(self):
        """A Step that leads to another mode or state, or is refused."""
        self.chance.choice([
            self.call_monitor,
            lambda: self.note(CPSR, self.chance.choice(MODES)),
            lambda: self.note(SCR, self.block[SCR] ^ self.chance.choice((NS, NS, NS, SCD))),
            lambda: self.note(self.chance.choice((SPSR_SVC, SPSR_MON, SPSR_HYP)), self.chance.choice(MODES)),
            self.leave,
        ])()

    def go(self, count):
        """So many Steps: stays of any length, and between them a few moves."""
        while len(self.steps) < count:
            for _ in range(self.chance.randint(1, 4)):
                self.move()
            for _ in range(self.chance.choice((0, 1, 2, self.chance.randint(3, LONGEST_STAY)))):
                self.stay()
        del self.steps[count:]

    def trace(self):
        return start_record(len(self.steps), self.start) + b''.join(self.steps) + end_record(len(self.steps))


def walk(count, seed):
    """An honest trace."""
    made = Walk(seed, SUPERVISOR)
    made.go(count)
    return made.trace()


def walk_without_mode(count):
    """An honest trace whose start block has no mode, so that every Step is refused."""
    made = Walk(0, NO_MODE)
    for _ in range(count):
        made.record(SMC, 0, 0, BAD_MODE)
    return made.trace()


def damaged(trace, wrong, number=DONE):
    """The trace with this Step wrong, an SMC with this answer, and with any state and any answer in those behind it."""
    bent, behind = bytearray(trace), START_SIZE + STEP_SIZE * wrong
    bent[behind - STEP_SIZE + 4:behind - BLOCK_SIZE] = struct.pack('<5I', SMC, 0, 0, number, 0)
    bent[behind - 1] ^= 1  # of HDCR, its last word
    for place in range(behind, len(trace) - END_SIZE, STEP_SIZE):
        bits = place // STEP_SIZE * 2654435761 >> 8  # mixed, and the same in every run
        bent[place + 16] = bits & 3
        bent[place + STEP_BLOCK + 4 * SCR] = bits >> 2 & NS
        bent[place + STEP_BLOCK + 4 * CPSR] = (*MODES, 0)[bits // 64 % 10]
    return bytes(bent)
