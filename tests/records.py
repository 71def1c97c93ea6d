"""The records of a trace (document 01, "The trace", and document 02, No. 11), and traces made of them.

Names without a layout are of the new one.
"""
import collections
import os
import re
import struct

SAMPLES = os.path.join(os.path.dirname(os.path.dirname(os.path.abspath(__file__))), 'samples')

CPSR, HDCR = 33, 44
START_BLOCK, STEP_BLOCK = 8, 24  # where the block begins in a Start and in a Step
STEP_EVENT, STEP_NUMBER = 4, 16  # where a Step has its event, and its answer's number
END_SIZE, END_KIND = 8, 3
LONGEST = 65535  # Steps
NOTE = 12

Layout = collections.namedtuple('Layout', 'places block_size start_size start_kind step_size step_kind')


def layout(places, start_kind, step_kind):
    return Layout(places, 4 * places, START_BLOCK + 4 * places, start_kind, STEP_BLOCK + 4 * places, step_kind)


NEW, OLD = layout(45, 4, 5), layout(44, 1, 2)
PLACES, BLOCK_SIZE, START_SIZE, START_KIND, STEP_SIZE, STEP_KIND = NEW


def layout_of(trace):
    """By the kind that the bytes open with."""
    return NEW if int.from_bytes(trace[2:4], 'little') == START_KIND else OLD


def start_record(count, block=bytes(BLOCK_SIZE), form=NEW):
    return struct.pack('<HHI', form.start_size, form.start_kind, count) + block


def end_record(count):
    return struct.pack('<HHI', END_SIZE, END_KIND, count)


SHORTEST = start_record(0) + end_record(0)
OLD_SHORTEST = start_record(0, bytes(OLD.block_size), OLD) + end_record(0)


def length_of(steps, form=NEW):
    """The bytes of a trace of so many Steps."""
    return form.start_size + form.step_size * steps + END_SIZE


def step_places(trace):
    """The first bytes of the Steps of a whole trace."""
    form = layout_of(trace)
    return range(form.start_size, len(trace) - END_SIZE, form.step_size)


def accepted(trace):
    """What the console says of an accepted trace, by its length and the answers of its Steps."""
    steps = step_places(trace)
    done = sum(int.from_bytes(trace[step + STEP_NUMBER:step + STEP_NUMBER + 4], 'little') == 0 for step in steps)
    return f'accepted, {len(steps)} Steps' + (f': {done} done, {len(steps) - done} refused' if steps else '')


def note(block, place, word, form=NEW):
    """The Step of a note that is done, and the block that it leaves."""
    after = block[:4 * place] + word + block[4 * place + 4:]
    value = int.from_bytes(word, 'little')
    return struct.pack('<HHIIIII', form.step_size, form.step_kind, NOTE, place, value, 0, 0) + after, after


def long_trace(count, wrong=None, form=NEW):
    """An honest trace: a sample's Steps and notes that bring its start block back, over and over; or one Step wrong."""
    with open(os.path.join(SAMPLES, 'honest.trace' if form is NEW else 'honest-old.trace'), 'rb') as file:
        sample = file.read()
    start, round_trip = sample[START_BLOCK:form.start_size], sample[form.start_size:-END_SIZE]
    block = round_trip[-form.block_size:]
    for place in sorted(range(form.places), key=lambda place: place != CPSR):  # it first: User may have any other word
        step, block = note(block, place, start[4 * place:4 * place + 4], form)
        round_trip += step
    steps = bytearray((round_trip * (form.step_size * count // len(round_trip) + 1))[:form.step_size * count])
    if wrong:
        steps[form.step_size * wrong - 1] ^= 1  # of the last word
    return start_record(count, start, form) + bytes(steps) + end_record(count)


def as_old(trace):
    """A trace of whole records in the old layout: each block loses its last word. Its events are those known there."""
    cut = bytearray(struct.pack('<HH', OLD.start_size, OLD.start_kind) + trace[4:START_SIZE - 4])
    for at in range(START_SIZE, len(trace) - END_SIZE, STEP_SIZE):
        cut += struct.pack('<HH', OLD.step_size, OLD.step_kind) + trace[at + 4:at + STEP_SIZE - 4]
    return bytes(cut + trace[-END_SIZE:])


def sample_reports(samples=SAMPLES):
    """The samples as verdicts.txt names them, below the folder that holds theirs, each with number, place and Steps.

    They are read out of the lines that the console prints; of an accepted trace the place is its length.
    """
    with open(os.path.join(samples, 'verdicts.txt'), encoding='utf-8') as file:
        for name, said in (line.split(': ', 1) for line in file):
            if refused := re.match(r'refused (\d+) \S+ at byte (\d+) after (\d+) Steps', said):
                yield name, *map(int, refused.groups())
            else:
                steps = int(re.match(r'accepted, (\d+) Steps', said)[1])
                yield name, 0, os.path.getsize(os.path.join(os.path.dirname(samples), name)), steps
