"""Counts as `console --count` prints them and keeps them in a totals file: a line for each that is not 0, of group, number and
count, in rising order. Read without a guess, and added up exactly.
"""
import re

MOST = 2**32 - 1  # what a totals file has room for
LINE = re.compile(rb'([1-4]) (0|[1-9]|[12][0-9]|3[01]) ([1-9][0-9]{0,9})\n')


class Trouble(Exception):
    """What was asked for cannot be done, and why."""


def read_counts(text, name):
    """The counts in a text, by group and number; a text that has anything else is none."""
    counts, last = {}, (0, 0)
    for number, line in enumerate(text.splitlines(keepends=True), 1):
        found = LINE.fullmatch(line)
        group, place, count = map(int, found.groups()) if found else (0, 0, 0)
        if (group, place) <= last or count > MOST:
            raise Trouble(f'{name}: line {number} is none of counts')
        counts[group, place] = count
        last = group, place
    return counts


def add_counts(total, counts):
    """Adds to the total, unless a count would pass what a totals file has room for."""
    for key, count in counts.items():
        total[key] = total.get(key, 0) + count
        if total[key] > MOST:
            raise Trouble(f'count {key[0]} {key[1]} passes {MOST}')


def count_lines(counts):
    return ''.join(f'{group} {number} {counts[group, number]}\n' for group, number in sorted(counts))
