#!/usr/bin/env python3
"""timeline.py COMMAND...: holds the timelines of pages to what is counted here, from the traces' own bytes.

COMMAND runs the console. Walks through the modes with every kind of Step, accepted and refused, of so many Steps that a column
is one, two, five or ten: every bar and mark of every column, its height by its share, the numbers on the axis, and where the
wrong Step stands. Ends with `N passed, M failed`.
"""
import os
import re
import struct
import subprocess
import sys
import tempfile

sys.dont_write_bytecode = True
from page import Page  # noqa: E402
from records import START_BLOCK, START_SIZE, STEP_BLOCK, STEP_NUMBER, STEP_SIZE, as_old, layout_of  # noqa: E402
from walks import (  # noqa: E402
    BANKED_READ, BANKED_WRITE, CPSR, DONE, HYP, INTERRUPT_CHECK, MODE_BITS, MODES, MONITOR, NOT_HERE, NOTE, NS, RETURN, SCR,
    damaged, walk, walk_without_mode)

COMMAND = sys.argv[1:]
LANES = {'monitor': 'Monitor', 'hyp': 'Hyp', 'guest': 'guest', 'secure': 'Secure', 'none': 'no mode'}
MARKS = {'entry': 'entries', 'return': 'returns', 'refusal': 'refusals'}

# How Steps are spread over rows and columns (docs/DECISIONS.md, "The page").
MOST_SINGLE, SINGLE, SHARED, MOST_ROWS = 2000, 100, 500, 14
# A picture, in its own pixels: its width, where columns begin, how much room they have, and the widest.
WIDTH, LEFT, FIELD, WIDEST = 1120, 72, 1000, 106
# Below the lanes, where the strips of shared columns begin, how far apart they are, and how high; and the lowest bar.
STRIPS, STRIP_EVERY, STRIP, LEAST = 4, 13, 12, 2
NUMBERING = 24  # the narrowest column that has a number of its own

BAR = r'M(\d+) (\d+)h(\d+)v(\d+)h-\3z'
results = []


def expect(name, faults):
    results.append(not faults)
    print(f'FAILED  {name}: {faults[:3]}' if faults else f'ok      {name}', flush=True)


def lane_of(block):
    mode = block[CPSR] & MODE_BITS
    if mode not in MODES:
        return 'none'
    if mode in (MONITOR, HYP):
        return 'monitor' if mode == MONITOR else 'hyp'
    return 'guest' if block[SCR] & NS else 'secure'


def mark_of(code, number, value):
    """The strip that a Step is marked in, if any."""
    if number != DONE:
        return 'refusal'
    if code == RETURN:
        return 'return'
    is_silent = code in (BANKED_READ, BANKED_WRITE, NOTE) or (code == INTERRUPT_CHECK and value == 0)
    return None if is_silent else 'entry'


def count_recorded(trace, judged):
    """The Steps that were judged and those behind them that Start counts, have a Step's head and are whole."""
    form, counted = layout_of(trace), struct.unpack_from('<I', trace, 4)[0]
    head = struct.pack('<HH', form.step_size, form.step_kind)
    recorded, place = judged, form.start_size + form.step_size * judged
    while recorded < counted and place + form.step_size <= len(trace) and trace.startswith(head, place):
        recorded, place = recorded + 1, place + form.step_size
    return recorded


class Due:
    """What the timeline of a trace has to show, when so many Steps are right and the next one is wrong, or none is."""

    def __init__(self, trace, right, is_wrong):
        self.right, self.wrong = right, right if is_wrong else None
        self.recorded = count_recorded(trace, right + 1) if is_wrong else right
        form = layout_of(trace)
        places = [form.start_size + form.step_size * index for index in range(self.recorded)]
        blocks = [START_BLOCK, *(place + STEP_BLOCK for place in places)]
        self.lanes = [lane_of(struct.unpack_from(f'<{form.places}I', trace, place)) for place in blocks]
        self.marks = [mark_of(*struct.unpack_from('<I8xII', trace, place + 4)) for place in places]
        self.per_column, columns = self.spread()
        self.width = min(FIELD // columns, WIDEST)
        self.rows = self.divide(columns * self.per_column)

    def spread(self):
        """How many Steps a column has, and how many columns a row."""
        if self.recorded <= MOST_SINGLE:
            return 1, min(max(self.recorded, 1), SINGLE)
        return next(each for each in (2, 5, 10) if each * SHARED * MOST_ROWS >= self.recorded), SHARED

    def divide(self, each):
        """The Steps of each row; a trace without Steps has a row too."""
        return [range(first, min(first + each, self.recorded)) for first in range(0, self.recorded, each)] or [range(0)]

    def styles(self, index):
        """What a Step is drawn as."""
        if index == self.wrong:
            return [self.lanes[index]]
        if index > self.right:
            return [f'{self.lanes[index]} pale']
        return [self.lanes[index], *([self.marks[index]] if self.marks[index] else [])]

    def column(self, row, index):
        return (index - row.start) // self.per_column

    def x(self, row, index):
        return LEFT + self.column(row, index) * self.width

    def bars(self, row, lane_height):
        """The height of each bar and mark of a row, by style and column."""
        counts, steps = {}, {}
        for index in row:
            column = self.column(row, index)
            steps[column] = steps.get(column, 0) + 1
            for style in self.styles(index):
                counts[style, column] = counts.get((style, column), 0) + 1
        whole = {style: STRIP if style in MARKS else lane_height for style, _ in counts}
        return {(style, column): max(LEAST, whole[style] * count // steps[column])
                for (style, column), count in counts.items()}

    def axis(self, row):
        """The numbers on the axis, by where their middle stands: the first, and round ones."""
        every = 1 if self.width >= NUMBERING else 10
        if self.per_column > 1:
            every = self.per_column * SHARED // 10
        return {self.x(row, index) + self.width // 2: f'{index + 1:,}'
                for index in row if index == row.start or (index + 1) % every == 0}

    def names(self, row):
        lanes = [name for lane, name in LANES.items() if lane != 'none' or 'none' in self.lanes]
        return lanes + (list(MARKS.values()) if row.start < self.right else [])

    def end(self, row):
        """The bar of the mode that the last Step left, behind the last column."""
        if row.stop != self.recorded:
            return []
        columns = -(-len(row) // self.per_column)
        return [(f'{self.lanes[-1]}{"" if self.wrong is None else " pale"} end', LEFT + columns * self.width + 1)]

    def target(self):
        """Where the link beside the verdict leads: the row, and the middle of the wrong Step's column."""
        for number, row in enumerate(self.rows):
            if self.wrong is not None and self.wrong in row:
                return number, f'left: calc(100% * {self.x(row, self.wrong) + self.width // 2} / {WIDTH})'
        return None


class Drawn:
    """What a picture shows: the heights of bars and marks by style and column, and where the bars of a style stand."""

    def __init__(self, picture, width, is_single):
        self.width, self.is_single = width, is_single
        self.bars, self.grounds, self.lanes, self.faults = {}, {}, [], []
        self.texts = [(given['class'], int(given['x']), text) for tag, given, text in picture if tag == 'text']
        self.rects = [(given['class'], int(given['x'])) for tag, given, _ in picture if tag == 'rect']
        for given in (given for tag, given, _ in picture if tag == 'path'):
            self.draw(given['class'], given['d'])

    def draw(self, style, path):
        if style == 'lane':
            self.lanes.append(tuple(map(int, re.fullmatch(BAR, path).groups())))
        elif style in MARKS and self.is_single:
            for x in re.findall(r'M(\d+) ', path):
                self.bars[style, (int(x) - LEFT) // self.width] = STRIP
        elif style in MARKS or style.split()[0] in LANES:
            self.draw_bars(style, path)

    def draw_bars(self, style, path):
        """The bars of a style; between bars of single Steps there is a gap."""
        if not re.fullmatch(f'({BAR})*'.replace(r'\3', r'\d+'), path):
            self.faults.append((style, path))
        for x, y, width, height in (map(int, bar) for bar in re.findall(BAR, path)):
            first, odd = divmod(x - LEFT, self.width)
            columns, odd_width = divmod(width + self.is_single, self.width)
            added = {(style, column): height for column in range(first, first + columns)}
            if odd or odd_width or added.keys() & self.bars.keys():
                self.faults.append((style, 'at', x, 'wide', width))
            self.bars.update(added)
            self.grounds.setdefault(style, set()).add(y + height)

    def due_grounds(self):
        """Where the bars of each style have to stand: at the bottom of their lane or strip."""
        bottoms = [y + height for _, y, _, height in self.lanes]
        strips = {style: bottoms[-1] + STRIPS + STRIP_EVERY * i + STRIP for i, style in enumerate(MARKS)}
        grounds = {**dict(zip(LANES, bottoms)), **strips}
        return {style: {grounds[style.split()[0]]} for style in self.grounds}

    def texts_of(self, style):
        return [text for style_seen, _, text in self.texts if style_seen == style]

    def rects_of(self, ending):
        return [rect for rect in self.rects if rect[0].endswith(ending)]


def row_faults(due, row, picture):
    """What a row's picture shows otherwise than it has to."""
    drawn = Drawn(picture, due.width, due.per_column == 1)
    bars = due.bars(row, drawn.lanes[0][3])
    columns = due.column(row, row.stop - 1) + 1 if row else 0
    has_wrong = due.wrong is not None and due.wrong in row
    pairs = {
        'grounds': (drawn.grounds, drawn.due_grounds()),
        'lanes': ({(x, width) for x, _, width, _ in drawn.lanes}, {(LEFT, columns * due.width)}),
        'names': (drawn.texts_of('name'), due.names(row)),
        'axis': ({x: text for style, x, text in drawn.texts if style == 'number' and text != 'end'}, due.axis(row)),
        'end': (drawn.rects_of(' end'), due.end(row)),
        'frame': (drawn.rects_of('frame'), [('wrong frame', due.x(row, due.wrong))] if has_wrong else []),
        'flag': ([text for _, _, text in drawn.texts if text.endswith('WRONG')],
                 [f'Step {due.wrong + 1:,} WRONG'] if has_wrong else []),
    }
    unequal = [(what, 'seen', seen, 'due', wanted) for what, (seen, wanted) in pairs.items() if seen != wanted]
    return [*drawn.faults, *sorted(bars.items() ^ drawn.bars.items()), *unequal]


def page_faults(page, due):
    faults, said = [], re.search(r'(accepted,|after) (\d+) Steps', page.verdict)
    if not said or int(said[2]) != due.right or (': refused 11 ' in page.verdict) != (due.wrong is not None):
        faults.append(page.verdict)
    if (len(page.pictures), page.target) != (len(due.rows), due.target()):
        faults.append((len(page.pictures), 'rows of', len(due.rows), page.target, due.target()))
    for row, picture in zip(due.rows, page.pictures):
        faults += [(f'row of Step {row.start + 1}', *fault) for fault in row_faults(due, row, picture)]
    return faults


def try_trace(name, path, trace, right, is_wrong=False):
    with open(path, 'wb') as file:
        file.write(trace)
    page = subprocess.run([*COMMAND, '--html', path], stdout=subprocess.PIPE, timeout=600, check=False).stdout
    above_list = page.partition(b'<section class="steps">')[0]  # tests/console.py reads the list, which takes longer
    expect(name, page_faults(Page(above_list), Due(trace, right, is_wrong)))


def try_walks(path):
    for count in (0, 1, 9, 100, 101, 2000, 2001, 14000, 14001, 35000, 35001, 65535):
        try_trace(f'{count:,} Steps, accepted', path, walk(count, count), count)
    for count, wrong in ((9, 9), (2000, 612), (2001, 1), (2001, 2001), (14001, 7000), (35001, 34999), (65535, 40000)):
        trace = damaged(walk(count, count), wrong, NOT_HERE if wrong % 2 else DONE)
        try_trace(f'{count:,} Steps, of which Step {wrong:,} is wrong', path, trace, wrong - 1, True)


def try_old(path):
    """The same in the old layout; what is wrong with a Step is its answer."""
    for count in (0, 9, 101, 2001, 65535):
        try_trace(f'{count:,} Steps of the old layout, accepted', path, as_old(walk(count, count)), count)
    for count, wrong in ((9, 9), (2000, 612), (14001, 7000)):
        trace = as_old(damaged(walk(count, count), wrong, NOT_HERE if wrong % 2 else DONE))
        answer = layout_of(trace).start_size + layout_of(trace).step_size * (wrong - 1) + STEP_NUMBER
        trace = trace[:answer + 3] + b'\1' + trace[answer + 4:]
        try_trace(f'{count:,} Steps of the old layout, of which Step {wrong:,} is wrong', path, trace, wrong - 1, True)


def try_ends(path):
    cut = damaged(walk(30000, 1), 12000)[:START_SIZE + STEP_SIZE * 20000 - 1]
    try_trace('30,000 Steps, of which Step 12,000 is wrong, cut in Step 20,000', path, cut, 11999, True)
    whole = walk(12345, 2)
    try_trace('12,345 Steps, cut in the End', path, whole[:-1], 12345)
    try_trace('12,345 Steps, and a byte behind the End', path, whole + b'\0', 12345)
    try_trace('2,500 Steps without a mode', path, walk_without_mode(2500), 2500)


with tempfile.TemporaryDirectory() as room:
    try_walks(os.path.join(room, 'walk.trace'))
    try_ends(os.path.join(room, 'walk.trace'))
    try_old(os.path.join(room, 'walk.trace'))
print(f'{results.count(True)} passed, {results.count(False)} failed')
sys.exit(0 if all(results) else 1)
