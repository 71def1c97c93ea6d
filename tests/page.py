"""What a page of `console --html` says, and what is wrong with it as a page, read by the standard library's parser."""
import html.parser
import re
import struct

from records import STEP_BLOCK, STEP_EVENT, layout_of
from sentences import NUMBER, REGISTERS, SAID, any_of
from status import differing_fields

# The only elements that a page is made of.
ELEMENTS = set('html head meta title style body header h1 h2 bdi pre p a section ul li div svg path rect text '
               'details summary span b table tr th td'.split())
EMPTY = {'meta'}
LANES = {'monitor', 'hyp', 'guest', 'secure', 'none'}
POLICY = "default-src 'none'; style-src 'unsafe-inline'"

# Where the file's name stands, and nowhere else.
TITLE, NAME = ['html', 'head', 'title'], ['html', 'body', 'header', 'h1', 'bdi']

# The only attributes, and what they may be.
ATTRIBUTES = {
    'lang': 'en', 'charset': 'utf-8', 'name': 'viewport', 'http-equiv': 'Content-Security-Policy',
    'content': any_of(re.escape(POLICY), 'width=device-width, initial-scale=1'),
    'class': '[a-z -]+', 'id': f's{NUMBER}|wrong', 'href': f'#(s{NUMBER}|wrong)', 'tabindex': '-1', 'open': '',
    'role': 'img', 'aria-label': f'modes, Step {NUMBER} and on', 'aria-hidden': 'true', 'viewbox': f'0 0 {NUMBER} {NUMBER}',
    'style': rf'left: calc\(100% \* {NUMBER} / {NUMBER}\)',
    'd': '[Mhvlmz0-9 -]+', 'x': NUMBER, 'y': NUMBER, 'width': NUMBER, 'height': NUMBER,
}


def may_be(patterns, name, text):
    """Whether the text of an element or an attribute is what its pattern allows."""
    return name in patterns and re.fullmatch(patterns[name], text) is not None


def changed_words(trace, place):
    """The rows that the page has to have for the Step at a place that is not wrong."""
    form = layout_of(trace)
    blocks = place - form.block_size, place + STEP_BLOCK
    before, after = (struct.unpack_from(f'<{form.places}I', trace, at) for at in blocks)
    changed = zip(REGISTERS, before, after)
    return [[name, f'0x{old:08X}', f'0x{new:08X}'] for name, old, new in changed if old != new]


def event_words(trace, place):
    """The words of the event of the Step at a place, as the page has to tell them."""
    return 'code {}, A 0x{:08X}, B 0x{:08X}'.format(*struct.unpack_from('<3I', trace, place + STEP_EVENT))


def changes_told(rows):
    """What the page has to say under the rows of a Step that is not wrong."""
    words = [f'CPSR: {differing_fields(int(new, 16), "was", int(old, 16))}' for name, old, new in rows if name == 'CPSR']
    return words if rows else ['No word changed.']


class Page(html.parser.HTMLParser):
    """A page: its faults, its title, its verdict and warnings, its text, its pictures, its marks, and the Steps that it lists."""

    def __init__(self, content):
        super().__init__()
        self.faults, self.open, self.ids, self.links = [], [], [], []
        self.title, self.verdict, self.style, self.policy = '', '', '', ''
        self.header, self.warnings = '', []  # the style of the verdict, and what else is to be heeded
        self.pieces = []  # of the text
        self.marks = {'entry': 0, 'return': 0, 'refusal': 0}
        self.pictures, self.target = [], None  # of each its parts: element, attributes and text; where #wrong is, by picture
        self.bars, self.columns = [[]], []  # of each picture: where bars begin and end, with their styles; of each Step
        self.steps = []  # of each: its style, the texts of its line, and its rows of words
        self.told = []  # of each: what it says beside its rows, by paragraphs
        self.size = len(content)
        try:
            self.feed(content.decode())
        except UnicodeDecodeError as error:
            self.fault(error)
        self.close()
        self.text = ''.join(self.pieces)
        self.judge(content)

    def fault(self, what):
        self.faults.append(str(what))

    def judge(self, content):
        if re.search(rb'[^\n -~\x80-\xff]', content):
            self.fault('a control character')
        if not content.startswith(b'<!doctype html>\n') or not content.endswith(b'</html>\n'):
            self.fault('not a whole page')
        if self.open or self.policy != POLICY or 'url(' in self.style or '@import' in self.style:
            self.fault((self.open, self.policy, 'or a style that asks for a file'))
        if len(set(self.ids)) != len(self.ids) or not set(self.links) <= {'#' + name for name in self.ids}:
            self.fault('an id twice, or a link to nowhere')

    def handle_starttag(self, tag, attrs):
        self.handle_startendtag(tag, attrs)
        if tag not in EMPTY:
            self.open.append(tag)

    def handle_startendtag(self, tag, attrs):
        given = dict(attrs)
        self.pieces.append(' ')
        if tag not in ELEMENTS or not all(may_be(ATTRIBUTES, name, given[name] or '') for name in given):
            self.fault((tag, attrs))
        self.ids += [given['id']] if 'id' in given else []
        self.links += [given['href']] if 'href' in given else []
        if 'http-equiv' in given:
            self.policy = given['content']
        self.begin(tag, given.get('class', ''))
        if 'div' in self.open:
            self.draw(tag, given)

    def draw(self, tag, given):
        """A part of the timeline."""
        style = given.get('class', '')
        if given.get('id') == 'wrong':
            self.target = len(self.pictures), given['style']
        if tag == 'svg':
            self.pictures.append([])
            self.bars.append([])
        elif tag == 'path' and style in self.marks:
            self.marks[style] += given['d'].count('M')
        elif tag == 'path' and style.split()[0] in LANES:
            bars = re.findall(r'M(\d+) \d+h(\d+)', given['d'])
            self.bars[-1] += [(int(x), int(x) + int(width), style) for x, width in bars]
        elif tag == 'rect' and style == 'link':
            self.columns.append((len(self.bars) - 1, int(given['x'])))
        if 'svg' in self.open:
            self.pictures[-1].append([tag, given, ''])

    def begin(self, tag, style):
        """Room for the texts of a Step."""
        if tag == 'header':
            self.header = style
        elif tag == 'details':
            self.steps.append((style, [], []))
            self.told.append([])
        elif tag == 'span' and 'summary' in self.open:
            self.steps[-1][1].append('')
        elif tag == 'tr':
            self.steps[-1][2].append([])
        elif tag in ('th', 'td'):
            self.steps[-1][2][-1].append('')

    def handle_endtag(self, tag):
        if not self.open or self.open.pop() != tag:
            self.fault(f'</{tag}> in {self.open}')

    def handle_data(self, data):
        element = self.open[-1] if self.open else ''
        if self.open == TITLE:
            self.title += data
        elif element == 'style':
            self.style += data
            self.judge_lines(element, re.findall('content: "(.*?)"', data))
        else:
            self.pieces.append(data)
            self.keep(element, data)
            self.judge_lines(element, data.splitlines() if self.open != NAME else [])

    def judge_lines(self, element, lines):
        """What an element says, line by line, against the sentences."""
        self.faults += [f'{element}: {line}' for line in lines if line.strip() and not may_be(SAID, element, line.strip())]

    def keep(self, element, data):
        """A text that belongs to the verdict or to a Step."""
        if 'h1' in self.open:
            self.verdict += data
        elif element == 'text':
            self.pictures[-1][-1][2] += data
        elif 'summary' in self.open and 'span' in self.open:
            self.steps[-1][1][-1] += data
        elif element in ('th', 'td'):
            self.steps[-1][2][-1][-1] += data
        elif element == 'p' and data.startswith('warning: '):
            self.warnings.append(data)
        elif element == 'p' and 'details' in self.open:
            self.told[-1].append(data)

    def handle_comment(self, data):
        self.fault(f'a comment: {data}')

    def drawn_lanes(self):
        """The lane of each Step that has a column of its own, by the style of the bars that stand there."""
        for row, x in self.columns:
            yield ' '.join(style for first, last, style in self.bars[row] if first <= x < last)

    def listed_lanes(self):
        """The same of each Step that is listed, by the state that it was in."""
        for style, (_, _, _, state, _), _ in self.steps:
            mode, pale = state.split(',')[0], ' pale' if style == 'pale' else ''
            if mode.startswith('Monitor') or mode.endswith('Hyp'):
                yield ('monitor' if mode.startswith('Monitor') else 'hyp') + pale
            elif mode.startswith('mode 0x'):
                yield 'none' + pale
            else:
                yield ('guest' if mode.startswith('Non-secure') else 'secure') + pale

    def told_steps(self):
        """The Steps that were judged, as `console --trace` tells them."""
        for style, (number, place, event, state, outcome), _ in self.steps:
            if style != 'pale':
                wrong = outcome.startswith('WRONG; the rules give: ')
                outcome = outcome.split(': ', 1)[1] + ': WRONG' if wrong else outcome
                yield f'  Step {number} at byte {place}: {event}; {state}; {outcome}'

    def wrong_changes(self, trace):
        """The Steps that do not open to the words of their event and those that they changed."""
        for (style, (number, place, *_), rows), told in zip(self.steps, self.told):
            words = changed_words(trace, int(place))
            if told != [event_words(trace, int(place)), *([] if style == 'wrong' else changes_told(words))]:
                yield number
            if style != 'wrong' and rows[1:] != words:
                yield number

    def told_differences(self):
        """The words of the wrong Step that differ, as `console --explain` tells them."""
        for style, _, rows in self.steps:
            for row in rows:
                if style == 'wrong' and row[-1].startswith('differs'):
                    yield f'    {row[0]} {row[2]} due, {row[3]} found{row[-1].removeprefix("differs")}'
