#!/usr/bin/env python3
"""browser.py COMMAND...: opens pages of the console in Chromium, without a window, as a reader does.

COMMAND runs the console. Pages of few, many and the most Steps, accepted and refused, on a desk's screen and on phones: nothing
on the browser's console, nothing fetched, the verdict and the wrong Step in sight, a Step that opens on a click, and no text
cut off. Then pages with every kind of bar and mark, in a light and a dark scheme, in colours that the reader's system forces,
and in print: every text and every shape stands out from what is behind it. Ends with `N passed, M failed`.
"""
import os
import subprocess
import sys
import tempfile

sys.dont_write_bytecode = True
from devtools import Browser  # noqa: E402
from records import SHORTEST, START_SIZE, STEP_SIZE, long_trace  # noqa: E402
from walks import damaged, walk, walk_without_mode  # noqa: E402

# How many Steps, which of them is wrong, and in windows of which widths the page is looked at.
SCREENS, HEIGHT = (1280, 375, 320), 900
TRACES = [(9, None, SCREENS), (9, 3, (*SCREENS, 600)), (2000, 613, SCREENS), (65535, None, (1280, 375)), (65535, 40000, SCREENS)]
LONG_NAME = 200  # letters without a place to wrap
COMMAND = sys.argv[1:]
MOST_LISTED, OPENED, STEPS_LEFT = 2000, 100, 15
LOOK = os.path.join(os.path.dirname(os.path.abspath(__file__)), 'browser.js')
results = []

# Traces that have every lane, pale or not, every mark, and every way to end.
COLOURED = {
    'few Steps, one wrong': damaged(walk(60, 6), 40),
    'many Steps, one wrong': damaged(walk(2001, 1), 1500),
    'a trace that stops': walk(80, 2)[:-1],
    'no mode': walk_without_mode(20),
    'nothing done': SHORTEST,
}

# How a reader has the browser set, and the scheme that the page then has; where colours are forced it is the system's.
FORCED, DARK = {'forced_colors': 'active'}, {'prefers_color_scheme': 'dark'}
SCHEMES = {
    'light': ('light', {}),
    'dark': ('dark', DARK),
    'forced colours, light': ('light', FORCED),
    'forced colours, dark': ('dark', {**FORCED, **DARK}),
    'print, from a dark screen': ('light', {'media': 'print', **DARK}),
}
DESK, SHEET = (1280, 3000), (704, 3000)  # in print, as wide as A4 within its margins
LEAST_OF_TEXT = 4.5

# What a timeline is drawn of: where each stands, and how much its fill or its border stands out, at least.
LANES = ('monitor', 'hyp', 'guest', 'secure', 'none')
SHAPES = {
    **{f'a bar of {lane}': (f'path.{lane}:not(.pale)', 3) for lane in LANES},
    **{f'a pale bar of {lane}': (f'path.{lane}.pale', 1.3) for lane in LANES},
    'a lane': ('path.lane', 1.1), 'an entry': ('path.entry', 3), 'a return': ('path.return', 3),
    'a refusal': ('path.refusal', 3),
    'the frame of the wrong Step': ('rect.frame', 3), 'a flag': ('path.flag', 3), 'where the trace stops': ('path.stop', 3),
    'the mode at the end': ('rect.end:not(.pale)', 3), 'a pale mode at the end': ('rect.end.pale', 1.3),
}
# Those that colour alone must not tell apart, whatever colours there are.
TOLD_BY_FORM = ('path.guest:not(.pale)', 'path.guest.pale', 'path.lane', 'rect.frame')


def expect(name, held, seen=''):
    results.append(bool(held))
    print(f'ok      {name}' if held else f'FAILED  {name}: {seen}', flush=True)


def write(path, content):
    with open(path, 'wb') as file:
        file.write(content)
    return path


def page_of(trace):
    """Writes the page of a trace beside it."""
    made = subprocess.run([*COMMAND, '--html', trace], stdout=subprocess.PIPE, timeout=600, check=False)
    return write(os.path.join(os.path.dirname(trace), 'page.html'), made.stdout)


def spoilt_trace(steps, wrong):
    """A trace in which every word of a Step is as large as it can be, so that there is most to read."""
    trace = bytearray(long_trace(steps))
    if wrong:
        end = START_SIZE + STEP_SIZE * wrong
        trace[end - STEP_SIZE + 4:end] = b'\xff' * (STEP_SIZE - 4)
    return bytes(trace)


def verdict_on(trace, steps, wrong):
    """What the console's line on it begins with."""
    if wrong is None:
        return f'{trace}: accepted, {steps} Steps: {steps} done, 0 refused'
    return f'{trace}: refused 11 WRONG_STEP at byte {START_SIZE + STEP_SIZE * (wrong - 1)} after {wrong - 1} Steps'


class View:
    """A page in a window; the page is opened once, and the window changes its size."""

    def __init__(self, browser, path, width, height):
        self.browser, self.path = browser, path
        with open(LOOK, encoding='utf-8') as file:
            self.look = file.read()
        browser.open('about:blank')  # so that the page before is not laid out once more
        browser.resize(width, height)
        browser.open(f'file://{path}')

    def ask(self, script):
        return self.browser.evaluate('{' + self.look + script + '}')

    def click(self, selector):
        """A click on the middle of an element, after it was brought into the window."""
        x, y = self.ask(f'const it = one("{selector}"); it.scrollIntoView({{block: "center"}}); middleOf(it)')
        self.browser.click(x, y)
        self.ask('drawn()')

    def messages(self):
        """What stands on the browser's console, and what the page asked for beside itself."""
        for event in self.browser.events:
            method, told = event.get('method'), event.get('params', {})
            if method in ('Runtime.consoleAPICalled', 'Runtime.exceptionThrown', 'Log.entryAdded'):
                yield told.get('entry', told.get('exceptionDetails', told))
            elif method == 'Network.requestWillBeSent' and told['request']['url'] != f'file://{self.path}':
                yield told['request']['url']


def try_verdict(name, view, line):
    said, is_seen = view.ask('[said(one("h1")), isSeen(one("h1"))]')
    expect(f'{name}: the verdict is in sight', said.startswith(line) and is_seen, (said, is_seen))


def try_wrong_step(name, view, wrong):
    """The wrong Step is told at the top, and is one click away in the list."""
    told = view.ask('[said(one("header pre")), isBegun(one("header pre"))]')
    view.click('header p a:last-child')
    listed = view.ask('[one("details.wrong").id, one("details.wrong").open, isSeen(one("details.wrong > summary")), '
                      'isSeen(one("details.wrong .differs"))]')
    expect(f'{name}: the wrong Step is in sight', told[0].startswith(f'Step {wrong} at byte ') and told[1] and
           listed == [f's{wrong}', True, True, True], (told[0][:60], told[1], listed))


def try_way_to_timeline(name, view, wrong):
    """One click leads to the wrong Step's column in the timeline, and to its flag, wherever the timeline was scrolled to."""
    for side in ('0', 'one(".rows").scrollWidth'):
        view.ask(f'one(".rows").scrollLeft = {side}')
        view.click('header p a')
        seen = view.ask('const box = one(".rows"), flag = one(".rows text.flag"); '
                        '[location.hash, said(flag), isSeen(flag), isInBox(flag, box), isInBox(one(".rows .frame"), box)]')
        expect(f'{name}: the way to its column, from {"the right" if side != "0" else "the left"}',
               seen == ['#wrong', f'Step {wrong:,} WRONG', True, True, True], seen)


def try_click(name, view, step):
    """A Step opens on a click, shows what is in it, and closes on the next."""
    seen = []
    for _ in range(2):
        view.click(f'#s{step} > summary')
        seen.append(view.ask(f'const step = one("#s{step}"); [step.open, isSeen(step.lastElementChild)]'))
    expect(f'{name}: Step {step} opens on a click', seen == [[True, True], [False, False]], seen)


def try_width(name, view, width, listed):
    """No text is cut off, with as many Steps open as a reader opens."""
    view.ask(f'for (const step of all("details").slice(-{OPENED})) step.open = true')
    told = view.ask(f'cutOff({width})')
    view.ask('for (const step of all("details[open]:not(.wrong)")) step.open = false')
    faults, least = told['faults'], 4 * listed + min(listed, OPENED)
    if told['texts'] < least:  # a page that shows nothing cuts nothing off
        faults.append(f'only {told["texts"]} texts of {least}')
    expect(f'{name}: no text is cut off', not faults, faults)


def try_window(name, view, line, steps, wrong):
    view.ask('scrollTo(0, 0)')
    try_verdict(name, view, line)
    if wrong:
        try_wrong_step(name, view, wrong)
        try_way_to_timeline(name, view, wrong)
    try_click(name, view, wrong - 1 if wrong else steps - min(steps, MOST_LISTED) // 2)


def try_page(browser, room, steps, wrong, widths):
    trace = write(os.path.join(room, str(steps).rjust(LONG_NAME, 'W')), spoilt_trace(steps, wrong))
    view = View(browser, page_of(trace), widths[0], HEIGHT)
    name = f'{steps:,} Steps, {"refused" if wrong else "accepted"}'
    for width in widths:
        browser.resize(width, HEIGHT)
        try_window(f'{name}, {width} wide', view, verdict_on(trace, steps, wrong), steps, wrong)
        try_width(f'{name}, {width} wide', view, width, min(steps, MOST_LISTED))
    messages = list(view.messages())
    expect(f'{name}: nothing on the browser\'s console, nothing fetched', not messages, messages[:3])


def shorten_list(view):
    """Leaves a few Steps of the list, open, with one that a link led to: looking behind a text takes long in a long page."""
    view.ask(f'for (const step of all("details:not(.wrong)").slice({STEPS_LEFT})) step.remove(); '
             'for (const step of all("details")) step.open = true; '
             'location.hash = all("details")[1]?.id ?? ""; drawn().then(() => scrollTo(0, 0))')


def try_texts(name, view):
    """Every text stands out from what is behind it."""
    told = view.ask(f'faintTexts({LEAST_OF_TEXT})')
    expect(f'{name}: every text stands out', not told['faint'] and told['texts'] > 10, told)


def try_shapes(name, view, looked_at):
    """Every shape of the timeline stands out, by its fill or by its border."""
    faint = []
    for shape, (selector, least) in SHAPES.items():
        looks = view.ask(f'all(".rows {selector}").map(lookOf)')
        looked_at |= {shape} if looks else set()
        faint += [(shape, look) for look in looks if max(look['fill'], look['border']) < least]
    expect(f'{name}: every shape stands out', not faint, faint[:3])


def try_forms(name, view):
    """What is told by colours is told by forms too."""
    forms = view.ask(f'{list(TOLD_BY_FORM)}.map(selector => lookOf(one(`.rows ${{selector}}`)).form)')
    expect(f'{name}: bars, pale bars, lanes and the frame differ by their forms', len(set(forms)) == len(forms), forms)


def try_shared_bars(name, view):
    """A bar whose height is a share has no border, which would add to it."""
    bordered = view.ask('all(".rows path:not(.lane)").filter(path => getComputedStyle(path).strokeWidth !== "0px")'
                        '.map(path => path.classList.value)')
    expect(f'{name}: bars are as high as they are drawn', not bordered, bordered)


def try_lanes(name, view):
    """Each lane has a colour of its own."""
    colours = view.ask('all(".rows path.pale").map(path => lookOf(path).colours)')
    expect(f'{name}: each lane has its colour', len(set(colours)) == len(LANES), set(colours))


def try_marks(name, view):
    """Entries, returns and refusals have colours of their own, and none has that of the wrong Step's flag."""
    colours = view.ask('["entry", "return", "refusal", "flag"].map(mark => lookOf(one(`.rows path.${mark}`)).colours)')
    expect(f'{name}: each mark has its colour', len(set(colours)) == 4, colours)


def try_scheme(name, view, scheme, is_forced):
    """The page has the scheme, and so have the parts that the browser draws, as bars to scroll by."""
    seen = view.ask('[getComputedStyle(document.documentElement).colorScheme, '
                    'luminance(colour(getComputedStyle(document.body).backgroundColor))]')
    has_paper = seen[1] < 0.1 if scheme == 'dark' else seen[1] == 1
    expect(f'{name}: the scheme is {scheme}', has_paper and seen[0] == ('light dark' if is_forced else scheme), seen)


def try_setting(name, view, looked_at):
    try_texts(name, view)
    if view.ask('one(".rows") !== null'):
        try_shapes(name, view, looked_at)


def try_colours(browser, room):
    looked_at = set()
    for kind, trace in COLOURED.items():
        view = View(browser, page_of(write(os.path.join(room, 'trace'), trace)), *DESK)
        shorten_list(view)
        for setting, (scheme, features) in SCHEMES.items():
            browser.resize(*(SHEET if 'media' in features else DESK))
            browser.show_as(**features)
            name = f'{kind}, {setting}'
            try_scheme(name, view, scheme, 'forced_colors' in features)
            try_setting(name, view, looked_at)
            if kind == 'few Steps, one wrong' and 'forced_colors' in features:
                try_forms(name, view)
            elif kind == 'few Steps, one wrong':
                try_lanes(name, view)
                try_marks(name, view)
            if kind == 'many Steps, one wrong':
                try_shared_bars(name, view)
            if 'media' in features:
                try_width(name, view, SHEET[0], 0)
        browser.show_as()
    expect('every kind of shape was looked at', looked_at == SHAPES.keys(), SHAPES.keys() - looked_at)


def main():
    with tempfile.TemporaryDirectory() as room, Browser() as browser:
        for steps, wrong, widths in TRACES:
            try_page(browser, room, steps, wrong, widths)
        try_colours(browser, room)
    print(f'{results.count(True)} passed, {results.count(False)} failed')
    sys.exit(0 if all(results) else 1)


main()
