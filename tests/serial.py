#!/usr/bin/env python3
"""serial.py KIND FOLDER LINES COMMAND...: tries the console over serial lines.

COMMAND runs the console. A line is a pseudo-terminal: its master is the unit's end, its slave the device that the console
reads. KIND, FOLDER and LINES are those of tests/console.py, and not looked at. Ends with `N passed, M failed`.
"""
import fcntl
import os
import pty
import re
import select
import signal
import subprocess
import sys
import tempfile
import termios
import time
import tty

sys.dont_write_bytecode = True
from records import (  # noqa: E402
    CPSR, PLACES, SAMPLES, START_BLOCK, START_SIZE, STEP_SIZE, accepted, end_record, length_of, long_trace, note, start_record)
from runs import PATIENCE, Live, Runs, comes_true, read, write  # noqa: E402

COMMAND = sys.argv[4:]
ROOT = os.path.dirname(SAMPLES)
runs = Runs(COMMAND)
run, expect = runs.run, runs.expect
os.environ['ASAN_OPTIONS'] = 'detect_leaks=0'  # looking takes some 4 s a run on Arm

A_WHILE = 0.3  # seconds in which what must not come would have come
HONEST, STALE = (read(os.path.join(SAMPLES, f'{name}.trace')) for name in ('honest', 'stale-spsr'))
STALE_KNOWN = 1616  # bytes of it with which its fault is known
SCR, HCR = 35, 36
OUTPUT, CONTROL, LOCAL, INPUT_SPEED, OUTPUT_SPEED, CONTROLS = range(1, 7)  # in what termios.tcgetattr gives
LINES_OWN = OUTPUT, CONTROL, INPUT_SPEED, OUTPUT_SPEED


class Line:
    def __init__(self, raw=True):
        self.unit, self.desk = pty.openpty()
        self.name = os.ttyname(self.desk)
        self.is_up = True
        os.set_blocking(self.unit, False)
        if raw:
            tty.setraw(self.desk)

    def __enter__(self):
        return self

    def __exit__(self, *_):
        self.hang_up()
        os.close(self.desk)

    def send(self, content, size=4096, pause=0):
        """The unit sends so many bytes at a time, and then rests."""
        for at in range(0, len(content), size):
            piece = content[at:at + size]
            while piece:
                if not select.select([], [self.unit], [], PATIENCE)[1]:
                    raise TimeoutError('nobody reads the line')
                piece = piece[os.write(self.unit, piece):]
            time.sleep(pause)

    def is_read(self):
        """Whether all that was sent has been read: bytes that a line still has when it hangs up are lost."""
        return comes_true(lambda: not any(fcntl.ioctl(self.desk, termios.FIONREAD, bytes(4))))

    def hang_up(self):
        if self.is_up:
            os.close(self.unit)
        self.is_up = False

    def settings(self):
        return termios.tcgetattr(self.desk)

    def set_speed(self, speed):
        """As stty does it; gives the settings."""
        settings = self.settings()
        settings[INPUT_SPEED] = settings[OUTPUT_SPEED] = speed
        termios.tcsetattr(self.desk, termios.TCSANOW, settings)
        return self.settings()

    def is_set_for_bytes(self):
        return comes_true(lambda: not self.settings()[LOCAL] & (termios.ICANON | termios.ECHO))

    def comes_back(self):
        """What the unit gets."""
        return os.read(self.unit, 4096) if select.select([self.unit], [], [], 0)[0] else b''


def listen(line, *options, named=True, **others):
    """A console that reads the line; it is waited for until it has opened it, so that nothing is sent before."""
    others.setdefault('stdin', subprocess.DEVNULL if named else line.desk)
    console = Live(COMMAND + [*options, line.name if named else '-'], **others)
    files = f'/proc/{console.process.pid}/fd'
    comes_true(lambda: not named or console.process.poll() is not None or
               any(os.path.realpath(f'{files}/{file}') == line.name for file in os.listdir(files)))
    return console


def hang_up(line):
    """In the middle of what the unit sends, when that has been read."""
    line.is_read()
    time.sleep(A_WHILE)
    line.is_read()
    line.hang_up()


def verdict(content):
    """What the console says of the same bytes in a file."""
    status, out, _ = run(write('same', content))
    return status, out.removeprefix(b'same')


def expect_line(name, seen, due, line, named):
    status, out = due
    expect(name, seen == (status, (line.name.encode() if named else b'-') + out, b''), seen)


def ways():
    return ((True, 'by its name'), (False, 'as standard input'))


def try_pieces():
    for named, way in ways():
        for size, pause in ((1, 0), (7, 0.001), (STEP_SIZE, 0.01), (4096, 0)):
            with Line() as line, listen(line, named=named) as console:
                line.send(HONEST, size, pause)
                hang_up(line)
                expect_line(f'a line {way}, {size} bytes at a time', console.end(), verdict(HONEST), line, named)
    long = long_trace(1000)
    with Line() as line, listen(line) as console:
        line.send(long)
        hang_up(line)
        expect_line('a trace of 1,000 Steps', console.end(), verdict(long), line, True)


def try_hang_up():
    """The end of the trace, and no fault of reading: SHORT with the place of the record that was not whole."""
    for named, way in ways():
        for cut in (0, 3, START_SIZE, 1000, len(HONEST) - 1):
            with Line() as line, listen(line, named=named) as console:
                line.send(HONEST[:cut], 100)
                hang_up(line)
                seen = console.end()
            steps = max(0, cut - START_SIZE) // STEP_SIZE
            place = START_SIZE + steps * STEP_SIZE if cut >= START_SIZE else 0
            expect_line(f'a line {way} that hangs up after {cut} bytes', seen,
                        (1, b': refused 8 SHORT at byte %d after %d Steps\n' % (place, steps)), line, named)
    with Line() as line, listen(line, start_new_session=True) as console:
        line.send(HONEST[:1000])
        hang_up(line)
        expect_line('a console without a terminal does not get one by reading a line', console.end(), verdict(HONEST[:1000]),
                    line, True)
    with Line() as line, Live(COMMAND + ['-'], stdin=line.desk) as console:
        line.hang_up()
        seen = console.end()
    expect('a line that hangs up at once', seen == (1, b'-: refused 8 SHORT at byte 0 after 0 Steps\n', b''), seen)


def try_two():
    for named, way in ways():
        with Line() as line, listen(line, '--follow', named=named) as console:
            shown = line.name.encode() if named else b'-'
            line.send(HONEST + HONEST[:1])
            told = console.line()
            line.send(HONEST[1:], 200, 0.001)
            hang_up(line)
            seen = console.end()
        expect(f'two traces over a line {way}: told before the second is whole',
               told == shown + b': 12 TRAILING known after 2033 bytes\n', told)
        expect('and the verdict', seen == (1, shown + b': refused 12 TRAILING at byte 2032 after 9 Steps\n', b''), seen)


def try_follow():
    for named, way in ways():
        with Line() as line, listen(line, '--follow', named=named) as console:
            shown = line.name.encode() if named else b'-'
            line.send(STALE[:STALE_KNOWN - 1], 100, 0.001)
            early = console.line(A_WHILE)
            line.send(STALE[STALE_KNOWN - 1:STALE_KNOWN])
            told = console.line()
            line.send(STALE[STALE_KNOWN:], 100, 0.001)
            hang_up(line)
            seen = console.end()
        expect(f'a wrong Step over a line {way}: told while the unit sends', (early, told) ==
               (b'', shown + b': 11 WRONG_STEP known after 1616 bytes\n'), (early, told))
        expect('and the verdict',
               seen == (1, shown + b': refused 11 WRONG_STEP at byte 1412 after 6 Steps\n', b''), seen)


def trace_of_signs():
    """A trace full of bytes that mean something to a terminal: as words, and as the places that the notes change."""
    signs = [3, 4, 8, 10, 13, 15, 17, 18, 19, 21, 22, 23, 26, 28, 127, 255]
    start = HONEST[START_BLOCK:START_SIZE]
    block, steps = start, b''
    places = [place for place in range(PLACES) if place not in (CPSR, SCR, HCR)]
    for index, place in enumerate(places):
        step, block = note(block, place, bytes(signs[(index + i) % len(signs)] for i in range(4)))
        steps += step
    return start_record(len(places), start) + steps + end_record(len(places))


def try_signs():
    """A line as it comes is set for a person who types. The console sets it for bytes, and no more of it."""
    trace = trace_of_signs()
    for named, way in ways():
        with Line(raw=False) as line:
            before = line.set_speed(termios.B115200)
            with listen(line, named=named) as console:
                is_set, during = line.is_set_for_bytes(), line.settings()
                line.send(trace, 64, 0.0005)
                line.is_read()
                back = line.comes_back()
                hang_up(line)
                expect_line(f'bytes that mean something to a terminal {way}', console.end(), verdict(trace), line, named)
        expect('nothing is sent back', is_set and back == b'', back)
        expect('speed and the like stay', [during[i] for i in LINES_OWN] == [before[i] for i in LINES_OWN], during)
    expect('and the trace is accepted', verdict(trace)[0] == 0, verdict(trace))


def expect_settings_back(name, line, before, console, status):
    seen = console.end()
    expect(name, seen[0] == status and line.settings() == before, (seen, line.settings()))


def try_given_back():
    """However the console ends, a line that is still up has its settings again."""
    for number in (signal.SIGINT, signal.SIGTERM, signal.SIGHUP, signal.SIGQUIT):
        for named, way in ways():
            with Line(raw=False) as line:
                before = line.settings()
                with listen(line, named=named) as console:
                    is_set = line.is_set_for_bytes()
                    line.send(HONEST[:1000])
                    console.process.send_signal(number)
                    expect_settings_back(f'{number.name}, a line {way}', line, before, console, -number)
                expect('which was set', is_set)
    with Line(raw=False) as line, open('/dev/full', 'wb') as full:
        before = line.settings()
        with listen(line, '--follow', stdout=full) as console:
            line.is_set_for_bytes()
            line.send(STALE)
            expect_settings_back('an output that cannot be written', line, before, console, 2)
    with Line(raw=False) as line:
        before = line.settings()
        with listen(line, '--follow') as console:
            line.is_set_for_bytes()
            console.process.stdout.close()
            console.process.stdout = None
            line.send(STALE)
            expect_settings_back('an output that nobody reads', line, before, console, -signal.SIGPIPE)
    with Line(raw=False) as line:
        before = line.settings()
        with listen(line, '--explain') as console:
            line.is_set_for_bytes()
            line.send(bytes(length_of(65535) + 1), 65536)
            expect_settings_back('a trace that is long enough', line, before, console, 1)


def try_ignored():
    """A signal that is ignored, as nohup has it, does not end the console."""
    def ignore():
        signal.signal(signal.SIGHUP, signal.SIG_IGN)
    with Line(raw=False) as line, listen(line, preexec_fn=ignore) as console:
        line.is_set_for_bytes()
        line.send(HONEST[:1000])
        console.process.send_signal(signal.SIGHUP)
        time.sleep(A_WHILE)
        is_set = line.is_set_for_bytes()
        line.send(HONEST[1000:])
        hang_up(line)
        expect_line('an ignored signal', console.end(), verdict(HONEST), line, True)
        expect('leaves the line as it is', is_set)


def try_settings():
    """A line that is set for bytes is left alone; one whose reads end without a byte, or wait for many, is not."""
    with Line() as line:
        before = line.settings()
        with listen(line) as console:
            line.send(HONEST[:1000])
            line.is_read()
            during = line.settings()
            changed = line.set_speed(termios.B9600)  # as someone does meanwhile
            console.process.terminate()
            expect_settings_back('a line that is raw', line, changed, console, -signal.SIGTERM)
        expect('was never changed', during == before, during)
    for least, wait in ((0, 0), (0, 1), (200, 0), (200, 1)):
        with Line() as line:
            settings = line.settings()
            settings[CONTROLS][termios.VMIN], settings[CONTROLS][termios.VTIME] = least, wait
            termios.tcsetattr(line.desk, termios.TCSANOW, settings)
            with listen(line, '--follow') as console:
                time.sleep(A_WHILE)
                line.send(STALE[:STALE_KNOWN], 500, A_WHILE)
                told = console.line()
                line.send(STALE[STALE_KNOWN:])
                hang_up(line)
                expect_line(f'reads of at least {least} bytes, or after {wait} tenths of a second', console.end(),
                            verdict(STALE), line, True)
                expect('and told at once', told.endswith(b': 11 WRONG_STEP known after 1616 bytes\n'), told)


def own_terminal():
    """Makes standard input the terminal from which a program is started."""
    fcntl.ioctl(0, termios.TIOCSCTTY, 0)


def in_background():
    """The same, and the program is behind, where it may not read from it and is not stopped: it is told that it may not."""
    own_terminal()
    child = os.fork()
    if child:
        os._exit(os.waitstatus_to_exitcode(os.waitpid(child, 0)[1]))
    os.setpgid(0, 0)
    signal.signal(signal.SIGTTIN, signal.SIG_IGN)


def try_keyboard():
    """The terminal from which the console is started stays as it is: Ctrl-D ends the input, Ctrl-C the console."""
    for sign, status, out in ((b'\x04', 1, b'-: refused 8 SHORT at byte 0 after 0 Steps\n'), (b'\x03', -signal.SIGINT, b''),
                              (b'ab\x04cd\n\x04', 1, b'-: refused 9 BAD_RECORD at byte 0 after 0 Steps\n')):
        with Line(raw=False) as line:
            before = line.settings()
            with listen(line, named=False, start_new_session=True, preexec_fn=own_terminal) as console:
                time.sleep(A_WHILE)
                during = line.settings()
                line.send(sign)
                seen = console.end()
            expect(f'{sign} at the keyboard', seen == (status, out, b''), seen)
            expect('and the settings stay', during == before and line.settings() == before)
    with Line(raw=False) as line, listen(line, named=False, start_new_session=True, preexec_fn=in_background) as console:
        seen = console.end()
    expect('a console that may not read there', seen == (2, b'', b'console: -: Input/output error\n'), seen)


def try_others():
    write('honest', HONEST)
    good = f'honest: {accepted(HONEST)}\n'.encode()
    with Line() as line, Live(COMMAND + ['missing', line.name, 'honest'], stdin=subprocess.DEVNULL) as console:
        line.send(HONEST[:1000])
        hang_up(line)
        seen = console.end()
    due = line.name.encode() + b': refused 8 SHORT at byte 800 after 3 Steps\n'
    expect('a line among files', seen == (2, due + good, b'console: missing: No such file or directory\n'), seen)
    for option in ('--explain', '--trace', '--html', '--count'):
        with Line(raw=False) as line, listen(line, option, named=False) as console:
            line.is_set_for_bytes()
            line.send(trace_of_signs()[:-1])
            hang_up(line)
            seen = console.end()
        due = run(option, '-', stdin=None, input=trace_of_signs()[:-1])
        expect(f'{option} over a line that hangs up', seen == due and due[0] == 1, seen[::2])


def try_readme():
    """What the README has for a line that never hangs up, literally but for the device, the console and the time."""
    readme = read(os.path.join(ROOT, 'README.md')).decode()
    lines = re.search(r'^    (stty .* raw -echo\n)    (timeout 60 cat .*\n)', readme, re.M).groups()
    console = ' '.join(f"'{word}'" for word in COMMAND)
    with Line(raw=False) as line:
        script = ''.join(lines).replace('/dev/ttyUSB0', line.name).replace('./console', console).replace('60', '3')
        with Live(['sh', '-c', script], stdin=subprocess.DEVNULL) as shell:
            is_set = line.is_set_for_bytes()
            line.send(trace_of_signs(), 100, 0.001)
            seen = shell.end()
    due = f'-: {accepted(trace_of_signs())}\n'.encode()
    expect('README: a line that never hangs up', is_set and seen == (0, due, b''), seen)


with tempfile.TemporaryDirectory() as room:
    os.chdir(room)
    for one in [try_pieces, try_hang_up, try_two, try_follow, try_signs, try_given_back, try_ignored, try_settings,
                try_keyboard, try_others, try_readme]:
        one()
    os.chdir('/')
runs.end()
