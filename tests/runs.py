"""Runs of a program as a user starts it, and what is expected of each."""
import ctypes
import fcntl
import mmap
import os
import pty
import re
import select
import signal
import subprocess
import sys
import termios
import time

# A shell that runs a test in the background has it ignore the signals of the keyboard. What a test starts must not.
for keyboard in (signal.SIGINT, signal.SIGQUIT):
    signal.signal(keyboard, signal.SIG_DFL)

PATIENCE = 60  # seconds, for what has to come and comes at once where nothing else runs


def read(name):
    with open(name, 'rb') as file:
        return file.read()


def write(name, content):
    with open(name, 'wb') as file:
        file.write(content)
    return name


def on_terminal(command):
    """What a command writes to standard error when that is a terminal; standard output is none."""
    master, slave = pty.openpty()
    done = subprocess.Popen(command, shell=True, stdin=subprocess.DEVNULL, stdout=subprocess.DEVNULL, stderr=slave)
    os.close(slave)
    written = b''
    while True:
        try:
            piece = os.read(master, 4096)
        except OSError:  # how Linux tells that the other end is closed
            break
        if not piece:
            break
        written += piece
    os.close(master)
    return done.wait(), written


def comes_true(is_true, seconds=PATIENCE):
    """Whether something becomes true in time."""
    until = time.monotonic() + seconds
    while not is_true() and time.monotonic() < until:
        time.sleep(0.01)
    return is_true()


def is_taken(pipe):
    """Whether what was sent into a pipe was read."""
    return not any(fcntl.ioctl(pipe, termios.FIONREAD, bytes(4)))


def most_memory(process):
    """The most memory, in kilobytes, that a process took so far."""
    return int(re.search(rb'VmHWM:\s*(\d+) kB', read(f'/proc/{process}/status'))[1])


def failing_file(content):
    """A file that fails behind the content: our own memory, where it is followed by none."""
    library = ctypes.CDLL(None)
    library.mmap.restype = ctypes.c_void_p
    library.mmap.argtypes = [ctypes.c_void_p, ctypes.c_size_t, *3 * [ctypes.c_int], ctypes.c_long]
    library.munmap.argtypes = [ctypes.c_void_p, ctypes.c_size_t]
    size = (len(content) // mmap.PAGESIZE + 1) * mmap.PAGESIZE
    end = size + library.mmap(None, size + mmap.PAGESIZE, mmap.PROT_READ | mmap.PROT_WRITE,
                              mmap.MAP_PRIVATE | mmap.MAP_ANONYMOUS, -1, 0)
    ctypes.memmove(end - len(content), content, len(content))
    library.munmap(end, mmap.PAGESIZE)
    file = open('/proc/self/mem', 'rb', buffering=0)
    file.seek(end - len(content))
    return file


class Live:
    """A program that runs, and what it prints meanwhile."""

    def __init__(self, command, **options):
        options.setdefault('stderr', subprocess.PIPE)
        options.setdefault('stdout', subprocess.PIPE)
        self.process = subprocess.Popen(command, **options)
        self.printed = b''

    def __enter__(self):
        return self

    def __exit__(self, *_):
        self.process.kill()
        self.process.communicate()

    def send(self, content):
        """Bytes for its standard input, which is a pipe."""
        while content:
            content = content[os.write(self.process.stdin.fileno(), content):]

    def line(self, seconds=PATIENCE):
        """The next line that it prints; less than a line where none comes in time, or at all."""
        until, out = time.monotonic() + seconds, self.process.stdout.fileno()
        while b'\n' not in self.printed and select.select([out], [], [], max(0, until - time.monotonic()))[0]:
            piece = os.read(out, 4096)
            if not piece:
                break
            self.printed += piece
        line, end, self.printed = self.printed.partition(b'\n')
        return line + end

    def end(self):
        """Its end, where its input has come to one: status, the rest of what it prints, and what it tells."""
        out, err = self.process.communicate(timeout=10 * PATIENCE)
        return self.process.returncode, self.printed + (out or b''), err


class Runs:
    def __init__(self, command):
        self.command = command
        self.results = []

    def run(self, *arguments, **options):
        options.setdefault('stdin', subprocess.DEVNULL)
        options.setdefault('stdout', subprocess.PIPE)
        options.setdefault('stderr', subprocess.PIPE)
        done = subprocess.run(self.command + list(arguments), timeout=600, **options)
        return done.returncode, done.stdout, done.stderr

    def expect(self, name, held, seen=''):
        self.results.append(held)
        print(f'ok      {name}' if held else f'FAILED  {name}: {seen}', flush=True)

    def expect_run(self, name, arguments, status, out, err=b'', **options):
        """The program ends so and prints just that; err is a part of what it tells, and nothing where it is empty."""
        seen = self.run(*arguments, **options)
        right_err = err in seen[2] if err else seen[2] == b''
        self.expect(name, seen[0] == status and (seen[1] == out) and right_err, seen)

    def end(self):
        print(f'{self.results.count(True)} passed, {self.results.count(False)} failed')
        sys.exit(0 if all(self.results) else 1)
