"""Chromium without a window, driven by its DevTools protocol over two pipes: messages of JSON, each ended by a zero byte."""
import fcntl
import json
import os
import select
import subprocess
import tempfile
import time

# Where Chromium reads and writes the protocol when it is told --remote-debugging-pipe.
READS, WRITES = 3, 4
ABOVE = 10  # our own ends of the pipes are out of the way of those two
PATIENCE = 60  # seconds for any answer


def pipe():
    ends = os.pipe()
    moved = [fcntl.fcntl(end, fcntl.F_DUPFD_CLOEXEC, ABOVE) for end in ends]
    for end in ends:
        os.close(end)
    return moved


class Browser:
    """One tab; what the browser told on the way is kept in `events`."""

    def __init__(self):
        self.room = tempfile.TemporaryDirectory()
        reads, self.writer = pipe()
        self.reader, writes = pipe()
        self.pieces, self.ready, self.last, self.events, self.session = b'', [], 0, [], None

        def join():
            os.dup2(reads, READS)
            os.dup2(writes, WRITES)

        # the browser's own sandbox does not run for root
        jail = ['--no-sandbox'] if os.getuid() == 0 else []
        self.process = subprocess.Popen(
            ['chromium', '--headless', *jail, '--disable-gpu', '--hide-scrollbars', '--no-first-run', '--remote-debugging-pipe',
             '--disable-background-networking', '--disable-dev-shm-usage', f'--user-data-dir={self.room.name}', 'about:blank'],
            stdin=subprocess.DEVNULL, stdout=subprocess.DEVNULL, stderr=subprocess.DEVNULL, preexec_fn=join,
            pass_fds=(READS, WRITES))
        os.close(reads)
        os.close(writes)
        target = self.ask('Target.createTarget', url='about:blank')['targetId']
        self.session = self.ask('Target.attachToTarget', targetId=target, flatten=True)['sessionId']
        for domain in ('Page', 'Runtime', 'Log', 'Network'):
            self.ask(f'{domain}.enable')

    def __enter__(self):
        return self

    def __exit__(self, *_):
        try:
            self.session = None
            self.ask('Browser.close')
            self.process.wait(PATIENCE)
        except (OSError, EOFError, subprocess.TimeoutExpired):
            self.process.kill()
            self.process.wait()
        os.close(self.reader)
        os.close(self.writer)
        self.room.cleanup()

    def message(self):
        """The next message of the browser."""
        until = time.monotonic() + PATIENCE
        while not self.ready:
            if not select.select([self.reader], [], [], max(0, until - time.monotonic()))[0]:
                raise TimeoutError('the browser says nothing')
            piece = os.read(self.reader, 1 << 20)
            if not piece:
                raise EOFError('the browser ended')
            *whole, self.pieces = (self.pieces + piece).split(b'\0')
            self.ready += whole
        return json.loads(self.ready.pop(0))

    def ask(self, method, **parameters):
        """Calls a method of the protocol and gives its result; events that come before it are kept."""
        self.last += 1
        request = {'id': self.last, 'method': method, 'params': parameters}
        if self.session:
            request['sessionId'] = self.session
        left = json.dumps(request).encode() + b'\0'
        while left:
            left = left[os.write(self.writer, left):]
        while True:
            message = self.message()
            if message.get('id') != self.last:
                self.events.append(message)
            elif 'error' in message:
                raise RuntimeError(f'{method}: {message["error"]}')
            else:
                return message['result']

    def wait_for(self, method):
        while not any(event.get('method') == method for event in self.events):
            self.events.append(self.message())

    def resize(self, width, height):
        """A window of that size; a narrow one as a phone has it."""
        self.ask('Emulation.setDeviceMetricsOverride', width=width, height=height, deviceScaleFactor=1, mobile=width < 600)

    def show_as(self, media='', **features):
        """The page as a reader has it set: on the screen or in print, with these of CSS's media features."""
        given = [{'name': name.replace('_', '-'), 'value': value} for name, value in features.items()]
        self.ask('Emulation.setEmulatedMedia', media=media, features=given)

    def open(self, url):
        self.events = []
        self.ask('Page.navigate', url=url)
        self.wait_for('Page.loadEventFired')

    def evaluate(self, script):
        """The value of a script's last expression, in the page; its fault is ours, not the page's."""
        told = self.ask('Runtime.evaluate', expression=script, returnByValue=True, awaitPromise=True)
        if 'exceptionDetails' in told:
            raise RuntimeError(told['exceptionDetails'])
        return told['result'].get('value')

    def click(self, x, y):
        for kind in ('mousePressed', 'mouseReleased'):
            self.ask('Input.dispatchMouseEvent', type=kind, x=x, y=y, button='left', clickCount=1)
