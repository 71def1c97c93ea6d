#!/usr/bin/env python3
"""scripts.py: tries the scripts as a user does, in a small copy of the project and by a kit that is made up.

What they build, when, and what they leave where something goes wrong: edits while they build, paths with spaces, signals, a
full disk, two builds at once, a kit that does not work. The kit is of shell scripts, so that nothing is proved: its rt waits
while a test holds it, and what it makes are scripts that tell what they were made from. Ends with `N passed, M failed`.
"""
import concurrent.futures
import contextlib
import fcntl
import os
import shutil
import signal
import subprocess
import sys
import tempfile
import time

ROOT = os.path.dirname(os.path.dirname(os.path.abspath(__file__)))
COPIED = ['crates.txt', 'VERSION', 'verdict', 'decisions', 'console', 'record', 'test', 'tools', 'host', 'bench', 'samples/make']
SCRIPTS = ['verdict', 'decisions', 'console', 'record', 'test', 'tools/look', 'bench/run', 'samples/make']
TRACE = bytes(192)
# What is asked of rt for a program and for the archive, and where: both are for any x86-64 processor.
RUN, LIB = 'rt run --cpu=x86-64 in verdict', 'rt lib --cpu=x86-64 in console'

# hold WHO: where the test holds it, tells that it began and in which process, and waits until it is let go. It does so in the
# background, as rt's own proofs run, where Ctrl-C is not heard, and with something in the temporary folder, as they have.
HOLD = '''hold() {
    [ -e "$STATE/hold-$1" ] || return 0
    mktemp -d >/dev/null
    sh -c 'echo $$ >"$1/new"; mv "$1/new" "$1/began"; while [ -e "$1/hold-$2" ]; do sleep 0.05; done' sh "$STATE" "$1" &
    wait
}
'''

# It stands in the folder of a crate, or at the top for the gate, and writes into the crate's out/. The archive is a copy of the
# crates' one source; the program prints it, and how much it reads, and is run where it is made, as by the true one.
RT = '''#!/bin/sh
set -e
[ "$1" != doc ] || exec cat "$STATE/guide"
crate=$(basename "$PWD")
echo "rt $* in $crate" >>"$STATE/calls"
mkdir "$STATE/busy" || echo 'two at once' >>"$STATE/calls"
trap 'rmdir "$STATE/busy"' EXIT
cat >/dev/null # whatever there is on standard input
if [ "$1" = ci ]; then
    hold rt
    cat "$STATE/verdict"
    exit "$(cat "$STATE/status")"
fi
[ ! -e ../words/src/refused ] || { echo refused; exit 1; }
source=$(cat ../words/src/source)
mkdir -p out
case $1 in
lib)
    [ -e src/lib.rt ]
    echo half >"out/lib$crate.a"
    hold rt
    echo "$source" >"out/lib$crate.a"
    ;;
run)
    [ -e src/main.rt ]
    echo half >"out/$crate"
    hold rt
    printf '#!/bin/sh\\necho "%s" $(wc -c)\\n' "$source" >"out/$crate"
    chmod +x "out/$crate"
    echo "$source" >"out/$crate.o"
    "out/$crate" </dev/null
    ;;
esac
'''.replace('set -e\n', 'set -e\n' + HOLD, 1)

# An object is the last line of its source.
CLANG = '''#!/bin/sh
while [ $# -gt 0 ]; do
    case $1 in
    -c) source=$2 ;;
    -o) object=$2 ;;
    esac
    shift
done
''' + HOLD + '''tail -n 1 "$source" >"$object"
hold clang
'''

# A program tells its objects by name, the last line of tell.c, the archive, and how much it reads.
LINK = '''#!/bin/sh
names=
for word in "$@"; do
    case $word in
    *.new) out=$word ;;
    *.o) names="$names $(basename "$word")" && cat "$word" >/dev/null || exit ;;
    *.a) archive=$(cat "$word") || exit ;;
    esac
    case $word in */host-tell.o) tell=$(cat "$word") ;; esac
done
printf '#!/bin/sh\\necho "%s; %s; %s;" $(wc -c)\\n' "${names# }" "$tell" "$archive" >"$out" && chmod +x "$out"
'''

LOADER = '#!/bin/sh\nshift 2\nexec "$@"\n'


def wait_until(condition, seconds=10):
    end = time.monotonic() + seconds
    while not condition() and time.monotonic() < end:
        time.sleep(0.02)
    return condition()


def is_alive(process):
    """Whether a process runs; one that ended and that nobody asked after does not."""
    try:
        with open(f'/proc/{process}/stat', encoding='ascii') as file:
            return file.read().rpartition(')')[2].split()[0] != 'Z'
    except OSError:
        return False


class Place:
    """A copy of the project with its kit, in folders with spaces in their names, and what was seen there."""

    def __init__(self, room):
        self.seen, self.started = [], []
        self.room = os.path.join(room, 'a room with spaces')
        self.root, self.state, self.kit, self.tmp, self.bin = (
            os.path.join(self.room, name) for name in ('the project', 'state', 'the kit', 'tmp', 'bin'))
        for folder in (self.root, self.state, self.tmp, self.bin):
            os.makedirs(folder)
        for name in COPIED:
            place = self.path(name)
            os.makedirs(os.path.dirname(place), exist_ok=True)
            (shutil.copytree if os.path.isdir(os.path.join(ROOT, name)) else shutil.copy)(os.path.join(ROOT, name), place)
        for name, content in {'words/src/source': 'one\n', 'words/src/other': '', 'words/proofs/other': '', 'console/src/lib.rt': '',
                              'verdict/src/main.rt': '', 'decisions/src/main.rt': ''}.items():
            self.write(f'crates/{name}', content)
        self.make_kit()

    def make_kit(self):
        guide = self.write(os.path.join(self.kit, 'START-HERE.md'), '')
        self.write(os.path.join(self.state, 'guide'), guide + '\n')
        self.judge('1 passed, 0 failed\n')
        self.write(os.path.join(self.bin, 'rt'), RT, 0o755)
        self.write(os.path.join(self.bin, 'valgrind'), '#!/bin/sh\n', 0o755)
        self.write(os.path.join(self.kit, 'bin/rattle-link'), LINK, 0o755)
        self.write(os.path.join(self.kit, 'toolchain/bin/clang'), CLANG, 0o755)
        self.write(os.path.join(self.kit, 'toolchain/lib/ld-linux-x86-64.so.2'), LOADER, 0o755)
        self.emulator = os.path.join(self.kit, 'toolchain/bin/qemu-x86_64')  # as on Arm, where a case wants one

    def judge(self, verdict, status=0):
        """What rt ci prints, and how it ends."""
        self.write(os.path.join(self.state, 'verdict'), verdict)
        self.write(os.path.join(self.state, 'status'), f'{status}\n')

    def path(self, name):
        return os.path.join(self.root, name)

    def write(self, name, content, mode=0o644):
        path = self.path(name)
        os.makedirs(os.path.dirname(path), exist_ok=True)
        with open(path, 'w', encoding='utf-8') as file:
            file.write(content)
        os.chmod(path, mode)
        return path

    def expect(self, name, seen, due):
        held = seen == due
        self.seen.append((held, f'ok      {name}' if held else f'FAILED  {name}: {str(seen)[:500]}, not {str(due)[:500]}'))

    def start(self, *command, **options):
        """Starts a script by its name, or a command, in a session of its own, as a terminal does."""
        if command[0] in SCRIPTS:
            command = (self.path(command[0]), *command[1:])
        environment = {**os.environ, 'PATH': f'{self.bin}:{os.environ["PATH"]}', 'STATE': self.state, 'TMPDIR': self.tmp,
                       **options.pop('env', {})}
        options = {'stdin': subprocess.PIPE, 'stdout': subprocess.PIPE, 'stderr': subprocess.PIPE, **options}
        self.started.append(subprocess.Popen(command, env=environment, start_new_session=True, **options))
        return self.started[-1]

    def end(self, running, given=b''):
        """The status of what was started, what it printed and what it told last."""
        out, err = running.communicate(given, timeout=20)
        told = (err or b'').decode().splitlines()
        return running.returncode, (out or b'').decode(), told[-1] if told else ''

    def run(self, *command, given=b'', **options):
        """The status, and what was printed."""
        return self.end(self.start(*command, **options), given)[:2]

    def calls(self):
        with contextlib.suppress(FileNotFoundError), open(os.path.join(self.state, 'calls'), encoding='utf-8') as file:
            return file.read().splitlines()
        return []

    def hold(self, who='rt'):
        self.write(os.path.join(self.state, f'hold-{who}'), '')

    def release(self, who='rt'):
        os.remove(os.path.join(self.state, f'hold-{who}'))

    def wait_for_build(self):
        """The process of the build that is held, once it began."""
        began = os.path.join(self.state, 'began')
        if not wait_until(lambda: os.path.exists(began)):
            return None
        with open(began, encoding='ascii') as file:
            return int(file.read())

    def told(self, running, words):
        """Whether a script that runs tells these words, in some seconds."""
        os.set_blocking(running.stderr.fileno(), False)
        text = b''

        def heard():
            nonlocal text
            text += running.stderr.read() or b''
            return words in text
        found = wait_until(heard, 5)
        os.set_blocking(running.stderr.fileno(), True)
        return found


def try_edits(place):
    place.hold()
    running = place.start('verdict')
    place.wait_for_build()
    place.write('crates/words/src/source', 'two\n')
    place.release()
    place.expect('the first verdict', place.end(running)[:2], (0, 'one 0\n'))
    marked, began = (os.stat(path).st_mtime for path in (
        place.path('target/bin/verdict.made'), os.path.join(place.state, 'began')))
    place.expect('what is made counts as a second older than its making, whole seconds or not', began - marked > 0.98, True)
    place.expect('a source edited while it is proved', place.run('verdict'), (0, 'two 0\n'))
    place.expect('is proved again once', (place.run('verdict'), len(place.calls())), ((0, 'two 0\n'), 2))
    os.remove(place.path('crates/words/src/other'))
    place.expect('a source that is gone', (place.run('verdict'), len(place.calls())), ((0, 'two 0\n'), 3))
    os.utime(place.write('crates/words/src/source', 'three\n'), (0, 0))
    place.expect('a source of an older date put in its place', place.run('verdict'), (0, 'three 0\n'))
    os.remove(place.path('target/bin/verdict'))
    place.expect('a program that is gone', place.run('verdict'), (0, 'three 0\n'))
    shutil.rmtree(place.path('crates/words/proofs'))
    place.expect('a folder of sources that is gone', (place.run('verdict'), len(place.calls())), ((0, 'three 0\n'), 6))
    place.run('console')
    place.expect('what rt keeps beside the sources is none', (place.run('verdict'), place.calls()[6:]), ((0, 'three 0\n'), [LIB]))
    with open(place.path('target/obj/verdict.o'), encoding='utf-8') as file:
        place.expect('the object, for a release', file.read(), 'three\n')


def try_program_edits(place, program):
    names = place.run('sh', '-c', f'root=$1; . "$root/tools/kit.sh"; echo ${program}_sources', 'sh', place.root)[1]
    objects = ' '.join(name.replace('/', '-').replace('.c', '.o') for name in names.split())
    place.write('host/tell.c', 'old\n')
    place.hold('clang')
    running = place.start(program)
    place.wait_for_build()
    place.write('host/tell.c', 'new\n')
    place.release('clang')
    first = place.end(running)
    place.expect(f'a {program} of every object', (first[0], first[1].split('; ')[0]), (0, objects))
    place.expect(f'a source of the {program} edited while it is built', place.run(program), (0, f'{objects}; new; one; 0\n'))
    place.expect('is built again, and nothing proved', place.calls(), [LIB])
    made = os.stat(place.path(f'target/host/{program}'))
    place.run(program)
    place.expect('once', os.stat(place.path(f'target/host/{program}')), made)


def try_paths(place):
    for folder, command in [('/', place.path('verdict')), (place.room, './the project/verdict'),
                            (place.path('host'), '../verdict')]:
        place.expect(f'from {os.path.basename(folder) or folder}', place.run(command, cwd=folder), (0, 'one 0\n'))
    trace = place.write(os.path.join(place.room, 'a trace'), 'abc')
    place.expect('a file with a space in its name', place.run('verdict', os.path.basename(trace), cwd=place.room), (0, 'one 3\n'))
    place.write(place.emulator, '#!/bin/sh\nexec "$@"\n', 0o755)
    place.expect('by an emulator', place.run('verdict'), (0, 'one 0\n'))
    shown = place.run('./the project/test', '--what', cwd=place.room, stderr=subprocess.STDOUT)
    place.expect('usage of ./test from elsewhere', (shown[0], shown[1][:7]), (2, './test '))


def try_input(place):
    place.expect('a trace on standard input, while the verdict is built first', place.run('verdict', given=TRACE),
                 (0, 'one 192\n'))
    place.expect('-', place.run('verdict', '-', given=TRACE), (0, 'one 192\n'))
    for program in ('console', 'record'):
        status, out = place.run(program, '-', given=TRACE)
        place.expect(f'and while the {program} is', (status, out.split('; ')[-1]), (0, '192\n'))


def try_output(place):
    place.expect('the first verdict', place.run('verdict'), (0, 'one 0\n'))
    with open('/dev/full', 'wb') as full:
        running = place.start('verdict', stdout=full)
        place.expect('output on a full disk', place.end(running), (2, '', 'verdict: the verdict could not be written'))
    place.expect('a closed output', place.run('sh', '-c', 'exec "$1" >&-', 'sh', place.path('verdict')), (2, ''))
    for program, due in {'echo 0 196 0; exit 3': (2, ''), 'true': (2, ''), 'echo CANNOT READ': (2, 'CANNOT READ\n'),
                         'echo 11 1412 6': (0, '11 1412 6\n')}.items():
        place.write('target/bin/verdict', f'#!/bin/sh\n{program}\n', 0o755)
        place.expect(f'a program that does: {program}', place.run('verdict'), due)


def try_failures(place):
    refused = place.write('crates/words/src/refused', '')
    for script in ('verdict', 'console', 'record'):
        running = place.start(script)
        out, err = running.communicate(timeout=60)
        told = [b'refused', f'{script}: could not be built'.encode()]
        place.expect(f'./{script} that cannot be built', (running.returncode, out, err.splitlines()[-2:]), (2, b'', told))
        place.expect(f'./{script} without a temporary folder', place.end(place.start(script, env={'TMPDIR': '/nowhere/at/all'})),
                     (2, '', f'{script}: cannot write in the temporary folder'))
    os.remove(refused)
    full = ('sh', '-c', 'trap "" XFSZ; ulimit -f 0 && exec "$1"', 'sh', place.path('verdict'))
    place.expect('a build on a full disk', place.run(*full), (2, ''))
    place.expect('and once it has room', place.run('verdict'), (0, 'one 0\n'))
    place.expect('a verdict on a full disk', place.run(*full), (0, 'one 0\n'))
    shutil.rmtree(place.path('target'))
    place.write('target', '')
    place.expect('a folder that cannot be made', place.end(place.start('verdict')), (2, '', 'verdict: could not be built'))


def try_signal(place, script, number, to_all=False):
    """A signal to a script while it proves, or to all of the terminal's group as Ctrl-C is, ends it with the proof."""
    place.hold()
    running = place.start(script)
    proof = place.wait_for_build()
    (os.killpg if to_all else os.kill)(running.pid, number)
    name = f'{signal.Signals(number).name} to {"all of " if to_all else ""}./{script} while it proves'
    place.expect(name, place.end(running)[0], 128 + number)
    place.expect(f'{name}: nothing runs on', not wait_until(lambda: not is_alive(proof), 3), False)
    place.expect(f'{name}: nothing is left', os.listdir(place.tmp), [])
    if is_alive(proof or 0):
        os.kill(proof, signal.SIGKILL)
    if script != 'verdict':
        return
    place.release()
    os.rmdir(os.path.join(place.state, 'busy'))
    place.expect(f'{name}: what was half made is not used', place.run('verdict'), (0, 'one 0\n'))


def try_two(place, other):
    """A second script waits for the first, and finds what is then there."""
    place.hold()
    first = place.start('verdict')
    place.wait_for_build()
    second = place.start(other)
    place.expect(f'./{other} waits for ./verdict', place.told(second, b'something else builds in'), True)
    place.release()
    ends = [place.end(first)[:2], place.end(second)[0]]
    calls = [RUN] + [LIB] * (other != 'verdict')
    place.expect(f'./{other} after ./verdict', (ends, place.calls()), ([(0, 'one 0\n'), 0], calls))


def try_under_lock(place):
    """As ./test does, which holds the lock of its folder and starts ./verdict there."""
    root = os.path.realpath(place.root)
    os.symlink(root, os.path.join(place.room, 'link'))
    lock = os.open(root, os.O_RDONLY)
    fcntl.flock(lock, fcntl.LOCK_EX)
    for folder in ('the project', 'link'):
        shutil.rmtree(os.path.join(root, 'target'), ignore_errors=True)
        command = os.path.join(place.room, folder, 'verdict')
        place.expect(f'what is started under the lock, as {folder}/verdict, does not wait for it',
                     place.run(command, env={'POMURICA_LOCKED': root}), (0, 'one 0\n'))
    os.close(lock)


def try_killed(place):
    place.hold()
    first = place.start('verdict')
    place.wait_for_build()
    first.kill()
    place.expect('a killed script is silent soon', place.end(first)[0], -signal.SIGKILL)
    second = place.start('verdict')
    place.expect('what a killed script left proving is waited for', place.told(second, b'something else builds in'), True)
    place.release()
    place.expect('and nothing is in the way then', (place.end(second)[:2], 'two at once' in place.calls()),
                 ((0, 'one 0\n'), False))


def try_beside_test(place):
    place.hold()
    test = place.start('test', stdout=subprocess.DEVNULL, stderr=subprocess.DEVNULL)
    place.wait_for_build()
    verdict = place.start('verdict')
    place.expect('./verdict waits for ./test', place.told(verdict, b'something else builds in'), True)
    test.terminate()
    place.expect('./test ends', test.wait(timeout=60), 128 + signal.SIGTERM)
    place.release()
    place.expect('and ./verdict goes on', place.end(verdict)[:2], (0, 'one 0\n'))


def verdicts_of_rt():
    """What rt ci can say of a project with two must-fail edits, how it ends, and what the gate has to count."""
    ok, bad = 'rt: ok; handles allowed: none; ', 'rt: must-fail words/two.edit: BAD EDIT: it changes nothing\n'
    done = '; done in this run: 1 of the 2 proofs (of crates and of their tests) and 0 of the 2 must-fail edits; the others are kept\n'
    yield 'all is well', f'{ok}must-fail edits: 2 refused{done}3 passed, 0 failed\n', 0, '3 passed, 0 failed'
    yield 'an edit is refused by a limit', f'{ok}must-fail edits: 2 refused, 1 of them only by a limit{done}3 passed, 0 failed\n', 0, (
        '3 passed, 0 failed')
    yield 'an edit is bad', f'{bad}{ok}must-fail edits: 1 refused, 1 bad{done}2 passed, 0 failed\n', 0, '2 passed, 1 failed'
    yield 'one is bad, and one refused by a limit', (
        f'{bad}{ok}must-fail edits: 1 refused, 1 of them only by a limit, 1 bad{done}2 passed, 0 failed\n'), 0, '2 passed, 1 failed'
    yield 'no edit was tried', f'{ok}every proof was done in this run\n1 passed, 0 failed\n', 0, '1 passed, 2 failed'
    yield 'a crate is not proved', 'rt: FAILED: words\n1 passed, 2 failed\n', 1, '1 passed, 2 failed'
    yield 'it fails, and counts nothing', f'{ok}must-fail edits: 2 refused{done}3 passed, 0 failed\n', 2, '3 passed, 1 failed'
    yield 'it does not say that all is well', '3 passed, 0 failed\n', 0, '3 passed, 3 failed'
    yield 'it ends early', 'rt: words proved\n', 0, '0 passed, 1 failed'


def try_prove(place):
    """The stage of ./test that proves: rt ci, and what the gate asks beyond it."""
    for name in ('one.edit', 'two.edit', 'README.md'):
        place.write(f'crates/words/must-fail/{name}', '')
    for what, verdict, status, due in verdicts_of_rt():
        place.judge(verdict, status)
        ended, out = place.run(place.path('tools/prove'), cwd='/')
        place.expect(f'tools/prove where {what}', (ended, out[:len(verdict)], out.splitlines()[-1]),
                     (0 if due.endswith(' 0 failed') else 1, verdict, due))
    place.expect('a plain rt ci at the top each time', {*place.calls()}, {'rt ci in the project'})


def broken_kits(place):
    """Kits that do not work, by how, and what is told of them."""
    rt = os.path.join(place.bin, 'rt')
    for how, text, words in [
            ('fails', '#!/bin/sh\nexit 3\n', 'does not work'),
            ('is no program', 'neither a program nor a script\n', 'does not work'),
            ('prints nothing', '#!/bin/sh\n', 'names no guide'),
            ('names a guide that is not there', '#!/bin/sh\necho /nowhere/at/all\n', 'names no guide')]:
        place.write(rt, text, 0o755)
        yield f'an rt that {how}', {}, f"the Rattle kit's rt on the path {words}"
    place.write(rt, RT, 0o755)
    arm = place.write(os.path.join(place.bin, 'uname'), '#!/bin/sh\necho aarch64\n', 0o755)
    yield 'a kit for x86-64 on another machine', {}, f'the Rattle kit at {place.kit} has nothing for this machine, aarch64'
    os.remove(arm)
    shutil.rmtree(os.path.join(place.kit, 'toolchain'))
    yield 'a kit for another machine', {}, f'the Rattle kit at {place.kit} has nothing for this machine'
    os.remove(rt)
    for name in ('dirname', 'sh'):
        os.symlink(shutil.which(name), os.path.join(place.bin, name))
    yield 'no rt', {'PATH': place.bin}, "the Rattle kit's rt is not on the path"


def try_kits(place):
    for how, environment, words in broken_kits(place):
        for script in SCRIPTS:
            status, out, told = place.end(place.start(script, env=environment))
            due = f'{os.path.basename(script)}: {words}'
            place.expect(f'./{script} by {how}', (status, out, told[:len(due)]), (2, '', due))


CASES = [
    (try_edits,), (try_program_edits, 'console'), (try_program_edits, 'record'), (try_paths,), (try_input,), (try_output,), (try_failures,),
    *((try_signal, script, number) for script in ('verdict', 'console', 'record', 'test', 'bench/run')
      for number in (signal.SIGINT, signal.SIGTERM, signal.SIGHUP)),
    *((try_signal, script, signal.SIGINT, True) for script in ('verdict', 'console', 'record', 'test', 'bench/run')),
    (try_two, 'verdict'), (try_two, 'console'), (try_two, 'record'), (try_under_lock,), (try_killed,), (try_beside_test,), (try_prove,),
    (try_kits,)]


def outcome_of(case):
    """What a case saw. Cases wait more than they work, so they run beside each other, each in a place of its own."""
    attempt, *words = case
    with tempfile.TemporaryDirectory(ignore_cleanup_errors=True) as room:
        place = Place(room)
        try:
            attempt(place, *words)
        except (OSError, subprocess.TimeoutExpired) as trouble:
            place.expect(f'{attempt.__name__} {words}', repr(trouble), 'its end')
        for running in place.started:
            if running.poll() is None:
                os.killpg(running.pid, signal.SIGKILL)
        return place.seen


def main():
    results = []
    # A script cannot take up a signal that is ignored where it starts, as in the background.
    signal.signal(signal.SIGINT, signal.default_int_handler)
    for number in (signal.SIGTERM, signal.SIGHUP):
        signal.signal(number, signal.SIG_DFL)
    with concurrent.futures.ThreadPoolExecutor(6) as pool:
        for seen in pool.map(outcome_of, CASES):
            for held, line in seen:
                results.append(held)
                print(line, flush=True)
    print(f'{results.count(True)} passed, {results.count(False)} failed')
    sys.exit(0 if all(results) else 1)


main()
