#!/usr/bin/env python3
"""release.py KIT: packs a release and tries it as its users do, without the kit, which stands in the folder KIT.

Packed here and again in a copy of the project elsewhere, it is the same bytes. Unpacked, every program is run on every sample, by a
packaged emulator of an x86-64 processor without extensions, and where the machine is one also on itself; the examples are built
with a plain compiler and pkg-config, as C11 and as C++; the manual pages are rendered; no program needs anything of the machine,
and nothing names a folder of it. Last, ./release in the copy, with all that it has to refuse. Ends with `N passed, M failed`.
"""
import glob
import os
import platform
import re
import shutil
import signal
import struct
import subprocess
import sys
import tarfile
import tempfile

sys.dont_write_bytecode = True
from editions import ROOT, VERSION, version_line  # noqa: E402
from records import sample_reports  # noqa: E402
from runs import comes_true, read, write  # noqa: E402

KIT = os.path.realpath(sys.argv[1])
PLAIN = {'PATH': '/usr/bin:/bin'}
NAME = f'pomurica-{VERSION}'
PACKED = f'{NAME}-x86_64-linux.tar.gz'
PROGRAMS = ['console', 'decisions', 'record', 'verdict']
MOST_BYTES = 5000000
IS_X86 = platform.machine() == 'x86_64'
# What the first x86-64 processors had, and no more, and a Linux of more than ten years ago, as far as its name goes.
OLD_PROCESSOR = ['qemu-x86_64', '-r', '4.4.0', '-cpu', 'qemu64,-sse3,-cx16,-lahf-lm']
# How a user's own program is built and run: on another processor by a cross compiler, and with the C library that came with it.
COMPILERS = {'c11': ['gcc'], 'c++11': ['g++']} if IS_X86 else {'c11': ['x86_64-linux-gnu-gcc'], 'c++11': ['x86_64-linux-gnu-g++']}
RUNNER = [] if IS_X86 else ['qemu-x86_64', '-L', '/usr/x86_64-linux-gnu']
INTERPRETER, DYNAMIC, STACK = 3, 2, 0x6474E551  # kinds of a program header
EXECUTABLE = 1  # its flag
X86_64 = 62
LINUX_NOTE = struct.pack('<III4sI', 4, 16, 1, b'GNU', 0)  # stands before the oldest Linux that a program runs on
results = []


def expect(name, held, seen=''):
    results.append(bool(held))
    print(f'ok      {name}' if held else f'FAILED  {name}: {str(seen)[-1500:]}', flush=True)


def run(*command, **options):
    """Its status, what it prints and what it tells."""
    options = {'stdin': subprocess.DEVNULL, 'env': PLAIN, 'timeout': 600, **options}
    done = subprocess.run(command, stdout=subprocess.PIPE, stderr=subprocess.PIPE, check=False, **options)
    return done.returncode, done.stdout, done.stderr


def files_below(folder):
    return sorted(os.path.relpath(os.path.join(where, name), folder) for where, _, names in os.walk(folder) for name in names)


def is_program(path):
    return read(path)[:4] == b'\x7fELF'


# ---- packing


def copy_project(place):
    """The project as it stands, in another folder, with what was proved; what is made of C has to be made there."""
    listed = subprocess.run(['git', '-c', 'safe.directory=*', 'ls-files', '-z', '-co', '--exclude-standard'], cwd=ROOT,
                            stdout=subprocess.PIPE, check=True).stdout
    for name in filter(None, listed.decode().split('\0')):
        if os.path.exists(os.path.join(ROOT, name)):
            os.makedirs(os.path.dirname(os.path.join(place, name)), exist_ok=True)
            shutil.copy(os.path.join(ROOT, name), os.path.join(place, name))
    shutil.copytree(os.path.join(ROOT, '.git'), os.path.join(place, '.git'))
    for folder in ('staticlib', 'bin', 'obj'):
        shutil.copytree(os.path.join(ROOT, 'target', folder), os.path.join(place, 'target', folder))
    for mark in glob.glob(os.path.join(place, 'target', '*', '*.made')):
        os.utime(mark)  # behind the copying, so that it counts as made of what was copied


def pack(project, folder, mask, **settings):
    """Packs as a user with this mask and these settings does."""
    os.mkdir(folder)
    seen = run('sh', '-c', 'umask "$1" && exec "$2" "$3"', 'sh', mask, os.path.join(project, 'tools', 'pack'), folder,
               env={**os.environ, **settings})
    expect(f'packed in {os.path.basename(project)}', seen == (0, b'', b''), seen)
    expect('the archive and its checksum, and nothing else', sorted(os.listdir(folder)) == [PACKED, f'{PACKED}.sha256'],
           os.listdir(folder))
    return os.path.join(folder, PACKED)


def try_packing(room, copy):
    first = pack(ROOT, os.path.join(room, 'first'), '022', TZ='UTC')
    second = pack(copy, os.path.join(room, 'second'), '077', TZ='Asia/Tokyo', LC_ALL='C.UTF-8')
    expect('two packings in two folders are the same bytes', read(first) == read(second), run('cmp', first, second))
    seen = run('sha256sum', '-c', f'{PACKED}.sha256', cwd=os.path.dirname(first))
    expect('its checksum', seen == (0, f'{PACKED}: OK\n'.encode(), b''), seen)
    with tarfile.open(first) as archive:
        members = archive.getmembers()
    expect('one folder', {member.name.split('/')[0] for member in members} == {NAME})
    expect('no owner, and the dates of the commit',
           {(member.uid, member.gid, member.uname, member.gname, member.mtime) for member in members} ==
           {(0, 0, '', '', int(run('git', '-c', 'safe.directory=*', 'log', '-1', '--format=%ct', cwd=ROOT)[1]))})
    return first


def unpack(archive, place):
    os.mkdir(place)
    seen = run('tar', '-xzf', archive, '-C', place)
    expect('unpacked', seen == (0, b'', b''), seen)
    return os.path.join(place, NAME)


# ---- what is in it


def program_headers(content):
    """Kind and flags of each program header of an ELF file of 64 bits."""
    start, = struct.unpack_from('<Q', content, 32)
    size, count = struct.unpack_from('<HH', content, 54)
    return dict(struct.unpack_from('<II', content, start + size * i) for i in range(count))


def try_program_files(place):
    programs = [name for name in files_below(place) if is_program(os.path.join(place, name))]
    expect('the programs', programs == ['bin/console', 'bin/record', 'libexec/pomurica/decisions', 'libexec/pomurica/verdict'],
           programs)
    for name in programs:
        content = read(os.path.join(place, name))
        headers = program_headers(content)
        expect(f'{name} is for x86-64, and needs no other file',
               struct.unpack_from('<H', content, 18) == (X86_64,) and not {INTERPRETER, DYNAMIC} & headers.keys(), headers)
        expect('and has no code on its stack', not headers[STACK] & EXECUTABLE, headers)
        oldest = content[content.index(LINUX_NOTE) + len(LINUX_NOTE):][:12]
        expect('and asks for no later Linux', struct.unpack('<III', oldest) <= (4, 4, 0), oldest)
    expect('the archive is the one that the tests run',
           read(os.path.join(place, 'lib', 'libpomurica.a')) == read(os.path.join(ROOT, 'target', 'staticlib', 'libconsole.a')))


def try_contents(place, room):
    named = {path.encode() for path in (ROOT, KIT, os.path.realpath(room), os.environ.get('HOME', '/')) if path != '/'}
    found = [(name, path) for name in files_below(place) for path in named if path in read(os.path.join(place, name))]
    expect('no file names a folder of this machine', not found, found)
    size = sum(os.path.getsize(os.path.join(place, name)) for name in files_below(place))
    expect(f'{size} bytes, of at most {MOST_BYTES}', size <= MOST_BYTES)


def try_trust(place):
    """The table of docs/TRUST.md, whose rows are files, or folders with all that is in them, has each file and no other."""
    rows = re.findall(r'^\| `([^`]+)`', read(os.path.join(ROOT, 'docs', 'TRUST.md')).decode(), re.M)
    files = files_below(place)
    folders = tuple(row for row in rows if row.endswith('/'))
    missing = [name for name in files if name not in rows and not name.startswith(folders)]
    expect('docs/TRUST.md says of each file what it is', not missing, missing)
    idle = [row for row in rows if row not in files and not (row in folders and any(name.startswith(row) for name in files))]
    expect('and of no other', not idle, idle)


# ---- the programs


def put_behind(place, emulator):
    """Starts each program by an emulator: it stands aside, and a script in its place."""
    for name in files_below(place):
        path = os.path.join(place, name)
        if is_program(path):
            os.rename(path, f'{path}.x86-64')
            write(path, f'#!/bin/sh\nexec {" ".join(emulator)} "{path}.x86-64" "$@"\n'.encode())
            os.chmod(path, 0o755)


def try_console(start, samples):
    said = {name: read(os.path.join(samples, f'{name}.txt')) for name in ('verdicts', 'explained', 'counts', 'instructions')}
    names = [name for name, *_ in sample_reports(samples)]
    refused = b''.join(line for line in said['verdicts'].splitlines(keepends=True) if b': refused ' in line)
    for words, status, out, err in ((names, 1, said['verdicts'], b''), (['--follow', '--quiet', *names], 1, b'', b''),
                                    (['--explain', '--trace', *names], 1, said['explained'], b''),
                                    (['--count', *names], 1, said['counts'], refused),
                                    (['--instructions', 'samples/supplier.log'], 0, said['instructions'], b'')):
        seen = start('console', *words)
        expect(f'console {" ".join(words)[:40]}', seen == (status, out, err), seen)
    for name in names:
        status, page, err = start('console', '--html', name)
        expect(f'console --html {name}', status in (0, 1) and page.endswith(b'</html>\n') and not err, (status, page[-80:], err))


def try_verdict(start, samples):
    for name, *report in sample_reports(samples):
        seen = start('verdict', name)
        expect(f'verdict {name}', seen == (0, '{} {} {}\n'.format(*report).encode(), b''), seen)
    for words, status, out in ((['missing'], 2, b''), (['.'], 2, b'CANNOT READ\n'), (['--help'], 2, b''), (['a', 'b'], 2, b'')):
        seen = start('verdict', *words)
        expect(f'verdict {" ".join(words)}', seen[:2] == (status, out), seen)


def scripts_of(samples):
    """The scripts, and of each the sample that is its trace without any damage; none of some."""
    table = read(os.path.join(samples, 'README.md')).decode()
    rows = re.findall(r'^\| (\S+\.trace) \|[^|]*\| *(\S*) *\| *([^|]*?) *\|', table, re.M)
    whole = {script: trace for trace, script, damage in rows if script and not damage}
    return {script: whole.get(script) for script in sorted(os.path.basename(name) for name in glob.glob(f'{samples}/*.script'))}


def try_record(start, samples):
    for script, trace in scripts_of(samples).items():
        status, out, err = start('record', f'samples/{script}')
        due = read(os.path.join(samples, trace)) if trace else out
        expect(f'record {script}', (status, err) == (0, b'') and out and out == due, (status, err))
        status, out, err = start('record', '--check', f'samples/{script}')
        expect(f'record --check {script}', (status, err) == (0, b''), (status, out, err))


def try_decisions(start, place):
    status, out, err = start('decisions')
    header = read(os.path.join(place, 'include', 'decisions.h'))
    digits = re.findall(rb'\d', header.split(b'{')[1].split(b'}')[0])
    expect('decisions', (status, re.findall(rb'\d', out), err) == (0, digits, b''), (status, out, err))
    expect('decisions --header is the header', start('decisions', '--header') == (0, header, b''))
    seen = start('decisions', '--what')
    expect('decisions --what', seen[:2] == (2, b''), seen)


def try_programs(place):
    """Every program on every sample, in the folder that has them, with nothing of the kit on the path."""
    share = os.path.join(place, 'share', 'pomurica')
    samples = os.path.join(share, 'samples')

    def start(program, *words):
        return run(os.path.join(place, 'bin', program), *words, cwd=share)

    for program in PROGRAMS:
        seen = start(program, '--version')
        expect(f'{program} --version', seen == (0, version_line(program), b''), seen)
    try_console(start, samples)
    try_verdict(start, samples)
    try_record(start, samples)
    try_decisions(start, place)
    try_links(place, samples)


def try_links(place, samples):
    """A link to a program that is a script, and the script alone, taken out of its release."""
    with tempfile.TemporaryDirectory() as room:
        link, alone = os.path.join(room, 'judge'), os.path.join(room, 'verdict')
        os.symlink(os.path.join(place, 'bin', 'verdict'), link)
        seen = run(link, os.path.join(samples, 'honest.trace'))
        expect('verdict by a link of another name', seen == (0, b'0 2032 9\n', b''), seen)
        shutil.copy(os.path.join(place, 'bin', 'verdict'), alone)
        seen = run(alone, os.path.join(samples, 'honest.trace'))
        expect('verdict out of its release', seen[:2] == (2, b'') and seen[2].count(b'\n') == 1, seen)


def try_processor(room):
    """That the emulated processor lacks what it should: an instruction of a later one ends a program there."""
    source = write(os.path.join(room, 'later.c'),
                   b'int main(void) { unsigned a = 1; __asm__("popcnt %0, %0" : "+r"(a)); return 0; }\n')
    program = os.path.join(room, 'later')
    seen = run(*COMPILERS['c11'], '-static', '-o', program, source)
    expect('a program for a later processor', seen[0] == 0, seen)
    seen = run(*OLD_PROCESSOR, program)
    expect('which the emulated one does not run', seen[0] in (-signal.SIGILL, 128 + signal.SIGILL), seen)


# ---- for C


EDITION = b'''#include <pomurica.h>
int main(void) { return pomurica_edition() == POMURICA_EDITION ? 0 : 1; }
'''


def build(compiler, standard, source, program, place):
    """A program of a release's users, as the header says to build it."""
    language = 'c++' if standard.startswith('c++') else 'c'
    command = ' '.join([*compiler, f'-x {language} -std={standard} -Wall -Wextra -Werror -o "$1" "$2" -x none',
                        '$(pkg-config --cflags --libs pomurica)'])
    return run('sh', '-c', command, 'sh', program, source,
               env={**PLAIN, 'PKG_CONFIG_PATH': os.path.join(place, 'lib', 'pkgconfig')})


def try_library(place, room):
    seen = run('pkg-config', '--modversion', 'pomurica', env={**PLAIN, 'PKG_CONFIG_PATH': f'{place}/lib/pkgconfig'})
    expect('the version by pkg-config', seen == (0, f'{VERSION}\n'.encode(), b''), seen)
    sources = {os.path.basename(path)[:-2]: path for path in glob.glob(f'{place}/share/doc/pomurica/examples/*.c')}
    due = {name: read(os.path.join(ROOT, 'tests', 'data', 'examples', f'{name}.txt')) for name in sources}
    expect('an example of each kind', len(sources) == 5, sources)
    sources['edition'], due['edition'] = write(os.path.join(room, 'edition.c'), EDITION), b''
    for standard, compiler in COMPILERS.items():
        for name, source in sorted(sources.items()):
            program = os.path.join(room, f'{name}-{standard}')
            seen = build(compiler, standard, source, program, place)
            expect(f'{name} as {standard}', seen == (0, b'', b''), seen)
            seen = run(*RUNNER, program)
            expect('and run', seen == (0, due[name], b''), seen)


# ---- manual pages


def try_pages(place):
    pages = sorted(glob.glob(f'{place}/share/man/man*/*'))
    due = sorted([f'man1/{program}.1' for program in PROGRAMS] + ['man3/pomurica.3'])
    expect('a manual page of each program, and of the functions',
           [os.path.relpath(page, f'{place}/share/man') for page in pages] == due, pages)
    for page in pages:
        for command in (['groff', '-mandoc', '-Tutf8', '-ww', '-z'], ['mandoc', '-T', 'lint', '-W', 'warning']):
            seen = run(*command, page)
            expect(f'{os.path.basename(page)} by {command[0]}', seen == (0, b'', b''), seen)


def try_page_words(place):
    """What a page is about is in it: each option that a program's help has, each function and number of the header."""
    for program in ('console', 'record'):
        help_text = run(os.path.join(place, 'bin', program), '--help')[1].decode()
        page = read(f'{place}/share/man/man1/{program}.1').decode()
        options = set(re.findall(r'--([a-z]+)', help_text))
        missing = [option for option in options if f'Fl Fl {option}' not in page]
        expect(f'every option of {program} is in its page', options and not missing, missing)
    header, page = (read(f'{place}/{name}').decode() for name in ('include/pomurica.h', 'share/man/man3/pomurica.3'))
    functions = re.findall(r'^uint32_t (pomurica_\w+)\(', header, re.M)
    expect('every function, in the order of the header', re.findall(r'^\.F[on] (pomurica_\w+)', page, re.M)[:len(functions)] ==
           functions, functions)
    numbers = re.search(r'enum pomurica_number \{(.*?)\n\}', header, re.S)[1]
    expect('every number', re.findall(r'^\.It (\d+) (\w+)$', page, re.M) ==
           [(number, name) for name, number in re.findall(r'POMURICA_(\w+) = (\d+)', numbers)])


# ---- ./release


class Releasing:
    """./release in a copy of the project that is a commit of its own, and the folder that it is to pack into."""

    def __init__(self, project, room):
        self.project, self.folder = project, os.path.join(room, 'released')
        self.git('add', '-A')
        self.git('commit', '-q', '--allow-empty', '-m', 'what is tried')

    def git(self, *words):
        subprocess.run(['git', '-c', 'user.name=test', '-c', 'user.email=test@localhost', *words], cwd=self.project, check=True)

    def path(self, name):
        return os.path.join(self.project, name)

    def gate(self, *words):
        """Runs the words of the gate, as ./test does at its beginning and end."""
        run('sh', '-c', f'root=$1; . "$root/tools/gate.sh"; {"; ".join(words)}', 'sh', self.project, env=None)

    def start(self, *words, **options):
        return run(self.path('release'), *words, **{'env': None, **options})

    def left(self):
        return sorted(os.listdir(self.folder)) if os.path.isdir(self.folder) else None

    def refuses(self, name, part, *words, **options):
        """A line that says why, status 2, and nothing is left."""
        before = self.left()
        status, out, err = self.start(*(words or [self.folder]), **options)
        last = err.decode().splitlines()[-1:]
        expect(f'./release {name}', (status, out) == (2, b'') and last and part in last[0], (status, out, err))
        expect('and nothing is left', self.left() == before and not os.path.exists(self.path('target/release')), self.left())


def without(command, room):
    """An environment in which a command is not installed."""
    folder = os.path.join(room, f'without-{command}')
    os.mkdir(folder)
    for path in os.environ['PATH'].split(':'):
        for name in os.listdir(path) if os.path.isdir(path) else ():
            if name != command and not os.path.lexists(os.path.join(folder, name)):
                os.symlink(os.path.join(path, name), os.path.join(folder, name))
    return {**os.environ, 'PATH': folder}


def try_gates(tried):
    tried.refuses('without a gate', 'the gate has not passed')
    tried.gate('gate_begins', 'gate_passes', 'gate_begins')
    tried.refuses('behind a gate that failed, or runs', 'the gate has not passed')
    changed = write(tried.path('changed'), b'')
    tried.gate('gate_begins', 'gate_passes')
    tried.refuses('of a tree with a new file', "the files are not the commit's: 1 changed")
    os.remove(changed)
    tried.refuses('that was new while the gate passed', 'the gate has not passed')
    tried.gate('gate_begins', 'echo >>"$root/README.md"', 'gate_passes')
    tried.refuses('of a tree with a changed file', "the files are not the commit's: 1 changed")
    tried.git('checkout', '-q', 'README.md')
    tried.refuses('that was changed while the gate passed', 'the gate has not passed')
    tried.gate('gate_begins', 'gate_passes')
    tried.git('mv', 'VERSION', 'OTHER')
    tried.git('commit', '-q', '-m', 'another')
    tried.refuses('of another commit than the gate has passed', 'the gate has passed other files')
    tried.git('reset', '-q', '--hard', 'HEAD^')


def try_machines(tried, room):
    """With a gate that passed, what a machine can lack."""
    tried.refuses('--what', 'usage: release', '--what')
    tried.refuses('of two folders', 'usage: release', tried.folder, room)
    tried.refuses('into a folder of none', 'cannot make the folder', os.path.join(room, 'not', 'there'))
    tried.refuses('without git', 'git is not installed', env=without('git', room))
    os.rename(tried.path('.git'), tried.path('.gone'))
    tried.refuses('outside a clone', 'is no clone')
    os.rename(tried.path('.gone'), tried.path('.git'))
    poor = without('df', room)
    os.chmod(write(os.path.join(poor['PATH'], 'df'), b'#!/bin/sh\necho head\necho disk 9 9 100 9 /\n'), 0o755)
    tried.refuses('without room', 'no room in', env=poor)
    limited = ['sh', '-c', 'ulimit -f 1200; exec "$@"', 'sh', tried.path('release'), tried.folder]  # 614,400 bytes a file
    status, out, err = run(*limited, env=None)
    expect('./release where the room ends on the way', (status, out) == (2, b'') and
           err.decode().splitlines()[-1].startswith('release: nothing was packed'), (status, out, err))
    expect('and nothing is left', tried.left() is None, tried.left())


def try_signal(tried):
    running = subprocess.Popen([tried.path('release'), tried.folder], stdout=subprocess.PIPE, stderr=subprocess.PIPE)
    expect('./release begins', comes_true(lambda: tried.left()), tried.left())
    running.send_signal(signal.SIGTERM)
    out, err = running.communicate(timeout=60)
    expect('a signal ends it', (running.returncode, out) == (128 + signal.SIGTERM, b''), (running.returncode, out, err))
    expect('and nothing is left', comes_true(lambda: tried.left() is None, 10), tried.left())


def try_release(copy, room):
    tried = Releasing(copy, room)
    try_gates(tried)
    tried.gate('gate_begins', 'gate_passes')
    try_machines(tried, room)
    try_signal(tried)
    packings = []
    for folder in (tried.folder, tried.path('target/release')):
        status, out, err = tried.start(*([folder] if folder == tried.folder else []))
        expect('./release of a commit that the gate has passed',
               (status, err) == (0, b'') and out.endswith(f'  {folder}/{PACKED}\n'.encode()), (status, out, err))
        packings.append([read(os.path.join(folder, name)) for name in sorted(os.listdir(folder))])
    expect('and again is the same', packings[0] == packings[1] and len(packings[0]) == 2)


def main():
    with tempfile.TemporaryDirectory() as room:
        copy = os.path.join(room, 'a copy of the project')
        copy_project(copy)
        archive = try_packing(room, copy)
        expect('the kit is not on the path', shutil.which('rt', path=PLAIN['PATH']) is None)
        place = unpack(archive, os.path.join(room, 'unpacked'))
        try_program_files(place)
        try_contents(place, room)
        try_trust(place)
        try_pages(place)
        try_library(place, room)
        if IS_X86:
            try_programs(place)
        try_processor(room)
        put_behind(place, OLD_PROCESSOR)
        try_programs(place)
        try_page_words(place)
        try_release(copy, room)
    print(f'{results.count(True)} passed, {results.count(False)} failed')
    sys.exit(0 if all(results) else 1)


main()
