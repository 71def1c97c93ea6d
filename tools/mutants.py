"""mutants.py: makes the mutants of second/, lets each meet tests/hunt.c, and judges. tools/mutants says how it is called."""
import argparse
import collections
import concurrent.futures
import os
import re
import subprocess
import sys
import tempfile

from mutations import SKIPPED, Names, changes_of, items_of

ROOT = os.path.dirname(os.path.dirname(os.path.abspath(__file__)))
MUTATED = ['second/step.c', 'second/batch.c', 'second/check.c', 'second/count.c', 'second/session.c', 'second/record.c',
           'second/instruction.c']
NAMING = ['second/words.h', 'second/records.h']  # what they include: constants that stand in place of each other
# The rules of the old layout are asked for by the checker alone, and the checker's own words also by a session.
ALSO_MET = {'second/step.c': 'second/check.c', 'second/check.c': 'second/session.c'}
HUNTING = ['hunt', 'question', 'any_list', 'lists', 'any_recording', 'recordings', 'events', 'any_session', 'counting',
           'encoding', 'chance', 'lent', 'traces', 'edge']
DRIVER = [*(f'tests/{name}.c' for name in HUNTING), *MUTATED]
COMPILER = ['gcc', '-std=c11', '-O1', '-w', '-Isecond', '-Ihost']
NAMES = ['step', 'step_in', 'batch', 'check', 'is_due', 'layout_of', 'take_block', 'is_right_step', 'count',
         'count_lines', 'open', 'feed', 'close', 'record', 'read_instruction', 'write_instruction']
RENAMED = [f'-Dsecond_{name}=mutant_{name}' for name in NAMES]  # a mutant has its own names
# One that lives meets a tenth as much again under the sanitizers: it may have left an array and gone on by luck.
SANITIZED = ['-fsanitize=address,undefined', '-fno-sanitize-recover=all']
SETTINGS = {**os.environ, 'ASAN_OPTIONS': 'detect_leaks=0', 'UBSAN_OPTIONS': ''}
FOUND = 3  # hunt's status where a difference was found


class Mutant:
    def __init__(self, path, source, name, change):
        self.path, self.source, self.name, self.change = path, source, name, change
        self.lines_before = 0

    def text(self):
        old = self.source[self.change.start:self.change.end]
        new = f'!({old})' if self.change.new == 'not' else self.change.new
        return self.source[:self.change.start] + new + self.source[self.change.end:]

    def key(self):
        """Its name: where it is, and its line or lines without comments and breaks, with the change marked."""
        source, (start, end, new) = self.source, self.change
        line, line_end = start, source.find('\n', end)
        for _ in range(1 + self.lines_before):
            line = source.rfind('\n', 0, line - 1)
        shown = f'{source[line:start]}[[{source[start:end]} => {new}]]{source[end:line_end]}\n'
        return f'{self.name}: ' + ' '.join(re.sub(SKIPPED, ' ', shown, flags=re.S).split())


def name_apart(mutants):
    """Gives to those with one key a line more of what stands before them, until each has its own."""
    alike = mutants
    while alike:
        keys = collections.Counter(mutant.key() for mutant in mutants)
        alike = [mutant for mutant in alike if keys[mutant.key()] > 1]
        for mutant in alike:
            mutant.lines_before += 1


def all_mutants():
    sources = {path: read(path) for path in [*MUTATED, *NAMING]}
    names = Names(sources.values())
    mutants = []
    for path in MUTATED:
        for name, item in items_of(sources[path]):
            mutants += [Mutant(path, sources[path], name, change) for change in changes_of(name, item, names)]
    name_apart(mutants)
    return mutants


def read(path):
    with open(os.path.join(ROOT, path), encoding='utf-8') as file:
        return file.read()


def explained_in(path):
    """The mutants that a file explains: its indented lines."""
    with open(path, encoding='utf-8') as file:
        return [line.strip() for line in file if line.startswith('    ')]


class Hunt:
    """A folder with the driver compiled, in which each mutant is built and run."""

    def __init__(self, room, wanted):
        self.room, self.wanted = room, wanted
        self.objects = [self.compile(path, f'driver{i}.o') for i, path in enumerate(DRIVER)]
        self.unchanged = {path: self.compile(path, f'unchanged{i}.o', RENAMED) for i, path in enumerate(MUTATED)}

    def compile(self, path, name, options=()):
        output = os.path.join(self.room, name)
        subprocess.run([*COMPILER, *options, '-c', path, '-o', output], cwd=ROOT, check=True)
        return output

    def build(self, path, mutant, options):
        """The program of a mutant; None if it is no C."""
        others = [unchanged for other, unchanged in self.unchanged.items() if other != mutant.path]
        program = path.removesuffix('.c')
        command = [*COMPILER, *options, *RENAMED, path, *others, *self.objects, '-o', program]
        return program if subprocess.run(command, cwd=ROOT, stderr=subprocess.DEVNULL, check=False).returncode == 0 else None

    def meet(self, program, mutant, part):
        """What the program says of so great a part of the steps, lists, traces to judge or to count, sessions, recordings or
        instruction words, of which there are as many as steps."""
        wanted = [self.wanted.steps, *5 * [self.wanted.traces], self.wanted.steps]
        met = [mutant.path, ALSO_MET.get(mutant.path)]
        counts = [number // part if path in met else 0 for path, number in zip(MUTATED, wanted)]
        command = [program, *map(str, counts), str(self.wanted.seed)]
        status = subprocess.run(command, stderr=subprocess.DEVNULL, env=SETTINGS, check=False).returncode
        if status == 2:
            raise RuntimeError(f'{mutant.key()}: the hunt could not be run')
        return {0: 'lives', FOUND: 'differs'}.get(status, 'stopped')

    def fate(self, number, mutant):
        """How a mutant ends."""
        path = os.path.join(self.room, f'{number}.c')
        with open(path, 'w', encoding='utf-8') as file:
            file.write(mutant.text())
        program = self.build(path, mutant, [])
        if program is None:
            return 'no C'
        fate = self.meet(program, mutant, 1)
        if fate == 'lives':
            fate = self.meet(self.build(path, mutant, SANITIZED), mutant, 10)
        os.unlink(path)
        os.unlink(program)
        return fate


def hunt_all(mutants, wanted):
    """The fate of each mutant, by its key."""
    fates = {}
    with tempfile.TemporaryDirectory() as room, concurrent.futures.ThreadPoolExecutor(wanted.jobs) as pool:
        hunt = Hunt(room, wanted)
        for mutant, fate in zip(mutants, pool.map(hunt.fate, range(len(mutants)), mutants)):
            fates[mutant.key()] = fate
            if len(fates) % 100 == 0 or len(fates) == len(mutants):
                living = list(fates.values()).count('lives')
                print(f'{len(fates)} of {len(mutants)}, {living} live', flush=True)
    return fates


def tell(title, keys):
    for key in keys:
        print(f'{title}: {key}')


def judge(fates, explained):
    """Prints the end of a hunt; whether it is as it should be."""
    survivors = [key for key, fate in fates.items() if fate == 'lives']
    without = [key for key in survivors if key not in explained]
    dead = [key for key in explained if fates[key] != 'lives']
    tell('lives, and is not explained', without)
    tell('is explained, and was killed', dead)
    ways = collections.Counter(fates.values())
    print(f'killed by a difference {ways["differs"]}, by a signal or a sanitizer {ways["stopped"]}, '
          f'by the compiler {ways["no C"]}')
    is_right = not without and not dead
    told = 'all explained' if is_right else f'{len(without)} not explained, {len(dead)} explained that were killed'
    print(f'{len(fates)} mutants, {len(fates) - len(survivors)} killed, {len(survivors)} survivors, {told}')
    return is_right


def arguments():
    parser = argparse.ArgumentParser(prog='mutants')
    parser.add_argument('texts', nargs='*')
    parser.add_argument('--entries', action='store_true')
    parser.add_argument('--explained', default=os.path.join(ROOT, 'tests/data/mutants.txt'))
    parser.add_argument('--steps', type=int, default=1000000)
    parser.add_argument('--traces', type=int, default=20000)
    parser.add_argument('--seed', type=int, default=1)
    parser.add_argument('--jobs', type=int, default=os.cpu_count())
    return parser.parse_args()


def main():
    wanted = arguments()
    mutants = all_mutants()
    keys = {mutant.key() for mutant in mutants}
    explained = explained_in(wanted.explained)
    unknown = [key for key in explained if key not in keys]
    tell('is explained, and cannot be made', unknown)
    if wanted.entries or unknown:
        print(f'{len(explained)} entries, {len(unknown)} that cannot be made')
        return 1 if unknown else 0
    if wanted.texts:
        mutants = [mutant for mutant in mutants if any(text in mutant.key() for text in wanted.texts)]
        explained = [key for key in explained if any(text in key for text in wanted.texts)]
    return 0 if judge(hunt_all(mutants, wanted), explained) else 1


if __name__ == '__main__':
    sys.exit(main())
