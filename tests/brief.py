#!/usr/bin/env python3
"""brief.py COMPARER...: comparers whose other side is always wrong. Each has to fail and to be brief about it: ten cases told of
each group, then how many more there were. Ends with `N passed, M failed`."""
import re
import subprocess
import sys

MOST_LINES = 300
MOST_TOLD = 10
results = []


def expect(name, held, seen=''):
    results.append(bool(held))
    print(f'ok      {name}' if held else f'FAILED  {name}: {seen}', flush=True)


def try_program(program):
    told = subprocess.run([program, '1', '1'], stdout=subprocess.PIPE, check=False, text=True)
    lines = told.stdout.splitlines()
    name = program.rsplit('/', 1)[-1]
    expect(f'{name}: fails', told.returncode == 1 and re.fullmatch(r'\d+ passed, [1-9]\d* failed', lines[-1]), lines[-1])
    expect(f'{name}: fewer than {MOST_LINES} lines', len(lines) < MOST_LINES, len(lines))
    cases = [line for line in lines if 'the other 99' in line]
    groups = {line.split(':')[0] for line in cases}
    expect(f'{name}: ten cases of each group at most', 0 < len(cases) <= MOST_TOLD * len(groups), len(cases))
    expect(f'{name}: says how many more', any(re.search(r': and [1-9]\d+ more$', line) for line in lines))


for path in sys.argv[1:]:
    try_program(path)
print(f'{results.count(True)} passed, {results.count(False)} failed')
sys.exit(0 if results and all(results) else 1)
