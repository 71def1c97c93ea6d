#!/usr/bin/env python3
"""decisions.py SCRIPT HEADER SECOND: tries the program `decisions` as a user does, through its script.

Its table is the one that the script SECOND makes from document 01, and in another form the file HEADER. Ends with
`N passed, M failed`.
"""
import os
import re
import subprocess
import sys

sys.dont_write_bytecode = True
from editions import version_line  # noqa: E402

SCRIPT, HEADER, SECOND = (os.path.abspath(path) for path in sys.argv[1:4])
results = []


def expect(name, held, seen):
    results.append(held)
    print(f'ok      {name}' if held else f'FAILED  {name}: {seen}', flush=True)


def run(*command, **options):
    done = subprocess.run(command, stderr=subprocess.PIPE, stdin=subprocess.DEVNULL, timeout=600, check=False,
                          **{'stdout': subprocess.PIPE, **options})
    return done.returncode, done.stdout, done.stderr


def try_table():
    run(SCRIPT)  # which builds the program, and says so, where that was not done yet
    status, table, told = run(SCRIPT)
    expect('the table', (status, told) == (0, b''), (status, told))
    expect('is that of another hand', table == run(sys.executable, SECOND)[1], table)
    lines = table.decode().splitlines(keepends=True)
    expect('sixteen lines of sixteen digits', [bool(re.fullmatch('[0-4]{16}\n', line)) for line in lines] == [True] * 16, lines)
    return ''.join(lines).replace('\n', '')


def try_header(digits):
    status, header, told = run(SCRIPT, '--header')
    with open(HEADER, 'rb') as file:
        expect('the header is the one that stands there', (status, header, told) == (0, file.read(), b''), (status, told))
    numbers = header.decode().split('{')[1].split('}')[0]
    expect('its numbers are the digits', re.findall(r'\d', numbers) == list(digits), numbers)


def try_version():
    seen = run(SCRIPT, '--version')
    expect('--version', seen == (0, version_line('decisions'), b''), seen)


def try_misuse():
    for words in [('--help',), ('--headers',), ('--header', 'x'), ('samples/honest.trace',), ('',)]:
        status, out, told = run(SCRIPT, *words)
        expect(f'usage: {words}', (status, out) == (2, b'') and told.startswith(b'usage: '), (status, out, told))
    for words in [(), ('--header',), ('--version',)]:
        with open('/dev/full', 'wb') as full:
            status, _, told = run(SCRIPT, *words, stdout=full)
        expect(f'output that cannot be written {words}', (status, b'could not be written' in told) == (2, True), (status, told))


try_header(try_table())
try_version()
try_misuse()
print(f'{results.count(True)} passed, {results.count(False)} failed')
sys.exit(not all(results))
