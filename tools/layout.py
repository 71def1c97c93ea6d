#!/usr/bin/env python3
"""layout.py: nothing of the project stands where no check looks. Run at its root.

Every folder of crates/ is a crate that crates.txt lists, and the reverse; every file of Rattle, of proofs and of must-fail
edits lies where a listed crate has it; no tracked file is gone. Ends with `N passed, M failed`.
"""
import os
import shutil
import subprocess
import sys

# Where a crate has its files, by ending.
HOMES = {'.rt': ('src',), '.antt': ('specs', 'proofs'), '.edit': ('must-fail',)}


def listed_crates():
    with open('crates.txt', encoding='utf-8') as file:
        lines = (line.split('#')[0] for line in file)
        return {line.split(':')[0].split()[0] for line in lines if line.strip()}  # behind its name may stand what it is


def crate_faults(listed):
    found = set(os.listdir('crates'))
    yield from (f'crates/{name} is not listed in crates.txt' for name in sorted(found - listed))
    yield from (f'crates.txt lists {name}, which is not in crates/' for name in sorted(listed - found))


def project_files():
    for folder, folders, files in os.walk('.'):
        if folder == '.':
            folders[:] = [name for name in folders if name not in ('.git', 'target')]
        if os.path.dirname(folder) == os.path.join('.', 'crates'):
            folders[:] = [name for name in folders if name != 'out']  # rt's own
        yield from (os.path.relpath(os.path.join(folder, name)) for name in files)


def is_lost(path, listed):
    parts = path.split(os.sep)
    homes = HOMES.get(os.path.splitext(path)[1])
    return homes is not None and not (
        len(parts) > 3 and parts[0] == 'crates' and parts[1] in listed and parts[2] in homes)


def gone_files():
    """Tracked files that are not there; outside a clone, or without git, none can be told."""
    if not os.path.exists('.git') or shutil.which('git') is None:
        return []
    # a clone may belong to somebody else than who runs the tests
    command = ['git', '-c', 'safe.directory=*', 'ls-files', '-z', '--deleted']
    told = subprocess.run(command, stdout=subprocess.PIPE, check=True).stdout
    return [name.decode() for name in told.split(b'\0') if name]


def main():
    listed = listed_crates()
    faults = list(crate_faults(listed))
    faults += [f'{path} lies in no crate' for path in sorted(project_files()) if is_lost(path, listed)]
    faults += [f'{path} is gone' for path in gone_files()]
    for fault in faults:
        print(fault)
    print(f'{0 if faults else 1} passed, {len(faults)} failed')
    sys.exit(1 if faults else 0)


main()
