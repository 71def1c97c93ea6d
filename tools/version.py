#!/usr/bin/env python3
"""version.py: the version is the same wherever it stands. Run at the project's root.

VERSION has it, as X.Y.Z. Held against it: the header's two constants, the three numbers of crates/edition, in its definitions and
in its code, the first heading of CHANGELOG.md, and the landings: Y is the last one that has a note in docs/changes, and each up
to it has a heading. Ends with `N passed, M failed`.
"""
import glob
import re
import sys

EDITION = 'crates/edition'


def read(name):
    with open(name, encoding='utf-8') as file:
        return file.read()


def found(name, pattern):
    """What a pattern's one group finds in a file; every place where it does."""
    return re.findall(pattern, read(name), re.M)


def numbers_after(name, form, words):
    return [found(name, form.format(word)) for word in words]


# Landings of our own, which are no request and have a note beside those of the requests.
OURS = [39]


def claims(version):
    """What has to be so: a place, what stands there, and what is due."""
    parts = version.split('.')
    document, request, release = map(int, parts)
    each = [[part] for part in parts]
    edition = f'0x{document << 16 | request << 8 | release:08X}'
    yield 'host/pomurica.h, POMURICA_VERSION', found('host/pomurica.h', r'^#define POMURICA_VERSION "(.*)"$'), [version]
    yield 'host/pomurica.h, POMURICA_EDITION', found('host/pomurica.h', r'^#define POMURICA_EDITION UINT32_C\((\w+)\)$'), [edition]
    yield f'{EDITION}, its definitions', numbers_after(
        f'{EDITION}/specs/Edition.antt', r'^{} = (\d+)$', ('document', 'last_request', 'release')), each
    yield f'{EDITION}, its code', numbers_after(
        f'{EDITION}/src/lib.rt', r'^const {}: u32 = (\d+);$', ('DOCUMENT', 'LAST_REQUEST', 'RELEASE')), each
    headings = found('CHANGELOG.md', r'^## (\S+)')
    yield 'CHANGELOG.md, its first heading', headings[:1], [version]
    yield 'CHANGELOG.md, a heading for each landing', sorted({int(heading.split('.')[1]) for heading in headings}), [
        *range(request + 1)]
    notes = sorted(int(note) for name in glob.glob('docs/changes/*.md') for note in re.findall(r'(\d+)\.md$', name))
    yield 'docs/changes, a note for each landing', notes, [*range(1, request + 1), *OURS]


def main():
    version = read('VERSION')
    if not re.fullmatch(r'(0|[1-9]\d*)(\.(0|[1-9]\d*)){2}\n', version):
        print(f'VERSION: {version!r} is no line X.Y.Z\n0 passed, 1 failed')
        sys.exit(1)
    results = []
    for place, seen, due in claims(version.strip()):
        results.append(seen == due)
        print(f'ok      {place}' if seen == due else f'FAILED  {place}: {seen}, not {due}')
    print(f'{results.count(True)} passed, {results.count(False)} failed')
    sys.exit(0 if all(results) else 1)


main()
