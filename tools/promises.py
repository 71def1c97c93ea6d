#!/usr/bin/env python3
"""promises.py: every public function has a statement, and none asks what it must not. Run at the project's root.

A `pub fn` states what it gives (`ensures`). An exported one, and any of machine, trace, session and console, asks nothing of
its caller (`requires`). It finds statements that are missing, not those that say little. Ends with `N passed, M failed`.
"""
import glob
import re
import sys

TOTAL_CRATES = {'machine', 'trace', 'session', 'console'}
PUBLIC = re.compile(r'\bpub\s+(?:(?:const|unsafe)\s+)*(?P<exported>extern\s+"C"\s+)?fn\s+(?P<name>\w+)')
CLAUSES_OR_BODY = re.compile(r'\b(?:ghost|requires|ensures)\b|\{')
# A clause may have a name, and a star where it is of memory; a ghost value stands before the others, behind its name and a colon.
CLAUSE = re.compile(r'\s*(ghost|requires|ensures)\*?(?:\s+[^\s{]+)?\s*\{')


def behind_braces(text, at):
    """Where the braces that opened right before `at` are closed."""
    depth = 1
    while depth:
        depth += {'{': 1, '}': -1}.get(text[at], 0)
        at += 1
    return at


def clauses(text, at):
    """The clauses between a function's name, which ends at `at`, and its body."""
    at = CLAUSES_OR_BODY.search(text, at).start()
    found = set()
    while clause := CLAUSE.match(text, at):
        found.add(clause.group(1))
        at = behind_braces(text, clause.end())
    return found


def faults_of(path):
    """How many public functions the file has, and what is wrong with them."""
    with open(path, encoding='utf-8') as file:
        text = re.sub(r'//.*', '', file.read())
    functions, faults = 0, []
    for public in PUBLIC.finditer(text):
        functions += 1
        found = clauses(text, public.end())
        where = f"{path}:{text.count(chr(10), 0, public.start()) + 1} {public['name']}"
        if 'ensures' not in found:
            faults.append(f'{where} has no statement')
        if 'requires' in found and (public['exported'] or path.split('/')[1] in TOTAL_CRATES):
            faults.append(f'{where} asks something of its caller')
    return functions, faults


def main():
    functions, faults = 0, []
    for path in sorted(glob.glob('crates/*/src/**/*.rt', recursive=True)):
        more, wrong = faults_of(path)
        functions, faults = functions + more, faults + wrong
    for fault in faults:
        print(fault)
    if functions == 0:
        faults = ['no public function']
    print(f'{functions} public functions')
    print(f'{0 if faults else 1} passed, {len(faults)} failed')
    sys.exit(1 if faults else 0)


main()
