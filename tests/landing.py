#!/usr/bin/env python3
"""landing.py SCRIPT: tries tools/landing on a small made-up project of two commits. Ends with `N passed, M failed`."""
import os
import subprocess
import sys
import tempfile

SCRIPT = os.path.abspath(sys.argv[1])
results = []

# The project before, file by file. Its crate `rules` is called `law` afterwards.
BEFORE = {
    'crates/state/specs/Place.antt': '''-- Places.
use Rattle.std.specs.Prelude.{ℕ, ◌+◌}

-- of the CPSR
abbrev pub CPSR : ℕ
CPSR = 33

pub record Place : Type 0 where
  pub number : ℕ

pub data Kind : Type 0 where
  Fiq : Kind

module over (n : ℕ) where
  unfoldable pub next : ℕ
  next = n + 1
''',
    'crates/state/src/place.rt': '''// Places.
pub fn is_place(p: usize) -> bool
    requires { p < 64 }
    ensures answers { result ≡ is_place p }
{
    p < 44
}

impl Place {
    pub fn number(self) -> usize
        ensures { result ≡ self.number }
    {
        self.number
    }
}

pub fn free(p: usize) -> usize {
    p
}
''',
    'crates/rules/proofs/Laws.antt': '''-- Laws.
pub stands : (p : ℕ)
    → p ≡ p
stands p = refl

pub falls : (p : ℕ) → p ≡ CPSR → p ≡ 33
falls p same = same
''',
    'crates/rules/proofs/place/is_place/Proof.antt': 'returns = known\n',
    'crates/rules/proofs/place/is_free/Answers.antt': 'pub returns : goal.returns\nreturns c = refl\n',
    'crates/rules/proofs/place/is_free/Invariants.antt': 'abbrev pub loop : goal.loop\nloop c = ⊤\n',
    'crates/words/specs/Word.antt': 'abbrev pub WIDTH : ℕ\nWIDTH = 4\n',
}

# And what is written over it: comments and layout are no change, a word is.
AFTER = {
    'crates/state/specs/Place.antt': BEFORE['crates/state/specs/Place.antt'].replace('33', '34').replace(
        '-- of the CPSR', '-- of the CPSR, now 34').replace('  Fiq : Kind', '  Fiq : Kind\n  Irq : Kind').replace(
        'next = n + 1', 'next =\n    n + 1') + '\nabbrev pub PC : ℕ\nPC = 35\n',
    'crates/state/src/place.rt': BEFORE['crates/state/src/place.rt'].replace('p < 64', 'p < 128').replace(
        'pub fn free(p: usize) -> usize {', '// a body is no contract\npub fn free(p: usize) -> usize {').replace(
        '        self.number\n', '        self.number + 0\n'),
    'crates/law/proofs/Laws.antt': BEFORE['crates/rules/proofs/Laws.antt'].replace('stands p = refl', 'stands p = same').replace(
        'p ≡ 33\n', 'p ≡ 34\n'),
    'crates/law/proofs/place/is_place/Proof.antt': 'returns = known\n-- a comment\n',
    'crates/law/proofs/place/is_free/Answers.antt': BEFORE['crates/rules/proofs/place/is_free/Answers.antt'],
    'crates/law/proofs/place/is_free/Invariants.antt': 'abbrev pub loop : goal.loop\nloop c = c.args.p < 44\n',
}

LOGS = {
    'before.log': 'fn state::is_place: proved\nrt: state proved (15 s)\nrt: rules proved (7 s)\nrt: ok, 2 crates proved\n',
    'after.log': 'rt: state proved (16 s)\nrt: law proved (9 s)\n',
    # as today's rt has it
    'state.log': '== state\nfn state::is_place: proved\nlogic=proved functions=3 sum=0\nrt: state proved\n'
                 '== state: its tests\nlogic=proved functions=8 sum=0\nrt: state: its tests are proved\n',
    'both.log': '== state\nlogic=proved functions=4 sum=0\nrt: state proved\nrt: words is kept: an earlier run proved it\n'
                '== broken\nlogic=not-proved\nrt: broken NOT PROVED\n'
                '== law: its tests\nlogic=proved functions=9 sum=0\n== law\nlogic=proved functions=2 sum=0\nrt: law proved\n',
}

FUNCTIONS = '''
## Functions proved

| Crate | Before | After |
|---|---:|---:|
| state | 3 | 4 |
| law |  | 2 |
| all | 3 | 6 |
'''

NOTE = '''# No. :

From `OLD` to `NEW`.

## What was asked, and what it is now

## What moved, and what did not

- new crate `law`: 4 names from `rules`
- crate `rules` is gone

| | moved | added | gone | proved anew | stayed |
|---|---:|---:|---:|---:|---:|
| definitions | 2 | 1 | 0 | 0 | 3 |
| contracts | 1 | 0 | 0 | 0 | 2 |
| theorems | 1 | 0 | 0 | 1 | 0 |
| proofs | 1 | 0 | 0 | 0 | 1 |

### `law`

- theorems moved: Laws (from rules): `falls`
- theorems proved anew: Laws (from rules): `stands`
- proofs moved: place (from rules): `is_free`

<details><summary>did not move: 1 proofs</summary>

- proofs: place (from rules): `is_place`

</details>

### `state`

- definitions moved: Place: `CPSR`, `Kind`
- definitions added: Place: `PC`
- contracts moved: place: `is_place`

<details><summary>did not move: 2 definitions, 2 contracts</summary>

- definitions: Place: `Place`, `next`
- contracts: place: `Place::number`, `free`

</details>

### Nothing moved

- in `words`

<details><summary>words: 1 definitions</summary>

- definitions: Word: `WIDTH`

</details>

## Seconds

| Crate | Before | After |
|---|---:|---:|
| state | 15 | 16 |
| rules | 7 |  |
| law |  | 9 |
| all | 22 | 25 |
'''


def expect(name, held, seen=''):
    results.append(held)
    print(f'ok      {name}' if held else f'FAILED  {name}: {seen}', flush=True)


def git(*arguments):
    # on its own: neither the user's settings nor those of the project that this runs in
    settings = {**os.environ, 'GIT_CONFIG_GLOBAL': os.devnull, 'GIT_CONFIG_SYSTEM': os.devnull}
    for name in [name for name in settings if name.startswith('GIT_') and not name.startswith('GIT_CONFIG')]:
        del settings[name]
    who = ['-c', 'user.name=nobody', '-c', 'user.email=nobody@localhost', '-c', 'init.defaultBranch=main']
    told = subprocess.run(['git', *who, *arguments], stdout=subprocess.PIPE, check=True, text=True, env=settings)
    return told.stdout.strip()


def write(files):
    for path, content in files.items():
        os.makedirs(os.path.dirname(path) or '.', exist_ok=True)
        with open(path, 'w', encoding='utf-8') as file:
            file.write(content)


def commit():
    git('add', '--all')
    git('commit', '--quiet', '--message', 'made up')
    return git('rev-parse', '--short', 'HEAD')


def landing(*arguments):
    told = subprocess.run([sys.executable, SCRIPT, *arguments], capture_output=True, check=False, text=True)
    return told.returncode, told.stdout, told.stderr


def first_difference(seen, due):
    pairs = zip(seen.splitlines() + [''], due.splitlines() + [''])
    return next(((one, other) for one, other in pairs if one.rstrip() != other), None)


def main():
    git('init', '--quiet')
    write(LOGS)
    with open('.gitignore', 'w', encoding='utf-8') as file:
        file.write('*.log\n')
    write(BEFORE)
    old = commit()
    git('rm', '-r', '--quiet', 'crates/rules')
    write(AFTER)
    new = commit()

    status, note, _ = landing(old, new, '--before', 'before.log', '--after', 'after.log')
    difference = first_difference(note, NOTE.replace('OLD', old).replace('NEW', new))
    expect('the note of two commits', status == 0 and difference is None, difference)
    status, note, _ = landing(old, new, '--before', 'state.log', '--after', 'both.log')
    expect('its figures from logs of today', status == 0 and note.endswith('</details>\n' + FUNCTIONS) and 'Seconds' not in note, note)
    status, note, _ = landing(old, old)
    expect('a commit and itself: nothing moved, no seconds', status == 0 and '\n### `' not in note and 'Seconds' not in note,
           note)
    status, note, told = landing(old, 'nowhere')
    expect('a commit that is none', status != 0 and note == '' and 'no commit nowhere' in told, (status, note, told))


with tempfile.TemporaryDirectory() as room:
    os.chdir(room)
    main()
    os.chdir('/')
print(f'{results.count(True)} passed, {results.count(False)} failed')
sys.exit(0 if all(results) else 1)
