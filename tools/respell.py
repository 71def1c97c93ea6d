#!/usr/bin/env python3
"""respell.py [--show]: brings the names of definitions, fields and lemmas to today's spelling.

Run once, at the top, after the kit's port.py. Words are in snake case, types and modules in camel case. A dash stays in a
lemma's name only between two names that are defined themselves, as in `length-put`; a constant of the papers keeps its
capitals, as `BAD_MODE`. What Rust code declares keeps its name, and so do the names that the prover makes. --show prints the
table and changes nothing.
"""
import collections
import glob
import re
import sys

TOKEN = re.compile(r"[^\s(){}\[\],;.\"λ∀`:|]+")
DEFINED = re.compile(r"^(\s*)(?:abbrev |unfoldable |data |record )?(pub )?(?:record |data )?([^\s(){}:,;.]+)(?: [({][^:]*)? : (.*)")
CONSTANT = re.compile(r"^[A-Z][A-Z0-9]*(-[A-Z0-9]+)*(-[a-z]+)?$")

# What the rules don't give. Of two names that would fall together, the lemma's ends with `_lem`.
BY_HAND = {
    "is_read": "is_read_lem",
    "its_own": "its_own_lem",
    "laid_out": "laid_out_lem",
    "to-hyp": "is_to_hyp",
    "to-monitor": "is_to_monitor",
    "Non-secure": "NonSecure",
    "Non-secure-not-Hyp": "NonSecureNotHyp",
}


def files(pattern):
    return sorted(p for p in glob.glob(pattern, recursive=True) if "/out/" not in p)


def read(path):
    with open(path, encoding="utf-8") as f:
        return f.read()


def definitions():
    """What each file of specs/ and proofs/ defines: names and fields, with the places of each, and what a name's type cites."""
    names, fields, said = collections.defaultdict(set), collections.defaultdict(set), collections.defaultdict(set)
    for path in files("crates/*/specs/**/*.antt") + files("crates/*/proofs/**/*.antt"):
        inside = None
        lines = read(path).splitlines()
        for at, line in enumerate(lines):
            bare = line.split("--")[0] if line.lstrip().startswith("--") else line
            if bare.strip() and not bare.startswith(" "):
                inside = "fields" if re.match(r"(abbrev )?(pub )?(record|data) ", bare) else None
                inside = "block" if bare.startswith("module _") else inside
            found = DEFINED.match(bare)
            if not found:
                continue
            indent, _, name, kind = found.groups()
            if path.endswith("/Proof.antt") and (kind.startswith("tie.Need") or name.startswith(("invariant-", "decreases-"))):
                continue
            if name.endswith("-spec") or name in ("_", "where"):
                continue
            if indent and inside == "fields":
                fields[name].add(path)
            elif not indent or inside == "block" or len(indent) == 4:
                names[name].add(path)
                said[name] |= set(TOKEN.findall(" ".join([kind] + lines[at + 1:at + 3])))
    return names, fields, said


def snake(name):
    return re.sub(r"(?<=[a-z0-9])([A-Z])(?=[a-z]|$|-|_|\d)", lambda m: "_" + m.group(1).lower(), name)


def constants_in(name, constants):
    """The name cut at its dashes, with each constant of the papers in one piece."""
    parts, out, i = name.split("-"), [], 0
    while i < len(parts):
        for j in range(len(parts), i, -1):
            whole = "-".join(parts[i:j])
            if j == i + 1 or whole in constants:
                out.append(whole.replace("-", "_") if whole in constants else snake(whole))
                i = j
                break
    return out


def table(names, fields, said):
    constants = {n for n in names if CONSTANT.match(n) and "-" in n}
    known = {snake(n).replace("-", "_") for n, at in names.items() if any("/specs/" in p for p in at)}
    known |= {"length", "take", "drop", "append", "get_or", "set", "sets", "replicate"}
    new = {}
    for n in set(names) | set(fields):
        if n in BY_HAND:
            new[n] = BY_HAND[n]
        elif n in constants:
            new[n] = n.replace("-", "_")
        elif "-" in n or re.search(r"[a-z0-9][A-Z]", n) and n[0].islower():
            parts = constants_in(n, constants)
            spec = n in fields or any("/specs/" in p for p in names[n])
            cited = known & {snake(t).replace("-", "_") for t in said[n]} | {"append"}
            out = parts[0]
            for a, b in zip(parts, parts[1:]):
                out += ("-" if not spec and a in cited and b in cited else "_") + b
            new[n] = out
    for names_of_one in together(new, names, fields).values():
        for n in names_of_one:
            if "-" in n and all("/proofs/" in p for p in names[n]):
                new[n] += "_lem"
    return {a: b for a, b in new.items() if a != b}


def together(new, names, fields):
    """Pairs of names that would be one."""
    out = collections.defaultdict(set)
    for n in set(names) | set(fields):
        out[new.get(n, n)].add(n)
    return {b: a for b, a in out.items() if len(a) > 1}


def respell_comment(text, new):
    """Only what is quoted or in camel case: other names are English words there."""
    camel = {a: b for a, b in new.items() if re.search(r"[a-z0-9][A-Z]", a)}
    parts = re.split(r"(`[^`\n]*`)", text)
    return "".join(respell_words(p, new if i % 2 else camel) for i, p in enumerate(parts))


def by_line(text, mark, of_code, of_comment):
    """Each line's code and its comment apart."""
    out = []
    for line in text.split("\n"):
        at = re.search(r"(?:^|(?<=\s))" + mark + r"(?=\s|$)", line)
        at = at.start() if at else len(line)
        out.append(of_code(line[:at]) + of_comment(line[at:]))
    return "\n".join(out)


def respell_antt(text, new, fields):
    modules = set(re.findall(r"^use \S+ as (\w+)$", text, re.MULTILINE)) - {"goal", "tie"}

    def token(m):
        t, of = m.group(), re.search(r"(\w*)\.$", m.string[max(0, m.start() - 40):m.start()])
        if t not in new or of and of.group(1) in ("goal", "tie"):
            return t
        if of and of.group(1) not in modules and t not in fields and not CONSTANT.match(t):
            return t
        return new[t]

    return by_line(text, "--", lambda t: TOKEN.sub(token, t), lambda t: respell_comment(t, new))


def respell_words(text, new):
    """Names in Rust's clauses and comments and in edits: only those that no code could have."""
    code = re.compile(r"[a-z0-9_]+$")
    return re.sub(r"[A-Za-z0-9_'-]+", lambda m: m.group() if code.match(m.group()) else new.get(m.group(), m.group()), text)


def respell_ghost(text, new):
    """A Rust file: its ghost lines, clauses and comments. Strings stay. A clause reads a constant of the code before one of a
    definition, so a definition's constant that would have the name of one in scope is brought in in small letters."""
    of_code = set(re.findall(r"const ([A-Z0-9_]+):", text))
    for line in re.findall(r"^use ([^;]*);", text, re.MULTILINE):
        of_code |= set(re.findall(r"\b[A-Z][A-Z0-9_]+\b", line))
    both = {n for n in set(re.findall(r"[A-Z][A-Z0-9-]*", text)) if "-" in n and new.get(n) in of_code}
    text = re.sub(
        r"^ghost use [^;]*;",
        lambda m: re.sub(r"[A-Z0-9-]+", lambda n: f"{new[n.group()]} as {new[n.group()].lower()}" if n.group() in both else n.group(), m.group()),
        text,
        flags=re.MULTILINE,
    )
    new = new | {n: new[n].lower() for n in both}
    strings = r'("(?:[^"\\\n]|\\.)*")'
    code = lambda t: "".join(p if p.startswith('"') else respell_words(p, new) for p in re.split(strings, t))
    return by_line(text, "//", code, lambda t: respell_comment(t, new))


def respell_edit(text, new):
    """An edit's two texts as what they are taken from, and its comments."""
    return by_line(text, "#", lambda t: by_line(t, "//", lambda c: respell_words(c, new), lambda c: respell_comment(c, new)), lambda t: respell_comment(t, new))


def main():
    names, fields, said = definitions()
    new = table(names, fields, said)
    for b, a in sorted(together(new, names, fields).items()):
        print("together:", b, "<-", ", ".join(sorted(a)), file=sys.stderr)
    if "--show" in sys.argv[1:]:
        for a in sorted(new):
            print(a, new[a])
        return
    changed = 0
    for pattern, how in [
        ("crates/*/specs/**/*.antt", lambda t: respell_antt(t, new, fields)),
        ("crates/*/proofs/**/*.antt", lambda t: respell_antt(t, new, fields)),
        ("crates/*/src/**/*.rt", lambda t: respell_ghost(t, new)),
        ("crates/*/must-fail/*.edit", lambda t: respell_edit(t, new)),
    ]:
        for path in files(pattern):
            before = read(path)
            after = how(before)
            if after != before:
                changed += 1
                with open(path, "w", encoding="utf-8") as f:
                    f.write(after)
    print(f"{len(new)} names, {changed} files")


main()
