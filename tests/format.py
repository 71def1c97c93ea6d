"""docs/FORMAT.md's drawn trace, put together in both layouts and judged; its numbers, and README's, by the header's.

    format.py CONSOLE...

CONSOLE is the console's command, of one word or several.
"""
import pathlib
import re
import subprocess
import sys
import tempfile

ROOT = pathlib.Path(__file__).resolve().parent.parent
PAGE = (ROOT / "docs/FORMAT.md").read_text()
HEADER = (ROOT / "host/pomurica.h").read_text()
README = (ROOT / "README.md").read_text()

ROW = re.compile(r"^ +(\d+)  ((?:[0-9A-F]{2} )+|00 x \d+) +(\S.*)", re.MULTILINE)

results = []


def check(holds, what):
    results.append(holds)
    print(("ok  " if holds else "FAILED  ") + what)


def bytes_of(cell):
    """The bytes of a row: pairs of digits, or so many zeros."""
    if " x " in cell:
        return bytes(int(cell.split(" x ")[1]))
    return bytes.fromhex(cell)


def drawn_trace():
    """The rows put together; None where a row does not stand at the byte that it names."""
    trace = b""
    for place, cell, _ in ROW.findall(PAGE):
        if int(place) != len(trace):
            return None
        trace += bytes_of(cell)
    return trace


def old_trace():
    """The same in the old layout, as the page says: other heads, and no row of place 44."""
    heads = re.search(r"it begins `(.*?)`, its Step `(.*?)`, and the two rows of place 44 are not\nthere", PAGE)
    rows = [bytes_of(cell) for _, cell, what in ROW.findall(PAGE) if not what.startswith("place 44")]
    step = next(i for i, (_, _, what) in enumerate(ROW.findall(PAGE)) if what.startswith("Step: ")) - 1
    for at, head in ((0, heads[1]), (step, heads[2])):
        rows[at:at + 2] = [bytes_of(head), b""]
    return b"".join(rows)


def judge(console, trace):
    with tempfile.NamedTemporaryFile() as file:
        file.write(trace)
        file.flush()
        done = subprocess.run([*console, file.name], capture_output=True, text=True, check=False)
    return done.returncode, done.stdout.removeprefix(file.name + ": ")


def constants():
    """The header's names with their numbers."""
    simple = re.findall(r"POMURICA_(\w+) = (0x\w+|\d+)", HEADER)
    shifted = re.findall(r"#define POMURICA_(\w+) \(UINT32_C\((\d+)\) << (\d+)\)", HEADER)
    found = {name: int(number, 0) for name, number in simple}
    found.update({name: int(bits) << int(shift) for name, bits, shift in shifted})
    return found


def bit_rows():
    """Word and bit names of the page's table of bits, with the mask of each."""
    table = PAGE.split("| Word | Bits")[1].split("\n\n")[0]
    for line in table.splitlines()[2:]:
        words, fields = [cell.strip() for cell in line.strip("|").split("|")]
        for field in fields.split(", "):
            name, span = field.rsplit(" ", 1)
            high, low = (span + "-" + span).split("-")[:2]
            for word in words.split(", "):
                yield word, name, (1 << int(high) + 1) - (1 << int(low))


def header_name(word, field):
    """CPSR and "IT[7:2]" give CPSR_IT_7_2; an SPSR has CPSR's bits, HSCTLR SCTLR's."""
    word = {"SPSR": "CPSR", "HSCTLR": "SCTLR"}.get(word, word)
    return word + "_" + re.sub(r"\W+", "_", field).strip("_").upper()


def check_places(numbers):
    names = []
    table = PAGE.split("| Places | Words |")[1].split("\n\n")[0]
    for line in table.splitlines()[2:]:
        cell = line.strip("|").split("|")[1].split(":")[0]
        names += [name.strip() for name in cell.split(",")]
    short = {"SCTLR of the Secure state": "SCTLR_S", "SCTLR of the Non-secure state": "SCTLR_NS",
             "VBAR of the Secure state": "VBAR_S", "VBAR of the Non-secure state": "VBAR_NS"}
    found = [numbers.get("PLACE_" + short.get(name, name).upper()) for name in names]
    check(found == list(range(numbers["PLACES"])), f"the {len(found)} places stand in the header's order")


def check_numbers():
    """The README's table of numbers against the header's, and against the names that the header tells them by."""
    numbers = re.findall(r"POMURICA_(\w+) = (\d+)", HEADER.split("enum pomurica_number {")[1].split("}")[0])
    named = dict(re.findall(r'case POMURICA_(\w+): return "(\w+)";', HEADER))
    rows = re.findall(r"^\| (\d+) (\w+)", README.split("## The numbers")[1].split("###")[0], re.MULTILINE)
    listed = list(dict.fromkeys((name, number) for number, name in rows))  # 0 DONE has two rows
    check(listed == numbers and [int(number) for _, number in numbers] == list(range(len(numbers))),
          f"the README has the header's numbers, 0 to {len(numbers) - 1}")
    check(named == {name: name for name, _ in numbers}, "and each has its name")


def check_records(numbers):
    """The table of records against the header's numbers."""
    rows = re.findall(r"^\| (Start|Step|End) \| (new|old|both) \| (\d+) \| (\d+) \| `(.*?)`", PAGE, re.MULTILINE)
    for record, layout, size, kind, head in rows:
        prefix, name = "OLD_" if layout == "old" else "", record.upper()
        due = numbers[f"{prefix}{name}_SIZE"], numbers[f"{prefix}KIND_{name}"]
        halves = b"".join(number.to_bytes(2, "little") for number in due)
        check((int(size), int(kind)) == due and bytes_of(head) == halves,
              f"length, kind and head of the {record}, {layout}")
    check(len(rows) == 5, "a Start and a Step of each layout, and an End")


def check_lines(numbers):
    """The lines of an interrupt check, of both layouts, and the sums of all."""
    row = re.search(r"^\| 9 \| interrupt check \| 0 to (\d+): .*? 0 to (\d+), ", PAGE, re.MULTILINE)
    check([int(most) for most in row.groups()] == [numbers["ALL_LINES"], numbers["OLD_ALL_LINES"]],
          "the most that lines add up to, in both layouts")
    told = re.findall(r"(\d+) ((?:virtual )?(?:SError|FIQ|IRQ))", row.string[row.start():].splitlines()[0])
    check([int(line) for line, _ in told] == [numbers["LINE_" + name.upper().replace(" ", "_")] for _, name in told]
          and len(told) == 5, f"the lines are the header's {told}")


def check_judged(console, name, trace, start, spsr):
    """A drawn trace is accepted, and refused without its SPSR_svc."""
    status, line = judge(console, trace)
    check(status == 0 and line.startswith("accepted, 1 Steps"), f"{name} is accepted, 1 Steps")
    status, line = judge(console, trace[:spsr] + b"\0" + trace[spsr + 1:])
    check(status == 1 and line == f"refused 11 WRONG_STEP at byte {start} after 0 Steps\n",
          "without its SPSR_svc it is refused")


def main():
    console = sys.argv[1:]
    trace, old = drawn_trace() or b"", old_trace()
    check(len(trace) == 400, "each drawn row stands at the byte that it names, 400 in all")
    check_judged(console, "the drawn trace", trace, 188, 324)
    check(len(old) == 392, "in the old layout it has 392 bytes")
    check_judged(console, "the drawn trace in the old layout", old, 184, 320)

    numbers = constants()
    check_records(numbers)
    rows = list(bit_rows())
    wrong = [row for row in rows if numbers.get(header_name(*row[:2]), 31 if row[1] == "mode" else None) != row[2]]
    check(len(rows) > 40 and not wrong, f"the {len(rows)} fields of the table of bits are the header's {wrong or ''}")
    check_places(numbers)
    check_numbers()
    check_lines(numbers)
    codes = re.findall(r"^\| (\d+) \| (.*?)[,:|]", PAGE.split("## The event")[1].split("## The answer")[0], re.MULTILINE)
    check([int(code) for code, _ in codes] == list(range(1, numbers["EVENT_RETURN"] + 1)), "the thirteen codes, in order")
    print(f"{sum(results)} passed, {len(results) - sum(results)} failed")
    return 0 if all(results) else 1


if __name__ == "__main__":
    sys.exit(main())
