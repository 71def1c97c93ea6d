"""
The decision table of No. 4 of document 02, with its No. 5, from the masking
table and the routing sentence of document 01, written from the papers alone.
It shares nothing with step.c: it is a third way to the same 256 entries.

    python3 decisions.py
"""

# No. 4: "two bits of class: 0 Secure, 1 Non-secure User or EL1, 2 Hyp, 3 unused".
SECURE, NOT_HYP, HYP, UNUSED = range(4)

# No. 4: "Entry: 0 not taken, 1 Monitor, 2 Hyp, 3 the default mode, 4 for class 3".
NOT_TAKEN, TO_MONITOR, TO_HYP, TO_DEFAULT, NO_CLASS = range(5)

# The interrupt check: the cells of the table, each as what it lets in.
NON_SECURE = NOT_HYP, HYP
ANY = 0, 1

# The interrupt check: the last column of the table.
IGNORED, OBEYED = range(2)

# The interrupt check: the table.  "Non-secure, not Hyp" is class 1.
MASKING = (
    # State       M     R     W     PSTATE mask bit
    ((SECURE,),   ANY,  ANY,  ANY,  OBEYED),
    (NON_SECURE,  (0,), (0,), ANY,  OBEYED),
    (NON_SECURE,  (0,), (1,), (0,), IGNORED),
    (NON_SECURE,  (0,), (1,), (1,), OBEYED),
    ((NOT_HYP,),  (1,), ANY,  ANY,  IGNORED),
    ((HYP,),      (1,), (0,), ANY,  OBEYED),
    ((HYP,),      (1,), (1,), ANY,  IGNORED),
)


def mask_bit_of(state, m, r, w):
    """The interrupt check: what the row that fits says; any number of rows but one is an error."""
    (said,) = (row[4] for row in MASKING if state in row[0] and m in row[1] and r in row[2] and w in row[3])
    return said


def target_of(state, m, tge, r):
    """The interrupt check: "Routing"."""
    if r:  # "Monitor if R"
        return TO_MONITOR
    if state == HYP:  # "else Hyp if the mode is Hyp"
        return TO_HYP
    if state in NON_SECURE and (tge or m):  # "or if Non-secure with TGE or M"
        return TO_HYP
    return TO_DEFAULT  # "else Abort, FIQ, IRQ mode"


def entry_of(index):
    """No. 4: "Index, low bit first: pending, mask bit, W, M, TGE, R, then two bits of class"."""
    pending, mask, w, m, tge, r = (index >> bit & 1 for bit in range(6))
    state = index >> 6
    if state == UNUSED:
        return NO_CLASS
    if not pending:
        return NOT_TAKEN
    if mask and mask_bit_of(state, m | tge, r, w) == OBEYED:  # No. 5: "the stored bit or TGE"
        return NOT_TAKEN
    return target_of(state, m, tge, r)


def main():
    """No. 4: "sixteen digits a line, sixteen lines, in index order"."""
    for first in range(0, 256, 16):
        print("".join(str(entry_of(index)) for index in range(first, first + 16)))


if __name__ == "__main__":
    main()
