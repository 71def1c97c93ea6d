# decisions: prints the decision table of one physical exception, sixteen lines of sixteen digits.
# decisions --header: the same as a C header, which host/decisions.h is. decisions --version: the version.
# Exit status 0 where the table was printed; 2 on usage, and where something could not be built or written.
#
# What ./decisions and the decisions of a release share. A script that sources it, behind tell.sh, has two functions: `ready`,
# before the program is first needed, and `start_program`.
# shellcheck shell=sh

usage() {
    echo 'usage: decisions [--header]' >&2
    echo '       decisions --version' >&2
    exit 2
}

# as_header: the digits on standard input as a C array, a line for each of theirs.
as_header() {
    cat <<'END'
/*
 * The decision table, for a test bench that has no room for the rules: whether
 * a physical exception alone is taken, and where it goes.
 *
 * Index, the lowest bit first: pending, its mask bit in CPSR (A, F, I), W (SCR.AW,
 * SCR.FW, for IRQ 1), M (HCR.AMO, FMO, IMO), HCR.TGE, R (SCR.EA, FIQ, IRQ), and
 * two bits of class: 0 Secure, 1 Non-secure User or EL1, 2 Hyp, 3 unused.
 *
 * Entry: 0 not taken, 1 to Monitor, 2 to Hyp, 3 to the default mode (Abort for
 * SError, FIQ, IRQ), 4 for class 3.
 *
 * Made by `./decisions --header`, from the proved table.
 */
#ifndef POMURICA_DECISIONS_H
#define POMURICA_DECISIONS_H

#include <stdint.h>

static const uint8_t pomurica_decisions[256] = {
END
    sed 's/./&, /g; s/^/    /; s/ *$//'
    printf '};\n\n#endif\n'
}

# print_table FILTER: the table, as the filter writes its lines.
print_table() {
    ready
    table=$(start_program) || give_up 'the program could not be run'
    [ "$(printf '%s\n' "$table" | grep -c '^[0-4]\{16\}$')" -eq 16 ] || give_up 'the program printed no table'
    table=$(printf '%s\n' "$table" | "$1")
    printf '%s\n' "$table" || give_up 'the table could not be written'
}

main() {
    case $#:${1-} in
    0:) print_table cat ;;
    1:--header) print_table as_header ;;
    1:--version) tell_version ;;
    *) usage ;;
    esac
}
