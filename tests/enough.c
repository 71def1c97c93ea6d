#include "enough.h"

#include "group.h"
#include "met.h"
#include "phrases.h"
#include "pomurica.h"

#include <inttypes.h>
#include <limits.h>
#include <stdio.h>
#include <string.h>

/* How often each thing is met in a million steps, at least; and each cell where a table has many. */
#define SELDOM 250
#define SELDOM_OF_MANY 20

/* The same in all the steps there were. */
static unsigned long seldom, seldom_of_many;

/* Prints one count and checks that it is not too small. */
static void show(const char *name, unsigned long times)
{
    printf("  %-30s %9lu\n", name, times);
    check(times >= seldom, "%s: met %lu times, fewer than %lu", name, times, seldom);
}

/* A cell of a table that nothing can fill. */
#define NO_CELL ULONG_MAX

static void show_heads(const char *what, const char *const *columns, size_t count)
{
    printf("\n  %-12s", what);
    for (size_t i = 0; i < count; i++)
        printf(" %11s", columns[i]);
    printf("\n");
}

/* Prints a row of counts, then checks that none is too small. */
static void show_row_of(unsigned long least, const char *name, const char *const *columns, const unsigned long *times,
                        size_t count)
{
    printf("  %-12s", name);
    for (size_t i = 0; i < count; i++)
        times[i] == NO_CELL ? printf(" %11s", "") : printf(" %11lu", times[i]);
    printf("\n");
    for (size_t i = 0; i < count; i++)
        check(times[i] >= least, "%s, %s: met %lu times, fewer than %lu", name, columns[i], times[i], least);
}

static void show_row(const char *name, const char *const *columns, const unsigned long *times, size_t count)
{
    show_row_of(seldom, name, columns, times, count);
}

/* A table of what things came to: how its ends are named, a letter for each, and how often each cell is met at least. */
struct ends {
    const char *const *columns;
    size_t count;
    const char *letters;
    unsigned long least;
};

/* Prints a row, given as the times of all ends, cell by cell; then checks that each cell ended as due, and often enough. */
static void show_ends(const struct ends *table, const char *name, const char *due, const unsigned long *times)
{
    const size_t ends = strlen(table->letters);

    printf("  %-12s", name);
    for (size_t i = 0; i < table->count; i++)
        printf(" %9lu %c", times[i * ends + (size_t)(strchr(table->letters, due[i]) - table->letters)], due[i]);
    printf("\n");
    for (size_t i = 0; i < table->count; i++)
        for (size_t end = 0; end < ends; end++)
            check(due[i] == table->letters[end] ? times[i * ends + end] >= table->least : times[i * ends + end] == 0,
                  "%s, %s: %c %lu times", name, table->columns[i], table->letters[end], times[i * ends + end]);
}

#define COUNT(columns) (sizeof(columns) / sizeof((columns)[0]))

static void show_numbers(void)
{
    char name[64];

    for (uint32_t number = 0; number < STEP_NUMBERS; number++) {
        snprintf(name, sizeof name, "number %" PRIu32 " %s", number, pomurica_number_name(number));
        if (is_of_step(number))
            show(name, met.number[number]);
        else
            check(met.number[number] == 0, "%s: met %lu times", name, met.number[number]);
    }
    printf("  %-30s %9lu\n", "steps", met.steps);
    check(2 * met.done >= met.steps, "%lu of %lu steps done, fewer than half", met.done, met.steps);
}

static void show_taken(void)
{
    static const char *const WHICH[WHICH_COUNT] = {
        "taken: synchronous", "taken: SError", "taken: FIQ", "taken: IRQ",
        "taken: virtual SError by VA", "taken: virtual FIQ by VF", "taken: virtual IRQ by VI",
    };
    static const char *const MASKING[ROWS] = {
        "Secure", "Non-secure, M 0, R 0", "Non-secure, M 0, R 1, W 0", "Non-secure, M 0, R 1, W 1",
        "Non-secure, not Hyp, M 1", "Hyp, M 1, R 0", "Hyp, M 1, R 1",
    };

    for (uint32_t which = 0; which < WHICH_COUNT; which++)
        show(WHICH[which], met.which[which]);
    show("nothing taken", met.nothing_taken);
    for (uint32_t row = 0; row < ROWS; row++)
        show(MASKING[row], met.row[row]);
    show("not Hyp, M by TGE alone", met.by_tge_alone[4]);
    show("Hyp, R 0, M by TGE alone", met.by_tge_alone[5]);
    show("Hyp, R 1, M by TGE alone", met.by_tge_alone[6]);
}

/* By the bits of which each is 1 (enum virtual_bits). */
static void show_virtual(void)
{
    static const char *const COLUMNS[VIRTUAL_BITS] = {
        "none", "M", "source", "M source", "mask", "M mask", "source mask", "all three",
    };
    static const char *const NAMES[VIRTUALS] = { "SError", "FIQ", "IRQ" };
    const struct ends table = { COLUMNS, VIRTUAL_BITS, "nt", seldom }; /* as enum virtual_end */

    printf("\n  virtual exceptions by M (AMO, FMO, IMO), their source (VA, VF, VI) and their mask bit: n not taken, t taken");
    show_heads("virtual", COLUMNS, VIRTUAL_BITS);
    for (uint32_t i = 0; i < VIRTUALS; i++)
        show_ends(&table, NAMES[i], "nnntnnnn", met.virtual[i][0]);
}

static void show_retired(void)
{
    static const char *const COLUMNS[OTHER_LINES] = {
        "none", "SError", "FIQ", "SError FIQ", "IRQ", "SError IRQ", "FIQ IRQ", "all three",
    };
    static const char *const NAMES[RETIRED] = { "virtual FIQ", "virtual IRQ", "both" };
    const struct ends table = { COLUMNS, OTHER_LINES, "ek", seldom }; /* as enum retired_end */

    printf("\n  checks with a virtual line, by the others beside it: e BAD_EVENT, k known");
    show_heads("line", COLUMNS, OTHER_LINES);
    for (uint32_t i = 0; i < RETIRED; i++)
        show_ends(&table, NAMES[i], "eeeeeeee", met.retired[i][0]);
}

static void show_ways(void)
{
    static const char *const WAY[WAYS] = {
        [SMC_BY_TSC] = "SMC to Hyp by TSC",
        [PREFETCH_ABORT_BY_EA] = "Prefetch Abort to Monitor",
        [DATA_ABORT_BY_EA] = "Data Abort to Monitor",
        [STAGE_2_BY_EA] = "stage 2 to Monitor",
        [STAGE_2_TO_HYP] = "stage 2 to Hyp",
        [UNDEFINED_BY_TGE] = "Undefined to Hyp by TGE",
        [SVC_BY_TGE] = "SVC to Hyp by TGE",
        [PREFETCH_ABORT_BY_TGE] = "Prefetch Abort to Hyp by TGE",
        [DATA_ABORT_BY_TGE] = "Data Abort to Hyp by TGE",
        [INTERRUPT_BY_TGE] = "interrupt to Hyp by TGE",
        [DEBUG_TO_HYP] = "debug abort to Hyp",
    };

    for (uint32_t way = 0; way < WAYS; way++)
        show(WAY[way], met.way[way]);
}

/* By the bits of which each is 1 (enum call_bits). */
static void show_calls(void)
{
    static const char *const COLUMNS[CALL_BITS] = { "none", "HCE", "SCD", "SCD HCE", "TSC", "TSC HCE", "TSC SCD", "all three" };
    static const char *const KINDS[CALL_KINDS] = { "SMC from", "HVC from" };
    static const char *const NAMES[CALLERS] = { "User", "Monitor", "Secure", "NS EL1", "Hyp" };
    static const char *const DUE[CALL_KINDS][CALLERS] = {
        { "nnnnnnnn", "ttddttdd", "ttddttdd", "ttddhhhh", "ttddttdd" },
        { "nnnnnnnn", "nnnnnnnn", "nnnnnnnn", "dtdtdtdt", "dtdtdtdt" },
    };
    const struct ends table = { COLUMNS, CALL_BITS, "nthd", seldom }; /* as enum call_end */

    printf("\n  calls by SCR.HCE, SCR.SCD and HCR.TSC: n NOT_HERE, t taken, h trapped to Hyp, d DISABLED");
    for (uint32_t kind = 0; kind < CALL_KINDS; kind++) {
        show_heads(KINDS[kind], COLUMNS, CALL_BITS);
        for (uint32_t caller = 0; caller < CALLERS; caller++)
            show_ends(&table, NAMES[caller], DUE[kind][caller], met.call[kind][caller][0]);
    }
}

/* The mode of a saved word: one of the nine, reserved with bit 4 set, or any with bit 4 clear. */
enum {
    RESERVED = MODE_COUNT, BIT_4_CLEAR,
    SAVED_MODES
};
static const char *const SAVED_MODE[SAVED_MODES] = {
    "0x10", "0x11", "0x12", "0x13", "0x16", "0x17", "0x1A", "0x1B", "0x1F", "reserved", "bit 4 clear",
};

static uint32_t column_of(uint32_t mode)
{
    for (uint32_t i = 0; i < MODE_COUNT; i++)
        if (MODES[i] == mode)
            return i;
    return mode < MODE_USER ? BIT_4_CLEAR : RESERVED;
}

/* By the manual's list of illegal returns, in the order of SAVED_MODE. */
static const char *due_of_return(uint32_t mode, uint32_t ns, uint32_t tge)
{
    if (ns == 0) /* at EL3; Hyp is not there, and TGE plays no part */
        return "llllllillii";
    if (mode == MODE_MONITOR)
        return tge == 0 ? "lllllllllii" : "liiililiiii";
    if (mode == MODE_HYP)
        return tge == 0 ? "llllillllii" : "liiiiiliiii";
    return "llllilillii";
}

/* From Hyp there is NS 1 alone, from Non-secure EL1 TGE 0 alone. */
static bool is_of_good_block(uint32_t mode, uint32_t ns, uint32_t tge)
{
    if (mode == MODE_HYP)
        return ns == 1;
    return mode == MODE_USER || mode == MODE_MONITOR || ns == 0 || tge == 0;
}

/* With TDE 0 and with TDE 1, in this order. */
static const char *due_of_debug(uint32_t mode, uint32_t ns, uint32_t tge)
{
    if (mode == MODE_HYP)
        return "oo";
    if (ns == 0 || mode == MODE_MONITOR)
        return "aa";
    return tge == 1 ? "hh" : "ah";
}

static void show_debug_from(uint32_t mode, uint32_t ns, uint32_t tge)
{
    static const char *const COLUMNS[] = { "TDE 0", "TDE 1" };
    const struct ends table = { COLUMNS, COUNT(COLUMNS), "aho", seldom }; /* as enum debug_end */
    char name[32];

    if (!is_of_good_block(mode, ns, tge))
        return;
    snprintf(name, sizeof name, "0x%" PRIX32 ", %" PRIu32 ", %" PRIu32, mode, ns, tge);
    show_ends(&table, name, due_of_debug(mode, ns, tge), met.debug[mode][ns][tge][0]);
}

/* From every mode, with NS, TGE and TDE as they can be. */
static void show_debugs(void)
{
    static const char *const COLUMNS[] = { "TDE 0", "TDE 1" };
    static const char *const NOTES[] = { "TDE set", "TDE cleared" };

    printf("\n  debug aborts from a mode, with NS and TGE, by TDE: a to Abort, h to Hyp at 0x14, o in Hyp at 0x0C");
    show_heads("from", COLUMNS, COUNT(COLUMNS));
    for (uint32_t i = 0; i < MODE_COUNT; i++)
        for (uint32_t ns = 0; ns <= 1; ns++)
            for (uint32_t tge = 0; tge <= 1; tge++)
                show_debug_from(MODES[i], ns, tge);
    show("debug and external", met.beside_debug[ABORT_EXTERNAL]);
    show("debug of stage 2", met.beside_debug[ABORT_STAGE_2]);
    show("debug and both", met.beside_debug[ABORT_EXTERNAL | ABORT_STAGE_2]);
    show_heads("", NOTES, COUNT(NOTES));
    show_row("note on HDCR", NOTES, met.note_on_hdcr, COUNT(NOTES));
}

static void show_returns_from(uint32_t mode, uint32_t ns, uint32_t tge)
{
    const struct ends table = { SAVED_MODE, SAVED_MODES, "li", seldom_of_many }; /* as enum return_end */
    unsigned long times[SAVED_MODES][RETURN_ENDS] = { { 0 } };
    char name[32];

    if (!is_of_good_block(mode, ns, tge))
        return;
    for (uint32_t saved = 0; saved < MODE_NUMBERS; saved++)
        for (uint32_t end = 0; end < RETURN_ENDS; end++)
            times[column_of(saved)][end] += met.returns.to[mode][ns][tge][saved][end];
    snprintf(name, sizeof name, "0x%" PRIX32 ", %" PRIu32 ", %" PRIu32, mode, ns, tge);
    show_ends(&table, name, due_of_return(mode, ns, tge), times[0]);
}

/* Each number that is none of the nine modes, from wherever. */
static void check_reserved(void)
{
    for (uint32_t saved = 0; saved < MODE_NUMBERS; saved++) {
        unsigned long times = 0;

        for (uint32_t mode = 0; mode < MODE_NUMBERS; mode++)
            for (uint32_t i = 0; i < 4; i++)
                times += met.returns.to[mode][i / 2][i % 2][saved][ILLEGAL];
        check(column_of(saved) < MODE_COUNT || times >= seldom_of_many, "return to 0x%02" PRIX32 ": met %lu times", saved,
              times);
    }
}

/* From every mode that has an SPSR, with NS and TGE as they can be, to every mode and to none. */
static void show_returns(void)
{
    printf("\n  returns from a mode, with NS and TGE, by the saved mode: l legal, i illegal");
    show_heads("from", SAVED_MODE, SAVED_MODES);
    for (uint32_t i = 0; i < SAVING_COUNT; i++)
        for (uint32_t ns = 0; ns <= 1; ns++)
            for (uint32_t tge = 0; tge <= 1; tge++)
                show_returns_from(SAVINGS[i].mode, ns, tge);
    check_reserved();
}

/* What they leave: IL and IT of the saved word, and the address, by T. */
static void show_returned(void)
{
    static const char *const ENDS[RETURN_ENDS] = { "legal", "illegal" };
    static const char *const FIELDS[] = { "IL 0, IT 0", "IL 0, IT", "IL 1, IT 0", "IL 1, IT" };
    static const char *const ADDRESSES[] = {
        "T 0, ..00", "T 0, ..01", "T 0, ..10", "T 0, ..11", "T 1, ..00", "T 1, ..01", "T 1, ..10", "T 1, ..11",
    };
    static const char *const WRAPPED[] = { "A 2", "A 4", "A 8" };
    const unsigned long wrapped[] = { met.returns.wrapped[2], met.returns.wrapped[4], met.returns.wrapped[8] };

    show_heads("return", FIELDS, COUNT(FIELDS));
    for (uint32_t end = 0; end < RETURN_ENDS; end++)
        show_row(ENDS[end], FIELDS, met.returns.fields[end][0], COUNT(FIELDS));
    show_heads("address", ADDRESSES, COUNT(ADDRESSES));
    for (uint32_t end = 0; end < RETURN_ENDS; end++)
        show_row(ENDS[end], ADDRESSES, met.returns.address[end][0], COUNT(ADDRESSES));
    show_heads("", WRAPPED, COUNT(WRAPPED));
    show_row("LR below A", WRAPPED, wrapped, COUNT(WRAPPED));
}

/* What the operands alone come to, from each mode; User and System have no SPSR. */
static const char *due_of_operands(uint32_t mode)
{
    if (mode == MODE_USER || mode == MODE_SYSTEM)
        return "neneneeeneee";
    return mode == MODE_HYP ? "reeeeeeeeeee" : "rerereeereee";
}

static void show_return_operands(void)
{
    static const char *const COLUMNS[RETURN_OPERANDS] = {
        "A 0", "A 1", "A 2", "A 3", "A 4", "A 5", "A 6", "A 7", "A 8", "A 9", "A above", "B not 0",
    };
    const struct ends table = { COLUMNS, RETURN_OPERANDS, "ren", seldom_of_many }; /* as enum operand_end */

    printf("\n  returns by their operands: r done, e BAD_EVENT, n NOT_HERE");
    show_heads("from", COLUMNS, RETURN_OPERANDS);
    for (uint32_t i = 0; i < MODE_COUNT; i++)
        show_ends(&table, mode_name(MODES[i]), due_of_operands(MODES[i]), met.returns.operand[MODES[i]][0]);
}

/* A saved word that has one of bits 24-21, and nothing goes before it. */
static void show_bad_saved(void)
{
    static const char *const COLUMNS[SAVED_BITS] = { "bit 21", "bit 22", "bit 23", "bit 24" };

    show_heads("SPSR of", COLUMNS, SAVED_BITS);
    for (uint32_t i = 0; i < SAVING_COUNT; i++)
        show_row_of(seldom_of_many, mode_name(SAVINGS[i].mode), COLUMNS, met.returns.bit[SAVINGS[i].mode], SAVED_BITS);
    show("such an SPSR, and A is wrong", met.returns.before[WRONG_A]);
    show("such an SPSR, and B is wrong", met.returns.before[WRONG_B]);
}

/* Of Hyp and Monitor there is no V, and an entry to Hyp clears no NS. */
static void show_targets(void)
{
    static const uint32_t TARGETS[] = {
        MODE_FIQ, MODE_IRQ, MODE_SUPERVISOR, MODE_ABORT, MODE_UNDEFINED, MODE_MONITOR, MODE_HYP,
    };
    static const char *const COLUMNS[] = { "entries", "NS cleared", "high, NS 0", "high, NS 1" };

    show_heads("target", COLUMNS, COUNT(COLUMNS));
    for (size_t i = 0; i < COUNT(TARGETS); i++) {
        const uint32_t mode = TARGETS[i];
        const bool has_v = mode != MODE_MONITOR && mode != MODE_HYP;
        const unsigned long times[] = {
            met.target[mode],
            mode != MODE_HYP ? met.ns_cleared[mode] : NO_CELL,
            has_v ? met.high[mode][0] : NO_CELL,
            has_v ? met.high[mode][1] : NO_CELL,
        };

        show_row(mode_name(mode), COLUMNS, times, COUNT(COLUMNS));
    }
}

/* A note on SCR spoils a block by NS alone, one on HCR by TGE alone. */
static void show_notes(void)
{
    static const char *const WORDS[STEERING_WORDS] = { "note on CPSR", "note on SCR", "note on HCR" };
    static const enum fault FIRST[STEERING_WORDS] = { NO_MODE, HYP_WITHOUT_NS, EL1_UNDER_TGE };
    static const char *const COLUMNS[FAULTS] = { "no mode", "bits 24-21", "Hyp, NS 0", "EL1, TGE" };
    unsigned long times[FAULTS];

    show_heads("refused", COLUMNS, FAULTS);
    for (uint32_t word = 0; word < STEERING_WORDS; word++) {
        for (uint32_t fault = 0; fault < FAULTS; fault++)
            times[fault] = fault >= FIRST[word] ? met.spoilt[word][fault] : NO_CELL;
        show_row(WORDS[word], COLUMNS, times, FAULTS);
    }
}

/* Of B one bit, all 32 together; the one that was met least is checked too. */
static unsigned long bits_of(uint32_t code)
{
    unsigned long all = 0;

    for (uint32_t bit = 0; bit < BITS; bit++) {
        all += met.b_bit[code][bit];
        check(met.b_bit[code][bit] >= seldom_of_many, "code %" PRIu32 ", B bit %" PRIu32 ": met %lu times, fewer than %lu",
              code, bit, met.b_bit[code][bit], seldom_of_many);
    }
    return all;
}

static void show_operands(void)
{
    static const char *const COLUMNS[] = { "A largest", "A one above", "B one bit" };
    char name[16];

    show_heads("", COLUMNS, COUNT(COLUMNS));
    for (uint32_t code = 1; code < CODES; code++) {
        const unsigned long times[] = { met.largest[code], met.above[code], bits_of(code) };

        snprintf(name, sizeof name, "code %" PRIu32, code);
        show_row(name, COLUMNS, times, COUNT(COLUMNS));
    }
}

static void show_pairs(void)
{
    static const char *const COLUMNS[MODE_COUNT] = { "0x10", "0x11", "0x12", "0x13", "0x16", "0x17", "0x1A", "0x1B", "0x1F" };
    unsigned long times[MODE_COUNT];
    char name[16];

    show_heads("from mode", COLUMNS, MODE_COUNT);
    for (uint32_t code = 1; code < CODES; code++) {
        for (uint32_t i = 0; i < MODE_COUNT; i++)
            times[i] = met.judged[code][MODES[i]];
        snprintf(name, sizeof name, "code %" PRIu32, code);
        show_row(name, COLUMNS, times, MODE_COUNT);
    }
}

/* The modes that have registers of their own by name; those of User are System's, which alone has a right that can be denied. */
static const struct {
    uint32_t mode;
    const char *suffix;
} OWNERS[] = {
    { MODE_FIQ, "_fiq" }, { MODE_IRQ, "_irq" }, { MODE_SUPERVISOR, "_svc" }, { MODE_MONITOR, "_mon" },
    { MODE_ABORT, "_abt" }, { MODE_HYP, "_hyp" }, { MODE_UNDEFINED, "_und" }, { MODE_SYSTEM, "_usr" },
};

static bool ends_in(const char *name, const char *suffix)
{
    return strcmp(name + strlen(name) - strlen(suffix), suffix) == 0;
}

/* Whether a mode reaches the register by another instruction: by Figure F5-1 of source 004, where it has none of its own usr's. */
static bool is_own(const char *name, uint32_t mode)
{
    const bool general = name[0] == 'R' && ends_in(name, "_usr");

    if (strcmp(name, "ELR_hyp") == 0)
        return false;
    if (general)
        return mode != MODE_USER && mode != MODE_FIQ;
    for (size_t i = 0; i < COUNT(OWNERS); i++)
        if (OWNERS[i].mode == mode && ends_in(name, OWNERS[i].suffix))
            return true;
    return mode == MODE_HYP && strcmp(name, "LR_usr") == 0;
}

/* What came of the accesses to one cell from one mode and NS: of both kinds, often enough, and always the same. */
static enum right right_of(uint32_t a, uint32_t mode, uint32_t ns)
{
    static const char *const NAMES[RIGHTS] = { "allowed", "denied", "its own", "no register" };
    const unsigned long (*times)[ACCESSES] = met.right[a][mode][ns];
    const enum right right = banked_name(a) == NULL                 ? EMPTY
                             : is_own(banked_name(a), mode)         ? OWN
                             : times[ALLOWED][BANKED_READ] != 0     ? ALLOWED
                                                                    : DENIED;

    for (uint32_t i = 0; i < RIGHTS; i++)
        for (uint32_t access = 0; access < ACCESSES; access++)
            check(i == right ? times[i][access] >= seldom_of_many : times[i][access] == 0,
                  "A %" PRIu32 " %s from mode 0x%02" PRIX32 ", NS %" PRIu32 ": %s %lu times", a,
                  access == BANKED_READ ? "read" : "written", mode, ns,
                  NAMES[i], times[i][access]);
    return right;
}

/* A row by mode and NS, checked before it is printed; from Hyp there is NS 1 alone. */
static void show_rights_of(uint32_t a)
{
    char row[256] = "";
    size_t length = 0;

    for (uint32_t i = 0; i < MODE_COUNT; i++)
        for (uint32_t ns = MODES[i] == MODE_HYP ? 1 : 0; ns <= 1; ns++) {
            const enum right right = right_of(a, MODES[i], ns);
            const unsigned long *times = met.right[a][MODES[i]][ns][right];

            length += (size_t)snprintf(row + length, sizeof row - length, "%5lu%c", times[BANKED_READ] + times[BANKED_WRITE],
                                       right == DENIED ? '-' : right == OWN ? 'o' : ' ');
        }
    if (banked_name(a) != NULL)
        printf("  %2" PRIu32 " %-8s%s\n", a, banked_name(a), row);
}

/* Cells that hold no register are checked, and not shown. */
static void show_rights(void)
{
    printf("\n  banked accesses by mode, each with NS 0 and 1; - where the right is denied, o where the register is its own\n  %-11s", "A");
    for (uint32_t i = 0; i < MODE_COUNT; i++)
        printf(MODES[i] == MODE_HYP ? " 0x%02X " : "    0x%02X    ", MODES[i]);
    printf("\n");
    for (uint32_t a = 0; a < CELLS; a++)
        show_rights_of(a);
}

void show_met(unsigned long millions)
{
    seldom = SELDOM * millions;
    seldom_of_many = SELDOM_OF_MANY * millions;
    show_numbers();
    show_taken();
    show_virtual();
    show_retired();
    show_ways();
    show_calls();
    show_debugs();
    show_returns();
    show_returned();
    show_return_operands();
    show_bad_saved();
    show_targets();
    show_notes();
    show_operands();
    show_pairs();
    show_rights();
}
