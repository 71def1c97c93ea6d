/*
 * The instruction words behind the header against others: every instruction
 * with each word that differs from it in one bit, all parts in their ranges and
 * around them, buffers of every size, and words and parts of chance.  Number,
 * every byte and guard bytes; what is read is written back, and what is written
 * is read back.
 *
 *     compare_instructions [MILLIONS SEED]
 *     compare_instructions --all
 *
 * With --all each of the 2^32 words, and nothing else.  The others are the
 * second implementation's, unless OTHER_READ and OTHER_WRITE say otherwise.
 * Prints how often each thing was met and fails where one was met too seldom.
 */
#include "encoding.h"
#include "group.h"
#include "pomurica.h"

#include "../second/words.h"

#include <inttypes.h>
#include <stdio.h>
#include <stdlib.h>
#include <string.h>

/* Unless the compiler is told plain_read_instruction and plain_write_instruction. */
#ifndef OTHER_READ
#define OTHER_READ second_read_instruction
#define OTHER_WRITE second_write_instruction
#endif

read_function OTHER_READ;
write_function OTHER_WRITE;

/* Unless the arguments say otherwise. */
#define MILLIONS 5
#define SEED 1

enum {
    WORD_BITS = 32,
    SELDOM = 1000 /* how often each thing is met in a million words and as many parts, at least */
};

/* No. 14: the two pages: the bits that make a word one of them, its should-be bits, and where its register lies. */
static const struct page {
    const char *name;
    uint32_t code, mask, bits, should_mask, should_bits, register_bit;
} PAGES[] = {
    { "MRS", CODE_BANKED_READ, 0x0FB002F0, 0x01000200, 0x00000C0F, 0x00000000, 12 },
    { "MSR", CODE_BANKED_WRITE, 0x0FB002F0, 0x01200200, 0x0000FC00, 0x0000F000, 0 },
};
enum {
    PAGE_COUNT = sizeof PAGES / sizeof PAGES[0]
};

/* What a word of a page is counted as: the first of these that it is. */
enum word_kind {
    INSTRUCTION, CONDITION_15, REGISTER_15, ONE_BIT_BROKEN, MORE_WRONG,
    WORD_KINDS
};
static const char *const WORD_KIND_NAMES[WORD_KINDS] = {
    [INSTRUCTION] = "an instruction", [CONDITION_15] = "condition 15 alone", [REGISTER_15] = "register 15 alone",
    [ONE_BIT_BROKEN] = "one should-be bit alone", [MORE_WRONG] = "more than one of these",
};

/* What parts are counted as. */
enum parts_kind {
    ALL_IN_RANGE, WRONG_CODE, WRONG_A, WRONG_CONDITION, WRONG_REGISTER, SEVERAL_WRONG,
    PARTS_KINDS
};
static const char *const PARTS_KIND_NAMES[PARTS_KINDS] = {
    [ALL_IN_RANGE] = "parts: all in range", [WRONG_CODE] = "parts: the code alone is wrong", [WRONG_A] = "parts: A alone is wrong",
    [WRONG_CONDITION] = "parts: the condition alone is wrong", [WRONG_REGISTER] = "parts: the register alone is wrong",
    [SEVERAL_WRONG] = "parts: several are wrong",
};

/* How often each thing was met by chance. */
static struct {
    unsigned long word[PAGE_COUNT][WORD_KINDS], other_word;
    unsigned long broken[PAGE_COUNT][WORD_BITS]; /* this should-be bit alone */
    unsigned long parts[PARTS_KINDS];
    unsigned long read_size, write_size; /* BAD_SIZE */
} met;

/* ----------------------------------------------------------- What is met */

static bool is_one_bit(uint32_t bits)
{
    return bits != 0 && (bits & (bits - 1)) == 0;
}

static enum word_kind word_kind_of(const struct page *page, uint32_t word)
{
    const uint32_t broken = (word & page->should_mask) ^ page->should_bits;
    const bool condition = word >> 28 == 0xF, reg = (word >> page->register_bit & 0xF) == 0xF;

    if (broken == 0 && !condition)
        return reg ? REGISTER_15 : INSTRUCTION;
    if (broken == 0 && !reg)
        return CONDITION_15;
    return is_one_bit(broken) && !condition && !reg ? ONE_BIT_BROKEN : MORE_WRONG;
}

/* Of MRS and of MSR, no word is both. */
static const struct page *page_of(uint32_t word)
{
    for (size_t i = 0; i < PAGE_COUNT; i++) {
        if ((word & PAGES[i].mask) == PAGES[i].bits)
            return &PAGES[i];
    }
    return NULL;
}

static bool is_instruction(uint32_t word)
{
    const struct page *page = page_of(word);

    return page != NULL && word_kind_of(page, word) == INSTRUCTION;
}

static void meet_word(uint32_t word)
{
    const struct page *page = page_of(word);

    if (page == NULL) {
        met.other_word++;
        return;
    }
    met.word[page - PAGES][word_kind_of(page, word)]++;
    if (word_kind_of(page, word) != ONE_BIT_BROKEN)
        return;
    for (uint32_t bit = 0; bit < WORD_BITS; bit++)
        met.broken[page - PAGES][bit] += ((word & page->should_mask) ^ page->should_bits) >> bit & 1;
}

static enum parts_kind parts_kind_of(const struct parts *parts)
{
    const bool wrong[] = {
        [WRONG_CODE] = parts->code != CODE_BANKED_READ && parts->code != CODE_BANKED_WRITE,
        [WRONG_A] = parts->a >= ALL_A,
        [WRONG_CONDITION] = parts->condition >= ALL_CONDITIONS,
        [WRONG_REGISTER] = parts->reg >= ALL_REGISTERS,
    };
    enum parts_kind kind = ALL_IN_RANGE;

    for (enum parts_kind one = WRONG_CODE; one <= WRONG_REGISTER; one++) {
        if (wrong[one])
            kind = kind == ALL_IN_RANGE ? one : SEVERAL_WRONG;
    }
    return kind;
}

/* ------------------------------------------------------------- One call */

/* Whether a call left nothing but zeros. */
static bool is_zero(const struct encoded *encoded)
{
    static const uint8_t ZEROS[PARTS_SIZE];

    return memcmp(bytes_of(&encoded->bytes), ZEROS, encoded->bytes.length) == 0;
}

/* What a refusal leaves: of BAD_SIZE all, of NOT_BANKED nothing. */
static bool is_left_so(const struct encoded *encoded)
{
    if (encoded->number == DONE)
        return true;
    return encoded->number == BAD_SIZE ? is_unchanged(&encoded->bytes) : is_zero(encoded);
}

/* What is wrong with a call behind the header, the other's beside it; NULL for nothing. */
static const char *fault_of(const struct encoded *ours, const struct encoded *theirs, uint32_t due)
{
    const char *difference = encoding_difference(ours, theirs);

    if (difference != NULL)
        return difference;
    if (ours->number != due)
        return "the number is not the one due";
    return is_left_so(ours) ? NULL : "refused, and the bytes are not as they should be";
}

/* Whether both read the word alike; ours is then what the one behind the header did. */
static bool agree_on_word(uint32_t word, size_t parts_len, struct encoded *ours)
{
    const uint32_t due = parts_len != PARTS_SIZE ? BAD_SIZE : is_instruction(word) ? DONE : NOT_BANKED;
    struct encoded theirs;
    const char *fault;

    call_read(pomurica_read_instruction, word, parts_len, ours);
    call_read(OTHER_READ, word, parts_len, &theirs);
    fault = fault_of(ours, &theirs, due);
    return check(fault == NULL, "word %08" PRIX32 ": %s; number %" PRIu32 ", the other %" PRIu32, word,
                 fault == NULL ? "alike" : fault, ours->number, theirs.number);
}

/* The same of writing. */
static bool agree_on_parts(const struct parts *parts, size_t word_len, struct encoded *ours)
{
    const uint32_t due = word_len != WORD_SIZE ? BAD_SIZE : parts_kind_of(parts) == ALL_IN_RANGE ? DONE : NOT_BANKED;
    struct encoded theirs;
    const char *fault;

    call_write(pomurica_write_instruction, parts, word_len, ours);
    call_write(OTHER_WRITE, parts, word_len, &theirs);
    fault = fault_of(ours, &theirs, due);
    return check(fault == NULL,
                 "parts %" PRIu32 " %" PRIu32 " %" PRIu32 " %" PRIu32 ": %s; number %" PRIu32 ", the other %" PRIu32,
                 parts->code, parts->a, parts->condition, parts->reg, fault == NULL ? "alike" : fault, ours->number,
                 theirs.number);
}

static struct parts parts_of(const struct encoded *read)
{
    const uint8_t *const bytes = bytes_of(&read->bytes);

    return (struct parts){ get_word(bytes), get_word(bytes + 4), get_word(bytes + 8), get_word(bytes + 12) };
}

/* A word that is read is written back identically; whether it is read. */
static bool compare_word(uint32_t word)
{
    struct encoded read, written;
    struct parts parts;

    if (!agree_on_word(word, PARTS_SIZE, &read) || read.number != DONE)
        return false;
    parts = parts_of(&read);
    return agree_on_parts(&parts, WORD_SIZE, &written) &&
           check(written.number == DONE && get_word(bytes_of(&written.bytes)) == word, "word %08" PRIX32 ": is not written back",
                 word);
}

/* Reading what was written gives the same parts; whether it is written. */
static bool compare_parts(const struct parts *parts)
{
    struct encoded written, read;
    struct parts back;
    uint32_t word;

    if (!agree_on_parts(parts, WORD_SIZE, &written) || written.number != DONE)
        return false;
    word = get_word(bytes_of(&written.bytes));
    if (!agree_on_word(word, PARTS_SIZE, &read))
        return false;
    back = parts_of(&read);
    return check(read.number == DONE && memcmp(&back, parts, sizeof back) == 0, "word %08" PRIX32 ": is not read back", word);
}

/* --------------------------------------------------- Every one, and near */

/* Each instruction's word, as the one behind the header writes it, and each word that differs from it in a bit. */
static void compare_every_instruction(void)
{
    /* A bit of A always leads to another; one of a condition or of a register in all but 4 of its 60 ways, those to 15. */
    const unsigned long near_due = ALL_INSTRUCTIONS * 6 + 2 * ALL_CODES * ALL_A * 15 * (60 - 4);
    unsigned long read = 0, near = 0;

    for (uint32_t i = 0; i < ALL_INSTRUCTIONS; i++) {
        const struct parts parts = nth_parts(i);
        struct encoded written;
        uint32_t word;

        if (!compare_parts(&parts))
            continue;
        call_write(pomurica_write_instruction, &parts, WORD_SIZE, &written);
        word = get_word(bytes_of(&written.bytes));
        read += compare_word(word);
        for (uint32_t bit = 0; bit < WORD_BITS; bit++)
            near += compare_word(word ^ UINT32_C(1) << bit);
    }
    printf("  %lu words of instructions are read, and %lu of the %lu that differ in a bit\n", read, near,
           (unsigned long)ALL_INSTRUCTIONS * WORD_BITS);
    check(read == ALL_INSTRUCTIONS && near == near_due, "not %d and %lu", ALL_INSTRUCTIONS, near_due);
}

/* Number i of those to try as a part: from 0 up to somewhat more than its range has, and then far above it. */
static const uint32_t FAR[] = { 0x100, 0x10000, 0x40000000, 0x80000000, 0xFFFFFFF0, UINT32_MAX };
enum {
    ABOVE = 3,
    FAR_COUNT = sizeof FAR / sizeof FAR[0]
};

/* Far above, the low bits are of a part that is in its range. */
static uint32_t tried(uint32_t i, uint32_t range, uint32_t good)
{
    return i < range + ABOVE ? i : FAR[i - range - ABOVE] | good;
}

static void compare_box(void)
{
    const uint32_t codes = CODE_BANKED_WRITE + 1, more = ABOVE + FAR_COUNT;
    unsigned long written = 0;
    struct parts parts;

    for (uint32_t code = 0; code < codes + more; code++)
        for (uint32_t a = 0; a < ALL_A + more; a++)
            for (uint32_t condition = 0; condition < ALL_CONDITIONS + more; condition++)
                for (uint32_t reg = 0; reg < ALL_REGISTERS + more; reg++) {
                    parts.code = tried(code, codes, CODE_BANKED_READ);
                    parts.a = tried(a, ALL_A, 5);
                    parts.condition = tried(condition, ALL_CONDITIONS, 14);
                    parts.reg = tried(reg, ALL_REGISTERS, 2);
                    written += compare_parts(&parts);
                }
    printf("  %lu of %lu parts are written\n", written,
           (unsigned long)(codes + more) * (ALL_A + more) * (ALL_CONDITIONS + more) * (ALL_REGISTERS + more));
    check(written == ALL_INSTRUCTIONS, "not %d", ALL_INSTRUCTIONS);
}

/* Of every length, and no buffer at all; a word that is read and one that is not, parts that are written and not. */
static void compare_sizes(void)
{
    const struct parts good = { CODE_BANKED_READ, 0, 14, 2 }, bad = { CODE_NOTE, 0, 14, 2 };
    struct encoded ours;

    for (size_t size = 0; size <= LONGEST_TRIED; size++) {
        agree_on_word(0xE1002200, size, &ours);
        agree_on_word(0xE1002201, size, &ours);
        agree_on_parts(&good, size, &ours);
        agree_on_parts(&bad, size, &ours);
    }
    check(pomurica_read_instruction(0xE1002200, NULL, 0) == BAD_SIZE, "no parts");
    check(pomurica_write_instruction(good.code, good.a, good.condition, good.reg, NULL, 0) == BAD_SIZE, "no word");
}

/* --------------------------------------------------------------- Chance */

static void compare_random_word(struct chance *chance)
{
    const uint32_t word = any_instruction_word(chance);
    const size_t size = any_size(chance, PARTS_SIZE);
    struct encoded ours;

    if (size != PARTS_SIZE) {
        met.read_size += agree_on_word(word, size, &ours);
        return;
    }
    meet_word(word);
    compare_word(word);
}

static void compare_random_parts(struct chance *chance)
{
    const struct parts parts = any_parts(chance);
    const size_t size = any_size(chance, WORD_SIZE);
    struct encoded ours;

    if (size != WORD_SIZE) {
        met.write_size += agree_on_parts(&parts, size, &ours);
        return;
    }
    met.parts[parts_kind_of(&parts)]++;
    compare_parts(&parts);
}

static void show(const char *name, unsigned long times, unsigned long seldom)
{
    printf("  %-40s %9lu\n", name, times);
    check(times >= seldom, "%s: met %lu times, fewer than %lu", name, times, seldom);
}

static void show_page(size_t page, unsigned long seldom)
{
    char name[64];

    for (size_t kind = 0; kind < WORD_KINDS; kind++) {
        snprintf(name, sizeof name, "%s: %s", PAGES[page].name, WORD_KIND_NAMES[kind]);
        show(name, met.word[page][kind], seldom);
    }
    for (uint32_t bit = 0; bit < WORD_BITS; bit++) {
        snprintf(name, sizeof name, "%s: should-be bit %" PRIu32, PAGES[page].name, bit);
        if ((PAGES[page].should_mask >> bit & 1) != 0)
            show(name, met.broken[page][bit], seldom);
    }
}

static void show_met(unsigned long millions)
{
    const unsigned long seldom = SELDOM * millions;

    for (size_t page = 0; page < PAGE_COUNT; page++)
        show_page(page, seldom);
    show("neither MRS nor MSR", met.other_word, seldom);
    for (size_t kind = 0; kind < PARTS_KINDS; kind++)
        show(PARTS_KIND_NAMES[kind], met.parts[kind], seldom);
    show("BAD_SIZE: parts", met.read_size, seldom);
    show("BAD_SIZE: word", met.write_size, seldom);
}

static void compare_some(unsigned long millions, uint64_t seed)
{
    struct chance chance = { .seed = seed };

    printf("%lu million words and as many parts of chance, seed %" PRIu64 "\n", millions, seed);
    group("every instruction, and each word that differs in a bit");
    compare_every_instruction();
    group("all parts in their ranges and around them");
    compare_box();
    group("buffers of every size");
    compare_sizes();
    group("words and parts of chance, side by side");
    for (unsigned long i = 0; i < millions * 1000000; i++) {
        compare_random_word(&chance);
        compare_random_parts(&chance);
    }
    group("every kind of word and of parts met often enough");
    show_met(millions);
}

/* ------------------------------------------------------------ All words */

/* Parts between guard bytes, in little room, since there are 2^32 calls. */
struct narrow {
    uint8_t before[PARTS_SIZE], parts[PARTS_SIZE], behind[PARTS_SIZE];
};
#define GUARD_BYTE 0xA5

static uint32_t read_narrow(read_function *read, uint32_t word, struct narrow *narrow)
{
    memset(narrow, GUARD_BYTE, sizeof *narrow);
    return read(word, narrow->parts, sizeof narrow->parts);
}

static bool are_guards_kept(const struct narrow *narrow)
{
    return memcmp(narrow->before, narrow->behind, sizeof narrow->before) == 0 && narrow->before[0] == GUARD_BYTE &&
           memcmp(narrow->before, narrow->before + 1, sizeof narrow->before - 1) == 0;
}

/* Read alike on both sides, by the number due; what is refused leaves zeros. */
static bool is_read_alike(uint32_t word, uint32_t *number)
{
    static const uint8_t ZEROS[PARTS_SIZE];
    struct narrow ours, theirs;

    *number = read_narrow(pomurica_read_instruction, word, &ours);
    return read_narrow(OTHER_READ, word, &theirs) == *number && *number == (is_instruction(word) ? DONE : NOT_BANKED) &&
           memcmp(&ours, &theirs, sizeof ours) == 0 && are_guards_kept(&ours) &&
           (*number == DONE || memcmp(ours.parts, ZEROS, sizeof ours.parts) == 0);
}

/* So many words from one on; how many of them are read. */
static unsigned long compare_stretch(uint32_t from, uint32_t count)
{
    unsigned long read = 0;

    for (uint32_t i = 0; i < count; i++) {
        const uint32_t word = from + i;
        uint32_t number;

        if (!is_read_alike(word, &number))
            check(false, "word %08" PRIX32 ": not alike; number %" PRIu32, word, number);
        else if (number == DONE)
            read += compare_word(word);
    }
    return read;
}

static void compare_all(void)
{
    const uint32_t stretches = 64, count = UINT32_C(1) << 26; /* together 2^32 */
    unsigned long read = 0;

    group("each of the 4,294,967,296 words");
    for (uint32_t i = 0; i < stretches; i++) {
        read += compare_stretch(i * count, count);
        printf("  %2" PRIu32 " of %" PRIu32 " stretches, %lu words are read\n", i + 1, stretches, read);
        fflush(stdout);
    }
    printf("of 4294967296 words %lu are read, and each is written back identically\n", read);
    check(read == ALL_INSTRUCTIONS, "not %d", ALL_INSTRUCTIONS);
}

int main(int argc, char **argv)
{
    if (argc == 2 && strcmp(argv[1], "--all") == 0)
        compare_all();
    else
        compare_some(argc > 1 ? strtoul(argv[1], NULL, 10) : MILLIONS, argc > 2 ? strtoull(argv[2], NULL, 10) : SEED);
    return summary();
}
