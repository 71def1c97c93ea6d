/* The words of a script: see vocabulary.h. */
#include "vocabulary.h"

#include "phrases.h"
#include "pomurica.h"

#include <string.h>

#define COUNT_OF(array) (sizeof(array) / sizeof *(array))

enum {
    MOST_OPERANDS = 3,
    CELLS = 64 /* 32 * R + SYSm of a banked access */
};

static const struct event {
    const char *word;
    enum operand operands[MOST_OPERANDS + 1];
} EVENT_TABLE[] = {
    [0] = { "event", { CODE_NUMBER, A_NUMBER, B_NUMBER } },
    [POMURICA_EVENT_UNDEFINED] = { "undefined", { NO_OPERAND } },
    [POMURICA_EVENT_SVC] = { "svc", { NO_OPERAND } },
    [POMURICA_EVENT_SMC] = { "smc", { NO_OPERAND } },
    [POMURICA_EVENT_HVC] = { "hvc", { NO_OPERAND } },
    [POMURICA_EVENT_PREFETCH_ABORT] = { "prefetch-abort", { PREFETCH_FLAGS } },
    [POMURICA_EVENT_DATA_ABORT] = { "data-abort", { DATA_FLAGS } },
    [POMURICA_EVENT_HYP_TRAP] = { "hyp-trap", { NO_OPERAND } },
    [POMURICA_EVENT_MONITOR_TRAP] = { "monitor-trap", { NO_OPERAND } },
    [POMURICA_EVENT_INTERRUPT_CHECK] = { "interrupt", { LINE_FLAGS } },
    [POMURICA_EVENT_BANKED_READ] = { "read", { REGISTER } },
    [POMURICA_EVENT_BANKED_WRITE] = { "write", { REGISTER, NEW_WORD } },
    [POMURICA_EVENT_NOTE] = { "note", { PLACE, NEW_WORD } },
    [POMURICA_EVENT_RETURN] = { "return", { AMOUNT } },
};

static const char *const ABORT_TABLE[] = {
    [POMURICA_ABORT_EXTERNAL] = "external",
    [POMURICA_ABORT_STAGE_2] = "stage-2",
    [POMURICA_ABORT_DEBUG] = "debug",
};

static const char *const LINE_TABLE[] = {
    [POMURICA_LINE_SERROR] = "SError",
    [POMURICA_LINE_FIQ] = "FIQ",
    [POMURICA_LINE_IRQ] = "IRQ",
    [POMURICA_LINE_VIRTUAL_FIQ] = "virtual-FIQ",
    [POMURICA_LINE_VIRTUAL_IRQ] = "virtual-IRQ",
};

/* The amounts of the manual's returns; without a word nothing is taken off. */
static const char *const AMOUNT_TABLE[] = { [2] = "less-2", [4] = "less-4", [8] = "less-8" };

/* How --help shows an operand that is no flag and no amount. */
static const char *const OPERAND_TABLE[] = {
    [REGISTER] = "REGISTER", [PLACE] = "PLACE",  [NEW_WORD] = "NUMBER",
    [CODE_NUMBER] = "CODE",  [A_NUMBER] = "A",   [B_NUMBER] = "B",
};

static const char *event_word(uint32_t code)
{
    return EVENT_TABLE[code].word;
}

static const char *abort_word(uint32_t number)
{
    return ABORT_TABLE[number];
}

static const char *line_word(uint32_t number)
{
    return LINE_TABLE[number];
}

static const char *amount_word(uint32_t number)
{
    return AMOUNT_TABLE[number];
}

const struct words EVENTS = { "an event", COUNT_OF(EVENT_TABLE), event_word, 0 };
const struct words PLACES = { "a place of the block", POMURICA_PLACES, register_name, 0 };
const struct words REGISTERS = { "a banked register", CELLS, banked_name, 0 };
const struct words PREFETCH_ABORTS = { "a kind of Prefetch Abort", COUNT_OF(ABORT_TABLE), abort_word,
                                       POMURICA_ABORT_DEBUG };
const struct words DATA_ABORTS = { "a kind of Data Abort", POMURICA_ABORT_DEBUG, abort_word, 0 };
const struct words LINES = { "an interrupt line", COUNT_OF(LINE_TABLE), line_word, 0 };
const struct words AMOUNTS = { "an amount to take off LR", COUNT_OF(AMOUNT_TABLE), amount_word, 0 };

const enum operand *operands_of(uint32_t code)
{
    return EVENT_TABLE[code].operands;
}

bool find_word(const struct words *words, const char *text, size_t length, uint32_t *number)
{
    for (uint32_t i = 0; i < words->end; i++) {
        const char *const word = words->word(i);

        if (word != NULL && strlen(word) == length && memcmp(word, text, length) == 0) {
            *number = i;
            return true;
        }
    }
    return false;
}

/* A letter of ASCII as its small one, whatever the locale; and one sign for both that join words. */
static char plain(char sign)
{
    if (sign >= 'A' && sign <= 'Z')
        return (char)(sign - 'A' + 'a');
    return sign == '_' ? '-' : sign;
}

static bool is_alike(const char *word, const char *text, size_t length)
{
    if (word == NULL || strlen(word) != length)
        return false;
    while (length > 0 && plain(*word) == plain(*text)) {
        word++;
        text++;
        length--;
    }
    return length == 0;
}

const char *word_alike(const struct words *words, const char *text, size_t length)
{
    for (uint32_t i = 0; i < words->end; i++)
        if (is_alike(words->word(i), text, length))
            return words->word(i);
    return NULL;
}

static void tell_flags(FILE *out, const struct words *words)
{
    for (uint32_t i = 0; i < words->end; i++)
        if (words->word(i) != NULL && i != words->alone)
            fprintf(out, " [%s]", words->word(i));
    if (words->alone != 0)
        fprintf(out, " | %s", words->word(words->alone));
}

/* One of the words, or none of them. */
static void tell_choice(FILE *out, const struct words *words)
{
    const char *before = " [";

    for (uint32_t i = 0; i < words->end; i++)
        if (words->word(i) != NULL) {
            fprintf(out, "%s%s", before, words->word(i));
            before = "|";
        }
    fputc(']', out);
}

static void tell_operand(FILE *out, enum operand operand)
{
    if (operand == PREFETCH_FLAGS)
        tell_flags(out, &PREFETCH_ABORTS);
    else if (operand == DATA_FLAGS)
        tell_flags(out, &DATA_ABORTS);
    else if (operand == LINE_FLAGS)
        tell_flags(out, &LINES);
    else if (operand == AMOUNT)
        tell_choice(out, &AMOUNTS);
    else
        fprintf(out, " %s", OPERAND_TABLE[operand]);
}

static void tell_event_form(FILE *out, uint32_t code)
{
    if (event_word(code) == NULL)
        return;
    fprintf(out, "    %s", event_word(code));
    for (const enum operand *next = operands_of(code); *next != NO_OPERAND; next++)
        tell_operand(out, *next);
    fputc('\n', out);
}

/* The words of a list, as many on a line as have room. */
static void tell_words(FILE *out, const struct words *words)
{
    enum { WIDTH = 80 };
    const char *before = "   ";
    size_t column = WIDTH;

    for (uint32_t i = 0; i < words->end; i++) {
        const char *const word = words->word(i);

        if (word == NULL)
            continue;
        if (column + 1 + strlen(word) > WIDTH) {
            fputs(before, out);
            column = strlen("   ");
            before = "\n   ";
        }
        fprintf(out, " %s", word);
        column += 1 + strlen(word);
    }
    fputc('\n', out);
}

void tell_vocabulary(FILE *out)
{
    fputs("Events:\n\n", out);
    for (uint32_t code = 1; code < EVENTS.end; code++)
        tell_event_form(out, code);
    tell_event_form(out, 0);
    fputs("\nREGISTER, of a banked access:\n\n", out);
    tell_words(out, &REGISTERS);
    fputs("\nPLACE, a word of the block:\n\n", out);
    tell_words(out, &PLACES);
}
