/* A script: see script.h. */
#include "script.h"

#include "complain.h"
#include "input.h"
#include "token.h"
#include "vocabulary.h"

#include <stdlib.h>
#include <string.h>

/* The most bytes of a script: some 250 for each event of the longest, comments with them. */
#define MOST_BYTES ((size_t)16 * 1024 * 1024)

#define A_NUMBER_OF_32_BITS "a number, decimal or 0x and hexadecimal digits, of at most 32 bits"

/* A script being read into lists that have room. */
struct reading {
    struct reader reader;
    struct script *script;
    size_t given[POMURICA_PLACES]; /* the line that gives the word of a place, counted from 1; 0 for none */
};

/*
 * Words are spelled in one way, capitals too: a register then has one name in
 * every script, in the console's lines and in the manual, and can be searched
 * for.  Who spells it otherwise is told the right way.
 */
static bool refuse_word(const struct reader *reader, const struct token *token, const struct words *words)
{
    const char *const alike = word_alike(words, token->text, token->length);

    if (alike != NULL)
        return refuse(reader, token, "", "`%s`", alike);
    return refuse(reader, token, "", "%s (record --help lists them)", words->what);
}

static bool take_word(struct reader *reader, const struct words *words, uint32_t *number)
{
    struct token token;

    if (!take_token(reader, &token))
        return false;
    return find_word(words, token.text, token.length, number) || refuse_word(reader, &token, words);
}

/* One of the words, or the end of the line, which leaves the number as it is. */
static bool take_choice(struct reader *reader, const struct words *words, uint32_t *number)
{
    struct token token;

    if (!take_token(reader, &token))
        return false;
    return token.length == 0 || find_word(words, token.text, token.length, number) || refuse_word(reader, &token, words);
}

/* Whether a flag may not stand beside those before it. */
static bool is_too_many(const struct words *words, uint32_t before, uint32_t number)
{
    return before != 0 && ((before | number) & words->alone) != 0;
}

/* Any of the words, up to the end of the line; their numbers are bits of their own. */
static bool take_flags(struct reader *reader, const struct words *words, uint32_t *sum)
{
    struct token token;
    uint32_t number;

    while (take_token(reader, &token)) {
        if (token.length == 0)
            return true;
        if (!find_word(words, token.text, token.length, &number))
            return refuse_word(reader, &token, words);
        if (*sum & number)
            return refuse(reader, &token, " a second time", "each word at most once");
        if (is_too_many(words, *sum, number))
            return refuse(reader, &token, " beside another word", "`%s` alone", words->word(words->alone));
        *sum |= number;
    }
    return false;
}

/* What a digit says, in hexadecimal; 16 for what is none. */
static unsigned digit_of(char sign)
{
    static const char DIGITS[] = "0123456789abcdef0123456789ABCDEF";
    const char *const found = sign == '\0' ? NULL : strchr(DIGITS, sign);

    return found == NULL ? 16 : (unsigned)(found - DIGITS) % 16;
}

/* Digits and nothing else; a value that has more than 32 bits stays as large as they can say it is. */
static bool is_number(const char *digits, size_t length, unsigned base, uint64_t *value)
{
    *value = 0;
    for (size_t i = 0; i < length; i++) {
        if (digit_of(digits[i]) >= base)
            return false;
        if (*value <= UINT32_MAX)
            *value = base * *value + digit_of(digits[i]);
    }
    return length > 0;
}

/* Without a zero before a decimal number: to a C programmer 010 is eight. */
static bool take_number(struct reader *reader, uint32_t *number)
{
    struct token token;
    uint64_t value;
    bool is_hexadecimal;

    if (!take_token(reader, &token))
        return false;
    is_hexadecimal = token.length > 2 && memcmp(token.text, "0x", 2) == 0;
    if (!(is_hexadecimal ? is_number(token.text + 2, token.length - 2, 16, &value)
                         : is_number(token.text, token.length, 10, &value)))
        return refuse(reader, &token, "", A_NUMBER_OF_32_BITS);
    if (!is_hexadecimal && token.length > 1 && token.text[0] == '0')
        return refuse(reader, &token, "", "no zero before a decimal number, or 0x before a hexadecimal one");
    if (value > UINT32_MAX)
        return refuse(reader, &token, ", which has more than 32 bits", A_NUMBER_OF_32_BITS);
    *number = (uint32_t)value;
    return true;
}

static bool take_end(struct reader *reader)
{
    struct token token;

    return take_token(reader, &token) && (token.length == 0 || refuse(reader, &token, "", "the end of the line"));
}

/* `PLACE = NUMBER`, of which the place was taken. */
static bool take_block_word(struct reading *reading, const struct token *named, uint32_t place)
{
    struct reader *const reader = &reading->reader;
    struct token token;
    uint32_t word;

    if (reading->script->count > 0)
        return refuse(reader, named, " behind an event", "an event: the start block comes before the first one");
    if (reading->given[place] > 0)
        return refuse(reader, named, " a second time", "each word at most once, and line %zu gives it",
                      reading->given[place]);
    reading->given[place] = reader->line + 1;
    if (!take_token(reader, &token))
        return false;
    if (token.length != 1 || *token.text != '=')
        return refuse(reader, &token, "", "`=` and a number");
    if (!take_number(reader, &word))
        return false;
    pomurica_put_word(reading->script->block, place, word);
    return true;
}

static bool take_operand(struct reader *reader, enum operand operand, struct pomurica_event *event)
{
    switch (operand) {
    case PREFETCH_FLAGS: return take_flags(reader, &PREFETCH_ABORTS, &event->a);
    case DATA_FLAGS: return take_flags(reader, &DATA_ABORTS, &event->a);
    case LINE_FLAGS: return take_flags(reader, &LINES, &event->a);
    case REGISTER: return take_word(reader, &REGISTERS, &event->a);
    case PLACE: return take_word(reader, &PLACES, &event->a);
    case AMOUNT: return take_choice(reader, &AMOUNTS, &event->a);
    case CODE_NUMBER: return take_number(reader, &event->code);
    case A_NUMBER: return take_number(reader, &event->a);
    case NEW_WORD:
    case B_NUMBER: return take_number(reader, &event->b);
    case NO_OPERAND: break;
    }
    return true;
}

/* An event, of which the word was taken. */
static bool take_event(struct reading *reading, const struct token *named, uint32_t code)
{
    struct script *const script = reading->script;
    struct pomurica_event event = { .code = code };

    if (script->count == POMURICA_MOST_STEPS)
        return refuse(&reading->reader, named, " as one event more", "at most %d events", POMURICA_MOST_STEPS);
    for (const enum operand *next = operands_of(code); *next != NO_OPERAND; next++)
        if (!take_operand(&reading->reader, *next, &event))
            return false;
    script->events[script->count] = event;
    script->origins[script->count] = (struct origin){ reading->reader.line + 1, EVENTS.word(code) };
    script->count++;
    return true;
}

static bool take_line(struct reading *reading)
{
    struct reader *const reader = &reading->reader;
    struct token first;
    uint32_t number;

    if (!take_token(reader, &first))
        return false;
    if (first.length == 0)
        return true;
    if (find_word(&EVENTS, first.text, first.length, &number))
        return take_event(reading, &first, number) && take_end(reader);
    if (find_word(&PLACES, first.text, first.length, &number))
        return take_block_word(reading, &first, number) && take_end(reader);
    if (word_alike(&PLACES, first.text, first.length) != NULL)
        return refuse_word(reader, &first, &PLACES);
    if (word_alike(&EVENTS, first.text, first.length) != NULL || reading->script->count > 0)
        return refuse_word(reader, &first, &EVENTS);
    return refuse(reader, &first, "", "an event, or PLACE = NUMBER (record --help lists them)");
}

static bool take_lines(struct reading *reading)
{
    do
        if (!take_line(reading))
            return false;
    while (take_line_end(&reading->reader));
    return true;
}

/* No line has more than one event. */
static size_t most_events(const char *text, size_t length)
{
    size_t lines = 1;

    for (size_t i = 0; i < length; i++)
        lines += text[i] == '\n';
    return lines < POMURICA_MOST_STEPS ? lines : POMURICA_MOST_STEPS;
}

static bool refuse_memory(const char *name, size_t size)
{
    complain(name, "no memory for %zu bytes", size);
    return false;
}

static bool read_text(struct script *script, const char *name, const char *text, size_t length)
{
    const size_t room = most_events(text, length);
    struct reading reading = { .script = script };

    *script = (struct script){ .events = calloc(room, sizeof *script->events),
                               .origins = calloc(room, sizeof *script->origins) };
    if (script->events == NULL || script->origins == NULL) {
        free_script(script);
        return refuse_memory(name, room * (sizeof *script->events + sizeof *script->origins));
    }
    begin_reading(&reading.reader, name, text, length);
    if (take_lines(&reading))
        return true;
    free_script(script);
    return false;
}

/* One byte more than a script may have shows that it has more; it also has room for the zero behind the text. */
bool read_script(struct script *script, const char *name)
{
    const size_t room = MOST_BYTES + 1;
    char *const text = malloc(room);
    size_t length = 0;
    bool is_read = false;
    int reason;

    if (text == NULL)
        return refuse_memory(name, room);
    reason = read_file(name, (uint8_t *)text, room, &length);
    if (reason != 0) {
        complain(name, "%s", strerror(reason));
    } else if (length > MOST_BYTES) {
        complain(name, "more than %zu bytes, which no script has", MOST_BYTES);
    } else {
        text[length] = '\0';
        is_read = read_text(script, name, text, length);
    }
    free(text);
    return is_read;
}

void free_script(struct script *script)
{
    free(script->events);
    free(script->origins);
}
