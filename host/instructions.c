/* Instruction words in logs: see instructions.h. */
#include "instructions.h"

#include "complain.h"
#include "log.h"
#include "name.h"
#include "output.h"
#include "phrases.h"
#include "pomurica.h"

#include <inttypes.h>
#include <stdint.h>
#include <stdio.h>
#include <string.h>

enum { MOST_DIGITS = 8 };

/* What stands behind the instruction's name for its condition, by Arm's mnemonics; nothing for always. */
static const char *const CONDITIONS[POMURICA_MOST_CONDITION + 1] = {
    "EQ", "NE", "CS", "CC", "MI", "PL", "VS", "VC", "HI", "LS", "GE", "LT", "GT", "LE", "",
};

/* A log, and its line at hand. */
struct reading {
    const char *name;
    bool has_word; /* the line begins with a word */
    uint32_t word;
    bool all_words; /* so did all that have a field */
};

static bool is_blank(char sign)
{
    return sign == ' ' || sign == '\t';
}

/* What a hexadecimal digit is, in any locale; above 15 for any other byte. */
static uint32_t value_of(char digit)
{
    if (digit >= '0' && digit <= '9')
        return (uint32_t)(digit - '0');
    if (digit >= 'a' && digit <= 'f')
        return (uint32_t)(digit - 'a' + 10);
    return digit >= 'A' && digit <= 'F' ? (uint32_t)(digit - 'A' + 10) : UINT32_MAX;
}

static bool take_word(const char *field, size_t length, uint32_t *word)
{
    const size_t prefix = length >= 2 && field[0] == '0' && (field[1] == 'x' || field[1] == 'X') ? 2 : 0;

    if (length == prefix || length - prefix > MOST_DIGITS)
        return false;
    *word = 0;
    for (size_t i = prefix; i < length; i++) {
        if (value_of(field[i]) > 15)
            return false;
        *word = *word << 4 | value_of(field[i]);
    }
    return true;
}

static void refuse_line(struct reading *reading, size_t line)
{
    send_output(); /* so that it stands behind what was told of the lines before, where both go to one place */
    complain(reading->name, "line %zu: the first field is no word of 1 to 8 hexadecimal digits", line);
    reading->all_words = false;
}

/* The word of a line, by its first piece: a field whose end is not in there is none. */
static void begin_line(struct reading *reading, const struct piece *piece)
{
    size_t first = 0, end;

    while (first < piece->length && is_blank(piece->text[first]))
        first++;
    for (end = first; end < piece->length && !is_blank(piece->text[end]);)
        end++;
    reading->has_word = (end < piece->length || piece->ends) && take_word(piece->text + first, end - first, &reading->word);
    if (!reading->has_word && (first < piece->length || !piece->ends))
        refuse_line(reading, piece->line);
}

/* Arm's words for the instruction, and then the event. */
static void tell_parts(FILE *out, const uint8_t *parts)
{
    const char *const condition = CONDITIONS[pomurica_get_word(parts, POMURICA_PARTS_CONDITION)];
    const uint32_t a = pomurica_get_word(parts, POMURICA_PARTS_A);
    const uint32_t general = pomurica_get_word(parts, POMURICA_PARTS_REGISTER);
    const char *const banked = banked_name(a) != NULL ? banked_name(a) : "unallocated";

    if (pomurica_get_word(parts, POMURICA_PARTS_CODE) == POMURICA_EVENT_BANKED_READ)
        fprintf(out, "MRS%s r%" PRIu32 ", %s: read %" PRIu32, condition, general, banked, a);
    else
        fprintf(out, "MSR%s %s, r%" PRIu32 ": write %" PRIu32, condition, banked, general, a);
}

static void tell_word(FILE *out, uint32_t word)
{
    uint8_t parts[POMURICA_PARTS_SIZE];
    const uint32_t number = pomurica_read_instruction(word, parts, sizeof parts);

    if (number == POMURICA_DONE)
        tell_parts(out, parts);
    else
        fputs(pomurica_number_name(number), out);
}

static void tell_piece(struct reading *reading, const struct piece *piece)
{
    if (piece->begins)
        begin_line(reading, piece);
    if (!reading->has_word)
        return;
    put_line(stdout, piece->text, piece->length);
    if (!piece->ends)
        return;
    fputs("  ", stdout);
    tell_word(stdout, reading->word);
    fputc('\n', stdout);
    reading->has_word = false;
}

/* Tells the lines of a log up to its end, or to where it cannot be read; gives 0, or why it cannot. */
static int tell_lines(struct reading *reading, struct log *log)
{
    struct piece piece;
    int reason;

    while ((reason = next_piece(log, &piece)) == 0 && piece.text != NULL)
        tell_piece(reading, &piece);
    if (reading->has_word) /* a line that was cut off; what is there of it stays alone */
        fputc('\n', stdout);
    send_output();
    return reason;
}

static bool tell_log(const char *name)
{
    struct reading reading = { .name = name, .all_words = true };
    struct log log;
    int reason = open_log(&log, name);

    if (reason == 0) {
        reason = tell_lines(&reading, &log);
        close_log(&log);
    }
    if (reason != 0)
        complain(name, "%s", strerror(reason));
    return reason == 0 && reading.all_words;
}

bool tell_instructions(char **files, size_t file_count)
{
    bool right = true;

    for (size_t i = 0; i < file_count; i++)
        right = tell_log(files[i]) && right;
    return right;
}
