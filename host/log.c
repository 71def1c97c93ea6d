/* The lines of a log: see log.h. */
#include "log.h"

#include "output.h"

#include <stdint.h>
#include <string.h>

/* What some editors put before text in UTF-8. */
static const char MARK[] = "\xEF\xBB\xBF";

/* The last bytes of a full room may be of a character, or of the end of a line, that is not there whole. */
enum { HELD_BACK = 4 };

int open_log(struct log *log, const char *name)
{
    log->at = log->length = log->line = 0;
    log->within = log->ended = false;
    return open_input(&log->input, name);
}

void close_log(struct log *log)
{
    close_input(&log->input);
}

/* Brings more text behind what has not been given; there is room for some. */
static int fill(struct log *log)
{
    size_t got;
    int reason;

    memmove(log->text, log->text + log->at, log->length - log->at);
    log->length -= log->at;
    log->at = 0;
    send_output();
    reason = read_piece(&log->input, (uint8_t *)log->text + log->length, LOG_ROOM - log->length, &got);
    log->length += got;
    log->text[log->length] = '\0';
    log->ended = got == 0;
    return reason;
}

/* The next piece is the text up to here; behind it `skipped` bytes end the line. */
static void give(struct log *log, struct piece *piece, size_t end, size_t skipped)
{
    piece->text = log->text + log->at;
    piece->length = end - log->at;
    piece->begins = !log->within;
    piece->ends = true;
    log->line += piece->begins;
    piece->line = log->line;
    log->within = false;
    log->at = end + skipped;
}

/* A line up to here, where it ends; a CR is of its end. */
static void give_line(struct log *log, struct piece *piece, size_t end, size_t skipped)
{
    const bool has_cr = end > log->at && log->text[end - 1] == '\r';

    give(log, piece, end - has_cr, skipped + has_cr);
}

static bool goes_on(char byte)
{
    return ((unsigned char)byte & 0xC0) == 0x80;
}

/* As much of a line that fills the room as is whole: neither a character nor the end of the line may be cut. */
static void give_part(struct log *log, struct piece *piece)
{
    size_t end = log->length - HELD_BACK;

    while (end > log->length - 2 * HELD_BACK && goes_on(log->text[end]))
        end--;
    give(log, piece, end, 0);
    piece->ends = false;
    log->within = true;
}

static void skip_mark(struct piece *piece)
{
    const size_t mark = strlen(MARK);

    if (piece->line != 1 || !piece->begins || piece->length < mark || memcmp(piece->text, MARK, mark) != 0)
        return;
    piece->text += mark;
    piece->length -= mark;
}

/* Where the line that begins here ends, if that is there yet; else NULL. */
static const char *line_end(const struct log *log)
{
    return memchr(log->text + log->at, '\n', log->length - log->at);
}

int next_piece(struct log *log, struct piece *piece)
{
    int reason = 0;

    *piece = (struct piece){ .text = NULL };
    while (line_end(log) == NULL && log->length - log->at < LOG_ROOM && !log->ended && reason == 0)
        reason = fill(log);
    if (reason != 0)
        return reason;
    if (line_end(log) != NULL)
        give_line(log, piece, (size_t)(line_end(log) - log->text), 1);
    else if (!log->ended)
        give_part(log, piece);
    else if (log->length > log->at)
        give_line(log, piece, log->length, 0);
    skip_mark(piece);
    return 0;
}
