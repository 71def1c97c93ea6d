/* Text as tokens: see token.h. */
#include "token.h"

#include "name.h"

#include <stdarg.h>
#include <stdio.h>
#include <string.h>

/* Of a longer token so much is told. */
enum { MOST_TOLD = 40 };

/* What some editors put before text in UTF-8. */
static const char MARK[] = "\xEF\xBB\xBF";

void begin_reading(struct reader *reader, const char *name, const char *text, size_t length)
{
    const size_t mark = strncmp(text, MARK, strlen(MARK)) == 0 ? strlen(MARK) : 0;

    *reader = (struct reader){ .name = name, .text = text, .length = length };
    reader->at = reader->line_start = reader->behind = mark;
}

/* A line ends with LF, with CR and LF, or with the text. */
static bool is_at_line_end(const struct reader *reader)
{
    const char *const at = reader->text + reader->at;

    return reader->at == reader->length || at[0] == '\n' || (at[0] == '\r' && at[1] == '\n');
}

static bool is_blank(char sign)
{
    return sign == ' ' || sign == '\t';
}

/* The signs of a token other than `=`. */
static bool is_sign(char sign)
{
    return sign > ' ' && sign < 0x7F && sign != '#' && sign != '=';
}

/* Columns count bytes, from 1. */
static void tell_place(const struct reader *reader, size_t at)
{
    put_name(stderr, reader->name);
    fprintf(stderr, ":%zu:%zu: ", reader->line + 1, at - reader->line_start + 1);
}

static bool refuse_byte(const struct reader *reader, const char *due)
{
    tell_place(reader, reader->at);
    fprintf(stderr, "found byte 0x%02X; expected %s\n", (unsigned)(unsigned char)reader->text[reader->at], due);
    return false;
}

static bool skip_comment(struct reader *reader)
{
    while (!is_at_line_end(reader)) {
        const bool is_tab = reader->text[reader->at] == '\t';
        const size_t size = is_tab ? 1 : shown_size(reader->text + reader->at);

        if (size == 0)
            return refuse_byte(reader, "a comment of characters that are shown, in UTF-8");
        reader->at += size;
    }
    return true;
}

static void skip_token(struct reader *reader)
{
    if (reader->text[reader->at] == '=')
        reader->at++;
    else
        while (is_sign(reader->text[reader->at]))
            reader->at++;
}

/* Whether a token may stand right before what is here. */
static bool is_apart(const struct reader *reader)
{
    const char sign = reader->text[reader->at];

    return is_at_line_end(reader) || is_blank(sign) || is_sign(sign) || sign == '#' || sign == '=';
}

bool take_token(struct reader *reader, struct token *token)
{
    size_t first;

    while (is_blank(reader->text[reader->at]))
        reader->at++;
    if (reader->text[reader->at] == '#' && !skip_comment(reader))
        return false;
    *token = (struct token){ reader->text + reader->behind, 0 };
    if (is_at_line_end(reader))
        return true;
    first = reader->at;
    skip_token(reader);
    if (reader->at == first || !is_apart(reader))
        return refuse_byte(reader, "ASCII text, outside of comments");
    reader->behind = reader->at;
    *token = (struct token){ reader->text + first, reader->at - first };
    return true;
}

bool take_line_end(struct reader *reader)
{
    if (reader->at == reader->length)
        return false;
    reader->at += reader->text[reader->at] == '\r' ? 2 : 1;
    reader->line++;
    reader->line_start = reader->behind = reader->at;
    return true;
}

static void tell_token(const struct token *token)
{
    if (token->length == 0)
        fputs("found the end of the line", stderr);
    else if (token->length > MOST_TOLD)
        fprintf(stderr, "found `%.*s..`", MOST_TOLD, token->text);
    else
        fprintf(stderr, "found `%.*s`", (int)token->length, token->text);
}

bool refuse(const struct reader *reader, const struct token *token, const char *why, const char *form, ...)
{
    va_list rest;

    tell_place(reader, (size_t)(token->text - reader->text));
    tell_token(token);
    fprintf(stderr, "%s; expected ", why);
    va_start(rest, form);
    vfprintf(stderr, form, rest);
    va_end(rest);
    fputc('\n', stderr);
    return false;
}
