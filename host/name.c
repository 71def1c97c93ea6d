/* Names and lines as text that is nothing else: see name.h. */
#include "name.h"

#include <stdbool.h>
#include <stddef.h>
#include <string.h>

/* Puts one character, of so many bytes, that may be shown. */
typedef void put_character(FILE *out, const unsigned char *at, size_t size);

/* What moves the text around it: the ends of a line and of a paragraph, and the twelve bidirectional controls. */
static const char *const MOVING[] = {
    u8"\u2028", u8"\u2029",
    u8"\u061C", u8"\u200E", u8"\u200F", u8"\u202A", u8"\u202B", u8"\u202C", u8"\u202D", u8"\u202E",
    u8"\u2066", u8"\u2067", u8"\u2068", u8"\u2069",
};

#define COUNT_OF(array) (sizeof(array) / sizeof *(array))

/*
 * The bytes of the UTF-8 character that begins here, 0 where none does.  The
 * bounds of the second byte leave out the controls above 0x7F, what has a
 * shorter form, surrogates, and what lies behind the last character.
 */
static size_t character_size(const unsigned char *at)
{
    const unsigned least = at[0] == 0xC2 || at[0] == 0xE0 ? 0xA0 : at[0] == 0xF0 ? 0x90 : 0x80;
    const unsigned most = at[0] == 0xED ? 0x9F : at[0] == 0xF4 ? 0x8F : 0xBF;
    const size_t size = at[0] < 0xE0 ? 2 : at[0] < 0xF0 ? 3 : 4;

    if (at[0] < 0x80)
        return at[0] >= 0x20 && at[0] != 0x7F;
    if (at[0] < 0xC2 || at[0] > 0xF4 || at[1] < least || at[1] > most)
        return 0;
    for (size_t i = 2; i < size; i++)
        if (at[i] < 0x80 || at[i] > 0xBF)
            return 0;
    return size;
}

/* Each of them has several bytes. */
static bool is_moving(const unsigned char *at, size_t size)
{
    if (size <= 1)
        return false;
    for (size_t i = 0; i < COUNT_OF(MOVING); i++)
        if (strlen(MOVING[i]) == size && memcmp(at, MOVING[i], size) == 0)
            return true;
    return false;
}

size_t shown_size(const char *text)
{
    const unsigned char *const at = (const unsigned char *)text;
    const size_t size = character_size(at);

    return is_moving(at, size) ? 0 : size;
}

/* A byte that begins no character to be shown is skipped alone, and so are those behind it, which begin none either. */
static void put_each(FILE *out, const char *text, const char *end, put_character *put)
{
    while (text < end) {
        const size_t size = shown_size(text);

        if (size != 0)
            put(out, (const unsigned char *)text, size);
        else
            fputc('?', out);
        text += size != 0 ? size : 1;
    }
}

static void put_plain(FILE *out, const unsigned char *at, size_t size)
{
    fwrite(at, 1, size, out);
}

static void put_escaped(FILE *out, const unsigned char *at, size_t size)
{
    switch (at[0]) {
    case '&': fputs("&amp;", out); break;
    case '<': fputs("&lt;", out); break;
    case '>': fputs("&gt;", out); break;
    case '"': fputs("&quot;", out); break;
    case '\'': fputs("&#39;", out); break;
    default: put_plain(out, at, size); break;
    }
}

void put_name(FILE *out, const char *name)
{
    put_each(out, name, name + strlen(name), put_plain);
}

void put_name_in_page(FILE *out, const char *name)
{
    put_each(out, name, name + strlen(name), put_escaped);
}

/* From tab to tab: none of them is within a character. */
void put_line(FILE *out, const char *text, size_t length)
{
    const char *const end = text + length;

    for (const char *tab; (tab = memchr(text, '\t', (size_t)(end - text))) != NULL; text = tab + 1) {
        put_each(out, text, tab, put_plain);
        fputc('\t', out);
    }
    put_each(out, text, end, put_plain);
}
