#include "markup.h"

#include <stdbool.h>
#include <stddef.h>
#include <stdint.h>
#include <string.h>

#define DOCTYPE "<!doctype html>\n"

enum { DEEPEST = 32 };

/* Elements that are open, by where their names stand. */
struct open {
    const char *names[DEEPEST];
    unsigned depth;
};

static bool is_name(char letter)
{
    return (letter >= 'a' && letter <= 'z') || (letter >= 'A' && letter <= 'Z') || (letter >= '0' && letter <= '9') ||
           letter == '-';
}

static size_t name_length(const char *name)
{
    size_t length = 0;

    while (is_name(name[length]))
        length++;
    return length;
}

static bool is_same_name(const char *one, const char *other)
{
    while (is_name(*one) && *one == *other)
        one++, other++;
    return !is_name(*one) && !is_name(*other);
}

/* Behind the attributes of an element; NULL where they are none. */
static const char *skip_attributes(const char *at)
{
    while (*at == ' ') {
        const size_t length = name_length(++at);

        if (length == 0)
            return NULL;
        at += length;
        if (*at != '=')
            continue;
        if (at[1] != '"')
            return NULL;
        for (at += 2; *at != '"'; at++)
            if (*at == '<' || *at == '\0')
                return NULL;
        at++;
    }
    return at;
}

/* Behind a tag that opens an element, which is then open unless it is an empty one; NULL where it is no tag. */
static const char *open_element(struct open *open, const char *name)
{
    const char *at = skip_attributes(name + name_length(name));

    if (name_length(name) == 0 || at == NULL)
        return NULL;
    if (*at == '/')
        return at[1] == '>' ? at + 2 : NULL;
    if (*at != '>' || open->depth == DEEPEST)
        return NULL;
    if (!is_same_name(name, "meta"))
        open->names[open->depth++] = name;
    return is_same_name(name, "style") ? strstr(at, "</style>") : at + 1;
}

/* Behind a tag that closes the element that was opened last; NULL where it is no such tag. */
static const char *close_element(struct open *open, const char *name)
{
    if (open->depth == 0 || !is_same_name(name, open->names[open->depth - 1]))
        return NULL;
    open->depth--;
    name += name_length(name);
    return *name == '>' ? name + 1 : NULL;
}

/* Behind a character that is written by its name; NULL where it is none of the five. */
static const char *skip_reference(const char *at)
{
    static const char *const REFERENCES[] = { "&amp;", "&lt;", "&gt;", "&quot;", "&#39;" };

    for (size_t i = 0; i < sizeof REFERENCES / sizeof *REFERENCES; i++)
        if (strncmp(at, REFERENCES[i], strlen(REFERENCES[i])) == 0)
            return at + strlen(REFERENCES[i]);
    return NULL;
}

/* Behind a character of UTF-8 that is no control, or a line end; NULL where it is none. */
static const char *skip_character(const char *at)
{
    static const uint32_t LEAST[] = { ' ', 0xA0, 0x800, 0x10000 };
    const uint8_t lead = (uint8_t)*at;
    const unsigned more = lead < 0x80 ? 0 : lead < 0xE0 ? 1 : lead < 0xF0 ? 2 : 3;
    uint32_t character = more == 0 ? lead : lead & 0x3Fu >> more;

    if (*at == '\n')
        return at + 1;
    if (lead == 0x7F || (lead >= 0x80 && lead < 0xC0) || lead >= 0xF8)
        return NULL;
    for (unsigned i = 1; i <= more; i++) {
        if (((uint8_t)at[i] & 0xC0) != 0x80)
            return NULL;
        character = character << 6 | ((uint8_t)at[i] & 0x3Fu);
    }
    if (character < LEAST[more] || character > 0x10FFFF || (character >= 0xD800 && character < 0xE000))
        return NULL;
    return at + 1 + more;
}

const char *markup_fault(const char *page)
{
    struct open open = { .depth = 0 };
    const char *fault = NULL, *at;

    if (strncmp(page, DOCTYPE, strlen(DOCTYPE)) != 0)
        return "a page begins with its doctype";
    for (at = page + strlen(DOCTYPE); at != NULL && *at != '\0';) {
        if (at[0] == '<' && at[1] == '/') {
            fault = "elements are closed in turn";
            at = close_element(&open, at + 2);
        } else if (*at == '<') {
            fault = "a < begins an element";
            at = open_element(&open, at + 1);
        } else if (*at == '&') {
            fault = "an & begins a reference";
            at = skip_reference(at);
        } else {
            fault = "the rest are characters of UTF-8";
            at = *at == '>' ? NULL : skip_character(at);
        }
    }
    if (at == NULL)
        return fault;
    return open.depth == 0 ? NULL : "every element is closed";
}
