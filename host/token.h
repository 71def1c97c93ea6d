/* Text as tokens, line by line, and the place of what is wrong with it. */
#ifndef TOKEN_H
#define TOKEN_H

#include <stdbool.h>
#include <stddef.h>

/* Text being read, up to the byte at `at`.  A zero stands behind its last byte. */
struct reader {
    const char *name; /* of its file */
    const char *text;
    size_t length, at;
    size_t line, line_start; /* the line is counted from 0 */
    size_t behind;           /* the byte behind the line's last token */
};

/* `=`, or a run of other signs of ASCII; of length 0 where the line ends. */
struct token {
    const char *text;
    size_t length;
};

void begin_reading(struct reader *reader, const char *name, const char *text, size_t length);

/*
 * The next token of the line.  Blanks stand between tokens, and a `#` begins a
 * comment, which may have any text that shows (name.h): one that turns the
 * direction of a line would show another script than the one that is read.
 * Gives false, and tells it, where a byte is no such text.
 */
bool take_token(struct reader *reader, struct token *token);

/* Goes on to the next line, from the end of one; gives whether there is any. */
bool take_line_end(struct reader *reader);

/*
 * Tells on standard error, as FILE:LINE:COLUMN, that the token was found and
 * something else expected: what the form and what follows say, as printf does.
 * `why` goes right behind the token.  Gives false.
 */
__attribute__((format(printf, 4, 5))) bool
refuse(const struct reader *reader, const struct token *token, const char *why, const char *form, ...);

#endif
