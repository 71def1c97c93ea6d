/* A totals file: see totals.h. */
#define _XOPEN_SOURCE 700 /* for realpath too */

#include "totals.h"

#include "complain.h"
#include "input.h"
#include "pomurica.h"

#include <errno.h>
#include <fcntl.h>
#include <stdio.h>
#include <stdlib.h>
#include <string.h>
#include <sys/file.h>
#include <sys/stat.h>
#include <unistd.h>

/* Text being read, up to the byte at `at`. */
struct reader {
    const uint8_t *text;
    size_t length, at;
    size_t line, line_start; /* the line is counted from 0 */
    const char *due;         /* what is due at `at` and is not there */
};

static bool fails(struct reader *reader, size_t at, const char *due)
{
    reader->at = at;
    reader->due = due;
    return false;
}

static bool is_digit(const struct reader *reader)
{
    return reader->at < reader->length && reader->text[reader->at] >= '0' && reader->text[reader->at] <= '9';
}

static bool take(struct reader *reader, uint8_t byte, const char *due)
{
    if (reader->at == reader->length || reader->text[reader->at] != byte)
        return fails(reader, reader->at, due);
    reader->at++;
    return true;
}

/* A decimal number of these bounds, without a zero before it. */
static bool take_number(struct reader *reader, uint32_t least, uint32_t most, uint32_t *number, const char *due)
{
    const size_t first = reader->at;
    uint64_t value = 0;

    while (is_digit(reader) && value <= most)
        value = 10 * value + (uint64_t)(reader->text[reader->at++] - '0');
    if (reader->at == first || value < least || value > most)
        return fails(reader, first, due);
    if (reader->text[first] == '0' && reader->at > first + 1)
        return fails(reader, first, due);
    *number = (uint32_t)value;
    return true;
}

/* One line into the counts; next is the first word that it may name, and then the one behind it. */
static bool take_line(struct reader *reader, uint8_t *counts, uint32_t *next)
{
    static const char space[] = "a single space is due";
    uint32_t group, number, count, word;

    if (!take_number(reader, 1, POMURICA_GROUPS, &group, "a group, 1 to 4, is due") || !take(reader, ' ', space) ||
        !take_number(reader, 0, POMURICA_GROUP_SIZE - 1, &number, "a number, 0 to 31, is due") || !take(reader, ' ', space))
        return false;
    word = POMURICA_GROUP_SIZE * (group - 1) + number;
    if (word < *next)
        return fails(reader, reader->line_start, "a line that rises is due: groups rise, and numbers within each");
    if (!take_number(reader, 1, UINT32_MAX, &count, "a count, 1 to 4294967295, is due") ||
        !take(reader, '\n', "a line end is due"))
        return false;
    pomurica_put_word(counts, word, count);
    *next = word + 1;
    return true;
}

static bool take_lines(struct reader *reader, uint8_t *counts)
{
    uint32_t next = 0;

    memset(counts, 0, POMURICA_COUNTS_SIZE);
    while (reader->at < reader->length) {
        reader->line_start = reader->at;
        if (!take_line(reader, counts, &next))
            return false;
        reader->line++;
    }
    return true;
}

/* One byte more than the longest lines have room is enough: text that fills it has a fault before its end. */
static bool read_counts(const struct totals *totals, uint8_t *counts)
{
    uint8_t text[POMURICA_LINES_SIZE + 1];
    struct reader reader = { .text = text };
    const int reason = read_all(totals->file, text, sizeof text, &reader.length);

    if (reason != 0)
        complain(totals->name, "%s", strerror(reason));
    else if (!take_lines(&reader, counts))
        complain(totals->name, "no totals: line %zu, column %zu: %s", reader.line + 1, reader.at - reader.line_start + 1,
                 reader.due);
    else
        return true;
    return false;
}

/*
 * A missing file is made.  Only then is that asked for: in a folder like /tmp
 * Linux refuses it for a file of another user, whoever may write there.
 */
static int open_or_make(const char *name)
{
    const int flags = O_RDWR | O_CLOEXEC | O_NOCTTY | O_NONBLOCK;
    int file;

    do {
        file = open(name, flags);
        if (file < 0 && errno == ENOENT)
            file = open(name, flags | O_CREAT, 0666);
    } while (file < 0 && errno == EINTR);
    return file;
}

/* Where standard output or error is closed, a file must not get its number, and then its lines. */
static int above_standard(int file)
{
    int above;

    if (file < 0 || file > STDERR_FILENO)
        return file;
    above = fcntl(file, F_DUPFD_CLOEXEC, STDERR_FILENO + 1);
    close(file);
    return above;
}

static bool lock(const struct totals *totals)
{
    if (flock(totals->file, LOCK_EX | LOCK_NB) == 0)
        return true;
    if (errno != EWOULDBLOCK)
        return false;
    if (isatty(STDERR_FILENO))
        complain(totals->name, "another console has it; waiting");
    while (flock(totals->file, LOCK_EX) != 0)
        if (errno != EINTR)
            return false;
    return true;
}

/* Whether the open file still is the one at its place: the console that was waited for put another there. */
static bool is_in_place(const struct totals *totals)
{
    struct stat opened, there;

    return fstat(totals->file, &opened) == 0 && stat(totals->place, &there) == 0 && opened.st_dev == there.st_dev &&
           opened.st_ino == there.st_ino;
}

/* Opens and locks what the name leads to now; NULL, or why that cannot be. */
static const char *open_once(struct totals *totals)
{
    struct stat opened;

    totals->place = NULL;
    totals->file = above_standard(open_or_make(totals->name));
    if (totals->file < 0 || fstat(totals->file, &opened) != 0)
        return strerror(errno);
    if (!S_ISREG(opened.st_mode))
        return "not a regular file";
    if (!lock(totals))
        return strerror(errno);
    totals->place = realpath(totals->name, NULL);
    return totals->place == NULL ? strerror(errno) : NULL;
}

bool open_totals(struct totals *totals, const char *name, uint8_t *counts)
{
    const char *reason;

    totals->name = name;
    while ((reason = open_once(totals)) == NULL && !is_in_place(totals))
        close_totals(totals);
    if (reason != NULL)
        complain(name, "%s", reason);
    else if (read_counts(totals, counts))
        return true;
    close_totals(totals);
    return false;
}

void close_totals(struct totals *totals)
{
    free(totals->place);
    if (totals->file >= 0)
        close(totals->file);
}

static bool write_all(int file, const uint8_t *bytes, size_t length)
{
    while (length > 0) {
        const ssize_t put = write(file, bytes, length);

        if (put < 0 && errno != EINTR)
            return false;
        if (put > 0) {
            bytes += put;
            length -= (size_t)put;
        }
    }
    return true;
}

/* Owner and group as far as the system lets us: only root may give a file away. */
static void keep_owner(int file, const struct stat *due)
{
    if (fchown(file, due->st_uid, due->st_gid) != 0 && fchown(file, (uid_t)-1, due->st_gid) != 0)
        return;
}

/* The permissions come last: a write and a change of the owner take some away. */
static bool take_after(int file, int model)
{
    struct stat due;

    if (fstat(model, &due) != 0)
        return false;
    keep_owner(file, &due);
    return fchmod(file, due.st_mode & 07777) == 0;
}

/* Fills a file that nobody else sees yet; closes it. */
static bool fill(int file, const struct totals *totals, const uint8_t *lines, size_t length)
{
    const bool filled = write_all(file, lines, length) && take_after(file, totals->file) && fsync(file) == 0;
    const int reason = errno;

    if (close(file) != 0 && filled)
        return false;
    errno = reason;
    return filled;
}

/* Renames a new file into the place of the old one, or removes it. */
static bool replace(const struct totals *totals, char *new_name, const uint8_t *lines, size_t length)
{
    const int file = above_standard(mkstemp(new_name));
    int reason;

    if (file < 0)
        return false;
    if (fill(file, totals, lines, length) && rename(new_name, totals->place) == 0)
        return true;
    reason = errno;
    unlink(new_name);
    errno = reason;
    return false;
}

bool write_totals(const struct totals *totals, const uint8_t *lines, size_t length)
{
    static const char ending[] = ".XXXXXX"; /* mkstemp's */
    const size_t size = strlen(totals->place) + sizeof ending;
    char *const new_name = malloc(size);
    bool written = false;

    if (new_name != NULL) {
        snprintf(new_name, size, "%s%s", totals->place, ending);
        written = replace(totals, new_name, lines, length);
    }
    if (!written)
        complain(totals->name, "not written, and as it was: %s", strerror(errno));
    free(new_name);
    return written;
}
