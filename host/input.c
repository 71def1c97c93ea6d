/* The bytes of files: see input.h. */
#define _POSIX_C_SOURCE 200809L

#include "input.h"

#include "line.h"
#include "output.h"

#include <errno.h>
#include <fcntl.h>
#include <string.h>
#include <sys/stat.h>
#include <unistd.h>

/*
 * A line that hangs up has come to its end, as a pipe has whose writer is gone:
 * Linux says so by a read of no bytes or, to a read that waits, by EIO.  Of
 * anything else EIO is a fault of the device, and what was read is no trace; and
 * of the terminal from which the console was started it says that the console
 * may not read there, being in the background.
 */
static bool has_hung_up(const struct input *input, int reason)
{
    return input->is_line && reason == EIO;
}

static int open_file(const char *name)
{
    int file;

    do
        file = open(name, O_RDONLY | O_CLOEXEC | O_NOCTTY);
    while (file < 0 && errno == EINTR);
    return file;
}

/* Whether it is a regular file.  Asked by its name, since to open a named pipe is to wait for who writes into it. */
static bool is_regular(const char *name, bool is_named)
{
    struct stat about;

    return (is_named ? stat(name, &about) : fstat(STDIN_FILENO, &about)) == 0 && S_ISREG(about.st_mode);
}

int open_input(struct input *input, const char *name)
{
    bool is_there;
    int reason;

    input->is_named = strcmp(name, "-") != 0;
    is_there = is_regular(name, input->is_named);
    if (!is_there)
        send_output();
    input->file = input->is_named ? open_file(name) : STDIN_FILENO;
    if (input->file < 0)
        return errno;
    input->is_line = !is_there && is_line(input->file);
    reason = input->is_line ? set_line(input->file) : 0;
    if (reason == 0 || has_hung_up(input, reason))
        return 0;
    close_input(input);
    return reason;
}

void close_input(struct input *input)
{
    if (input->is_line)
        reset_line();
    if (input->is_named)
        close(input->file);
}

int read_piece(const struct input *input, uint8_t *bytes, size_t room, size_t *length)
{
    ssize_t got;

    do
        got = read(input->file, bytes, room);
    while (got < 0 && errno == EINTR);
    *length = got < 0 ? 0 : (size_t)got;
    return got >= 0 || has_hung_up(input, errno) ? 0 : errno;
}

/* In pieces of any size, as a pipe has them. */
static int read_pieces(const struct input *input, uint8_t *bytes, size_t room, size_t *length)
{
    size_t got = 1;
    int reason = 0;

    for (*length = 0; *length < room && got > 0; *length += got)
        reason = read_piece(input, bytes + *length, room - *length, &got);
    return reason;
}

int read_all(int file, uint8_t *bytes, size_t room, size_t *length)
{
    return read_pieces(&(struct input){ .file = file }, bytes, room, length);
}

int read_file(const char *name, uint8_t *bytes, size_t room, size_t *length)
{
    struct input input;
    int reason = open_input(&input, name);

    if (reason != 0)
        return reason;
    reason = read_pieces(&input, bytes, room, length);
    close_input(&input);
    return reason;
}
