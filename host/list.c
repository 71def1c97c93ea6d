/* Lists of names: see list.h. */
#include "list.h"

#include "complain.h"
#include "input.h"

#include <errno.h>
#include <stdlib.h>
#include <string.h>

/* The room that a text begins with; it doubles when it is full. */
#define FIRST_ROOM ((size_t)64 * 1024)

/* Sees to room for a byte more, and for the zero behind the text. */
static bool make_room(char **text, size_t length, size_t *room)
{
    const size_t more = *room == 0 ? FIRST_ROOM : 2 * *room;
    char *moved;

    if (length + 1 < *room)
        return true;
    moved = realloc(*text, more);
    if (moved == NULL)
        return false;
    *text = moved;
    *room = more;
    return true;
}

/* Returns 0 or the system's reason why it cannot; the text is to be freed either way. */
static int read_text(const char *name, char **text, size_t *length)
{
    struct input input;
    size_t room = 0, got = 1;
    int reason = open_input(&input, name);

    if (reason != 0)
        return reason;
    while (reason == 0 && got > 0) {
        if (make_room(text, *length, &room))
            reason = read_piece(&input, (uint8_t *)*text + *length, room - *length - 1, &got);
        else
            reason = ENOMEM;
        *length += reason == 0 ? got : 0;
    }
    close_input(&input);
    return reason;
}

/* Ends each name with a zero, also the last one; gives how many there are. */
static size_t end_names(char *text, size_t length)
{
    const char end = memchr(text, '\0', length) != NULL ? '\0' : '\n';
    size_t count = 0;

    for (size_t i = 0; i < length; i++) {
        if (text[i] != end)
            continue;
        text[i] = '\0';
        count++;
    }
    text[length] = '\0';
    return count + (length > 0 && text[length - 1] != '\0');
}

static bool find_names(struct list *list)
{
    char *name = list->text;

    list->names = malloc((list->count + 1) * sizeof *list->names);
    for (size_t i = 0; list->names != NULL && i < list->count; i++) {
        list->names[i] = name;
        name += strlen(name) + 1;
    }
    return list->names != NULL;
}

/* Standard input is no file that a list could name: it may be the list. */
static bool are_files(const struct list *list, const char *name)
{
    for (size_t i = 0; i < list->count; i++) {
        const char *const file = list->names[i];

        if (*file != '\0' && strcmp(file, "-") != 0)
            continue;
        complain(name, "name %zu is %s", i + 1, *file == '\0' ? "empty" : "-, which is no file");
        return false;
    }
    if (list->count == 0)
        complain(name, "names no file");
    return list->count > 0;
}

bool read_list(struct list *list, const char *name)
{
    size_t length = 0;
    int reason;

    *list = (struct list){ .text = NULL };
    reason = read_text(name, &list->text, &length);
    if (reason == 0) {
        list->count = end_names(list->text, length);
        reason = find_names(list) ? 0 : ENOMEM;
    }
    if (reason != 0)
        complain(name, "%s", strerror(reason));
    else if (are_files(list, name))
        return true;
    free_list(list);
    return false;
}

void free_list(struct list *list)
{
    free(list->names);
    free(list->text);
}
