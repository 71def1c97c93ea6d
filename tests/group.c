#include "group.h"

#include <stdarg.h>
#include <stdio.h>

/* More of the same says nothing new. */
#define MOST_TOLD 10

static const char *open_group;
static unsigned long held_here, broken_here;
static unsigned passed, failed;

static void close_group(void)
{
    if (open_group == NULL)
        return;
    if (broken_here > MOST_TOLD)
        printf("        %s: and %lu more\n", open_group, broken_here - MOST_TOLD);
    if (broken_here == 0 && held_here != 0) {
        passed++;
        printf("ok      %s (%lu checks)\n", open_group, held_here);
    } else {
        failed++;
        printf("FAILED  %s (%lu of %lu checks)\n", open_group, broken_here, held_here + broken_here);
    }
    fflush(stdout);
}

void group(const char *name)
{
    close_group();
    open_group = name;
    held_here = broken_here = 0;
}

void group_of(const char *of, const char *name)
{
    static char whole[200]; /* the name of the group before, perhaps */

    close_group();
    open_group = NULL;
    snprintf(whole, sizeof whole, "%s: %s", of, name);
    group(whole);
}

bool check(bool held, const char *what, ...)
{
    va_list arguments;

    if (held) {
        held_here++;
        return true;
    }
    broken_here++;
    if (is_telling()) {
        printf("        %s: ", open_group);
        va_start(arguments, what);
        vprintf(what, arguments);
        va_end(arguments);
        printf("\n");
    }
    return false;
}

bool is_telling(void)
{
    return broken_here <= MOST_TOLD;
}

int summary(void)
{
    close_group();
    open_group = NULL;
    printf("%u passed, %u failed\n", passed, failed);
    return failed == 0 ? 0 : 1;
}
