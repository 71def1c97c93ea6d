/* What goes wrong with a file: see complain.h. */
#include "complain.h"

#include "name.h"

#include <stdarg.h>
#include <stdio.h>

static const char *complainer = "";

void complain_as(const char *program)
{
    complainer = program;
}

void complain(const char *name, const char *form, ...)
{
    va_list rest;

    fprintf(stderr, "%s: ", complainer);
    put_name(stderr, name);
    fputs(": ", stderr);
    va_start(rest, form);
    vfprintf(stderr, form, rest);
    va_end(rest);
    fputc('\n', stderr);
}
