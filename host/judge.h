/* The traces in files: judged and told, or counted.  The rules are the archive's. */
#ifndef JUDGE_H
#define JUDGE_H

#include <stdbool.h>
#include <stddef.h>

/* Exit statuses; of several the highest wins. */
enum status {
    ALL_ACCEPTED = 0,
    ANY_REFUSED = 1,
    TROUBLE = 2 /* bad usage, a file that cannot be read, a line of a log without a word, something that cannot be written */
};

/* What the arguments ask for. */
struct wish {
    bool quiet, follow, explain, trace, html, count, instructions, help, version;
    const char *totals; /* the totals file, or NULL */
    const char *list;   /* the file that lists the files, or NULL */
    char **files;       /* the arguments that are files, in order: traces, or logs */
    size_t file_count;
};

/* Does what is asked for with each file. */
enum status judge_files(const struct wish *wish);

#endif
