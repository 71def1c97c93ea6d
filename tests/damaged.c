/*
 * Writes traces of chance, honest and damaged, of both layouts, as files of a
 * folder, and on standard output the line that the console has to print for
 * each.
 *
 *     damaged FOLDER COUNT SEED
 */
#include "pomurica.h"
#include "traces.h"

#include "../second/second.h"

#include <inttypes.h>
#include <stdio.h>
#include <stdlib.h>

static void print_line(const char *name, const uint8_t *trace, size_t length)
{
    uint8_t report[POMURICA_REPORT_SIZE];
    const uint32_t number = second_check(trace, length, report, sizeof report);
    const uint32_t place = pomurica_get_word(report, 1), steps = pomurica_get_word(report, 2);

    if (number == POMURICA_DONE)
        printf("%s: accepted, %" PRIu32 " Steps\n", name, steps);
    else
        printf("%s: refused %" PRIu32 " %s at byte %" PRIu32 " after %" PRIu32 " Steps\n", name,
               number, pomurica_number_name(number), place, steps);
}

static int write_file(const char *name, const uint8_t *bytes, size_t length)
{
    FILE *file = fopen(name, "wb");

    if (file == NULL || fwrite(bytes, 1, length, file) != length || fclose(file) != 0) {
        perror(name);
        return 1;
    }
    return 0;
}

int main(int argc, char **argv)
{
    static uint8_t trace[MADE_SIZE];
    struct expected expected;
    struct chance chance = { .seed = 0 };
    char name[4096];

    if (argc != 4) {
        fprintf(stderr, "usage: damaged FOLDER COUNT SEED\n");
        return 2;
    }
    chance.seed = strtoull(argv[3], NULL, 10);
    for (unsigned long i = 0; i < strtoul(argv[2], NULL, 10); i++) {
        const size_t length = make_either(&chance, (enum damage)(i % DAMAGES), trace, &expected);

        snprintf(name, sizeof name, "%s/%06lu", argv[1], i);
        if (write_file(name, trace, length) != 0)
            return 2;
        print_line(name, trace, length);
    }
    return 0;
}
