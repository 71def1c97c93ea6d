/*
 * What was said of traces of the old layout before there was another (No. 11):
 * of 100,000 of chance, honest and damaged, the digests of their bytes and of
 * their reports, and how often each number was met; and the report of each
 * FILE.  tests/data/old-verdicts.txt has what this printed then, and it has to
 * print the same for ever.
 *
 *     old_verdicts FILE...
 */
#include "pomurica.h"
#include "traces.h"

#include "../second/words.h"

#include <inttypes.h>
#include <stdio.h>
#include <string.h>

enum {
    TRACES = 100000,
    KINDS = RUBBISH + 1, /* of damage that there were */
    SEED = 11,
    NUMBERS = TRAILING + 1, /* of a checker */
    MOST_READ = 1 << 16
};

/* FNV-1a of 64 bits. */
#define FNV_BASIS UINT64_C(0xCBF29CE484222325)
#define FNV_PRIME UINT64_C(0x100000001B3)

static uint64_t digest_of(uint64_t digest, const uint8_t *bytes, size_t length)
{
    for (size_t i = 0; i < length; i++)
        digest = (digest ^ bytes[i]) * FNV_PRIME;
    return digest;
}

/* A trace goes into a digest behind its length, so that the end of one is not the beginning of the next. */
static uint64_t digest_of_trace(uint64_t digest, const uint8_t *trace, size_t length)
{
    uint8_t word[4];

    put_word(word, (uint32_t)length);
    return digest_of(digest_of(digest, word, sizeof word), trace, length);
}

static void judge_chance(void)
{
    static uint8_t trace[MADE_SIZE];
    struct chance chance = { .seed = SEED, .old = true };
    uint64_t traces = FNV_BASIS, reports = FNV_BASIS;
    uint32_t met[NUMBERS] = { 0 };

    for (uint32_t i = 0; i < TRACES; i++) {
        struct expected expected;
        const size_t length = make_trace(&chance, (enum damage)(i % KINDS), trace, &expected);
        uint8_t report[POMURICA_REPORT_SIZE];

        met[pomurica_check(trace, length, report, sizeof report)]++;
        traces = digest_of_trace(traces, trace, length);
        reports = digest_of(reports, report, sizeof report);
    }
    printf("%d traces: digest %016" PRIx64 ", of their reports %016" PRIx64 "\n", TRACES, traces, reports);
    for (uint32_t number = 0; number < NUMBERS; number++)
        if (met[number] != 0)
            printf("%" PRIu32 " %s: %" PRIu32 "\n", number, pomurica_number_name(number), met[number]);
}

/* What stands behind the last `/` of a path. */
static const char *name_of(const char *path)
{
    const char *const slash = strrchr(path, '/');

    return slash == NULL ? path : slash + 1;
}

static int judge_file(const char *path)
{
    static uint8_t bytes[MOST_READ];
    uint8_t report[POMURICA_REPORT_SIZE];
    FILE *const file = fopen(path, "rb");
    size_t length;

    if (file == NULL) {
        perror(path);
        return 2;
    }
    length = fread(bytes, 1, sizeof bytes, file);
    fclose(file);
    pomurica_check(bytes, length, report, sizeof report);
    printf("%s: %" PRIu32 " %" PRIu32 " %" PRIu32 "\n", name_of(path),
           pomurica_get_word(report, POMURICA_REPORT_NUMBER), pomurica_get_word(report, POMURICA_REPORT_PLACE),
           pomurica_get_word(report, POMURICA_REPORT_STEPS));
    return 0;
}

int main(int argc, char **argv)
{
    judge_chance();
    for (int i = 1; i < argc; i++)
        if (judge_file(argv[i]) != 0)
            return 2;
    return 0;
}
