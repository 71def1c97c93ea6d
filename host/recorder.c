/*
 * record: writes the trace of a script, or says what each of its events would
 * answer.  The trace is made by the archive; this file has the arguments and
 * what is printed.
 */
#define _POSIX_C_SOURCE 200809L

#include "complain.h"
#include "edition.h"
#include "name.h"
#include "output.h"
#include "pomurica.h"
#include "record.h"
#include "script.h"
#include "tell.h"
#include "vocabulary.h"

#include <stdio.h>
#include <stdlib.h>
#include <string.h>
#include <unistd.h>

/* Exit statuses. */
enum status {
    FINE = 0,
    TROUBLE = 2 /* bad usage, no script, something that cannot be read or written */
};

static const char NAME[] = "record";

static const char USAGE[] =
    "usage: record [--] SCRIPT > TRACE\n"
    "       record --check [--] SCRIPT\n"
    "       record --help | --version\n";

static const char HELP[] =
    "\n"
    "Writes the trace of a SCRIPT: of its start block, and of its events one after\n"
    "another, each with the answer that the rules give. An event that they refuse is\n"
    "recorded with its number, and the rest go on.\n"
    "\n"
    "  -         standard input\n"
    "  --check   in place of the trace, print for each event what comes of it:\n"
    "                SCRIPT:LINE: WORD: EVENT; STATE; OUTCOME\n"
    "  --help    print this\n"
    "  --version print the version, and by which rules a trace is recorded\n"
    "  --        end of the options: what follows is the script\n"
    "\n"
    "A script is text, of lines. `#` begins a comment. Blanks stand between words, which\n"
    "are spelled as they stand here, capitals too. NUMBER is decimal, or 0x and\n"
    "hexadecimal digits, and has at most 32 bits.\n"
    "\n"
    "    PLACE = NUMBER    a word of the start block. Before the first event, each at\n"
    "                      most once; words that are not given are 0\n"
    "    EVENT OPERANDS    an event, at most 65535 of them\n"
    "\n"
    "An interrupt check names the lines that are set, an abort what it is, in any order\n"
    "(`debug`, a breakpoint instruction, alone), a return what it takes off LR, if\n"
    "anything: from Hyp it takes ELR_hyp as it is.\n"
    "The virtual lines are those of older recorders, and refused: a note on HCR sets VF\n"
    "(0x40) or VI (0x80), which signal a guest, and a check without them takes it.\n"
    "Behind `event` stand code, A and B as numbers, for events that no other word makes,\n"
    "bad ones among them.\n"
    "\n";

static const char STATUSES[] =
    "\n"
    "What is wrong with a script is told on standard error, the first of it, as\n"
    "SCRIPT:LINE:COLUMN, columns counted in bytes from 1; nothing is then printed. In a\n"
    "name `?` stands for each byte of what is not shown.\n"
    "\n"
    "Exit status: 0 recorded or checked, whatever the events answer; 2 bad usage, a\n"
    "script that is none, or something that could not be read or written.\n";

/* What the arguments ask for. */
struct wish {
    bool check, help, version;
    const char *script;
};

static enum status refuse_use(const char *why, const char *word)
{
    fprintf(stderr, "record: %s", why);
    put_name(stderr, word);
    fprintf(stderr, "\n%s", USAGE);
    return TROUBLE;
}

static enum status parse(int argc, char **argv, struct wish *wish)
{
    bool options = true;

    *wish = (struct wish){ .script = NULL };
    for (int i = 1; i < argc; i++) {
        if (options && strcmp(argv[i], "--") == 0)
            options = false;
        else if (options && strcmp(argv[i], "--check") == 0)
            wish->check = true;
        else if (options && strcmp(argv[i], "--help") == 0)
            wish->help = true;
        else if (options && strcmp(argv[i], "--version") == 0)
            wish->version = true;
        else if (options && argv[i][0] == '-' && strcmp(argv[i], "-") != 0)
            return refuse_use("no option ", argv[i]);
        else if (wish->script != NULL)
            return refuse_use("a trace is of one script, and here is another: ", argv[i]);
        else
            wish->script = argv[i];
    }
    return wish->help || wish->version || wish->script != NULL ? FINE : refuse_use("no script", "");
}

static void print_help(void)
{
    fputs(USAGE, stdout);
    fputs(HELP, stdout);
    tell_vocabulary(stdout);
    fputs(STATUSES, stdout);
    send_output();
}

/* The trace of a script, which the caller frees; NULL, and told, where there is none. */
static uint8_t *record(const struct script *script, const char *name, size_t size)
{
    uint8_t *const trace = malloc(size);
    uint32_t number;

    if (trace == NULL) {
        complain(name, "no memory for a trace of %zu bytes", size);
        return NULL;
    }
    number = pomurica_record(script->block, sizeof script->block, script->events, script->count, trace, size, 0);
    if (number == POMURICA_DONE)
        return trace;
    complain(name, "not recorded: %s", pomurica_number_name(number));
    free(trace);
    return NULL;
}

static void print_steps(const struct script *script, const char *name, const uint8_t *trace)
{
    for (uint32_t i = 0; i < script->count; i++) {
        put_name(stdout, name);
        printf(":%zu: %s: ", script->origins[i].line, script->origins[i].word);
        tell_step(stdout, step_at(trace, i));
        putchar('\n');
    }
}

static enum status record_script(const struct wish *wish, const struct script *script)
{
    const size_t size = POMURICA_TRACE_SIZE(script->count);
    uint8_t *const trace = record(script, wish->script, size);

    if (trace == NULL)
        return TROUBLE;
    if (wish->check)
        print_steps(script, wish->script, trace);
    else
        fwrite(trace, 1, size, stdout);
    send_output();
    free(trace);
    return FINE;
}

static enum status run(const struct wish *wish)
{
    struct script script;
    enum status status;

    if (!wish->check && isatty(STDOUT_FILENO))
        return refuse_use("a trace is no text for a terminal; give it a file, or take --check", "");
    if (!read_script(&script, wish->script))
        return TROUBLE;
    status = record_script(wish, &script);
    free_script(&script);
    return status;
}

int main(int argc, char **argv)
{
    struct wish wish;
    enum status status;

    setvbuf(stderr, NULL, _IOLBF, BUFSIZ); /* whole lines */
    complain_as(NAME);
    if (!archive_belongs(NAME))
        return TROUBLE;
    status = parse(argc, argv, &wish);
    if (status != FINE)
        return (int)status;
    if (wish.help) {
        print_help();
        return FINE;
    }
    if (wish.version) {
        print_version(NAME);
        return FINE;
    }
    return (int)run(&wish);
}
