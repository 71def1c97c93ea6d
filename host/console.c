/*
 * console: judges the traces in files and prints one line for each, or counts
 * them, or says what the instruction words in logs are.  This file only reads the
 * arguments.
 */
#include "complain.h"
#include "edition.h"
#include "instructions.h"
#include "judge.h"
#include "list.h"
#include "name.h"
#include "output.h"

#include <stdio.h>
#include <string.h>

static const char NAME[] = "console";

static const char USAGE[] =
    "usage: console [--quiet] [--explain] [--trace] [--] FILE...\n"
    "       console --follow [--quiet] [--] FILE...\n"
    "       console --html [--] FILE > PAGE\n"
    "       console --count [--totals TOTALS] [--quiet] [--] FILE...\n"
    "       console --instructions [--] FILE...\n"
    "       console [OPTION...] --files-from LIST\n"
    "       console --help | --version\n";

static const char HELP[] =
    "\n"
    "Judges the trace in each FILE and prints one line for each:\n"
    "\n"
    "    FILE: accepted, N Steps: N done, N refused\n"
    "    FILE: refused NUMBER NAME at byte PLACE after N Steps\n"
    "\n"
    "A refused Step is no fault of the trace: the rules refuse its event. Behind\n"
    "`accepted, 0 Steps` nothing stands. In a name `?` stands for each byte of what is\n"
    "not shown: bytes that are no UTF-8, control characters, ends of lines, and the\n"
    "controls that turn the direction of the text.\n"
    "\n"
    "A FILE may have any size, and be a pipe or a device. It is read to its end, also\n"
    "behind a fault, and judged as the bytes come. --explain, --trace, --html and --count\n"
    "need it in memory, and read no more than the longest trace has and one byte behind\n"
    "it. A serial line ends where it hangs up. It is set raw while it is read, and then\n"
    "back; its speed and parity are left as stty set them. A terminal from which the\n"
    "console was started is left as it is.\n"
    "\n"
    "  -         standard input\n"
    "  --follow  as soon as a fault is known, while the trace still arrives, print\n"
    "                FILE: NUMBER NAME known after N bytes\n"
    "            of which the last one made it known; the verdict comes at the end, as\n"
    "            always. With --quiet alone, which leaves out this line too\n"
    "  --explain under a refused trace, say what was due and what was there; under an\n"
    "            accepted one in which no Step was done, warn that it shows nothing\n"
    "  --trace   under each, list its Steps up to the first wrong one\n"
    "  --html    in place of lines, write a page for a browser: the verdict, the modes\n"
    "            by Step and what each Step changed; of one FILE, with no other option\n"
    "  --count   in place of lines for each, count the Steps of all accepted traces\n"
    "            together; a refused trace adds nothing, and its line goes to standard\n"
    "            error; with --quiet and --totals alone\n"
    "  --totals TOTALS\n"
    "            start from the counts in the file TOTALS, and write the new ones there\n"
    "  --instructions\n"
    "            each FILE is no trace but a log, with an instruction word in each line:\n"
    "            print each line with the banked access that it is; with no other option\n"
    "  --files-from LIST\n"
    "            in place of FILE..., take the names in the file LIST, or on standard input\n"
    "            for -. Each ends with a zero byte where LIST has one (find -print0), and\n"
    "            else with its line\n"
    "  --quiet   print no line, only set the exit status; what goes wrong is still told,\n"
    "            with --count the refused traces too\n"
    "  --help    print this\n"
    "  --version print the version, and by which rules traces are judged\n"
    "  --        end of the options: what follows are files\n"
    "\n"
    "The counts are lines of three numbers, one for each count that is not 0: the group,\n"
    "the number within it and the count. Group 1 has Steps by event code, 0 for a code\n"
    "that the rules do not know; 2 Steps by answer number; 3 entries by the mode that\n"
    "they entered; 4 done interrupt checks by the exception that they took, 0 for none.\n"
    "A trace with which a count would pass 4294967295 is refused with 13 FULL.\n"
    "\n"
    "TOTALS has those lines and nothing else; missing or empty, it is all zero. It is\n"
    "written whenever the run gets to its end, whole and last of all, also if there is\n"
    "nothing new or some FILE could not be read; not if it is no such file, or if the\n"
    "counts could not be printed. Consoles with the same TOTALS wait for each other.\n"
    "\n"
    "A log is text of any size. The word is the first field of a line, up to a blank: 1 to\n"
    "8 hexadecimal digits, capital or small, with 0x before them or without. Behind the\n"
    "line's own text and two spaces stands what the word is:\n"
    "\n"
    "    MRS r2, R8_usr: read 0        the instruction, and its event with A\n"
    "    MSREQ SPSR_svc, r14: write 50\n"
    "    MRS r2, unallocated: read 7   no register has this A\n"
    "    NOT_BANKED                    no MRS or MSR of a banked register\n"
    "\n"
    "Of the text, tabs stay, and `?` stands for what is not shown, as in a name. A line\n"
    "whose first field is no word is named by its number on standard error; a blank one is\n"
    "passed over. Lines end with LF or with CR and LF, the last one also with the file.\n"
    "\n"
    "Exit status: 0 all accepted, or all words read, whatever they are; 1 any refused; 2 bad\n"
    "usage, a TOTALS that is none, a line of a log without a word, or a file that could not\n"
    "be read (it is named, and the others are still judged) or written.\n";

/* The flag that an option sets; NULL for what is no such option. */
static bool *flag_of(struct wish *wish, const char *option)
{
    const struct {
        const char *name;
        bool *flag;
    } flags[] = {
        { "--quiet", &wish->quiet }, { "--follow", &wish->follow }, { "--explain", &wish->explain },
        { "--trace", &wish->trace }, { "--html", &wish->html },     { "--count", &wish->count },
        { "--help", &wish->help },   { "--version", &wish->version }, { "--instructions", &wish->instructions },
    };

    for (size_t i = 0; i < sizeof flags / sizeof *flags; i++)
        if (strcmp(option, flags[i].name) == 0)
            return flags[i].flag;
    return NULL;
}

/* Takes the argument of an option that comes once; it is NULL where none follows. */
static bool take_argument(const char **argument, const char *name, const char *rule)
{
    const bool right = name != NULL && *argument == NULL;

    if (right)
        *argument = name;
    else
        fprintf(stderr, "console: %s\n", rule);
    return right;
}

static bool take_totals(struct wish *wish, const char *name)
{
    const bool is_file = name != NULL && strcmp(name, "-") != 0;

    return take_argument(&wish->totals, is_file ? name : NULL, "--totals takes one file, which is read and written");
}

static bool take_option(struct wish *wish, const char *option)
{
    bool *const flag = flag_of(wish, option);

    if (flag != NULL) {
        *flag = true;
        return true;
    }
    fputs("console: no option ", stderr);
    put_name(stderr, option);
    fputc('\n', stderr);
    return false;
}

/* Sorts the arguments into options and files, which are moved to the front of argv. */
static bool parse(int argc, char **argv, struct wish *wish)
{
    bool options = true, right = true;

    *wish = (struct wish){ .files = argv };
    for (int i = 1; i < argc && right; i++) {
        if (!options || argv[i][0] != '-' || strcmp(argv[i], "-") == 0)
            wish->files[wish->file_count++] = argv[i];
        else if (strcmp(argv[i], "--") == 0)
            options = false;
        else if (strcmp(argv[i], "--totals") == 0)
            right = take_totals(wish, argv[++i]);
        else if (strcmp(argv[i], "--files-from") == 0)
            right = take_argument(&wish->list, argv[++i], "--files-from takes one file, or - for standard input");
        else
            right = take_option(wish, argv[i]);
    }
    return right;
}

/* Whether something is asked for that is about traces. */
static bool is_about_traces(const struct wish *wish)
{
    return wish->quiet || wish->follow || wish->explain || wish->trace || wish->html || wish->count || wish->totals != NULL;
}

/* Whether there is something to do, and it can be done at once; says why not. */
static bool is_possible(const struct wish *wish)
{
    if (wish->help || wish->version)
        return true;
    if (wish->instructions && is_about_traces(wish))
        fputs("console: --instructions takes no other option: a log is no trace\n", stderr);
    else if (wish->totals != NULL && !wish->count)
        fputs("console: --totals goes with --count: it keeps counts\n", stderr);
    else if (wish->count && (wish->html || wish->explain || wish->trace || wish->follow))
        fputs("console: --count takes --quiet and --totals alone: it is about all traces together\n", stderr);
    else if (wish->list != NULL && wish->file_count > 0)
        fputs("console: --files-from stands in place of files: the list has them all\n", stderr);
    else if (wish->html && (wish->file_count > 1 || wish->list != NULL))
        fputs("console: --html takes one file: a page is about one trace\n", stderr);
    else if (wish->html && (wish->quiet || wish->explain || wish->trace || wish->follow))
        fputs("console: --html takes no other option: the page has the verdict, the reason and the Steps\n", stderr);
    else if (wish->follow && (wish->explain || wish->trace))
        fputs("console: --follow takes --quiet alone: --explain and --trace look into a trace that is there whole\n", stderr);
    else
        return wish->file_count > 0 || wish->list != NULL;
    return false;
}

static void print_help(void)
{
    fputs(USAGE, stdout);
    fputs(HELP, stdout);
    send_output();
}

static enum status take_files(const struct wish *wish)
{
    if (wish->instructions)
        return tell_instructions(wish->files, wish->file_count) ? ALL_ACCEPTED : TROUBLE;
    return judge_files(wish);
}

static enum status take_listed(struct wish *wish)
{
    struct list list;
    enum status status;

    if (!read_list(&list, wish->list))
        return TROUBLE;
    wish->files = list.names;
    wish->file_count = list.count;
    status = take_files(wish);
    free_list(&list);
    return status;
}

int main(int argc, char **argv)
{
    struct wish wish;

    setvbuf(stderr, NULL, _IOLBF, BUFSIZ); /* whole lines, also of several consoles on one standard error */
    complain_as(NAME);
    if (!archive_belongs(NAME))
        return TROUBLE;
    if (!parse(argc, argv, &wish) || !is_possible(&wish)) {
        fputs(USAGE, stderr);
        return TROUBLE;
    }
    if (wish.help) {
        print_help();
        return ALL_ACCEPTED;
    }
    if (wish.version) {
        print_version(NAME);
        return ALL_ACCEPTED;
    }
    return (int)(wish.list != NULL ? take_listed(&wish) : take_files(&wish));
}
