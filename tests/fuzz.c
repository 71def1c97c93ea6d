#define _POSIX_C_SOURCE 200809L

#include "fuzz.h"

#include "markup.h"

#include "../host/arrival.h"
#include "../host/layout.h"
#include "../host/page.h"
#include "../host/phrases.h"
#include "../host/record.h"
#include "../host/shown.h"
#include "../host/tell.h"

#include <stdbool.h>
#include <stdio.h>
#include <stdlib.h>

/* A trace, and what is said of it. */
struct judged {
    const char *name;
    const uint8_t *trace;
    size_t length;
    uint8_t report[POMURICA_REPORT_SIZE], explanation[POMURICA_EXPLANATION_SIZE];
    uint32_t number, place, steps;
};

/* What is printed, kept. */
struct text {
    char *bytes;
    size_t length;
    FILE *out;
};

static void hold(bool held, const char *what)
{
    if (held)
        return;
    fprintf(stderr, "does not hold: %s\n", what);
    abort();
}

/* The place is that of the record due after so many right Steps, or behind the End; of a trace whose Start is right. */
static bool is_behind_start(const struct judged *judged)
{
    const uint32_t next = step_place(judged->trace, judged->steps), end = next + POMURICA_END_SIZE;

    switch (judged->number) {
    case POMURICA_DONE: return judged->place == end && end == judged->length;
    case POMURICA_TRAILING: return judged->place == end && end < judged->length;
    case POMURICA_WRONG_STEP:
        return judged->place == next && next + layout_of(judged->trace)->step_size <= judged->length;
    default: return judged->place == next;
    }
}

static bool is_at_a_record(const struct judged *judged)
{
    return judged->place == 0 ? judged->steps == 0 : is_behind_start(judged);
}

static void check_report(struct judged *judged)
{
    const uint32_t returned = pomurica_check(judged->trace, judged->length, judged->report, sizeof judged->report);

    judged->number = pomurica_get_word(judged->report, POMURICA_REPORT_NUMBER);
    judged->place = pomurica_get_word(judged->report, POMURICA_REPORT_PLACE);
    judged->steps = pomurica_get_word(judged->report, POMURICA_REPORT_STEPS);
    hold(returned == judged->number, "the number is returned and reported");
    hold(returned == POMURICA_DONE || (returned >= POMURICA_SHORT && returned <= POMURICA_TRAILING),
         "the number is one of the checker's");
    hold(judged->place <= judged->length && judged->steps <= POMURICA_MOST_STEPS, "place and Steps are within the trace");
    hold(is_at_a_record(judged), "the place is that of a record");
}

/* The Steps that were found right and done, by their records. */
static uint32_t done_steps(const struct judged *judged)
{
    uint32_t done = 0;

    for (uint32_t index = 0; index < judged->steps; index++)
        done += pomurica_get_word(step_at(judged->trace, index), POMURICA_STEP_NUMBER) == POMURICA_DONE;
    return done;
}

/* The same bytes as they arrive: in pieces as long as the first byte of each says, which come to the same verdict. */
static void check_arrival(const struct judged *judged)
{
    uint8_t report[POMURICA_REPORT_SIZE];
    struct arrival arrival;
    size_t from = 0;
    uint32_t told = 0;

    begin_arrival(&arrival);
    while (from < judged->length) {
        const size_t left = judged->length - from, any = (size_t)judged->trace[from] + 1;
        const size_t size = any < left ? any : left;

        told += take_piece(&arrival, judged->trace + from, size);
        from += size;
    }
    pomurica_close(&arrival.session, report, sizeof report);
    hold(memcmp(report, judged->report, sizeof report) == 0, "a trace comes to the same report in pieces");
    hold(told == (arrival.fault != POMURICA_DONE), "a fault that is known is told once");
    hold(arrival.fault == (judged->number == POMURICA_SHORT ? POMURICA_DONE : judged->number),
         "every fault but SHORT is known before the end");
    hold(arrival.taken <= judged->length && (told != 0 || arrival.taken == judged->length),
         "a fault is known within the trace");
    hold(judged->number != POMURICA_DONE || arrival.done.steps == done_steps(judged), "the done Steps are counted");
}

/* The events of the Steps that were found right. */
static struct pomurica_event *take_events(const struct judged *judged)
{
    struct pomurica_event *const events = calloc(judged->steps + 1, sizeof *events);

    hold(events != NULL, "there is memory for events");
    for (uint32_t index = 0; index < judged->steps; index++) {
        const uint8_t *const step = step_at(judged->trace, index);

        events[index].code = pomurica_get_word(step, POMURICA_STEP_CODE);
        events[index].a = pomurica_get_word(step, POMURICA_STEP_A);
        events[index].b = pomurica_get_word(step, POMURICA_STEP_B);
    }
    return events;
}

/* A Step that was found right shows what is due. */
static void check_right(const struct judged *judged)
{
    for (uint32_t index = 0; index < judged->steps; index++) {
        const uint8_t *const step = step_at(judged->trace, index);
        struct due due;

        find_due(step, &due);
        hold(memcmp(step + 4 * POMURICA_STEP_NUMBER, due.answer, sizeof due.answer) == 0 &&
                 memcmp(block_after(step), due.block, layout_of(step)->block_size) == 0,
             "a right Step is what is due");
    }
}

/*
 * The events of a trace of the new layout, recorded from the start block, give those Steps again, and an accepted trace
 * to its last byte.  There is no recorder of the old one.
 */
static void check_recorded(const struct judged *judged)
{
    const size_t size = POMURICA_TRACE_SIZE(judged->steps), block_at = 4 * POMURICA_START_BLOCK;
    struct pomurica_event *events;
    uint32_t number;
    uint8_t *again;

    if (judged->place == 0 || layout_of(judged->trace)->old) /* without a Start there is no block */
        return;
    events = take_events(judged);
    again = malloc(size);
    hold(again != NULL, "there is memory for a trace");
    number = pomurica_record(judged->trace + block_at, POMURICA_BLOCK_SIZE, events, judged->steps, again, size, 0);
    hold(number == POMURICA_DONE, "right Steps can be recorded");
    hold(memcmp(again + block_at, judged->trace + block_at, step_place(judged->trace, judged->steps) - block_at) == 0,
         "right Steps are recorded as they are");
    hold(judged->number != POMURICA_DONE || memcmp(again, judged->trace, size) == 0,
         "an accepted trace is the recorded one");
    free(again);
    free(events);
}

static uint32_t word_found(const uint8_t *step, uint32_t part)
{
    return pomurica_get_word(step, POMURICA_STEP_NUMBER + part - POMURICA_PART_NUMBER);
}

static uint32_t word_due(const struct due *due, uint32_t part)
{
    if (part < POMURICA_PART_BLOCK)
        return pomurica_get_word(due->answer, part - POMURICA_PART_NUMBER);
    return pomurica_get_word(due->block, part - POMURICA_PART_BLOCK);
}

/* Of a wrong Step the first part is explained that differs. */
static void check_part(const struct judged *judged)
{
    const uint8_t *const step = judged->trace + judged->place;
    const uint32_t last = POMURICA_PART_BLOCK - 1 + layout_of(step)->places;
    uint32_t part = POMURICA_PART_NUMBER;
    struct due due;

    find_due(step, &due);
    while (part <= last && word_found(step, part) == word_due(&due, part))
        part++;
    hold(part <= last, "a wrong Step differs");
    hold(pomurica_get_word(judged->explanation, POMURICA_EXPLANATION_PART) == part,
         "the first part that differs is explained");
    hold(pomurica_get_word(judged->explanation, POMURICA_EXPLANATION_FOUND) == word_found(step, part),
         "the word found is the record's");
    hold(pomurica_get_word(judged->explanation, POMURICA_EXPLANATION_DUE) == word_due(&due, part),
         "the word due is the step's");
}

static void check_explanation(struct judged *judged)
{
    static const uint8_t NO_PART[POMURICA_EXPLANATION_SIZE - POMURICA_REPORT_SIZE];
    const uint32_t returned =
        pomurica_explain(judged->trace, judged->length, judged->explanation, sizeof judged->explanation);

    hold(returned == judged->number && memcmp(judged->explanation, judged->report, sizeof judged->report) == 0,
         "explanation and report agree");
    if (judged->number == POMURICA_WRONG_STEP)
        check_part(judged);
    else
        hold(memcmp(judged->explanation + sizeof judged->report, NO_PART, sizeof NO_PART) == 0,
             "no part is explained where no Step is wrong");
}

static void open_text(struct text *text)
{
    text->out = open_memstream(&text->bytes, &text->length);
    hold(text->out != NULL, "there is memory for a text");
}

static void close_text(struct text *text)
{
    hold(fclose(text->out) == 0, "there is memory for a text");
    hold(strlen(text->bytes) == text->length, "a text has no zero in it");
}

/* Whether a text has only letters that mean nothing in a page, and how many lines. */
static bool is_plain(const struct text *text, uint32_t *lines)
{
    *lines = 0;
    for (const char *at = text->bytes; *at != '\0'; at++) {
        if (*at == '\n')
            ++*lines;
        else if (*at < ' ' || *at > '~' || *at == '<' || *at == '>' || *at == '&' || *at == '"' || *at == '\'')
            return false;
    }
    return text->length == 0 || text->bytes[text->length - 1] == '\n';
}

/* A line for each Step up to the first wrong one. */
static void check_steps(const struct judged *judged)
{
    const uint32_t due = judged->steps + (judged->number == POMURICA_WRONG_STEP ? 1 : 0);
    struct text text;
    uint32_t lines;

    open_text(&text);
    tell_steps(text.out, judged->trace, judged->explanation);
    close_text(&text);
    hold(is_plain(&text, &lines), "Steps are told in plain lines");
    hold(lines == due, "a line is told for each Step");
    free(text.bytes);
}

/* A refusal has a reason, and the page says it too; an acceptance may have a warning. */
static void check_explained(const struct judged *judged, const char *page)
{
    const bool accepted = judged->number == POMURICA_DONE;
    struct text text;
    uint32_t lines;

    open_text(&text);
    tell_explanation(text.out, judged->trace, judged->length, judged->explanation);
    close_text(&text);
    hold(is_plain(&text, &lines), "an explanation is told in plain lines");
    hold(accepted || lines != 0, "a refusal has a reason");
    hold(accepted || strstr(page, text.bytes) != NULL, "the page has the reason");
    free(text.bytes);
}

static void check_verdict(const struct judged *judged, const char *page)
{
    struct text text;

    open_text(&text);
    fputs(": ", text.out);
    tell_verdict(text.out, judged->report, done_steps(judged));
    fputc('<', text.out);
    close_text(&text);
    hold(strstr(page, text.bytes) != NULL, "the page has the verdict");
    free(text.bytes);
}

/* Numbers that come in the page, from the least to the most. */
struct range {
    uint32_t least, most;
};

/* Whether a text begins so; and then the number that follows, into the range. */
static bool take_number(const char *text, const char *beginning, struct range *range)
{
    uint32_t number;

    for (; *beginning != '\0'; text++, beginning++)
        if (*text != *beginning)
            return false;
    number = (uint32_t)strtoul(text, NULL, 10);
    if (number < range->least)
        range->least = number;
    if (number > range->most)
        range->most = number;
    return true;
}

/* The Steps that are listed are all or as many as have room, and follow each other; a link goes to one of them. */
static void check_list(const struct judged *judged, const char *page)
{
    struct range listed = { UINT32_MAX, 0 }, linked = listed;
    uint32_t lines = 0;

    for (; *page != '\0'; page++) {
        lines += take_number(page, "id=\"s", &listed);
        take_number(page, "href=\"#s", &linked);
    }
    hold(lines <= MOST_SINGLE && (lines == MOST_SINGLE || lines >= judged->steps), "so many Steps are listed");
    hold(lines == 0 || listed.most - listed.least + 1 == lines, "Steps are listed one after the other");
    hold(linked.least >= listed.least && linked.most <= listed.most, "a link goes to a Step that is listed");
}

static void print_page(struct text *page, const char *name, const uint8_t *trace, size_t length, const uint8_t *explanation)
{
    open_text(page);
    write_page(page->out, name, trace, length, explanation);
    close_text(page);
}

static void check_page(const struct judged *judged)
{
    struct text page;
    const char *fault;

    print_page(&page, judged->name, judged->trace, judged->length, judged->explanation);
    fault = markup_fault(page.bytes);
    hold(fault == NULL, fault);
    check_verdict(judged, page.bytes);
    check_explained(judged, page.bytes);
    check_list(judged, page.bytes);
    free(page.bytes);
}

/* Where the page has the name: behind this. */
static size_t place_behind(const struct text *page, const char *text)
{
    return (size_t)(strstr(page->bytes, text) - page->bytes) + strlen(text);
}

/* Against the page of a file without a name: the name stands in two places, as text, and changes nothing else. */
static void check_name(const char *name)
{
    uint8_t explanation[POMURICA_EXPLANATION_SIZE];
    struct text named, plain;
    size_t title, heading, shown;

    pomurica_explain(NULL, 0, explanation, sizeof explanation);
    print_page(&named, name, NULL, 0, explanation);
    print_page(&plain, "", NULL, 0, explanation);
    title = place_behind(&plain, "<title>");
    heading = place_behind(&plain, "<bdi>");
    shown = (named.length - plain.length) / 2;
    hold(plain.length + 2 * shown == named.length &&
             memcmp(named.bytes, plain.bytes, title) == 0 &&
             memcmp(named.bytes + title + shown, plain.bytes + title, heading - title) == 0 &&
             strcmp(named.bytes + heading + 2 * shown, plain.bytes + heading) == 0,
         "a name changes nothing else in the page");
    hold(memcmp(named.bytes + title, named.bytes + heading + shown, shown) == 0, "a name stands in both places alike");
    hold(strcspn(named.bytes + title, "<>\"'\n") >= shown, "a name is text");
    free(named.bytes);
    free(plain.bytes);
}

int LLVMFuzzerTestOneInput(const uint8_t *data, size_t size)
{
    const struct input input = parts_of(data, size);
    struct judged judged = { .length = 0 };
    char *const name = take_name(&input);
    uint8_t *const trace = take_trace(&input, &judged.length);

    judged.name = name;
    judged.trace = trace;
    check_report(&judged);
    check_arrival(&judged);
    check_right(&judged);
    check_recorded(&judged);
    check_explanation(&judged);
    check_steps(&judged);
    check_page(&judged);
    check_name(name);
    free(trace);
    free(name);
    return 0;
}
