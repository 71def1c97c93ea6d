/*
 * Checked Steps to be counted: one call over a prepared honest trace.
 *
 *     check_loop prepare FILE       records the trace: all codes alike often, nine Steps in ten done; what is
 *                                   refused is mostly HVC and Hyp Trap, which few blocks of a trace let happen
 *     check_loop prepare-old FILE   records one like it in the old layout
 *     check_loop count WHO FILE     judges it once; WHO: nothing, ours, c, memcmp, bytes
 *     check_loop time WHO FILE      prints nanoseconds a Step
 */
#include "enabled.h"
#include "prepared.h"
#include "same.h"
#include "speed.h"

#include "../second/words.h"
#include "pomurica.h"

#include <stdio.h>
#include <string.h>

/* How often an event of a code is sought that ends as wanted; from some blocks there is none. */
#define TRIES 20

typedef uint32_t check_function(const uint8_t *, size_t, uint8_t *, size_t);

/* The trace has the bytes of one of the new layout, or fewer. */
static uint8_t trace[TRACE_SIZE];
static size_t trace_len;
static check_function *check;
static uint32_t number;

/* The program's own cost: a checker that only returns. */
static uint32_t nothing(const uint8_t *bytes, size_t length, uint8_t *report, size_t report_len)
{
    (void)bytes, (void)length, (void)report, (void)report_len;
    return 0;
}

/* The bare cost of comparing the bytes of each Step's answer, value and block with something. */
static uint32_t compare_bytes(const uint8_t *bytes, size_t length, uint8_t *report, size_t report_len)
{
    static _Alignas(LANES) uint8_t outcome[OUTCOME_SIZE];
    uint32_t same = 0;

    (void)report, (void)report_len;
    for (size_t place = POMURICA_START_SIZE + STEP_ANSWER; place < length; place += POMURICA_STEP_SIZE) {
        __asm__ volatile("" : : "r"(outcome) : "memory"); /* a step would have written it: read anew */
        same += is_same(bytes + place, outcome, OUTCOME_SIZE);
    }
    return same;
}

static check_function *check_of(const char *who)
{
    if (strcmp(who, "ours") == 0)
        return pomurica_check;
    if (strcmp(who, "c") == 0)
        return fast_check;
    if (strcmp(who, "memcmp") == 0)
        return fast_check_by_memcmp;
    return strcmp(who, "bytes") == 0 ? compare_bytes : nothing;
}

/* A note that moves to another mode or another state: else a trace stays where an entry left it. */
static void move_on(struct chance *chance, struct step_case *step)
{
    const uint32_t cpsr = get_word(step->block + 4 * CPSR);

    step->event.a = SCR;
    if (one_in(chance, 2)) {
        step->event.a = CPSR;
        step->event.b = (cpsr & ~(uint32_t)CPSR_MODE) | MODES[any_below(chance, MODE_COUNT)];
    }
}

/*
 * Whether an event of the code is found that ends as wanted; its answer is then in the record, and the block after it
 * in `after`.  What the layout does not know is not among the events of chance.
 */
static bool find_event(struct chance *chance, uint32_t code, bool wanted, struct step_case *step,
                       uint8_t *record, uint8_t *after)
{
    for (int i = 0; i < TRIES; i++) {
        choose_event(chance, code, wanted, step);
        if (code == CODE_NOTE && one_in(chance, 2))
            move_on(chance, step);
        keep_calls(&step->event);
        if (is_done(chance->old, step, after, record + STEP_ANSWER) == wanted)
            return true;
    }
    return false;
}

/* The code least often used of those not tried yet. */
static uint32_t next_code(const uint32_t *used, uint32_t tried)
{
    uint32_t least = 0;

    for (uint32_t code = 1; code < CODES; code++) {
        if ((tried >> code & 1) == 0 && (least == 0 || used[code] < used[least]))
            least = code;
    }
    return least;
}

/* One Step that ends as wanted, of the code least often used for which there is one; the block moves on. */
static void record_step(struct chance *chance, bool wanted, struct step_case *step, uint8_t *record)
{
    static uint32_t used[CODES];
    uint8_t after[BLOCK_SIZE];
    uint32_t tried = 0, code;

    do {
        code = next_code(used, tried);
        tried |= UINT32_C(1) << code;
    } while (!find_event(chance, code, wanted, step, record, after));
    used[code]++;
    put_word(record, chance->old ? POMURICA_OLD_STEP_HEAD : POMURICA_STEP_HEAD);
    put_word(record + STEP_CODE, step->event.code);
    put_word(record + STEP_A, step->event.a);
    put_word(record + STEP_B, step->event.b);
    memcpy(record + STEP_BLOCK, after, chance->old ? OLD_BLOCK_SIZE : BLOCK_SIZE);
    memcpy(step->block, after, BLOCK_SIZE);
}

/* The whole trace. */
static void record(bool old)
{
    const size_t step_size = old ? POMURICA_OLD_STEP_SIZE : POMURICA_STEP_SIZE;
    struct chance chance = { .seed = 1, .old = old };
    uint8_t *at = trace + (old ? POMURICA_OLD_START_SIZE : POMURICA_START_SIZE);
    struct step_case step;

    good_block(&chance, step.block);
    enable_calls(step.block);
    put_word(trace, old ? POMURICA_OLD_START_HEAD : POMURICA_START_HEAD);
    put_word(trace + START_COUNT, STEPS);
    memcpy(trace + START_BLOCK, step.block, old ? OLD_BLOCK_SIZE : BLOCK_SIZE);
    for (uint32_t i = 0; i < STEPS; i++, at += step_size)
        record_step(&chance, wants_done(&chance), &step, at);
    put_word(at, POMURICA_END_HEAD);
    put_word(at + END_COUNT, STEPS);
}

/* A file has the bytes of an old trace at least; by its head it has those of a new one. */
static bool read_trace(const char *name)
{
    if (!read_file(name, trace, OLD_TRACE_SIZE))
        return false;
    trace_len = get_word(trace) == POMURICA_OLD_START_HEAD ? OLD_TRACE_SIZE : TRACE_SIZE;
    return read_file(name, trace, trace_len);
}

static void prepare(void)
{
}

static void run(void)
{
    uint8_t report[REPORT_SIZE];

    number = check(trace, trace_len, report, sizeof report);
}

int main(int argc, char **argv)
{
    const bool old = argc == 3 && strcmp(argv[1], "prepare-old") == 0;

    if (old || (argc == 3 && strcmp(argv[1], "prepare") == 0)) {
        record(old);
        return write_file(argv[2], trace, old ? OLD_TRACE_SIZE : TRACE_SIZE) ? 0 : 2;
    }
    if (argc != 4) {
        fprintf(stderr, "usage: check_loop prepare FILE | prepare-old FILE | count WHO FILE | time WHO FILE\n");
        return 2;
    }
    if (!read_trace(argv[3]))
        return 2;
    check = check_of(argv[2]);
    if (strcmp(argv[1], "time") == 0)
        printf("%.1f\n", quickest(prepare, run));
    else
        run();
    return number == 0 ? 0 : 1; /* an honest trace is accepted */
}
