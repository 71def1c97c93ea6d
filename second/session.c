/*
 * The session of No. 6 of document 02: a trace of either layout (No. 11) judged
 * as it arrives, byte by byte.  The record due is held until its last byte has
 * come; then it is judged on the last block, and nothing of it is kept but what
 * the next one needs.
 */
#include "records.h"
#include "second.h"
#include "words.h"

#include "pomurica.h"

#include <string.h>

/* No. 6: whether nothing is due any more; a session that nobody opened may have a higher stage, and is over too. */
static bool is_over(const struct pomurica_session *session)
{
    return session->stage >= STAGE_OVER;
}

/* No. 11: the layout of a trace that is not over: while the Start is due by its kind, then by the stage. */
static enum layout layout_of(const struct pomurica_session *session)
{
    if (session->stage == STAGE_START)
        return second_layout_of(session->unfinished);
    return session->stage == STAGE_NEXT ? NEW_LAYOUT : OLD_LAYOUT;
}

/* The trace: "One Start, n Steps, one End"; the one due, unless it is over. */
static struct record record_due(const struct pomurica_session *session)
{
    if (session->stage == STAGE_START)
        return START[layout_of(session)];
    if (session->steps < session->count)
        return STEP[layout_of(session)];
    return END;
}

/* No. 6: "one unfinished record" is kept, and this one is finished; what lies behind an old one's room stays. */
static void let_record_go(struct pomurica_session *session, enum layout layout)
{
    session->held = 0;
    memset(session->unfinished, 0, STEP[layout].length);
}

/* No. 6: a fault's number is given "from then on": nothing is judged any more, and no byte kept, in either layout. */
static void keep_fault(struct pomurica_session *session, enum number fault)
{
    session->fault = fault;
    session->held = 0;
    memset(session->block, 0, sizeof session->block);
    memset(session->unfinished, 0, sizeof session->unfinished);
}

/* The trace: a Start is BAD_COUNT by its n alone, since it "may hold a block that is not good". */
static enum number take_start(struct pomurica_session *session, enum layout layout)
{
    const uint32_t n = get_word(session->unfinished + START_COUNT);

    if (n > MOST_STEPS)
        return BAD_COUNT;
    session->stage = layout == OLD_LAYOUT ? STAGE_OLD_NEXT : STAGE_NEXT;
    session->count = n;
    session->steps = 0;
    memcpy(session->block, session->unfinished + START_BLOCK, BLOCK_LENGTH[layout]);
    return DONE;
}

/* The trace: a right Step leaves its "block after" as the last block; No. 11: an old one without HDCR, which is 0. */
static enum number take_step(struct pomurica_session *session, enum layout layout)
{
    uint8_t block[BLOCK_SIZE];

    second_take_block(layout, session->block, block);
    if (!second_is_right_step(layout, session->unfinished, block))
        return WRONG_STEP;
    memcpy(session->block, block, BLOCK_LENGTH[layout]);
    session->steps++;
    return DONE;
}

/* The trace: "End's differing", from the Steps found right, which are n where an End is due. */
static enum number take_end(struct pomurica_session *session)
{
    if (get_word(session->unfinished + END_COUNT) != session->steps)
        return BAD_COUNT;
    session->stage = STAGE_OVER;
    return DONE;
}

/* The trace: a whole record; length and kind once more, since in a session that nobody opened they were never asked. */
static enum number take_record(struct pomurica_session *session, struct record due, enum layout layout)
{
    if (!second_is_due(session->unfinished, due))
        return BAD_RECORD;
    if (due.kind == START[layout].kind)
        return take_start(session, layout);
    if (due.kind == STEP[layout].kind)
        return take_step(session, layout);
    return take_end(session);
}

/* No. 6: the record has its last byte; one found right is behind the place. */
static enum number finish_record(struct pomurica_session *session, struct record due)
{
    const enum layout layout = layout_of(session); /* before the stage moves on */
    const enum number fault = take_record(session, due, layout);

    if (fault != DONE)
        return fault;
    session->place += due.length;
    let_record_go(session, layout);
    return DONE;
}

/*
 * No. 6: the fault that is known with this byte, if any: "BAD_RECORD is known with a record's fourth byte, TRAILING with its
 * first byte, the others with the record's last".
 */
static enum number take_byte(struct pomurica_session *session, uint8_t byte)
{
    struct record due;

    if (is_over(session))
        return TRAILING;
    if (session->held >= record_due(session).length) /* no feeding leaves it so: nobody opened this session */
        return DONE;
    session->unfinished[session->held] = byte;
    session->held++;
    due = record_due(session); /* by the kind, if this byte is of a Start's */
    if (session->held == HEADER_SIZE && !second_is_due(session->unfinished, due))
        return BAD_RECORD;
    if (session->held == due.length)
        return finish_record(session, due);
    return DONE;
}

/* No. 6: "opened". */
uint32_t second_open(struct pomurica_session *session)
{
    memset(session, 0, sizeof *session);
    return DONE;
}

/* No. 6: "A feeding returns 0 until a fault is known and that fault's number from then on". */
uint32_t second_feed(struct pomurica_session *session, const uint8_t *bytes, size_t bytes_len)
{
    if (session->closed != 0)
        return CLOSED;
    for (size_t i = 0; i < bytes_len && session->fault == DONE; i++) {
        const enum number fault = take_byte(session, bytes[i]);

        if (fault != DONE)
            keep_fault(session, fault);
    }
    return session->fault;
}

/* No. 6: "SHORT is given only at closing". */
static uint32_t number_of(const struct pomurica_session *session)
{
    if (session->fault != DONE)
        return session->fault;
    return is_over(session) ? DONE : SHORT;
}

/* No. 6: "the number, place and Steps"; they hang on nothing that closing changes, so that "closing again gives the same". */
uint32_t second_close(struct pomurica_session *session, uint8_t *report, size_t report_len)
{
    const uint32_t number = number_of(session);

    if (report_len != REPORT_SIZE)
        return BAD_SIZE;
    put_word(report, number);
    put_word(report + 4, session->place);
    put_word(report + 8, session->steps);
    session->closed = 1;
    return number;
}
