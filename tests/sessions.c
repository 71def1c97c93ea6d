#include "sessions.h"

#include <string.h>

/* The session, as it is lent: aligned as its words are. */
static struct pomurica_session *session_of(struct fed *fed)
{
    return (struct pomurica_session *)(void *)(fed->session.room + fed->session.start);
}

void lend_session(struct fed *fed, const struct calls *calls, const struct pomurica_session *words, size_t shift)
{
    fed->calls = calls;
    lend(&fed->session, (const uint8_t *)words, sizeof *words, sizeof(uint32_t) * shift);
}

bool take_session_back(struct fed *fed)
{
    return take_back(&fed->session);
}

struct pomurica_session words_of(const struct fed *fed)
{
    struct pomurica_session words;

    memcpy(&words, bytes_of(&fed->session), sizeof words);
    return words;
}

bool has_words(const struct fed *fed, const struct pomurica_session *words)
{
    return memcmp(bytes_of(&fed->session), words, sizeof *words) == 0;
}

uint32_t open_session(struct fed *fed)
{
    return fed->calls->open(session_of(fed));
}

uint32_t feed_session(struct fed *fed, const uint8_t *run, size_t length)
{
    return fed->calls->feed(session_of(fed), run, length);
}

void close_session(struct fed *fed, size_t report_len, struct closing *closing)
{
    static const uint8_t OLD_REPORT[LENT_MOST] = { 1, 2, 3, 4, 5, 6, 7, 8, 9, 10, 11, 12 };
    const size_t shift = report_len + fed->session.start / sizeof(uint32_t); /* with the session's, odd ones too */
    uint8_t *report = lend(&closing->report, OLD_REPORT, report_len, shift % (MOST_SHIFT + 1));

    closing->number = fed->calls->close(session_of(fed), report, report_len);
    closing->guards_kept = take_back(&closing->report);
}

enum due due_of(const struct pomurica_session *words)
{
    if (words->stage == POMURICA_STAGE_START)
        return DUE_START;
    if (words->stage >= POMURICA_STAGE_OVER)
        return DUE_NONE;
    return words->steps < words->count ? DUE_STEP : DUE_END;
}

bool is_in_old(const struct pomurica_session *words)
{
    if (words->stage == POMURICA_STAGE_START)
        return pomurica_get_word(words->unfinished, POMURICA_RECORD_HEAD) >> 16 != POMURICA_KIND_START;
    return words->stage == POMURICA_STAGE_OLD_NEXT;
}

size_t size_due(const struct pomurica_session *words)
{
    return head_due(words) & 0xFFFF;
}

uint32_t head_due(const struct pomurica_session *words)
{
    static const uint32_t HEADS[][DUES] = {
        { POMURICA_START_HEAD, POMURICA_STEP_HEAD, POMURICA_END_HEAD, 0 },
        { POMURICA_OLD_START_HEAD, POMURICA_OLD_STEP_HEAD, POMURICA_END_HEAD, 0 },
    };

    return HEADS[is_in_old(words)][due_of(words)];
}
