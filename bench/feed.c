/*
 * The session, written for speed: records that lie whole in a run are judged
 * where they lie, the Steps of a run on one working copy of the block; only a
 * Start, of which there is one, and a record that is cut are put together.  Also
 * for words that no feeding left it does what a byte at a time would do.
 */
#include "check.c"

/* A record that is due behind the Start. */
struct due {
    uint32_t head;
    size_t size;
};

ALWAYS_INLINE struct due due_of(const struct pomurica_session *session)
{
    const bool old = session->stage == POMURICA_STAGE_OLD_NEXT;

    if (session->steps < session->count)
        return (struct due){ IN(old, STEP_HEAD), IN(old, STEP_SIZE) };
    return (struct due){ POMURICA_END_HEAD, POMURICA_END_SIZE };
}

/* Nothing is held any more; an old record has less room, and what lies behind it stays. */
ALWAYS_INLINE void let_go(struct pomurica_session *session, bool old)
{
    session->held = 0;
    if (old)
        memset(session->unfinished, 0, POMURICA_OLD_STEP_SIZE);
    else
        memset(session->unfinished, 0, POMURICA_STEP_SIZE);
}

/* A fault leaves nothing of block and record, in either layout.  Apart, so that a right record pays nothing for it. */
static __attribute__((noinline, cold)) void fail(struct pomurica_session *session, uint32_t number)
{
    session->fault = number;
    memset(session->block, 0, sizeof session->block);
    let_go(session, false);
}

/* A Start that is held whole. */
static void take_start(struct pomurica_session *session)
{
    const uint8_t *const start = session->unfinished;
    const bool old = is_old(start);

    if (get(start, 0) != IN(old, START_HEAD)) {
        fail(session, POMURICA_BAD_RECORD);
        return;
    }
    if (get(start, COUNT) > POMURICA_MOST_STEPS) {
        fail(session, POMURICA_BAD_COUNT);
        return;
    }
    session->stage = old ? POMURICA_STAGE_OLD_NEXT : POMURICA_STAGE_NEXT;
    session->count = get(start, COUNT);
    session->steps = 0;
    session->place += IN(old, START_SIZE);
    memcpy(session->block, start + 4 * START_BLOCK, IN(old, BLOCK_SIZE));
    let_go(session, old);
}

/* The next bytes of the Start: those of its head, which tells the layout, or all others; gives how many they are. */
static __attribute__((noinline)) size_t take_for_start(struct pomurica_session *session, const uint8_t *bytes,
                                                       size_t left)
{
    const size_t held = session->held;
    const size_t size = held < HEAD_SIZE ? HEAD_SIZE : IN(is_old(session->unfinished), START_SIZE);
    const size_t more = held >= size || left < size - held ? left : size - held;

    if (held >= size) /* no feeding leaves it so */
        return left;
    memcpy(session->unfinished + held, bytes, more);
    session->held = (uint32_t)(held + more);
    if (session->held < size)
        return more;
    if (size != HEAD_SIZE)
        take_start(session);
    else if (get(session->unfinished, 0) != IN(is_old(session->unfinished), START_HEAD))
        fail(session, POMURICA_BAD_RECORD);
    return more;
}

ALWAYS_INLINE void take_end(struct pomurica_session *session, const uint8_t *record)
{
    if (UNLIKELY(get(record, 0) != POMURICA_END_HEAD)) {
        fail(session, POMURICA_BAD_RECORD);
        return;
    }
    if (UNLIKELY(get(record, COUNT) != session->steps)) {
        fail(session, POMURICA_BAD_COUNT);
        return;
    }
    session->stage = POMURICA_STAGE_OVER;
    session->place += POMURICA_END_SIZE;
}

/* The Steps that lie one behind another in so many bytes, at least one, as far as Steps are due; gives their bytes. */
ALWAYS_INLINE size_t take_steps_in(bool old, struct pomurica_session *session, const uint8_t *bytes, size_t left)
{
    _Alignas(LANES) uint8_t outcome[OUTCOME_SIZE];
    uint8_t *const block = outcome + POMURICA_ANSWER_SIZE;
    const size_t whole = left / IN(old, STEP_SIZE), due = session->count - session->steps;
    const size_t most = whole < due ? whole : due;
    uint32_t number = POMURICA_DONE;
    size_t taken = 0;

    take_block(old, session->block, block);
    for (; taken < most; taken++, bytes += IN(old, STEP_SIZE)) {
        if (UNLIKELY(get(bytes, 0) != IN(old, STEP_HEAD))) {
            number = POMURICA_BAD_RECORD;
            break;
        }
        if (UNLIKELY(!is_right(old, bytes, outcome))) {
            number = POMURICA_WRONG_STEP;
            break;
        }
    }
    memcpy(session->block, block, IN(old, BLOCK_SIZE));
    session->steps += (uint32_t)taken;
    session->place += (uint32_t)taken * IN(old, STEP_SIZE);
    if (UNLIKELY(number != POMURICA_DONE))
        fail(session, number);
    return taken * IN(old, STEP_SIZE);
}

static size_t take_steps(struct pomurica_session *session, const uint8_t *bytes, size_t left)
{
    return take_steps_in(false, session, bytes, left);
}

static size_t take_old_steps(struct pomurica_session *session, const uint8_t *bytes, size_t left)
{
    return take_steps_in(true, session, bytes, left);
}

/* The record due, which begins these bytes and lies whole in them; of Steps as many as do.  Gives their bytes. */
ALWAYS_INLINE size_t take_whole(struct pomurica_session *session, const uint8_t *bytes, size_t left)
{
    if (session->steps < session->count)
        return session->stage == POMURICA_STAGE_OLD_NEXT ? take_old_steps(session, bytes, left)
                                                         : take_steps(session, bytes, left);
    take_end(session, bytes);
    return POMURICA_END_SIZE;
}

/* Whether so many bytes end before the record due does. */
ALWAYS_INLINE bool is_part(const struct pomurica_session *session, size_t size, size_t left)
{
    return left < size && session->held < size - left;
}

/* Counts bytes that were put behind those held, and judges the head where they have made it whole. */
ALWAYS_INLINE void hold(struct pomurica_session *session, uint32_t head, size_t more)
{
    const size_t before = session->held;

    session->held = (uint32_t)(before + more);
    if (before < HEAD_SIZE && before + more >= HEAD_SIZE && UNLIKELY(get(session->unfinished, 0) != head))
        fail(session, POMURICA_BAD_RECORD);
}

/* The rest of the record due, of which some bytes are held; gives how many they are. */
ALWAYS_INLINE size_t take_rest(struct pomurica_session *session, size_t size, const uint8_t *bytes)
{
    const size_t rest = size - session->held;

    memcpy(session->unfinished + session->held, bytes, rest);
    take_whole(session, session->unfinished, size);
    return rest;
}

/* The next bytes of a session that is open and without a fault; gives how many it has done with. */
ALWAYS_INLINE size_t take(struct pomurica_session *session, const uint8_t *bytes, size_t left)
{
    const struct due due = due_of(session);
    const bool old = session->stage == POMURICA_STAGE_OLD_NEXT;
    size_t taken;

    if (UNLIKELY(session->stage == POMURICA_STAGE_START))
        return take_for_start(session, bytes, left);
    if (UNLIKELY(session->stage >= POMURICA_STAGE_OVER)) {
        fail(session, POMURICA_TRAILING);
        return left;
    }
    if (UNLIKELY(session->held >= due.size))
        return left;
    if (is_part(session, due.size, left)) {
        memcpy(session->unfinished + session->held, bytes, left);
        hold(session, due.head, left);
        return left;
    }
    taken = session->held == 0 ? take_whole(session, bytes, left) : take_rest(session, due.size, bytes);
    let_go(session, old);
    return taken;
}

/* Apart, so that a byte by itself pays nothing for it. */
static __attribute__((noinline)) uint32_t feed_run(struct pomurica_session *session, const uint8_t *bytes, size_t left)
{
    while (left != 0 && session->fault == 0) {
        const size_t taken = take(session, bytes, left);

        bytes += taken;
        left -= taken;
    }
    return session->fault;
}

uint32_t fast_open(struct pomurica_session *session)
{
    memset(session, 0, sizeof *session);
    return POMURICA_DONE;
}

/* Whether a Step or the End is due. */
ALWAYS_INLINE bool is_next(const struct pomurica_session *session)
{
    return session->stage == POMURICA_STAGE_NEXT || session->stage == POMURICA_STAGE_OLD_NEXT;
}

uint32_t fast_feed(struct pomurica_session *session, const uint8_t *bytes, size_t bytes_len)
{
    const struct due due = due_of(session);

    if (UNLIKELY(session->closed != 0))
        return POMURICA_CLOSED;
    if (bytes_len != 1 || session->fault != 0 || !is_next(session) || !is_part(session, due.size, 1))
        return feed_run(session, bytes, bytes_len);
    session->unfinished[session->held] = bytes[0];
    hold(session, due.head, 1);
    return session->fault;
}

uint32_t fast_close(struct pomurica_session *session, uint8_t *report, size_t report_len)
{
    uint32_t number = session->fault;

    if (report_len != POMURICA_REPORT_SIZE)
        return POMURICA_BAD_SIZE;
    if (number == POMURICA_DONE && session->stage < POMURICA_STAGE_OVER)
        number = POMURICA_SHORT;
    put(report, POMURICA_REPORT_NUMBER, number);
    put(report, POMURICA_REPORT_PLACE, session->place);
    put(report, POMURICA_REPORT_STEPS, session->steps);
    session->closed = 1;
    return number;
}
