#include "met.h"

#include <string.h>

struct met met;

/* The words of a block that steer. */
struct steering {
    uint32_t cpsr, mode, scr, hcr, hdcr;
    bool non_secure;
};

static struct steering steering_of(const uint8_t *block)
{
    struct steering words = {
        .cpsr = get_word(block + 4 * CPSR),
        .scr = get_word(block + 4 * SCR),
        .hcr = get_word(block + 4 * HCR),
        .hdcr = get_word(block + 4 * HDCR),
    };

    words.mode = words.cpsr & CPSR_MODE;
    words.non_secure = (words.scr & SCR_NS) != 0 && words.mode != MODE_MONITOR;
    return words;
}

/* The row of the masking table for a physical exception with these M, R and W; M is the stored bit or TGE. */
static uint32_t row_of(const struct steering *before, bool m, bool r, bool w)
{
    if (!before->non_secure)
        return 0;
    if (!m)
        return !r ? 1 : !w ? 2 : 3;
    if (before->mode != MODE_HYP)
        return 4;
    return !r ? 5 : 6;
}

/* The rows that a done check consulted, in order, until one let its exception be taken. */
static void count_rows(const struct steering *before, uint32_t lines)
{
    static const struct {
        uint32_t line, mask, m, r, w;
    } PHYSICAL[] = {
        { LINE_SERROR, CPSR_A, HCR_AMO, SCR_EA, SCR_AW },
        { LINE_FIQ, CPSR_F, HCR_FMO, SCR_FIQ, SCR_FW },
        { LINE_IRQ, CPSR_I, HCR_IMO, SCR_IRQ, 0 }, /* W of IRQ is no bit, but 1 */
    };
    static const bool IGNORED[ROWS] = { [2] = true, [4] = true, [6] = true };

    for (size_t i = 0; i < sizeof PHYSICAL / sizeof PHYSICAL[0]; i++) {
        const bool stored = (before->hcr & PHYSICAL[i].m) != 0, tge = (before->hcr & HCR_TGE) != 0;
        uint32_t row;

        if ((lines & PHYSICAL[i].line) == 0)
            continue;
        if ((before->cpsr & PHYSICAL[i].mask) == 0)
            return;
        row = row_of(before, stored || tge, (before->scr & PHYSICAL[i].r) != 0,
                     PHYSICAL[i].w == 0 || (before->scr & PHYSICAL[i].w) != 0);
        met.row[row]++;
        if (!stored && tge)
            met.by_tge_alone[row]++;
        if (IGNORED[row])
            return;
    }
}

/* A done check without a line, where virtual exceptions can be pending: each in order, until one is taken. */
static void count_virtual(const struct steering *before, uint32_t which)
{
    static const struct {
        uint32_t m, source, mask;
    } DECIDING[VIRTUALS] = {
        { HCR_AMO, HCR_VA, CPSR_A }, { HCR_FMO, HCR_VF, CPSR_F }, { HCR_IMO, HCR_VI, CPSR_I },
    };

    if (!before->non_secure || before->mode == MODE_HYP || (before->hcr & HCR_TGE) != 0)
        return;
    for (uint32_t i = 0; i < VIRTUALS; i++) {
        const uint32_t bits = ((before->hcr & DECIDING[i].m) != 0 ? WITH_M : 0u) |
                              ((before->hcr & DECIDING[i].source) != 0 ? WITH_SOURCE : 0u) |
                              ((before->cpsr & DECIDING[i].mask) != 0 ? WITH_MASK : 0u);
        const bool taken = which == POMURICA_WHICH_VIRTUAL_SERROR + i;

        met.virtual[i][bits][taken ? VIRTUAL_TAKEN : VIRTUAL_NOT_TAKEN]++;
        if (taken)
            return;
    }
}

/* A check with virtual lines, on a good block. */
static void count_retired(const struct event *event, uint32_t number)
{
    const uint32_t lines = event->a / LINE_VFIQ, others = event->a % LINE_VFIQ;

    if (event->code != CODE_INTERRUPT_CHECK || event->b != 0 || lines == 0 || lines > RETIRED)
        return;
    met.retired[lines - 1][others][number == BAD_EVENT ? LINE_REFUSED : LINE_KNOWN]++;
}

static bool is_debug(const struct event *event)
{
    return event->code == CODE_PREFETCH_ABORT && event->a == ABORT_DEBUG;
}

/* The way of an abort to Monitor or Hyp. */
static enum way way_of_abort(const struct event *event, uint32_t target, bool by_tge)
{
    const bool is_prefetch = event->code == CODE_PREFETCH_ABORT;
    const bool is_stage_2 = (event->a & ABORT_STAGE_2) != 0;

    if (is_debug(event))
        return target == MODE_HYP ? DEBUG_TO_HYP : WAYS;
    if (target == MODE_MONITOR && is_stage_2)
        return STAGE_2_BY_EA;
    if (target == MODE_MONITOR)
        return is_prefetch ? PREFETCH_ABORT_BY_EA : DATA_ABORT_BY_EA;
    if (target == MODE_HYP && is_stage_2)
        return STAGE_2_TO_HYP;
    if (by_tge)
        return is_prefetch ? PREFETCH_ABORT_BY_TGE : DATA_ABORT_BY_TGE;
    return WAYS;
}

/* The way of an entry; WAYS for one that is not among them. */
static enum way way_of(const struct event *event, const struct steering *before, uint32_t which, uint32_t target)
{
    static const uint32_t M[WHICH_COUNT] = { 0, HCR_AMO, HCR_FMO, HCR_IMO };
    /* From User, only TGE leads these to Hyp: codes 1 and 2, aborts not of stage 2, interrupts with M 0. */
    const bool by_tge = target == MODE_HYP && before->mode == MODE_USER;

    switch (event->code) {
    case CODE_UNDEFINED:
        return by_tge ? UNDEFINED_BY_TGE : WAYS;
    case CODE_SVC:
        return by_tge ? SVC_BY_TGE : WAYS;
    case CODE_SMC:
        return target == MODE_HYP ? SMC_BY_TSC : WAYS;
    case CODE_PREFETCH_ABORT:
    case CODE_DATA_ABORT:
        return way_of_abort(event, target, by_tge);
    case CODE_INTERRUPT_CHECK:
        return by_tge && (before->hcr & M[which]) == 0 ? INTERRUPT_BY_TGE : WAYS;
    default:
        return WAYS;
    }
}

static void count_entry(const struct event *event, const struct steering *before, uint32_t value, const uint8_t *block)
{
    const struct steering after = steering_of(block);
    const uint32_t which = value >> 16, target = value >> 8 & CPSR_MODE, offset = value & 0xFF;

    met.which[which]++;
    met.target[target]++;
    if ((before->scr & ~after.scr & SCR_NS) != 0)
        met.ns_cleared[target]++;
    if (get_word(block + 4 * PC) - offset == 0xFFFF0000)
        met.high[target][after.scr & SCR_NS]++;
    met.way[way_of(event, before, which, target)]++;
}

static void count_done(const struct event *event, const struct steering *before, const struct call *call)
{
    const uint32_t value = get_word(bytes_of(&call->answer) + 4);

    met.done++;
    if (event->code == CODE_INTERRUPT_CHECK) {
        count_rows(before, event->a);
        if (event->a == 0)
            count_virtual(before, value >> 16);
        if (value == 0)
            met.nothing_taken++;
    }
    if (event->code <= CODE_INTERRUPT_CHECK && value != 0)
        count_entry(event, before, value, bytes_of(&call->block));
}

static enum caller caller_of(const struct steering *before)
{
    switch (before->mode) {
    case MODE_USER: return FROM_USER;
    case MODE_MONITOR: return FROM_MONITOR;
    case MODE_HYP: return FROM_HYP;
    default: return before->non_secure ? FROM_NS_EL1 : FROM_SECURE;
    }
}

/* Of those that are done, an SMC that enters Hyp was trapped. */
static enum call_end end_of(enum call_kind kind, const struct call *call)
{
    const uint32_t target = get_word(bytes_of(&call->answer) + 4) >> 8 & CPSR_MODE;

    if (call->number != DONE)
        return call->number == DISABLED ? CALL_DISABLED : CALL_NOT_HERE;
    return kind == CALL_SMC && target == MODE_HYP ? CALL_TRAPPED : CALL_TAKEN;
}

/* An SMC or an HVC without operands, on a good block. */
static void count_call(enum call_kind kind, const struct steering *before, const struct call *call)
{
    const uint32_t bits = ((before->scr & SCR_HCE) != 0 ? WITH_HCE : 0u) | ((before->scr & SCR_SCD) != 0 ? WITH_SCD : 0u) |
                          ((before->hcr & HCR_TSC) != 0 ? WITH_TSC : 0u);

    met.call[kind][caller_of(before)][bits][end_of(kind, call)]++;
}

/* A done debug abort, by the offset that its value has. */
static void count_debug(const struct steering *before, uint32_t value)
{
    const bool tge = (before->hcr & HCR_TGE) != 0, tde = (before->hdcr & HDCR_TDE) != 0;
    const enum debug_end end = (value >> 8 & CPSR_MODE) != MODE_HYP ? DEBUG_ABORT
                               : (value & 0xFF) == 0x14             ? DEBUG_HYP
                                                                    : DEBUG_IN_HYP;

    met.debug[before->mode][before->scr & SCR_NS][tge][tde][end]++;
}

/* What only the block with HDCR knows, on a good block. */
static void count_new(const struct event *event, const struct steering *before, const struct call *call)
{
    const bool is_beside = event->code == CODE_PREFETCH_ABORT && event->a > ABORT_DEBUG && event->a < 2 * ABORT_DEBUG;
    const bool tde = (before->hdcr & HDCR_TDE) != 0;

    if (is_debug(event) && call->number == DONE)
        count_debug(before, get_word(bytes_of(&call->answer) + 4));
    if (is_beside && event->b == 0 && call->number == BAD_EVENT)
        met.beside_debug[event->a - ABORT_DEBUG]++;
    if (event->code == CODE_NOTE && event->a == HDCR && call->number == DONE)
        met.note_on_hdcr[tde] += ((event->b ^ before->hdcr) & HDCR_TDE) != 0;
}

/* Operands at the ends of their ranges, on a good block; the other operand is in its range. */
static void count_operands(const struct event *event)
{
    const uint32_t largest = LARGEST_A[event->code];
    const bool takes_b = event->code == CODE_BANKED_WRITE || event->code == CODE_NOTE;

    if (event->b == 0 || takes_b) {
        met.largest[event->code] += event->a == largest;
        met.above[event->code] += event->a == largest + 1;
    }
    if (event->a <= largest && event->b != 0 && (event->b & (event->b - 1)) == 0)
        for (uint32_t bit = 0; bit < BITS; bit++)
            met.b_bit[event->code][bit] += event->b == UINT32_C(1) << bit;
}

static bool is_el1(uint32_t mode)
{
    return mode != MODE_USER && mode != MODE_MONITOR && mode != MODE_HYP;
}

/* What is wrong with these words, a bit for each fault; 0 for those of a good block. */
static uint32_t faults_of(const struct steering *words)
{
    if (memchr(MODES, (int)words->mode, MODE_COUNT) == NULL)
        return 1u << NO_MODE;
    return ((words->cpsr & CPSR_24_TO_21) != 0 ? 1u << BITS_24_TO_21 : 0) |
           (words->mode == MODE_HYP && !words->non_secure ? 1u << HYP_WITHOUT_NS : 0) |
           (is_el1(words->mode) && words->non_secure && (words->hcr & HCR_TGE) != 0 ? 1u << EL1_UNDER_TGE : 0);
}

/* A note on a good block that is refused for one fault alone of the block it would make. */
static void count_note(const struct question *question, const struct steering *before)
{
    static const uint32_t PLACE[STEERING_WORDS] = { CPSR, SCR, HCR };
    const struct event *note = &question->event;
    uint8_t made[BLOCK_SIZE];
    struct steering after;

    if (note->a >= PLACES || faults_of(before) != 0)
        return;
    memcpy(made, question->block, sizeof made);
    put_word(made + 4 * note->a, note->b);
    after = steering_of(made);
    for (uint32_t word = 0; word < STEERING_WORDS; word++)
        for (uint32_t fault = 0; fault < FAULTS; fault++)
            met.spoilt[word][fault] += note->a == PLACE[word] && faults_of(&after) == 1u << fault;
}

/* Of a mode that has an SPSR; NULL for another. */
static const struct saving *saving_of(uint32_t mode)
{
    for (uint32_t i = 0; i < SAVING_COUNT; i++)
        if (SAVINGS[i].mode == mode)
            return &SAVINGS[i];
    return NULL;
}

/* A done return: of a legal one CPSR is the saved word; an illegal one keeps a mode that is another than the saved one. */
static void count_returned(const struct steering *before, uint32_t saved, uint32_t link, uint32_t a, const uint8_t *after)
{
    const enum return_end end = get_word(after + 4 * CPSR) == saved ? LEGAL : ILLEGAL;
    const bool tge = (before->hcr & HCR_TGE) != 0, t = (saved & CPSR_T) != 0;

    met.returns.to[before->mode][before->scr & SCR_NS][tge][saved & CPSR_MODE][end]++;
    met.returns.fields[end][(saved & CPSR_IL) != 0][(saved & CPSR_IT) != 0]++;
    met.returns.address[end][t][(link - a) % 4]++;
    met.returns.wrapped[a] += link < a;
}

/* From Hyp 0; elsewhere 0, 2, 4 or 8. */
static bool is_right_a(uint32_t mode, uint32_t a)
{
    return a == 0 || (mode != MODE_HYP && (a == 2 || a == 4 || a == 8));
}

/* A return that is refused for its saved word, whatever its operands are. */
static void count_bad_saved(const struct event *event, uint32_t mode, uint32_t saved)
{
    for (uint32_t bit = 0; bit < SAVED_BITS; bit++)
        met.returns.bit[mode][bit] += (saved & CPSR_24_TO_21) == UINT32_C(1) << (FIRST_SAVED_BIT + bit);
    met.returns.before[WRONG_A] += event->b == 0 && !is_right_a(mode, event->a);
    met.returns.before[WRONG_B] += event->b != 0 && is_right_a(mode, event->a);
}

/* A return whose saved word is not at fault, or that has none. */
static void count_return_operand(const struct event *event, uint32_t mode, uint32_t number)
{
    static const uint32_t NUMBERS[OPERAND_ENDS] = { DONE, BAD_EVENT, NOT_HERE };
    uint32_t operand = event->a < LARGER_A ? event->a : LARGER_A;

    if (event->b != 0 && !is_right_a(mode, event->a))
        return;
    if (event->b != 0)
        operand = WITH_B;
    for (uint32_t end = 0; end < OPERAND_ENDS; end++)
        met.returns.operand[mode][operand][end] += number == NUMBERS[end];
}

/* A return on a good block. */
static void count_return(const struct question *question, const struct steering *before, const struct call *call)
{
    const struct event *event = &question->event;
    const struct saving *saving = saving_of(before->mode);
    const uint32_t saved = saving == NULL ? 0 : get_word(question->block + 4 * saving->spsr);

    if ((saved & CPSR_24_TO_21) == 0)
        count_return_operand(event, before->mode, call->number);
    else if (call->number == BAD_STATE)
        count_bad_saved(event, before->mode, saved);
    if (call->number == DONE)
        count_returned(before, saved, get_word(question->block + 4 * saving->link), event->a, bytes_of(&call->block));
}

static void count_access(const struct event *event, const struct steering *before, uint32_t number)
{
    const enum right right = number == DONE           ? ALLOWED
                             : number == NO_RIGHT     ? DENIED
                             : number == OWN_REGISTER ? OWN
                                                      : EMPTY;

    met.right[event->a][before->mode][before->scr & SCR_NS][right]
             [event->code == CODE_BANKED_READ ? BANKED_READ : BANKED_WRITE]++;
}

void count_step(const struct question *question, const struct call *call)
{
    const struct event *event = &question->event;
    const uint32_t number = call->number;
    struct steering before;

    met.steps++;
    met.number[number]++;
    if (number == BAD_SIZE || event->code == 0 || event->code >= CODES)
        return;
    before = steering_of(question->block);
    if (event->code == CODE_NOTE && (number == BAD_MODE || number == BAD_STATE))
        count_note(question, &before);
    if (event->code == CODE_RETURN && faults_of(&before) == 0)
        count_return(question, &before, call);
    if (number == DONE || number >= BAD_EVENT) {
        count_operands(event);
        count_new(event, &before, call);
        count_retired(event, number);
    }
    if (number == DONE || number >= NOT_HERE) {
        met.judged[event->code][before.mode]++;
        if (event->code == CODE_BANKED_READ || event->code == CODE_BANKED_WRITE)
            count_access(event, &before, number);
        if (event->code == CODE_SMC || event->code == CODE_HVC)
            count_call(event->code == CODE_SMC ? CALL_SMC : CALL_HVC, &before, call);
    }
    if (number == DONE)
        count_done(event, &before, call);
}
