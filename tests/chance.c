#include "chance.h"

#include "../second/words.h"

const uint8_t MODES[MODE_COUNT] = {
    MODE_USER, MODE_FIQ, MODE_IRQ, MODE_SUPERVISOR, MODE_MONITOR,
    MODE_ABORT, MODE_HYP, MODE_UNDEFINED, MODE_SYSTEM
};

const struct saving SAVINGS[SAVING_COUNT] = {
    { MODE_FIQ, SPSR_fiq, LR_fiq }, { MODE_IRQ, SPSR_irq, LR_irq }, { MODE_SUPERVISOR, SPSR_svc, LR_svc },
    { MODE_MONITOR, SPSR_mon, LR_mon }, { MODE_ABORT, SPSR_abt, LR_abt }, { MODE_HYP, SPSR_hyp, ELR_hyp },
    { MODE_UNDEFINED, SPSR_und, LR_und },
};

/* What a return may take off LR. */
static const uint32_t OFF_LR[] = { 0, 2, 4, 8 };
#define OFF_COUNT (sizeof OFF_LR / sizeof OFF_LR[0])

const uint32_t LARGEST_A[CODES] = {
    [CODE_PREFETCH_ABORT] = ABORT_DEBUG,
    [CODE_DATA_ABORT] = 3,
    [CODE_INTERRUPT_CHECK] = LINE_SERROR | LINE_FIQ | LINE_IRQ,
    [CODE_BANKED_READ] = 63,
    [CODE_BANKED_WRITE] = 63,
    [CODE_NOTE] = PLACES - 1,
    [CODE_RETURN] = 8,
};

/* The places of a block that the numbers are for. */
static uint32_t places(const struct chance *chance)
{
    return chance->old ? OLD_PLACES : PLACES;
}

/* The largest A of a code there; 0 of a number that is none. */
static uint32_t largest_a(const struct chance *chance, uint32_t code)
{
    if (code == CODE_NOTE)
        return places(chance) - 1;
    if (chance->old && code == CODE_PREFETCH_ABORT)
        return LARGEST_A[CODE_DATA_ABORT];
    if (chance->old && code == CODE_INTERRUPT_CHECK)
        return LARGEST_A[code] | LINE_VFIQ | LINE_VIRQ;
    return code < CODES ? LARGEST_A[code] : 0;
}

/* SplitMix64. */
uint32_t any_word(struct chance *chance)
{
    uint64_t mixed = chance->seed += UINT64_C(0x9E3779B97F4A7C15);

    mixed = (mixed ^ mixed >> 30) * UINT64_C(0xBF58476D1CE4E5B9);
    mixed = (mixed ^ mixed >> 27) * UINT64_C(0x94D049BB133111EB);
    return (uint32_t)(mixed >> 32);
}

uint32_t any_below(struct chance *chance, uint32_t limit)
{
    return (uint32_t)((uint64_t)any_word(chance) * limit >> 32);
}

bool one_in(struct chance *chance, uint32_t times)
{
    return any_below(chance, times) == 0;
}

void choose_layout(struct chance *chance)
{
    chance->old = chance->strays = one_in(chance, 2);
}

void leave_layout(struct chance *chance)
{
    chance->old = chance->strays = false;
}

/* A word of one bit. */
static uint32_t any_bit(struct chance *chance)
{
    return UINT32_C(1) << any_below(chance, 32);
}

void any_bytes(struct chance *chance, uint8_t *bytes, size_t length)
{
    for (size_t i = 0; i < length; i++)
        bytes[i] = (uint8_t)any_word(chance);
}

static void put(uint8_t *block, uint32_t place, uint32_t word)
{
    put_word(block + 4 * place, word);
}

static uint32_t get(const uint8_t *block, uint32_t place)
{
    return get_word(block + 4 * place);
}

/* A CPSR of the mode, with bits 24-21 zero. */
static uint32_t any_cpsr(struct chance *chance, uint32_t mode)
{
    return (any_word(chance) & ~(uint32_t)(CPSR_24_TO_21 | CPSR_MODE)) | mode;
}

/* One of bits 24-21. */
static uint32_t any_of_24_to_21(struct chance *chance)
{
    return UINT32_C(1) << (21 + any_below(chance, 4));
}

/* A saved word: mostly one that a return can go by; the others name no mode, have a bit of 24-21 set, or are any. */
static uint32_t any_saved(struct chance *chance)
{
    const uint32_t saved = any_cpsr(chance, MODES[any_below(chance, MODE_COUNT)]);

    switch (any_below(chance, 16)) {
    case 0:
        return any_word(chance);
    case 1:
        return saved | any_of_24_to_21(chance);
    case 2:
    case 3:
    case 4:
        return (saved & ~(uint32_t)CPSR_MODE) | any_below(chance, CPSR_MODE + 1);
    case 5:
    case 6:
    case 7: /* as code without IT blocks leaves it */
        return saved & ~(uint32_t)CPSR_IT;
    default:
        return saved;
    }
}

static bool is_saved(uint32_t place)
{
    return place >= SPSR_fiq && place <= SPSR_hyp;
}

static bool is_el1(uint32_t mode)
{
    return mode != MODE_USER && mode != MODE_MONITOR && mode != MODE_HYP;
}

void good_block(struct chance *chance, uint8_t *block)
{
    const uint32_t mode = MODES[any_below(chance, MODE_COUNT)];
    uint32_t scr = any_word(chance), hcr = any_word(chance);

    put(block, HDCR, 0);
    for (uint32_t place = 0; place < places(chance); place++)
        put(block, place, is_saved(place) ? any_saved(chance) : any_word(chance));
    if (mode == MODE_HYP)
        scr |= SCR_NS;
    if ((scr & SCR_NS) != 0 && is_el1(mode))
        hcr &= ~(uint32_t)HCR_TGE;
    put(block, CPSR, any_cpsr(chance, mode));
    put(block, SCR, scr);
    put(block, HCR, hcr);
    if (one_in(chance, 16)) /* address sums that wrap */
        put(block, PC, 0u - any_below(chance, 16));
    for (uint32_t i = 0; i < SAVING_COUNT; i++)
        if (one_in(chance, 8)) /* and differences */
            put(block, SAVINGS[i].link, any_below(chance, 8));
}

/* A good block with one thing wrong. */
static void almost_good_block(struct chance *chance, uint8_t *block)
{
    good_block(chance, block);
    switch (any_below(chance, 3)) {
    case 0:
        put(block, CPSR, get(block, CPSR) | any_of_24_to_21(chance));
        break;
    case 1:
        put(block, CPSR, any_cpsr(chance, MODE_HYP));
        put(block, SCR, get(block, SCR) & ~(uint32_t)SCR_NS);
        break;
    default:
        put(block, CPSR, any_cpsr(chance, MODES[any_below(chance, MODE_COUNT)]));
        put(block, SCR, get(block, SCR) | SCR_NS);
        put(block, HCR, get(block, HCR) | HCR_TGE);
        break;
    }
}

void any_block(struct chance *chance, uint8_t *block)
{
    switch (any_below(chance, 32)) {
    case 0:
        put(block, HDCR, 0);
        any_bytes(chance, block, 4 * places(chance));
        break;
    case 1:
        almost_good_block(chance, block);
        break;
    default:
        good_block(chance, block);
        break;
    }
}

/* A note: now and then on a word that steers, and then mostly one that keeps the block good. */
static struct event any_note(struct chance *chance, const uint8_t *block)
{
    struct event note = { CODE_NOTE, any_below(chance, places(chance)), any_word(chance) };

    if (one_in(chance, 2)) {
        if (is_saved(note.a))
            note.b = any_saved(chance);
        return note;
    }
    note.a = CPSR + any_below(chance, HCR - CPSR + 1);
    if (one_in(chance, 4))
        return note;
    if (note.a == CPSR)
        note.b = any_cpsr(chance, MODES[any_below(chance, MODE_COUNT)]);
    if (note.a == SCR)
        note.b = (note.b & ~(uint32_t)SCR_NS) | (get(block, SCR) & SCR_NS);
    if (note.a == HCR)
        note.b &= ~(uint32_t)HCR_TGE;
    return note;
}

/* A note that changes one thing of a word that steers, and often makes a block that is not good. */
static struct event spoiling_note(struct chance *chance, const uint8_t *block)
{
    const uint32_t cpsr = get(block, CPSR);

    switch (any_below(chance, 6)) {
    case 0:
        return (struct event){ CODE_NOTE, SCR, get(block, SCR) ^ SCR_NS };
    case 1:
        return (struct event){ CODE_NOTE, HCR, get(block, HCR) ^ HCR_TGE };
    case 2:
        return (struct event){ CODE_NOTE, CPSR, cpsr ^ any_of_24_to_21(chance) };
    case 3:
        return (struct event){ CODE_NOTE, CPSR, (cpsr & ~(uint32_t)CPSR_MODE) | any_below(chance, CPSR_MODE + 1) };
    default:
        return (struct event){ CODE_NOTE, CPSR, any_cpsr(chance, MODES[any_below(chance, MODE_COUNT)]) };
    }
}

struct event event_of(struct chance *chance, uint32_t code, const uint8_t *block)
{
    struct event event = { code, 0, 0 };

    switch (code) {
    case CODE_PREFETCH_ABORT:
    case CODE_DATA_ABORT:
    case CODE_BANKED_READ:
        event.a = any_below(chance, largest_a(chance, code) + 1);
        break;
    case CODE_INTERRUPT_CHECK:
        event.a = any_below(chance, largest_a(chance, code) + 1);
        if (one_in(chance, 3)) /* with no physical one before it, a virtual one is taken: by HCR, in the old layout by its line too */
            event.a &= LINE_VFIQ | LINE_VIRQ;
        break;
    case CODE_BANKED_WRITE:
        event.a = any_below(chance, LARGEST_A[code] + 1);
        event.b = event.a > LARGEST_A[code] / 2 ? any_saved(chance) : any_word(chance); /* with R 1, of an SPSR */
        break;
    case CODE_NOTE:
        return any_note(chance, block);
    case CODE_RETURN:
        if ((get(block, CPSR) & CPSR_MODE) != MODE_HYP)
            event.a = OFF_LR[any_below(chance, OFF_COUNT)];
        break;
    default:
        break;
    }
    return event;
}

/* An A at the end of its range: the largest, one beside it, or the largest with a bit more. */
static uint32_t a_near_largest(struct chance *chance, uint32_t code)
{
    const uint32_t largest = largest_a(chance, code);

    switch (any_below(chance, 4)) {
    case 0: return largest - 1;
    case 1: return largest;
    case 2: return largest + 1;
    default: return largest | any_bit(chance);
    }
}

/* A return with an A of 0 to 9, or a right one with a bit more, and now and then with B. */
static struct event odd_return(struct chance *chance)
{
    struct event event = { CODE_RETURN, any_below(chance, LARGEST_A[CODE_RETURN] + 2), 0 };

    if (one_in(chance, 4))
        event.a = OFF_LR[any_below(chance, OFF_COUNT)] | any_bit(chance);
    if (one_in(chance, 4))
        event.b = any_bit(chance);
    return event;
}

/* An event that is mostly none: an unknown code, or an operand just or far out of its range. */
static struct event odd_event(struct chance *chance, const uint8_t *block)
{
    struct event event = event_of(chance, any_below(chance, CODES + 1), block);

    switch (any_below(chance, 8)) {
    case 0:
        event.code = one_in(chance, 2) ? any_word(chance) : event.code | any_bit(chance);
        break;
    case 1:
    case 2:
    case 3:
        event.a = a_near_largest(chance, event.code);
        break;
    default:
        event.b = any_bit(chance);
        if (one_in(chance, 8)) /* and all bits above it: the largest word of all is among these */
            event.b = 0u - event.b;
        break;
    }
    return event;
}

/* What the new layout does not know (No. 13): a check with a virtual line or both, and with any others or none. */
static struct event event_of_old(struct chance *chance)
{
    const uint32_t lines = LINE_VFIQ * (1 + any_below(chance, 3));

    return (struct event){ CODE_INTERRUPT_CHECK, lines | any_below(chance, LARGEST_A[CODE_INTERRUPT_CHECK] + 1), 0 };
}

/*
 * What the old layout does not know: a debug abort, now and then with another bit beside it, and a note on HDCR; and a
 * return with that A, which is no place there.
 */
static struct event event_of_new(struct chance *chance)
{
    switch (any_below(chance, 8)) {
    case 0:
    case 1:
        return (struct event){ CODE_NOTE, HDCR, any_word(chance) };
    case 2:
        return (struct event){ CODE_PREFETCH_ABORT, ABORT_DEBUG + any_below(chance, ABORT_DEBUG), 0 };
    case 3:
        return (struct event){ CODE_RETURN, HDCR, 0 };
    default:
        return (struct event){ CODE_PREFETCH_ABORT, ABORT_DEBUG, 0 };
    }
}

/* A note on the way to a guest that can take a virtual interrupt: else few Steps of a trace are in one. */
static struct event guest_note(struct chance *chance, const uint8_t *block)
{
    if ((get(block, SCR) & SCR_NS) == 0)
        return (struct event){ CODE_NOTE, SCR, get(block, SCR) | SCR_NS };
    if ((get(block, HCR) & HCR_TGE) != 0)
        return (struct event){ CODE_NOTE, HCR, any_word(chance) & ~(uint32_t)HCR_TGE };
    return (struct event){ CODE_NOTE, CPSR, MODES[any_below(chance, MODE_COUNT)] };
}

static bool is_unmasked(const uint8_t *block)
{
    return (get(block, CPSR) & (CPSR_A | CPSR_I | CPSR_F)) == 0;
}

/* Events that came with a later request: never among those of the old layout without strays, which stay as they were. */
static bool is_later(struct chance *chance, const uint8_t *block, struct event *event)
{
    if (chance->old && !chance->strays)
        return false;
    if (one_in(chance, 32))
        *event = event_of_new(chance);
    else if (!chance->old && one_in(chance, 48))
        *event = event_of_old(chance);
    else if (one_in(chance, 8))
        *event = guest_note(chance, block);
    else if (is_unmasked(block) && one_in(chance, 2))
        *event = event_of(chance, CODE_INTERRUPT_CHECK, block);
    else
        return false;
    return true;
}

struct event any_event(struct chance *chance, const uint8_t *block)
{
    struct event later;

    if (is_later(chance, block, &later))
        return later;
    if (one_in(chance, 10))
        return odd_event(chance, block);
    if (one_in(chance, 8)) /* the event with the most cases */
        return event_of(chance, CODE_INTERRUPT_CHECK, block);
    if (one_in(chance, 16)) /* and the one that goes by a saved word */
        return event_of(chance, CODE_RETURN, block);
    if (one_in(chance, 24)) /* and the two with the most registers */
        return event_of(chance, CODE_BANKED_READ + any_below(chance, 2), block);
    if (one_in(chance, 32))
        return spoiling_note(chance, block);
    if (one_in(chance, 64))
        return odd_return(chance);
    return event_of(chance, 1 + any_below(chance, CODES - 1), block);
}
