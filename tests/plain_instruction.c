/*
 * The instruction words once more, to be held against second/: by masks and
 * shifts of the whole word, where second/ goes by a table of fields.
 */
#include "pomurica.h"

#include <stdbool.h>
#include <string.h>

/* What each of the two has in bits 27-23, 21-20, 9 and 7-4 and in its should-be bits, and where its register lies. */
struct page {
    uint32_t code, mask, bits, shift;
};
static const struct page PAGES[] = {
    { POMURICA_EVENT_BANKED_READ, 0x0FB00EFF, 0x01000200, 12 },
    { POMURICA_EVENT_BANKED_WRITE, 0x0FB0FEF0, 0x0120F200, 0 },
};

static void put_parts(uint8_t *bytes, const struct page *page, uint32_t word)
{
    pomurica_put_word(bytes, POMURICA_PARTS_CODE, page->code);
    pomurica_put_word(bytes, POMURICA_PARTS_A, (word >> 17 & 0x20) | (word >> 4 & 0x10) | (word >> 16 & 0xF));
    pomurica_put_word(bytes, POMURICA_PARTS_CONDITION, word >> 28);
    pomurica_put_word(bytes, POMURICA_PARTS_REGISTER, word >> page->shift & 0xF);
}

static bool is_of(const struct page *page, uint32_t word)
{
    return (word & page->mask) == page->bits && word < 0xF0000000 && (word >> page->shift & 0xF) != 0xF;
}

uint32_t plain_read_instruction(uint32_t word, uint8_t *parts, size_t parts_len)
{
    if (parts_len != POMURICA_PARTS_SIZE)
        return POMURICA_BAD_SIZE;
    memset(parts, 0, POMURICA_PARTS_SIZE);
    for (int i = 0; i < 2; i++) {
        if (is_of(&PAGES[i], word)) {
            put_parts(parts, &PAGES[i], word);
            return POMURICA_DONE;
        }
    }
    return POMURICA_NOT_BANKED;
}

uint32_t plain_write_instruction(uint32_t code, uint32_t a, uint32_t condition, uint32_t reg,
                                 uint8_t *word, size_t word_len)
{
    const struct page *page = &PAGES[code % 2];

    if (word_len != POMURICA_WORD_SIZE)
        return POMURICA_BAD_SIZE;
    pomurica_put_word(word, 0, 0);
    if (page->code != code || a >> 6 != 0 || condition > POMURICA_MOST_CONDITION || reg > POMURICA_MOST_REGISTER)
        return POMURICA_NOT_BANKED;
    pomurica_put_word(word, 0, condition << 28 | page->bits | a >> 5 << 22 | (a >> 4 & 1) << 8 | (a & 0xF) << 16 |
                                   reg << page->shift);
    return POMURICA_DONE;
}
