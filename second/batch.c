/*
 * The batch of No. 2 of document 02: a step for each event of the list, one
 * after another on the one block, and what it answers into the same place of
 * the other list.
 */
#include "second.h"
#include "words.h"

#include "pomurica.h"

/* No. 2: "a refused event in the middle gets its number", with the value 0, as a done one has both from its step. */
static struct pomurica_answer answer_to(const struct pomurica_event *event, uint8_t *block)
{
    uint8_t bytes[ANSWER_SIZE];
    struct pomurica_answer answer;

    second_step(block, BLOCK_SIZE, event->code, event->a, event->b, bytes, sizeof bytes);
    answer.number = get_word(bytes);
    answer.value = get_word(bytes + 4);
    return answer;
}

/* No. 2: "block and answers are those of single steps done in order"; No. 11: the batch takes "180 bytes only". */
uint32_t second_batch(const struct pomurica_event *events, size_t events_len,
                      struct pomurica_answer *answers, size_t answers_len,
                      uint8_t *block, size_t block_len)
{
    if (events_len != answers_len || block_len != BLOCK_SIZE)
        return BAD_SIZE;
    for (size_t i = 0; i < events_len; i++)
        answers[i] = answer_to(&events[i], block);
    return DONE;
}
