#include "question.h"

#include "../second/words.h"

void ask(struct chance *chance, struct question *question)
{
    any_block(chance, question->block);
    question->event = any_event(chance, question->block);
    any_bytes(chance, question->answer, ANSWER_SIZE);
    question->block_len = BLOCK_SIZE;
    question->answer_len = ANSWER_SIZE;
    if (!one_in(chance, 64))
        return;
    any_bytes(chance, question->block, sizeof question->block);
    any_bytes(chance, question->answer, sizeof question->answer);
    if (!one_in(chance, 3))
        question->block_len = any_below(chance, ASKED_MOST - 16);
    if (!one_in(chance, 3))
        question->answer_len = any_below(chance, 24);
}

void call_step(step_function *step, const struct question *question, struct call *call)
{
    const struct event *event = &question->event;
    uint8_t *block = lend(&call->block, question->block, question->block_len,
                          event->b % 16);
    uint8_t *answer = lend(&call->answer, question->answer, question->answer_len,
                           event->b / 16 % 16);

    call->number = step(block, question->block_len, event->code, event->a, event->b,
                        answer, question->answer_len);
    call->guards_kept = take_back(&call->block);
    call->guards_kept = take_back(&call->answer) && call->guards_kept;
}

const char *difference(const struct call *one, const struct call *other)
{
    if (one->number != other->number)
        return "the numbers differ";
    if (!are_same(&one->block, &other->block))
        return "the blocks differ";
    if (!are_same(&one->answer, &other->answer))
        return "the answers differ";
    return one->guards_kept && other->guards_kept ? NULL : "a guard byte changed";
}
