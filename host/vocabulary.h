/*
 * The words of a script (script.h): each event, line, kind of abort and amount
 * taken off LR has one, and stands here in a table by its number; a register and
 * a place have their name in phrases.h, which the console shows.
 */
#ifndef VOCABULARY_H
#define VOCABULARY_H

#include <stdbool.h>
#include <stddef.h>
#include <stdint.h>
#include <stdio.h>

/* Words by their numbers, from 0 to before the end; NULL for a number that has none. */
struct words {
    const char *what; /* what each of them is: "a banked register" */
    uint32_t end;
    const char *(*word)(uint32_t number);
    uint32_t alone; /* the number of the flag that no other stands beside; 0 for none */
};

extern const struct words EVENTS;          /* by code; 0, no event's, has the word for an event in plain numbers */
extern const struct words PLACES;          /* by place of the block */
extern const struct words REGISTERS;       /* by A of a banked access */
extern const struct words PREFETCH_ABORTS; /* enum pomurica_abort */
extern const struct words DATA_ABORTS;     /* the same without debug */
extern const struct words LINES;           /* enum pomurica_line */
extern const struct words AMOUNTS;         /* by A of a return, above 0: what is taken off LR */

/* What follows the word of an event. */
enum operand {
    NO_OPERAND,
    PREFETCH_FLAGS, DATA_FLAGS, LINE_FLAGS, /* any of the words, each at most once, in any order: A is their sum */
    REGISTER, PLACE,                        /* one word: A */
    AMOUNT,                                 /* one word, or none: A */
    NEW_WORD,                               /* a number: B */
    CODE_NUMBER, A_NUMBER, B_NUMBER
};

/* The operands of an event in their order; NO_OPERAND is behind the last. */
const enum operand *operands_of(uint32_t code);

/* Finds the number of a word, spelled exactly so; gives whether it is one of these. */
bool find_word(const struct words *words, const char *text, size_t length, uint32_t *number);

/* The word that differs from the text only in capitals, or in `-` and `_`; NULL where none does. */
const char *word_alike(const struct words *words, const char *text, size_t length);

/* Every word there is, for a person: the events with their operands, the registers and the places. */
void tell_vocabulary(FILE *out);

#endif
