/* What the fuzz targets share: words drawn from the input bytes, memory that is lent to the
 * calls, and the questions that every card is asked. What must hold is an assert: where it
 * does not, the target ends there and libFuzzer keeps the input. */
#ifndef FUZZ_H
#define FUZZ_H

#include <assert.h>
#include <stdbool.h>
#include <stddef.h>
#include <stdint.h>

#include "gameindex.h"

/* ---- words drawn from the input */

/* The input bytes that are still to be used. */
struct drawn {
    const uint8_t *bytes;
    size_t length;
};

/* The next byte; 0 where there is none. */
uint32_t draw_byte(struct drawn *from);

/* The next four bytes as a word, lowest first. */
uint32_t draw_word(struct drawn *from);

/* A number that is small most of the time: a byte, or behind a high byte a word. */
uint32_t draw_number(struct drawn *from);

/* ---- memory that is lent */

/* Words in memory of their own, exactly as long: the sanitizer sees a touch beyond it. */
struct words {
    uint32_t *at;
    size_t count;
};

struct words words_of(const uint32_t *at, size_t count);
struct words words_blank(size_t count); /* with a mark in each word */
void words_free(struct words words);
bool words_same(struct words one, struct words other);

/* A copy with marks before and behind it, for the library, which no sanitizer watches. */
struct words lend(struct words words);

/* Sees that the marks are there, and gives the copy back. */
void take_back(struct words lent);

/* The same, and sees that no word of the copy has changed. */
void take_back_unchanged(struct words lent, struct words before);

/* Up to four words that a call gives one by one, at 1, 3, 5 and 7, with marks between them. */
struct told {
    uint32_t at[9];
};

/* The same of lengths, at 1 and 3. */
struct told_lengths {
    size_t at[5];
};

struct told told_nothing(void);
struct told_lengths told_no_lengths(void);
bool told_same(struct told one, struct told other);
void told_whole(struct told told);                 /* the marks are there */
void told_lengths_whole(struct told_lengths told); /* the marks are there */

/* ---- cards and batches drawn from the input */

/* A batch: by its first byte raw words, or records that are sorted and have arrival
 * numbers of their own, with a word spoiled now and then. */
struct words draw_batch(struct drawn *from);

/* A card: by its first byte raw words, or one that the library made: formatted, filled by
 * a batch, some steps of another made, and now and then a word spoiled. */
struct words draw_card(struct drawn *from);

/* Makes up to so many steps. Gives the number of the last one. */
uint32_t make_steps(struct words card, struct words batch, size_t most, bool *finished);

/* ---- questions */

struct question {
    uint32_t term;
    uint32_t from;
    uint32_t to;
};

struct question draw_question(struct drawn *from);

/* Asks a card that the judge gave this number for, with so many words for the answer:
 * lookup, read, view and page agree with the plain C lookup and with each other. */
void ask(struct words card, uint32_t judged, struct question asked, size_t room);

/* ---- files */

/* The name of a file in a folder of this run, which is removed at its end. */
const char *file_name(const char *name);

/* Makes the file of this name anew. */
void file_make(const char *path, const void *bytes, size_t length);

#endif
