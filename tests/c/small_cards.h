/* What the C tests share: counted checks, and small cards written out by hand. */
#ifndef SMALL_CARDS_H
#define SMALL_CARDS_H

#include <inttypes.h>
#include <stdbool.h>
#include <stdio.h>
#include <stdlib.h>
#include <string.h>

#include "gameindex.h"

extern int passed;
extern int failed;

/* The tests, by the functions that they call. */
void test_format_judge(void);
void test_step(void);
void test_forecast(void);
void test_lookup(void);
void test_page(void);
void test_scores(void);
void test_cases(void);
void test_arrival(void);

static inline void check(bool holds, const char *group, const char *what) {
    if (holds) {
        passed++;
        return;
    }
    failed++;
    printf("FAILED: %s: %s\n", group, what);
}

static inline void check_number(uint32_t got, uint32_t expected, const char *group, const char *what) {
    check(got == expected, group, what);
    if (got != expected)
        printf("        number %" PRIu32 ", expected %" PRIu32 "\n", got, expected);
}

/* ---- cards of 8-word blocks */

enum {
    B = 8,
    N = 4,
    MAP = GI_CONFIG_WORDS,
    PLACES = MAP + GI_MAP_ENTRY_WORDS * N,
    WORDS = PLACES + N * B /* 48 */
};

#define UNUSED 0xdeadbeef

/* A card of N = 4 places; a place that a test does not set holds words that no
 * live place could. */
struct card {
    uint32_t words[WORDS];
};

static inline struct card card_with(const uint32_t configuration[GI_CONFIG_WORDS]) {
    struct card card;
    for (size_t i = 0; i < WORDS; i++)
        card.words[i] = UNUSED;
    memcpy(card.words, configuration, GI_CONFIG_WORDS * sizeof(uint32_t));
    return card;
}

#define CARD(...) card_with((const uint32_t[GI_CONFIG_WORDS]){__VA_ARGS__})

/* The card with a block at a place and the block's first pair in the map. */
static inline struct card with_block(struct card card, uint32_t place, const uint32_t block[B]) {
    memcpy(card.words + PLACES + place * B, block, B * sizeof(uint32_t));
    card.words[MAP + GI_MAP_ENTRY_WORDS * place] = block[0];
    card.words[MAP + GI_MAP_ENTRY_WORDS * place + 1] = block[2];
    return card;
}

#define WITH(card, place, ...) with_block(card, place, (const uint32_t[B]){__VA_ARGS__})

/* The card with one word changed. */
static inline struct card changed(struct card card, size_t at, uint32_t word) {
    card.words[at] = word;
    return card;
}

static inline size_t place_word(uint32_t place, uint32_t at) {
    return PLACES + place * B + at;
}

static inline size_t map_word(uint32_t place, uint32_t at) {
    return MAP + GI_MAP_ENTRY_WORDS * place + at;
}

/* ---- the cards of the small cases */

/* Case 1, finished: (5,2), (5,9), (7,4) at place 0. */
static inline struct card case1(void) {
    return WITH(CARD(1, 8, 4, 0, 1, 0, 0, 0), 0, 5, 2, 2, 9, 7, 1, 4, 0);
}

/* Case 2, finished: (7,11) added; the block at place 1 is full. */
static inline struct card case2(void) {
    struct card card = WITH(CARD(1, 8, 4, 1, 1, 0, 0, 0), 0, 5, 2, 2, 9, 7, 1, 4, 0);
    return WITH(card, 1, 5, 2, 2, 9, 7, 2, 4, 11);
}

/* Case 3, in mid-pass: the first new block landed and freed the old one. */
static inline struct card case3_open(void) {
    struct card card = WITH(CARD(1, 8, 4, 1, 0, 1, 7, 4), 0, 5, 2, 2, 9, 7, 1, 4, 0);
    return WITH(card, 1, 5, 2, 2, 9, 7, 1, 4, 0);
}

/* Case 3, finished: (8,1) added, a second block at place 2. */
static inline struct card case3(void) {
    struct card card = WITH(CARD(1, 8, 4, 1, 2, 0, 0, 0), 1, 5, 2, 2, 9, 7, 1, 4, 0);
    return WITH(card, 2, 8, 1, 1, 0, 0, 0, 0, 0);
}

/* A pass open around the circle: old places 3 and 0, new place 1, free place 2.
 * The first old block holds (2,1), which is the boundary, and pairs above it. */
static inline struct card wrapped(void) {
    struct card card = WITH(CARD(1, 8, 4, 3, 2, 1, 2, 1), 3, 2, 2, 1, 5, 3, 1, 1, 0);
    card = WITH(card, 0, 4, 1, 9, 0, 0, 0, 0, 0);
    return WITH(card, 1, 1, 2, 1, 2, 2, 1, 1, 0);
}

/* Term 6 with positions 1 to 13 and (9,1) in old places 2, 3 and 0. */
static inline struct card three_blocks(void) {
    struct card card = WITH(CARD(1, 8, 4, 2, 3, 0, 0, 0), 2, 6, 6, 1, 2, 3, 4, 5, 6);
    return WITH(WITH(card, 3, 6, 6, 7, 8, 9, 10, 11, 12), 0, 6, 1, 13, 9, 1, 1, 0, 0);
}

/* One place free, each of the old blocks at 2, 3 and 0 full of one term. */
static inline struct card full(void) {
    struct card card = WITH(CARD(1, 8, 4, 2, 3, 0, 0, 0), 2, 1, 6, 10, 20, 30, 40, 50, 60);
    return WITH(WITH(card, 3, 2, 6, 1, 2, 3, 4, 5, 6), 0, 3, 6, 1, 2, 3, 4, 5, 6);
}

/* Judges a card, and sees that judging changed none of its words. */
static inline void judged(struct card card, uint32_t expected, const char *group, const char *what) {
    struct card before = card;
    check_number(gi_judge(card.words, WORDS), expected, group, what);
    check(memcmp(card.words, before.words, sizeof before.words) == 0, group, "the judge wrote nothing");
}

/* ---- batches */

/* A batch as two arguments: its words and their number. */
#define ARRIVED(...) (const uint32_t[]){__VA_ARGS__}, COUNT(__VA_ARGS__)
#define NO_RECORDS (const uint32_t[]){UNUSED}, 0
#define COUNT(...) (sizeof((uint32_t[]){__VA_ARGS__}) / sizeof(uint32_t))

/* Records with their arrival numbers. */
#define ADDED(term, position, arrival) GI_RECORD_ADD, term, position, position, arrival
#define REMOVED(term, from, to, arrival) GI_RECORD_REMOVE, term, from, to, arrival
#define ANNULLED(from, to, arrival) GI_RECORD_ANNUL, 0, from, to, arrival

/* Records without them, for tests whose point is another: in a BATCH of these the
 * removals arrive first, in their order, and then the additions, so that additions
 * win. Words that are left over stand at its end as they are. */
#define BATCH(...)                                                                                                     \
    numbered((uint32_t[NUMBERED_WORDS(COUNT(__VA_ARGS__)) + 1]){0}, (const uint32_t[]){__VA_ARGS__},                   \
             COUNT(__VA_ARGS__)),                                                                                      \
        NUMBERED_WORDS(COUNT(__VA_ARGS__))
#define NUMBERED_WORDS(count) ((count) / BARE_WORDS * GI_RECORD_WORDS + (count) % BARE_WORDS)
#define ADD(term, position) GI_RECORD_ADD, term, position, position
#define REMOVE(term, from, to) GI_RECORD_REMOVE, term, from, to
#define ANNUL(from, to) GI_RECORD_ANNUL, 0, from, to

enum { BARE_WORDS = 4 }; /* of a record without its arrival number */

static inline const uint32_t *numbered(uint32_t *batch, const uint32_t *words, size_t count) {
    uint32_t removal = 1;
    uint32_t addition = 1;
    for (size_t i = 0; i + BARE_WORDS <= count; i += BARE_WORDS)
        addition += words[i] != GI_RECORD_ADD;
    uint32_t *record = batch;
    for (; count >= BARE_WORDS; count -= BARE_WORDS, words += BARE_WORDS, record += GI_RECORD_WORDS) {
        memcpy(record, words, BARE_WORDS * sizeof *words);
        record[BARE_WORDS] = words[0] == GI_RECORD_ADD ? addition++ : removal++;
    }
    memcpy(record, words, count * sizeof *words);
    return batch;
}

/* Puts a record without its arrival number at place i, from 0, of a batch; it arrives
 * as the one there. */
static inline void put_record(uint32_t *batch, uint32_t i, const uint32_t words[BARE_WORDS]) {
    memcpy(batch + (size_t)i * GI_RECORD_WORDS, words, BARE_WORDS * sizeof *words);
    batch[(size_t)i * GI_RECORD_WORDS + BARE_WORDS] = i + 1;
}

#define PUT(batch, i, ...) put_record(batch, i, (const uint32_t[BARE_WORDS]){__VA_ARGS__})

/* ---- the largest card */

enum { LARGEST_START = 1000, LARGEST_LIVE = 1023 };

/* The k-th block from the old start on, around the circle. */
static inline uint32_t *largest_block(uint32_t *card, uint32_t k) {
    return card + GI_CONFIG_WORDS + GI_MAP_ENTRY_WORDS * 1024 + (size_t)((LARGEST_START + k) % 1024) * 1024;
}

/* One pair in each of its 1,023 live places, so many pairs to a term; NULL without
 * memory. */
static inline uint32_t *largest_card(uint32_t pairs) {
    uint32_t *card = calloc(GI_CARD_WORDS_MAX, sizeof *card);
    if (card == NULL)
        return NULL;
    gi_format(card, GI_CARD_WORDS_MAX, 1024, 1024);
    card[GI_CONFIG_OLD_START] = LARGEST_START;
    card[GI_CONFIG_OLD_LENGTH] = LARGEST_LIVE;
    for (uint32_t k = 0; k < LARGEST_LIVE; k++) {
        uint32_t *entry = card + GI_CONFIG_WORDS + GI_MAP_ENTRY_WORDS * ((LARGEST_START + k) % 1024);
        uint32_t *block = largest_block(card, k);
        block[0] = entry[0] = 1 + k / pairs;
        block[1] = 1;
        block[2] = entry[1] = 1 + k % pairs;
    }
    return card;
}

#endif
