/* Tests of gi_step: the small cases with every figure, annulled rounds, ranges
 * with no position in them, passes around the circle, the batch's limits, and the
 * refusals. And of gi_write_span, after each step. */
#include "small_cards.h"

/* What a step answers. */
struct answer {
    uint32_t number;
    uint32_t write;
    uint32_t freed;
    uint32_t finished;
};

/* Sees that a write stands at count words from start on in a card. */
static void span_is(const uint32_t *card, size_t length, uint32_t write, uint32_t number, size_t start, size_t count,
                    const char *group, const char *what) {
    size_t got_start = UNUSED;
    size_t got_count = UNUSED;
    check_number(gi_write_span(card, length, write, &got_start, &got_count), number, group, what);
    check(got_start == start && got_count == count, group, what);
}

/* Sees that the write that a step named stands where its words lie in the card
 * that it left, and that all other words are as before. Where the layout says
 * they lie is written out here once more. */
static void span_holds(const uint32_t *before, const uint32_t *after, size_t length, uint32_t write,
                       const char *group) {
    size_t due = (before[3] + before[4] + before[5]) % before[2];
    size_t start = 0;
    size_t count = 0;
    if (write == GI_WRITE_BLOCK) {
        count = before[1];
        start = 8 + 2 * before[2] + due * count;
    } else if (write == GI_WRITE_MAP_ENTRY) {
        count = 2;
        start = 8 + due * count;
    } else if (write == GI_WRITE_CONFIGURATION) {
        count = 8;
    }
    span_is(after, length, write, GI_DONE, start, count, group, "where the write stands");
    size_t end = start + count;
    check(end <= length && memcmp(before, after, start * sizeof *after) == 0 &&
              memcmp(before + end, after + end, (length - end) * sizeof *after) == 0,
          group, "the words around the write are as before");
}

/* Makes one step on a copy of a card, with a word on either side that must
 * stand, and sees that its answer and every word are the expected ones. */
static void step_on(const uint32_t *card, size_t length, const uint32_t *batch, size_t batch_length,
                    struct answer expected, const uint32_t *after, const char *group, const char *what) {
    uint32_t *memory = malloc((length + 2) * sizeof *memory);
    uint32_t *records = malloc((batch_length + 1) * sizeof *records);
    check(memory != NULL && records != NULL, group, "memory for card and batch");
    if (memory != NULL && records != NULL) {
        memory[0] = memory[length + 1] = UNUSED;
        memcpy(memory + 1, card, length * sizeof *card);
        memcpy(records, batch, batch_length * sizeof *batch);
        struct answer got = {UNUSED, UNUSED, UNUSED, UNUSED};
        got.number = gi_step(memory + 1, length, records, batch_length, &got.write, &got.freed, &got.finished);
        check_number(got.number, expected.number, group, what);
        check_number(got.write, expected.write, group, what);
        check_number(got.freed, expected.freed, group, what);
        check_number(got.finished, expected.finished, group, what);
        check(memcmp(memory + 1, after, length * sizeof *after) == 0, group, what);
        check(memory[0] == UNUSED && memory[length + 1] == UNUSED, group, "the words beside the card stand");
        check(memcmp(records, batch, batch_length * sizeof *batch) == 0, group, "the batch stands");
        if (got.number == GI_DONE)
            span_holds(card, memory + 1, length, got.write, group);
    }
    free(memory);
    free(records);
}

/* A step that makes a write; gives the card after it. */
static struct card step_to(struct card card, const uint32_t *batch, size_t batch_length, struct answer expected,
                           struct card after, const char *group, const char *what) {
    step_on(card.words, WORDS, batch, batch_length, expected, after.words, group, what);
    check_number(gi_judge(after.words, WORDS), GI_DONE, group, "the card after it is sound");
    return after;
}

/* A step that is refused. */
static void step_refused(struct card card, const uint32_t *batch, size_t batch_length, uint32_t number,
                         const char *group, const char *what) {
    step_on(card.words, WORDS, batch, batch_length, (struct answer){number, 0, 0, 0}, card.words, group, what);
}

/* ---- the three writes */

/* The card with a block at a place, the map as it was. */
static struct card block_written(struct card card, uint32_t place, const uint32_t block[B]) {
    memcpy(card.words + PLACES + place * B, block, B * sizeof(uint32_t));
    return card;
}

static struct card configured(struct card card, const uint32_t configuration[GI_CONFIG_WORDS]) {
    memcpy(card.words, configuration, GI_CONFIG_WORDS * sizeof(uint32_t));
    return card;
}

#define WORDS_8(...)                                                                                                   \
    (const uint32_t[8]) {                                                                                              \
        __VA_ARGS__                                                                                                    \
    }

/* The three steps of a due block: its words, its map entry, the configuration. */
static struct card lands(struct card card, const uint32_t *batch, size_t batch_length, uint32_t place,
                         const uint32_t block[B], const uint32_t configuration[GI_CONFIG_WORDS], uint32_t freed,
                         uint32_t finished, const char *what) {
    card = step_to(card, batch, batch_length, (struct answer){0, GI_WRITE_BLOCK, 0, 0},
                   block_written(card, place, block), what, "the block");
    card = step_to(card, batch, batch_length, (struct answer){0, GI_WRITE_MAP_ENTRY, 0, 0},
                   with_block(card, place, block), what, "the map entry");
    return step_to(card, batch, batch_length, (struct answer){0, GI_WRITE_CONFIGURATION, freed, finished},
                   configured(card, configuration), what, "the configuration");
}

static struct card zeros(void) {
    struct card card = {{GI_FORMAT, B, N}};
    return card;
}

/* ---- the small cases */

#define BATCH_1 BATCH(ADD(5, 2), ADD(5, 9), ADD(7, 4))
#define BLOCK_1 WORDS_8(5, 2, 2, 9, 7, 1, 4, 0)

static void case_1(void) {
    lands(zeros(), BATCH_1, 0, BLOCK_1, WORDS_8(1, 8, 4, 0, 1, 0, 0, 0), 0, 1, "case 1");
    struct card used = CARD(1, 8, 4, 0, 0, 0, 0, 0);
    lands(used, BATCH_1, 0, BLOCK_1, WORDS_8(1, 8, 4, 0, 1, 0, 0, 0), 0, 1, "case 1 on a used card");

    struct card block_there = block_written(used, 0, BLOCK_1);
    struct card there = with_block(used, 0, BLOCK_1);
    step_to(block_there, BATCH_1, (struct answer){0, GI_WRITE_MAP_ENTRY, 0, 0}, there, "case 1", "its block is there");
    step_to(there, BATCH_1, (struct answer){0, GI_WRITE_CONFIGURATION, 0, 1},
            configured(there, WORDS_8(1, 8, 4, 0, 1, 0, 0, 0)), "case 1", "block and map entry are there");
    for (uint32_t i = 0; i < B; i++)
        step_to(changed(there, place_word(0, i), 77), BATCH_1, (struct answer){0, GI_WRITE_BLOCK, 0, 0}, there,
                "case 1", "one word of the place differs");
    for (uint32_t i = 0; i < GI_MAP_ENTRY_WORDS; i++)
        step_to(changed(there, map_word(0, i), 77), BATCH_1, (struct answer){0, GI_WRITE_MAP_ENTRY, 0, 0}, there,
                "case 1", "one word of the map entry differs");
}

static void cases_2_3(void) {
    lands(case1(), BATCH(ADD(7, 11)), 1, WORDS_8(5, 2, 2, 9, 7, 2, 4, 11), WORDS_8(1, 8, 4, 1, 1, 0, 0, 0), 1, 1,
          "case 2");
    struct card card = lands(case1(), BATCH(ADD(8, 1)), 1, BLOCK_1, WORDS_8(1, 8, 4, 1, 0, 1, 7, 4), 1, 0, "case 3");
    lands(card, BATCH(ADD(8, 1)), 2, WORDS_8(8, 1, 1, 0, 0, 0, 0, 0), WORDS_8(1, 8, 4, 1, 2, 0, 0, 0), 0, 1,
          "case 3, the second block");
}

static void case_4(void) {
    const char *group = "case 4";
    enum { WORDS_2 = 28, BYTES_2 = WORDS_2 * sizeof(uint32_t) };
    static const uint32_t start[WORDS_2] = {1, 8, 2, 0, 1, 0, 0, 0, 5, 2, 0, 0, 5, 2, 2, 9, 7, 1, 4};
    static const uint32_t copied[WORDS_2] = {1, 8, 2, 0, 1, 0, 0, 0, 5, 2, 0, 0, 5, 2,
                                             2, 9, 7, 1, 4, 0, 5, 2, 2, 9, 7, 1, 4};
    uint32_t mapped[WORDS_2];
    memcpy(mapped, copied, BYTES_2);
    mapped[10] = 5;
    mapped[11] = 2;
    uint32_t stops[WORDS_2];
    memcpy(stops, mapped, BYTES_2);
    memcpy(stops, WORDS_8(1, 8, 2, 1, 0, 1, 7, 4), GI_CONFIG_WORDS * sizeof(uint32_t));
    uint32_t finished[WORDS_2];
    memcpy(finished, mapped, BYTES_2);
    memcpy(finished, WORDS_8(1, 8, 2, 1, 1, 0, 0, 0), GI_CONFIG_WORDS * sizeof(uint32_t));

    step_on(start, WORDS_2, BATCH(ADD(8, 1)), (struct answer){0, 1, 0, 0}, copied, group, "the block");
    step_on(copied, WORDS_2, BATCH(ADD(8, 1)), (struct answer){0, 2, 0, 0}, mapped, group, "the map entry");
    step_on(mapped, WORDS_2, BATCH(ADD(8, 1)), (struct answer){0, 3, 1, 0}, stops, group, "the configuration");
    step_on(stops, WORDS_2, BATCH(ADD(8, 1)), (struct answer){8, 0, 0, 0}, stops, group, "it stops");
    step_on(stops, WORDS_2, BATCH(ADD(8, 1), ADD(7, 4)), (struct answer){7, 0, 0, 0}, stops, group, "7 before 8");
    step_on(stops, WORDS_2, NO_RECORDS, (struct answer){0, 3, 0, 1}, finished, group, "the empty batch");
    check_number(gi_judge(finished, WORDS_2), GI_DONE, group, "sound in the end");
}

static void cases_5_6(void) {
    lands(case1(), BATCH(REMOVE(5, 2, 9), ADD(5, 9)), 1, WORDS_8(5, 1, 9, 7, 1, 4, 0, 0),
          WORDS_8(1, 8, 4, 1, 1, 0, 0, 0), 1, 1, "case 5");
    struct card empty = configured(case1(), WORDS_8(1, 8, 4, 1, 0, 0, 0, 0));
    step_to(case1(), BATCH(REMOVE(5, 1, UINT32_MAX), REMOVE(7, 1, UINT32_MAX)), (struct answer){0, 3, 1, 1}, empty,
            "case 6", "one step");
    step_to(case1(), BATCH(REMOVE(5, 2, 9), REMOVE(7, 4, 4)), (struct answer){0, 3, 1, 1}, empty, "case 6",
            "both terms, no further than they go");
}

/* ---- what a batch does */

static void batches(void) {
    const char *group = "batch";
    struct card fresh = CARD(1, 8, 4, 0, 0, 0, 0, 0);
    const uint32_t *one = WORDS_8(1, 8, 4, 0, 1, 0, 0, 0);
    const uint32_t *next = WORDS_8(1, 8, 4, 1, 1, 0, 0, 0);
    step_to(fresh, NO_RECORDS, (struct answer){0, 3, 0, 1}, fresh, group, "no records, no pairs");
    step_to(fresh, BATCH(REMOVE(5, 1, 9)), (struct answer){0, 3, 0, 1}, fresh, group, "a removal, no pairs");
    lands(case1(), NO_RECORDS, 1, BLOCK_1, next, 1, 1, "no records: the index as it was");
    lands(case1(), BATCH(ADD(5, 2), ADD(5, 2), ADD(7, 4)), 1, BLOCK_1, next, 1, 1, "additions of pairs that are there");
    lands(case1(), BATCH(REMOVE(5, 3, 8), REMOVE(6, 1, 99), REMOVE(7, 5, 9)), 1, BLOCK_1, next, 1, 1,
          "removals of pairs that are not there");
    lands(case1(), BATCH(REMOVE(5, 1, 2), REMOVE(5, 1, 1), REMOVE(7, 4, 9)), 1, WORDS_8(5, 1, 9, 0, 0, 0, 0, 0), next,
          1, 1, "removals of some");
    lands(case1(), BATCH(REMOVE(5, 1, 20), REMOVE(5, 3, 4)), 1, WORDS_8(7, 1, 4, 0, 0, 0, 0, 0), next, 1, 1,
          "a removal that reaches over the next");
    lands(case1(), BATCH(ADD(5, 2), REMOVE(5, 2, 9)), 1, WORDS_8(5, 1, 2, 7, 1, 4, 0, 0), next, 1, 1,
          "an addition before its removal");
    lands(fresh, BATCH(ADD(1, 1), ADD(UINT32_MAX, UINT32_MAX)), 0, WORDS_8(1, 1, 1, UINT32_MAX, 1, UINT32_MAX, 0, 0),
          one, 0, 1, "the lowest and the highest pair");
    lands(fresh, BATCH(ADD(3, 1), ADD(3, 2), ADD(3, 3), ADD(3, 4), ADD(3, 5), ADD(3, 6)), 0,
          WORDS_8(3, 6, 1, 2, 3, 4, 5, 6), one, 0, 1, "six positions fill a block");

    struct card card = lands(fresh, BATCH(ADD(3, 1), ADD(3, 2), ADD(3, 3), ADD(3, 4), ADD(3, 5), ADD(3, 6), ADD(3, 7)),
                             0, WORDS_8(3, 6, 1, 2, 3, 4, 5, 6), WORDS_8(1, 8, 4, 0, 0, 1, 3, 6), 0, 0,
                             "a term that goes on in the next block");
    lands(card, BATCH(ADD(3, 7)), 1, WORDS_8(3, 1, 7, 0, 0, 0, 0, 0), WORDS_8(1, 8, 4, 0, 2, 0, 0, 0), 0, 1,
          "another batch in mid-pass");
    step_to(case3_open(), BATCH(ADD(5, 1), REMOVE(5, 1, 9), ADD(7, 4)), (struct answer){0, 3, 0, 1},
            configured(case3_open(), next), group, "records up to the boundary do nothing");

    uint32_t repeats[GI_BATCH_RECORDS_MAX * GI_RECORD_WORDS];
    for (uint32_t i = 0; i < GI_BATCH_RECORDS_MAX; i++)
        PUT(repeats, i, ADD(7, 4));
    lands(fresh, repeats, sizeof repeats / sizeof *repeats, 0, WORDS_8(7, 1, 4, 0, 0, 0, 0, 0), one, 0, 1,
          "4,096 repeats");
}

/* ---- removals under every term */

/* The round at positions 3 to 9 stood under three terms. It goes, but for the
 * game at 9 under term 7, which the batch adds. */
static void annulled_round(void) {
    struct card card = WITH(CARD(1, 8, 4, 0, 2, 0, 0, 0), 0, 5, 2, 2, 9, 7, 1, 4, 0);
    card = WITH(card, 1, 7, 1, 9, 9, 2, 3, 10, 0);
    card = lands(card, BATCH(ANNUL(3, 9), ADD(7, 9)), 2, WORDS_8(5, 1, 2, 7, 1, 9, 0, 0),
                 WORDS_8(1, 8, 4, 1, 1, 1, 7, 9), 1, 0, "an annulled round");
    card = lands(card, BATCH(ANNUL(3, 9), ADD(7, 9)), 3, WORDS_8(9, 1, 10, 0, 0, 0, 0, 0),
                 WORDS_8(1, 8, 4, 2, 2, 0, 0, 0), 1, 1, "an annulled round, the last block");
    struct card again = block_written(card, 0, WORDS_8(5, 1, 2, 7, 1, 9, 0, 0));
    step_to(card, BATCH(ANNUL(3, 9), ADD(7, 9)), (struct answer){0, 1, 0, 0}, again, "an annulled round", "once more");
    step_to(again, BATCH(ANNUL(3, 9), ADD(7, 9)), (struct answer){0, 3, 1, 0},
            configured(again, WORDS_8(1, 8, 4, 3, 1, 1, 7, 9)), "an annulled round", "its map entry was there");
    step_to(card, BATCH(ANNUL(1, UINT32_MAX)), (struct answer){0, 3, 2, 1},
            configured(card, WORDS_8(1, 8, 4, 0, 0, 0, 0, 0)), "an annulled round", "all the rest goes in one step");
}

static void annulled(void) {
    const char *group = "annulled";
    struct card fresh = CARD(1, 8, 4, 0, 0, 0, 0, 0);
    struct card empty = configured(case1(), WORDS_8(1, 8, 4, 1, 0, 0, 0, 0));
    const uint32_t *next = WORDS_8(1, 8, 4, 1, 1, 0, 0, 0);
    const uint32_t *low = WORDS_8(5, 1, 2, 0, 0, 0, 0, 0);
    const uint32_t *high = WORDS_8(5, 1, 9, 0, 0, 0, 0, 0);
    const uint32_t *both = WORDS_8(5, 2, 2, 9, 0, 0, 0, 0);
    step_to(fresh, BATCH(ANNUL(1, 9)), (struct answer){0, 3, 0, 1}, fresh, group, "no pairs");
    step_to(case1(), BATCH(ANNUL(1, UINT32_MAX)), (struct answer){0, 3, 1, 1}, empty, group, "all of them");
    step_to(case1(), BATCH(ANNUL(2, 9)), (struct answer){0, 3, 1, 1}, empty, group, "no further than they go");
    lands(case1(), BATCH(ANNUL(1, 1), ANNUL(3, 3), ANNUL(5, 8), ANNUL(10, UINT32_MAX)), 1, BLOCK_1, next, 1, 1,
          "annulled: beside and between the positions");
    lands(case1(), BATCH(ANNUL(65536 + 1, 65536 + 9)), 1, BLOCK_1, next, 1, 1, "annulled: far above the positions");
    lands(case1(), BATCH(ANNUL(2, 4)), 1, high, next, 1, 1, "annulled: both ends belong to it");
    lands(case1(), BATCH(ANNUL(4, 9)), 1, low, next, 1, 1, "annulled: up to the last position");
    lands(case1(), BATCH(ANNUL(3, 8)), 1, both, next, 1, 1, "annulled: inside another term's positions");
    lands(case1(), BATCH(ANNUL(4, 4)), 1, both, next, 1, 1, "annulled: one position");
    lands(case1(), BATCH(ANNUL(1, 8), ANNUL(2, 2)), 1, high, next, 1, 1, "annulled: a wide one over a narrow one");
    step_to(case1(), BATCH(ANNUL(1, UINT32_MAX), ANNUL(2, 2)), (struct answer){0, 3, 1, 1}, empty, group,
            "the widest over a narrow one");
    step_to(case1(), BATCH(ANNUL(1, 20), ANNUL(3, 8), ANNUL(4, 5)), (struct answer){0, 3, 1, 1}, empty, group,
            "each inside the one before");
    lands(case1(), BATCH(ANNUL(2, 2), ANNUL(2, 4), ANNUL(2, 3)), 1, high, next, 1, 1, "annulled: equal starts");
    lands(case1(), BATCH(ANNUL(2, 3), ANNUL(9, 9)), 1, WORDS_8(7, 1, 4, 0, 0, 0, 0, 0), next, 1, 1,
          "annulled: a gap between two");
    lands(case1(), BATCH(ANNUL(4, 4), REMOVE(5, 9, 9)), 1, low, next, 1, 1, "annulled: beside a removal");
    lands(case1(), BATCH(ANNUL(1, 9), REMOVE(5, 1, 9), ADD(5, 9)), 1, high, next, 1, 1,
          "annulled, removed and added: it is in");
    lands(case1(), BATCH(ANNUL(1, 9), ADD(5, 9), ADD(7, 4)), 1, WORDS_8(5, 1, 9, 7, 1, 4, 0, 0), next, 1, 1,
          "annulled: additions under two terms stay");
    lands(case1(), BATCH(ANNUL(9, 9), ADD(5, 1)), 1, WORDS_8(5, 2, 1, 2, 7, 1, 4, 0), next, 1, 1,
          "annulled: an addition that starts lower");
    lands(case1(), BATCH(ANNUL(1, 9), ADD(6, 3)), 1, WORDS_8(6, 1, 3, 0, 0, 0, 0, 0), next, 1, 1,
          "annulled: an addition of a pair that was not there");
    lands(case3_open(), BATCH(ANNUL(1, 9), ADD(8, 1)), 2, WORDS_8(8, 1, 1, 0, 0, 0, 0, 0),
          WORDS_8(1, 8, 4, 1, 2, 0, 0, 0), 0, 1, "annulled in mid-pass: pairs up to the boundary stay");

    struct card ends = WITH(CARD(1, 8, 4, 0, 1, 0, 0, 0), 0, 1, 2, 1, UINT32_MAX, UINT32_MAX, 1, UINT32_MAX, 0);
    lands(ends, BATCH(ANNUL(1, 1)), 1, WORDS_8(1, 1, UINT32_MAX, UINT32_MAX, 1, UINT32_MAX, 0, 0), next, 1, 1,
          "annulled: the lowest position");
    lands(ends, BATCH(ANNUL(UINT32_MAX, UINT32_MAX)), 1, WORDS_8(1, 1, 1, 0, 0, 0, 0, 0), next, 1, 1,
          "annulled: the highest position");
    struct card falls = WITH(CARD(1, 8, 4, 0, 1, 0, 0, 0), 0, 1, 1, 9, 2, 1, 1, 0, 0);
    lands(falls, BATCH(ANNUL(9, 9)), 1, WORDS_8(2, 1, 1, 0, 0, 0, 0, 0), next, 1, 1,
          "annulled: the next term begins lower");
    lands(falls, BATCH(ANNUL(1, 1), ANNUL(5, 8)), 1, WORDS_8(1, 1, 9, 0, 0, 0, 0, 0), next, 1, 1,
          "annulled: only where the next term begins");
    falls = WITH(falls, 0, 1, 1, 9, 2, 1, 3, 0, 0);
    lands(falls, BATCH(ANNUL(1, 1), ANNUL(5, 5), ANNUL(8, 8)), 1, WORDS_8(1, 1, 9, 2, 1, 3, 0, 0), next, 1, 1,
          "annulled: the next term begins in a gap");

    uint32_t many[GI_BATCH_RECORDS_MAX * GI_RECORD_WORDS];
    for (uint32_t i = 0; i < GI_BATCH_RECORDS_MAX; i++)
        PUT(many, i, ANNUL(3, 3));
    lands(case1(), many, sizeof many / sizeof *many, 1, BLOCK_1, next, 1, 1, "annulled: 4,096 repeats");
    many[3] = 8;
    lands(case1(), many, sizeof many / sizeof *many, 1, both, next, 1, 1, "annulled: the first of 4,096");
    many[3] = 3;
    PUT(many, GI_BATCH_RECORDS_MAX - 1, ANNUL(9, 9));
    lands(case1(), many, sizeof many / sizeof *many, 1, WORDS_8(5, 1, 2, 7, 1, 4, 0, 0), next, 1, 1,
          "annulled: the last of 4,096");
}

/* Every second position of a term over 1,023 blocks goes, by 4,096 records. */
static void annulled_largest(void) {
    const char *group = "annulled on the largest card";
    enum { LEFT = 511 };
    static uint32_t batch[GI_BATCH_RECORDS_MAX * GI_RECORD_WORDS];
    for (uint32_t i = 0; i < GI_BATCH_RECORDS_MAX; i++)
        PUT(batch, i, ANNUL(2 * i + 1, 2 * i + 1));
    uint32_t *card = largest_card(LARGEST_LIVE);
    check(card != NULL, group, "memory for the card");
    if (card == NULL)
        return;
    for (uint32_t i = 1; i <= 3; i++) {
        struct answer got = {UNUSED, UNUSED, UNUSED, UNUSED};
        got.number = gi_step(card, GI_CARD_WORDS_MAX, batch, sizeof batch / sizeof *batch, &got.write, &got.freed,
                             &got.finished);
        check_number(got.number, GI_DONE, group, "number");
        check_number(got.write, i, group, "write");
        check_number(got.freed, i == 3 ? LARGEST_LIVE : 0, group, "freed");
        check_number(got.finished, i == 3, group, "finished");
    }
    check(memcmp(card, WORDS_8(1, 1024, 1024, 999, 1, 0, 0, 0), GI_CONFIG_WORDS * sizeof(uint32_t)) == 0, group,
          "the configuration in the end");
    const uint32_t *block = largest_block(card, LARGEST_LIVE);
    bool left = block[0] == 1 && block[1] == LEFT;
    for (uint32_t i = 0; i < 1022; i++)
        left = left && block[2 + i] == (i < LEFT ? 2 * i + 2 : 0);
    check(left, group, "every second position is left");
    check_number(gi_judge(card, GI_CARD_WORDS_MAX), GI_DONE, group, "sound");
    free(card);
}

/* ---- ranges with no position in them: from is above to, and nothing goes */

static void empty_ranges(void) {
    const char *group = "empty range";
    struct card fresh = CARD(1, 8, 4, 0, 0, 0, 0, 0);
    const uint32_t *next = WORDS_8(1, 8, 4, 1, 1, 0, 0, 0);
    step_to(fresh, BATCH(REMOVE(5, 9, 3)), (struct answer){0, 3, 0, 1}, fresh, group, "no pairs");
    step_to(fresh, BATCH(ANNUL(9, 3)), (struct answer){0, 3, 0, 1}, fresh, group, "no pairs, under every term");
    lands(case1(), BATCH(REMOVE(5, 9, 2)), 1, BLOCK_1, next, 1, 1, "empty range: from the last position to the first");
    lands(case1(), BATCH(REMOVE(5, 3, 2)), 1, BLOCK_1, next, 1, 1, "empty range: from just above to");
    lands(case1(), BATCH(REMOVE(7, 5, 4)), 1, BLOCK_1, next, 1, 1, "empty range: of the last term");
    lands(case1(), BATCH(REMOVE(5, UINT32_MAX, 1)), 1, BLOCK_1, next, 1, 1, "empty range: the widest");
    lands(case1(), BATCH(REMOVE(1, 2, 1)), 1, BLOCK_1, next, 1, 1, "empty range: the lowest");
    lands(case1(), BATCH(REMOVE(UINT32_MAX, UINT32_MAX, 1)), 1, BLOCK_1, next, 1, 1,
          "empty range: of the highest term");
    lands(case1(), BATCH(ANNUL(9, 2)), 1, BLOCK_1, next, 1, 1, "empty range: under every term");
    lands(case1(), BATCH(ANNUL(5, 4)), 1, BLOCK_1, next, 1, 1, "empty range: under every term, from just above to");
    lands(case1(), BATCH(ANNUL(UINT32_MAX, 1)), 1, BLOCK_1, next, 1, 1, "empty range: the widest under every term");
    lands(case1(), BATCH(ANNUL(4, 2), ANNUL(9, 8), REMOVE(5, 2, 1), REMOVE(5, 9, 2), REMOVE(7, 4, 3)), 1, BLOCK_1, next,
          1, 1, "empty range: several of both kinds");

    lands(case1(), BATCH(ANNUL(9, 2), REMOVE(7, 5, 4), ADD(7, 11), REMOVE(7, 11, 4)), 1,
          WORDS_8(5, 2, 2, 9, 7, 2, 4, 11), next, 1, 1, "empty range: beside an addition, with its from");
    lands(case1(), BATCH(REMOVE(5, 2, 1), REMOVE(5, 2, 9), REMOVE(5, 9, 2), ADD(5, 9)), 1,
          WORDS_8(5, 1, 9, 7, 1, 4, 0, 0), next, 1, 1, "empty range: starting and ending with a removal");
    lands(case1(), BATCH(REMOVE(5, 1, 20), REMOVE(5, 8, 3)), 1, WORDS_8(7, 1, 4, 0, 0, 0, 0, 0), next, 1, 1,
          "empty range: inside a removal");
    lands(case1(), BATCH(REMOVE(5, 8, 20), REMOVE(5, 9, 2)), 1, WORDS_8(5, 1, 2, 7, 1, 4, 0, 0), next, 1, 1,
          "empty range: to below a removal");
    lands(case1(), BATCH(ANNUL(2, 4), ANNUL(3, 2), ANNUL(9, 3)), 1, WORDS_8(5, 1, 9, 0, 0, 0, 0, 0), next, 1, 1,
          "empty range: inside and behind an annulled one");
    lands(case1(), BATCH(ANNUL(3, 2), ANNUL(3, 8)), 1, WORDS_8(5, 2, 2, 9, 0, 0, 0, 0), next, 1, 1,
          "empty range: starting with an annulled one");
    step_to(case1(), BATCH(ANNUL(4, 2), REMOVE(5, 1, UINT32_MAX), REMOVE(5, 9, 2), REMOVE(7, 4, 4)),
            (struct answer){0, 3, 1, 1}, configured(case1(), WORDS_8(1, 8, 4, 1, 0, 0, 0, 0)), group,
            "beside what takes all");

    /* Two blocks: the boundary, (7,4), stands inside the range that has no position. */
    struct card card = lands(case1(), BATCH(ANNUL(UINT32_MAX, 1), REMOVE(7, 9, 1), ADD(8, 1)), 1, BLOCK_1,
                             WORDS_8(1, 8, 4, 1, 0, 1, 7, 4), 1, 0, "empty range: two blocks");
    lands(card, BATCH(ANNUL(UINT32_MAX, 1), REMOVE(7, 9, 1), ADD(8, 1)), 2, WORDS_8(8, 1, 1, 0, 0, 0, 0, 0),
          WORDS_8(1, 8, 4, 1, 2, 0, 0, 0), 0, 1, "empty range: the second block");
    step_to(case3_open(), BATCH(ANNUL(9, 1), REMOVE(7, 4, 1)), (struct answer){0, 3, 0, 1},
            configured(case3_open(), next), group, "in mid-pass, nothing remains");
    lands(wrapped(), BATCH(ANNUL(9, 1), REMOVE(2, 5, 1), REMOVE(3, 2, 1)), 2, WORDS_8(2, 1, 5, 3, 1, 1, 0, 0),
          WORDS_8(1, 8, 4, 0, 1, 2, 3, 1), 1, 0, "empty range: around the circle");

    static uint32_t many[(GI_BATCH_RECORDS_MAX + 1) * GI_RECORD_WORDS];
    size_t most = GI_BATCH_RECORDS_MAX * GI_RECORD_WORDS;
    for (uint32_t i = 0; i <= GI_BATCH_RECORDS_MAX; i++)
        PUT(many, i, REMOVE(5, i + 2, 1));
    lands(case1(), many, most, 1, BLOCK_1, next, 1, 1, "empty range: 4,096 of them");
    step_refused(case1(), many, most + GI_RECORD_WORDS, 6, group, "4,097 of them");
    for (uint32_t i = 0; i <= GI_BATCH_RECORDS_MAX; i++)
        PUT(many, i, ANNUL(i + 2, i + 1));
    lands(case1(), many, most, 1, BLOCK_1, next, 1, 1, "empty range: 4,096 of them under every term");
    step_refused(case1(), many, most + GI_RECORD_WORDS, 6, group, "4,097 of them under every term");
    PUT(many, GI_BATCH_RECORDS_MAX - 1, REMOVE(5, 9, 9));
    lands(case1(), many, most, 1, WORDS_8(5, 1, 2, 7, 1, 4, 0, 0), next, 1, 1, "empty range: 4,095 before a removal");
}

static void circle(void) {
    struct card card = lands(wrapped(), NO_RECORDS, 2, WORDS_8(2, 1, 5, 3, 1, 1, 0, 0), WORDS_8(1, 8, 4, 0, 1, 2, 3, 1),
                             1, 0, "around the circle");
    lands(card, NO_RECORDS, 3, WORDS_8(4, 1, 9, 0, 0, 0, 0, 0), WORDS_8(1, 8, 4, 1, 3, 0, 0, 0), 1, 1,
          "around the circle, the last block");

    card = WITH(CARD(1, 8, 4, 3, 3, 0, 0, 0), 3, 1, 1, 1, 0, 0, 0, 0, 0);
    card = WITH(WITH(card, 0, 2, 1, 1, 0, 0, 0, 0, 0), 1, 3, 1, 1, 0, 0, 0, 0, 0);
    card = lands(card, NO_RECORDS, 2, WORDS_8(1, 1, 1, 2, 1, 1, 0, 0), WORDS_8(1, 8, 4, 1, 1, 1, 2, 1), 2, 0,
                 "two places freed at once");
    lands(card, NO_RECORDS, 3, WORDS_8(3, 1, 1, 0, 0, 0, 0, 0), WORDS_8(1, 8, 4, 2, 2, 0, 0, 0), 1, 1,
          "two places freed at once, the last block");
}

/* 4,096 additions on the largest card: 13 blocks of up to 341 terms. */
static void largest(void) {
    const char *group = "step on the largest card";
    enum { TERMS = 341, BLOCKS = 13, BLOCKS_AT = GI_CONFIG_WORDS + 2 * 1024 };
    static uint32_t batch[GI_BATCH_RECORDS_MAX * GI_RECORD_WORDS];
    for (uint32_t i = 0; i < GI_BATCH_RECORDS_MAX; i++)
        PUT(batch, i, ADD(i + 1, 9));
    uint32_t *card = calloc(GI_CARD_WORDS_MAX, sizeof *card);
    check(card != NULL, group, "memory for the card");
    if (card == NULL)
        return;
    gi_format(card, GI_CARD_WORDS_MAX, 1024, 1024);
    bool as_due = true;
    for (uint32_t i = 0; i < 3 * BLOCKS; i++) {
        struct answer got;
        got.number = gi_step(card, GI_CARD_WORDS_MAX, batch, sizeof batch / sizeof *batch, &got.write, &got.freed,
                             &got.finished);
        as_due = as_due && got.number == 0 && got.write == i % 3 + 1 && got.freed == 0 &&
                 got.finished == (i == 3 * BLOCKS - 1);
    }
    check(as_due, group, "39 steps, the last one finishes");
    check(memcmp(card, WORDS_8(1, 1024, 1024, 0, BLOCKS, 0, 0, 0), GI_CONFIG_WORDS * sizeof(uint32_t)) == 0, group,
          "the configuration in the end");
    bool there = true;
    for (uint32_t i = 0; i < GI_BATCH_RECORDS_MAX; i++) {
        const uint32_t *entry = card + BLOCKS_AT + (size_t)(i / TERMS) * 1024 + i % TERMS * 3;
        there = there && entry[0] == i + 1 && entry[1] == 1 && entry[2] == 9;
    }
    check(there, group, "every addition is there");
    check_number(gi_judge(card, GI_CARD_WORDS_MAX), GI_DONE, group, "sound");
    free(card);
}

/* ---- refusals */

static void wrong_records(void) {
    const char *group = "number 6";
    static const uint32_t good[] = {ADDED(5, 3, 1), ADDED(6, 1, 2), ADDED(7, 1, 3)};
    for (size_t length = 1; length < sizeof good / sizeof *good; length++)
        if (length % GI_RECORD_WORDS != 0)
            step_refused(case1(), good, length, 6, group, "a length that is no records");
    static const uint32_t kinds[] = {0, 4, 5, 256, 65537, 65539, UINT32_MAX};
    for (size_t i = 0; i < sizeof kinds / sizeof *kinds; i++) {
        step_refused(case1(), BATCH(ADD(5, 3), kinds[i], 6, 1, 1), 6, group, "a kind that is none");
        step_refused(case1(), BATCH(kinds[i], 0, 1, 1), 6, group, "a kind that is none, term 0");
    }
    step_refused(case1(), BATCH(ADD(0, 3)), 6, group, "an addition with term 0");
    step_refused(case1(), BATCH(ADD(5, 0)), 6, group, "an addition of position 0");
    step_refused(case1(), BATCH(REMOVE(0, 1, 3)), 6, group, "a removal with term 0");
    step_refused(case1(), BATCH(REMOVE(5, 0, 3)), 6, group, "a removal from 0");
    step_refused(case1(), BATCH(REMOVE(5, 0, 0)), 6, group, "a removal from 0 to 0");
    step_refused(case1(), BATCH(REMOVE(5, 3, 0)), 6, group, "a removal to 0");
    step_refused(case1(), BATCH(GI_RECORD_ADD, 5, 3, 2), 6, group, "an addition with from above to");
    step_refused(case1(), BATCH(GI_RECORD_ADD, 5, 3, 4), 6, group, "an addition with from below to");
    step_refused(case1(), BATCH(ADD(5, 3), ADD(6, 3), REMOVE(7, 3, 0)), 6, group, "only the last record is wrong");
    step_refused(case1(), BATCH(ADD(6, 3), ADD(5, 3), ADD(7, 0)), 6, group, "6 before 7");

    static uint32_t many[(GI_BATCH_RECORDS_MAX + 1) * GI_RECORD_WORDS];
    for (uint32_t i = 0; i <= GI_BATCH_RECORDS_MAX; i++)
        PUT(many, i, ADD(8, i + 1));
    step_refused(case1(), many, sizeof many / sizeof *many, 6, group, "4,097 records");
    step_refused(case1(), many, sizeof many / sizeof *many - (GI_RECORD_WORDS - 1), 6, group,
                 "4,096 records and a word");
    PUT(many, 0, ANNUL(1, 9));
    step_refused(case1(), many, sizeof many / sizeof *many, 6, group, "4,097 records, one of them annuls");
    for (uint32_t i = 0; i <= GI_BATCH_RECORDS_MAX; i++)
        PUT(many, i, ANNUL(i + 1, i + 1));
    step_refused(case1(), many, sizeof many / sizeof *many, 6, group, "4,097 records that annul");
}

static void wrong_annulments(void) {
    const char *group = "number 6, annulled";
    static const uint32_t terms[] = {1, 5, 7, UINT32_MAX};
    for (size_t i = 0; i < sizeof terms / sizeof *terms; i++) {
        step_refused(case1(), BATCH(GI_RECORD_ANNUL, terms[i], 1, 9), 6, group, "with a term");
        step_refused(case1(), BATCH(ANNUL(1, 9), GI_RECORD_ANNUL, terms[i], 1, 9), 6, group, "the second with a term");
    }
    step_refused(case1(), BATCH(GI_RECORD_ADD, 0, 2, 2), 6, group, "an addition with term 0");
    step_refused(case1(), BATCH(GI_RECORD_REMOVE, 0, 2, 9), 6, group, "a removal with term 0");
    step_refused(case1(), BATCH(ANNUL(1, 9), ADD(0, 2)), 6, group, "an addition with term 0 behind");
    step_refused(case1(), BATCH(ANNUL(1, 9), REMOVE(0, 1, 9)), 6, group, "a removal with term 0 behind");
    step_refused(case1(), BATCH(ANNUL(0, 9)), 6, group, "from 0");
    step_refused(case1(), BATCH(ANNUL(9, 0)), 6, group, "to 0");
    step_refused(case1(), BATCH(ANNUL(0, 0)), 6, group, "from 0 to 0");
    step_refused(case1(), BATCH(ANNUL(UINT32_MAX, 0)), 6, group, "from the highest to 0");
    step_refused(case1(), BATCH(ANNUL(1, 9), ANNUL(2, 0), ADD(5, 3)), 6, group, "one in the middle");
    step_refused(case1(), BATCH(ADD(5, 3), ANNUL(2, 0)), 6, group, "6 before 7");
    step_refused(case1(), BATCH(ANNUL(3, 9), ANNUL(2, 9), GI_RECORD_ANNUL, 5, 2, 9), 6, group, "6 before 7");
    step_refused(full(), BATCH(ANNUL(8, 0), ADD(1, 15)), 6, group, "6 before 8");

    group = "number 7, annulled";
    step_refused(case1(), BATCH(ADD(5, 3), ANNUL(1, 9)), 7, group, "behind a term");
    step_refused(case1(), BATCH(ADD(1, 1), ANNUL(1, 1)), 7, group, "behind the lowest term");
    step_refused(case1(), BATCH(REMOVE(UINT32_MAX, 1, 9), ANNUL(9, 9)), 7, group, "behind the highest term");
    step_refused(case1(), BATCH(ANNUL(1, 9), ADD(5, 3), ANNUL(1, 9)), 7, group, "on both sides of a term");
    step_refused(case1(), BATCH(ANNUL(3, 9), ANNUL(2, 9)), 7, group, "starts that fall");
    step_refused(case1(), BATCH(ANNUL(3, 9), ANNUL(2, 9), ADD(5, 3)), 7, group, "starts that fall, then a term");
    step_refused(full(), BATCH(ADD(1, 15), ANNUL(1, 1)), 7, group, "7 before 8");
}

static void wrong_empty_ranges(void) {
    const char *group = "number 6, from above to";
    step_refused(case1(), BATCH(GI_RECORD_ADD, 5, 9, 8), 6, group, "an addition, by one");
    step_refused(case1(), BATCH(GI_RECORD_ADD, 5, UINT32_MAX, 1), 6, group, "an addition, by much");
    step_refused(case1(), BATCH(REMOVE(5, 9, 3), GI_RECORD_ADD, 5, 9, 3), 6, group, "an addition behind a removal");
    step_refused(case1(), BATCH(REMOVE(5, 9, 0)), 6, group, "a removal to 0");
    step_refused(case1(), BATCH(REMOVE(5, 1, 0)), 6, group, "a removal from 1 to 0");
    step_refused(case1(), BATCH(REMOVE(5, UINT32_MAX, 0)), 6, group, "a removal from the highest to 0");
    step_refused(case1(), BATCH(ANNUL(1, 0)), 6, group, "from 1 to 0 under every term");
    step_refused(case1(), BATCH(ANNUL(9, 3), ANNUL(9, 0)), 6, group, "to 0 under every term, the second");
    step_refused(case1(), BATCH(REMOVE(0, 9, 3)), 6, group, "a removal with term 0");
    step_refused(case1(), BATCH(GI_RECORD_ANNUL, 5, 9, 3), 6, group, "kind 3 with a term");
    step_refused(case1(), BATCH(0, 5, 9, 3), 6, group, "kind 0");
    step_refused(case1(), BATCH(4, 5, 9, 3), 6, group, "kind 4");
    step_refused(case1(), BATCH(REMOVE(5, 9, 3), REMOVE(5, 8, 0)), 6, group, "6 before 7");
    step_refused(full(), BATCH(REMOVE(1, 9, 0), ADD(1, 15)), 6, group, "6 before 8");

    group = "number 7, from above to";
    step_refused(case1(), BATCH(REMOVE(5, 9, 3), REMOVE(5, 8, 20)), 7, group, "by from");
    step_refused(case1(), BATCH(REMOVE(5, 9, 3), REMOVE(5, 4, 4)), 7, group, "by from, though to rises");
    step_refused(case1(), BATCH(REMOVE(5, 9, 3), ADD(5, 8)), 7, group, "an addition behind it");
    step_refused(case1(), BATCH(ADD(5, 9), REMOVE(5, 8, 3)), 7, group, "an addition before it");
    step_refused(case1(), BATCH(REMOVE(5, 9, 3), REMOVE(4, 20, 10)), 7, group, "by term");
    step_refused(case1(), BATCH(ANNUL(9, 3), ANNUL(8, 20)), 7, group, "by from, under every term");
    step_refused(case1(), BATCH(ADD(5, 3), ANNUL(2, 1)), 7, group, "under every term behind a term");
    lands(case1(), BATCH(REMOVE(5, 8, 20), REMOVE(5, 9, 3)), 1, WORDS_8(5, 1, 2, 7, 1, 4, 0, 0),
          WORDS_8(1, 8, 4, 1, 1, 0, 0, 0), 1, 1, "in order by from, though to falls");

    group = "number 8, from above to";
    step_refused(full(), BATCH(ANNUL(8, 7), ADD(1, 15)), 8, group, "beside an addition");
    step_refused(full(), BATCH(REMOVE(1, 60, 60), REMOVE(1, 60, 10)), 8, group, "beside a removal");
    lands(full(), BATCH(ANNUL(60, 10), REMOVE(1, 60, 59)), 1, WORDS_8(1, 6, 10, 20, 30, 40, 50, 60),
          WORDS_8(1, 8, 4, 3, 2, 1, 1, 60), 1, 0, "alone on a full card");
}

static void wrong_order(void) {
    const char *group = "number 7";
    step_refused(case1(), BATCH(ADD(6, 1), ADD(5, 1)), 7, group, "terms fall");
    step_refused(case1(), BATCH(ADD(5, 3), ADD(5, 1)), 7, group, "positions fall");
    step_refused(case1(), BATCH(REMOVE(5, 3, 9), ADD(5, 1)), 7, group, "an addition below its removal");
    step_refused(case1(), BATCH(ADD(5, 3), REMOVE(5, 1, 9)), 7, group, "a removal that starts below");
    step_refused(case1(), BATCH(ADD(5, 1), ADD(6, 1), ADD(7, 9), ADD(7, 8)), 7, group, "only the last one falls");
    step_refused(case1(), BATCH(ADD(UINT32_MAX, 1), ADD(1, 1)), 7, group, "from the highest term to the lowest");
}

static void full_cards(void) {
    const char *group = "number 8";
    step_refused(full(), BATCH(ADD(1, 15)), 8, group, "the due block frees no place");
    step_refused(full(), BATCH(ADD(1, 1), REMOVE(2, 1, 9), REMOVE(3, 1, 9)), 8, group, "whatever comes after it");
    step_refused(full(), BATCH(REMOVE(1, 60, 60)), 8, group, "an old block whose last pair is removed");
    step_refused(full(), BATCH(ANNUL(60, 60)), 8, group, "an old block whose last pair is annulled");
    struct card card = WITH(CARD(1, 8, 4, 1, 0, 3, 3, 1), 1, 1, 1, 1, 0, 0, 0, 0, 0);
    card = WITH(WITH(card, 2, 2, 1, 1, 0, 0, 0, 0, 0), 3, 3, 1, 1, 0, 0, 0, 0, 0);
    step_refused(card, BATCH(ADD(4, 1)), 8, group, "where the pass would finish");
    step_to(card, BATCH(ADD(2, 9)), (struct answer){0, 3, 0, 1}, configured(card, WORDS_8(1, 8, 4, 1, 3, 0, 0, 0)),
            group, "no due block on a full card");

    lands(full(), NO_RECORDS, 1, WORDS_8(1, 6, 10, 20, 30, 40, 50, 60), WORDS_8(1, 8, 4, 3, 2, 1, 1, 60), 1, 0,
          "a full card with no records");
    struct card two_free = configured(full(), WORDS_8(1, 8, 4, 2, 2, 0, 0, 0));
    two_free = lands(two_free, BATCH(ANNUL(60, 60)), 0, WORDS_8(1, 5, 10, 20, 30, 40, 50, 0),
                     WORDS_8(1, 8, 4, 2, 2, 1, 1, 50), 0, 0, "annulled with two places free");
    lands(two_free, BATCH(ANNUL(60, 60)), 1, WORDS_8(2, 6, 1, 2, 3, 4, 5, 6), WORDS_8(1, 8, 4, 0, 2, 0, 0, 0), 2, 1,
          "annulled with two places free, the last block");
    lands(full(), BATCH(REMOVE(1, 20, 60), REMOVE(2, 1, 9), REMOVE(3, 1, 6)), 1, WORDS_8(1, 1, 10, 0, 0, 0, 0, 0),
          WORDS_8(1, 8, 4, 1, 1, 0, 0, 0), 3, 1, "a full card, all freed at the end");
}

static void wrong_cards(void) {
    const char *group = "the card before the batch";
    struct card card = case1();
    for (size_t length = 0; length < WORDS; length += 5)
        step_on(card.words, length, BATCH(0, 0, 0), (struct answer){1, 0, 0, 0}, card.words, group, "number 1");
    step_refused(changed(card, GI_CONFIG_FORMAT, 2), BATCH(0, 0, 0), 2, group, "number 2");
    step_refused(changed(card, GI_CONFIG_PLACES, 1), BATCH(0, 0, 0), 3, group, "number 3");
    step_refused(changed(card, GI_CONFIG_OLD_LENGTH, 4), BATCH(ADD(7, 1), ADD(5, 1)), 3, group, "number 3");
    step_refused(changed(card, map_word(0, 1), 3), BATCH(0, 0, 0), 4, group, "number 4");
    step_refused(changed(card, map_word(0, 1), 3), BATCH(ANNUL(2, 0)), 4, group, "number 4 before 6");
    step_refused(changed(card, map_word(0, 1), 3), BATCH(ANNUL(2, 1)), 4, group, "number 4, an empty range");
    step_refused(changed(card, map_word(0, 1), 3), BATCH_1, 4, group, "number 4, a good batch");
}

static void wrong_spans(void) {
    const char *group = "no write stands";
    struct card card = case1();
    static const uint32_t writes[] = {0, 1, 2, 3, 4, UINT32_MAX};
    for (size_t i = 0; i < sizeof writes / sizeof *writes; i++) {
        uint32_t write = writes[i];
        for (size_t length = 0; length < WORDS; length += 5)
            span_is(card.words, length, write, 1, 0, 0, group, "number 1");
        span_is(changed(card, GI_CONFIG_FORMAT, 2).words, WORDS, write, 2, 0, 0, group, "number 2");
        span_is(changed(card, GI_CONFIG_PLACES, 0).words, WORDS, write, 3, 0, 0, group, "number 3");
        span_is(changed(card, GI_CONFIG_OLD_LENGTH, 4).words, WORDS, write, 3, 0, 0, group, "number 3");
        span_is(changed(card, map_word(0, 1), 3).words, WORDS, write, 4, 0, 0, group, "number 4");
        if (write < GI_WRITE_BLOCK || write > GI_WRITE_CONFIGURATION)
            span_is(card.words, WORDS, write, GI_DONE, 0, 0, group, "a write that is none");
    }
    span_is(card.words, WORDS, GI_WRITE_BLOCK, GI_DONE, place_word(1, 0), B, group, "but the block of the due place");
    span_is(card.words, WORDS, GI_WRITE_MAP_ENTRY, GI_DONE, map_word(1, 0), 2, group, "but its map entry");
    span_is(card.words, WORDS, GI_WRITE_CONFIGURATION, GI_DONE, 0, 8, group, "but the configuration words");
}

void test_step(void) {
    case_1();
    cases_2_3();
    case_4();
    cases_5_6();
    batches();
    annulled_round();
    annulled();
    empty_ranges();
    circle();
    largest();
    annulled_largest();
    wrong_records();
    wrong_annulments();
    wrong_empty_ranges();
    wrong_order();
    full_cards();
    wrong_cards();
    wrong_spans();
}
