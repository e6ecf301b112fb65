/* Times lookups. First against the judge alone on the same card, since every lookup
 * judges first: frequent and rare terms of the largest card, full. Then what a
 * lookup and a posting reader take beyond the judge, against a lookup in plain C.
 * That one runs behind a judge, and all write the same answer words. Before each
 * call these are overwritten, and after it they are compared to the end: so each
 * call, the judge alone too, finds card and answer in the same caches.
 * The calls take turns; what is beyond the judge is the difference to the judge
 * alone in the same turn, and the median of each counts. */
#include <inttypes.h>
#include <stdio.h>
#include <stdlib.h>
#include <string.h>

#include "bench.h"
#include "lookup_c.h"

enum { CALLS = 400 };

/* A card, the answer words, and what the answer is to be. */
struct desk {
    uint32_t *card;
    size_t card_len;
    uint32_t *answer;
    uint32_t *expected;
};

struct question {
    uint32_t term;
    uint32_t from;
    uint32_t to;
};

/* The median times of a question's calls, those beyond the judge without it, and what the lookup answered. */
struct times {
    double judge;
    double lookup;
    double beyond;
    double read;
    double plain;
    double uncounted;
    uint32_t found;
    uint32_t blocks;
};

/* Overwrites the answer words of the call before. */
static void forget(const struct desk *desk, uint32_t found) {
    memset(desk->answer, 0xff, found * sizeof *desk->answer);
}

/* How many of so many answer words are not as expected; it reads them all. */
static uint32_t differences(const struct desk *desk, uint32_t count) {
    uint32_t different = 0;
    for (uint32_t i = 0; i < count; i++)
        different += desk->answer[i] != desk->expected[i];
    return different;
}

static void must_agree(const struct desk *desk, uint32_t found, uint32_t expected) {
    if (found != expected || differences(desk, found) != 0)
        give_up("answers differ");
}

static double timed_judge_of(const struct desk *desk, uint32_t expected) {
    forget(desk, expected);
    double began = seconds();
    uint32_t number = gi_judge(desk->card, desk->card_len);
    double took = seconds() - began;
    if (number != GI_DONE)
        give_up("a sound card was refused");
    if (differences(desk, expected) != expected)
        give_up("the judge wrote answer words");
    return took;
}

static double timed_lookup(const struct desk *desk, struct question asked, uint32_t expected) {
    uint32_t found;
    uint32_t blocks;
    forget(desk, expected);
    double began = seconds();
    uint32_t number = gi_lookup(desk->card, desk->card_len, asked.term, asked.from, asked.to, desk->answer, CARD_WORDS,
                                &found, &blocks);
    double took = seconds() - began;
    if (number != GI_DONE)
        give_up("a lookup was refused");
    must_agree(desk, found, expected);
    return took;
}

static double timed_read(const struct desk *desk, struct question asked, uint32_t expected) {
    size_t found;
    forget(desk, expected);
    double began = seconds();
    uint32_t number =
        gi_read(desk->card, desk->card_len, asked.term, asked.from, asked.to, desk->answer, CARD_WORDS, &found);
    double took = seconds() - began;
    if (number != GI_DONE)
        give_up("a reading was refused");
    must_agree(desk, (uint32_t)found, expected);
    return took;
}

/* The judge and the plain C lookup, one after the other. */
static double timed_plain(const struct desk *desk, struct question asked, bool count_first, uint32_t expected) {
    uint32_t found = 0;
    uint32_t blocks;
    forget(desk, expected);
    double began = seconds();
    uint32_t number = gi_judge(desk->card, desk->card_len);
    if (number == GI_DONE)
        number = lookup_c(desk->card, asked.term, asked.from, asked.to, desk->answer, CARD_WORDS, count_first, &found,
                          &blocks);
    double took = seconds() - began;
    if (number != GI_DONE)
        give_up("plain C refused a lookup");
    must_agree(desk, found, expected);
    return took;
}

/* What the library answers must be what plain C answers, the count of blocks too. */
static struct times answered(const struct desk *desk, struct question asked) {
    struct times times;
    uint32_t found;
    uint32_t blocks;
    if (gi_lookup(desk->card, desk->card_len, asked.term, asked.from, asked.to, desk->answer, CARD_WORDS, &times.found,
                  &times.blocks) != GI_DONE ||
        lookup_c(desk->card, asked.term, asked.from, asked.to, desk->expected, CARD_WORDS, true, &found, &blocks) !=
            GI_DONE)
        give_up("a lookup was refused");
    if (blocks != times.blocks)
        give_up("counts of blocks differ");
    must_agree(desk, times.found, found);
    return times;
}

static struct times time_question(const struct desk *desk, struct question asked) {
    static double judge[CALLS];
    static double lookup[CALLS];
    static double beyond[CALLS];
    static double read[CALLS];
    static double plain[CALLS];
    static double uncounted[CALLS];
    struct times times = answered(desk, asked);
    for (int i = 0; i < CALLS; i++) {
        judge[i] = timed_judge_of(desk, times.found);
        lookup[i] = timed_lookup(desk, asked, times.found);
        beyond[i] = lookup[i] - judge[i];
        plain[i] = timed_plain(desk, asked, true, times.found) - judge[i];
        uncounted[i] = timed_plain(desk, asked, false, times.found) - judge[i];
        read[i] = timed_read(desk, asked, times.found) - judge[i];
    }
    times.judge = median(judge, CALLS);
    times.lookup = median(lookup, CALLS);
    times.beyond = median(beyond, CALLS);
    times.read = median(read, CALLS);
    times.plain = median(plain, CALLS);
    times.uncounted = median(uncounted, CALLS);
    return times;
}

static void show_beside_judge(const struct desk *desk, const char *what, uint32_t term) {
    struct times times = time_question(desk, (struct question){term, GI_LOWEST, GI_HIGHEST});
    printf("%-26s %9" PRIu32 " %7" PRIu32 " %9.4f %9.4f %7.2f\n", what, times.found, times.blocks, times.lookup * 1e3,
           times.judge * 1e3, times.lookup / times.judge);
}

static void show_beyond_judge(const struct desk *desk, const char *what, struct question asked) {
    struct times times = time_question(desk, asked);
    double us = 1e6;
    printf("%-26s %9" PRIu32 " %7" PRIu32 " %9.2f %9.2f %9.2f %9.2f %7.2f %7.2f %7.2f\n", what, times.found,
           times.blocks, times.beyond * us, times.plain * us, times.uncounted * us, times.read * us,
           times.beyond / times.plain, times.beyond / times.uncounted, times.read / times.plain);
}

/* Fills a card of the smallest blocks with one term. */
static void fill_small(uint32_t *card) {
    enum { POSITIONS = SMALL_BLOCK_WORDS - 2 };
    start_small_card(card);
    for (uint32_t k = 0; k < LIVE_PLACES; k++) {
        uint32_t place = (OLD_START + k) % PLACES;
        uint32_t *entry = map_entry_at(card, place);
        uint32_t *block = small_block_at(card, place);
        block[0] = entry[0] = 1;
        block[1] = POSITIONS;
        for (uint32_t i = 0; i < POSITIONS; i++)
            block[2 + i] = APART * (k * POSITIONS + i) + 1;
        entry[1] = block[2];
    }
}

int main(void) {
    struct desk desk = {words_for(CARD_WORDS), CARD_WORDS, words_for(CARD_WORDS), words_for(CARD_WORDS)};
    uint32_t last = fill_zipf(desk.card, LIVE_PLACES);
    printf("lookup, %d places live, ms a call (median of %d)\n", LIVE_PLACES, CALLS);
    printf("%-26s %9s %7s %9s %9s %7s\n", "term", "positions", "blocks", "lookup", "judge", "ratio");
    show_beside_judge(&desk, "the most frequent", 1);
    show_beside_judge(&desk, "the 10th", 10);
    show_beside_judge(&desk, "the 1,000th", 1000);
    show_beside_judge(&desk, "a rare one", last - 2);
    show_beside_judge(&desk, "one that is not there", GI_HIGHEST);

    printf(
        "\nbeyond the judge, us a call (median of %d); plain C, which counts first as the library does, and the same "
        "without counting\n",
        CALLS);
    printf("%-26s %9s %7s %9s %9s %9s %9s %7s %7s %7s\n", "question", "positions", "blocks", "lookup", "C", "no count",
           "reader", "/C", "/no ct", "rd/C");
    show_beyond_judge(&desk, "the most frequent term", (struct question){1, GI_LOWEST, GI_HIGHEST});
    show_beyond_judge(&desk, "the second", (struct question){2, GI_LOWEST, GI_HIGHEST});
    show_beyond_judge(&desk, "the third", (struct question){3, GI_LOWEST, GI_HIGHEST});
    show_beyond_judge(&desk, "the first, its middle", (struct question){1, 70001, 200000});
    fill_one_term(desk.card, LIVE_PLACES, 1, 1);
    show_beyond_judge(&desk, "one term, whole card", (struct question){1, GI_LOWEST, GI_HIGHEST});
    fill_one_a_block(desk.card);
    show_beyond_judge(&desk, "one to a block", (struct question){1, GI_LOWEST, GI_HIGHEST});
    fill_small(desk.card);
    desk.card_len = SMALL_CARD_WORDS;
    show_beyond_judge(&desk, "one term, blocks of 8", (struct question){1, GI_LOWEST, GI_HIGHEST});

    free(desk.expected);
    free(desk.answer);
    free(desk.card);
    return 0;
}
