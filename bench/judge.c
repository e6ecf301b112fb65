/* Times the library's judge against the plain C judge, on the largest card:
 * B = N = 1,024 with 1,023 live places, once of long entries and once of short
 * ones; and on one of the smallest blocks, where each block costs more than its
 * words. The two judges take turns on the same card, call by call, and the median
 * of each counts. */
#include <inttypes.h>
#include <stdbool.h>
#include <stdio.h>
#include <stdlib.h>

#include "bench.h"
#include "judge_c.h"

enum { CALLS = 300 }; /* of each judge */

typedef uint32_t judge_function(const uint32_t *card, size_t card_len);

/* Fills the card with entries of a number of positions each, as many to a
 * block as fit; terms rise by one from entry to entry. */
static void fill(uint32_t *card, uint32_t positions) {
    start_card(card, LIVE_PLACES);
    uint32_t term = 0;
    for (uint32_t k = 0; k < LIVE_PLACES; k++) {
        uint32_t place = (OLD_START + k) % PLACES;
        uint32_t *block = block_at(card, place);
        uint32_t *entry = map_entry_at(card, place);
        for (uint32_t at = 0; at + 2 + positions <= BLOCK_WORDS; at += 2 + positions) {
            block[at] = ++term;
            block[at + 1] = positions;
            for (uint32_t i = 0; i < positions; i++)
                block[at + 2 + i] = 3 * k + 7 * i + 1;
        }
        entry[0] = block[0];
        entry[1] = block[2];
    }
}

/* Seconds of one call, which must give 0. */
static double timed(judge_function *judge, const uint32_t *card, size_t card_len) {
    double began = seconds();
    uint32_t number = judge(card, card_len);
    double took = seconds() - began;
    if (number != GI_DONE)
        give_up("a sound card was refused");
    return took;
}

static bool both_give(const char *what, const uint32_t *card, size_t card_len, uint32_t number) {
    uint32_t library = gi_judge(card, card_len);
    uint32_t plain = judge_c(card, card_len);
    if (library == number && plain == number)
        return true;
    fprintf(stderr, "bench: %s: library %" PRIu32 ", plain C %" PRIu32 ", expected %" PRIu32 "\n", what, library, plain,
            number);
    return false;
}

/* Times both judges on a card and shows what they take for each live word. */
static void show(const char *what, const uint32_t *card, size_t card_len, double live_words) {
    static double in_library[CALLS];
    static double in_plain[CALLS];
    for (int i = 0; i < CALLS; i++) {
        in_library[i] = timed(gi_judge, card, card_len);
        in_plain[i] = timed(judge_c, card, card_len);
    }
    double library = median(in_library, CALLS);
    double plain = median(in_plain, CALLS);
    double ns = 1e9 / live_words;
    printf("%-14s %9.4f %9.4f %9.2f\n", what, library * ns, plain * ns, library / plain);
}

static bool compare(const char *what, uint32_t *card, size_t card_len, uint32_t positions) {
    fill(card, positions);
    if (!both_give(what, card, card_len, GI_DONE))
        return false;

    /* damage: the last position of the last block falls back to its first */
    uint32_t *last = block_at(card, (OLD_START + LIVE_PLACES - 1) % PLACES);
    uint32_t entries = BLOCK_WORDS / (2 + positions);
    uint32_t *word = last + entries * (2 + positions) - 1;
    uint32_t kept = *word;
    *word = word[1 - (int)positions];
    if (!both_give("a damaged card", card, card_len, GI_CARD_BLOCKS))
        return false;
    *word = kept;

    show(what, card, card_len, LIVE_PLACES * BLOCK_WORDS);
    return true;
}

/* A card of the smallest blocks, each with one pair. */
static bool compare_small(void) {
    uint32_t *card = words_for(SMALL_CARD_WORDS);
    start_small_card(card);
    for (uint32_t k = 0; k < LIVE_PLACES; k++) {
        uint32_t place = (OLD_START + k) % PLACES;
        uint32_t *entry = map_entry_at(card, place);
        uint32_t *block = small_block_at(card, place);
        block[0] = entry[0] = k + 1;
        block[1] = 1;
        block[2] = entry[1] = 7;
    }
    bool ok = both_give("small blocks", card, SMALL_CARD_WORDS, GI_DONE);
    if (ok)
        show("1, B = 8", card, SMALL_CARD_WORDS, LIVE_PLACES * SMALL_BLOCK_WORDS);
    free(card);
    return ok;
}

int main(void) {
    uint32_t *card = words_for(CARD_WORDS);
    printf("judge, %d live places, ns per live word (median of %d calls)\n", LIVE_PLACES, CALLS);
    printf("%-14s %9s %9s %9s\n", "entries", "library", "plain C", "ratio");
    bool ok = compare("1,022 long", card, CARD_WORDS, BLOCK_WORDS - 2) && compare("3 long", card, CARD_WORDS, 3) &&
              compare_small();
    free(card);
    return ok ? 0 : 1;
}
