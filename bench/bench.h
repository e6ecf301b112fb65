/* What the benchmarks share: the largest card, filled in several ways, where a
 * term stands on it, a batch for it, the clock, and numbers by chance. */
#ifndef BENCH_H
#define BENCH_H

#include <stddef.h>
#include <stdint.h>

#include "gameindex.h"

enum {
    BLOCK_WORDS = GI_BLOCK_WORDS_MAX,
    PLACES = GI_PLACES_MAX,
    LIVE_PLACES = PLACES - 1, /* of a full card */
    CARD_WORDS = GI_CARD_WORDS_MAX,
    SMALL_BLOCK_WORDS = GI_BLOCK_WORDS_MIN,
    SMALL_CARD_WORDS = GI_CONFIG_WORDS + PLACES * (GI_MAP_ENTRY_WORDS + SMALL_BLOCK_WORDS),
    OLD_START = 700, /* so that the segment goes around the circle */
    APART = 3,       /* how far a term's positions are apart */
    BATCH_WORDS = GI_BATCH_RECORDS_MAX * GI_RECORD_WORDS
};

/* Says what went wrong and ends the benchmark. */
void give_up(const char *what);

/* Memory for count words or bytes; never NULL. */
uint32_t *words_for(size_t count);
uint8_t *bytes_for(size_t count);

double seconds(void);

/* The median of some times, which it sorts. */
double median(double *times, size_t count);

/* The next number by chance, the same in every run; the state is not 0. */
uint32_t chance(uint32_t *state);

/* Seconds of one call of the judge on a sound card. */
double timed_judge(const uint32_t *card);

/* Where the block and the map entry of a place stand. */
uint32_t *block_at(uint32_t *card, uint32_t place);
uint32_t *map_entry_at(uint32_t *card, uint32_t place);

/* Makes a card with a number of live places, all old, and zeros for the rest;
 * the places still have to be filled. */
void start_card(uint32_t *card, uint32_t live);

/* The same of a card of the smallest blocks, full, and where a block of it stands; map entries
 * stand where they do on the largest. */
void start_small_card(uint32_t *card);
uint32_t *small_block_at(uint32_t *card, uint32_t place);

/* Where a term's entry stands in a block; BLOCK_WORDS where there is none. */
uint32_t entry_of(const uint32_t *block, uint32_t term);

/* The live places that hold a term: how many, and which is the first. */
struct holders {
    uint32_t first;
    uint32_t count;
};

/* Finds them on a full card. */
struct holders holders_of(uint32_t *card, uint32_t term);

/* Fills the live places with one term, from its first position on. */
void fill_one_term(uint32_t *card, uint32_t live, uint32_t term, uint32_t first);

/* Fills all live places with term 1, one position to a block: 1, 2, 3 and so on. */
void fill_one_a_block(uint32_t *card);

/* The position with a number, from 0, of a term; the positions of a term rise. */
typedef uint32_t position_maker(uint32_t term, uint32_t i);

/* Fills the live places with entries of count positions each, as many as have room
 * in a block, of terms 1, 2, 3 and so on. */
void fill_entries(uint32_t *card, uint32_t live, uint32_t count, position_maker *position);

/* Fills the live places with terms whose frequency is that of a Zipf law: term t
 * has 1/t of the first term's positions, and at least one. Gives the last term. */
uint32_t fill_zipf(uint32_t *card, uint32_t live);

/* Makes a batch of 4,096 records for such a card. Each is about a live pair
 * chosen by chance, so the terms follow the same law: one half adds a position
 * beside it, the other removes it and its next ones. More is removed than added
 * up to every pair, so that the full card has room for the pass. The records
 * arrive in their order. */
void zipf_batch(uint32_t *card, uint32_t live, uint32_t *batch);

/* The same with additions only. */
void zipf_additions(uint32_t *card, uint32_t live, uint32_t *batch);

/* The same with 16 annulments, of 40 positions each, before them. */
void zipf_annulments(uint32_t *card, uint32_t live, uint32_t *batch);

/* Has the records of a batch of 4,096 arrive in their order, 1 to 4,096; or with
 * different words, by chance. */
void arrive_in_order(uint32_t *batch);
void arrive_by_chance(uint32_t *batch);

/* The words that a step may write, as they were before it. */
struct before {
    uint32_t place;
    uint32_t configuration[GI_CONFIG_WORDS];
    uint32_t entry[GI_MAP_ENTRY_WORDS];
    uint32_t block[BLOCK_WORDS];
};

struct before kept(uint32_t *card);

/* The same words of a place that was due before a step. */
struct before kept_at(uint32_t *card, uint32_t place);

void put_back(uint32_t *card, const struct before *words);

#endif
