/* What the benchmarks share: the largest card, filled in several ways, where a
 * term stands on it, a batch for it, the clock, and numbers by chance. */
#define _POSIX_C_SOURCE 200809L

#include "bench.h"

#include <stdbool.h>
#include <stdio.h>
#include <stdlib.h>
#include <string.h>
#include <time.h>

void give_up(const char *what) {
    fprintf(stderr, "bench: %s\n", what);
    exit(1);
}

static void *zeros(size_t count, size_t size) {
    void *memory = calloc(count, size);
    if (memory == NULL)
        give_up("no memory");
    return memory;
}

uint32_t *words_for(size_t count) {
    return zeros(count, sizeof(uint32_t));
}

uint8_t *bytes_for(size_t count) {
    return zeros(count, 1);
}

double seconds(void) {
    struct timespec now;
    clock_gettime(CLOCK_MONOTONIC, &now);
    return (double)now.tv_sec + 1e-9 * (double)now.tv_nsec;
}

static int by_size(const void *one, const void *other) {
    const double a = *(const double *)one;
    const double b = *(const double *)other;
    return (a > b) - (a < b);
}

double median(double *times, size_t count) {
    qsort(times, count, sizeof *times, by_size);
    return times[count / 2];
}

uint32_t chance(uint32_t *state) {
    *state ^= *state << 13;
    *state ^= *state >> 17;
    *state ^= *state << 5;
    return *state;
}

double timed_judge(const uint32_t *card) {
    double began = seconds();
    if (gi_judge(card, CARD_WORDS) != GI_DONE)
        give_up("a sound card was refused");
    return seconds() - began;
}

uint32_t *block_at(uint32_t *card, uint32_t place) {
    return card + GI_CONFIG_WORDS + PLACES * GI_MAP_ENTRY_WORDS + (size_t)place * BLOCK_WORDS;
}

uint32_t *map_entry_at(uint32_t *card, uint32_t place) {
    return card + GI_CONFIG_WORDS + place * GI_MAP_ENTRY_WORDS;
}

void start_card(uint32_t *card, uint32_t live) {
    memset(card, 0, CARD_WORDS * sizeof *card);
    if (gi_format(card, CARD_WORDS, BLOCK_WORDS, PLACES) != GI_DONE)
        give_up("the card was not formatted");
    card[GI_CONFIG_OLD_START] = OLD_START;
    card[GI_CONFIG_OLD_LENGTH] = live;
}

uint32_t *small_block_at(uint32_t *card, uint32_t place) {
    return card + GI_CONFIG_WORDS + PLACES * GI_MAP_ENTRY_WORDS + (size_t)place * SMALL_BLOCK_WORDS;
}

void start_small_card(uint32_t *card) {
    memset(card, 0, SMALL_CARD_WORDS * sizeof *card);
    if (gi_format(card, SMALL_CARD_WORDS, SMALL_BLOCK_WORDS, PLACES) != GI_DONE)
        give_up("the card was not formatted");
    card[GI_CONFIG_OLD_START] = OLD_START;
    card[GI_CONFIG_OLD_LENGTH] = LIVE_PLACES;
}

/* Writes the map entry of a place whose block is filled. */
static void enter(uint32_t *card, uint32_t place) {
    const uint32_t *block = block_at(card, place);
    memcpy(map_entry_at(card, place), (const uint32_t[]){block[0], block[2]}, sizeof(uint32_t[2]));
}

static void must_be_sound(const uint32_t *card) {
    if (gi_judge(card, CARD_WORDS) != GI_DONE)
        give_up("the filled card is not sound");
}

/* The positions of the first term, so that a full card has some 28,000 terms. */
static uint32_t most_frequent(uint32_t live) {
    return 90 * live;
}

uint32_t fill_zipf(uint32_t *card, uint32_t live) {
    start_card(card, live);
    uint32_t most = most_frequent(live);
    uint32_t term = 1;
    uint32_t done = 0; /* positions of the term in earlier blocks */
    for (uint32_t k = 0; k < live; k++) {
        uint32_t place = (OLD_START + k) % PLACES;
        uint32_t *block = block_at(card, place);
        uint32_t at = 0;
        while (at + 3 <= BLOCK_WORDS) {
            uint32_t wanted = (most / term > 0 ? most / term : 1) - done;
            uint32_t room = BLOCK_WORDS - at - 2;
            uint32_t count = wanted < room ? wanted : room;
            block[at] = term;
            block[at + 1] = count;
            for (uint32_t i = 0; i < count; i++)
                block[at + 2 + i] = APART * (done + i) + term % 100 + 1;
            at += 2 + count;
            done += count;
            if (count == wanted) {
                term++;
                done = 0;
            }
        }
        enter(card, place);
    }
    must_be_sound(card);
    return term;
}

void fill_one_term(uint32_t *card, uint32_t live, uint32_t term, uint32_t first) {
    enum { POSITIONS = BLOCK_WORDS - 2 }; /* of a block */
    start_card(card, live);
    for (uint32_t k = 0; k < live; k++) {
        uint32_t place = (OLD_START + k) % PLACES;
        uint32_t *block = block_at(card, place);
        block[0] = term;
        block[1] = POSITIONS;
        for (uint32_t i = 0; i < POSITIONS; i++)
            block[2 + i] = first + APART * (k * POSITIONS + i);
        enter(card, place);
    }
    must_be_sound(card);
}

void fill_one_a_block(uint32_t *card) {
    start_card(card, LIVE_PLACES);
    for (uint32_t k = 0; k < LIVE_PLACES; k++) {
        uint32_t place = (OLD_START + k) % PLACES;
        memcpy(block_at(card, place), (const uint32_t[]){1, 1, k + 1}, sizeof(uint32_t[3]));
        enter(card, place);
    }
    must_be_sound(card);
}

void fill_entries(uint32_t *card, uint32_t live, uint32_t count, position_maker *position) {
    uint32_t term = 1;
    start_card(card, live);
    for (uint32_t k = 0; k < live; k++) {
        uint32_t place = (OLD_START + k) % PLACES;
        uint32_t *block = block_at(card, place);
        for (uint32_t at = 0; at + 2 + count <= BLOCK_WORDS; at += 2 + count, term++) {
            block[at] = term;
            block[at + 1] = count;
            for (uint32_t i = 0; i < count; i++)
                block[at + 2 + i] = position(term, i);
        }
        enter(card, place);
    }
    must_be_sound(card);
}

/* ---- where a term stands */

uint32_t entry_of(const uint32_t *block, uint32_t term) {
    for (uint32_t at = 0; at + 3 <= BLOCK_WORDS && block[at] != 0; at += 2 + block[at + 1])
        if (block[at] == term)
            return at;
    return BLOCK_WORDS;
}

struct holders holders_of(uint32_t *card, uint32_t term) {
    struct holders places = {0, 0};
    for (uint32_t k = 0; k < LIVE_PLACES; k++) {
        uint32_t place = (OLD_START + k) % PLACES;
        if (entry_of(block_at(card, place), term) == BLOCK_WORDS)
            continue;
        if (places.count++ == 0)
            places.first = place;
    }
    return places;
}

/* ---- a step undone */

struct before kept(uint32_t *card) {
    return kept_at(card,
                   (card[GI_CONFIG_OLD_START] + card[GI_CONFIG_OLD_LENGTH] + card[GI_CONFIG_NEW_LENGTH]) % PLACES);
}

struct before kept_at(uint32_t *card, uint32_t place) {
    struct before words = {.place = place};
    memcpy(words.configuration, card, sizeof words.configuration);
    memcpy(words.entry, map_entry_at(card, words.place), sizeof words.entry);
    memcpy(words.block, block_at(card, words.place), sizeof words.block);
    return words;
}

void put_back(uint32_t *card, const struct before *words) {
    memcpy(card, words->configuration, sizeof words->configuration);
    memcpy(map_entry_at(card, words->place), words->entry, sizeof words->entry);
    memcpy(block_at(card, words->place), words->block, sizeof words->block);
}

/* ---- the batch */

enum { REMOVED = 3, REMOVED_FIRST = 100 };

/* Finds the pair that a word of a block belongs to; false where it is none's. */
static bool pair_of_word(const uint32_t *block, uint32_t word, uint32_t *term, uint32_t *position) {
    uint32_t at = 0;
    while (at + 3 <= BLOCK_WORDS && block[at] != 0) {
        uint32_t end = at + 2 + block[at + 1];
        if (word >= at + 2 && word < end) {
            *term = block[at];
            *position = block[word];
            return true;
        }
        at = end;
    }
    return false;
}

static int by_term_then_from(const void *one, const void *other) {
    const uint32_t *a = one;
    const uint32_t *b = other;
    if (a[1] != b[1])
        return a[1] < b[1] ? -1 : 1;
    return a[2] < b[2] ? -1 : a[2] > b[2];
}

/* Fills the words from record on with records, and sorts the batch. */
static void zipf_records(uint32_t *card, uint32_t live, uint32_t *batch, uint32_t *record, bool removals) {
    uint32_t state = 2463534242;
    while (record < batch + BATCH_WORDS) {
        uint32_t place = (OLD_START + chance(&state) % live) % PLACES;
        uint32_t term;
        uint32_t position;
        if (!pair_of_word(block_at(card, place), chance(&state) % BLOCK_WORDS, &term, &position))
            continue;
        bool adds = !removals || chance(&state) % 2 == 0;
        record[0] = adds ? GI_RECORD_ADD : GI_RECORD_REMOVE;
        record[1] = term;
        record[2] = adds ? position + 1 : position;
        record[3] = adds ? position + 1 : position + (REMOVED - 1) * APART;
        record += GI_RECORD_WORDS;
    }
    qsort(batch, GI_BATCH_RECORDS_MAX, GI_RECORD_WORDS * sizeof *batch, by_term_then_from);
    arrive_in_order(batch);
}

void arrive_in_order(uint32_t *batch) {
    for (uint32_t i = 0; i < GI_BATCH_RECORDS_MAX; i++)
        batch[i * GI_RECORD_WORDS + 4] = i + 1;
}

void arrive_by_chance(uint32_t *batch) {
    /* the numbers by chance are all words but 0, each once before one comes again */
    uint32_t state = 521288629;
    for (uint32_t i = 0; i < GI_BATCH_RECORDS_MAX; i++)
        batch[i * GI_RECORD_WORDS + 4] = chance(&state);
}

void zipf_batch(uint32_t *card, uint32_t live, uint32_t *batch) {
    memcpy(batch, (const uint32_t[]){GI_RECORD_REMOVE, 1, 1, REMOVED_FIRST * APART}, sizeof(uint32_t[4]));
    zipf_records(card, live, batch, batch + GI_RECORD_WORDS, true);
}

void zipf_additions(uint32_t *card, uint32_t live, uint32_t *batch) {
    zipf_records(card, live, batch, batch, false);
}

void zipf_annulments(uint32_t *card, uint32_t live, uint32_t *batch) {
    enum { ROUNDS = 16, BETWEEN = 1000, GAMES = 40 };
    uint32_t *record = batch;
    for (uint32_t from = BETWEEN; from <= ROUNDS * BETWEEN; from += BETWEEN, record += GI_RECORD_WORDS)
        memcpy(record, (const uint32_t[]){GI_RECORD_ANNUL, 0, from, from + GAMES - 1}, sizeof(uint32_t[4]));
    zipf_records(card, live, batch, record, false);
}
