/* A judge of a card in plain C, written for speed, for the benchmark alone.
 * It reads each live word once. What is wrong in a block is gathered and looked
 * at where the block ends. Positions of an entry are compared in a loop without
 * early exit, which the compiler vectorises; entries of up to four positions,
 * too short for that, are compared without a loop. */
#include "judge_c.h"

#include <stdbool.h>

#include "gameindex.h"

/* A pair as one number, in the order of pairs; no pair is 0. */
static inline uint64_t rank(uint32_t term, uint32_t position) {
    return (uint64_t)term << 32 | position;
}

/* Not 0 where count positions, at least 1, do not rise from above 0. */
static inline uint32_t falls(const uint32_t *positions, uint32_t count) {
    uint32_t found = positions[0] == 0;
    if (count > 4) {
        for (uint32_t i = 1; i < count; i++)
            found |= positions[i - 1] >= positions[i];
        return found;
    }
    if (count > 1)
        found |= positions[0] >= positions[1];
    if (count > 2)
        found |= positions[1] >= positions[2];
    if (count > 3)
        found |= positions[2] >= positions[3];
    return found;
}

static inline bool zeros(const uint32_t *words, uint32_t count) {
    uint32_t any = 0;
    for (uint32_t i = 0; i < count; i++)
        any |= words[i];
    return any == 0;
}

/* The last pair of a block of size words; 0 where the block is ill formed. */
static uint64_t last_pair(const uint32_t *block, uint32_t size) {
    uint32_t at = 0;
    uint32_t term = 0;
    uint32_t wrong = 0;
    while (size - at >= 3 && block[at] != 0) {
        uint32_t count = block[at + 1];
        /* a count of 0 wraps to the largest number here */
        if (count - 1 >= size - at - 2)
            return 0;
        wrong |= block[at] <= term;
        wrong |= falls(block + at + 2, count);
        term = block[at];
        at += 2 + count;
    }
    if (at == 0 || wrong != 0 || !zeros(block + at, size - at))
        return 0;
    return rank(term, block[at - 1]);
}

/* Where the places of a card stand. */
struct layout {
    const uint32_t *map;
    const uint32_t *blocks;
    uint32_t block_words;
    uint32_t places;
};

/* The last pairs of a segment's first and last block. */
struct segment {
    bool sound;
    uint64_t first_block_last;
    uint64_t last;
};

/* Reads length places from start, around the circle. */
static struct segment read_segment(struct layout card, uint32_t start, uint32_t length) {
    struct segment read = {true, 0, 0};
    uint32_t place = start;
    for (uint32_t k = 0; k < length; k++) {
        const uint32_t *block = card.blocks + (size_t)place * card.block_words;
        const uint32_t *entry = card.map + (size_t)place * GI_MAP_ENTRY_WORDS;
        uint64_t first = rank(block[0], block[2]);
        uint64_t last = last_pair(block, card.block_words);
        if (last == 0 || first <= read.last || first != rank(entry[0], entry[1])) {
            read.sound = false;
            return read;
        }
        if (k == 0)
            read.first_block_last = last;
        read.last = last;
        if (++place == card.places)
            place = 0;
    }
    return read;
}

uint32_t judge_c(const uint32_t *card, size_t card_len) {
    if (card_len < GI_CONFIG_WORDS)
        return GI_CARD_LENGTH;
    if (card[GI_CONFIG_FORMAT] != GI_FORMAT)
        return GI_CARD_FORMAT;
    uint32_t b = card[GI_CONFIG_BLOCK_WORDS];
    uint32_t n = card[GI_CONFIG_PLACES];
    if (b < GI_BLOCK_WORDS_MIN || b > GI_BLOCK_WORDS_MAX || n < GI_PLACES_MIN || n > GI_PLACES_MAX)
        return GI_CARD_CONFIGURATION;
    if (card_len != gi_card_words(b, n))
        return GI_CARD_LENGTH;

    uint32_t old_start = card[GI_CONFIG_OLD_START];
    uint32_t old_length = card[GI_CONFIG_OLD_LENGTH];
    uint32_t new_length = card[GI_CONFIG_NEW_LENGTH];
    uint32_t boundary_term = card[GI_CONFIG_BOUNDARY_TERM];
    uint32_t boundary_position = card[GI_CONFIG_BOUNDARY_POSITION];
    if (old_start >= n || (uint64_t)old_length + new_length > n - 1)
        return GI_CARD_CONFIGURATION;
    bool open = new_length != 0;
    if ((boundary_term != 0) != open || (boundary_position != 0) != open)
        return GI_CARD_CONFIGURATION;

    struct layout layout = {card + GI_CONFIG_WORDS, card + GI_CONFIG_WORDS + (size_t)n * GI_MAP_ENTRY_WORDS, b, n};
    uint64_t boundary = rank(boundary_term, boundary_position);
    struct segment fresh = read_segment(layout, (old_start + old_length) % n, new_length);
    if (!fresh.sound || fresh.last != boundary)
        return GI_CARD_BLOCKS;
    struct segment old = read_segment(layout, old_start, old_length);
    if (!old.sound || (old_length != 0 && old.first_block_last <= boundary))
        return GI_CARD_BLOCKS;
    return GI_DONE;
}
