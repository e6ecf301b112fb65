/* A lookup in plain C, written for speed, for the benchmark alone. The blocks to
 * read are found by halving over the map; in an entry the first and the last
 * position are looked at, then its bounds are found by halving. The positions are
 * counted so, and moved by memcpy. The card is not judged. */
#include "lookup_c.h"

#include <string.h>

#include "gameindex.h"

/* A pair as one number, in the order of pairs. */
static inline uint64_t rank(uint32_t term, uint32_t position) {
    return (uint64_t)term << 32 | position;
}

/* Where the places of a card stand. */
struct layout {
    const uint32_t *map;
    const uint32_t *blocks;
    uint32_t block_words;
    uint32_t places;
};

/* The blocks to read of a segment: so many places from one on. Wanted are positions above after. */
struct stretch {
    uint32_t place;
    uint32_t count;
    uint32_t after;
};

/* What is wanted: positions of the term, up to one. */
struct question {
    uint32_t term;
    uint32_t to;
};

/* Some words of the card. */
struct part {
    const uint32_t *words;
    uint32_t count;
};

/* How many of a segment's places stand up to the last whose map pair is at most the bound. */
static uint32_t mapped_to(struct layout card, uint32_t start, uint32_t length, uint64_t bound) {
    uint32_t low = 0;
    uint32_t high = length;
    while (low < high) {
        uint32_t middle = low + (high - low) / 2;
        const uint32_t *entry = card.map + (size_t)((start + middle) % card.places) * GI_MAP_ENTRY_WORDS;
        if (rank(entry[0], entry[1]) <= bound)
            low = middle + 1;
        else
            high = middle;
    }
    return low;
}

/* Of a segment's pairs those above the rank live_above are live. */
static struct stretch stretch_of(struct layout card, uint32_t start, uint32_t length, struct question wanted,
                                 uint32_t from, uint64_t live_above) {
    uint32_t skipped = mapped_to(card, start, length, rank(wanted.term, from));
    uint32_t read = mapped_to(card, start, length, rank(wanted.term, wanted.to));
    uint32_t after = from - 1;
    if (skipped > 0)
        skipped--;
    if (rank(wanted.term, wanted.to) <= live_above)
        after = wanted.to;
    else if (rank(wanted.term, from) <= live_above)
        after = (uint32_t)live_above;
    return (struct stretch){(start + skipped) % card.places, read - skipped, after};
}

/* How many of the positions, of which there is one at least, are at most the bound. */
static inline uint32_t up_to(const uint32_t *positions, uint32_t count, uint32_t bound) {
    if (bound < positions[0])
        return 0;
    if (positions[count - 1] <= bound)
        return count;
    uint32_t low = 0;
    uint32_t high = count;
    while (low < high) {
        uint32_t middle = low + (high - low) / 2;
        if (positions[middle] <= bound)
            low = middle + 1;
        else
            high = middle;
    }
    return low;
}

/* The wanted positions of a block. */
static inline struct part part_of(const uint32_t *block, uint32_t size, struct question wanted, uint32_t after) {
    uint32_t at = 0;
    while (at + 3 <= size && block[at] != 0 && block[at] < wanted.term)
        at += 2 + block[at + 1];
    if (at + 3 > size || block[at] != wanted.term)
        return (struct part){block, 0};
    const uint32_t *positions = block + at + 2;
    uint32_t start = up_to(positions, block[at + 1], after);
    uint32_t end = up_to(positions, block[at + 1], wanted.to);
    return (struct part){positions + start, end <= start ? 0 : end - start};
}

static inline const uint32_t *block_of(struct layout card, uint32_t place) {
    return card.blocks + (size_t)place * card.block_words;
}

static uint32_t count(struct layout card, struct question wanted, struct stretch read) {
    uint32_t found = 0;
    uint32_t place = read.place;
    for (uint32_t k = 0; k < read.count; k++) {
        found += part_of(block_of(card, place), card.block_words, wanted, read.after).count;
        if (++place == card.places)
            place = 0;
    }
    return found;
}

static uint32_t move(struct layout card, struct question wanted, struct stretch read, uint32_t *answer) {
    uint32_t found = 0;
    uint32_t place = read.place;
    for (uint32_t k = 0; k < read.count; k++) {
        struct part part = part_of(block_of(card, place), card.block_words, wanted, read.after);
        memcpy(answer + found, part.words, part.count * sizeof *answer);
        found += part.count;
        if (++place == card.places)
            place = 0;
    }
    return found;
}

uint32_t lookup_c(const uint32_t *card, uint32_t term, uint32_t from, uint32_t to, uint32_t *answer, size_t answer_len,
                  bool count_first, uint32_t *found, uint32_t *blocks) {
    uint32_t n = card[GI_CONFIG_PLACES];
    uint32_t old_start = card[GI_CONFIG_OLD_START];
    uint32_t old_length = card[GI_CONFIG_OLD_LENGTH];
    uint32_t new_length = card[GI_CONFIG_NEW_LENGTH];
    uint64_t boundary = rank(card[GI_CONFIG_BOUNDARY_TERM], card[GI_CONFIG_BOUNDARY_POSITION]);
    struct layout layout = {card + GI_CONFIG_WORDS, card + GI_CONFIG_WORDS + (size_t)n * GI_MAP_ENTRY_WORDS,
                            card[GI_CONFIG_BLOCK_WORDS], n};
    struct question wanted = {term, to};
    *found = *blocks = 0;
    if (term == 0 || from == 0 || to < from)
        return GI_LOOKUP_RANGE;
    struct stretch fresh = stretch_of(layout, (old_start + old_length) % n, new_length, wanted, from, 0);
    struct stretch old = stretch_of(layout, old_start, old_length, wanted, from, boundary);
    if (count_first && count(layout, wanted, fresh) + count(layout, wanted, old) > answer_len)
        return GI_LOOKUP_ANSWER;
    uint32_t moved = move(layout, wanted, fresh, answer);
    *found = moved + move(layout, wanted, old, answer + moved);
    *blocks = fresh.count + old.count;
    return GI_DONE;
}
