/* A walk over the live pairs of a sound card, rising: the new segment, then what of the
 * old one is above the boundary. */
#ifndef WALK_H
#define WALK_H

#include <stdbool.h>
#include <stddef.h>
#include <stdint.h>

#include "gamecard.h"

/* How far a walk is. */
struct walk {
    const uint32_t *card;
    uint32_t block;   /* the live block in hand, from 0, the new ones first */
    uint32_t at;      /* the word in it where the next entry stands */
    uint64_t entries; /* words of the entries that have been passed */
};

/* Positions of a term, rising. The same term may come again, with greater ones. */
struct run {
    uint32_t term;
    const uint32_t *positions;
    uint32_t count; /* at least 1 */
};

/* Begins before the first pair of a sound card. */
struct walk walk_over(const uint32_t *card);

/* Goes on to the next run; false where there is none. */
bool walk_next(struct walk *walk, struct run *run);

/* Has a card file walked over, and gives the exit status; one that is not sound is refused. */
int walk_card(const struct options *options, const char *path, void (*over)(struct walk walk));

#endif
