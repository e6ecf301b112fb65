/* Shows every live pair of a card file. */
#include <inttypes.h>
#include <stdio.h>

#include "gamecard.h"
#include "walk.h"

static void show_pairs(struct walk walk) {
    struct run run;
    while (walk_next(&walk, &run))
        for (uint32_t i = 0; i < run.count; i++)
            printf("%" PRIu32 "\t%" PRIu32 "\n", run.term, run.positions[i]);
}

int run_dump(const struct options *options, char **words) {
    return walk_card(options, words[0], show_pairs);
}
