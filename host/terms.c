/* Shows each term of a card file with the count of its positions. */
#include <inttypes.h>
#include <stdio.h>

#include "gamecard.h"
#include "walk.h"

static void show_term(uint32_t term, uint64_t count) {
    if (count > 0)
        printf("%" PRIu32 "\t%" PRIu64 "\n", term, count);
}

static void show_terms(struct walk walk) {
    struct run run;
    uint32_t term = 0;
    uint64_t count = 0;
    while (walk_next(&walk, &run)) {
        if (run.term != term) {
            show_term(term, count);
            term = run.term;
            count = 0;
        }
        count += run.count;
    }
    show_term(term, count);
}

int run_terms(const struct options *options, char **words) {
    return walk_card(options, words[0], show_terms);
}
