/* Shows the positions of terms of a card file. */
#include <inttypes.h>
#include <stdio.h>
#include <stdlib.h>

#include "gameindex.h"
#include "question.h"

static void show_positions(const struct question *asked, const uint32_t *positions, uint32_t count) {
    for (uint32_t i = 0; i < count; i++)
        if (asked->alone)
            printf("%" PRIu32 "\n", positions[i]);
        else
            printf("%" PRIu32 "\t%" PRIu32 "\n", asked->term, positions[i]);
}

/* Shows the answer one position to a line, and its counts beside it. */
static int look_up(const struct card_file *card, struct question asked) {
    /* no card holds as many positions as it has words */
    uint32_t *answer = malloc(card->length * sizeof *answer);
    if (answer == NULL)
        return no_memory(card->path);
    uint32_t found;
    uint32_t blocks;
    uint32_t number =
        gi_lookup(card->words, card->length, asked.term, asked.from, asked.to, answer, card->length, &found, &blocks);
    int status = number == GI_DONE ? EXIT_DONE : refused(card->path, number);
    if (status == EXIT_DONE) {
        show_positions(&asked, answer, found);
        if (telling())
            fprintf(stderr,
                    "%s: term %" PRIu32 " from %" PRIu32 " to %" PRIu32 ": %" PRIu64 " %s%s, %" PRIu64 " %s%s read\n",
                    card->path, asked.term, asked.from, asked.to, COUNTED(found, "position"), COUNTED(blocks, "block"));
    }
    free(answer);
    return status;
}

int run_lookup(const struct options *options, char **words) {
    return ask(options, words, look_up);
}
