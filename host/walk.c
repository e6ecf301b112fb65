/* A walk over the live pairs of a card. */
#include "walk.h"

#include "card_file.h"
#include "gameindex.h"

struct walk walk_over(const uint32_t *card) {
    return (struct walk){.card = card};
}

/* The words of the live block in hand. */
static const uint32_t *block_of(const struct walk *walk) {
    const uint32_t *card = walk->card;
    size_t places = card[GI_CONFIG_PLACES];
    size_t old_length = card[GI_CONFIG_OLD_LENGTH];
    size_t new_length = card[GI_CONFIG_NEW_LENGTH];
    /* the new segment stands behind the old one, and comes first */
    size_t ahead = walk->block < new_length ? old_length + walk->block : walk->block - new_length;
    size_t place = (card[GI_CONFIG_OLD_START] + ahead) % places;
    return card + GI_CONFIG_WORDS + places * GI_MAP_ENTRY_WORDS + place * card[GI_CONFIG_BLOCK_WORDS];
}

/* Finds the next entry of the live blocks; NULL where there is none. */
static const uint32_t *next_entry(struct walk *walk) {
    const uint32_t *card = walk->card;
    uint32_t live = card[GI_CONFIG_OLD_LENGTH] + card[GI_CONFIG_NEW_LENGTH];
    for (; walk->block < live; walk->block++, walk->at = 0) {
        const uint32_t *entry = block_of(walk) + walk->at;
        if (card[GI_CONFIG_BLOCK_WORDS] - walk->at < 3 || entry[0] == 0)
            continue;
        walk->at += 2 + entry[1];
        walk->entries += 2 + (uint64_t)entry[1];
        return entry;
    }
    return NULL;
}

/* Leaves out of a run of the old segment what is not above the boundary. */
static void above_boundary(const uint32_t *card, struct run *run) {
    uint32_t term = card[GI_CONFIG_BOUNDARY_TERM];
    uint32_t position = card[GI_CONFIG_BOUNDARY_POSITION];
    while (run->count > 0 && (run->term < term || (run->term == term && run->positions[0] <= position))) {
        run->positions++;
        run->count--;
    }
}

bool walk_next(struct walk *walk, struct run *run) {
    const uint32_t *entry;
    while ((entry = next_entry(walk)) != NULL) {
        *run = (struct run){.term = entry[0], .positions = entry + 2, .count = entry[1]};
        if (walk->block >= walk->card[GI_CONFIG_NEW_LENGTH])
            above_boundary(walk->card, run);
        if (run->count > 0)
            return true;
    }
    return false;
}

int walk_card(const struct options *options, const char *path, void (*over)(struct walk walk)) {
    struct card_file card;
    int status = card_open(&card, path, false, options->wait);
    if (status != EXIT_DONE)
        return status;
    status = card_judge(&card);
    if (status == EXIT_DONE)
        over(walk_over(card.words));
    card_close(&card);
    return status;
}
