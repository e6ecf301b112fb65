/* A step in plain C, written for speed, for the benchmarks alone. It judges the card
 * and the batch, fills the due block and makes the first write that is not there yet.
 * Positions of an entry that no record touches are moved as a whole. */
#include "step_c.h"

#include "judge_c.h"
#include "walk_c.h"

/* The due block. */
struct due {
    uint32_t words[GI_BLOCK_WORDS_MAX];
    uint32_t used;
    uint64_t last; /* its last pair, 0 where nothing remains */
    bool more;     /* whether pairs stand beyond it */
};

static void fill(struct due *due, struct walk *w, uint32_t size) {
    uint32_t *count = NULL; /* the count of the entry in hand */
    due->used = 0;
    due->last = 0;
    due->more = false;
    while (next_pair(w)) {
        bool new_term = (w->pair ^ due->last) >> 32 != 0;
        if (due->used + (new_term ? 3 : 1) > size) {
            due->more = true;
            break;
        }
        if (new_term) {
            due->words[due->used] = (uint32_t)(w->pair >> 32);
            count = &due->words[due->used + 1];
            *count = 0;
            due->used += 2;
        }
        due->words[due->used++] = (uint32_t)w->pair;
        uint32_t run = run_behind(w);
        if (run > size - due->used)
            run = size - due->used;
        memcpy(due->words + due->used, w->old.at, run * sizeof *due->words);
        due->used += run;
        *count += 1 + run;
        pass_run(w, run);
        due->last = w->pair;
    }
    memset(due->words + due->used, 0, (size - due->used) * sizeof *due->words);
}

/* How many leading old blocks have no pair above a boundary. */
static uint32_t freed_by(const uint32_t *card, const uint32_t *blocks, uint64_t boundary) {
    uint32_t size = card[GI_CONFIG_BLOCK_WORDS];
    uint32_t place = card[GI_CONFIG_OLD_START];
    uint32_t freed = 0;
    while (freed < card[GI_CONFIG_OLD_LENGTH] && last_of(blocks + (size_t)place * size, size) <= boundary) {
        freed++;
        if (++place == card[GI_CONFIG_PLACES])
            place = 0;
    }
    return freed;
}

/* Writes the configuration words for a due block, or for none. */
static void configure(uint32_t *card, const struct due *due, uint32_t freed) {
    uint32_t built = card[GI_CONFIG_NEW_LENGTH] + (due->last != 0);
    card[GI_CONFIG_OLD_START] = (card[GI_CONFIG_OLD_START] + freed) % card[GI_CONFIG_PLACES];
    card[GI_CONFIG_OLD_LENGTH] = due->more ? card[GI_CONFIG_OLD_LENGTH] - freed : built;
    card[GI_CONFIG_NEW_LENGTH] = due->more ? built : 0;
    card[GI_CONFIG_BOUNDARY_TERM] = due->more ? (uint32_t)(due->last >> 32) : 0;
    card[GI_CONFIG_BOUNDARY_POSITION] = due->more ? (uint32_t)due->last : 0;
}

uint32_t step_c(uint32_t *card, size_t card_len, const uint32_t *batch, size_t batch_len, uint32_t *write,
                uint32_t *freed, uint32_t *finished) {
    *write = *freed = *finished = 0;
    uint32_t number = judge_c(card, card_len);
    if (number == GI_DONE)
        number = judge_batch(batch, batch_len);
    if (number != GI_DONE)
        return number;

    struct walk w;
    struct due due;
    uint32_t size = card[GI_CONFIG_BLOCK_WORDS];
    uint32_t places = card[GI_CONFIG_PLACES];
    start_walk(&w, card, batch, batch_len);
    fill(&due, &w, size);
    uint32_t *blocks = card + GI_CONFIG_WORDS + (size_t)places * GI_MAP_ENTRY_WORDS;
    uint32_t gone = due.more ? freed_by(card, blocks, due.last) : card[GI_CONFIG_OLD_LENGTH];
    uint32_t live = card[GI_CONFIG_OLD_LENGTH] + card[GI_CONFIG_NEW_LENGTH];
    if (due.last != 0 && live - gone + 1 > places - 1)
        return GI_CARD_FULL;
    uint32_t place = (card[GI_CONFIG_OLD_START] + live) % places;
    uint32_t *block = blocks + (size_t)place * size;
    uint32_t *entry = card + GI_CONFIG_WORDS + (size_t)place * GI_MAP_ENTRY_WORDS;
    if (due.last != 0 && memcmp(block, due.words, size * sizeof *block) != 0) {
        memcpy(block, due.words, size * sizeof *block);
        *write = GI_WRITE_BLOCK;
    } else if (due.last != 0 && (entry[0] != due.words[0] || entry[1] != due.words[2])) {
        entry[0] = due.words[0];
        entry[1] = due.words[2];
        *write = GI_WRITE_MAP_ENTRY;
    } else {
        configure(card, &due, gone);
        *write = GI_WRITE_CONFIGURATION;
        *freed = gone;
        *finished = !due.more;
    }
    return GI_DONE;
}
