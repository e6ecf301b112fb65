/* A forecast in plain C, written for speed, for the benchmark alone. It judges the
 * card and the batch, then goes over the old pairs and the records once, side by
 * side. Positions of an entry that no record touches are counted as a whole. */
#include "forecast_c.h"

#include "judge_c.h"
#include "walk_c.h"

/* ---- the blocks to come */

struct tally {
    uint32_t blocks;
    uint32_t free;  /* writes that leave a place free, up to the first that does not */
    uint32_t held;  /* old places not freed yet */
    uint32_t first; /* the first of them */
    uint64_t last;  /* its last pair, 0 where it is not known */
};

static void close_block(struct tally *t, const struct old *o, uint32_t new_length, uint64_t last) {
    if (t->free == t->blocks++) {
        while (t->held != 0) {
            if (t->last == 0)
                t->last = last_of(o->blocks + (size_t)t->first * o->block_words, o->block_words);
            if (t->last > last)
                break;
            t->held--;
            t->last = 0;
            if (++t->first == o->places)
                t->first = 0;
        }
        t->free += t->held + new_length + t->blocks < o->places;
    }
}

uint32_t forecast_c(const uint32_t *card, size_t card_len, const uint32_t *batch, size_t batch_len, uint32_t *blocks,
                    uint32_t *limit, uint32_t *finishes, uint32_t *writes) {
    *blocks = *limit = *finishes = *writes = 0;
    uint32_t number = judge_c(card, card_len);
    if (number == GI_DONE)
        number = judge_batch(batch, batch_len);
    if (number != GI_DONE)
        return number;

    struct walk w;
    start_walk(&w, card, batch, batch_len);
    uint32_t size = card[GI_CONFIG_BLOCK_WORDS];
    uint32_t places = card[GI_CONFIG_PLACES];
    uint32_t new_length = card[GI_CONFIG_NEW_LENGTH];
    struct tally t = {0, 0, card[GI_CONFIG_OLD_LENGTH], card[GI_CONFIG_OLD_START], 0};
    uint32_t used = 0;
    uint64_t last = 0; /* of the block in hand */
    while (next_pair(&w)) {
        uint32_t more = run_behind(&w);
        uint32_t head = (w.pair ^ last) >> 32 != 0 ? 2 : 0;
        uint32_t room = size - used;
        if (head + 1 + more <= room) {
            used += head + 1 + more;
        } else {
            uint32_t fit = head < room ? room - head : 0;
            uint64_t ends = fit == 0 ? last : fit == 1 ? w.pair : rank(w.old.term, w.old.at[fit - 2]);
            close_block(&t, &w.old, new_length, ends);
            used = 3 + more - fit;
        }
        pass_run(&w, more);
        last = w.pair;
    }
    if (last != 0) {
        t.free += t.free == t.blocks && new_length + t.blocks + 1 < places;
        t.blocks++;
    }
    *blocks = t.blocks;
    *limit = t.blocks == 0 ? 1 : 3 * t.blocks;
    *finishes = t.free == t.blocks;
    *writes = *finishes ? 0 : t.free;
    return GI_DONE;
}
