/* What the plain C forecast and step share, written for speed, for the benchmarks
 * alone: a batch that is judged, and a walk over the old pairs and the records, side by
 * side. Of a pair that the batch adds and a removal covers, the records of its term are
 * gone through again; all other pairs are settled by how far the removals reach. */
#ifndef WALK_C_H
#define WALK_C_H

#include <stdbool.h>
#include <stddef.h>
#include <stdint.h>
#include <string.h>

#include "gameindex.h"

static inline uint64_t rank(uint32_t term, uint32_t position) {
    return (uint64_t)term << 32 | position;
}

/* ---- the batch, judged */

/* Whether two of some words, at most 4,096, are alike; it sorts them, 11 bits a turn. */
static inline bool repeats(uint32_t *words, uint32_t count) {
    enum { BITS = 11, BUCKETS = 1 << BITS, TURNS = 3 };
    static uint32_t other[GI_BATCH_RECORDS_MAX];
    uint32_t *from = words;
    uint32_t *to = other;
    for (int turn = 0; turn < TURNS && count > 1; turn++) {
        uint32_t starts[BUCKETS + 1] = {0};
        for (uint32_t i = 0; i < count; i++)
            starts[(from[i] >> turn * BITS) % BUCKETS + 1]++;
        for (uint32_t k = 1; k < BUCKETS; k++)
            starts[k] += starts[k - 1];
        for (uint32_t i = 0; i < count; i++)
            to[starts[(from[i] >> turn * BITS) % BUCKETS]++] = from[i];
        uint32_t *sorted = to;
        to = from;
        from = sorted;
    }
    uint32_t alike = 0;
    for (uint32_t i = 1; i < count; i++)
        alike |= from[i] == from[i - 1];
    return alike != 0;
}

/* The number of a batch: 6, then 14, then 7. Arrival numbers up to 4,096 are marked in
 * a table, the others sorted. */
static inline uint32_t judge_batch(const uint32_t *words, size_t len) {
    if (len % GI_RECORD_WORDS != 0 || len > (size_t)GI_BATCH_RECORDS_MAX * GI_RECORD_WORDS)
        return GI_BATCH_RECORD;
    uint8_t marks[GI_BATCH_RECORDS_MAX + 1] = {1}; /* 0 is as one that was used */
    static uint32_t high[GI_BATCH_RECORDS_MAX];
    uint32_t highs = 0;
    uint32_t bad = 0;
    uint32_t used = 0;
    uint32_t falls = 0;
    uint64_t before = 0;
    for (size_t i = 0; i < len; i += GI_RECORD_WORDS) {
        uint32_t kind = words[i];
        uint32_t term = words[i + 1];
        uint32_t arrival = words[i + 4];
        bad |= term == 0 ? kind != GI_RECORD_ANNUL : kind != GI_RECORD_ADD && kind != GI_RECORD_REMOVE;
        bad |= words[i + 2] == 0 || words[i + 3] == 0;
        bad |= kind == GI_RECORD_ADD && words[i + 2] != words[i + 3];
        if (arrival <= GI_BATCH_RECORDS_MAX) {
            used |= marks[arrival];
            marks[arrival] = 1;
        } else {
            high[highs++] = arrival;
        }
        uint64_t start = rank(term, words[i + 2]);
        falls |= start < before;
        before = start;
    }
    if (bad != 0)
        return GI_BATCH_RECORD;
    if (used != 0 || repeats(high, highs))
        return GI_BATCH_ARRIVAL;
    return falls != 0 ? GI_BATCH_ORDER : GI_DONE;
}

/* ---- the batch, walked */

struct batch {
    const uint32_t *words;
    uint32_t count;    /* records */
    uint32_t rounds;   /* of them annulments, which stand first */
    uint32_t addition; /* the next record that may add a pair */
    uint32_t next;     /* the next record that starts above the last pair asked about */
    uint32_t term;     /* that of the record before it, and the first record with this term */
    uint32_t first;
    uint64_t reach;    /* how far the removals before it reach */
    uint64_t added;    /* the last pair that a record before it adds */
    uint32_t added_at; /* the arrival number of the latest that does */
    uint32_t begun;    /* the rounds that start at or below the last position */
    uint32_t reaches[GI_BATCH_RECORDS_MAX];
};

static inline const uint32_t *record(const struct batch *b, uint32_t i) {
    return b->words + (size_t)i * GI_RECORD_WORDS;
}

static inline uint64_t start_of(const struct batch *b, uint32_t i) {
    return rank(record(b, i)[1], record(b, i)[2]);
}

/* Opens a batch at the first record of a term or of a higher one. */
static inline void open_batch(struct batch *b, const uint32_t *words, size_t len, uint32_t term) {
    b->words = words;
    b->count = (uint32_t)(len / GI_RECORD_WORDS);
    b->rounds = b->begun = b->term = b->first = b->added_at = 0;
    b->reach = b->added = 0;
    uint32_t reach = 0;
    while (b->rounds < b->count && record(b, b->rounds)[0] == GI_RECORD_ANNUL) {
        if (record(b, b->rounds)[3] > reach)
            reach = record(b, b->rounds)[3];
        b->reaches[b->rounds++] = reach;
    }
    uint32_t from = b->rounds;
    uint32_t to = b->count;
    while (from < to) {
        uint32_t middle = from + (to - from) / 2;
        if (record(b, middle)[1] < term)
            from = middle + 1;
        else
            to = middle;
    }
    b->addition = b->next = from;
}

/* The first addition above a pair, 0 for none. */
static inline uint64_t next_addition(struct batch *b, uint64_t above) {
    while (b->addition < b->count) {
        if (record(b, b->addition)[0] == GI_RECORD_ADD && start_of(b, b->addition) > above)
            return start_of(b, b->addition);
        b->addition++;
    }
    return 0;
}

/* Finds the rounds that start at or below a position. */
static inline void begin_rounds(struct batch *b, uint32_t position) {
    bool low = b->begun == 0 || record(b, b->begun - 1)[2] <= position;
    if (low && b->begun < b->rounds && record(b, b->begun)[2] <= position)
        b->begun++;
    if (low && (b->begun == b->rounds || record(b, b->begun)[2] > position))
        return;
    uint32_t from = 0;
    uint32_t to = b->rounds;
    while (from < to) {
        uint32_t middle = from + (to - from) / 2;
        if (record(b, middle)[2] <= position)
            from = middle + 1;
        else
            to = middle;
    }
    b->begun = from;
}

/* Takes in the records that start at or below a pair. */
static inline void begin_records(struct batch *b, uint64_t pair) {
    while (b->next < b->count && start_of(b, b->next) <= pair) {
        const uint32_t *r = record(b, b->next);
        if (r[1] != b->term) {
            b->term = r[1];
            b->first = b->next;
        }
        b->next++;
        if (r[0] == GI_RECORD_ADD) {
            uint64_t start = rank(r[1], r[2]);
            if (start != b->added || r[4] > b->added_at)
                b->added_at = r[4];
            b->added = start;
        } else if (rank(r[1], r[3]) > b->reach) {
            b->reach = rank(r[1], r[3]);
        }
    }
}

/* Whether a removal that covers the last added pair arrived after its additions. */
static bool removed_later(const struct batch *b) {
    uint32_t position = (uint32_t)b->added;
    for (uint32_t i = b->first; i < b->next; i++) {
        const uint32_t *r = record(b, i);
        if (r[0] == GI_RECORD_REMOVE && r[3] >= position && r[4] > b->added_at)
            return true;
    }
    for (uint32_t i = 0; i < b->begun; i++)
        if (record(b, i)[3] >= position && record(b, i)[4] > b->added_at)
            return true;
    return false;
}

/* Whether the batch takes a pair away. */
static inline bool withdrawn(struct batch *b, uint64_t pair) {
    begin_records(b, pair);
    bool covered = pair <= b->reach;
    if (b->rounds != 0) {
        begin_rounds(b, (uint32_t)pair);
        covered = covered || (b->begun != 0 && (uint32_t)pair <= b->reaches[b->begun - 1]);
    }
    return covered && (pair != b->added || removed_later(b));
}

/* The last position of the pair's term up to which no record touches the pairs
 * behind it, which is one that the batch does not take away. */
static inline uint32_t untouched(const struct batch *b, uint64_t pair) {
    if (pair <= b->reach)
        return 0;
    uint32_t to = GI_HIGHEST;
    if (b->next < b->count && record(b, b->next)[1] == (uint32_t)(pair >> 32))
        to = record(b, b->next)[2] - 1;
    if (b->rounds != 0) {
        if (b->begun != 0 && (uint32_t)pair <= b->reaches[b->begun - 1])
            return 0;
        if (b->begun < b->rounds && record(b, b->begun)[2] <= to)
            to = record(b, b->begun)[2] - 1;
    }
    return to;
}

/* ---- the old pairs */

struct old {
    const uint32_t *blocks;
    uint32_t block_words;
    uint32_t places;
    uint32_t place; /* the next place */
    uint32_t left;  /* how many are left */
    const uint32_t *at;
    const uint32_t *end;
    uint32_t term;
    uint32_t count; /* positions of the term still to come */
    uint64_t pair;  /* in hand, 0 for none */
};

static inline void next_old(struct old *o) {
    if (o->count != 0) {
        o->count--;
        o->pair = rank(o->term, *o->at++);
        return;
    }
    if (o->end - o->at < 3 || *o->at == 0) {
        if (o->left == 0) {
            o->pair = 0;
            return;
        }
        o->left--;
        o->at = o->blocks + (size_t)o->place * o->block_words;
        o->end = o->at + o->block_words;
        if (++o->place == o->places)
            o->place = 0;
    }
    o->term = o->at[0];
    o->count = o->at[1] - 1;
    o->pair = rank(o->term, o->at[2]);
    o->at += 3;
}

/* How many of the positions to come are at most bound. */
static inline uint32_t count_to(const struct old *o, uint32_t bound) {
    if (o->count == 0 || o->at[0] > bound)
        return 0;
    if (o->at[o->count - 1] <= bound)
        return o->count;
    uint32_t from = 0;
    uint32_t to = o->count;
    while (from < to) {
        uint32_t middle = from + (to - from) / 2;
        if (o->at[middle] <= bound)
            from = middle + 1;
        else
            to = middle;
    }
    return from;
}

/* The last pair of a block. */
static inline uint64_t last_of(const uint32_t *block, uint32_t words) {
    uint32_t at = 0;
    uint64_t last = 0;
    while (words - at >= 3 && block[at] != 0) {
        last = rank(block[at], block[at + 1 + block[at + 1]]);
        at += 2 + block[at + 1];
    }
    return last;
}

/* ---- both, side by side */

struct walk {
    struct batch batch;
    struct old old;
    uint64_t pair; /* the last one, at first the boundary */
};

/* Starts at the boundary of a sound card. */
static inline void start_walk(struct walk *w, const uint32_t *card, const uint32_t *batch, size_t batch_len) {
    uint32_t places = card[GI_CONFIG_PLACES];
    open_batch(&w->batch, batch, batch_len, card[GI_CONFIG_BOUNDARY_TERM]);
    w->pair = rank(card[GI_CONFIG_BOUNDARY_TERM], card[GI_CONFIG_BOUNDARY_POSITION]);
    w->old = (struct old){.blocks = card + GI_CONFIG_WORDS + (size_t)places * GI_MAP_ENTRY_WORDS,
                          .block_words = card[GI_CONFIG_BLOCK_WORDS],
                          .places = places,
                          .place = card[GI_CONFIG_OLD_START],
                          .left = card[GI_CONFIG_OLD_LENGTH],
                          .at = card,
                          .end = card};
    next_old(&w->old);
}

/* Goes on to the next pair of what remains; false where there is none. */
static inline bool next_pair(struct walk *w) {
    for (;;) {
        while (w->old.pair != 0 && w->old.pair <= w->pair)
            next_old(&w->old);
        uint64_t added = next_addition(&w->batch, w->pair);
        uint64_t pair = added == 0 || (w->old.pair != 0 && w->old.pair < added) ? w->old.pair : added;
        if (pair == 0)
            return false;
        w->pair = pair;
        if (!withdrawn(&w->batch, pair))
            return true;
    }
}

/* How many old positions behind the last pair, in its entry, no record touches. */
static inline uint32_t run_behind(const struct walk *w) {
    return w->old.pair == w->pair ? count_to(&w->old, untouched(&w->batch, w->pair)) : 0;
}

/* Goes past so many of them. */
static inline void pass_run(struct walk *w, uint32_t count) {
    if (count != 0) {
        w->old.at += count;
        w->old.count -= count;
        w->old.pair = w->pair = rank(w->old.term, w->old.at[-1]);
    }
}

#endif
