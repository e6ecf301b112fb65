/* The same index kept in several ways, side by side: on a card by the library's calls, on a
 * card by the host program, in SQLite and in LMDB. All files stand in the folder that the
 * program works in. What fails ends the program. */
#ifndef PEERS_H
#define PEERS_H

#include <stdbool.h>
#include <stddef.h>
#include <stdint.h>

#include "gameindex.h"

enum {
    BLOCK_WORDS = 1024,
    PLACES = 256,
    PAIRS_MAX = PLACES * BLOCK_WORDS, /* more than the card can hold */
    FILES_MAX = 3
};

/* A record of a batch, as the card's library has it. */
struct record {
    uint32_t kind;
    uint32_t term;
    uint32_t from;
    uint32_t to;
    uint32_t arrival;
};

/* A batch, its records in the order of their arrival. */
struct batch {
    size_t count;
    struct record records[GI_BATCH_RECORDS_MAX];
};

struct question {
    uint32_t term;
    uint32_t from;
    uint32_t to;
};

/* A way to keep the index. */
struct peer {
    const char *files[FILES_MAX]; /* all that it keeps; the first is the index itself */
    const char *how;              /* SQLite's journal mode; the host program's path */
    void *state;                  /* what it holds while it is open */
    /* Opens it, to write, where it is made if it is not there, or to read alone. */
    void (*open)(struct peer *self, bool writes);
    void (*close)(struct peer *self);
    /* Makes the file that the host program reads a batch from; NULL for the others. */
    void (*deliver)(const struct batch *batch);
    /* Applies a batch; it is on the medium when this returns. */
    void (*apply)(struct peer *self, const struct batch *batch);
    /* Writes the positions asked for to answer, rising, and gives their number. */
    size_t (*lookup)(struct peer *self, struct question asked, uint32_t *answer);
    /* Writes all pairs, rising, each as term x 2^32 + position, and gives their number. */
    size_t (*pairs)(struct peer *self, uint64_t *pairs);
};

extern struct peer card_peer;
extern struct peer program_peer;
extern struct peer rollback_peer;
extern struct peer wal_peer;
extern struct peer lmdb_peer;

static inline uint64_t pair_of(uint32_t term, uint32_t position) {
    return (uint64_t)term << 32 | position;
}

/* Says what went wrong and ends the program. */
_Noreturn void give_up(const char *what, const char *why);

/* The batch's records by term, then from, as the card takes them; gives their words. */
size_t sorted_words(const struct batch *batch, uint32_t *words);

/* All pairs of a card's file, read as docs/FORMAT.md says; no pass is open on it. */
size_t pairs_of_card(const char *path, uint64_t *pairs);

/* The events of a season, the same in every run: the next batch of the first load, and the
 * batch of a round, numbered from 0. */
void load_batch(struct batch *batch);
void round_batch(struct batch *batch, uint32_t round);

#endif
