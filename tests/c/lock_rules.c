/* The rules of the locks on a card, which no other run can see kept: every run of the tests
 * of faults and cuts is held to them, up to its fault. */
#define _GNU_SOURCE

#include <fcntl.h>
#include <stdint.h>

#include "faults.h"

/* What of the file a lock is on: the words, or one of two bytes behind them. */
enum range { WORDS, GATE, WRITER, RANGES };

static const off_t starts[RANGES + 1] = {0, 1 << 30, (1 << 30) + 1, (1 << 30) + 2};

/* What the run has done so far with its card. */
static short held[RANGES] = {F_UNLCK, F_UNLCK, F_UNLCK};
static bool unsynced;        /* a write waits for its sync */
static bool stepped;         /* a write was made since the words were taken */
static bool was_writer;      /* the writers' lock was taken */
static bool read_as_another; /* words were read without it */
static off_t written_to;     /* where the last write ended */

static void hold_to(bool holds, const char *rule) {
    if (!holds && !run->struck && run->broken == NULL)
        run->broken = rule;
}

void lock_rules_read(void) {
    hold_to(held[WORDS] != F_UNLCK, "the words are read only while they are locked");
    hold_to(held[GATE] == F_UNLCK, "the gate is left before the words are read");
    read_as_another |= held[WRITER] != F_WRLCK;
}

void lock_rules_write(off_t offset, size_t length) {
    hold_to(held[WORDS] == F_WRLCK, "the words are written only while no other run has them");
    hold_to(held[WRITER] == F_WRLCK && !read_as_another, "who writes keeps other writers off, also while it reads");
    hold_to(held[GATE] == F_UNLCK, "the gate is left before the words are written");
    hold_to(!unsynced || offset == written_to, "a write is synced before the next");
    hold_to(!stepped || offset == written_to, "the words are given back after each write");
    unsynced = true;
    stepped = true;
    written_to = offset + (off_t)length;
}

void lock_rules_sync(void) {
    hold_to(held[WORDS] != F_UNLCK, "the words are synced while they are locked");
    unsynced = false;
}

/* A lock that was set or released on one range. */
static void on_range(enum range range, short type) {
    if (range == WORDS && type == F_UNLCK)
        hold_to(!unsynced, "the words are given back only when they are synced");
    if (range == WORDS && type != F_UNLCK) {
        hold_to(held[GATE] == type, "the words are taken through the gate");
        stepped &= held[WORDS] != F_UNLCK;
    }
    if (range == WRITER && type != F_UNLCK) {
        hold_to(!was_writer, "other writers are kept off to the end");
        was_writer = true;
    }
    held[range] = type;
}

void lock_rules_lock(const struct flock *lock) {
    off_t end = lock->l_len == 0 ? INT64_MAX : lock->l_start + lock->l_len;
    for (enum range range = WORDS; range < RANGES; range++) {
        if (lock->l_start <= starts[range] && end >= starts[range + 1])
            on_range(range, lock->l_type);
        else
            hold_to(end <= starts[range] || lock->l_start >= starts[range + 1], "a lock is on a whole range");
    }
}

/* Closing the file anywhere gives up all locks on it. */
void lock_rules_close(void) {
    hold_to(!unsynced, "the words are given back only when they are synced");
    for (enum range range = WORDS; range < RANGES; range++)
        held[range] = F_UNLCK;
}
