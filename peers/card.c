/* The index on a card, by the library's calls: what the host program does for a batch, in one
 * process, without locks and without the note beside the card. Words stand in memory as in
 * the file, so the machine is a little-endian one. */
#define _POSIX_C_SOURCE 200809L

#include <errno.h>
#include <fcntl.h>
#include <stdlib.h>
#include <string.h>
#include <sys/stat.h>
#include <unistd.h>

#include "peers.h"

enum { CARD_WORDS = GI_CONFIG_WORDS + PLACES * (GI_MAP_ENTRY_WORDS + BLOCK_WORDS) };

struct card {
    int file;
    uint32_t words[CARD_WORDS];
};

/* ---- its file */

static void write_words(const struct card *card, size_t start, size_t count) {
    size_t bytes = count * sizeof *card->words;
    off_t offset = (off_t)(start * sizeof *card->words);
    if (pwrite(card->file, card->words + start, bytes, offset) != (ssize_t)bytes || fdatasync(card->file) != 0)
        give_up("the card's file", strerror(errno));
}

/* Reads a card's file, or makes one that has an empty index. */
static void open_card(struct card *card, const char *path, bool writes) {
    card->file = open(path, writes ? O_RDWR | O_CREAT : O_RDONLY, 0666);
    ssize_t got = card->file < 0 ? -1 : read(card->file, card->words, sizeof card->words);
    if (got < 0)
        give_up(path, strerror(errno));
    if (got != 0)
        return;
    if (gi_format(card->words, CARD_WORDS, BLOCK_WORDS, PLACES) != GI_DONE)
        give_up(path, "it was not formatted");
    write_words(card, 0, CARD_WORDS);
}

static void card_open(struct peer *self, bool writes) {
    self->state = calloc(1, sizeof(struct card));
    if (self->state == NULL)
        give_up(self->files[0], "no memory");
    open_card(self->state, self->files[0], writes);
}

static void card_close(struct peer *self) {
    struct card *card = self->state;
    close(card->file);
    free(card);
}

/* ---- a batch */

static int by_term_then_from(const void *one, const void *other) {
    const struct record *a = one;
    const struct record *b = other;
    if (a->term != b->term)
        return a->term < b->term ? -1 : 1;
    return (a->from > b->from) - (a->from < b->from);
}

size_t sorted_words(const struct batch *batch, uint32_t *words) {
    size_t bytes = batch->count * sizeof *batch->records;
    memcpy(words, batch->records, bytes);
    qsort(words, batch->count, sizeof *batch->records, by_term_then_from);
    return bytes / sizeof *words;
}

/* Makes the steps of a pass; each write is on the medium before the next step. */
static void card_apply(struct peer *self, const struct batch *batch) {
    static uint32_t words[GI_BATCH_RECORDS_MAX * GI_RECORD_WORDS];
    struct card *card = self->state;
    size_t length = sorted_words(batch, words);
    uint32_t finished = 0;
    while (finished == 0) {
        uint32_t write;
        uint32_t freed;
        size_t start;
        size_t count;
        if (gi_step(card->words, CARD_WORDS, words, length, &write, &freed, &finished) != GI_DONE ||
            gi_write_span(card->words, CARD_WORDS, write, &start, &count) != GI_DONE)
            give_up(self->files[0], "a step was refused");
        write_words(card, start, count);
    }
}

/* ---- questions */

static size_t card_lookup(struct peer *self, struct question asked, uint32_t *answer) {
    struct card *card = self->state;
    uint32_t found;
    uint32_t blocks;
    if (gi_lookup(card->words, CARD_WORDS, asked.term, asked.from, asked.to, answer, PAIRS_MAX, &found, &blocks) !=
        GI_DONE)
        give_up(self->files[0], "a lookup was refused");
    return found;
}

/* Writes the pairs of a block behind count others; gives the number of all. */
static size_t pairs_of_block(const uint32_t *block, uint64_t *pairs, size_t count) {
    size_t at = 0;
    while (at + 3 <= BLOCK_WORDS && block[at] != 0) {
        uint32_t term = block[at];
        size_t end = at + 2 + block[at + 1];
        for (at += 2; at < end; at++)
            pairs[count++] = pair_of(term, block[at]);
    }
    return count;
}

size_t pairs_of_card(const char *path, uint64_t *pairs) {
    static struct card card;
    open_card(&card, path, false);
    close(card.file);
    if (gi_judge(card.words, CARD_WORDS) != GI_DONE || card.words[GI_CONFIG_NEW_LENGTH] != 0)
        give_up(path, "the card is not sound, or a pass is open");
    const uint32_t *blocks = card.words + GI_CONFIG_WORDS + PLACES * GI_MAP_ENTRY_WORDS;
    size_t count = 0;
    for (uint32_t i = 0; i < card.words[GI_CONFIG_OLD_LENGTH]; i++) {
        size_t place = (card.words[GI_CONFIG_OLD_START] + i) % PLACES;
        count = pairs_of_block(blocks + place * BLOCK_WORDS, pairs, count);
    }
    return count;
}

static size_t card_pairs(struct peer *self, uint64_t *pairs) {
    return pairs_of_card(self->files[0], pairs);
}

struct peer card_peer = {
    .files = {"library.card"},
    .open = card_open,
    .close = card_close,
    .apply = card_apply,
    .lookup = card_lookup,
    .pairs = card_pairs,
};
