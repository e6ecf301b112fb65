/* What the fuzz targets share. */
#define _XOPEN_SOURCE 700

#include "fuzz.h"

#include <ftw.h>
#include <stdio.h>
#include <stdlib.h>
#include <string.h>
#include <unistd.h>

/* ---- words drawn from the input */

uint32_t draw_byte(struct drawn *from) {
    if (from->length == 0)
        return 0;
    from->length--;
    return *from->bytes++;
}

uint32_t draw_word(struct drawn *from) {
    uint32_t word = 0;
    for (int i = 0; i < 4; i++)
        word |= draw_byte(from) << 8 * i;
    return word;
}

uint32_t draw_number(struct drawn *from) {
    enum { HIGHEST_BYTE = 247 };
    uint32_t byte = draw_byte(from);
    return byte <= HIGHEST_BYTE ? byte : draw_word(from);
}

/* ---- memory that is lent */

enum { MARK = 0x5eedface, MARKS = 4 };

static uint32_t *memory(size_t count) {
    uint32_t *words = malloc(count * sizeof *words);
    assert(words != NULL);
    return words;
}

static void fill_marks(uint32_t *words, size_t count) {
    for (size_t i = 0; i < count; i++)
        words[i] = MARK;
}

static void see_marks(const uint32_t *words, size_t count) {
    for (size_t i = 0; i < count; i++)
        assert(words[i] == MARK);
}

struct words words_of(const uint32_t *at, size_t count) {
    struct words words = {memory(count), count};
    memcpy(words.at, at, count * sizeof *at);
    return words;
}

struct words words_blank(size_t count) {
    struct words words = {memory(count), count};
    fill_marks(words.at, count);
    return words;
}

void words_free(struct words words) {
    free(words.at);
}

bool words_same(struct words one, struct words other) {
    return one.count == other.count && memcmp(one.at, other.at, one.count * sizeof *one.at) == 0;
}

struct words lend(struct words words) {
    uint32_t *block = memory(words.count + 2 * MARKS);
    fill_marks(block, MARKS);
    fill_marks(block + MARKS + words.count, MARKS);
    memcpy(block + MARKS, words.at, words.count * sizeof *block);
    return (struct words){block + MARKS, words.count};
}

void take_back(struct words lent) {
    uint32_t *block = lent.at - MARKS;
    see_marks(block, MARKS);
    see_marks(lent.at + lent.count, MARKS);
    free(block);
}

void take_back_unchanged(struct words lent, struct words before) {
    assert(words_same(lent, before));
    take_back(lent);
}

struct told told_nothing(void) {
    struct told told;
    fill_marks(told.at, sizeof told.at / sizeof *told.at);
    return told;
}

struct told_lengths told_no_lengths(void) {
    return (struct told_lengths){{MARK, MARK, MARK, MARK, MARK}};
}

bool told_same(struct told one, struct told other) {
    return memcmp(&one, &other, sizeof one) == 0;
}

void told_whole(struct told told) {
    for (size_t i = 0; i < sizeof told.at / sizeof *told.at; i += 2)
        assert(told.at[i] == MARK);
}

void told_lengths_whole(struct told_lengths told) {
    assert(told.at[0] == MARK && told.at[2] == MARK && told.at[4] == MARK);
}

/* ---- cards and batches drawn from the input */

/* All bytes but those of the last, broken word. */
static struct words draw_raw(struct drawn *from, size_t most) {
    size_t count = from->length / 4 < most ? from->length / 4 : most;
    struct words words = {memory(count), count};
    for (size_t i = 0; i < count; i++)
        words.at[i] = draw_word(from);
    return words;
}

/* Now and then other words in place of some. */
static void spoil(struct words words, struct drawn *from) {
    enum { RARE = 216 };
    while (draw_byte(from) >= RARE && words.count != 0) {
        size_t at = (draw_byte(from) | draw_byte(from) << 8) % words.count;
        words.at[at] = draw_number(from);
    }
}

static int by_start(const void *one, const void *other) {
    const uint32_t *a = one;
    const uint32_t *b = other;
    if (a[1] != b[1])
        return a[1] < b[1] ? -1 : 1;
    return (a[2] > b[2]) - (a[2] < b[2]);
}

/* A number of at least 1. */
static uint32_t draw_figure(struct drawn *from) {
    uint32_t number = draw_number(from);
    return number == 0 ? 1 : number;
}

/* Record i of so many. */
static void draw_record(uint32_t *record, struct drawn *from, uint32_t i, uint32_t count) {
    uint32_t choice = draw_byte(from);
    record[1] = choice % 16 == 0 ? 0 : draw_figure(from);
    record[2] = draw_figure(from);
    record[0] = record[1] == 0 ? GI_RECORD_ANNUL : choice % 4 == 1 ? GI_RECORD_REMOVE : GI_RECORD_ADD;
    record[3] = record[0] == GI_RECORD_ADD ? record[2] : draw_figure(from);
    record[4] = 1 + i + 100 * count * (choice / 16); /* of two records never the same */
}

struct words draw_batch(struct drawn *from) {
    enum { RAW = 255, RAW_WORDS = 64 };
    uint32_t count = draw_byte(from);
    if (count == RAW)
        return draw_raw(from, RAW_WORDS);
    count %= 48;
    struct words batch = {memory((size_t)count * GI_RECORD_WORDS), (size_t)count * GI_RECORD_WORDS};
    for (uint32_t i = 0; i < count; i++)
        draw_record(batch.at + (size_t)i * GI_RECORD_WORDS, from, i, count);
    if (count != 0)
        qsort(batch.at, count, GI_RECORD_WORDS * sizeof *batch.at, by_start);
    spoil(batch, from);
    return batch;
}

uint32_t make_steps(struct words card, struct words batch, size_t most, bool *finished) {
    uint32_t number = GI_DONE;
    *finished = false;
    for (; most > 0 && number == GI_DONE && !*finished; most--) {
        struct told told = told_nothing();
        number = gi_step(card.at, card.count, batch.at, batch.count, &told.at[1], &told.at[3], &told.at[5]);
        *finished = told.at[5] != 0;
    }
    return number;
}

static void apply_drawn(struct words card, struct drawn *from, size_t most) {
    bool finished;
    struct words batch = draw_batch(from);
    make_steps(card, batch, most, &finished);
    words_free(batch);
}

struct words draw_card(struct drawn *from) {
    enum { RAW = 255, RAW_WORDS = 4096 };
    uint32_t shape = draw_byte(from);
    if (shape == RAW)
        return draw_raw(from, RAW_WORDS);
    uint32_t b = GI_BLOCK_WORDS_MIN + shape / 16;
    uint32_t n = GI_PLACES_MIN + shape % 16;
    struct words card = words_blank(gi_card_words(b, n));
    gi_format(card.at, card.count, b, n);
    apply_drawn(card, from, 3 * GI_PLACES_MAX);
    uint32_t steps = draw_byte(from);
    if (steps != 0)
        apply_drawn(card, from, steps % 64);
    spoil(card, from);
    return card;
}

struct question draw_question(struct drawn *from) {
    struct question asked = {draw_number(from), draw_number(from), draw_number(from)};
    return asked;
}

/* ---- files */

static char folder[32];

static int remove_one(const char *path, const struct stat *about, int type, struct FTW *walk) {
    (void)about;
    (void)type;
    (void)walk;
    return remove(path);
}

static void remove_folder(void) {
    nftw(folder, remove_one, 4, FTW_DEPTH | FTW_PHYS);
}

/* In memory where the system has such a folder: the host syncs every write. */
static void make_folder(void) {
    const char *shared = access("/dev/shm", W_OK) == 0 ? "/dev/shm" : "/tmp";
    snprintf(folder, sizeof folder, "%s/fuzz.XXXXXX", shared);
    if (mkdtemp(folder) == NULL)
        abort();
    atexit(remove_folder);
}

const char *file_name(const char *name) {
    static char path[64];
    if (folder[0] == '\0')
        make_folder();
    snprintf(path, sizeof path, "%s/%s", folder, name);
    return path;
}

void file_make(const char *path, const void *bytes, size_t length) {
    FILE *file = fopen(path, "wb");
    if (file == NULL || fwrite(bytes, 1, length, file) != length || fclose(file) != 0)
        abort();
}
