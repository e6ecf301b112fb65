/* Indexes, batches and cards worked out by the rules of the format, apart from the library
 * but for its judge and its steps, and the checks of the tests of faults and cuts. */
#define _GNU_SOURCE

#include <inttypes.h>
#include <stdarg.h>
#include <stdio.h>
#include <stdlib.h>
#include <string.h>

#include "faults.h"

const uint32_t terms[TERMS] = {1, 2, 3, 5, 8, 1000, 70000, UINT32_MAX};
const uint32_t positions[POSITIONS] = {1,         2, 3, 4, 5, 6, 7, 9, 10, 11, 64, 100, 1000, 65536, UINT32_MAX - 1,
                                       UINT32_MAX};

/* ---- checks */

long passed;
long failed;
static char subject[512];

void about(const char *form, ...) {
    va_list words;
    va_start(words, form);
    vsnprintf(subject, sizeof subject, form, words);
    va_end(words);
}

bool check(bool holds, const char *form, ...) {
    if (holds) {
        passed++;
        return true;
    }
    failed++;
    if (failed > 200) /* the count tells of the others */
        return false;
    va_list words;
    va_start(words, form);
    printf("FAILED: %s: ", subject);
    vprintf(form, words);
    putchar('\n');
    va_end(words);
    return false;
}

uint64_t random_state = 1;

uint32_t random_below(uint32_t limit) {
    random_state ^= random_state << 13;
    random_state ^= random_state >> 7;
    random_state ^= random_state << 17;
    return (uint32_t)((random_state >> 16) % limit);
}

unsigned choose_random(void *from, unsigned ways) {
    (void)from;
    return random_below(ways);
}

/* ---- indexes */

static bool touches(const struct record *record, uint32_t term, uint32_t position) {
    return (record->kind == GI_RECORD_ANNUL || record->term == term) && record->from <= position &&
           position <= record->to;
}

struct index index_after(const struct index *before, const struct record *list, size_t count) {
    struct index after = *before;
    for (int t = 0; t < TERMS; t++)
        for (int p = 0; p < POSITIONS; p++) {
            uint32_t latest = 0;
            for (size_t i = 0; i < count; i++)
                if (list[i].arrival > latest && touches(&list[i], terms[t], positions[p])) {
                    latest = list[i].arrival;
                    after.in[t][p] = list[i].kind == GI_RECORD_ADD;
                }
        }
    return after;
}

bool index_equal(const struct index *one, const struct index *other) {
    return memcmp(one, other, sizeof *one) == 0;
}

/* Whether a pair is above a boundary. */
static bool is_above(uint32_t term, uint32_t position, const uint32_t boundary[2]) {
    return term > boundary[0] || (term == boundary[0] && position > boundary[1]);
}

struct index index_joined(const struct index *upto, const struct index *above, const uint32_t boundary[2]) {
    struct index joined = *upto;
    for (int t = 0; t < TERMS; t++)
        for (int p = 0; p < POSITIONS; p++)
            if (is_above(terms[t], positions[p], boundary))
                joined.in[t][p] = above->in[t][p];
    return joined;
}

bool index_between(const struct reading *now, const struct index *first, const struct index *next) {
    if (!now->open)
        return index_equal(&now->index, first) || index_equal(&now->index, next);
    struct index joined = index_joined(next, first, now->boundary);
    return index_equal(&now->index, &joined);
}

/* ---- cards */

size_t card_words(const struct file *file, uint32_t *words) {
    for (size_t i = 0; i < file->length / 4; i++) {
        const unsigned char *b = file->bytes + 4 * i;
        words[i] = b[0] | (uint32_t)b[1] << 8 | (uint32_t)b[2] << 16 | (uint32_t)b[3] << 24;
    }
    return file->length / 4;
}

static void file_of_words(struct file *file, const uint32_t *words, size_t length) {
    file->length = 4 * length;
    for (size_t i = 0; i < file->length; i++)
        file->bytes[i] = (unsigned char)(words[i / 4] >> 8 * (i % 4));
}

/* Puts a pair in an index; false where none of the tests' records could have made it. */
static bool index_put(struct index *index, uint32_t term, uint32_t position) {
    for (int t = 0; t < TERMS; t++)
        for (int p = 0; p < POSITIONS; p++)
            if (terms[t] == term && positions[p] == position) {
                index->in[t][p] = true;
                return true;
            }
    return false;
}

/* Reads the pairs of a block that are above a boundary. */
static bool read_block(const uint32_t *block, uint32_t b, const uint32_t above[2], struct index *index) {
    uint32_t at = 0;
    while (at + 3 <= b && block[at] != 0) {
        uint32_t term = block[at];
        uint32_t count = block[at + 1];
        if (count == 0 || count > b - at - 2)
            return false;
        for (uint32_t i = 0; i < count; i++)
            if (is_above(term, block[at + 2 + i], above) && !index_put(index, term, block[at + 2 + i]))
                return false;
        at += 2 + count;
    }
    return true;
}

struct reading card_reading(const struct file *file) {
    static const uint32_t all[2] = {0, 0};
    struct reading reading = {0};
    uint32_t words[CARD_WORDS_MAX];
    if (file == NULL || file->length % 4 != 0)
        return reading;
    size_t length = card_words(file, words);
    if (gi_judge(words, length) != GI_DONE)
        return reading;
    uint32_t b = words[1], n = words[2], start = words[3], old = words[4], new = words[5];
    reading.open = new != 0;
    reading.boundary[0] = words[6];
    reading.boundary[1] = words[7];
    reading.sound = true;
    for (uint32_t i = 0; i < old + new; i++) {
        const uint32_t *block = words + 8 + 2 * n + (start + i) % n * b;
        if (!read_block(block, b, i < old ? reading.boundary : all, &reading.index))
            reading.sound = false;
    }
    return reading;
}

bool reading_equal(const struct reading *one, const struct reading *other) {
    return one->sound == other->sound && one->open == other->open && one->boundary[0] == other->boundary[0] &&
           one->boundary[1] == other->boundary[1] && index_equal(&one->index, &other->index);
}

void card_make(struct file *file, uint32_t b, uint32_t n) {
    uint32_t words[CARD_WORDS_MAX];
    size_t length = gi_card_words(b, n);
    for (size_t i = 0; i < length; i++)
        words[i] = UINT32_C(0x55555555); /* of another life */
    if (gi_format(words, length, b, n) != GI_DONE)
        abort();
    file_of_words(file, words, length);
}

bool card_apply(struct file *file, const uint32_t *batch, size_t batch_words, long steps) {
    uint32_t words[CARD_WORDS_MAX];
    size_t length = card_words(file, words);
    uint32_t write = 0, freed = 0, finished = 0, number = GI_DONE;
    for (long i = 0; i != steps && finished == 0 && number == GI_DONE; i++)
        number = gi_step(words, length, batch, batch_words, &write, &freed, &finished);
    file_of_words(file, words, length);
    return finished != 0;
}

/* ---- batches */

static int by_term_and_from(const void *one, const void *other) {
    const struct record *a = one;
    const struct record *b = other;
    if (a->term != b->term)
        return a->term < b->term ? -1 : 1;
    if (a->from != b->from)
        return a->from < b->from ? -1 : 1;
    return a->arrival < b->arrival ? -1 : a->arrival > b->arrival;
}

size_t records_batch(const struct record *list, size_t count, bool lines, uint32_t *batch) {
    static struct record sorted[RECORDS_MAX];
    memcpy(sorted, list, count * sizeof *list);
    for (size_t i = 0; i < count && lines; i++)
        sorted[i].arrival = (uint32_t)i + 1;
    qsort(sorted, count, sizeof *sorted, by_term_and_from);
    for (size_t i = 0; i < count; i++) {
        const struct record *record = &sorted[i];
        const uint32_t words[] = {record->kind, record->term, record->from, record->to, record->arrival};
        memcpy(batch + GI_RECORD_WORDS * i, words, sizeof words);
    }
    return GI_RECORD_WORDS * count;
}

size_t records_as_words(const struct records *records, unsigned char *bytes) {
    static uint32_t batch[GI_RECORD_WORDS * RECORDS_MAX];
    size_t length = records_batch(records->list, records->count, false, batch);
    for (size_t i = 0; i < 4 * length; i++)
        bytes[i] = (unsigned char)(batch[i / 4] >> 8 * (i % 4));
    return 4 * length;
}

size_t records_as_text(const struct records *records, char *bytes) {
    size_t length = 0;
    for (size_t i = 0; i < records->count; i++) {
        const struct record *record = &records->list[i];
        if (record->kind == GI_RECORD_ADD)
            length += (size_t)sprintf(bytes + length, "A\t%" PRIu32 "\t%" PRIu32 "\n", record->term, record->from);
        else
            length += (size_t)sprintf(bytes + length, "R\t%" PRIu32 "\t%" PRIu32 "\t%" PRIu32 "\n", record->term,
                                      record->from, record->to);
    }
    return length;
}
