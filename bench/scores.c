/* Times the reading of scorekeepers' files: of 4,096 lines in several orders, the
 * longest lines and the shortest; of fewer lines; and of files that try to hold it
 * up. It is held against plain C that does the same. The two take turns on the same
 * file, call by call, and the median of each counts. */
#include <inttypes.h>
#include <stdbool.h>
#include <stdio.h>
#include <stdlib.h>
#include <string.h>

#include "bench.h"
#include "scores_c.h"

enum {
    CALLS = 200, /* of each */
    LINES = GI_BATCH_RECORDS_MAX,
    FILES = 8,  /* that differ where the order is by chance, so that none is learnt by heart */
    TEETH = 64, /* of the sawtooth */
    QUARTER = GI_SCORES_BYTES / 4,
    WHOLE = GI_SCORES_BYTES,
    MANY = 8 * 1024 * 1024
};

typedef uint32_t scores_function(const uint8_t *bytes, size_t bytes_len, uint32_t *batch, size_t batch_len,
                                 size_t *words, size_t *line);

/* What a call gave; the words after the batch are as they were. */
struct reply {
    uint32_t number;
    size_t words;
    size_t line;
    uint32_t batch[BATCH_WORDS];
};

/* The median times of the two for a file, and the number that they gave. */
struct times {
    double library;
    double plain;
    uint32_t number;
};

static double timed(scores_function *scores, const uint8_t *bytes, size_t count, struct reply *reply) {
    memset(reply, 0x55, sizeof *reply);
    double began = seconds();
    uint32_t number = scores(bytes, count, reply->batch, BATCH_WORDS, &reply->words, &reply->line);
    double took = seconds() - began;
    reply->number = number;
    return took;
}

/* Whether the two gave the same, batch and all. */
static bool alike(const struct reply *one, const struct reply *other) {
    return one->number == other->number && one->words == other->words && one->line == other->line &&
           memcmp(one->batch, other->batch, sizeof one->batch) == 0;
}

/* Times the two on some files of count bytes each, which stand one behind the other. */
static struct times time_files(const uint8_t *bytes, size_t count, size_t files) {
    static double in_library[CALLS];
    static double in_plain[CALLS];
    static struct reply library;
    static struct reply plain;
    for (size_t i = 0; i < CALLS; i++) {
        const uint8_t *file = bytes + i % files * count;
        in_library[i] = timed(gi_scores, file, count, &library);
        in_plain[i] = timed(scores_c, file, count, &plain);
        if (!alike(&library, &plain))
            give_up("library and plain C differ");
    }
    return (struct times){median(in_library, CALLS), median(in_plain, CALLS), library.number};
}

/* ---- lines in several orders */

/* Where in the order of the sorted lines line i of a file stands. */
typedef uint32_t order_function(uint32_t i);

static uint32_t sorted(uint32_t i) {
    return i;
}

static uint32_t reversed(uint32_t i) {
    return LINES - 1 - i;
}

static uint32_t equal(uint32_t i) {
    (void)i;
    return 0;
}

static uint32_t organ_pipe(uint32_t i) {
    return i < LINES / 2 ? 2 * i : 2 * (LINES - 1 - i) + 1;
}

static uint32_t sawtooth(uint32_t i) {
    return i % (LINES / TEETH) * TEETH + i / (LINES / TEETH);
}

static uint32_t shuffled[LINES];

static uint32_t by_chance(uint32_t i) {
    return shuffled[i];
}

/* Makes the next order by chance, in every run the same. */
static void shuffle(void) {
    static uint32_t state = 2463534242;
    for (uint32_t i = 0; i < LINES; i++) {
        uint32_t other = chance(&state) % (i + 1);
        shuffled[i] = shuffled[other];
        shuffled[other] = i;
    }
}

/* Writes a line whose place in the order is given; gives its bytes. */
typedef size_t line_function(uint8_t *at, uint32_t place);

static size_t put(uint8_t *at, const char *form, uint32_t term, uint32_t from) {
    char line[GI_SCORES_LINE_BYTES + 1];
    int bytes = snprintf(line, sizeof line, form, term, from);
    memcpy(at, line, (size_t)bytes);
    return (size_t)bytes;
}

/* Ten digits to each figure. */
static size_t longest(uint8_t *at, uint32_t place) {
    return put(at, "R\t%" PRIu32 "\t%" PRIu32 "\t4294967295\n", 4000000000 + place / TEETH,
               4000000000 + place % TEETH * 100003);
}

/* One digit to each; so there are 100 different lines. */
static size_t shortest(uint8_t *at, uint32_t place) {
    uint32_t key = place * 100 / LINES;
    return put(at, "A\t%" PRIu32 "\t%" PRIu32 "\n", key / 10, key % 10);
}

static size_t write_lines(uint8_t *bytes, uint32_t lines, line_function *line, order_function *order) {
    size_t count = 0;
    for (uint32_t i = 0; i < lines; i++)
        count += line(bytes + count, order(i));
    return count;
}

static void show_lines(const char *what, uint8_t *bytes, uint32_t lines, line_function *line, order_function *order) {
    size_t count = 0; /* every file's, since all lines are of one length */
    for (size_t k = 0; k < FILES; k++) {
        shuffle();
        count = write_lines(bytes + k * count, lines, line, order);
    }
    struct times times = time_files(bytes, count, FILES);
    if (times.number != GI_DONE)
        give_up("a file was refused");
    double ns = 1e9 / lines;
    printf("%-22s %7" PRIu32 " %9zu %9.2f %9.2f %9.2f\n", what, lines, count, times.library * ns, times.plain * ns,
           times.library / times.plain);
}

static void show_orders(const char *what, uint8_t *bytes, line_function *line) {
    const struct {
        const char *name;
        order_function *order;
    } orders[] = {{"sorted", sorted},   {"reversed", reversed},     {"by chance", by_chance},
                  {"all equal", equal}, {"organ pipe", organ_pipe}, {"sawtooth", sawtooth}};
    for (size_t i = 0; i < sizeof orders / sizeof *orders; i++) {
        char name[32];
        snprintf(name, sizeof name, "%s, %s", what, orders[i].name);
        show_lines(name, bytes, LINES, line, orders[i].order);
    }
}

/* The same lines by chance, fewer of them: a line's time grows with their logarithm. */
static void show_fewer(uint8_t *bytes) {
    for (uint32_t lines = 16; lines <= LINES; lines *= 4)
        show_lines("longest, by chance", bytes, lines, longest, by_chance);
}

/* ---- files that try to hold it up */

/* A file of any size: good lines, as many as have room but no more than some, then
 * some bytes, then one byte again and again. */
struct file {
    const char *name;
    line_function *line;
    size_t most;
    const char *start;
    uint8_t rest;
};

static const struct file files[] = {{"figures alone", NULL, 0, "", '7'},
                                    {"zeros alone", NULL, 0, "", '0'},
                                    {"line feeds", NULL, 0, "", '\n'},
                                    {"tabs", NULL, 0, "", '\t'},
                                    {"a figure without end", NULL, 0, "R\t7\t7\t", '7'},
                                    {"a figure of zeros", NULL, 0, "R\t7\t7\t", '0'},
                                    {"tabs behind a record", NULL, 0, "R\t7\t7\t7", '\t'},
                                    {"good lines, then bad", longest, LINES, "", '7'},
                                    {"good lines, too many", longest, MANY, "", '7'},
                                    {"the same, shortest", shortest, MANY, "", '7'}};

static void fill(uint8_t *bytes, size_t count, const struct file *file) {
    size_t at = 0;
    for (size_t i = 0; i < file->most && at + GI_SCORES_LINE_BYTES <= count; i++)
        at += file->line(bytes + at, by_chance(i % LINES));
    memset(bytes + at, file->rest, count - at);
    memcpy(bytes + at, file->start, strlen(file->start));
}

/* The same file at three sizes: its time may grow with the bytes, and no faster. The
 * number is that of the second. */
static void show_held_up(uint8_t *bytes) {
    enum { SIZES = 3 };
    const size_t sizes[SIZES] = {QUARTER, WHOLE, MANY};
    for (size_t i = 0; i < sizeof files / sizeof *files; i++) {
        struct times times[SIZES];
        for (size_t k = 0; k < SIZES; k++) {
            fill(bytes, sizes[k], &files[i]);
            times[k] = time_files(bytes, sizes[k], 1);
        }
        printf("%-22s %7" PRIu32, files[i].name, times[1].number);
        for (size_t k = 0; k < SIZES; k++)
            printf(" %9.2f %9.2f", times[k].library * 1e6, times[k].plain * 1e6);
        putchar('\n');
    }
}

int main(void) {
    uint8_t *bytes = bytes_for(MANY);
    printf("scores, %d lines, ns a line (median of %d calls)\n", LINES, CALLS);
    printf("%-22s %7s %9s %9s %9s %9s\n", "lines, order", "lines", "bytes", "library", "plain C", "ratio");
    show_orders("longest", bytes, longest);
    show_orders("shortest", bytes, shortest);
    printf("\nscores of fewer lines, ns a line\n");
    show_fewer(bytes);
    printf("\nscores of files that try to hold it up, us a call, by their bytes\n");
    printf("%-22s %7s %9d %9s %9d %9s %9d %9s\n", "file", "number", QUARTER, "plain C", WHOLE, "plain C", MANY,
           "plain C");
    show_held_up(bytes);
    free(bytes);
    return 0;
}
