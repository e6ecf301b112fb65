/* What is applied to a card: the records of a batch as words, five to a record, 32 bits,
 * little-endian, and nothing else; or a scorekeepers' file of any length, one record to a
 * line of text, which is applied in parts of up to 4,096 lines, one pass after another. */
#ifndef BATCH_FILE_H
#define BATCH_FILE_H

#include <stdbool.h>
#include <stddef.h>
#include <stdint.h>

#include "gameindex.h"

/* The lines of a part of a text. A test build may have shorter parts. */
#ifndef PART_LINES
#define PART_LINES GI_BATCH_RECORDS_MAX
#endif

enum {
    /* one record more than a batch may have: the library refuses all that are
     * longer with the same number */
    BATCH_FILE_WORDS_MAX = (GI_BATCH_RECORDS_MAX + 1) * GI_RECORD_WORDS
};

/* A batch in memory. */
struct batch {
    uint32_t words[BATCH_FILE_WORDS_MAX];
    size_t length;
};

/* A file that is applied, and the batch of the part in hand. */
struct input {
    const char *name; /* as messages have it */
    size_t parts;     /* at least 1 */
    size_t part;      /* the part in hand, from 0 */
    char label[100];  /* where there are several: "part 2 of 3, lines 4097 to 8192: " */
    struct batch batch;
    unsigned char *bytes; /* of a text, else NULL */
    size_t length;
    uint64_t checksum; /* of the bytes */
    uint64_t begun;    /* checksum of the card before the pass of the part in hand */
    size_t *starts;    /* where each part starts in the bytes, and where the last one ends */
};

/* Reads a file of batch words, or standard input where path is "-". Gives an exit
 * status. */
int batch_read(struct batch *batch, const char *path);

/* The number that the index has for a batch on every sound card: 0, 6, 7 or 14. */
uint32_t batch_number(const struct batch *batch);

/* Tells that the index refuses a batch with such a number, and of which record, and
 * gives EXIT_REFUSED. */
int refused_batch(const char *name, const struct batch *batch, uint32_t number);

/* Reads what is to be applied and has its first part in hand. No line of a text is
 * refused with 12 or 6 afterwards: that is told here, of the first such line. Gives an
 * exit status. */
int input_read(struct input *input, const char *path, bool text);

/* Has another part in hand. */
void input_part(struct input *input, size_t part);

/* Gives the memory back. */
void input_close(struct input *input);

#endif
