/* What is applied to a card, in words or in lines. */
#define _POSIX_C_SOURCE 200809L

#include "batch_file.h"

#include <inttypes.h>
#include <stdio.h>
#include <stdlib.h>
#include <string.h>

#include "checksum.h"
#include "files.h"
#include "gamecard.h"
#include "words.h"

/* ---- words */

static bool enough_words(const unsigned char *bytes, size_t length, size_t count) {
    (void)bytes;
    (void)count;
    return length >= (size_t)BATCH_FILE_WORDS_MAX * WORD_BYTES;
}

int batch_read(struct batch *batch, const char *path) {
    unsigned char *bytes;
    size_t length;
    int status = file_read(path, enough_words, &bytes, &length);
    if (status != EXIT_DONE)
        return status;
    if (enough_words(bytes, length, 0))
        length = (size_t)BATCH_FILE_WORDS_MAX * WORD_BYTES;
    if (length % WORD_BYTES != 0)
        status = fault(input_name(path), "%zu bytes are not a whole number of 32-bit words", length);
    batch->length = length / WORD_BYTES;
    for (size_t i = 0; i < batch->length; i++)
        batch->words[i] = word_from(bytes + i * WORD_BYTES);
    free(bytes);
    return status;
}

/* The number that the index has for the first words of a batch: it is asked about an
 * empty card. */
static uint32_t number_of(const struct batch *batch, size_t length) {
    enum { WORDS = GI_CONFIG_WORDS + GI_PLACES_MIN * (GI_MAP_ENTRY_WORDS + GI_BLOCK_WORDS_MIN) };
    uint32_t card[WORDS] = {0};
    uint32_t told[4];
    gi_format(card, WORDS, GI_BLOCK_WORDS_MIN, GI_PLACES_MIN);
    return gi_forecast(card, WORDS, batch->words, length, &told[0], &told[1], &told[2], &told[3]);
}

uint32_t batch_number(const struct batch *batch) {
    return number_of(batch, batch->length);
}

/* Finds the record, from 0, that a refused batch is refused for: the last of the fewest
 * records, from the first on, that the index refuses. With every further record it
 * still refuses them. */
static size_t refused_record(const struct batch *batch) {
    size_t sound = 0; /* so many records are not refused */
    size_t wrong = batch->length / GI_RECORD_WORDS;
    while (wrong - sound > 1) {
        size_t middle = sound + (wrong - sound) / 2;
        if (number_of(batch, middle * GI_RECORD_WORDS) == GI_DONE)
            sound = middle;
        else
            wrong = middle;
    }
    return sound;
}

int refused_batch(const char *name, const struct batch *batch, uint32_t number) {
    char part[100];
    if (batch->length >= BATCH_FILE_WORDS_MAX) {
        snprintf(part, sizeof part, "more than %d records", GI_BATCH_RECORDS_MAX);
    } else if (batch->length % GI_RECORD_WORDS != 0) {
        snprintf(part, sizeof part, "%zu words", batch->length);
    } else {
        size_t record = refused_record(batch);
        const uint32_t *words = &batch->words[record * GI_RECORD_WORDS];
        snprintf(part, sizeof part, "record %zu (%" PRIu32 " %" PRIu32 " %" PRIu32 " %" PRIu32 " %" PRIu32 ")",
                 record + 1, words[0], words[1], words[2], words[3], words[4]);
    }
    return refused_part(name, part, number, NULL);
}

/* ---- lines */

/* The bytes of a text from its start on that are so many lines, or all of them. */
static size_t bytes_of_lines(const unsigned char *bytes, size_t length, size_t lines) {
    const unsigned char *end = bytes;
    for (; lines > 0 && end != bytes + length; lines--) {
        const unsigned char *feed = memchr(end, '\n', (size_t)(bytes + length - end));
        end = feed == NULL ? bytes + length : feed + 1;
    }
    return (size_t)(end - bytes);
}

/* How many lines a text has. */
static size_t count_lines(const unsigned char *bytes, size_t length) {
    size_t lines = 0;
    for (size_t done = 0; done < length; lines++)
        done += bytes_of_lines(bytes + done, length - done, 1);
    return lines;
}

/* A text is read no further than to a line that is longer than any record: that line is
 * refused, whatever comes behind. */
static bool enough_text(const unsigned char *bytes, size_t length, size_t count) {
    /* no line feed in the new bytes, or in the last ones if the new ones are few */
    size_t last = count > GI_SCORES_LINE_BYTES ? count : GI_SCORES_LINE_BYTES + 1;
    last = last > length ? length : last;
    return last > GI_SCORES_LINE_BYTES && memchr(bytes + length - last, '\n', last) == NULL;
}

/* Parts a text after every 4,096 lines. */
static int part_text(struct input *text) {
    size_t parts = (count_lines(text->bytes, text->length) + PART_LINES - 1) / PART_LINES;
    text->parts = parts == 0 ? 1 : parts;
    text->starts = malloc((text->parts + 1) * sizeof *text->starts);
    if (text->starts == NULL)
        return no_memory(text->name);
    text->starts[0] = 0;
    for (size_t i = 0, start = 0; i < text->parts; i++) {
        start += bytes_of_lines(text->bytes + start, text->length - start, PART_LINES);
        text->starts[i + 1] = start;
    }
    return EXIT_DONE;
}

/* The bytes of the part in hand. */
static const unsigned char *part_bytes(const struct input *text, size_t *length) {
    size_t start = text->starts[text->part];
    *length = text->starts[text->part + 1] - start;
    return text->bytes + start;
}

/* Makes the batch of some lines. */
static uint32_t lines_to_batch(struct batch *batch, const unsigned char *bytes, size_t length, size_t *line) {
    size_t room = (size_t)GI_RECORD_WORDS * GI_BATCH_RECORDS_MAX; /* never too short */
    return gi_scores(bytes, length, batch->words, room, &batch->length, line);
}

/* Tells that a line of the part in hand, from 1, is refused. */
static int refused_line(const struct input *text, size_t line, uint32_t number, const char *ground) {
    char part[40];
    snprintf(part, sizeof part, "line %zu", text->part * PART_LINES + line);
    return refused_part(text->name, part, number, ground);
}

/* Refuses a text with a line of another form. */
static int judge_forms(struct input *text) {
    for (text->part = 0; text->part < text->parts; text->part++) {
        size_t length;
        size_t line;
        const unsigned char *bytes = part_bytes(text, &length);
        uint32_t number = lines_to_batch(&text->batch, bytes, length, &line);
        if (number != GI_DONE)
            return refused_line(text, line, number, NULL);
    }
    return EXIT_DONE;
}

/* Finds the first line of the part in hand, from 1, whose record the index refuses: the
 * last of the fewest lines that it refuses. */
static size_t refused_figures(struct input *text) {
    size_t length;
    const unsigned char *bytes = part_bytes(text, &length);
    size_t sound = 0; /* so many lines are not refused */
    size_t wrong = count_lines(bytes, length);
    while (wrong - sound > 1) {
        size_t middle = sound + (wrong - sound) / 2;
        size_t line;
        lines_to_batch(&text->batch, bytes, bytes_of_lines(bytes, length, middle), &line);
        if (batch_number(&text->batch) == GI_DONE)
            sound = middle;
        else
            wrong = middle;
    }
    return wrong;
}

/* Refuses a text with a line whose record the index refuses: one with a figure 0. */
static int judge_figures(struct input *text) {
    for (size_t part = 0; part < text->parts; part++) {
        input_part(text, part);
        uint32_t number = batch_number(&text->batch);
        if (number != GI_DONE)
            return refused_line(text, refused_figures(text), number, "term, position, from and to are at least 1");
    }
    return EXIT_DONE;
}

static int text_read(struct input *input, const char *path) {
    int status = file_read(path, enough_text, &input->bytes, &input->length);
    if (status != EXIT_DONE)
        return status;
    input->checksum = checksum_add(CHECKSUM_START, input->bytes, input->length);
    status = part_text(input);
    if (status == EXIT_DONE)
        status = judge_forms(input);
    if (status == EXIT_DONE)
        status = judge_figures(input);
    if (status == EXIT_DONE)
        input_part(input, 0);
    return status;
}

/* ---- both */

int input_read(struct input *input, const char *path, bool text) {
    *input = (struct input){.name = input_name(path), .parts = 1};
    return text ? text_read(input, path) : batch_read(&input->batch, path);
}

void input_part(struct input *input, size_t part) {
    input->part = part;
    if (input->bytes == NULL)
        return;
    size_t length;
    size_t line;
    const unsigned char *bytes = part_bytes(input, &length);
    lines_to_batch(&input->batch, bytes, length, &line);
    size_t before = part * PART_LINES;
    if (input->parts > 1)
        snprintf(input->label, sizeof input->label, "part %zu of %zu, lines %zu to %zu: ", part + 1, input->parts,
                 before + 1, before + input->batch.length / GI_RECORD_WORDS);
}

void input_close(struct input *input) {
    free(input->bytes);
    free(input->starts);
}
