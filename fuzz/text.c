/* Fuzzes scorekeepers' files: gi_scores against the plain C scores, and the host's reading
 * of the same file in parts against both. The input is the file; where it starts with '*'
 * and a byte, what stands behind them is repeated to 4,096 lines or somewhat more. */
#define _POSIX_C_SOURCE 200809L

#include <stdio.h>
#include <stdlib.h>
#include <string.h>

#include "batch_file.h"
#include "fuzz.h"
#include "scores_c.h"

int LLVMFuzzerTestOneInput(const uint8_t *bytes, size_t length);

enum { ALL_WORDS = GI_RECORD_WORDS * GI_BATCH_RECORDS_MAX };

/* ---- the file */

struct text {
    uint8_t *bytes;
    size_t length;
};

static struct text text_of(const uint8_t *bytes, size_t length, size_t times) {
    struct text text = {malloc(length * times), length * times};
    assert(text.bytes != NULL);
    for (size_t i = 0; i < times; i++)
        memcpy(text.bytes + i * length, bytes, length);
    return text;
}

static struct text draw_text(const uint8_t *bytes, size_t length) {
    if (length < 3 || bytes[0] != '*')
        return text_of(bytes, length, 1);
    size_t lines = 0;
    for (size_t i = 2; i < length; i++)
        lines += bytes[i] == '\n';
    return text_of(bytes + 2, length - 2, lines == 0 ? 1 : GI_BATCH_RECORDS_MAX / lines + bytes[1] % 4);
}

/* ---- the library and the plain C scores */

/* What a file gives. */
struct scores {
    uint32_t number;
    struct told_lengths told; /* words, line */
    struct words batch;
};

/* Of both, with room for so many words of a batch; they agree. */
static struct scores read_both(struct text text, size_t room) {
    struct told_lengths twin = told_no_lengths();
    struct scores scores = {0, told_no_lengths(), words_blank(room)};
    struct words lent = lend(scores.batch);
    scores.number = gi_scores(text.bytes, text.length, lent.at, room, &scores.told.at[1], &scores.told.at[3]);
    assert(scores_c(text.bytes, text.length, scores.batch.at, room, &twin.at[1], &twin.at[3]) == scores.number);
    assert(memcmp(&twin, &scores.told, sizeof twin) == 0 && words_same(lent, scores.batch));
    take_back(lent);
    return scores;
}

/* With a word less than the batch has. */
static void see_short(struct text text, size_t words) {
    struct scores scores = read_both(text, words - 1);
    struct words blank = words_blank(words - 1);
    assert(scores.number == GI_LOOKUP_ANSWER && scores.told.at[1] == 0 && scores.told.at[3] == 0);
    assert(words_same(scores.batch, blank));
    words_free(blank);
    words_free(scores.batch);
}

/* ---- the records by their lines */

/* Puts the first four words of each record of a batch where its line, behind some other
 * lines, has its place. Sees that the records are sorted, and numbered without a gap. */
static void put_lines(uint32_t (*lines)[4], size_t behind, const uint32_t *batch, size_t words) {
    size_t count = words / GI_RECORD_WORDS;
    for (size_t i = 0; i < count; i++) {
        const uint32_t *record = batch + i * GI_RECORD_WORDS;
        assert(record[4] >= 1 && record[4] <= count && lines[behind + record[4] - 1][0] == 0);
        memcpy(lines[behind + record[4] - 1], record, sizeof *lines);
        if (i == 0)
            continue;
        const uint32_t *before = record - GI_RECORD_WORDS;
        assert(before[1] < record[1] || (before[1] == record[1] && before[2] <= record[2]));
        assert(before[1] < record[1] || before[2] < record[2] || before[4] < record[4]);
    }
}

/* The first line, from 1, with a figure 0; 0 where there is none. */
static size_t zero_line(uint32_t (*lines)[4], size_t count) {
    for (size_t i = 0; i < count; i++)
        if (lines[i][1] == 0 || lines[i][2] == 0 || lines[i][3] == 0)
            return i + 1;
    return 0;
}

/* ---- the host */

/* What the host tells of a file that it refuses: "line 3: refused, number 12". */
struct refusal {
    size_t line;
    uint32_t number;
};

/* Reads the file as the host does. What it tells is read instead of shown. */
static int host_reads(struct input *input, struct text text, struct refusal *refused) {
    const char *path = file_name("scores");
    FILE *shown = stderr;
    char *told = NULL;
    size_t length = 0;
    file_make(path, text.bytes, text.length);
    stderr = open_memstream(&told, &length);
    int status = input_read(input, path, true);
    fclose(stderr);
    stderr = shown;
    const char *line = strstr(told, ": line ");
    *refused = (struct refusal){0, 0};
    if (line != NULL)
        assert(sscanf(line, ": line %zu: refused, number %u:", &refused->line, &refused->number) == 2);
    free(told);
    return status;
}

/* Sees that the parts of a file that the host takes are its lines, as the library has them. */
static void see_parts(struct input *input, uint32_t (*lines)[4], size_t count) {
    static uint32_t parted[GI_BATCH_RECORDS_MAX][4];
    memset(parted, 0, sizeof parted);
    size_t behind = 0;
    for (size_t part = 0; part < input->parts; part++) {
        input_part(input, part);
        size_t records = input->batch.length / GI_RECORD_WORDS;
        assert(records == (count - behind < PART_LINES ? count - behind : PART_LINES));
        assert(records != 0 || count == 0);
        put_lines(parted, behind, input->batch.words, input->batch.length);
        behind += records;
    }
    assert(behind == count && memcmp(parted, lines, sizeof parted) == 0);
}

/* The host refuses the same line as the library, or the first one with a figure 0. */
static void see_host(struct text text, const struct scores *scores) {
    static struct input input;
    static uint32_t lines[GI_BATCH_RECORDS_MAX][4];
    struct refusal refused;
    int status = host_reads(&input, text, &refused);
    if (scores->number == GI_SCORES_LINE) {
        assert(status == 1 && refused.number == GI_SCORES_LINE && refused.line == scores->told.at[3]);
    } else if (scores->number == GI_DONE) {
        size_t count = scores->told.at[1] / GI_RECORD_WORDS;
        memset(lines, 0, sizeof lines);
        put_lines(lines, 0, scores->batch.at, scores->told.at[1]);
        size_t zero = zero_line(lines, count);
        assert(status == (zero != 0) && refused.line == zero && refused.number == (zero != 0 ? GI_BATCH_RECORD : 0));
        if (zero == 0)
            see_parts(&input, lines, count);
    }
    input_close(&input);
}

int LLVMFuzzerTestOneInput(const uint8_t *bytes, size_t length) {
    struct text text = draw_text(bytes, length);
    struct scores scores = read_both(text, ALL_WORDS);
    if (scores.told.at[1] != 0)
        see_short(text, scores.told.at[1]);
    see_host(text, &scores);
    words_free(scores.batch);
    free(text.bytes);
    return 0;
}
