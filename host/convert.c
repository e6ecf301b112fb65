/* Gives the records of an old batch file arrival numbers. In a batch of four-word
 * records an addition won over every removal; so the removals get 1, 2 and so on, in
 * their order, and the additions the numbers behind them. The old file is only read. */
#include <inttypes.h>
#include <stdio.h>
#include <string.h>

#include "batch_file.h"
#include "files.h"
#include "gamecard.h"
#include "gameindex.h"

enum { OLD_RECORD_WORDS = 4, OLD_WORDS_MAX = GI_BATCH_RECORDS_MAX * OLD_RECORD_WORDS };

/* Refuses words that are not up to 4,096 records of four. */
static int whole_records(const char *path, const struct batch *old) {
    if (old->length > OLD_WORDS_MAX)
        fprintf(stderr, "%s: refused, more than 4,096 records of four words\n", path);
    else if (old->length % OLD_RECORD_WORDS != 0)
        fprintf(stderr, "%s: refused, %zu words are not a whole number of records of four words\n", path, old->length);
    else
        return EXIT_DONE;
    return EXIT_REFUSED;
}

static uint32_t count_additions(const struct batch *old) {
    uint32_t additions = 0;
    for (size_t i = 0; i < old->length; i += OLD_RECORD_WORDS)
        additions += old->words[i] == GI_RECORD_ADD;
    return additions;
}

/* Makes the records of five words. */
static void number_records(const struct batch *old, struct batch *new) {
    uint32_t records = (uint32_t)(old->length / OLD_RECORD_WORDS);
    uint32_t removal = 1;
    uint32_t addition = records - count_additions(old) + 1;
    for (uint32_t i = 0; i < records; i++) {
        uint32_t *record = &new->words[i * GI_RECORD_WORDS];
        memcpy(record, &old->words[i * OLD_RECORD_WORDS], OLD_RECORD_WORDS * sizeof *record);
        record[OLD_RECORD_WORDS] = record[0] == GI_RECORD_ADD ? addition++ : removal++;
    }
    new->length = (size_t)records *GI_RECORD_WORDS;
}

static void show_converted(const char *path, const struct batch *old) {
    uint64_t records = old->length / OLD_RECORD_WORDS;
    uint64_t additions = count_additions(old);
    tell("%s: %" PRIu64 " %s%s of five words; by arrival %" PRIu64 " %s%s, then %" PRIu64 " %s%s\n", path,
         COUNTED(records, "record"), COUNTED(records - additions, "removal"), COUNTED(additions, "addition"));
}

int run_convert(const struct options *options, char **words) {
    (void)options;
    static struct batch old;
    static struct batch new;
    const char *name = input_name(words[0]);
    if (strcmp(words[1], "-") == 0)
        return fault("-", "the new file must have a name; standard output is for messages");
    int status = batch_read(&old, words[0]);
    if (status == EXIT_DONE)
        status = whole_records(name, &old);
    if (status != EXIT_DONE)
        return status;
    number_records(&old, &new);
    /* few files of five-word records get past this */
    uint32_t number = batch_number(&new);
    if (number != GI_DONE)
        return refused_batch(name, &new, number);
    status = file_create(words[1], new.words, new.length);
    if (status == EXIT_DONE)
        show_converted(words[1], &old);
    return status;
}
