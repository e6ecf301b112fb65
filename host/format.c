/* Formats a card file: one that is there, or a new one. */
#define _POSIX_C_SOURCE 200809L

#include <errno.h>
#include <inttypes.h>
#include <stdio.h>
#include <stdlib.h>
#include <string.h>
#include <sys/stat.h>

#include "card_file.h"
#include "files.h"
#include "gamecard.h"
#include "gameindex.h"
#include "pass_file.h"

/* ---- a file that is there */

/* Refuses a file that is not a sound card without pairs: what it holds would be lost. */
static int nothing_lost(const char *path, uint32_t judged, uint32_t blocks) {
    if (judged != GI_DONE)
        fprintf(stderr, "%s: refused, it is no sound card (the judge gives %" PRIu32 ") and may be any file\n", path,
                judged);
    else if (blocks != 0)
        fprintf(stderr, "%s: refused, it is a card with an index, in %" PRIu64 " %s%s\n", path,
                COUNTED(blocks, "block"));
    else
        return EXIT_DONE;
    fprintf(stderr, "%s: format --force makes an empty index of it, and what it held is lost\n", path);
    return EXIT_REFUSED;
}

/* Writes the configuration words. The note of a pass goes first, for good: it would be
 * taken for one of the new index. */
static int store_empty(const struct card_file *card) {
    if (!note_remove(card->real))
        return fault(card->path, "its note cannot be removed: %s", strerror(errno));
    if (!sync_folder(card->real))
        return not_on_medium(card->path, "its name");
    return card_store(card, 0, GI_CONFIG_WORDS);
}

/* Formats a card file that is there: only its configuration words are written. */
static int format_existing(const struct options *options, const char *path, uint32_t b, uint32_t n) {
    struct card_file card;
    int status = card_open(&card, path, true, options->wait);
    if (status != EXIT_DONE)
        return status;
    uint32_t judged = gi_judge(card.words, card.length);
    uint32_t blocks = judged == GI_DONE ? card.words[GI_CONFIG_OLD_LENGTH] + card.words[GI_CONFIG_NEW_LENGTH] : 0;
    uint32_t number = gi_format(card.words, card.length, b, n);
    if (number != GI_DONE)
        status = refused(path, number);
    else if (!(options->given & OPTION_FORCE))
        status = nothing_lost(path, judged, blocks);
    if (status == EXIT_DONE)
        status = store_empty(&card);
    card_close(&card);
    return status;
}

/* ---- a new file */

/* Formats a card of zeros and makes a file of it. */
static int format_new(const char *path, uint32_t b, uint32_t n) {
    /* bad limits name no length; with good ones the length is right */
    uint32_t no_card = 0;
    uint32_t number = gi_format(&no_card, 0, b, n);
    if (number == GI_FORMAT_LIMITS)
        return refused(path, number);
    size_t length = gi_card_words(b, n);
    uint32_t *words = calloc(length, sizeof *words);
    if (words == NULL)
        return no_memory(path);
    gi_format(words, length, b, n);
    /* a note would be of a card that is no more */
    int status = note_remove(path) ? file_create(path, words, length)
                                   : fault(path, "its note cannot be removed: %s", strerror(errno));
    free(words);
    return status;
}

/* ---- the command */

int run_format(const struct options *options, char **words) {
    const char *path = words[0];
    uint32_t b;
    uint32_t n;
    if (!parse_word("B", words[1], &b) || !parse_word("N", words[2], &n))
        return EXIT_FAULT;
    struct stat about;
    bool there = lstat(path, &about) == 0;
    if (!there && errno != ENOENT)
        return fault(path, "%s", strerror(errno));
    int status = there ? format_existing(options, path, b, n) : format_new(path, b, n);
    if (status == EXIT_DONE)
        tell("%s: %s, %" PRIu32 " places of %" PRIu32 " words\n", path, there ? "formatted" : "created and formatted",
             n, b);
    return status;
}
