/* The small file beside a card. Its first lines are a function of what is applied and of
 * the part in hand: a run writes them, and a later run compares them with what it would
 * write itself. The others say on which card: where the pass's blocks begin, which stays
 * the same from the pass's start to its end, and of a long text a checksum of the card
 * before the pass and, from before its last write on, of the card after it. */
#define _POSIX_C_SOURCE 200809L

#include "pass_file.h"

#include <errno.h>
#include <fcntl.h>
#include <inttypes.h>
#include <stdio.h>
#include <stdlib.h>
#include <string.h>
#include <unistd.h>

#include "checksum.h"
#include "files.h"
#include "gamecard.h"
#include "words.h"

static const char title[] = "gameindex: what is being applied to the card beside this file\n";

/* ---- its text */

/* The checksum of some bytes and of these words behind them. */
static uint64_t add_words(uint64_t checksum, const uint32_t *words, size_t count) {
    for (size_t i = 0; i < count; i++) {
        unsigned char bytes[WORD_BYTES];
        word_to(bytes, words[i]);
        checksum = checksum_add(checksum, bytes, WORD_BYTES);
    }
    return checksum;
}

/* A checksum of what a sound card holds: its configuration words, then the map entry and
 * the block of each live place, around the circle. */
static uint64_t card_checksum(const uint32_t *card) {
    uint32_t b = card[GI_CONFIG_BLOCK_WORDS];
    uint32_t n = card[GI_CONFIG_PLACES];
    uint32_t live = card[GI_CONFIG_OLD_LENGTH] + card[GI_CONFIG_NEW_LENGTH];
    const uint32_t *map = card + GI_CONFIG_WORDS;
    const uint32_t *blocks = map + (size_t)n * GI_MAP_ENTRY_WORDS;
    uint64_t checksum = add_words(CHECKSUM_START, card, GI_CONFIG_WORDS);
    for (uint32_t i = 0; i < live; i++) {
        size_t place = (card[GI_CONFIG_OLD_START] + i) % n;
        checksum = add_words(checksum, map + place * GI_MAP_ENTRY_WORDS, GI_MAP_ENTRY_WORDS);
        checksum = add_words(checksum, blocks + place * b, b);
    }
    return checksum;
}

/* The place where the blocks of the pass that is open begin, or of the next one. */
static uint32_t first_place(const uint32_t *card) {
    return (card[GI_CONFIG_OLD_START] + card[GI_CONFIG_OLD_LENGTH]) % card[GI_CONFIG_PLACES];
}

/* What a note says of the card: the place where the pass's blocks begin and, of a long
 * text, the checksum before the pass, then the one after it. */
struct on_card {
    int count; /* how many of these */
    uint32_t place;
    uint64_t begun;
    uint64_t done;
};

/* Writes the note of the part in hand. */
static void compose(struct note *note, const struct input *input, const struct on_card *said) {
    const struct batch *batch = &input->batch;
    char text[NOTE_MAX / 2] = "";
    char begun[NOTE_MAX / 8] = "";
    char done[NOTE_MAX / 8] = "";
    if (input->parts > 1)
        snprintf(text, sizeof text, "part %zu of %zu of a text of %zu bytes, checksum %016" PRIx64 "\n",
                 input->part + 1, input->parts, input->length, input->checksum);
    if (said->count > 1)
        snprintf(begun, sizeof begun, "begun on checksum %016" PRIx64 "\n", said->begun);
    if (said->count > 2)
        snprintf(done, sizeof done, "done on checksum %016" PRIx64 "\n", said->done);
    snprintf(note->text, sizeof note->text,
             "%srecords %zu, checksum %016" PRIx64 "\n%sblocks from place %" PRIu32 " on\n%s%s", title,
             batch->length / GI_RECORD_WORDS, add_words(CHECKSUM_START, batch->words, batch->length), text, said->place,
             begun, done);
}

/* What a note says of a long text, or NULL. */
static const char *text_line(const struct note *note) {
    const char *line = strstr(note->text, "\npart ");
    return line == NULL ? NULL : line + 1;
}

const char *note_of_other_text(const struct note *note, const struct input *input) {
    char own[100];
    snprintf(own, sizeof own, "text of %zu bytes, checksum %016" PRIx64, input->length, input->checksum);
    const char *line = text_line(note);
    return line == NULL || strstr(line, own) != NULL ? NULL : line;
}

/* Reads what a note says of the card, where it is one of the part in hand to the last
 * byte. */
static struct on_card read_of_card(const struct note *note, const struct input *input) {
    struct on_card said = {0};
    struct note own;
    const char *card = strstr(note->text, "\nblocks ");
    if (card != NULL)
        said.count =
            sscanf(card, " blocks from place %" SCNu32 " on begun on checksum %" SCNx64 " done on checksum %" SCNx64,
                   &said.place, &said.begun, &said.done);
    compose(&own, input, &said);
    if (strcmp(own.text, note->text) != 0)
        said.count = 0;
    return said;
}

/* Compares a note with what is to be applied. Where no pass is open the part of a long
 * text is still to come, or is finished, if the card is the one that the note says; a card
 * that was put in its place meanwhile begins with the first part. */
static void compare(struct note *note, const struct card_file *card, struct input *input) {
    size_t part = 1;
    const char *line = text_line(note);
    if (line != NULL && sscanf(line, "part %zu ", &part) != 1)
        return;
    if (note->text[0] == '\0' || part < 1 || part > input->parts)
        return;
    input_part(input, part - 1);
    struct on_card said = read_of_card(note, input);
    uint64_t now = card_checksum(card->words);
    bool finished = false;
    if (pass_open(card) || input->parts == 1) {
        note->noted = said.count >= 1 && said.place == first_place(card->words);
    } else {
        note->noted = said.count >= 2 && said.begun == now;
        finished = !note->noted && said.count == 3 && said.done == now;
    }
    input->begun = said.begun;
    note->same = note->noted || finished;
    if (!note->same)
        input_part(input, 0);
    else if (finished && part < input->parts)
        input_part(input, part);
}

/* ---- its file */

static bool enough_note(const unsigned char *bytes, size_t length, size_t count) {
    (void)bytes;
    (void)count;
    return length >= NOTE_MAX;
}

/* Reads the note of this name. */
static int read_named(struct note *note, const char *path) {
    int file = open_file(path, O_RDONLY | O_NONBLOCK);
    if (file < 0 && errno == ENOENT)
        return EXIT_DONE;
    unsigned char *bytes;
    size_t length;
    int status = file_rest(path, file, enough_note, &bytes, &length);
    if (status == EXIT_DONE && length < NOTE_MAX && length >= strlen(title) &&
        memcmp(bytes, title, strlen(title)) == 0) {
        memcpy(note->text, bytes, length);
        note->text[length] = '\0';
    }
    free(bytes);
    return status;
}

int note_find(struct note *note, const struct card_file *card, struct input *input) {
    *note = (struct note){0};
    char *path = name_beside(card->real, ".pass");
    int status = path == NULL ? no_memory(card->path) : read_named(note, path);
    free(path);
    if (status == EXIT_DONE)
        compare(note, card, input);
    return status;
}

/* Writes a note to its file. */
static int write_note(const struct card_file *card, const struct note *note) {
    char *path = name_beside(card->real, ".pass");
    char *temporary = name_beside(card->real, ".pass.new");
    int status = path == NULL || temporary == NULL ? no_memory(card->path)
                                                   : file_replace(path, temporary, note->text, strlen(note->text));
    free(path);
    free(temporary);
    return status;
}

int note_begun(const struct card_file *card, struct input *input) {
    struct note note;
    input->begun = card_checksum(card->words);
    struct on_card said = {.count = input->parts > 1 ? 2 : 1, .place = first_place(card->words), .begun = input->begun};
    compose(&note, input, &said);
    return write_note(card, &note);
}

int note_done(const struct card_file *card, const struct input *input) {
    struct note note;
    if (input->parts == 1)
        return EXIT_DONE;
    /* the old blocks of a card are those of its last pass */
    struct on_card said = {.count = 3,
                           .place = card->words[GI_CONFIG_OLD_START],
                           .begun = input->begun,
                           .done = card_checksum(card->words)};
    compose(&note, input, &said);
    return write_note(card, &note);
}

bool note_remove(const char *card) {
    char *path = name_beside(card, ".pass");
    bool removed = path != NULL && (unlink(path) == 0 || errno == ENOENT);
    free(path);
    return removed;
}
