/* Applies a batch to a card file, step by step. Each step changes the card in
 * memory by one write; that write goes to the file and is on the medium before
 * the next step. So the file holds a sound card at every moment, and a run that
 * was cut short is completed by another with the same batch. Of the medium this
 * asks that a sector is written whole or not at all: the configuration words
 * stand in one sector, together with map entries. */
#define _POSIX_C_SOURCE 200809L

#include "apply.h"

#include <inttypes.h>
#include <stdio.h>
#include <string.h>
#include <unistd.h>

#include "card_file.h"
#include "fits.h"
#include "pass_file.h"

/* What a pass has done so far in this run: its writes by kind, of which each step makes
 * one, and the old places that it freed. */
struct progress {
    uint32_t number;
    bool finished;
    uint64_t blocks;
    uint64_t map_entries;
    uint64_t configurations;
    uint64_t freed;
};

static uint64_t steps_of(const struct progress *done) {
    return done->blocks + done->map_entries + done->configurations;
}

/* ---- the pass */

/* Writes to the file what a step has just written in memory. */
static int store(const struct card_file *card, uint32_t write, struct progress *done) {
    size_t start;
    size_t count;
    uint32_t number = gi_write_span(card->words, card->length, write, &start, &count);
    if (number != GI_DONE || count == 0)
        return fault(card->path, "the library does not tell where its write %" PRIu32 " stands", write);
    done->blocks += write == GI_WRITE_BLOCK;
    done->map_entries += write == GI_WRITE_MAP_ENTRY;
    done->configurations += write == GI_WRITE_CONFIGURATION;
    return card_store(card, start, count);
}

/* Shows on one line of a terminal how far the pass is. */
static void show_progress(const struct progress *done, const struct input *input, const uint32_t *card) {
    fprintf(stderr, "\r%sstep %" PRIu64 ": new length %" PRIu32 ", old length %" PRIu32 "\033[K", input->label,
            steps_of(done), card[GI_CONFIG_NEW_LENGTH], card[GI_CONFIG_OLD_LENGTH]);
}

/* Makes steps until the pass finishes, a step is refused or the file fails. Before the
 * last write it is noted which card the pass is done on. */
static int run_pass(const struct card_file *card, const struct input *input, struct progress *done) {
    const struct batch *batch = &input->batch;
    bool terminal = telling() && isatty(STDERR_FILENO);
    int status = EXIT_DONE;
    while (status == EXIT_DONE && !done->finished) {
        uint32_t write;
        uint32_t freed;
        uint32_t finished;
        done->number = gi_step(card->words, card->length, batch->words, batch->length, &write, &freed, &finished);
        if (done->number != GI_DONE)
            break;
        if (finished != 0)
            status = note_done(card, input);
        if (status == EXIT_DONE)
            status = store(card, write, done);
        done->freed += freed;
        done->finished = finished != 0;
        if (terminal)
            show_progress(done, input, card->words);
    }
    if (terminal)
        fprintf(stderr, "\r\033[K");
    return status;
}

/* ---- what is shown at its end */

static void show_writes(const struct card_file *card, const struct input *input, const char *what,
                        const struct progress *done) {
    tell("%s: %s%s; %" PRIu64 " %s%s, as many writes (%" PRIu64 " %s%s, %" PRIu64 " %s, %" PRIu64 " %s%s); %" PRIu64
         " old %s%s freed\n",
         card->path, input->label, what, COUNTED(steps_of(done), "step"), COUNTED(done->blocks, "block"),
         done->map_entries, done->map_entries == 1 ? "map entry" : "map entries",
         COUNTED(done->configurations, "configuration"), COUNTED(done->freed, "place"));
}

/* Shows how far a pass came that found no place for its next block. */
static void show_reached(const struct card_file *card) {
    if (!pass_open(card))
        tell("%s: no pass is open; the index is as it was\n", card->path);
    else
        tell("%s: the pass stays open: it reached term %" PRIu32 ", position %" PRIu32
             "; beyond that pair the index is as it was; an empty batch finishes the pass\n",
             card->path, card->words[GI_CONFIG_BOUNDARY_TERM], card->words[GI_CONFIG_BOUNDARY_POSITION]);
}

static void tell_configuration(const struct card_file *card) {
    if (telling())
        show_configuration(card->words);
}

/* Shows how many removals of a batch have their from above their to: such a range may
 * be meant, and may be two numbers in the wrong order. */
static void show_empty_ranges(const struct card_file *card, const struct input *input) {
    uint64_t ranges = 0;
    for (size_t i = 0; i < input->batch.length; i += GI_RECORD_WORDS) {
        const uint32_t *record = &input->batch.words[i];
        ranges += record[0] != GI_RECORD_ADD && record[2] > record[3];
    }
    if (ranges != 0)
        tell("%s: %s%" PRIu64 " %s%s with from above to, which %s nothing\n", card->path, input->label,
             COUNTED(ranges, "removal"), ranges == 1 ? "removes" : "remove");
}

/* Makes the pass of the part in hand, shows its end and gives the exit status. */
static int make_pass(const struct card_file *card, const struct input *input) {
    struct progress done = {0};
    int status = run_pass(card, input, &done);
    if (status != EXIT_DONE)
        return status;
    if (!done.finished) {
        status = refused(card->path, done.number);
        show_writes(card, input, "stopped", &done);
        show_reached(card);
        tell_configuration(card);
        return status;
    }
    show_writes(card, input, "the pass is finished", &done);
    show_empty_ranges(card, input);
    return EXIT_DONE;
}

/* ---- a pass that is open, and the note beside the card */

/* Tells that the open pass is another's, or that this is not known, and what can be
 * done. */
static int refuse_open(const struct card_file *card, const struct note *note) {
    fprintf(stderr,
            "%s: refused, a pass is open: a batch is in the index up to term %" PRIu32 ", position %" PRIu32
            ", and not beyond\n",
            card->path, card->words[GI_CONFIG_BOUNDARY_TERM], card->words[GI_CONFIG_BOUNDARY_POSITION]);
    if (note->text[0] == '\0')
        fprintf(
            stderr,
            "%s: no file %s.pass tells which batch; if it is the one that you apply now, --resume goes on with it\n",
            card->path, card->real);
    else
        fprintf(stderr,
                "%s: it is another than the one that you apply now (%s.pass tells which); apply that one again, and it "
                "goes on\n",
                card->path, card->real);
    fprintf(
        stderr,
        "%s: or end the pass where it stands, with an empty batch: gamecard apply %s /dev/null; what it moved stays, "
        "and no game is lost\n",
        card->path, card->path);
    return EXIT_REFUSED;
}

/* Says what an earlier run left undone, where another batch is applied now. */
static void show_left(const struct card_file *card, const struct note *note, const struct input *input) {
    const char *text = note_of_other_text(note, input);
    if (text != NULL)
        fprintf(stderr, "%s: not applied to its end: %.*s; apply that text again if the rest is wanted\n", card->path,
                (int)strcspn(text, "\n"), text);
}

/* Refuses where a pass is open that may be another's. Gives an exit status. */
static int may_begin(const struct card_file *card, const struct input *input, const struct options *options,
                     const struct note *note) {
    bool resumed = (options->given & OPTION_RESUME) && note->text[0] == '\0';
    if (pass_open(card) && !note->same && input->batch.length != 0 && !resumed)
        return refuse_open(card, note);
    show_left(card, note, input);
    return EXIT_DONE;
}

/* ---- the parts */

/* Refuses the part in hand where it would not finish, unless it is wanted anyway. */
static int finds_room(const struct card_file *card, const struct input *input, const struct options *options) {
    struct forecast told;
    int status = foretell(&told, card, input);
    if (status != EXIT_DONE || told.finishes != 0 || (options->given & OPTION_ANYWAY))
        return status;
    status = refused(card->path, GI_CARD_FULL);
    show_no_room(stderr, card, input, &told);
    fprintf(
        stderr,
        "%s: no step of it was made%s; --anyway goes as far as it can: what is moved by then stays in the index, and "
        "no game is lost\n",
        card->path, input->part > 0 ? ", and the parts before it are in the index" : "");
    return status;
}

/* Notes the part in hand before its first step. */
static int note_part(const struct card_file *card, struct input *input) {
    int status = note_begun(card, input);
    if (status != EXIT_DONE)
        fprintf(stderr, "%s: %sno step of it was made\n", card->path, input->label);
    return status;
}

/* Applies the part in hand and those behind it. After a pass's last step the next part is
 * noted, or none. */
static int apply_parts(const struct card_file *card, struct input *input, const struct options *options, bool noted) {
    for (;;) {
        int status = finds_room(card, input, options);
        if (status == EXIT_DONE && !noted)
            status = note_part(card, input);
        if (status == EXIT_DONE)
            status = make_pass(card, input);
        if (status != EXIT_DONE)
            return status;
        if (input->part + 1 == input->parts)
            break;
        input_part(input, input->part + 1);
        status = note_part(card, input);
        if (status != EXIT_DONE)
            return status;
        noted = true;
    }
    note_remove(card->real);
    tell_configuration(card);
    return EXIT_DONE;
}

/* ---- the commands */

int apply_to(const char *path, struct input *input, const struct options *options) {
    struct card_file card;
    struct note note = {0};
    int status = card_open(&card, path, true, options->wait);
    if (status != EXIT_DONE)
        return status;
    status = card_judge(&card);
    if (status == EXIT_DONE)
        status = note_find(&note, &card, input);
    if (status == EXIT_DONE)
        status = may_begin(&card, input, options, &note);
    if (status == EXIT_DONE)
        status = apply_parts(&card, input, options, note.noted);
    card_close(&card);
    return status;
}

int run_apply(const struct options *options, char **words) {
    static struct input input;
    int status = input_read(&input, words[1], options->given & OPTION_TEXT);
    if (status == EXIT_DONE)
        status = apply_to(words[0], &input, options);
    input_close(&input);
    return status;
}
