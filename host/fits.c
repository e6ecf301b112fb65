/* Tells whether a batch fits on a card file: what comes of applying it to the end with
 * no cut. The card is only read; the passes of a long text are made in memory. */
#include "fits.h"

#include <inttypes.h>
#include <stdio.h>

#include "gameindex.h"
#include "pass_file.h"

int foretell(struct forecast *told, const struct card_file *card, const struct input *input) {
    const struct batch *batch = &input->batch;
    uint32_t number = gi_forecast(card->words, card->length, batch->words, batch->length, &told->blocks, &told->limit,
                                  &told->finishes, &told->writes);
    if (number == GI_BATCH_RECORD || number == GI_BATCH_ORDER || number == GI_BATCH_ARRIVAL)
        return refused_batch(input->name, batch, number);
    return number == GI_DONE ? EXIT_DONE : refused(card->path, number);
}

/* ---- what is shown */

static void show_fits(const struct card_file *card, const struct input *input, const struct forecast *told) {
    tell("%s: %sthe batch fits; ", card->path, input->label);
    if (told->blocks == 0)
        tell("nothing remains to be put in a block, and the pass finishes in %" PRIu64 " %s%s\n",
             COUNTED(told->limit, "step"));
    else
        tell("the pass fills %" PRIu64 " %s%s and finishes within %" PRIu64 " %s%s\n", COUNTED(told->blocks, "block"),
             COUNTED(told->limit, "step"));
}

void show_no_room(FILE *out, const struct card_file *card, const struct input *input, const struct forecast *told) {
    const uint32_t *words = card->words;
    uint32_t places = words[GI_CONFIG_PLACES];
    /* a sound card has more places than live blocks */
    uint32_t free_places = places - words[GI_CONFIG_OLD_LENGTH] - words[GI_CONFIG_NEW_LENGTH];
    fprintf(out,
            "%s: %sthe batch does not fit, the card is too full; the pass needs %" PRIu64 " %s%s and would stop with "
            "number %d after putting in %" PRIu64 " %s%s\n",
            card->path, input->label, COUNTED(told->blocks, "block"), GI_CARD_FULL, COUNTED(told->writes, "block"));
    fprintf(out,
            "%s: use a card with more places, or %sapply smaller batches, or remove games first; removals alone always "
            "fit where two places are free (free now: %" PRIu32 " of %" PRIu32 ")\n",
            card->path, pass_open(card) ? "end the pass with an empty batch, which always fits, and then " : "",
            free_places, places);
}

/* Says of a card whose pass is open what the answer is about. */
static void show_open(const struct card_file *card, bool same) {
    if (pass_open(card))
        tell("%s: a pass is open, and this is about going on with it%s\n", card->path,
             same ? "" : "; apply refuses a batch other than the one that it was begun with");
}

/* ---- the parts of what is asked about */

/* Makes in memory the pass of a batch that fits. */
static void pass_in_memory(const struct card_file *card, const struct batch *batch) {
    uint32_t write;
    uint32_t freed;
    uint32_t finished = 0;
    while (finished == 0 &&
           gi_step(card->words, card->length, batch->words, batch->length, &write, &freed, &finished) == GI_DONE)
        continue;
}

/* Asks about the part in hand and those behind it, and gives the exit status. */
static int ask_parts(const struct card_file *card, struct input *input) {
    for (;;) {
        struct forecast told;
        int status = foretell(&told, card, input);
        if (status != EXIT_DONE)
            return status;
        if (told.finishes == 0) {
            show_no_room(stdout, card, input, &told);
            printf("%s: nothing has been changed\n", card->path);
            return EXIT_NO_ROOM;
        }
        show_fits(card, input, &told);
        if (input->part + 1 == input->parts)
            return EXIT_DONE;
        pass_in_memory(card, &input->batch);
        input_part(input, input->part + 1);
    }
}

/* Asks about what is to be applied, from the part on that apply would begin with. */
static int ask(const struct card_file *card, struct input *input) {
    struct note note;
    int status = card_judge(card);
    if (status == EXIT_DONE)
        status = note_find(&note, card, input);
    if (status != EXIT_DONE)
        return status;
    show_open(card, note.same || input->batch.length == 0);
    return ask_parts(card, input);
}

int run_fits(const struct options *options, char **words) {
    static struct input input;
    struct card_file card;
    int status = input_read(&input, words[1], options->given & OPTION_TEXT);
    if (status == EXIT_DONE)
        status = card_open(&card, words[0], false, options->wait);
    if (status == EXIT_DONE) {
        status = ask(&card, &input);
        card_close(&card);
    }
    input_close(&input);
    return status;
}
