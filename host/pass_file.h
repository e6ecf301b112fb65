/* The small file beside a card, CARD.pass, in which a run notes before a pass's first
 * step what it applies: of which batch, and of which part of a long text. The card alone
 * says whether a pass is open; the note says with which batch it goes on. */
#ifndef PASS_FILE_H
#define PASS_FILE_H

#include <stdbool.h>
#include <stddef.h>

#include "batch_file.h"
#include "card_file.h"

enum { NOTE_MAX = 400 };

/* A note, and what it says of what is to be applied. */
struct note {
    char text[NOTE_MAX]; /* ended by a zero byte; empty where there is no note */
    bool same;           /* it is of this batch, or of some part of this text, on this card */
    bool noted;          /* it is of the part in hand */
};

/* Reads the note beside a sound card and has the part in hand that is to be applied: the
 * note's, the next one where the note's is finished, or else the first. A file that is
 * not there, or that has another text, is none. Gives an exit status. */
int note_find(struct note *note, const struct card_file *card, struct input *input);

/* What a note says of a long text that is not the one to be applied, "part 2 of 3 of ..",
 * or NULL. */
const char *note_of_other_text(const struct note *note, const struct input *input);

/* Notes the part in hand before its pass, on the card as it is. The note is on the medium
 * when it gives EXIT_DONE. */
int note_begun(const struct card_file *card, struct input *input);

/* Notes of a part of a long text that it is done when the card is as it is in memory: from
 * before the pass's last write on. Of another batch nothing is noted. */
int note_done(const struct card_file *card, const struct input *input);

/* Removes the note beside the card of this name; false with errno set where it cannot. A
 * note that is there after all, also since a power cut brought it back, does no harm where
 * the pass that it tells of is finished. */
bool note_remove(const char *card);

#endif
