/* What a pass on a card file will come to. */
#ifndef FITS_H
#define FITS_H

#include <stdint.h>
#include <stdio.h>

#include "batch_file.h"
#include "card_file.h"
#include "gamecard.h"

/* What the library foretells of a pass. */
struct forecast {
    uint32_t blocks;
    uint32_t limit;
    uint32_t finishes;
    uint32_t writes;
};

/* Asks the library about the part in hand, on a card. Gives EXIT_REFUSED after telling
 * why, or EXIT_DONE. */
int foretell(struct forecast *told, const struct card_file *card, const struct input *input);

/* Tells that the part in hand does not fit, and what would help. */
void show_no_room(FILE *out, const struct card_file *card, const struct input *input, const struct forecast *told);

#endif
