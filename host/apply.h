/* What is applied to a card file, by apply and by annul. */
#ifndef APPLY_H
#define APPLY_H

#include "batch_file.h"
#include "gamecard.h"

/* Applies what was read to the card file of this name, and gives the exit status. */
int apply_to(const char *path, struct input *input, const struct options *options);

#endif
