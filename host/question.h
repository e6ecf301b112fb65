/* Questions to a card file: the positions of terms in a range. */
#ifndef QUESTION_H
#define QUESTION_H

#include "card_file.h"
#include "gamecard.h"

struct question {
    uint32_t term;
    bool alone; /* the only term that is asked about */
    uint32_t from;
    uint32_t to;
};

/* Shows what a card answers to a question that it does not refuse, and gives the exit
 * status. */
typedef int answer_function(const struct card_file *card, struct question asked);

/* Has a card answer the words of a command: the card file, then the terms, or one term
 * and its range. Where one question is refused none is answered. */
int ask(const struct options *options, char **words, answer_function *answer);

#endif
