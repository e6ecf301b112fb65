/* Shows whether a card file is sound. */
#include "card_file.h"
#include "gamecard.h"

int run_judge(const struct options *options, char **words) {
    struct card_file card;
    int status = card_open(&card, words[0], false, options->wait);
    if (status != EXIT_DONE)
        return status;
    status = card_verdict(&card, telling());
    card_close(&card);
    return status;
}
