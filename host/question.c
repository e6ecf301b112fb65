/* Questions to a card file. */
#include "question.h"

#include "gameindex.h"

static size_t count_words(char **words) {
    size_t count = 0;
    while (words[count] != NULL)
        count++;
    return count;
}

/* Reads the range of the options, or of three numbers without one: they are a term, from
 * and to. Where they are, no term stands behind the first. */
static bool parse_range(const struct options *options, char **numbers, struct question *asked) {
    asked->from = options->from;
    asked->to = options->to;
    if (count_words(numbers) != 3 || (options->given & (OPTION_FROM | OPTION_TO)) != 0)
        return true;
    bool parsed = parse_word("FROM", numbers[1], &asked->from) && parse_word("TO", numbers[2], &asked->to);
    numbers[1] = NULL;
    return parsed;
}

/* Reads the terms, and gives the least. */
static bool parse_terms(char **terms, uint32_t *least) {
    *least = GI_HIGHEST;
    for (; *terms != NULL; terms++) {
        uint32_t term;
        if (!parse_word("TERM", *terms, &term))
            return false;
        *least = term < *least ? term : *least;
    }
    return true;
}

/* Refuses what the card refuses of a question. */
static int may_ask(const struct card_file *card, const struct question *asked) {
    size_t start;
    size_t found;
    uint32_t number = gi_run_view(card->words, card->length, asked->term, asked->from, asked->to, &start, &found);
    return number == GI_DONE ? EXIT_DONE : refused(card->path, number);
}

/* Asks a card about each of the terms. */
static int ask_terms(const struct card_file *card, struct question asked, char **terms, answer_function *answer) {
    /* of terms in one range the least is refused if any is */
    int status = may_ask(card, &asked);
    asked.alone = terms[1] == NULL;
    for (; status == EXIT_DONE && *terms != NULL; terms++) {
        parse_word("TERM", *terms, &asked.term);
        status = answer(card, asked);
    }
    return status;
}

int ask(const struct options *options, char **words, answer_function *answer) {
    char **numbers = words + 1;
    struct question asked = {0};
    if (!parse_range(options, numbers, &asked) || !parse_terms(numbers, &asked.term))
        return EXIT_FAULT;
    struct card_file card;
    int status = card_open(&card, words[0], false, options->wait);
    if (status != EXIT_DONE)
        return status;
    status = ask_terms(&card, asked, numbers, answer);
    card_close(&card);
    return status;
}
