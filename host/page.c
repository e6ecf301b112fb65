/* Writes the positions of terms of a card file as pages. */
#include <stdio.h>
#include <stdlib.h>

#include "gameindex.h"
#include "question.h"

static int write_page(const struct card_file *card, struct question asked) {
    /* never too short: each position of an answer is a word of the card, no word
     * is two of them, and more positions never have a shorter page */
    size_t page_len = gi_page_bytes(card->length);
    uint8_t *page = malloc(page_len);
    if (page == NULL)
        return no_memory(card->path);
    uint32_t lines;
    uint32_t number = gi_page(card->words, card->length, asked.term, asked.from, asked.to, page, page_len, &lines);
    int status = number == GI_DONE ? EXIT_DONE : refused(card->path, number);
    if (status == EXIT_DONE)
        fwrite(page, GI_PAGE_LINE_BYTES, lines, stdout);
    free(page);
    return status;
}

int run_page(const struct options *options, char **words) {
    return ask(options, words, write_page);
}
