/* Removes a range of positions under every term: applies the batch of one record that
 * says so. */
#include "apply.h"

int run_annul(const struct options *options, char **words) {
    /* its term is 0, its arrival number 1 */
    static struct input input = {
        .name = "the range",
        .parts = 1,
        .batch = {.words = {GI_RECORD_ANNUL, 0, 0, 0, 1}, .length = GI_RECORD_WORDS},
    };
    if (!parse_word("FROM", words[1], &input.batch.words[2]) || !parse_word("TO", words[2], &input.batch.words[3]))
        return EXIT_FAULT;
    return apply_to(words[0], &input, options);
}
