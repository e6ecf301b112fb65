/* Fuzzes what is told of a card: the judge against the plain C judge, where a write
 * stands, and the questions about the first term of the card. */
#include "fuzz.h"
#include "judge_c.h"

int LLVMFuzzerTestOneInput(const uint8_t *bytes, size_t length);

/* Where a write stands, by the header. */
static void expect_span(const uint32_t *card, uint32_t write, size_t *start, size_t *count) {
    size_t b = card[GI_CONFIG_BLOCK_WORDS];
    size_t n = card[GI_CONFIG_PLACES];
    size_t due = ((size_t)card[GI_CONFIG_OLD_START] + card[GI_CONFIG_OLD_LENGTH] + card[GI_CONFIG_NEW_LENGTH]) % n;
    *start = *count = 0;
    if (write == GI_WRITE_BLOCK) {
        *start = gi_card_words(0, (uint32_t)n) + due * b;
        *count = b;
    } else if (write == GI_WRITE_MAP_ENTRY) {
        *start = GI_CONFIG_WORDS + due * GI_MAP_ENTRY_WORDS;
        *count = GI_MAP_ENTRY_WORDS;
    } else if (write == GI_WRITE_CONFIGURATION) {
        *count = GI_CONFIG_WORDS;
    }
}

static void see_span(struct words card, uint32_t judged, uint32_t write) {
    struct told_lengths told = told_no_lengths();
    size_t start = 0;
    size_t count = 0;
    if (judged == GI_DONE)
        expect_span(card.at, write, &start, &count);
    struct words lent = lend(card);
    assert(gi_write_span(lent.at, lent.count, write, &told.at[1], &told.at[3]) == judged);
    told_lengths_whole(told);
    assert(told.at[1] == start && told.at[3] == count);
    take_back_unchanged(lent, card);
}

int LLVMFuzzerTestOneInput(const uint8_t *bytes, size_t length) {
    struct drawn from = {bytes, length};
    uint32_t write = draw_byte(&from);
    struct words card = draw_card(&from);
    struct words lent = lend(card);
    uint32_t judged = gi_judge(lent.at, lent.count);
    take_back_unchanged(lent, card);
    assert(judged == judge_c(card.at, card.count));
    for (uint32_t i = 0; i <= 4; i++)
        see_span(card, judged, i == 4 ? write : i);
    struct question first = {card.count > GI_CONFIG_WORDS ? card.at[GI_CONFIG_WORDS] : 1, GI_LOWEST, GI_HIGHEST};
    ask(card, judged, first, write);
    words_free(card);
    return 0;
}
