/* Tests of gi_format and gi_judge. */
#include "small_cards.h"

static void sound_cards(void) {
    const char *group = "sound";
    judged(CARD(1, 8, 4, 0, 0, 0, 0, 0), 0, group, "fresh, other words left over");
    judged(WITH(CARD(1, 8, 4, 0, 0, 0, 0, 0), 0, 5, 2, 2, 9, 7, 1, 4, 0), 0, group, "case 1 before its last write");
    judged(case1(), 0, group, "case 1");
    judged(case2(), 0, group, "case 2");
    judged(WITH(case1(), 1, 5, 2, 2, 9, 7, 2, 4, 11), 0, group, "case 2 before its last write");
    judged(case3_open(), 0, group, "case 3 in mid-pass");
    judged(WITH(case3_open(), 2, 8, 1, 1, 0, 0, 0, 0, 0), 0, group, "case 3 before its last write");
    judged(case3(), 0, group, "case 3");
    judged(CARD(1, 8, 4, 1, 0, 0, 0, 0), 0, group, "case 6, all removed");
    judged(wrapped(), 0, group, "a pass around the circle");
    judged(WITH(CARD(1, 8, 4, 0, 1, 0, 0, 0), 0, 1, 6, 1, 2, 3, 4, 5, 6), 0, group, "one entry that fills its block");
    judged(WITH(CARD(1, 8, 4, 0, 1, 0, 0, 0), 0, 1, 4, 1, 2, 3, 4, 0, 0), 0, group, "two words left over");
    judged(WITH(CARD(1, 8, 4, 0, 1, 0, 0, 0), 0, 1, 1, 1, 0, 0, 0, 0, 0), 0, group, "the lowest pair");
    judged(WITH(CARD(1, 8, 4, 0, 1, 0, 0, 0), 0, UINT32_MAX, 1, UINT32_MAX, 0, 0, 0, 0, 0), 0, group,
           "the highest pair");
    judged(WITH(CARD(1, 8, 4, 3, 0, 1, UINT32_MAX, UINT32_MAX), 3, UINT32_MAX, 2, 1, UINT32_MAX, 0, 0, 0, 0), 0, group,
           "the highest boundary");

    struct card one_term = WITH(CARD(1, 8, 4, 2, 3, 0, 0, 0), 2, 6, 6, 1, 2, 3, 4, 5, 6);
    one_term = WITH(WITH(one_term, 3, 6, 6, 7, 8, 9, 10, 11, 12), 0, 6, 1, 13, 0, 0, 0, 0, 0);
    judged(one_term, 0, group, "one term over three blocks around the circle");
}

static void two_places(void) {
    const char *group = "two places";
    enum { WORDS_2 = 28 };
    uint32_t card[WORDS_2] = {1, 8, 2, 1, 0, 1, 7, 4, 5, 2, 5, 2, 5, 2, 2, 9, 7, 1, 4, 0, 5, 2, 2, 9, 7, 1, 4, 0};
    check_number(gi_judge(card, WORDS_2), 0, group, "case 4 where it stops");
    card[GI_CONFIG_OLD_LENGTH] = 1;
    check_number(gi_judge(card, WORDS_2), 3, group, "no place free");
    card[GI_CONFIG_NEW_LENGTH] = card[GI_CONFIG_BOUNDARY_TERM] = card[GI_CONFIG_BOUNDARY_POSITION] = 0;
    check_number(gi_judge(card, WORDS_2), 0, group, "case 4 after the empty batch");
}

/* ---- the grounds of refusal */

static void lengths(void) {
    const char *group = "length";
    struct card card = case1();
    for (size_t length = 0; length < GI_CONFIG_WORDS; length++)
        check_number(gi_judge(card.words, length), 1, group, "shorter than the configuration");
    for (size_t length = GI_CONFIG_WORDS; length < WORDS; length++)
        check_number(gi_judge(card.words, length), 1, group, "shorter than the formula's");
    uint32_t longer[WORDS + 1];
    memcpy(longer, card.words, sizeof card.words);
    longer[WORDS] = 0;
    check_number(gi_judge(longer, WORDS + 1), 1, group, "one word too long");
    judged(changed(card, GI_CONFIG_BLOCK_WORDS, 9), 1, group, "B says more");
    judged(changed(card, GI_CONFIG_PLACES, 3), 1, group, "N says less");
    judged(changed(changed(card, GI_CONFIG_BLOCK_WORDS, 18), GI_CONFIG_PLACES, 2), 4, group,
           "another B and N of the same length");
}

static void configurations(void) {
    const char *group = "configuration";
    static const uint32_t formats[] = {0, 2, 3, 256, 0x01000000, UINT32_MAX};
    for (size_t i = 0; i < sizeof formats / sizeof *formats; i++)
        judged(changed(case1(), GI_CONFIG_FORMAT, formats[i]), 2, group, "unknown format");
    static const uint32_t sizes[] = {0, 1, 7, 1025, 65544, 0x80000008, UINT32_MAX};
    for (size_t i = 0; i < sizeof sizes / sizeof *sizes; i++)
        judged(changed(case1(), GI_CONFIG_BLOCK_WORDS, sizes[i]), 3, group, "B outside its limits");
    static const uint32_t places[] = {0, 1, 1025, 65540, 0x80000004, UINT32_MAX};
    for (size_t i = 0; i < sizeof places / sizeof *places; i++)
        judged(changed(case1(), GI_CONFIG_PLACES, places[i]), 3, group, "N outside its limits");
    static const uint32_t starts[] = {4, 5, 1024, 0x80000000, UINT32_MAX};
    for (size_t i = 0; i < sizeof starts / sizeof *starts; i++)
        judged(changed(case1(), GI_CONFIG_OLD_START, starts[i]), 3, group, "old start not below N");
    static const uint32_t old_lengths[] = {4, 5, 1024, 0x80000000, UINT32_MAX};
    for (size_t i = 0; i < sizeof old_lengths / sizeof *old_lengths; i++)
        judged(changed(case1(), GI_CONFIG_OLD_LENGTH, old_lengths[i]), 3, group, "old length above N - 1");

    judged(changed(wrapped(), GI_CONFIG_OLD_LENGTH, 3), 3, group, "lengths add to N");
    judged(changed(wrapped(), GI_CONFIG_OLD_LENGTH, UINT32_MAX), 3, group, "lengths whose sum wraps to 0");
    judged(changed(changed(wrapped(), GI_CONFIG_OLD_LENGTH, 2), GI_CONFIG_NEW_LENGTH, UINT32_MAX), 3, group,
           "lengths whose sum wraps to 1");
    judged(CARD(1, 8, 4, 0, 0x80000000, 0x80000000, 1, 1), 3, group, "two halves whose sum wraps");

    judged(changed(case1(), GI_CONFIG_BOUNDARY_TERM, 7), 3, group, "a boundary term with no pass open");
    judged(changed(case1(), GI_CONFIG_BOUNDARY_POSITION, 4), 3, group, "a boundary position with no pass open");
    judged(changed(case3_open(), GI_CONFIG_NEW_LENGTH, 0), 3, group, "a boundary with no pass open");
    judged(changed(case3_open(), GI_CONFIG_BOUNDARY_TERM, 0), 3, group, "boundary term 0 in a pass");
    judged(changed(case3_open(), GI_CONFIG_BOUNDARY_POSITION, 0), 3, group, "boundary position 0 in a pass");
    judged(CARD(1, 8, 4, 0, 0, 1, 0, 0), 3, group, "boundary 0 and 0 in a pass");
}

static void order(void) {
    const char *group = "order of the numbers";
    struct card card = CARD(2, 0, 4, 9, 9, 9, 0, 9);
    check_number(gi_judge(card.words, 7), 1, group, "short before the format");
    check_number(gi_judge(card.words, 20), 2, group, "format before B");
    card.words[GI_CONFIG_FORMAT] = 1;
    check_number(gi_judge(card.words, 20), 3, group, "B before the length");
    card.words[GI_CONFIG_BLOCK_WORDS] = 8;
    check_number(gi_judge(card.words, 20), 1, group, "length before old start");
    check_number(gi_judge(card.words, WORDS), 3, group, "old start");
    card.words[GI_CONFIG_OLD_START] = 0;
    check_number(gi_judge(card.words, WORDS), 3, group, "lengths");
    card.words[GI_CONFIG_OLD_LENGTH] = card.words[GI_CONFIG_NEW_LENGTH] = 1;
    check_number(gi_judge(card.words, WORDS), 3, group, "boundary before the blocks");
    card.words[GI_CONFIG_BOUNDARY_TERM] = 1;
    check_number(gi_judge(card.words, WORDS), 4, group, "blocks last");
}

/* Case 1's card with other words in its one block, the map made to fit. */
#define BLOCK(...) WITH(CARD(1, 8, 4, 0, 1, 0, 0, 0), 0, __VA_ARGS__)

static void blocks(void) {
    const char *group = "block";
    judged(BLOCK(0, 0, 0, 0, 0, 0, 0, 0), 4, group, "no entry");
    judged(BLOCK(0, 1, 1, 0, 0, 0, 0, 0), 4, group, "term 0 at the start");
    judged(BLOCK(5, 0, 1, 0, 0, 0, 0, 0), 4, group, "count 0");
    judged(BLOCK(5, 0, 7, 1, 4, 0, 0, 0), 4, group, "count 0 before another entry");
    judged(BLOCK(5, 1, 0, 0, 0, 0, 0, 0), 4, group, "position 0");
    judged(BLOCK(5, 2, 0, 9, 0, 0, 0, 0), 4, group, "position 0 first");
    judged(BLOCK(5, 2, 9, 9, 0, 0, 0, 0), 4, group, "a position twice");
    judged(BLOCK(5, 2, 9, 2, 0, 0, 0, 0), 4, group, "positions fall");
    judged(BLOCK(5, 3, 2, 9, 8, 0, 0, 0), 4, group, "the last position falls");
    judged(BLOCK(5, 6, 2, 3, 4, 5, 6, 6), 4, group, "the last position of a full block twice");
    judged(BLOCK(5, 3, 2, 9, 0, 0, 0, 0), 4, group, "a position missing");
    judged(BLOCK(5, 7, 1, 2, 3, 4, 5, 6), 4, group, "count one beyond the block");
    judged(BLOCK(5, 1, 2, 7, 4, 1, 2, 3), 4, group, "the second count one beyond the block");
    judged(BLOCK(5, UINT32_MAX, 1, 2, 3, 4, 5, 6), 4, group, "the highest count");
    judged(BLOCK(5, UINT32_MAX - 1, 1, 2, 3, 4, 5, 6), 4, group, "a count that wraps past the block's start");
    judged(BLOCK(5, 0x80000000, 1, 2, 3, 4, 5, 6), 4, group, "a count of 2^31");
    judged(BLOCK(5, 1, 2, 7, 0xfffffffb, 1, 2, 3), 4, group, "a second count that wraps to the start");
    judged(BLOCK(5, 1, 2, 5, 1, 3, 0, 0), 4, group, "a term twice");
    judged(BLOCK(5, 1, 2, 4, 1, 3, 0, 0), 4, group, "terms fall");
    judged(BLOCK(5, 1, 2, 0, 1, 3, 0, 0), 4, group, "words after the end");
    judged(BLOCK(5, 1, 2, 0, 0, 0, 0, 1), 4, group, "a last word after the end");
    judged(BLOCK(5, 4, 1, 2, 3, 4, 9, 0), 4, group, "two words left, the first not 0");
    judged(BLOCK(5, 4, 1, 2, 3, 4, 0, 9), 4, group, "two words left, the second not 0");
    judged(BLOCK(5, 2, 2, 9, 7, 1, 4, 8), 4, group, "one word left, not 0");
}

static void segments(void) {
    const char *group = "segment";
    judged(changed(case1(), map_word(0, 0), 4), 4, group, "the map's term");
    judged(changed(case1(), map_word(0, 1), 9), 4, group, "the map's position");
    judged(changed(case3(), map_word(2, 0), 7), 4, group, "the map's term of the last block");
    judged(changed(wrapped(), map_word(1, 1), 2), 4, group, "the map's position of a new block");
    judged(changed(wrapped(), map_word(2, 0), 0), 0, group, "the map of a free place");

    judged(WITH(case3(), 2, 7, 1, 4, 0, 0, 0, 0, 0), 4, group, "a pair again in the next block");
    judged(WITH(case3(), 2, 7, 1, 3, 0, 0, 0, 0, 0), 4, group, "a position that falls from block to block");
    judged(WITH(case3(), 2, 6, 1, 99, 0, 0, 0, 0, 0), 4, group, "a term that falls from block to block");
    judged(WITH(case3(), 2, 7, 1, 5, 0, 0, 0, 0, 0), 0, group, "a term that goes on in the next block");
    judged(WITH(wrapped(), 0, 3, 1, 1, 0, 0, 0, 0, 0), 4, group, "a pair again around the circle");
    judged(changed(wrapped(), place_word(0, 7), 1), 4, group, "the block after the circle's end");
    judged(changed(wrapped(), place_word(1, 7), 1), 4, group, "the new block");

    judged(changed(wrapped(), GI_CONFIG_BOUNDARY_TERM, 1), 4, group, "a boundary below the last new pair");
    judged(changed(wrapped(), GI_CONFIG_BOUNDARY_POSITION, 2), 4, group, "a boundary above the last new pair");
    judged(WITH(wrapped(), 3, 1, 1, 9, 2, 1, 1, 0, 0), 4, group, "first old block ends at the boundary");
    judged(WITH(wrapped(), 3, 1, 1, 9, 0, 0, 0, 0, 0), 4, group, "first old block ends below the boundary");
    judged(WITH(wrapped(), 3, 2, 1, 2, 0, 0, 0, 0, 0), 0, group, "first old block just above the boundary");

    struct card two_new = WITH(CARD(1, 8, 4, 2, 0, 2, 9, 1), 2, 5, 1, 1, 0, 0, 0, 0, 0);
    two_new = WITH(two_new, 3, 9, 1, 1, 0, 0, 0, 0, 0);
    judged(two_new, 0, group, "two new blocks");
    judged(WITH(two_new, 2, 9, 1, 1, 0, 0, 0, 0, 0), 4, group, "new blocks that do not rise");
    judged(changed(two_new, GI_CONFIG_BOUNDARY_TERM, 5), 4, group, "the first new block's last pair");
    judged(changed(two_new, GI_CONFIG_OLD_START, 1), 4, group, "a segment moved by one place");
}

/* ---- the formatter */

static bool all_unused(const uint32_t *words, size_t count) {
    for (size_t i = 0; i < count; i++)
        if (words[i] != UNUSED)
            return false;
    return true;
}

/* Formats memory of length words, with a word on either side that must stand. */
static void formatted(size_t length, uint32_t b, uint32_t n, uint32_t expected, const char *what) {
    const char *group = "format";
    uint32_t *memory = malloc((length + 2) * sizeof *memory);
    if (memory == NULL) {
        check(false, group, "memory for the card");
        return;
    }
    for (size_t i = 0; i < length + 2; i++)
        memory[i] = UNUSED;
    uint32_t *card = memory + 1;
    check_number(gi_format(card, length, b, n), expected, group, what);
    check(memory[0] == UNUSED, group, "the word before the card stands");
    if (expected == GI_DONE) {
        const uint32_t configuration[GI_CONFIG_WORDS] = {1, b, n, 0, 0, 0, 0, 0};
        check(memcmp(card, configuration, sizeof configuration) == 0, group, "the configuration words");
        check(all_unused(card + GI_CONFIG_WORDS, length + 1 - GI_CONFIG_WORDS), group, "all other words stand");
        check_number(gi_judge(card, length), 0, group, "a formatted card is sound");
    } else {
        check(all_unused(card, length + 1), group, "a refused format changes nothing");
    }
    free(memory);
}

static void formats(void) {
    formatted(48, 8, 4, 0, "8 and 4");
    formatted(28, 8, 2, 0, "the smallest card");
    formatted(8 + 2 * 1024 + 1024 * 8, 8, 1024, 0, "the most places of the smallest blocks");
    formatted(8 + 2 * 2 + 2 * 1024, 1024, 2, 0, "the fewest places of the largest blocks");
    formatted(GI_CARD_WORDS_MAX, 1024, 1024, 0, "the largest card");
    formatted(47, 8, 4, 1, "one word short");
    formatted(49, 8, 4, 1, "one word long");
    formatted(0, 8, 4, 1, "no words");
    formatted(7, 8, 4, 1, "seven words");
    formatted(8, 8, 4, 1, "eight words");
    formatted(GI_CARD_WORDS_MAX - 1, 1024, 1024, 1, "the largest card less one word");
    formatted(GI_CARD_WORDS_MAX + 1, 1024, 1024, 1, "the largest card and one word");
    formatted(8 + 2 * 4 + 4 * 7, 7, 4, 5, "B too small, the length to match");
    formatted(8 + 2 * 2 + 2 * 1025, 1025, 2, 5, "B too large, the length to match");
    formatted(8 + 2 + 8, 8, 1, 5, "N too small, the length to match");
    formatted(8 + 2 * 1025 + 1025 * 8, 8, 1025, 5, "N too large, the length to match");
    formatted(8, 8, 0, 5, "N 0, the length to match");
    formatted(16, 0, 4, 5, "B 0, the length to match");
    formatted(0, 7, 4, 5, "limits before the length");
    formatted(48, 8, UINT32_MAX, 5, "the highest N");
    formatted(48, UINT32_MAX, 4, 5, "the highest B");
    formatted(48, UINT32_MAX, UINT32_MAX, 5, "the highest B and N");
    formatted(48, 65544, 4, 5, "B whose low half would do");
    formatted(48, 8, 65540, 5, "N whose low half would do");

    struct card used = wrapped();
    struct card before = used;
    check_number(gi_format(used.words, WORDS, 8, 5), 1, "format", "a used card, refused");
    check(memcmp(used.words, before.words, sizeof before.words) == 0, "format", "the used card stands");
    check_number(gi_format(used.words, WORDS, 8, 4), 0, "format", "a used card");
    check(memcmp(used.words + GI_CONFIG_WORDS, before.words + GI_CONFIG_WORDS,
                 (WORDS - GI_CONFIG_WORDS) * sizeof(uint32_t)) == 0,
          "format", "the used card's other words stand");
}

static void largest(void) {
    const char *group = "largest card";
    uint32_t *card = largest_card(2);
    check(card != NULL, group, "memory for the card");
    if (card == NULL)
        return;
    check(gi_card_words(1024, 1024) == GI_CARD_WORDS_MAX, group, "its length");
    uint32_t *last = largest_block(card, LARGEST_LIVE - 1);
    uint32_t *free_place = largest_block(card, LARGEST_LIVE);
    check_number(gi_judge(card, GI_CARD_WORDS_MAX), 0, group, "sound");
    free_place[1023] = 1;
    check_number(gi_judge(card, GI_CARD_WORDS_MAX), 0, group, "a word in the free place");
    last[1023] = 1;
    check_number(gi_judge(card, GI_CARD_WORDS_MAX), 4, group, "the last word of the last block");
    last[1023] = 0;
    card[GI_CONFIG_OLD_LENGTH] = 1024;
    check_number(gi_judge(card, GI_CARD_WORDS_MAX), 3, group, "no place free");
    free(card);
}

void test_format_judge(void) {
    sound_cards();
    two_places();
    lengths();
    configurations();
    order();
    blocks();
    segments();
    formats();
    largest();
}
