/* Tests of gi_lookup, gi_lookup_all, gi_read and gi_run_view: the small cases with every figure,
 * open passes, the counts of blocks, and the refusals. */
#include "small_cards.h"

/* Positions as two arguments: the words and their number. */
#define FOUND(...) (const uint32_t[]){__VA_ARGS__}, sizeof((uint32_t[]){__VA_ARGS__}) / sizeof(uint32_t)
#define NONE (const uint32_t[]){UNUSED}, 0

/* Answer words with a word on either side, all of them unused. */
static uint32_t *new_answer(size_t length, const char *group) {
    uint32_t *memory = malloc((length + 2) * sizeof *memory);
    check(memory != NULL, group, "memory for the answer");
    for (size_t i = 0; memory != NULL && i < length + 2; i++)
        memory[i] = UNUSED;
    return memory;
}

/* Whether the first answer words are these positions and all others are unused. */
static bool holds(const uint32_t *memory, size_t length, const uint32_t *positions, size_t count) {
    bool as_expected = memory[0] == UNUSED;
    for (size_t i = 0; i <= length; i++)
        as_expected = as_expected && memory[1 + i] == (i < count ? positions[i] : UNUSED);
    return as_expected;
}

/* Looks up a range of a term, or all of it, with an answer of some words, and sees
 * that the number, the counts and every word lent are as expected. */
static void ask_as(bool all, struct card card, size_t length, uint32_t term, uint32_t from, uint32_t to,
                   size_t answer_length, uint32_t number, const uint32_t *positions, size_t count, uint32_t blocks,
                   const char *group, const char *what) {
    uint32_t *memory = new_answer(answer_length, group);
    if (memory == NULL)
        return;
    struct card before = card;
    uint32_t found = UNUSED;
    uint32_t blocks_read = UNUSED;
    check_number(all ? gi_lookup_all(card.words, length, term, memory + 1, answer_length, &found, &blocks_read)
                     : gi_lookup(card.words, length, term, from, to, memory + 1, answer_length, &found, &blocks_read),
                 number, group, what);
    check_number(found, (uint32_t)count, group, what);
    check_number(blocks_read, blocks, group, what);
    check(holds(memory, answer_length, positions, count), group, what);
    check(memcmp(card.words, before.words, sizeof before.words) == 0, group, "the lookup wrote nothing to the card");
    free(memory);
}

/* Looks up a range; where it is that of all positions, all of the term as well. */
static void ask(struct card card, size_t length, uint32_t term, uint32_t from, uint32_t to, size_t answer_length,
                uint32_t number, const uint32_t *positions, size_t count, uint32_t blocks, const char *group,
                const char *what) {
    ask_as(false, card, length, term, from, to, answer_length, number, positions, count, blocks, group, what);
    if (from == GI_LOWEST && to == GI_HIGHEST)
        ask_as(true, card, length, term, from, to, answer_length, number, positions, count, blocks, group, what);
}

/* The same of a reading. */
static void take(struct card card, size_t length, uint32_t term, uint32_t from, uint32_t to, size_t answer_length,
                 uint32_t number, const uint32_t *positions, size_t count, const char *group, const char *what) {
    uint32_t *memory = new_answer(answer_length, group);
    if (memory == NULL)
        return;
    struct card before = card;
    size_t found = UNUSED;
    check_number(gi_read(card.words, length, term, from, to, memory + 1, answer_length, &found), number, group, what);
    check(found == count && holds(memory, answer_length, positions, count), group, what);
    check(memcmp(card.words, before.words, sizeof before.words) == 0, group, "the reading wrote nothing to the card");
    free(memory);
}

/* The same of a run view. */
static void view(struct card card, size_t length, uint32_t term, uint32_t from, uint32_t to, uint32_t number,
                 size_t start, size_t count, const char *group, const char *what) {
    size_t at = UNUSED;
    size_t found = UNUSED;
    check_number(gi_run_view(card.words, length, term, from, to, &at, &found), number, group, what);
    check(at == start && found == count, group, what);
}

/* A question that is answered, with just enough answer words, one more and many;
 * with one too few the lookup is refused, and the reading gives the first. */
static void found(struct card card, uint32_t term, uint32_t from, uint32_t to, const uint32_t *positions, size_t count,
                  uint32_t blocks, const char *group, const char *what) {
    const size_t enough[] = {count, count + 1, WORDS};
    for (int i = 0; i < 3; i++) {
        ask(card, WORDS, term, from, to, enough[i], GI_DONE, positions, count, blocks, group, what);
        take(card, WORDS, term, from, to, enough[i], GI_DONE, positions, count, group, what);
    }
    for (size_t fewer = 0; fewer < count; fewer++) {
        ask(card, WORDS, term, from, to, fewer, GI_LOOKUP_ANSWER, NONE, 0, group, "fewer answer words");
        take(card, WORDS, term, from, to, fewer, GI_DONE, positions, fewer, group, "fewer answer words");
    }
}

static void small_cases(void) {
    found(case1(), 5, 1, 9, FOUND(2, 9), 1, "case 7", "5 from 1 to 9");
    found(case1(), 5, 3, 8, NONE, 1, "case 7", "5 from 3 to 8");
    found(case1(), 4, 1, 9, NONE, 0, "case 8", "4 from 1 to 9");
    found(case1(), 6, 1, 9, NONE, 1, "case 8", "6 from 1 to 9");
}

static void ranges(void) {
    const char *group = "range";
    found(case1(), 5, 2, 2, FOUND(2), 1, group, "the first position alone");
    found(case1(), 5, 9, 9, FOUND(9), 1, group, "the last position alone");
    found(case1(), 5, 1, 2, FOUND(2), 1, group, "up to the first position");
    found(case1(), 5, 1, 1, NONE, 0, group, "up to below the first position");
    found(case1(), 5, 3, 9, FOUND(9), 1, group, "above the first position");
    found(case1(), 5, 10, UINT32_MAX, NONE, 1, group, "above the last position");
    found(case1(), 5, GI_LOWEST, GI_HIGHEST, FOUND(2, 9), 1, group, "all of the first term");
    found(case1(), 7, GI_LOWEST, GI_HIGHEST, FOUND(4), 1, group, "all of the last term");
    found(case1(), 1, GI_LOWEST, GI_HIGHEST, NONE, 0, group, "the lowest term");
    found(case1(), UINT32_MAX, GI_LOWEST, GI_HIGHEST, NONE, 1, group, "the highest term");
    found(CARD(1, 8, 4, 2, 0, 0, 0, 0), 5, GI_LOWEST, GI_HIGHEST, NONE, 0, group, "an empty index");
    struct card ends = WITH(CARD(1, 8, 4, 3, 1, 0, 0, 0), 3, 1, 1, 1, UINT32_MAX, 1, UINT32_MAX, 0, 0);
    found(ends, 1, GI_LOWEST, GI_HIGHEST, FOUND(1), 1, group, "the lowest pair");
    found(ends, UINT32_MAX, GI_LOWEST, GI_HIGHEST, FOUND(UINT32_MAX), 1, group, "the highest pair");
    found(ends, UINT32_MAX, UINT32_MAX, UINT32_MAX, FOUND(UINT32_MAX), 1, group, "the highest pair alone");
}

static void many_blocks(void) {
    const char *group = "several blocks";
    found(case3(), 5, 1, 9, FOUND(2, 9), 1, group, "in the first of two");
    found(case3(), 7, 1, 9, FOUND(4), 1, group, "last in the first of two");
    found(case3(), 8, 1, 9, FOUND(1), 1, group, "in the second of two");
    found(case3(), 8, 2, 9, NONE, 1, group, "beyond the second of two");

    struct card card = three_blocks();
    found(card, 6, GI_LOWEST, GI_HIGHEST, FOUND(1, 2, 3, 4, 5, 6, 7, 8, 9, 10, 11, 12, 13), 3, group,
          "a term over three");
    found(card, 6, 6, 7, FOUND(6, 7), 2, group, "the end of one and the start of the next");
    found(card, 6, 7, 12, FOUND(7, 8, 9, 10, 11, 12), 1, group, "the one in the middle");
    found(card, 6, 8, 13, FOUND(8, 9, 10, 11, 12, 13), 2, group, "from the middle around the circle");
    found(card, 6, 13, 13, FOUND(13), 1, group, "the last position");
    found(card, 6, 14, 99, NONE, 1, group, "beyond the last position");
    found(card, 9, 1, 9, FOUND(1), 1, group, "a term within the last block");
    found(card, 5, 1, 99, NONE, 0, group, "a term before all");
    found(card, 7, 1, 99, NONE, 1, group, "a term that is not there");
}

/* Pairs up to the boundary come from the new segment, others from the old. */
static void open_pass(void) {
    const char *group = "an open pass";
    found(wrapped(), 1, 1, 9, FOUND(1, 2), 1, group, "a term of the new segment");
    found(wrapped(), 2, 1, 9, FOUND(1, 5), 2, group, "a term of both, the boundary once");
    found(wrapped(), 2, GI_LOWEST, GI_HIGHEST, FOUND(1, 5), 2, group, "all of a term of both");
    found(wrapped(), 2, 1, 1, FOUND(1), 2, group, "the boundary alone");
    found(wrapped(), 2, 2, 9, FOUND(5), 2, group, "above the boundary");
    found(wrapped(), 3, 1, 9, FOUND(1), 2, group, "a term of the old segment");
    found(wrapped(), 4, 1, 9, FOUND(9), 3, group, "a term of the old segment around the circle");
    found(wrapped(), 4, 9, 9, FOUND(9), 2, group, "it alone");
    found(wrapped(), 4, 1, 8, NONE, 2, group, "below it");

    /* the old block still holds (1,1) and (2,1), which the batch has removed */
    struct card card = WITH(CARD(1, 8, 4, 0, 1, 1, 2, 3), 0, 1, 1, 1, 2, 3, 1, 3, 4);
    card = WITH(card, 1, 2, 1, 3, 0, 0, 0, 0, 0);
    found(card, 1, 1, 9, NONE, 1, group, "a pair removed below the boundary");
    found(card, 2, 1, 9, FOUND(3, 4), 2, group, "a removed pair of the boundary's term");
}

/* The boundary within an entry, at the highest position, and under the terms beside. */
static void boundaries(void) {
    const char *group = "boundary";
    struct card card = WITH(CARD(1, 8, 4, 0, 1, 1, 2, 5), 0, 2, 6, 1, 3, 5, 7, 9, 11);
    card = WITH(card, 1, 2, 2, 2, 5, 0, 0, 0, 0);
    found(card, 2, GI_LOWEST, GI_HIGHEST, FOUND(2, 5, 7, 9, 11), 2, group, "all on both sides");
    found(card, 2, 1, 1, NONE, 1, group, "an old position below it");
    found(card, 2, 1, 4, FOUND(2), 2, group, "new positions below it");
    found(card, 2, 3, 6, FOUND(5), 2, group, "from an old position to between two");
    found(card, 2, 5, 5, FOUND(5), 2, group, "itself");
    found(card, 2, 5, 7, FOUND(5, 7), 2, group, "itself and the next");
    found(card, 2, 6, 6, NONE, 2, group, "just above it");
    found(card, 2, 6, 9, FOUND(7, 9), 2, group, "from just above it");
    found(card, 2, 8, 10, FOUND(9), 2, group, "between two and between the next two");
    found(card, 2, 11, 11, FOUND(11), 2, group, "the last position");
    found(card, 2, 12, UINT32_MAX, NONE, 2, group, "above the last position");

    card = WITH(CARD(1, 8, 4, 0, 1, 1, 2, UINT32_MAX), 0, 2, 2, 3, UINT32_MAX, 3, 1, 1, 0);
    card = WITH(card, 1, 2, 2, 4, UINT32_MAX, 0, 0, 0, 0);
    found(card, 2, GI_LOWEST, GI_HIGHEST, FOUND(4, UINT32_MAX), 2, group, "all up to the highest");
    found(card, 2, UINT32_MAX, UINT32_MAX, FOUND(UINT32_MAX), 2, group, "the highest alone");
    found(card, 3, GI_LOWEST, GI_HIGHEST, FOUND(1), 2, group, "behind the highest of the term before");

    card = WITH(CARD(1, 8, 4, 0, 1, 1, 1, 9), 0, 1, 1, 9, 2, 2, 3, 4, 0);
    card = WITH(card, 1, 1, 1, 9, 0, 0, 0, 0, 0);
    found(card, 2, 1, 8, FOUND(3, 4), 2, group, "a higher position of the term before");
    found(card, 1, GI_LOWEST, GI_HIGHEST, FOUND(9), 2, group, "once");

    card = WITH(CARD(1, 8, 4, 0, 1, 1, 3, 1), 0, 2, 2, 1, 2, 3, 1, 2, 0);
    card = WITH(card, 1, 3, 1, 1, 0, 0, 0, 0, 0);
    found(card, 2, GI_LOWEST, GI_HIGHEST, NONE, 1, group, "a lower position of the next term");
    found(card, 3, GI_LOWEST, GI_HIGHEST, FOUND(1, 2), 2, group, "the next term");
}

/* What a pass shows while it goes on, from case 1 to case 3. */
static void during_a_pass(void) {
    const char *group = "during a pass";
    const uint32_t batch[] = {ADDED(8, 1, 1)};
    struct card card = case1();
    for (int step = 1; step <= 6; step++) {
        uint32_t write;
        uint32_t freed;
        uint32_t finished;
        check_number(gi_step(card.words, WORDS, batch, GI_RECORD_WORDS, &write, &freed, &finished), GI_DONE, group,
                     "the step");
        found(card, 5, 1, 99, FOUND(2, 9), 1, group, "5");
        found(card, 7, 1, 99, FOUND(4), 1, group, "7");
        if (step < 6)
            found(card, 8, 1, 99, NONE, 1, group, "8 before its end");
        else
            found(card, 8, 1, 99, FOUND(1), 1, group, "8 at its end");
    }
}

/* The positions of the first block that has any, new segment before old. */
static void run_views(void) {
    const char *group = "run view";
    view(case1(), WORDS, 5, 1, 9, GI_DONE, place_word(0, 2), 2, group, "both positions of a term");
    view(case1(), WORDS, 5, 3, 9, GI_DONE, place_word(0, 3), 1, group, "the last of them");
    view(case1(), WORDS, 5, 1, 8, GI_DONE, place_word(0, 2), 1, group, "the first of them");
    view(case1(), WORDS, 7, 1, 9, GI_DONE, place_word(0, 6), 1, group, "the second entry");
    view(case1(), WORDS, 6, 1, 9, GI_DONE, 0, 0, group, "a term that is not there");
    view(case3(), WORDS, 8, 1, 9, GI_DONE, place_word(2, 2), 1, group, "in the second of two blocks");
    view(wrapped(), WORDS, 2, 1, 9, GI_DONE, place_word(1, 6), 1, group, "new segment before old");
    view(wrapped(), WORDS, 2, 2, 9, GI_DONE, place_word(3, 3), 1, group, "the old segment above the boundary");
    view(wrapped(), WORDS, 4, 1, 9, GI_DONE, place_word(0, 2), 1, group, "the old segment around the circle");
}

/* Terms of three pairs, each in a block of its own. */
static void largest(void) {
    const char *group = "lookup on the largest card";
    uint32_t *card = largest_card(3);
    check(card != NULL, group, "memory for the card");
    if (card == NULL)
        return;
    for (uint32_t term = 1; term <= LARGEST_LIVE / 3; term++) {
        uint32_t answer[4] = {UNUSED, UNUSED, UNUSED, UNUSED};
        uint32_t count;
        uint32_t blocks;
        check_number(gi_lookup(card, GI_CARD_WORDS_MAX, term, 1, 9, answer, 4, &count, &blocks), GI_DONE, group,
                     "not refused");
        check(count == 3 && answer[0] == 1 && answer[1] == 2 && answer[2] == 3 && answer[3] == UNUSED, group,
              "three positions");
        check_number(blocks, 3, group, "three blocks");
        check_number(gi_lookup(card, GI_CARD_WORDS_MAX, term, 2, 2, answer, 1, &count, &blocks), GI_DONE, group,
                     "not refused");
        check(count == 1 && answer[0] == 2 && blocks == 1, group, "one position in one block");
    }
    free(card);
}

/* ---- long answers, lent at every shift from a multiple of 32 bytes */

enum { SHIFTS = 8, GUARDS = 64, LONG_N = 2, LONGEST = 1022, LONG_MEMORY = GUARDS + SHIFTS + 2100 + GUARDS };

/* A card of two places: in the last, at the end of the card, the positions 10, 20 and so on of term
 * 5, maybe behind an entry of one position and before another. Gives its length. */
static size_t long_card(uint32_t *words, uint32_t block_words, uint32_t count, bool among_others) {
    size_t length = GI_CONFIG_WORDS + LONG_N * (GI_MAP_ENTRY_WORDS + (size_t)block_words);
    const uint32_t configuration[GI_CONFIG_WORDS] = {1, block_words, LONG_N, 1, 1, 0, 0, 0};
    memcpy(words, configuration, sizeof configuration);
    uint32_t *block = words + length - block_words;
    memset(block, 0, block_words * sizeof *block);
    uint32_t *next = block;
    if (among_others) {
        *next++ = 3;
        *next++ = 1;
        *next++ = 9;
    }
    *next++ = 5;
    *next++ = count;
    for (uint32_t k = 1; k <= count; k++)
        *next++ = 10 * k;
    if (among_others) {
        *next++ = 20000;
        *next++ = 1;
        *next++ = 30000;
    }
    words[GI_CONFIG_WORDS + 2] = block[0];
    words[GI_CONFIG_WORDS + 3] = block[2];
    return length;
}

/* Whether the memory holds 10 x first and so on at its place, and guards everywhere else. */
static bool holds_tens(const uint32_t *memory, size_t start, uint32_t first, size_t count) {
    bool as_expected = true;
    for (size_t i = 0; i < LONG_MEMORY; i++) {
        bool inside = i >= start && i < start + count;
        as_expected =
            as_expected && memory[i] == (inside ? 10 * (first + (uint32_t)(i - start)) : UNUSED - (uint32_t)i);
    }
    return as_expected;
}

static void make_guards(uint32_t *memory) {
    for (size_t i = 0; i < LONG_MEMORY; i++)
        memory[i] = UNUSED - (uint32_t)i;
}

/* Asks for so many positions of the long entry from the first on, counted from 1; with just as many
 * answer words, one more, several more, and one less. */
static void tens(uint32_t block_words, uint32_t entry, bool among_others, uint32_t first, uint32_t count, size_t shift,
                 size_t answer_shift, const char *what) {
    static _Alignas(32) uint32_t card[LONG_MEMORY];
    static _Alignas(32) uint32_t before[LONG_MEMORY];
    static _Alignas(32) uint32_t answer[LONG_MEMORY];
    const char *group = "a long answer";
    const size_t start = GUARDS + answer_shift;
    /* at the first and last position, or beyond them as far as no other comes in */
    const bool exact = count > 0 && shift % 2 == 1;
    const uint32_t from = exact ? 10 * first : 10 * first - 9;
    const uint32_t to = exact ? 10 * (first + count - 1) : 10 * (first + count) - 1;
    make_guards(card);
    make_guards(answer);
    size_t length = long_card(card + GUARDS + shift, block_words, entry, among_others);
    memcpy(before, card, sizeof card);
    const size_t rooms[] = {count, count + 1, count + 19, count - 1};
    for (int i = 0; i < (count > 0 ? 4 : 3); i++) {
        bool enough = rooms[i] >= count;
        uint32_t taken = UNUSED;
        uint32_t blocks = UNUSED;
        uint32_t number =
            gi_lookup(card + GUARDS + shift, length, 5, from, to, answer + start, rooms[i], &taken, &blocks);
        check_number(number, enough ? GI_DONE : GI_LOOKUP_ANSWER, group, what);
        check(taken == (enough ? count : 0) && blocks == (enough ? 1 : 0), group, what);
        check(holds_tens(answer, start, first, enough ? count : 0), group, what);
        make_guards(answer);
        if (first == 1 && count == entry) {
            taken = blocks = UNUSED;
            number = gi_lookup_all(card + GUARDS + shift, length, 5, answer + start, rooms[i], &taken, &blocks);
            check_number(number, enough ? GI_DONE : GI_LOOKUP_ANSWER, group, what);
            check(taken == (enough ? count : 0) && blocks == (enough ? 1 : 0), group, what);
            check(holds_tens(answer, start, first, enough ? count : 0), group, what);
            make_guards(answer);
        }
        size_t read = UNUSED;
        number = gi_read(card + GUARDS + shift, length, 5, from, to, answer + start, rooms[i], &read);
        check(number == GI_DONE && read == (enough ? count : count - 1), group, what);
        check(holds_tens(answer, start, first, read), group, what);
        make_guards(answer);
    }
    check(memcmp(card, before, sizeof card) == 0, group, "nothing was written to the card and around it");
}

static void long_answers(void) {
    static const struct {
        uint32_t first;
        uint32_t count;
    } parts[] = {{1, 1},  {1, 3},  {1, 4},  {1, 8},   {1, 70},  {2, 7},   {2, 8},  {2, 9},
                 {3, 15}, {4, 16}, {5, 17}, {8, 31},  {9, 32},  {10, 33}, {7, 63}, {6, 64},
                 {5, 65}, {16, 0}, {70, 1}, {39, 32}, {55, 16}, {63, 8},  {67, 4}};
    for (size_t i = 0; i < sizeof parts / sizeof *parts; i++)
        for (size_t shift = 0; shift < SHIFTS; shift++) {
            size_t other = (3 * shift + i) % SHIFTS;
            tens(72, 70, false, parts[i].first, parts[i].count, shift, other, "the entry fills its block");
            tens(80, 70, true, parts[i].first, parts[i].count, shift, other, "the entry stands among others");
        }
    for (size_t shift = 0; shift < SHIFTS; shift++) {
        tens(1024, LONGEST, false, 1, LONGEST, shift, (shift + 3) % SHIFTS, "all of a full block");
        tens(1024, LONGEST, false, 1, LONGEST - 1, shift, (shift + 5) % SHIFTS, "all but the last of it");
        tens(1024, LONGEST, false, 2, LONGEST - 1, shift, shift, "all but the first of it");
    }
}

/* ---- refusals */

static void refused(struct card card, size_t length, uint32_t term, uint32_t from, uint32_t to, uint32_t number,
                    const char *what) {
    ask(card, length, term, from, to, 0, number, NONE, 0, "refused lookup", what);
    ask(card, length, term, from, to, 8, number, NONE, 0, "refused lookup", what);
    take(card, length, term, from, to, 0, number, NONE, "refused reading", what);
    take(card, length, term, from, to, 8, number, NONE, "refused reading", what);
    view(card, length, term, from, to, number, 0, 0, "refused run view", what);
}

static void refusals(void) {
    refused(case1(), WORDS, 0, 1, 9, 9, "term 0");
    refused(case1(), WORDS, 5, 0, 9, 9, "from 0");
    refused(case1(), WORDS, 5, 0, 0, 9, "from 0 to 0");
    refused(case1(), WORDS, 5, 1, 0, 9, "to 0");
    refused(case1(), WORDS, 5, 9, 8, 9, "from above to");
    refused(case1(), WORDS, 5, UINT32_MAX, 1, 9, "from the highest to the lowest");
    refused(case1(), WORDS, 0, 0, 0, 9, "all 0");
    refused(case1(), WORDS, 0, GI_LOWEST, GI_HIGHEST, 9, "all of term 0");
    refused(CARD(1, 8, 4, 0, 0, 0, 0, 0), WORDS, 0, 1, 9, 9, "term 0 of an empty index");
    for (size_t length = 0; length < WORDS; length += 5) {
        refused(case1(), length, 0, 1, 9, 1, "1 before 9");
        refused(case1(), length, 0, GI_LOWEST, GI_HIGHEST, 1, "1 before 9, all of a term");
    }
    refused(changed(case1(), GI_CONFIG_FORMAT, 0), WORDS, 0, GI_LOWEST, GI_HIGHEST, 2, "2 before 9, all of a term");
    refused(changed(case1(), GI_CONFIG_BLOCK_WORDS, 7), WORDS, 5, GI_LOWEST, GI_HIGHEST, 3, "3, all of a term");
    refused(changed(case1(), map_word(0, 0), 4), WORDS, 5, GI_LOWEST, GI_HIGHEST, 4, "4, all of a term");
    refused(changed(case1(), GI_CONFIG_FORMAT, 0), WORDS, 0, 1, 9, 2, "2 before 9");
    refused(changed(case1(), GI_CONFIG_BLOCK_WORDS, 7), WORDS, 5, 9, 8, 3, "3 before 9");
    refused(changed(case1(), GI_CONFIG_BOUNDARY_TERM, 7), WORDS, 5, 1, 9, 3, "3, a good question");
    refused(changed(case1(), map_word(0, 0), 4), WORDS, 5, 0, 9, 4, "4 before 9");
    refused(changed(case1(), place_word(0, 7), 1), WORDS, 5, 1, 9, 4, "4, a good question");
}

void test_lookup(void) {
    small_cases();
    ranges();
    many_blocks();
    open_pass();
    boundaries();
    during_a_pass();
    run_views();
    largest();
    long_answers();
    refusals();
}
