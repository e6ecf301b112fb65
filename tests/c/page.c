/* Tests of gi_page and gi_page_bytes: pages with every byte written out, the memory around them, and
 * the refusals. */
#include "small_cards.h"

/* What stands in the memory and around it before a page is written: no byte of a page. */
enum { UNUSED_BYTE = 0xa5, AROUND = GI_PAGE_LINE_BYTES };

/* Whether the memory begins with the text and all other bytes, also those around it, are unused. */
static bool holds(const uint8_t *memory, size_t length, const char *text) {
    size_t bytes = strlen(text);
    bool as_expected = memcmp(memory + AROUND, text, bytes) == 0;
    for (size_t i = 0; i < length + 2 * AROUND; i++)
        as_expected = as_expected && (memory[i] == UNUSED_BYTE || (i >= AROUND && i < AROUND + bytes));
    return as_expected;
}

/* Asks for a page in a memory of some bytes, and sees that the number, the lines and every byte are
 * as expected. */
static void ask_of(const uint32_t *card, size_t length, uint32_t term, uint32_t from, uint32_t to, size_t page_length,
                   uint32_t number, const char *text, const char *group, const char *what) {
    uint8_t *memory = malloc(page_length + 2 * AROUND);
    check(memory != NULL, group, "memory for the page");
    if (memory == NULL)
        return;
    memset(memory, UNUSED_BYTE, page_length + 2 * AROUND);
    uint32_t lines = UNUSED;
    check_number(gi_page(card, length, term, from, to, memory + AROUND, page_length, &lines), number, group, what);
    check_number(lines, (uint32_t)(strlen(text) / GI_PAGE_LINE_BYTES), group, what);
    check(holds(memory, page_length, text), group, what);
    free(memory);
}

static void ask(struct card card, size_t length, uint32_t term, uint32_t from, uint32_t to, size_t page_length,
                uint32_t number, const char *text, const char *group, const char *what) {
    struct card before = card;
    ask_of(card.words, length, term, from, to, page_length, number, text, group, what);
    check(memcmp(card.words, before.words, sizeof before.words) == 0, group, "the page wrote nothing to the card");
}

/* A page with just enough memory, with more, and with every smaller one, which is refused. */
static void printed(struct card card, uint32_t term, uint32_t from, uint32_t to, const char *text, const char *group,
                    const char *what) {
    const size_t enough[] = {strlen(text), strlen(text) + 1, strlen(text) + GI_PAGE_LINE_BYTES, gi_page_bytes(WORDS)};
    for (int i = 0; i < 4; i++)
        ask(card, WORDS, term, from, to, enough[i], GI_DONE, text, group, what);
    for (size_t fewer = 0; fewer < strlen(text); fewer++)
        ask(card, WORDS, term, from, to, fewer, GI_PAGE_MEMORY, "", group, "fewer bytes");
}

static void small_cases(void) {
    printed(case1(), 5, 1, 9, "         5          2          9                                 \n", "case 7",
            "5 from 1 to 9");
    printed(case1(), 5, 3, 8, "", "case 7", "5 from 3 to 8");
    printed(case1(), 4, 1, 9, "", "case 8", "4 from 1 to 9");
    printed(case1(), 6, 1, 9, "", "case 8", "6 from 1 to 9");
    printed(CARD(1, 8, 4, 2, 0, 0, 0, 0), 5, GI_LOWEST, GI_HIGHEST, "", "a page", "an empty index");
}

/* Pages that end anywhere in a line, of a term over three blocks around the circle. */
static void positions_of_pages(void) {
    const char *group = "positions of a page";
    printed(three_blocks(), 6, 13, 99, "         6         13                                            \n", group,
            "one");
    printed(three_blocks(), 6, 1, 4, "         6          1          2          3          4           \n", group,
            "four");
    printed(three_blocks(), 6, 5, 9, "         6          5          6          7          8          9\n", group,
            "five");
    printed(three_blocks(), 6, 1, 6,
            "         6          1          2          3          4          5\n"
            "                    6                                            \n",
            group, "six");
    printed(three_blocks(), 6, 2, 10,
            "         6          2          3          4          5          6\n"
            "                    7          8          9         10           \n",
            group, "nine");
    printed(three_blocks(), 6, 1, 10,
            "         6          1          2          3          4          5\n"
            "                    6          7          8          9         10\n",
            group, "ten");
    printed(three_blocks(), 6, 3, GI_HIGHEST,
            "         6          3          4          5          6          7\n"
            "                    8          9         10         11         12\n"
            "                   13                                            \n",
            group, "eleven");
    printed(three_blocks(), 9, 1, 9, "         9          1                                            \n", group,
            "the term behind it");
}

/* Pairs up to the boundary come from the new segment, others from the old. */
static void open_pass(void) {
    const char *group = "a page in an open pass";
    printed(wrapped(), 1, 1, 9, "         1          1          2                                 \n", group, "new");
    printed(wrapped(), 2, 1, 9, "         2          1          5                                 \n", group, "both");
    printed(wrapped(), 4, 1, 9, "         4          9                                            \n", group, "old");

    /* the old segment still holds (6,3), which the batch has removed, and the boundary (6,6) */
    struct card card = WITH(CARD(1, 8, 4, 3, 2, 1, 6, 6), 3, 6, 6, 3, 6, 7, 8, 9, 10);
    card = WITH(WITH(card, 0, 6, 2, 11, 12, 0, 0, 0, 0), 1, 6, 5, 1, 2, 4, 5, 6, 0);
    printed(card, 6, GI_LOWEST, GI_HIGHEST,
            "         6          1          2          4          5          6\n"
            "                    7          8          9         10         11\n"
            "                   12                                            \n",
            group, "over three blocks");
}

/* The least and the greatest number of each number of digits, as positions and as terms. */
static void digits(void) {
    const char *group = "digits";
    struct card card = WITH(CARD(1, 8, 4, 1, 3, 0, 0, 0), 1, UINT32_MAX, 6, 9, 10, 99, 100, 999, 1000);
    card = WITH(card, 2, UINT32_MAX, 6, 9999, 10000, 99999, 100000, 999999, 1000000);
    card = WITH(card, 3, UINT32_MAX, 6, 9999999, 10000000, 99999999, 100000000, 999999999, 1000000000);
    printed(card, UINT32_MAX, GI_LOWEST, GI_HIGHEST,
            "4294967295          9         10         99        100        999\n"
            "                 1000       9999      10000      99999     100000\n"
            "               999999    1000000    9999999   10000000   99999999\n"
            "            100000000  999999999 1000000000                      \n",
            group, "positions");

    static const char *const columns[] = {"         1", "         9", "        10", "        99", "       100",
                                          "       999", "      1000", "      9999", "     10000", "     99999",
                                          "    100000", "    999999", "   1000000", "   9999999", "  10000000",
                                          "  99999999", " 100000000", " 999999999", "1000000000", "4294967295"};
    for (size_t i = 0; i < sizeof columns / sizeof columns[0]; i++) {
        uint32_t number = (uint32_t)strtoul(columns[i], NULL, 10);
        char line[GI_PAGE_LINE_BYTES + 1];
        snprintf(line, sizeof line, "%s %s%44s\n", columns[i], columns[i], "");
        card = WITH(CARD(1, 8, 4, 2, 1, 0, 0, 0), 2, number, 1, number, 0, 0, 0, 0, 0);
        ask(card, WORDS, number, number, number, GI_PAGE_LINE_BYTES, GI_DONE, line, group, columns[i]);
    }
}

/* One term with a position in each of the 1,023 live places of the largest card. */
static void largest(void) {
    const char *group = "a page of the largest card";
    uint32_t *card = largest_card(LARGEST_LIVE);
    size_t bytes = gi_page_bytes(LARGEST_LIVE);
    char *text = malloc(bytes + 1);
    check(card != NULL && text != NULL, group, "memory for the card and its page");
    if (card != NULL && text != NULL) {
        char *end = text;
        for (uint32_t position = 1; position <= 1020; position += 5)
            end += sprintf(end, "%10s %10" PRIu32 " %10" PRIu32 " %10" PRIu32 " %10" PRIu32 " %10" PRIu32 "\n",
                           position == 1 ? "1" : "", position, position + 1, position + 2, position + 3, position + 4);
        strcpy(end, "                 1021       1022       1023                      \n");
        ask_of(card, GI_CARD_WORDS_MAX, 1, GI_LOWEST, GI_HIGHEST, bytes, GI_DONE, text, group, "205 lines");
        ask_of(card, GI_CARD_WORDS_MAX, 1, GI_LOWEST, GI_HIGHEST, bytes - 1, GI_PAGE_MEMORY, "", group, "a byte fewer");
    }
    free(text);
    free(card);
}

static void bytes_of_pages(void) {
    static const size_t expected[] = {0, 66, 66, 66, 66, 66, 132, 132, 132, 132, 132, 198};
    for (size_t positions = 0; positions < sizeof expected / sizeof expected[0]; positions++)
        check(gi_page_bytes(positions) == expected[positions], "the bytes of a page", "up to 11 positions");
    check(gi_page_bytes(LARGEST_LIVE) == 205 * 66, "the bytes of a page", "1,023 positions");
}

/* ---- refusals */

static void refused(struct card card, size_t length, uint32_t term, uint32_t from, uint32_t to, uint32_t number,
                    const char *what) {
    ask(card, length, term, from, to, 0, number, "", "refused page", what);
    ask(card, length, term, from, to, GI_PAGE_LINE_BYTES, number, "", "refused page", what);
}

static void refusals(void) {
    refused(case1(), WORDS, 0, 1, 9, 9, "term 0");
    refused(case1(), WORDS, 5, 0, 9, 9, "from 0");
    refused(case1(), WORDS, 5, 0, 0, 9, "from 0 to 0");
    refused(case1(), WORDS, 5, 1, 0, 9, "to 0");
    refused(case1(), WORDS, 5, 9, 8, 9, "from above to");
    refused(case1(), WORDS, 5, UINT32_MAX, 1, 9, "from the highest to the lowest");
    refused(CARD(1, 8, 4, 0, 0, 0, 0, 0), WORDS, 0, 1, 9, 9, "term 0 of an empty index");
    for (size_t length = 0; length < WORDS; length += 5) {
        refused(case1(), length, 0, 1, 9, 1, "1 before 9");
        refused(case1(), length, 5, 1, 9, 1, "1 before 11");
    }
    refused(changed(case1(), GI_CONFIG_FORMAT, 0), WORDS, 0, 1, 9, 2, "2 before 9");
    refused(changed(case1(), GI_CONFIG_FORMAT, 2), WORDS, 5, 1, 9, 2, "2 before 11");
    refused(changed(case1(), GI_CONFIG_BLOCK_WORDS, 7), WORDS, 5, 9, 8, 3, "3 before 9");
    refused(changed(case1(), GI_CONFIG_BOUNDARY_TERM, 7), WORDS, 5, 1, 9, 3, "3 before 11");
    refused(changed(case1(), map_word(0, 0), 4), WORDS, 5, 0, 9, 4, "4 before 9");
    refused(changed(case1(), place_word(0, 7), 1), WORDS, 5, 1, 9, 4, "4 before 11");
}

void test_page(void) {
    small_cases();
    positions_of_pages();
    open_pass();
    digits();
    largest();
    bytes_of_pages();
    refusals();
}
