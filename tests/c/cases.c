/* The small cases P1 to P8 as one table: what a batch makes of a card, and what is
 * found on it. Every record has its arrival number; P5 comes in both orders. */
#include "small_cards.h"

enum { ROOM = 15, FRESH = -1, WORDS_MOST = WORDS };

/* A row is a pass, or a question where it has a term. */
struct row {
    const char *name;
    int start; /* the row that left the card, or FRESH: a formatted card of zeros */
    uint32_t places;
    uint32_t batch[ROOM];
    size_t batch_length;
    uint32_t steps;  /* until the pass finishes or is refused */
    uint32_t number; /* the last one */
    uint32_t configuration[GI_CONFIG_WORDS];
    uint32_t place; /* one that the pass filled, and its words */
    uint32_t block[B];
    uint32_t term;
    uint32_t from;
    uint32_t to;
    uint32_t positions[2];
    uint32_t found;
    uint32_t blocks;
};

#define RECORDS(...) .batch = {__VA_ARGS__}, .batch_length = COUNT(__VA_ARGS__)
#define BLOCK_1                                                                                                        \
    { 5, 2, 2, 9, 7, 1, 4, 0 }

enum { P1, P1_TWO_PLACES = 4 };

static const struct row rows[] = {
    {.name = "P1",
     .start = FRESH,
     .places = 4,
     RECORDS(ADDED(5, 2, 1), ADDED(5, 9, 2), ADDED(7, 4, 3)),
     .steps = 3,
     .configuration = {1, 8, 4, 0, 1, 0, 0, 0},
     .block = BLOCK_1},
    {.name = "P1, arrived in another order",
     .start = FRESH,
     .places = 4,
     RECORDS(ADDED(5, 2, 3), ADDED(5, 9, UINT32_MAX), ADDED(7, 4, 1)),
     .steps = 3,
     .configuration = {1, 8, 4, 0, 1, 0, 0, 0},
     .block = BLOCK_1},
    {.name = "P2",
     .start = P1,
     .places = 4,
     RECORDS(ADDED(7, 11, 1)),
     .steps = 3,
     .configuration = {1, 8, 4, 1, 1, 0, 0, 0},
     .place = 1,
     .block = {5, 2, 2, 9, 7, 2, 4, 11}},
    {.name = "P3",
     .start = P1,
     .places = 4,
     RECORDS(ADDED(8, 1, 1)),
     .steps = 6,
     .configuration = {1, 8, 4, 1, 2, 0, 0, 0},
     .place = 2,
     .block = {8, 1, 1, 0, 0, 0, 0, 0}},
    {.name = "P4, its start",
     .start = FRESH,
     .places = 2,
     RECORDS(ADDED(5, 2, 1), ADDED(5, 9, 2), ADDED(7, 4, 3)),
     .steps = 3,
     .configuration = {1, 8, 2, 0, 1, 0, 0, 0},
     .block = BLOCK_1},
    {.name = "P4",
     .start = P1_TWO_PLACES,
     .places = 2,
     RECORDS(ADDED(8, 1, 1)),
     .steps = 3,
     .number = GI_CARD_FULL,
     .configuration = {1, 8, 2, 1, 0, 1, 7, 4},
     .place = 1,
     .block = BLOCK_1},
    {.name = "P4, then an empty batch",
     .start = P1_TWO_PLACES + 1,
     .places = 2,
     .steps = 1,
     .configuration = {1, 8, 2, 1, 1, 0, 0, 0},
     .place = 1,
     .block = BLOCK_1},
    {.name = "P5, the addition second",
     .start = P1,
     .places = 4,
     RECORDS(REMOVED(5, 2, 9, 1), ADDED(5, 9, 2)),
     .steps = 3,
     .configuration = {1, 8, 4, 1, 1, 0, 0, 0},
     .place = 1,
     .block = {5, 1, 9, 7, 1, 4, 0, 0}},
    {.name = "P5, the addition first",
     .start = P1,
     .places = 4,
     RECORDS(REMOVED(5, 2, 9, 2), ADDED(5, 9, 1)),
     .steps = 3,
     .configuration = {1, 8, 4, 1, 1, 0, 0, 0},
     .place = 1,
     .block = {7, 1, 4, 0, 0, 0, 0, 0}},
    {.name = "P6",
     .start = P1,
     .places = 4,
     RECORDS(REMOVED(5, 1, UINT32_MAX, 1), REMOVED(7, 1, UINT32_MAX, 2)),
     .steps = 1,
     .configuration = {1, 8, 4, 1, 0, 0, 0, 0},
     .block = BLOCK_1},
    {.name = "P6, arrived in the other order",
     .start = P1,
     .places = 4,
     RECORDS(REMOVED(5, 1, UINT32_MAX, 2), REMOVED(7, 1, UINT32_MAX, 1)),
     .steps = 1,
     .configuration = {1, 8, 4, 1, 0, 0, 0, 0},
     .block = BLOCK_1},
    {.name = "P7", .start = P1, .term = 5, .from = 1, .to = 9, .positions = {2, 9}, .found = 2, .blocks = 1},
    {.name = "P7, between the two", .start = P1, .term = 5, .from = 3, .to = 8, .blocks = 1},
    {.name = "P8", .start = P1, .term = 4, .from = 1, .to = 9},
    {.name = "P8, the term between", .start = P1, .term = 6, .from = 1, .to = 9, .blocks = 1},
};

enum { ROWS = sizeof rows / sizeof *rows };

/* The cards that the rows leave. */
static uint32_t cards[ROWS][WORDS_MOST];

/* Makes the pass of a row on a copy of its start. */
static void run_pass(size_t i) {
    const struct row *row = &rows[i];
    uint32_t *card = cards[i];
    size_t length = gi_card_words(B, row->places);
    if (row->start == FRESH)
        check_number(gi_format(card, length, B, row->places), GI_DONE, row->name, "the formatter");
    else
        memcpy(card, cards[row->start], sizeof cards[i]);
    uint32_t number = GI_DONE;
    uint32_t finished = 0;
    uint32_t steps = 0;
    while (number == GI_DONE && finished == 0 && steps <= row->steps) {
        uint32_t write;
        uint32_t freed;
        number = gi_step(card, length, row->batch, row->batch_length, &write, &freed, &finished);
        steps += number == GI_DONE;
        /* no row is left before its third write but where nothing remains */
        check(number != GI_DONE || write == (row->steps == 1 ? 3 : (steps - 1) % 3 + 1), row->name, "the write");
    }
    check_number(steps, row->steps, row->name, "the steps");
    check_number(number, row->number, row->name, "the last number");
    check(memcmp(card, row->configuration, sizeof row->configuration) == 0, row->name, "the configuration");
    size_t at = GI_CONFIG_WORDS + GI_MAP_ENTRY_WORDS * row->places + row->place * B;
    check(memcmp(card + at, row->block, sizeof row->block) == 0, row->name, "the block");
    check_number(gi_judge(card, length), GI_DONE, row->name, "sound");
}

static void ask(const struct row *row) {
    uint32_t answer[2] = {0, 0};
    uint32_t found = UNUSED;
    uint32_t blocks = UNUSED;
    uint32_t number = gi_lookup(cards[row->start], WORDS, row->term, row->from, row->to, answer, 2, &found, &blocks);
    check_number(number, GI_DONE, row->name, "number");
    check_number(found, row->found, row->name, "found");
    check_number(blocks, row->blocks, row->name, "blocks read");
    check(memcmp(answer, row->positions, sizeof answer) == 0, row->name, "the positions");
}

void test_cases(void) {
    for (size_t i = 0; i < ROWS; i++)
        if (rows[i].term == 0)
            run_pass(i);
        else
            ask(&rows[i]);
}
