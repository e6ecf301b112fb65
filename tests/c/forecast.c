/* Tests of gi_forecast: its figures worked out by hand for small cards, the run of
 * steps beside each, the words lent to it, and the refusals. */
#include "small_cards.h"

/* What a forecast answers. */
struct forecast {
    uint32_t number;
    uint32_t blocks;
    uint32_t limit;
    uint32_t finishes;
    uint32_t writes;
};

/* The pass will finish, or be stopped with 8 after so many configuration writes. */
static struct forecast through(uint32_t blocks, uint32_t limit) {
    return (struct forecast){GI_DONE, blocks, limit, 1, 0};
}

static struct forecast stopped(uint32_t blocks, uint32_t limit, uint32_t writes) {
    return (struct forecast){GI_DONE, blocks, limit, 0, writes};
}

/* Asks with some words where the figures go, and one on either side that must
 * stand. */
static void ask_over(const uint32_t *card, size_t length, const uint32_t *batch, size_t batch_length,
                     const uint32_t words[4], struct forecast expected, const char *group, const char *what) {
    uint32_t figures[6] = {UNUSED, words[0], words[1], words[2], words[3], UNUSED};
    uint32_t number =
        gi_forecast(card, length, batch, batch_length, figures + 1, figures + 2, figures + 3, figures + 4);
    check_number(number, expected.number, group, what);
    check_number(figures[1], expected.blocks, group, what);
    check_number(figures[2], expected.limit, group, what);
    check_number(figures[3], expected.finishes, group, what);
    check_number(figures[4], expected.writes, group, what);
    check(figures[0] == UNUSED && figures[5] == UNUSED, group, "the words beside the figures stand");
}

/* Asks about a copy of card and batch, whatever stood where the figures go. Every
 * word lent, and a word on either side of them, must stand. */
static void ask(const uint32_t *card, size_t length, const uint32_t *batch, size_t batch_length,
                struct forecast expected, const char *group, const char *what) {
    static const uint32_t before[][4] = {{UNUSED, UNUSED, UNUSED, UNUSED}, {0, 0, 0, 0}, {7, 1, 1, 9}};
    uint32_t *memory = malloc((length + 2) * sizeof *memory);
    uint32_t *records = malloc((batch_length + 2) * sizeof *records);
    check(memory != NULL && records != NULL, group, "memory for card and batch");
    if (memory != NULL && records != NULL) {
        memory[0] = memory[length + 1] = records[0] = records[batch_length + 1] = UNUSED;
        memcpy(memory + 1, card, length * sizeof *card);
        memcpy(records + 1, batch, batch_length * sizeof *batch);
        for (size_t i = 0; i < sizeof before / sizeof *before; i++)
            ask_over(memory + 1, length, records + 1, batch_length, before[i], expected, group, what);
        check(memcmp(memory + 1, card, length * sizeof *card) == 0, group, "the card stands");
        check(memcmp(records + 1, batch, batch_length * sizeof *batch) == 0, group, "the batch stands");
        check(memory[0] == UNUSED && memory[length + 1] == UNUSED && records[0] == UNUSED &&
                  records[batch_length + 1] == UNUSED,
              group, "the words beside card and batch stand");
    }
    free(memory);
    free(records);
}

/* A forecast, and the run of the same batch on a copy of the card: it ends as the
 * forecast says, and after each step the forecast says the same of what is left. */
static void forecast_on(const uint32_t *card, size_t length, const uint32_t *batch, size_t batch_length,
                        struct forecast expected, const char *group, const char *what) {
    ask(card, length, batch, batch_length, expected, group, what);
    uint32_t *run = malloc(length * sizeof *run);
    check(run != NULL, group, "memory for the run");
    if (run == NULL)
        return;
    memcpy(run, card, length * sizeof *run);
    uint32_t writes = 0;
    uint32_t taken = 0;
    uint32_t number = GI_DONE;
    uint32_t finished = 0;
    while (number == GI_DONE && finished == 0 && taken <= expected.limit) {
        uint32_t write;
        uint32_t freed;
        number = gi_step(run, length, batch, batch_length, &write, &freed, &finished);
        if (number != GI_DONE)
            break;
        taken++;
        writes += write == GI_WRITE_CONFIGURATION;
        if (finished == 0) {
            struct forecast left = expected;
            left.blocks -= writes;
            left.limit = 3 * left.blocks;
            left.writes -= expected.finishes ? 0 : writes;
            ask_over(run, length, batch, batch_length, (const uint32_t[]){UNUSED, UNUSED, UNUSED, UNUSED}, left, group,
                     what);
        }
    }
    check(taken <= expected.limit, group, "the run keeps the step limit");
    check_number(finished, expected.finishes, group, "the run's end");
    check_number(number, expected.finishes ? GI_DONE : GI_CARD_FULL, group, "the run's last number");
    uint32_t all = expected.blocks == 0 ? 1 : expected.blocks;
    check_number(writes, expected.finishes ? all : expected.writes, group, "the run's configuration writes");
    free(run);
}

static void forecast(struct card card, const uint32_t *batch, size_t batch_length, struct forecast expected,
                     const char *group, const char *what) {
    forecast_on(card.words, WORDS, batch, batch_length, expected, group, what);
}

/* ---- the small cases */

static void small_cases(void) {
    struct card zeros = {{GI_FORMAT, B, N}};
    struct card used = CARD(1, 8, 4, 0, 0, 0, 0, 0);
    forecast(zeros, BATCH(ADD(5, 2), ADD(5, 9), ADD(7, 4)), through(1, 3), "case 1", "on zeros");
    forecast(used, BATCH(ADD(5, 2), ADD(5, 9), ADD(7, 4)), through(1, 3), "case 1", "on a used card");
    forecast(used, NO_RECORDS, through(0, 1), "case 1", "no records, no pairs");
    forecast(used, BATCH(REMOVE(5, 1, 9)), through(0, 1), "case 1", "a removal, no pairs");
    forecast(case1(), NO_RECORDS, through(1, 3), "case 1", "no records");
    forecast(case1(), BATCH(ADD(5, 2), ADD(5, 2), ADD(7, 4)), through(1, 3), "case 1", "pairs that are there");

    forecast(case1(), BATCH(ADD(7, 11)), through(1, 3), "case 2", "exactly full");
    forecast(case1(), BATCH(ADD(7, 11), ADD(7, 11)), through(1, 3), "case 2", "exactly full, a repeat");
    forecast(case1(), BATCH(ADD(7, 11), ADD(7, 12)), through(2, 6), "case 2", "a position more");
    forecast(case2(), NO_RECORDS, through(1, 3), "case 2", "once more");
    forecast(case2(), BATCH(ADD(7, 12)), through(2, 6), "case 2", "a position behind a full block");
    forecast(case2(), BATCH(ADD(5, 3)), through(2, 6), "case 2", "a position inside a full block");

    forecast(case1(), BATCH(ADD(8, 1)), through(2, 6), "case 3", "from the start");
    forecast(case3_open(), BATCH(ADD(8, 1)), through(1, 3), "case 3", "in mid-pass");
    forecast(case3_open(), NO_RECORDS, through(0, 1), "case 3", "in mid-pass, no records");
    forecast(case3(), NO_RECORDS, through(2, 6), "case 3", "once more");

    forecast(case1(), BATCH(REMOVE(5, 2, 9), ADD(5, 9)), through(1, 3), "case 5", "one block");
    forecast(case1(), BATCH(REMOVE(5, 1, UINT32_MAX), REMOVE(7, 1, UINT32_MAX)), through(0, 1), "case 6",
             "nothing remains");
    forecast(case1(), BATCH(ANNUL(2, 9)), through(0, 1), "case 6", "all of it annulled");
}

/* Case 4: N is 2. Card and batch are constants, which no call can write. */
static void case_4(void) {
    const char *group = "case 4";
    enum { WORDS_2 = 28 };
    static const uint32_t start[WORDS_2] = {1, 8, 2, 0, 1, 0, 0, 0, 5, 2, 0, 0, 5, 2, 2, 9, 7, 1, 4};
    static const uint32_t stops[WORDS_2] = {1, 8, 2, 1, 0, 1, 7, 4, 5, 2, 5, 2, 5, 2,
                                            2, 9, 7, 1, 4, 0, 5, 2, 2, 9, 7, 1, 4};
    static const uint32_t batch[] = {ADDED(8, 1, 1)};
    static const uint32_t falls[] = {ADDED(8, 1, 1), ADDED(7, 4, 2)};
    static const uint32_t unused[] = {UNUSED, UNUSED, UNUSED, UNUSED};
    ask_over(start, WORDS_2, batch, 5, unused, stopped(2, 6, 1), group, "constants");
    ask_over(stops, WORDS_2, batch, 5, unused, stopped(1, 3, 0), group, "constants, where it stopped");
    ask_over(stops, WORDS_2, batch, 0, unused, through(0, 1), group, "constants, no records");
    ask_over(stops, WORDS_2, falls, 10, unused, (struct forecast){7, 0, 0, 0, 0}, group, "constants, 7");
    ask_over(stops, WORDS_2 - 1, falls, 10, unused, (struct forecast){1, 0, 0, 0, 0}, group, "constants, 1");

    forecast_on(start, WORDS_2, BATCH(ADD(8, 1)), stopped(2, 6, 1), group, "from the start");
    forecast_on(start, WORDS_2, BATCH(ADD(8, 1), ADD(9, 1), ADD(10, 1)), stopped(3, 9, 1), group, "three blocks");
    forecast_on(start, WORDS_2, BATCH(ADD(7, 11)), through(1, 3), group, "exactly full");
    forecast_on(start, WORDS_2, BATCH(ADD(4, 1)), stopped(2, 6, 0), group, "a term before: it frees nothing");
    forecast_on(start, WORDS_2, NO_RECORDS, through(1, 3), group, "no records");
    forecast_on(stops, WORDS_2, BATCH(ADD(8, 1)), stopped(1, 3, 0), group, "where it stopped");
    forecast_on(stops, WORDS_2, NO_RECORDS, through(0, 1), group, "where it stopped, no records");
    forecast_on(stops, WORDS_2, BATCH(ADD(5, 1), REMOVE(5, 1, 9), ADD(7, 4)), through(0, 1), group,
                "where it stopped, records up to the boundary");
    forecast_on(stops, WORDS_2, BATCH(ADD(7, 5)), stopped(1, 3, 0), group, "where it stopped, above the boundary");
}

/* ---- how many fit */

static void fills(void) {
    const char *group = "fill";
    struct card fresh = CARD(1, 8, 4, 3, 0, 0, 0, 0);
    uint32_t one[20 * GI_RECORD_WORDS];
    uint32_t many[8 * GI_RECORD_WORDS];
    for (uint32_t i = 0; i < 20; i++)
        PUT(one, i, ADD(3, i + 1));
    for (uint32_t i = 0; i < 8; i++)
        PUT(many, i, ADD(i + 1, 9));
    /* six positions of a term to a block, and three places */
    for (uint32_t count = 1; count <= 18; count++)
        forecast(fresh, one, count * GI_RECORD_WORDS, through((count + 5) / 6, (count + 5) / 6 * 3), group, "one term");
    forecast(fresh, one, 19 * GI_RECORD_WORDS, stopped(4, 12, 3), group, "19 positions of a term");
    forecast(fresh, one, 20 * GI_RECORD_WORDS, stopped(4, 12, 3), group, "20 positions of a term");
    /* two terms to a block */
    for (uint32_t count = 1; count <= 6; count++)
        forecast(fresh, many, count * GI_RECORD_WORDS, through((count + 1) / 2, (count + 1) / 2 * 3), group, "terms");
    forecast(fresh, many, 7 * GI_RECORD_WORDS, stopped(4, 12, 3), group, "7 terms");
    forecast(fresh, many, 8 * GI_RECORD_WORDS, stopped(4, 12, 3), group, "8 terms");

    forecast(case1(), BATCH(ADD(8, 1), ADD(9, 1), ADD(10, 1), ADD(11, 1)), through(3, 9), group, "all places");
    forecast(case1(), BATCH(ADD(8, 1), ADD(9, 1), ADD(10, 1), ADD(11, 1), ADD(12, 1)), stopped(4, 12, 3), group,
             "one place too few");
    forecast(case1(), BATCH(ADD(8, 1), ADD(9, 1), ADD(10, 1), ADD(11, 1), ADD(12, 1), ADD(13, 1), ADD(14, 1)),
             stopped(5, 15, 3), group, "two places too few");
    forecast(case3_open(), BATCH(ADD(8, 1), ADD(9, 1), ADD(10, 1), ADD(11, 1)), through(2, 6), group,
             "all places in mid-pass");
    forecast(case3_open(), BATCH(ADD(8, 1), ADD(9, 1), ADD(10, 1), ADD(11, 1), ADD(12, 1)), stopped(3, 9, 2), group,
             "one place too few in mid-pass");
    forecast(fresh, BATCH(ADD(1, 1), ADD(UINT32_MAX, 1), ADD(UINT32_MAX, UINT32_MAX)), through(1, 3), group,
             "the lowest and the highest pair");
}

/* ---- places that are freed and places that are held */

static void one_place_free(void) {
    const char *group = "one place free";
    forecast(full(), NO_RECORDS, through(3, 9), group, "no records");
    forecast(full(), BATCH(REMOVE(1, 60, 60)), stopped(3, 9, 0), group, "the first block's last pair removed");
    forecast(full(), BATCH(ANNUL(60, 60)), stopped(3, 9, 0), group, "the first block's last pair annulled");
    forecast(full(), BATCH(REMOVE(2, 6, 6)), stopped(3, 9, 1), group, "the second block's last pair removed");
    forecast(full(), BATCH(ANNUL(6, 6)), stopped(3, 9, 1), group, "the second and third block's annulled");
    forecast(full(), BATCH(REMOVE(3, 6, 6)), through(3, 9), group, "the third block's last pair removed");
    forecast(full(), BATCH(REMOVE(1, 60, 60), REMOVE(2, 6, 6)), stopped(3, 9, 0), group, "both removed");
    forecast(full(), BATCH(REMOVE(1, 10, 10)), through(3, 9), group, "the first block's first pair removed");
    forecast(full(), BATCH(REMOVE(1, 50, 50)), through(3, 9), group, "the pair before its last");
    forecast(full(), BATCH(REMOVE(1, 50, 60)), stopped(3, 9, 0), group, "the last two");
    /* 1 2 10 20 2 2 1 2, then 2 4 3 4 5 6, then 3 6 1 2 3 4 5 6 */
    forecast(full(), BATCH(REMOVE(1, 30, 60)), through(3, 9), group, "the last four: the next term has room");
    forecast(full(), BATCH(REMOVE(1, 1, 60)), through(2, 6), group, "the first block wholly");
    forecast(full(), BATCH(REMOVE(2, 1, 6)), through(2, 6), group, "the second block wholly");
    forecast(full(), BATCH(ANNUL(1, 60)), through(0, 1), group, "all of them");
    forecast(full(), BATCH(ANNUL(1, 60), ADD(2, 6)), through(1, 3), group, "all of them, and one added again");
    forecast(full(), BATCH(ANNUL(1, 60), ANNUL(2, 3), ANNUL(2, 9)), through(0, 1), group, "narrow ones in a wide one");
    forecast(full(), BATCH(ANNUL(1, 4), ANNUL(3, 6)), through(1, 3), group, "two that overlap");

    forecast(full(), BATCH(REMOVE(1, 60, 60), ADD(1, 60)), through(3, 9), group, "removed and added");
    forecast(full(), BATCH(ANNUL(60, 60), ADD(1, 60)), through(3, 9), group, "annulled and added");
    forecast(full(), BATCH(REMOVE(1, 60, 60), ADD(1, 70)), through(3, 9), group, "removed, one above it added");
    forecast(full(), BATCH(ADD(1, 55), REMOVE(1, 60, 60)), stopped(3, 9, 0), group, "removed, one below it added");
    forecast(full(), BATCH(REMOVE(1, 60, 50)), through(3, 9), group, "a range with no position");
    forecast(full(), BATCH(ANNUL(60, 10)), through(3, 9), group, "such a range under every term");
    forecast(full(), BATCH(REMOVE(1, 60, 60), REMOVE(1, 60, 10)), stopped(3, 9, 0), group, "beside a removal");

    /* 1 6 10 15 20 30 40 50, 1 1 60 2 3 1 2 3, 2 3 4 5 6 3 1 1, 3 5 2 3 4 5 6 */
    forecast(full(), BATCH(ADD(1, 15)), stopped(4, 12, 0), group, "a pair in the first block");
    forecast(full(), BATCH(ADD(1, 70)), stopped(4, 12, 1), group, "a pair behind the first block");
    forecast(full(), BATCH(ADD(2, 9)), stopped(4, 12, 2), group, "a pair behind the second block");
    forecast(full(), BATCH(ADD(3, 9)), stopped(4, 12, 3), group, "a pair behind the third block");
    forecast(full(), BATCH(ADD(4, 1)), stopped(4, 12, 3), group, "a term behind all");
    /* 3 4 1 2 3 4 holds the third block's place, 3 3 1 2 3 4 1 1 is the last */
    forecast(full(), BATCH(REMOVE(3, 5, 6), ADD(4, 1)), stopped(4, 12, 2), group, "a term behind a shorter block");
    forecast(full(), BATCH(REMOVE(3, 4, 6), ADD(4, 1)), through(3, 9), group, "a term that has room in it");

    forecast(three_blocks(), NO_RECORDS, through(3, 9), group, "a term over three blocks");
    forecast(three_blocks(), BATCH(REMOVE(6, 6, 6)), through(3, 9), group, "the term goes on in the next block");
    forecast(three_blocks(), BATCH(REMOVE(6, 6, 12)), through(2, 6), group, "two places freed at once");
    forecast(three_blocks(), BATCH(REMOVE(6, 1, 13)), through(1, 3), group, "all of the term");
    forecast(three_blocks(), BATCH(ADD(6, 14)), through(3, 9), group, "a position in the last block");
    forecast(three_blocks(), BATCH(ADD(9, 2), ADD(9, 3)), through(3, 9), group, "the last block exactly full");
    forecast(three_blocks(), BATCH(ADD(9, 2), ADD(9, 3), ADD(9, 4)), stopped(4, 12, 3), group, "one too many");
    /* 5 1 1 6 3 1 2 3, 6 6 4 5 6 7 8 9, 6 4 10 11 12 13, 9 1 1 */
    forecast(three_blocks(), BATCH(ADD(5, 1)), stopped(4, 12, 0), group, "a term before all");

    struct card card = WITH(CARD(1, 8, 4, 0, 3, 0, 0, 0), 0, 1, 6, 10, 20, 30, 40, 50, UINT32_MAX);
    card = WITH(WITH(card, 1, 2, 6, 1, 2, 3, 4, 5, 6), 2, UINT32_MAX, 6, 1, 2, 3, 4, 5, UINT32_MAX);
    forecast(card, NO_RECORDS, through(3, 9), group, "the highest term and position");
    forecast(card, BATCH(REMOVE(1, 60, UINT32_MAX)), stopped(3, 9, 0), group, "the highest position holds its place");
    forecast(card, BATCH(REMOVE(2, 1, 6), ADD(2, UINT32_MAX)), through(3, 9), group, "one for six");
    forecast(card, BATCH(ADD(UINT32_MAX, 6)), stopped(4, 12, 2), group, "the highest pair holds its place");

    /* the blocks of one pair: 1 1 1 2 1 1, then 3 1 1 */
    card = WITH(CARD(1, 8, 4, 3, 3, 0, 0, 0), 3, 1, 1, 1, 0, 0, 0, 0, 0);
    card = WITH(WITH(card, 0, 2, 1, 1, 0, 0, 0, 0, 0), 1, 3, 1, 1, 0, 0, 0, 0, 0);
    forecast(card, NO_RECORDS, through(2, 6), group, "blocks of one pair");
    forecast(card, BATCH(ADD(1, 2), ADD(1, 3)), through(2, 6), group, "two of them in one");
    forecast(card, BATCH(ADD(1, 2), ADD(1, 3), ADD(1, 4)), through(2, 6), group, "one of them and then two");
    forecast(card, BATCH(ADD(1, 2), ADD(1, 3), ADD(1, 4), ADD(1, 5), ADD(1, 6), ADD(1, 7)), through(3, 9), group,
             "7 positions: the second block frees one more");
    forecast(card, BATCH(ADD(4, 1), ADD(5, 1), ADD(6, 1)), through(3, 9), group, "three terms more");
    forecast(card, BATCH(ADD(4, 1), ADD(5, 1), ADD(6, 1), ADD(7, 1)), stopped(4, 12, 3), group, "four terms more");
}

static void two_places_free(void) {
    const char *group = "two places free";
    struct card card = full();
    memcpy(card.words, (const uint32_t[]){1, 8, 4, 2, 2, 0, 0, 0}, GI_CONFIG_WORDS * sizeof(uint32_t));
    forecast(card, NO_RECORDS, through(2, 6), group, "no records");
    forecast(card, BATCH(REMOVE(1, 60, 60)), through(2, 6), group, "the first block's last pair removed");
    forecast(card, BATCH(ANNUL(6, 6), ANNUL(60, 60)), through(2, 6), group, "the last pairs of both annulled");
    /* 1 6 10 15 20 30 40 50, 1 1 60 2 3 1 2 3, 2 3 4 5 6 and what comes behind it */
    forecast(card, BATCH(ADD(1, 15)), through(3, 9), group, "a pair in the first block");
    forecast(card, BATCH(ADD(1, 15), ADD(3, 1)), through(3, 9), group, "and a term behind all");
    forecast(card, BATCH(ADD(1, 15), ADD(3, 1), ADD(3, 2)), stopped(4, 12, 3), group, "and two pairs behind all");
    /* 1 6 1 .. 6 and 1 6 7 8 9 10 20 30 free nothing, 1 3 40 50 60 2 1 1, 2 5 2 .. 6 */
    forecast(card,
             BATCH(ADD(1, 1), ADD(1, 2), ADD(1, 3), ADD(1, 4), ADD(1, 5), ADD(1, 6), ADD(1, 7), ADD(1, 8), ADD(1, 9)),
             stopped(4, 12, 1), group, "nine pairs before all");
}

/* ---- open passes */

static void open_passes(void) {
    const char *group = "open pass";
    /* what remains is of (2,5), (3,1), (4,9) */
    forecast(wrapped(), NO_RECORDS, through(2, 6), group, "no records");
    forecast(wrapped(), BATCH(ADD(1, 9), ADD(2, 1)), through(2, 6), group, "additions up to the boundary");
    forecast(wrapped(), BATCH(REMOVE(1, 1, 9), REMOVE(2, 1, 1)), through(2, 6), group, "removals up to the boundary");
    forecast(wrapped(), BATCH(ADD(2, 2)), through(2, 6), group, "an addition just above the boundary");
    forecast(wrapped(), BATCH(ADD(2, 6)), through(2, 6), group, "7 words");
    forecast(wrapped(), BATCH(ADD(2, 6), ADD(2, 7)), through(2, 6), group, "8 words");
    forecast(wrapped(), BATCH(ADD(2, 6), ADD(2, 7), ADD(2, 8)), stopped(2, 6, 0), group, "6 words, and no more");
    forecast(wrapped(), BATCH(ADD(2, 6), ADD(2, 7), ADD(2, 8), REMOVE(3, 1, 1)), stopped(2, 6, 0), group,
             "a removed pair holds the place");
    forecast(wrapped(), BATCH(ADD(2, 6), ADD(2, 7), REMOVE(3, 1, 1)), through(1, 3), group, "all that remains in one");
    forecast(wrapped(), BATCH(REMOVE(3, 1, 1)), through(1, 3), group, "the first old block's last pair removed");
    forecast(wrapped(), BATCH(REMOVE(4, 9, 9)), through(1, 3), group, "the second old block removed");
    forecast(wrapped(), BATCH(ADD(5, 1)), through(2, 6), group, "a term behind all");
    forecast(wrapped(), BATCH(ADD(5, 1), ADD(6, 1)), stopped(3, 9, 2), group, "two terms behind all");
    forecast(wrapped(), BATCH(ADD(5, 1), ADD(6, 1), ADD(7, 1), ADD(8, 1)), stopped(4, 12, 2), group,
             "four terms behind all");
    forecast(wrapped(), BATCH(ANNUL(1, 9)), through(0, 1), group, "all that remains annulled");
    forecast(wrapped(), BATCH(ANNUL(1, 9), ADD(2, 1)), through(0, 1), group, "and the boundary added");
    forecast(wrapped(), BATCH(ANNUL(5, 9)), through(1, 3), group, "two of three annulled");
    forecast(wrapped(), BATCH(ANNUL(5, 9), ADD(4, 9)), through(1, 3), group, "and one of them added");
    forecast(wrapped(), BATCH(ANNUL(9, 5), REMOVE(2, 5, 1)), through(2, 6), group, "ranges with no position");

    forecast(case3_open(), BATCH(ADD(7, UINT32_MAX)), through(1, 3), group,
             "the boundary's term, the highest position");
    forecast(case3_open(), BATCH(ADD(UINT32_MAX, 1)), through(1, 3), group, "the highest term");

    struct card card = WITH(CARD(1, 8, 4, 1, 0, 3, 3, 1), 1, 1, 1, 1, 0, 0, 0, 0, 0);
    card = WITH(WITH(card, 2, 2, 1, 1, 0, 0, 0, 0, 0), 3, 3, 1, 1, 0, 0, 0, 0, 0);
    forecast(card, NO_RECORDS, through(0, 1), group, "all places new, no records");
    forecast(card, BATCH(ADD(2, 9)), through(0, 1), group, "all places new, nothing remains");
    forecast(card, BATCH(ADD(4, 1)), stopped(1, 3, 0), group, "all places new, a block remains");
    forecast(card, BATCH(ADD(3, 2), ADD(4, 1), ADD(5, 1)), stopped(2, 6, 0), group, "all places new, two remain");

    /* place 0 is old, 1 and 2 are new: (4,9) in the old block is no longer live, (5,1) is */
    card = WITH(CARD(1, 8, 4, 0, 1, 2, 4, 9), 0, 4, 1, 9, 5, 1, 1, 0, 0);
    card = WITH(WITH(card, 1, 1, 1, 1, 0, 0, 0, 0, 0), 2, 4, 1, 9, 0, 0, 0, 0, 0);
    forecast(card, NO_RECORDS, through(1, 3), group, "one old block");
    forecast(card, BATCH(ADD(5, 2), ADD(6, 1)), through(1, 3), group, "one old block, exactly full");
    forecast(card, BATCH(ADD(6, 1), ADD(7, 1)), stopped(2, 6, 1), group, "one old block, a term too many");
    forecast(card, BATCH(ADD(4, 10), ADD(4, 11), ADD(4, 12), ADD(4, 13)), stopped(2, 6, 0), group,
             "one old block that holds its place");
    forecast(card, BATCH(ADD(4, 10), ADD(4, 11), ADD(4, 12), ADD(4, 13), REMOVE(5, 1, 1)), through(1, 3), group,
             "one old block with nothing left");
    forecast(card, BATCH(REMOVE(5, 1, 1)), through(0, 1), group, "nothing remains of it");
}

/* ---- arrival: a pair added and removed is there as the later of the two has it */

static void arrivals(void) {
    const char *group = "arrival";
    struct card fresh = CARD(1, 8, 4, 0, 0, 0, 0, 0);
    forecast(full(), ARRIVED(REMOVED(1, 60, 60, 1), ADDED(1, 60, 2)), through(3, 9), group, "removed, then added");
    forecast(full(), ARRIVED(REMOVED(1, 60, 60, 2), ADDED(1, 60, 1)), stopped(3, 9, 0), group, "added, then removed");
    forecast(full(), ARRIVED(ANNULLED(60, 60, 1), ADDED(1, 60, 9)), through(3, 9), group, "annulled, then added");
    forecast(full(), ARRIVED(ANNULLED(60, 60, 9), ADDED(1, 60, 1)), stopped(3, 9, 0), group, "added, then annulled");
    forecast(full(), ARRIVED(ANNULLED(1, 60, 1), ADDED(2, 6, 2)), through(1, 3), group, "all annulled, one added then");
    forecast(full(), ARRIVED(ANNULLED(1, 60, 2), ADDED(2, 6, 1)), through(0, 1), group, "all annulled after that");
    forecast(full(), ARRIVED(ADDED(1, 15, 2), REMOVED(1, 15, 15, 1)), stopped(4, 12, 0), group, "a new pair stays");
    forecast(full(), ARRIVED(ADDED(1, 15, 1), REMOVED(1, 15, 15, 2)), through(3, 9), group, "a new pair goes again");
    forecast(full(), ARRIVED(ADDED(1, 15, 1), REMOVED(1, 15, 10, 2)), stopped(4, 12, 0), group, "an empty range later");
    forecast(fresh, ARRIVED(ADDED(5, 2, 1), REMOVED(5, 2, 9, 3), ADDED(5, 9, 2)), through(0, 1), group,
             "all gone again");
    forecast(fresh, ARRIVED(ADDED(5, 2, 3), REMOVED(5, 2, 9, 2), ADDED(5, 9, 1)), through(1, 3), group, "one of two");
    forecast(case1(), ARRIVED(ADDED(8, 1, 2), REMOVED(8, 1, 1, 1)), through(2, 6), group, "case 3, removed before");
    forecast(case1(), ARRIVED(ADDED(8, 1, 1), REMOVED(8, 1, 1, 2)), through(1, 3), group, "case 3, removed after");
    forecast(case3_open(), ARRIVED(ADDED(8, 1, 2), REMOVED(8, 1, 1, 1)), through(1, 3), group, "mid-pass, stays");
    forecast(case3_open(), ARRIVED(ADDED(8, 1, 1), REMOVED(8, 1, 1, 2)), through(0, 1), group, "mid-pass, goes");
    forecast(wrapped(), ARRIVED(ANNULLED(5, 9, 3), ADDED(2, 5, 1), ADDED(4, 9, 4)), through(1, 3), group, "one of two");
}

/* ---- large cards */

static void large_cards(void) {
    const char *group = "large card";
    static uint32_t terms[GI_BATCH_RECORDS_MAX * GI_RECORD_WORDS];
    static uint32_t odd[GI_BATCH_RECORDS_MAX * GI_RECORD_WORDS];
    const size_t most = sizeof terms / sizeof *terms;
    for (uint32_t i = 0; i < GI_BATCH_RECORDS_MAX; i++) {
        PUT(terms, i, ADD(i + 2000, 9));
        PUT(odd, i, ANNUL(2 * i + 1, 2 * i + 1));
    }
    uint32_t *card = calloc(GI_CARD_WORDS_MAX, sizeof *card);
    check(card != NULL, group, "memory for the card");
    if (card != NULL) {
        /* 341 terms to a block */
        gi_format(card, GI_CARD_WORDS_MAX, 1024, 1024);
        ask(card, GI_CARD_WORDS_MAX, terms, most, through(13, 39), group, "4,096 additions");
        gi_format(card, gi_card_words(1024, 14), 1024, 14);
        forecast_on(card, gi_card_words(1024, 14), terms, most, through(13, 39), group, "13 places");
        gi_format(card, gi_card_words(1024, 13), 1024, 13);
        forecast_on(card, gi_card_words(1024, 13), terms, most, stopped(13, 39, 12), group, "12 places");
        /* two terms to a block */
        gi_format(card, gi_card_words(8, 1024), 8, 1024);
        ask(card, gi_card_words(8, 1024), terms, 2046 * GI_RECORD_WORDS, through(1023, 3069), group, "1,023 blocks");
        ask(card, gi_card_words(8, 1024), terms, 2047 * GI_RECORD_WORDS, stopped(1024, 3072, 1023), group,
            "1,024 blocks");
        ask(card, gi_card_words(8, 1024), terms, most, stopped(2048, 6144, 1023), group, "2,048 blocks");
        gi_format(card, gi_card_words(8, 300), 8, 300);
        ask(card, gi_card_words(8, 300), terms, 598 * GI_RECORD_WORDS, through(299, 897), group, "299 blocks");
        ask(card, gi_card_words(8, 300), terms, 599 * GI_RECORD_WORDS, stopped(300, 900, 299), group, "300 blocks");
    }
    free(card);

    card = largest_card(LARGEST_LIVE);
    check(card != NULL, group, "memory for the card");
    if (card != NULL) {
        /* 1,022 positions of a term to a block */
        forecast_on(card, GI_CARD_WORDS_MAX, NO_RECORDS, through(2, 6), group, "a term of 1,023 positions");
        ask(card, GI_CARD_WORDS_MAX, BATCH(REMOVE(1, 9, 9)), through(1, 3), group, "1,022 of them");
        ask(card, GI_CARD_WORDS_MAX, odd, most, through(1, 3), group, "511 of them");
        ask(card, GI_CARD_WORDS_MAX, BATCH(ANNUL(1, 1023)), through(0, 1), group, "none of them");
        ask(card, GI_CARD_WORDS_MAX - 1, NO_RECORDS, (struct forecast){1, 0, 0, 0, 0}, group, "a word too few");
    }
    free(card);

    card = largest_card(1);
    check(card != NULL, group, "memory for the card");
    if (card != NULL) {
        ask(card, GI_CARD_WORDS_MAX, NO_RECORDS, through(3, 9), group, "1,023 terms");
        ask(card, GI_CARD_WORDS_MAX, BATCH(ADD(1024, 1)), through(4, 12), group, "1,024 terms");
        ask(card, GI_CARD_WORDS_MAX, terms, most, through(16, 48), group, "5,119 terms");
    }
    free(card);
}

/* ---- refusals */

static void refused_on(const uint32_t *card, size_t length, const uint32_t *batch, size_t batch_length, uint32_t number,
                       const char *group, const char *what) {
    ask(card, length, batch, batch_length, (struct forecast){number, 0, 0, 0, 0}, group, what);
}

static void refused(struct card card, const uint32_t *batch, size_t batch_length, uint32_t number, const char *group,
                    const char *what) {
    refused_on(card.words, WORDS, batch, batch_length, number, group, what);
}

static void wrong_batches(void) {
    const char *group = "number 6";
    static const uint32_t good[] = {ADDED(5, 3, 1), ADDED(6, 1, 2), ADDED(7, 1, 3)};
    for (size_t length = 1; length < sizeof good / sizeof *good; length++)
        if (length % GI_RECORD_WORDS != 0)
            refused(case1(), good, length, 6, group, "a length that is no records");
    static const uint32_t kinds[] = {0, 4, 256, 65537, UINT32_MAX};
    for (size_t i = 0; i < sizeof kinds / sizeof *kinds; i++)
        refused(case1(), BATCH(ADD(5, 3), kinds[i], 6, 1, 1), 6, group, "a kind that is none");
    refused(case1(), BATCH(ADD(0, 3)), 6, group, "an addition with term 0");
    refused(case1(), BATCH(REMOVE(0, 1, 3)), 6, group, "a removal with term 0");
    refused(case1(), BATCH(GI_RECORD_ANNUL, 5, 1, 9), 6, group, "kind 3 with a term");
    refused(case1(), BATCH(ADD(5, 0)), 6, group, "an addition of position 0");
    refused(case1(), BATCH(REMOVE(5, 0, 3)), 6, group, "a removal from 0");
    refused(case1(), BATCH(REMOVE(5, 3, 0)), 6, group, "a removal to 0");
    refused(case1(), BATCH(ANNUL(0, 9)), 6, group, "from 0 under every term");
    refused(case1(), BATCH(ANNUL(9, 0)), 6, group, "to 0 under every term");
    refused(case1(), BATCH(GI_RECORD_ADD, 5, 3, 2), 6, group, "an addition with from above to");
    refused(case1(), BATCH(GI_RECORD_ADD, 5, 3, 4), 6, group, "an addition with from below to");
    refused(case1(), BATCH(ADD(5, 3), ADD(6, 3), REMOVE(7, 3, 0)), 6, group, "only the last record is wrong");
    refused(case1(), BATCH(ADD(6, 3), ADD(5, 3), ADD(7, 0)), 6, group, "6 before 7");
    refused(case1(), BATCH(ADD(6, 3), ADD(5, 3), ADD(7, 3), 1), 6, group, "6 before 7, a word too many");
    refused(full(), BATCH(ADD(1, 15), ADD(2, 0)), 6, group, "where the pass would stop");
    static uint32_t many[(GI_BATCH_RECORDS_MAX + 1) * GI_RECORD_WORDS];
    for (uint32_t i = 0; i <= GI_BATCH_RECORDS_MAX; i++)
        PUT(many, i, ADD(7, 4));
    forecast(case1(), many, GI_BATCH_RECORDS_MAX * GI_RECORD_WORDS, through(1, 3), group, "but 4,096 repeats are none");
    refused(case1(), many, sizeof many / sizeof *many, 6, group, "4,097 records");
    refused(case1(), many, sizeof many / sizeof *many - (GI_RECORD_WORDS - 1), 6, group, "4,096 records and a word");
    many[1] = 8;
    refused(case1(), many, sizeof many / sizeof *many, 6, group, "4,097 records that fall");
    refused(case1(), many, sizeof many / sizeof *many - GI_RECORD_WORDS, 7, "number 7", "4,096 records that fall");

    group = "number 7";
    refused(case1(), BATCH(ADD(6, 1), ADD(5, 1)), 7, group, "terms fall");
    refused(case1(), BATCH(ADD(5, 3), ADD(5, 1)), 7, group, "positions fall");
    refused(case1(), BATCH(ADD(5, 3), REMOVE(5, 1, 9)), 7, group, "a removal that starts below");
    refused(case1(), BATCH(REMOVE(5, 9, 3), REMOVE(5, 4, 4)), 7, group, "by from, though to rises");
    refused(case1(), BATCH(ADD(5, 3), ANNUL(1, 9)), 7, group, "under every term behind a term");
    refused(case1(), BATCH(ANNUL(3, 9), ANNUL(2, 9)), 7, group, "starts under every term fall");
    refused(case1(), BATCH(ADD(5, 1), ADD(6, 1), ADD(7, 9), ADD(7, 8)), 7, group, "only the last one falls");
    refused(full(), BATCH(ADD(1, 15), ADD(1, 14)), 7, group, "where the pass would stop");
    forecast(case1(), BATCH(REMOVE(5, 8, 20), REMOVE(5, 9, 3)), through(1, 3), group, "but to may fall");
}

/* Cards that are wrong, with a good batch and with wrong ones: the card's number. */
static void wrong_cards(void) {
    const char *group = "the card before the batch";
    struct card card = case1();
    struct card open = wrapped();
    struct {
        struct card card;
        uint32_t number;
        const char *what;
    } wrong[] = {
        {changed(card, GI_CONFIG_BLOCK_WORDS, 9), 1, "another B"},
        {changed(card, GI_CONFIG_PLACES, 5), 1, "another N"},
        {changed(card, GI_CONFIG_FORMAT, 0), 2, "format 0"},
        {changed(changed(card, GI_CONFIG_FORMAT, 2), GI_CONFIG_PLACES, 1), 2, "2 before 3"},
        {changed(card, GI_CONFIG_BLOCK_WORDS, 7), 3, "B too small"},
        {changed(card, GI_CONFIG_PLACES, 1025), 3, "N too large"},
        {changed(card, GI_CONFIG_OLD_START, 4), 3, "old start"},
        {changed(card, GI_CONFIG_OLD_LENGTH, 4), 3, "no place free"},
        {changed(card, GI_CONFIG_BOUNDARY_TERM, 7), 3, "a boundary without a pass"},
        {changed(open, GI_CONFIG_BOUNDARY_POSITION, 0), 3, "a pass without a boundary"},
        {changed(open, GI_CONFIG_NEW_LENGTH, 2), 3, "one new block too many"},
        {changed(changed(card, GI_CONFIG_OLD_LENGTH, 4), map_word(0, 0), 6), 3, "3 before 4"},
        {changed(card, map_word(0, 1), 3), 4, "a map entry"},
        {changed(card, place_word(0, 1), 0), 4, "a count of 0"},
        {changed(card, place_word(0, 7), 1), 4, "a word behind the entries"},
        {changed(open, GI_CONFIG_BOUNDARY_POSITION, 2), 4, "another boundary"},
        {changed(open, place_word(0, 0), 3), 4, "old blocks that do not rise"},
    };
    for (size_t i = 0; i < sizeof wrong / sizeof *wrong; i++) {
        refused(wrong[i].card, NO_RECORDS, wrong[i].number, group, wrong[i].what);
        refused(wrong[i].card, BATCH(ADD(8, 1)), wrong[i].number, group, wrong[i].what);
        refused(wrong[i].card, BATCH(ADD(8, 0)), wrong[i].number, group, wrong[i].what);
        refused(wrong[i].card, BATCH(ADD(8, 1), ADD(7, 1)), wrong[i].number, group, wrong[i].what);
        refused(wrong[i].card, BATCH(1), wrong[i].number, group, wrong[i].what);
    }
    for (size_t length = 0; length < WORDS; length += 5) {
        refused_on(card.words, length, BATCH(ADD(8, 1)), 1, group, "number 1");
        refused_on(card.words, length, BATCH(0, 0, 0), 1, group, "number 1");
        refused_on(card.words, length, BATCH(ADD(8, 1), ADD(7, 1)), 1, group, "number 1");
    }
    /* words of free places are never judged */
    forecast(changed(card, place_word(2, 0), 0), BATCH(ADD(8, 1)), through(2, 6), group, "a free place");
    forecast(changed(card, map_word(3, 0), 0), BATCH(ADD(8, 1)), through(2, 6), group, "a free map entry");
}

void test_forecast(void) {
    small_cases();
    case_4();
    fills();
    one_place_free();
    two_places_free();
    open_passes();
    arrivals();
    large_cards();
    wrong_batches();
    wrong_cards();
}
