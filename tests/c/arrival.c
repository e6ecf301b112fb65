/* Tests of arrival numbers: of all records that touch a pair the latest decides, and
 * number 14, in its place among the others. Each batch is given to gi_step and to
 * gi_forecast. */
#include "small_cards.h"

/* ---- what a pass leaves */

enum { TEXT_ROOM = 400, STEPS_MOST = 30 };

/* The pairs of a sound card of 8-word blocks whose pass is finished, "5:2 5:9 7:4". */
static const char *index_of(const uint32_t *card) {
    static char text[TEXT_ROOM];
    size_t used = 0;
    text[0] = '\0';
    for (uint32_t k = 0; k < card[GI_CONFIG_OLD_LENGTH]; k++) {
        const uint32_t *block = card + PLACES + (card[GI_CONFIG_OLD_START] + k) % N * B;
        for (uint32_t at = 0; at + 3 <= B && block[at] != 0; at += 2 + block[at + 1])
            for (uint32_t i = 0; i < block[at + 1]; i++)
                used += (size_t)snprintf(text + used, TEXT_ROOM - used, "%s%" PRIu32 ":%" PRIu32, used == 0 ? "" : " ",
                                         block[at], block[at + 2 + i]);
    }
    return text;
}

/* Makes the pass of a batch, whose end the forecast must have told; false where it does
 * not finish. */
static bool run_pass(struct card *card, const uint32_t *batch, size_t length) {
    uint32_t told[4];
    uint32_t write;
    uint32_t freed;
    uint32_t finished = 0;
    uint32_t configurations = 0;
    if (gi_forecast(card->words, WORDS, batch, length, &told[0], &told[1], &told[2], &told[3]) != GI_DONE)
        return false;
    for (int i = 0; i < STEPS_MOST && finished == 0; i++) {
        if (gi_step(card->words, WORDS, batch, length, &write, &freed, &finished) != GI_DONE)
            return false;
        configurations += write == GI_WRITE_CONFIGURATION;
    }
    return finished != 0 && told[2] == 1 && configurations == (told[0] == 0 ? 1 : told[0]);
}

/* The pass of a batch leaves these pairs, and so does the same batch sent again. */
static void leaves(struct card card, const uint32_t *batch, size_t length, const char *pairs, const char *group,
                   const char *what) {
    for (int again = 0; again < 2; again++) {
        check(run_pass(&card, batch, length), group, what);
        check(strcmp(index_of(card.words), pairs) == 0, group, what);
        if (strcmp(index_of(card.words), pairs) != 0)
            printf("        %s, expected %s\n", index_of(card.words), pairs);
    }
}

/* Two arrival numbers, the lower first. */
static const uint32_t twos[][2] = {{1, 2},
                                   {1, UINT32_MAX},
                                   {2, 4097},
                                   {77, 78},
                                   {255, 256},
                                   {65535, 65536},
                                   {65537, 131072},
                                   {INT32_MAX, (uint32_t)INT32_MAX + 1},
                                   {UINT32_MAX - 1, UINT32_MAX}};

/* Two records on case 1, in both orders of their arrival. */
static void both_orders(const uint32_t first[BARE_WORDS], const uint32_t second[BARE_WORDS], const char *first_later,
                        const char *second_later, const char *what) {
    uint32_t batch[2 * GI_RECORD_WORDS];
    for (size_t i = 0; i < sizeof twos / sizeof *twos; i++) {
        put_record(batch, 0, first);
        put_record(batch, 1, second);
        batch[4] = twos[i][1];
        batch[9] = twos[i][0];
        leaves(case1(), batch, 10, first_later, "the first is later", what);
        batch[4] = twos[i][0];
        batch[9] = twos[i][1];
        leaves(case1(), batch, 10, second_later, "the second is later", what);
    }
}

#define RECORD(...)                                                                                                    \
    (const uint32_t[BARE_WORDS]) {                                                                                     \
        __VA_ARGS__                                                                                                    \
    }

static void two_records(void) {
    both_orders(RECORD(REMOVE(5, 2, 9)), RECORD(ADD(5, 9)), "7:4", "5:9 7:4", "P5");
    both_orders(RECORD(REMOVE(5, 2, 9)), RECORD(ADD(5, 2)), "7:4", "5:2 7:4", "equal in from");
    both_orders(RECORD(ADD(5, 2)), RECORD(REMOVE(5, 2, 9)), "5:2 7:4", "7:4", "equal in from, the addition in front");
    both_orders(RECORD(ADD(5, 3)), RECORD(REMOVE(5, 3, 3)), "5:2 5:3 5:9 7:4", "5:2 5:9 7:4", "a pair that is new");
    both_orders(RECORD(REMOVE(5, 1, UINT32_MAX)), RECORD(ADD(5, 3)), "7:4", "5:3 7:4", "new, in a wide range");
    both_orders(RECORD(REMOVE(6, 1, 9)), RECORD(ADD(6, 9)), "5:2 5:9 7:4", "5:2 5:9 6:9 7:4", "a term that is new");
    both_orders(RECORD(REMOVE(5, 1, 9)), RECORD(ADD(5, 10)), "5:10 7:4", "5:10 7:4", "beside its range");
    both_orders(RECORD(ADD(5, 9)), RECORD(REMOVE(7, 1, 9)), "5:2 5:9", "5:2 5:9", "of another term");
    both_orders(RECORD(ANNUL(2, 9)), RECORD(ADD(5, 9)), "", "5:9", "under every term");
    both_orders(RECORD(ANNUL(1, UINT32_MAX)), RECORD(ADD(7, 4)), "", "7:4", "all under every term");
    both_orders(RECORD(ANNUL(4, 4)), RECORD(ADD(7, 4)), "5:2 5:9", "5:2 5:9 7:4", "one position under every term");
    both_orders(RECORD(ANNUL(3, 3)), RECORD(ADD(6, 3)), "5:2 5:9 7:4", "5:2 5:9 6:3 7:4", "a new pair, annulled");
    both_orders(RECORD(ANNUL(2, 4)), RECORD(ADD(5, 9)), "5:9", "5:9", "beside what is annulled");
    both_orders(RECORD(REMOVE(5, 1, 2)), RECORD(REMOVE(5, 2, 9)), "7:4", "7:4", "two removals");
    both_orders(RECORD(ANNUL(1, 2)), RECORD(REMOVE(5, 2, 9)), "7:4", "7:4", "two removals of both kinds");
    both_orders(RECORD(ADD(5, 3)), RECORD(ADD(5, 3)), "5:2 5:3 5:9 7:4", "5:2 5:3 5:9 7:4", "one addition twice");
    /* a range with no position touches none */
    both_orders(RECORD(ADD(5, 9)), RECORD(REMOVE(5, 9, 2)), "5:2 5:9 7:4", "5:2 5:9 7:4", "an empty range");
    both_orders(RECORD(REMOVE(5, 3, 2)), RECORD(ADD(5, 3)), "5:2 5:3 5:9 7:4", "5:2 5:3 5:9 7:4", "just above to");
    both_orders(RECORD(ANNUL(9, 2)), RECORD(ADD(5, 9)), "5:2 5:9 7:4", "5:2 5:9 7:4", "an empty range, annulled");
    both_orders(RECORD(REMOVE(5, 2, 9)), RECORD(REMOVE(5, 9, 2)), "7:4", "7:4", "an empty range in another");
}

static void several_records(void) {
    const char *group = "the latest decides";
    leaves(case1(), ARRIVED(ADDED(5, 3, 1), ADDED(5, 3, 3), REMOVED(5, 3, 9, 2)), "5:2 5:3 7:4", group,
           "between two additions");
    leaves(case1(), ARRIVED(ADDED(5, 3, 3), ADDED(5, 3, 1), REMOVED(5, 3, 9, 2)), "5:2 5:3 7:4", group,
           "between two additions, the later in front");
    leaves(case1(), ARRIVED(ADDED(5, 3, 2), ADDED(5, 3, 1), REMOVED(5, 3, 9, 3)), "5:2 7:4", group,
           "behind two additions");
    leaves(case1(), ARRIVED(REMOVED(5, 1, 9, 1), REMOVED(5, 2, 9, 3), ADDED(5, 9, 2)), "7:4", group,
           "between two removals");
    leaves(case1(), ARRIVED(REMOVED(5, 1, 20, 3), REMOVED(5, 8, 10, 1), ADDED(5, 9, 2)), "7:4", group,
           "the wide one last");
    leaves(case1(), ARRIVED(REMOVED(5, 1, 20, 1), REMOVED(5, 8, 8, 3), ADDED(5, 9, 2)), "5:9 7:4", group,
           "the last beside it");
    leaves(case1(), ARRIVED(REMOVED(5, 1, 20, 4), REMOVED(5, 2, 3, 9), ADDED(5, 3, 8), ADDED(5, 9, 5)), "5:9 7:4",
           group, "a narrow one over a wide one");
    leaves(case1(), ARRIVED(ANNULLED(1, 9, 2), REMOVED(5, 9, 9, 4), ADDED(5, 9, 3), ADDED(7, 4, 1)), "", group,
           "a removal over what an annulment let stand");
    leaves(case1(), ARRIVED(ANNULLED(1, 9, 4), REMOVED(5, 9, 9, 1), ADDED(5, 9, 3), ADDED(7, 4, 5)), "7:4", group,
           "an annulment over what a removal let stand");
    leaves(case1(), ARRIVED(ANNULLED(1, 9, 1), ANNULLED(2, 2, 6), ADDED(5, 2, 5), ADDED(6, 2, 7), ADDED(7, 2, 4)),
           "6:2", group, "one position under three terms");
    leaves(case1(), ARRIVED(ADDED(7, 4, 1), REMOVED(7, 4, UINT32_MAX, 9), ADDED(7, UINT32_MAX, 10)),
           "5:2 5:9 7:4294967295", group, "the highest position");
    /* two blocks: the second one's records arrive before the first one's */
    leaves(case1(),
           ARRIVED(ANNULLED(9, 11, 5), ADDED(5, 10, 6), ADDED(7, 9, 1), ADDED(7, 11, 7), ADDED(8, 1, 2),
                   REMOVED(8, 1, 1, 3), ADDED(9, 1, 4), ADDED(9, 10, 8)),
           "5:2 5:10 7:4 7:11 9:1 9:10", group, "two blocks");
    /* beyond an open pass's boundary as before it, though the records there do nothing */
    struct card card = case3_open();
    check(run_pass(&card, ARRIVED(REMOVED(5, 1, 9, 2), ADDED(8, 1, 1), REMOVED(8, 1, 1, 3))), group, "in mid-pass");
    check(strcmp(index_of(card.words), "5:2 5:9 7:4") == 0, group, "in mid-pass");
}

/* ---- every two and three records over few positions, in every order of arrival */

enum { LETTERS = 24, POSITIONS = 3 };

static uint32_t letters[LETTERS][BARE_WORDS];

/* In order of term, then from. */
static void make_letters(void) {
    size_t i = 0;
    for (uint32_t from = 1; from <= POSITIONS; from++)
        for (uint32_t to = 1; to <= POSITIONS; to++)
            memcpy(letters[i++], RECORD(ANNUL(from, to)), sizeof *letters);
    for (uint32_t from = 1; from <= POSITIONS; from++) {
        memcpy(letters[i++], RECORD(ADD(5, from)), sizeof *letters);
        for (uint32_t to = 1; to <= POSITIONS; to++)
            memcpy(letters[i++], RECORD(REMOVE(5, from, to)), sizeof *letters);
    }
    memcpy(letters[i++], RECORD(REMOVE(6, 1, 3)), sizeof *letters);
    memcpy(letters[i++], RECORD(ADD(6, 2)), sizeof *letters);
    memcpy(letters[i++], RECORD(REMOVE(6, 2, 2)), sizeof *letters);
    check(i == LETTERS, "letters", "their number");
}

/* Whether a batch leaves a pair in the index, pair by pair. */
static bool stays(const uint32_t *batch, size_t records, uint32_t term, uint32_t position, bool before) {
    uint32_t latest = 0;
    bool in = before;
    for (const uint32_t *r = batch; records > 0; records--, r += GI_RECORD_WORDS) {
        bool touches = (r[1] == term || r[0] == GI_RECORD_ANNUL) && r[2] <= position && position <= r[3];
        if (touches && r[4] > latest) {
            latest = r[4];
            in = r[0] == GI_RECORD_ADD;
        }
    }
    return in;
}

/* The batch on an empty card, and on one with some of the pairs. */
static void as_pair_by_pair(const uint32_t *batch, size_t records) {
    struct card cards[] = {CARD(1, 8, 4, 0, 0, 0, 0, 0), WITH(CARD(1, 8, 4, 0, 1, 0, 0, 0), 0, 5, 2, 1, 2, 6, 2, 2, 3)};
    for (size_t k = 0; k < 2; k++) {
        char pairs[TEXT_ROOM] = "";
        size_t used = 0;
        for (uint32_t term = 5; term <= 6; term++)
            for (uint32_t position = 1; position <= POSITIONS; position++)
                if (stays(batch, records, term, position, k == 1 && (position == term - 4 || position == term - 3)))
                    used += (size_t)snprintf(pairs + used, TEXT_ROOM - used, "%s%" PRIu32 ":%" PRIu32,
                                             used == 0 ? "" : " ", term, position);
        struct card card = cards[k];
        bool done = run_pass(&card, batch, records * GI_RECORD_WORDS);
        check(done && strcmp(index_of(card.words), pairs) == 0, "pair by pair", pairs);
    }
}

/* Whether one letter may stand before another. */
static bool in_order(size_t one, size_t other) {
    const uint32_t *a = letters[one];
    const uint32_t *b = letters[other];
    return a[1] < b[1] || (a[1] == b[1] && a[2] <= b[2]);
}

static void every_two(void) {
    for (size_t i = 0; i < LETTERS; i++)
        for (size_t j = 0; j < LETTERS; j++) {
            if (!in_order(i, j))
                continue;
            uint32_t batch[2 * GI_RECORD_WORDS];
            put_record(batch, 0, letters[i]);
            put_record(batch, 1, letters[j]);
            as_pair_by_pair(batch, 2);
            batch[4] = UINT32_MAX;
            as_pair_by_pair(batch, 2);
        }
}

static void every_three(void) {
    static const uint32_t orders[6][3] = {{1, 2, 3}, {1, 3, 2}, {2, 1, 3}, {2, 3, 1}, {3, 1, 2}, {3, 2, 1}};
    uint32_t next = 0; /* which orders are taken: three of the six for each batch */
    for (size_t i = 0; i < LETTERS; i++)
        for (size_t j = 0; j < LETTERS; j++)
            for (size_t k = 0; k < LETTERS; k++) {
                if (!in_order(i, j) || !in_order(j, k))
                    continue;
                for (int turn = 0; turn < 3; turn++, next++) {
                    uint32_t batch[3 * GI_RECORD_WORDS];
                    put_record(batch, 0, letters[i]);
                    put_record(batch, 1, letters[j]);
                    put_record(batch, 2, letters[k]);
                    for (size_t r = 0; r < 3; r++)
                        batch[r * GI_RECORD_WORDS + 4] = orders[next * 7 % 6][r] * (next % 2 == 0 ? 1 : 1000000007);
                    as_pair_by_pair(batch, 3);
                }
                next++;
            }
}

/* ---- 4,096 records */

/* Each position of a term is added and removed, every third time in the other order;
 * and all of them are annulled, early. */
static void many_records(void) {
    const char *group = "4,096 records";
    enum { RECORDS = GI_BATCH_RECORDS_MAX, PAIRS = (RECORDS - 1) / 2 };
    static uint32_t batch[RECORDS * GI_RECORD_WORDS];
    static uint32_t card[GI_CONFIG_WORDS + 4 * (GI_MAP_ENTRY_WORDS + 1024)];
    static uint32_t answer[PAIRS];
    const size_t length = sizeof card / sizeof *card;
    PUT(batch, 0, ANNUL(1, UINT32_MAX));
    for (uint32_t i = 1; i <= PAIRS; i++) {
        uint32_t *record = batch + (size_t)(2 * i - 1) * GI_RECORD_WORDS;
        PUT(batch, 2 * i - 1, ADD(7, i));
        PUT(batch, 2 * i, REMOVE(7, i, i));
        /* far from the order of the records */
        record[4] = 0x40000000 + i * 2654435761u % 0x10000000 * 2;
        record[9] = i % 3 == 0 ? record[4] - 0x20000000 : record[4] + 0x20000000;
        if (i % 2 == 0)
            record[9] = record[9] ^ 1;
    }
    PUT(batch, RECORDS - 1, REMOVE(8, 1, 1));
    gi_format(card, length, 1024, 4);
    uint32_t finished = 0;
    uint32_t number = GI_DONE;
    for (int i = 0; i < 9 && number == GI_DONE && finished == 0; i++) {
        uint32_t write;
        uint32_t freed;
        number = gi_step(card, length, batch, sizeof batch / sizeof *batch, &write, &freed, &finished);
    }
    check_number(number, GI_DONE, group, "number");
    check_number(finished, 1, group, "finished");
    uint32_t found = 0;
    uint32_t blocks = 0;
    check_number(gi_lookup_all(card, length, 7, answer, PAIRS, &found, &blocks), GI_DONE, group, "looked up");
    check_number(found, PAIRS / 3, group, "as many as were added last");
    bool thirds = true;
    for (uint32_t i = 0; i < found; i++)
        thirds = thirds && answer[i] == 3 * (i + 1);
    check(thirds, group, "those that were added last");
}

/* ---- number 14 */

/* Step and forecast give the number; every count is 0 and every word lent stands. */
static void refused_on(const uint32_t *card, size_t length, const uint32_t *batch, size_t batch_length, uint32_t number,
                       const char *group, const char *what) {
    uint32_t *memory = malloc((length + 2) * sizeof *memory);
    uint32_t *records = malloc((batch_length + 2) * sizeof *records);
    check(memory != NULL && records != NULL, group, "memory for card and batch");
    if (memory != NULL && records != NULL) {
        memory[0] = memory[length + 1] = records[0] = records[batch_length + 1] = UNUSED;
        memcpy(memory + 1, card, length * sizeof *card);
        memcpy(records + 1, batch, batch_length * sizeof *batch);
        uint32_t step[] = {UNUSED, UNUSED, UNUSED};
        uint32_t told[] = {UNUSED, UNUSED, UNUSED, UNUSED};
        check_number(gi_forecast(memory + 1, length, records + 1, batch_length, told, told + 1, told + 2, told + 3),
                     number, group, what);
        check_number(gi_step(memory + 1, length, records + 1, batch_length, step, step + 1, step + 2), number, group,
                     what);
        check((step[0] | step[1] | step[2]) == 0, group, "the counts of the step");
        check((told[0] | told[1] | told[2] | told[3]) == 0, group, "the counts of the forecast");
        check(memcmp(memory + 1, card, length * sizeof *card) == 0, group, "the card stands");
        check(memcmp(records + 1, batch, batch_length * sizeof *batch) == 0, group, "the batch stands");
        check(memory[0] == UNUSED && memory[length + 1] == UNUSED && records[0] == UNUSED &&
                  records[batch_length + 1] == UNUSED,
              group, "the words beside them stand");
    }
    free(memory);
    free(records);
}

static void refused(struct card card, const uint32_t *batch, size_t batch_length, uint32_t number, const char *group,
                    const char *what) {
    refused_on(card.words, WORDS, batch, batch_length, number, group, what);
}

static void zeros(void) {
    const char *group = "number 14, an arrival number 0";
    refused(case1(), ARRIVED(ADDED(5, 3, 0)), 14, group, "an addition alone");
    refused(case1(), ARRIVED(REMOVED(5, 3, 9, 0)), 14, group, "a removal alone");
    refused(case1(), ARRIVED(ANNULLED(3, 9, 0)), 14, group, "an annulment alone");
    refused(case1(), ARRIVED(REMOVED(5, 9, 3, 0)), 14, group, "an empty range alone");
    refused(case1(), ARRIVED(ANNULLED(9, 3, 0)), 14, group, "an annulment of nothing alone");
    refused(case1(), ARRIVED(ADDED(5, 2, 0)), 14, group, "a pair that is there");
    for (uint32_t at = 0; at < 5; at++) {
        uint32_t batch[] = {ANNULLED(3, 3, 1), REMOVED(5, 9, 2, 2), ADDED(5, 9, 3), ADDED(6, 1, 4),
                            REMOVED(7, 5, 5, 5)};
        batch[at * GI_RECORD_WORDS + 4] = 0;
        refused(case1(), batch, sizeof batch / sizeof *batch, 14, group, "one of five");
        for (uint32_t other = 0; other < 5; other++) {
            batch[other * GI_RECORD_WORDS + 4] = 0;
            refused(case1(), batch, sizeof batch / sizeof *batch, 14, group, "some of five");
        }
    }
}

static void used_twice(void) {
    const char *group = "number 14, an arrival number twice";
    static const uint32_t same[] = {1, 2, 3, 4096, 4097, 65536, 0x7fffffff, 0x80000000, UINT32_MAX};
    for (size_t i = 0; i < sizeof same / sizeof *same; i++) {
        uint32_t n = same[i];
        refused(case1(), ARRIVED(ADDED(5, 3, n), ADDED(5, 3, n)), 14, group, "one addition twice");
        refused(case1(), ARRIVED(ADDED(5, 3, n), ADDED(7, 3, n)), 14, group, "two additions");
        refused(case1(), ARRIVED(ADDED(5, 2, n), REMOVED(5, 2, 9, n)), 14, group, "an addition and its removal");
        refused(case1(), ARRIVED(REMOVED(5, 2, 9, n), REMOVED(7, 1, 1, n)), 14, group, "two removals");
        refused(case1(), ARRIVED(ANNULLED(2, 2, n), ANNULLED(9, 9, n)), 14, group, "two annulments");
        refused(case1(), ARRIVED(ANNULLED(2, 2, n), ADDED(7, 4, n)), 14, group, "an annulment and an addition");
        refused(case1(), ARRIVED(REMOVED(5, 9, 2, n), ADDED(7, 4, n)), 14, group, "an empty range and an addition");
        refused(case1(), ARRIVED(ANNULLED(9, 2, n), REMOVED(7, 4, 3, n)), 14, group, "two empty ranges");
        refused(case1(), ARRIVED(ANNULLED(9, 2, n), ADDED(5, 1, 7), REMOVED(7, 4, 3, n)), 14, group, "far apart");
        refused(case1(), ARRIVED(ADDED(5, 1, n), ADDED(6, 1, n), ADDED(7, 1, n)), 14, group, "three times");
    }
    enum { RECORDS = 12 };
    uint32_t batch[RECORDS * GI_RECORD_WORDS];
    for (uint32_t one = 0; one < RECORDS; one++)
        for (uint32_t other = 0; other < one; other++) {
            for (uint32_t i = 0; i < RECORDS; i++) {
                PUT(batch, i, ADD(8, i + 1));
                batch[i * GI_RECORD_WORDS + 4] = (i * 5 % RECORDS + 1) * (one % 2 == 0 ? 1 : 300000007);
            }
            batch[one * GI_RECORD_WORDS + 4] = batch[other * GI_RECORD_WORDS + 4];
            refused(case1(), batch, sizeof batch / sizeof *batch, 14, group, "any two of twelve");
        }
}

/* The arrival numbers of 4,096 records. */
typedef uint32_t arrival_maker(uint32_t i);

static uint32_t rising(uint32_t i) {
    return i + 1;
}
static uint32_t falling(uint32_t i) {
    return GI_BATCH_RECORDS_MAX - i;
}
static uint32_t behind_them(uint32_t i) {
    return GI_BATCH_RECORDS_MAX + 1 + i;
}
static uint32_t highest(uint32_t i) {
    return UINT32_MAX - i;
}
static uint32_t same_low_halves(uint32_t i) {
    return (i + 1) << 16 | 7;
}
static uint32_t apart_by_4096(uint32_t i) {
    return 4096 * i + 1;
}
static uint32_t apart_by_2_to_20(uint32_t i) {
    return i << 20 | 1;
}
static uint32_t scattered(uint32_t i) {
    return (i + 1) * 2654435761u;
}

/* 4,096 different numbers are in order, wherever they stand; two alike and a 0 are not. */
static void many_arrivals(void) {
    const char *group = "4,096 arrival numbers";
    static uint32_t batch[GI_BATCH_RECORDS_MAX * GI_RECORD_WORDS];
    static arrival_maker *const makers[] = {rising,          falling,       behind_them,      highest,
                                            same_low_halves, apart_by_4096, apart_by_2_to_20, scattered};
    static const uint32_t twos_of[][2] = {{0, 4095}, {0, 1},   {4094, 4095}, {2047, 2048},
                                          {1, 4094}, {63, 64}, {100, 3000}};
    for (size_t k = 0; k < sizeof makers / sizeof *makers; k++) {
        for (uint32_t i = 0; i < GI_BATCH_RECORDS_MAX; i++) {
            PUT(batch, i, REMOVE(8, i + 1, i % 2 == 0 ? 1 : i + 1));
            batch[i * GI_RECORD_WORDS + 4] = makers[k](i);
        }
        leaves(case1(), batch, sizeof batch / sizeof *batch, "5:2 5:9 7:4", group, "all different");
        for (size_t t = 0; t < sizeof twos_of / sizeof *twos_of; t++) {
            uint32_t *word = batch + (size_t)twos_of[t][0] * GI_RECORD_WORDS + 4;
            uint32_t *other = batch + (size_t)twos_of[t][1] * GI_RECORD_WORDS + 4;
            uint32_t kept[] = {*word, *other};
            *word = *other;
            refused(case1(), batch, sizeof batch / sizeof *batch, 14, group, "the second's twice");
            *word = kept[0];
            *other = kept[0];
            refused(case1(), batch, sizeof batch / sizeof *batch, 14, group, "the first's twice");
            *other = 0;
            refused(case1(), batch, sizeof batch / sizeof *batch, 14, group, "one is 0");
            *other = kept[1];
        }
    }
}

/* 14 behind the card's numbers and 6, before 7 and 8. */
static void among_the_numbers(void) {
    const char *group = "6 before 14";
    refused(case1(), ARRIVED(GI_RECORD_ADD, 5, 3, 4, 0), 6, group, "an ill formed record of arrival 0");
    refused(case1(), ARRIVED(ADDED(5, 3, 0), ADDED(6, 0, 1)), 6, group, "another record is ill formed");
    refused(case1(), ARRIVED(ADDED(5, 3, 7), ADDED(6, 3, 7), REMOVED(7, 3, 0, 1)), 6, group, "two alike before it");
    refused(case1(), ARRIVED(4, 5, 3, 3, 0), 6, group, "another kind");
    refused(case1(), ARRIVED(GI_RECORD_ANNUL, 5, 3, 3, 0), 6, group, "kind 3 with a term");
    refused(case1(), ARRIVED(ADDED(0, 3, 0)), 6, group, "term 0");
    refused(case1(), ARRIVED(ADDED(5, 3, 0), 1), 6, group, "a word too many");
    refused(case1(), ARRIVED(ADDED(5, 3, 0), 1, 5, 4, 4), 6, group, "the last arrival number is missing");
    refused(case1(), ARRIVED(1, 5, 3, 3), 6, group, "four words");
    refused(case1(), ARRIVED(1, 5, 3, 3, 1, 6, 3, 3), 6, group, "two records of four words");
    static uint32_t many[(GI_BATCH_RECORDS_MAX + 1) * GI_RECORD_WORDS];
    for (uint32_t i = 0; i <= GI_BATCH_RECORDS_MAX; i++) {
        PUT(many, i, ADD(8, i + 1));
        many[i * GI_RECORD_WORDS + 4] = 0;
    }
    refused(case1(), many, sizeof many / sizeof *many, 6, group, "4,097 records of arrival 0");
    refused(case1(), many, sizeof many / sizeof *many - GI_RECORD_WORDS, 14, "number 14", "4,096 records of arrival 0");

    group = "the fifth word makes no record ill formed";
    static const uint32_t arrivals[] = {1, 2, 3, 4, 5, 256, 65536, 0x80000000, UINT32_MAX};
    for (size_t i = 0; i < sizeof arrivals / sizeof *arrivals; i++) {
        leaves(case1(), ARRIVED(ADDED(5, 3, arrivals[i])), "5:2 5:3 5:9 7:4", group, "an addition");
        leaves(case1(), ARRIVED(REMOVED(5, 3, 9, arrivals[i])), "5:2 7:4", group, "a removal");
        leaves(case1(), ARRIVED(ANNULLED(3, 9, arrivals[i])), "5:2", group, "an annulment");
    }

    group = "14 before 7";
    refused(case1(), ARRIVED(ADDED(6, 1, 0), ADDED(5, 1, 1)), 14, group, "terms fall, one is 0");
    refused(case1(), ARRIVED(ADDED(6, 1, 3), ADDED(5, 1, 3)), 14, group, "terms fall, two alike");
    refused(case1(), ARRIVED(ADDED(5, 3, 2), ANNULLED(1, 9, 2)), 14, group, "kind 3 behind a term");
    refused(case1(), ARRIVED(ADDED(6, 1, 3), ADDED(5, 1, 2), ADDED(7, 1, 2)), 14, group, "two alike behind the fall");
    refused(case1(), ARRIVED(ADDED(6, 1, 1), ADDED(5, 1, 2)), 7, group, "terms fall alone");
    refused(case1(), ARRIVED(ADDED(5, 1, 2), ADDED(6, 1, 1), ADDED(5, 9, 3)), 7, group, "arrivals in any order");
    leaves(case1(), ARRIVED(REMOVED(5, 2, 9, UINT32_MAX), REMOVED(5, 2, 2, 1)), "7:4", group,
           "falling arrivals are none");

    group = "14 before 8";
    refused(full(), ARRIVED(ADDED(1, 15, 0)), 14, group, "one is 0");
    refused(full(), ARRIVED(ADDED(1, 15, 1), ADDED(1, 16, 1)), 14, group, "two alike");
    uint32_t write;
    uint32_t freed;
    uint32_t finished;
    struct card card = full();
    check_number(gi_step(card.words, WORDS, ARRIVED(ADDED(1, 15, 1)), &write, &freed, &finished), 8, group, "8 alone");

    group = "the card before 14";
    card = case1();
    for (size_t length = 0; length < WORDS; length += 5)
        refused_on(card.words, length, ARRIVED(ADDED(5, 3, 0)), 1, group, "number 1");
    refused(changed(card, GI_CONFIG_PLACES, 5), ARRIVED(ADDED(5, 3, 0)), 1, group, "number 1, another N");
    refused(changed(card, GI_CONFIG_FORMAT, 2), ARRIVED(ADDED(5, 3, 0)), 2, group, "number 2");
    refused(changed(card, GI_CONFIG_PLACES, 1), ARRIVED(ADDED(5, 3, 1), ADDED(5, 4, 1)), 3, group, "number 3");
    refused(changed(card, map_word(0, 1), 3), ARRIVED(ADDED(5, 3, 0)), 4, group, "number 4");
    refused(changed(card, map_word(0, 1), 3), ARRIVED(ADDED(5, 3, 1), ADDED(5, 4, 1)), 4, group, "number 4, two alike");
}

/* ---- lines of text: a later line decides over an earlier one */

static void lines(void) {
    static const struct {
        const char *text;
        const char *pairs;
    } files[] = {{"A\t5\t3\nR\t5\t1\t9\n", "7:4"},
                 {"R\t5\t1\t9\nA\t5\t3\n", "5:3 7:4"},
                 {"R\t5\t1\t9\nA\t5\t3", "5:3 7:4"},
                 {"A\t5\t9\nR\t5\t2\t9\n", "7:4"},
                 {"R\t5\t2\t9\nA\t5\t9\n", "5:9 7:4"},
                 {"A\t5\t2\nR\t5\t2\t9\nA\t5\t2\n", "5:2 7:4"},
                 {"R\t5\t2\t9\nA\t5\t2\nR\t5\t2\t2\n", "7:4"},
                 {"A\t9\t1\nA\t6\t1\nR\t9\t1\t1\nR\t6\t1\t1\nA\t6\t1\n", "5:2 5:9 6:1 7:4"},
                 {"A\t5\t3\nR\t5\t3\t2\n", "5:2 5:3 5:9 7:4"},
                 {"R\t7\t4\t4\nA\t5\t2\nA\t7\t4\nR\t5\t1\t5\n", "5:9 7:4"}};
    for (size_t i = 0; i < sizeof files / sizeof *files; i++) {
        uint32_t batch[5 * GI_RECORD_WORDS];
        size_t words;
        size_t line;
        check_number(
            gi_scores((const uint8_t *)files[i].text, strlen(files[i].text), batch, 5 * GI_RECORD_WORDS, &words, &line),
            GI_DONE, "lines", files[i].text);
        leaves(case1(), batch, words, files[i].pairs, "lines", files[i].text);
    }
}

void test_arrival(void) {
    two_records();
    several_records();
    make_letters();
    every_two();
    every_three();
    many_records();
    zeros();
    used_twice();
    many_arrivals();
    among_the_numbers();
    lines();
}
