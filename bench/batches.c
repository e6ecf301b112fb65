/* Times a step and a forecast with batches that try to hold them up, against the
 * judge alone on the same card, and both against those in plain C. The cards are 81
 * full blocks, so that a step which withdraws every pair goes over all of them; one
 * that withdraws none stops when its block is full. A forecast always goes over all.
 * The last rows are ordinary batches. The five take turns, call by call, and the
 * median of each counts. The target: no batch makes a step longer than 500 times the
 * judge. */
#include <stdbool.h>
#include <stdio.h>
#include <stdlib.h>
#include <string.h>

#include "bench.h"
#include "forecast_c.h"
#include "step_c.h"

enum { CALLS = 61, BLOCKS = 81, ORDINARY_BLOCKS = 403, TERM = 5, LAST_TERM = 9 };

/* Fills the blocks with one term, but for the last of them, which has another. */
static void fill_two_terms(uint32_t *card) {
    uint32_t last = (OLD_START + BLOCKS - 1) % PLACES;
    fill_one_term(card, BLOCKS, TERM, APART);
    block_at(card, last)[0] = LAST_TERM;
    map_entry_at(card, last)[0] = LAST_TERM;
}

/* The record with a number, from 0, of a batch of 4,096. */
typedef void record_maker(uint32_t i, uint32_t record[GI_RECORD_WORDS]);

/* Puts all words of a record but its arrival number. */
static void put(uint32_t record[GI_RECORD_WORDS], uint32_t kind, uint32_t term, uint32_t from, uint32_t to) {
    memcpy(record, (const uint32_t[]){kind, term, from, to}, sizeof(uint32_t[4]));
}

static void overlapping(uint32_t i, uint32_t *record) {
    put(record, GI_RECORD_REMOVE, TERM, i + 1, GI_HIGHEST);
}
static void nested(uint32_t i, uint32_t *record) {
    put(record, GI_RECORD_REMOVE, TERM, i + 1, GI_HIGHEST - i);
}
static void equal(uint32_t i, uint32_t *record) {
    (void)i;
    put(record, GI_RECORD_REMOVE, TERM, 1, GI_HIGHEST);
}
static void narrow(uint32_t i, uint32_t *record) {
    put(record, GI_RECORD_REMOVE, TERM, APART * (i + 1), APART * (i + 1));
}
static void narrow_before_wide(uint32_t i, uint32_t *record) {
    put(record, GI_RECORD_REMOVE, TERM, i + 1, i + 1 < GI_BATCH_RECORDS_MAX ? i + 1 : GI_HIGHEST);
}
static void wide_with_additions(uint32_t i, uint32_t *record) {
    if (i == 0)
        put(record, GI_RECORD_REMOVE, TERM, 1, GI_HIGHEST);
    else
        put(record, GI_RECORD_ADD, TERM, GI_HIGHEST - GI_BATCH_RECORDS_MAX + i, GI_HIGHEST - GI_BATCH_RECORDS_MAX + i);
}
static void additions_among_pairs(uint32_t i, uint32_t *record) {
    uint32_t position = 60 * i;
    if (i == 0)
        put(record, GI_RECORD_REMOVE, TERM, 1, GI_HIGHEST);
    else
        put(record, GI_RECORD_ADD, TERM, position, position);
}
static void in_turn(uint32_t i, uint32_t *record) {
    uint32_t position = 60 * (i / 2) + 1 + i % 2;
    if (i % 2 == 0)
        put(record, GI_RECORD_REMOVE, TERM, position, GI_HIGHEST);
    else
        put(record, GI_RECORD_ADD, TERM, position, position);
}
static void a_term_each(uint32_t i, uint32_t *record) {
    put(record, GI_RECORD_REMOVE, i + 1, 1, GI_HIGHEST);
}
static void of_the_last_term(uint32_t i, uint32_t *record) {
    put(record, GI_RECORD_REMOVE, LAST_TERM, i + 1, GI_HIGHEST);
}
static void of_a_lower_term(uint32_t i, uint32_t *record) {
    put(record, GI_RECORD_REMOVE, i < GI_BATCH_RECORDS_MAX / 2 ? 1 : TERM, i + 1, GI_HIGHEST);
}

/* Ranges with no game in them: a start every ROUND positions, some 20 pairs, to the
 * lowest position. */
enum { ROUND = 60 };

static void empty_ranges(uint32_t i, uint32_t *record) {
    put(record, GI_RECORD_REMOVE, TERM, ROUND * (i + 1), 1);
}
static void wide_with_empty_ranges(uint32_t i, uint32_t *record) {
    put(record, GI_RECORD_REMOVE, TERM, ROUND * i + 1, i == 0 ? GI_HIGHEST : 1);
}

/* ---- annulments */

static void annul(uint32_t record[GI_RECORD_WORDS], uint32_t from, uint32_t to) {
    put(record, GI_RECORD_ANNUL, 0, from, to);
}

static void overlapping_rounds(uint32_t i, uint32_t *record) {
    annul(record, i + 1, GI_HIGHEST);
}
static void nested_rounds(uint32_t i, uint32_t *record) {
    annul(record, i + 1, GI_HIGHEST - i);
}
static void equal_rounds(uint32_t i, uint32_t *record) {
    (void)i;
    annul(record, 1, GI_HIGHEST);
}
static void narrow_rounds_before_wide(uint32_t i, uint32_t *record) {
    annul(record, i + 1, i + 1 < GI_BATCH_RECORDS_MAX ? i + 1 : GI_HIGHEST);
}
static void narrow_rounds(uint32_t i, uint32_t *record) {
    annul(record, APART * (i + 1), APART * (i + 1));
}
static void rounds_in_gaps(uint32_t i, uint32_t *record) {
    annul(record, APART * (i + 1) + 1, APART * (i + 1) + 1);
}
static void rounds_in_one_gap(uint32_t i, uint32_t *record) {
    enum { PAIRS_BEFORE = 500 }; /* of the first block */
    annul(record, APART * PAIRS_BEFORE + 1, APART * PAIRS_BEFORE + 1 + i % 2);
}
static void rounds_beyond(uint32_t i, uint32_t *record) {
    annul(record, GI_HIGHEST - GI_BATCH_RECORDS_MAX + i, GI_HIGHEST - GI_BATCH_RECORDS_MAX + i);
}

/* A start every ROUND positions. */
static void wide_rounds(uint32_t i, uint32_t *record) {
    annul(record, ROUND * i + 1, GI_HIGHEST);
}
static void wide_with_empty_rounds(uint32_t i, uint32_t *record) {
    annul(record, ROUND * i + 1, i == 0 ? GI_HIGHEST : 1);
}
static void empty_rounds(uint32_t i, uint32_t *record) {
    annul(record, ROUND * (i + 1), 1);
}
static void rounds_side_by_side(uint32_t i, uint32_t *record) {
    annul(record, ROUND * i + 1, i + 1 < GI_BATCH_RECORDS_MAX ? ROUND * (i + 1) : GI_HIGHEST);
}
static void rounds_and_removals(uint32_t i, uint32_t *record) {
    if (i < GI_BATCH_RECORDS_MAX / 2)
        annul(record, 2 * ROUND * i + 1, GI_HIGHEST);
    else
        put(record, GI_RECORD_REMOVE, TERM, 2 * ROUND * (i - GI_BATCH_RECORDS_MAX / 2) + 1, GI_HIGHEST);
}
static void rounds_and_additions(uint32_t i, uint32_t *record) {
    uint32_t half = GI_BATCH_RECORDS_MAX / 2;
    uint32_t position = 2 * ROUND * (i % half) + 1;
    if (i < half)
        annul(record, position, GI_HIGHEST);
    else
        put(record, GI_RECORD_ADD, TERM, position, position);
}

/* ---- additions and removals of the same pairs, where arrival decides */

enum {
    RECORDS = GI_BATCH_RECORDS_MAX,
    HALF = RECORDS / 2,
    LAST_POSITION = APART * BLOCKS * (BLOCK_WORDS - 2), /* of the card of one term */
    STAIR = LAST_POSITION / HALF                        /* how far the ends of a staircase are apart */
};

/* Position j of an addition behind all removals of a staircase, in its stretch j. */
static uint32_t on_stair(uint32_t j) {
    uint32_t middle = STAIR * j + STAIR / 2;
    return middle > HALF + j ? middle : HALF + 1 + j;
}

/* Removals whose ends rise by a stair, then additions between the ends. */
static void staircase(uint32_t i, uint32_t *record) {
    if (i < HALF)
        put(record, GI_RECORD_REMOVE, TERM, i + 1, STAIR * (i + 1));
    else
        put(record, GI_RECORD_ADD, TERM, on_stair(i - HALF), on_stair(i - HALF));
}
/* The same with ends that fall: each removal is inside the one before. */
static void falling_staircase(uint32_t i, uint32_t *record) {
    if (i < HALF)
        put(record, GI_RECORD_REMOVE, TERM, i + 1, STAIR * (HALF - i) + HALF);
    else
        put(record, GI_RECORD_ADD, TERM, on_stair(i - HALF), on_stair(i - HALF));
}
/* A quarter of such a staircase, then removals of one pair and additions in turn, then
 * additions on the stairs: the most records that searches for the latest removal can go
 * over. */
static void stairs_and_turns(uint32_t i, uint32_t *record) {
    enum {
        QUARTER = HALF / 2,
        STEP = LAST_POSITION / HALF / APART * APART,
        TURNS = APART * QUARTER,              /* where the turns start */
        MIDDLE = TURNS + STEP * (QUARTER + 1) /* and the stairs */
    };
    uint32_t turn = i < QUARTER ? 0 : (i - QUARTER) / 2;
    if (i < QUARTER)
        put(record, GI_RECORD_REMOVE, TERM, i + 1, MIDDLE + STEP * (QUARTER - i));
    else if (turn < QUARTER && i % 2 == 0)
        put(record, GI_RECORD_REMOVE, TERM, TURNS + STEP * turn, TURNS + STEP * turn);
    else if (turn < QUARTER)
        put(record, GI_RECORD_ADD, TERM, TURNS + STEP * turn + 1, TURNS + STEP * turn + 1);
    else
        put(record, GI_RECORD_ADD, TERM, MIDDLE + STEP * (i - 3 * QUARTER) + 1, MIDDLE + STEP * (i - 3 * QUARTER) + 1);
}
/* The same with rounds. */
static void staircase_of_rounds(uint32_t i, uint32_t *record) {
    if (i < HALF)
        annul(record, i + 1, STAIR * (i + 1));
    else
        put(record, GI_RECORD_ADD, TERM, on_stair(i - HALF), on_stair(i - HALF));
}
/* A wide removal, then 63 additions, again and again. */
static void groups(uint32_t i, uint32_t *record) {
    uint32_t position = ROUND * i + 1;
    if (i % 64 == 0)
        put(record, GI_RECORD_REMOVE, TERM, position, GI_HIGHEST);
    else
        put(record, GI_RECORD_ADD, TERM, position, position);
}
static void every_tenth(uint32_t i, uint32_t *record) {
    uint32_t position = ROUND * i + 1;
    if (i % 10 == 0)
        put(record, GI_RECORD_REMOVE, TERM, position, GI_HIGHEST);
    else
        put(record, GI_RECORD_ADD, TERM, position, position);
}
/* One pair, added again and again, in a wide removal; or added and removed in turn. */
static void one_pair(uint32_t i, uint32_t *record) {
    if (i == 0)
        put(record, GI_RECORD_REMOVE, TERM, 1, GI_HIGHEST);
    else
        put(record, GI_RECORD_ADD, TERM, HALF, HALF);
}
static void one_pair_in_turn(uint32_t i, uint32_t *record) {
    put(record, i % 2 == 0 ? GI_RECORD_REMOVE : GI_RECORD_ADD, TERM, 1, i % 2 == 0 ? GI_HIGHEST : 1);
}
/* A narrow removal, then additions and wide removals in turn. */
static void narrow_then_in_turn(uint32_t i, uint32_t *record) {
    if (i == 0)
        put(record, GI_RECORD_REMOVE, TERM, 1, 1);
    else
        in_turn(i, record);
}
/* Nested rounds, then additions at positions in all of them: of the one term, of a
 * term each at one position, and of a term each, low and high in turn, so that each
 * has to be sought from the other end of the rounds. */
static void nested_half(uint32_t i, uint32_t *record) {
    annul(record, i + 1, GI_HIGHEST - i);
}
static void nested_rounds_and_additions(uint32_t i, uint32_t *record) {
    if (i < HALF)
        nested_half(i, record);
    else
        put(record, GI_RECORD_ADD, TERM, on_stair(i - HALF), on_stair(i - HALF));
}
static void nested_rounds_and_terms(uint32_t i, uint32_t *record) {
    if (i < HALF)
        nested_half(i, record);
    else
        put(record, GI_RECORD_ADD, i - HALF + 1, HALF + 7, HALF + 7);
}
static void rounds_low_and_high(uint32_t i, uint32_t *record) {
    uint32_t j = i - HALF;
    uint32_t position = j % 2 == 0 ? STAIR : LAST_POSITION - STAIR * (j % 64);
    if (i < HALF)
        annul(record, STAIR * i / 2 + 1, STAIR * (i + 2));
    else
        put(record, GI_RECORD_ADD, j / 2 + 1, position, position);
}
/* A third each of rounds, removals and additions, all wide. */
static void thirds(uint32_t i, uint32_t *record) {
    enum { THIRD = RECORDS / 3 };
    uint32_t j = i - THIRD;
    uint32_t position = STAIR * (j / 2) + 1 + j % 2;
    if (i < THIRD)
        annul(record, STAIR * i + 1, GI_HIGHEST);
    else if (j % 2 == 0)
        put(record, GI_RECORD_REMOVE, TERM, position, GI_HIGHEST);
    else
        put(record, GI_RECORD_ADD, TERM, position, position);
}

/* The arrival number of the record with a number, from 0, and a kind. */
typedef uint32_t arrival_maker(uint32_t i, uint32_t kind);

static uint32_t in_order(uint32_t i, uint32_t kind) {
    (void)kind;
    return i + 1;
}
static uint32_t in_reverse(uint32_t i, uint32_t kind) {
    (void)kind;
    return RECORDS - i;
}
static uint32_t at_random(uint32_t i, uint32_t kind) {
    static uint32_t state = 521288629;
    (void)i;
    (void)kind;
    return chance(&state); /* different words: their circle is far longer than all batches */
}
/* Removals rise or fall; additions are latest, earliest, or fall and rise against them. */
static uint32_t rising_additions_latest(uint32_t i, uint32_t kind) {
    return kind == GI_RECORD_ADD ? RECORDS + 1 + i : i + 1;
}
static uint32_t falling_additions_latest(uint32_t i, uint32_t kind) {
    return kind == GI_RECORD_ADD ? RECORDS + 1 + i : RECORDS - i;
}
static uint32_t rising_additions_earliest(uint32_t i, uint32_t kind) {
    return kind == GI_RECORD_ADD ? i + 1 : RECORDS + 1 + i;
}
static uint32_t falling_additions_earliest(uint32_t i, uint32_t kind) {
    return kind == GI_RECORD_ADD ? i + 1 : 2 * RECORDS - i;
}
static uint32_t rising_additions_against(uint32_t i, uint32_t kind) {
    return kind == GI_RECORD_ADD ? 2 * (RECORDS - i) : 2 * i + 1;
}
static uint32_t falling_additions_against(uint32_t i, uint32_t kind) {
    return kind == GI_RECORD_ADD ? 2 * i + 1 : 2 * (RECORDS - i);
}
/* Of a staircase: addition j comes just before or just after removal j, the latest of
 * those that cover it, and every removal that ended before it came later still. */
static uint32_t on_the_stairs(uint32_t i, uint32_t kind) {
    uint32_t removal = 3 * (HALF - i % HALF);
    if (kind != GI_RECORD_ADD)
        return removal;
    return i % 2 == 0 ? removal + 1 : removal - 1;
}
/* The first record is the latest of all. */
static uint32_t first_latest(uint32_t i, uint32_t kind) {
    return i == 0 ? GI_HIGHEST : falling_additions_against(i, kind);
}

/* On cards of many terms, parts of LENGTH positions with one between them that is
 * in none. The positions of the cards lie in these parts. */
enum { LENGTH = 15, PARTS = GI_BATCH_RECORDS_MAX };

static uint32_t part_start(uint32_t part) {
    return (LENGTH + 1) * part + 1;
}

static void parts(uint32_t i, uint32_t *record) {
    annul(record, part_start(i), part_start(i) + LENGTH - 1);
}
static void wide_parts(uint32_t i, uint32_t *record) {
    annul(record, part_start(i), GI_HIGHEST);
}
static void wide_with_empty_parts(uint32_t i, uint32_t *record) {
    annul(record, part_start(i), i == 0 ? GI_HIGHEST : part_start(i) - LENGTH);
}
static void parts_before_wide(uint32_t i, uint32_t *record) {
    annul(record, part_start(i), i + 1 < PARTS ? part_start(i) + LENGTH - 1 : GI_HIGHEST);
}
static void between_parts(uint32_t i, uint32_t *record) {
    annul(record, part_start(i) + LENGTH, part_start(i) + LENGTH);
}
static void empty_parts(uint32_t i, uint32_t *record) {
    annul(record, part_start(i) + 1, part_start(i));
}
static void later_parts(uint32_t i, uint32_t *record) {
    annul(record, part_start(i + 1), part_start(i + 1) + LENGTH - 1);
}

/* ---- positions for them */

/* A position of a part, by chance. */
static uint32_t in_part(uint32_t part) {
    static uint32_t state = 2463534242;
    return part_start(part) + chance(&state) % LENGTH;
}

static uint32_t the_same(uint32_t term, uint32_t i) {
    (void)term;
    return part_start(PARTS / 2) + i;
}
static uint32_t by_chance(uint32_t term, uint32_t i) {
    static uint32_t state = 88675123;
    (void)term;
    (void)i;
    return in_part(chance(&state) % PARTS);
}
static uint32_t falling(uint32_t term, uint32_t i) {
    return part_start(PARTS - 1 - term % PARTS) + i;
}
static uint32_t first_and_last(uint32_t term, uint32_t i) {
    (void)term;
    return part_start(i == 0 ? 0 : PARTS - 1);
}
static uint32_t below_and_above(uint32_t term, uint32_t i) {
    (void)term;
    return i == 0 ? 1 : GI_HIGHEST;
}

/* The positions of a term lie apart by as many parts as there is room for, each
 * in a part by chance. */
static uint32_t spread; /* positions of a term */

static uint32_t far_apart(uint32_t term, uint32_t i) {
    static uint32_t state = 362436069;
    (void)term;
    uint32_t band = PARTS / spread;
    return in_part(band * i + chance(&state) % band);
}

/* ---- the clock */

struct figures {
    uint32_t blocks;
    uint32_t limit;
    uint32_t finishes;
    uint32_t writes;
};

static double timed_step(uint32_t *card, const uint32_t *batch, uint32_t *finished) {
    uint32_t write;
    uint32_t freed;
    double began = seconds();
    if (gi_step(card, CARD_WORDS, batch, BATCH_WORDS, &write, &freed, finished) != GI_DONE)
        give_up("a step was refused");
    return seconds() - began;
}

static double timed_forecast(const uint32_t *card, const uint32_t *batch, struct figures *told) {
    double began = seconds();
    if (gi_forecast(card, CARD_WORDS, batch, BATCH_WORDS, &told->blocks, &told->limit, &told->finishes,
                    &told->writes) != GI_DONE)
        give_up("a forecast was refused");
    return seconds() - began;
}

static double timed_plain_step(uint32_t *card, const uint32_t *batch, uint32_t *finished) {
    uint32_t write;
    uint32_t freed;
    double began = seconds();
    if (step_c(card, CARD_WORDS, batch, BATCH_WORDS, &write, &freed, finished) != GI_DONE)
        give_up("a step in plain C was refused");
    return seconds() - began;
}

static double timed_plain(const uint32_t *card, const uint32_t *batch, struct figures *told) {
    double began = seconds();
    if (forecast_c(card, CARD_WORDS, batch, BATCH_WORDS, &told->blocks, &told->limit, &told->finishes, &told->writes) !=
        GI_DONE)
        give_up("a forecast in plain C was refused");
    return seconds() - began;
}

/* Gives whether the step finished its pass: nothing remained, so it went over the
 * whole card. */
static bool time_batch(const char *name, uint32_t *card, const uint32_t *batch) {
    static double in_step[CALLS];
    static double in_judge[CALLS];
    static double in_forecast[CALLS];
    static double in_plain[CALLS];
    static double in_plain_step[CALLS];
    struct before words = kept(card);
    struct figures told;
    struct figures plainly;
    uint32_t finished = 0;
    uint32_t plain_finished = 0;
    for (int i = 0; i < CALLS; i++) {
        in_judge[i] = timed_judge(card);
        in_step[i] = timed_step(card, batch, &finished);
        struct before stepped = kept_at(card, words.place);
        put_back(card, &words);
        in_plain_step[i] = timed_plain_step(card, batch, &plain_finished);
        struct before plain_stepped = kept_at(card, words.place);
        put_back(card, &words);
        if (finished != plain_finished || memcmp(&stepped, &plain_stepped, sizeof stepped) != 0)
            give_up("the steps differ");
        in_forecast[i] = timed_forecast(card, batch, &told);
        in_plain[i] = timed_plain(card, batch, &plainly);
        if (memcmp(&told, &plainly, sizeof told) != 0)
            give_up("the forecasts differ");
    }
    double step = median(in_step, CALLS);
    double judge = median(in_judge, CALLS);
    double forecast = median(in_forecast, CALLS);
    double plain = median(in_plain, CALLS);
    double plain_step = median(in_plain_step, CALLS);
    printf("%-48s %8.4f %8.4f %7.2f %7.2f %9.4f %7.2f %7.2f\n", name, judge * 1e3, step * 1e3, step / judge,
           step / plain_step, forecast * 1e3, forecast / judge, forecast / plain);
    return finished != 0;
}

static bool time_arrived(const char *name, uint32_t *card, uint32_t *batch, record_maker *make,
                         arrival_maker *arrival) {
    for (uint32_t i = 0; i < GI_BATCH_RECORDS_MAX; i++) {
        uint32_t *record = batch + i * GI_RECORD_WORDS;
        make(i, record);
        record[4] = arrival(i, record[0]);
    }
    return time_batch(name, card, batch);
}

static bool time_made(const char *name, uint32_t *card, uint32_t *batch, record_maker *make) {
    return time_arrived(name, card, batch, make, in_order);
}

/* Annulments that withdraw every pair. */
static void time_whole(const char *name, uint32_t *card, uint32_t *batch, record_maker *make) {
    if (!time_made(name, card, batch, make))
        give_up("pairs remained");
}

/* Records that leave a full block. */
static void time_part(const char *name, uint32_t *card, uint32_t *batch, record_maker *make) {
    if (time_made(name, card, batch, make))
        give_up("no pairs remained");
}

static void heading(const char *cards) {
    printf("\n%-48s %8s %8s %7s %7s %9s %7s %7s\n", cards, "judge", "step", "/judge", "/C", "forecast", "/judge", "/C");
}

/* Batches in which additions and removals meet, by how they arrive. */
static void time_meetings(uint32_t *card, uint32_t *batch) {
    fill_one_term(card, BLOCKS, TERM, APART);
    heading("additions and removals that meet, same card");
    time_arrived("in turn, removals rise, additions latest", card, batch, in_turn, rising_additions_latest);
    time_arrived("in turn, removals fall, additions latest", card, batch, in_turn, falling_additions_latest);
    time_arrived("in turn, removals rise, additions earliest", card, batch, in_turn, rising_additions_earliest);
    time_arrived("in turn, removals fall, additions earliest", card, batch, in_turn, falling_additions_earliest);
    time_arrived("in turn, removals rise, additions fall", card, batch, in_turn, rising_additions_against);
    time_arrived("in turn, removals fall, additions rise", card, batch, in_turn, falling_additions_against);
    time_arrived("in turn, by chance", card, batch, in_turn, at_random);
    time_arrived("a narrow removal, the latest, then in turn", card, batch, narrow_then_in_turn, first_latest);
    time_arrived("one wide removal, earliest, additions", card, batch, additions_among_pairs, in_order);
    time_arrived("one wide removal, latest, additions", card, batch, additions_among_pairs, in_reverse);
    time_arrived("one wide removal, additions, by chance", card, batch, additions_among_pairs, at_random);
    time_arrived("wide removals of 63 additions each, in order", card, batch, groups, in_order);
    time_arrived("wide removals of 63 additions each, reversed", card, batch, groups, in_reverse);
    time_arrived("every tenth a removal, in order", card, batch, every_tenth, in_order);
    time_arrived("every tenth a removal, reversed", card, batch, every_tenth, in_reverse);
    time_arrived("every tenth a removal, by chance", card, batch, every_tenth, at_random);
    time_arrived("one pair added 4,095 times, a wide removal", card, batch, one_pair, at_random);
    time_arrived("one pair added and removed in turn, by chance", card, batch, one_pair_in_turn, at_random);
    time_arrived("a staircase, removals fall, additions beside", card, batch, staircase, on_the_stairs);
    time_arrived("a staircase, removals fall, additions earliest", card, batch, staircase, falling_additions_earliest);
    time_arrived("a staircase, removals fall, additions latest", card, batch, staircase, falling_additions_latest);
    time_arrived("a staircase, removals rise, additions earliest", card, batch, staircase, rising_additions_earliest);
    time_arrived("a staircase, by chance", card, batch, staircase, at_random);
    time_arrived("a falling staircase, removals rise, earliest", card, batch, falling_staircase,
                 rising_additions_earliest);
    time_arrived("a falling staircase, removals fall, earliest", card, batch, falling_staircase,
                 falling_additions_earliest);
    time_arrived("a falling staircase, by chance", card, batch, falling_staircase, at_random);
    time_arrived("a falling staircase, turns, additions, earliest", card, batch, stairs_and_turns,
                 rising_additions_earliest);
}

/* The same where the removals are rounds. */
static void time_rounds_met(uint32_t *card, uint32_t *batch) {
    heading("additions and annulments that meet, same card");
    time_arrived("rounds, additions, all additions latest", card, batch, rounds_and_additions, rising_additions_latest);
    time_arrived("rounds, additions, all additions earliest", card, batch, rounds_and_additions,
                 rising_additions_earliest);
    time_arrived("rounds fall, additions earliest", card, batch, rounds_and_additions, falling_additions_earliest);
    time_arrived("rounds fall, additions rise", card, batch, rounds_and_additions, falling_additions_against);
    time_arrived("rounds, additions, by chance", card, batch, rounds_and_additions, at_random);
    time_arrived("a staircase of rounds, additions beside", card, batch, staircase_of_rounds, on_the_stairs);
    time_arrived("a staircase of rounds, additions earliest", card, batch, staircase_of_rounds,
                 falling_additions_earliest);
    time_arrived("a staircase of rounds, by chance", card, batch, staircase_of_rounds, at_random);
    time_arrived("nested rounds, additions latest", card, batch, nested_rounds_and_additions, rising_additions_latest);
    time_arrived("nested rounds, additions earliest", card, batch, nested_rounds_and_additions,
                 rising_additions_earliest);
    time_arrived("nested rounds, a term each, latest", card, batch, nested_rounds_and_terms, rising_additions_latest);
    time_arrived("nested rounds, a term each, earliest", card, batch, nested_rounds_and_terms,
                 rising_additions_earliest);
    time_arrived("nested rounds, a term each, by chance", card, batch, nested_rounds_and_terms, at_random);
    time_arrived("rounds, a low and a high addition a term, latest", card, batch, rounds_low_and_high,
                 falling_additions_latest);
    time_arrived("the same, earliest", card, batch, rounds_low_and_high, falling_additions_earliest);
    time_arrived("the same, by chance", card, batch, rounds_low_and_high, at_random);
    time_arrived("a third rounds, removals, additions, latest", card, batch, thirds, rising_additions_latest);
    time_arrived("a third rounds, removals, additions, earliest", card, batch, thirds, falling_additions_earliest);
    time_arrived("a third rounds, removals, additions, by chance", card, batch, thirds, at_random);
}

/* An ordinary batch in two forms. */
static void time_ordinary(const char *name, uint32_t *card, uint32_t *batch) {
    char row[64];
    snprintf(row, sizeof row, "%s, in order", name);
    arrive_in_order(batch);
    time_batch(row, card, batch);
    snprintf(row, sizeof row, "%s, by chance", name);
    arrive_by_chance(batch);
    time_batch(row, card, batch);
}

static void time_one_term(uint32_t *card, uint32_t *batch) {
    fill_one_term(card, BLOCKS, TERM, APART);
    heading("annulments of all, on the same card");
    time_whole("overlapping", card, batch, overlapping_rounds);
    time_whole("nested", card, batch, nested_rounds);
    time_whole("equal", card, batch, equal_rounds);
    time_whole("narrow ones before a wide one", card, batch, narrow_rounds_before_wide);
    time_whole("wide, starts over all positions", card, batch, wide_rounds);
    time_whole("one wide, the others with no game in them", card, batch, wide_with_empty_rounds);
    time_whole("side by side over all positions", card, batch, rounds_side_by_side);
    time_whole("half of them, then removals of the term", card, batch, rounds_and_removals);
    heading("annulments until a block is full, same card");
    time_part("half of them, then additions among the pairs", card, batch, rounds_and_additions);
    time_part("of one position each", card, batch, narrow_rounds);
    time_part("of nothing, between the positions", card, batch, rounds_in_gaps);
    time_part("of nothing, between two positions", card, batch, rounds_in_one_gap);
    time_part("of nothing, beyond the last", card, batch, rounds_beyond);
    time_part("of nothing, from above to", card, batch, empty_rounds);
}

/* The same records on entries whose positions they all withdraw; in the last row the
 * first of them alone does, and the others have no game in them. */
static void time_entries(const char *name, uint32_t *card, uint32_t *batch, uint32_t count, position_maker *position) {
    char row[64];
    spread = count;
    fill_entries(card, BLOCKS, count, position);
    snprintf(row, sizeof row, "%s, narrow", name);
    time_whole(row, card, batch, parts);
    snprintf(row, sizeof row, "%s, wide", name);
    time_whole(row, card, batch, wide_parts);
    snprintf(row, sizeof row, "%s, one wide", name);
    time_whole(row, card, batch, wide_with_empty_parts);
}

static void time_many_terms(uint32_t *card, uint32_t *batch) {
    heading("annulments of all, 81 blocks of many terms");
    time_entries("one position, the same", card, batch, 1, the_same);
    time_entries("one position, by chance", card, batch, 1, by_chance);
    time_whole("the same, narrow ones before a wide one", card, batch, parts_before_wide);
    time_entries("one position, falling", card, batch, 1, falling);
    time_entries("two positions, first and last", card, batch, 2, first_and_last);
    time_entries("2 positions, far apart", card, batch, 2, far_apart);
    time_entries("4 positions, far apart", card, batch, 4, far_apart);
    time_entries("16 positions, far apart", card, batch, 16, far_apart);
    time_entries("64 positions, far apart", card, batch, 64, far_apart);
    time_entries("255 positions, far apart", card, batch, 255, far_apart);
    time_entries("1,022 positions, far apart", card, batch, 1022, far_apart);
    heading("annulments of nothing, on such blocks");
    fill_entries(card, BLOCKS, 2, below_and_above);
    time_part("two positions, below and above", card, batch, later_parts);
    fill_entries(card, BLOCKS, 1, by_chance);
    time_part("one position, by chance", card, batch, between_parts);
    spread = 64;
    fill_entries(card, BLOCKS, spread, far_apart);
    time_part("64 positions, far apart", card, batch, between_parts);
    time_part("64 positions, far apart, from above to", card, batch, empty_parts);
}

/* Rounds over all parts, and additions of a term each, at positions by chance that the
 * card has or not: on such blocks every pair is sought among the rounds anew. */
static void parts_and_terms(uint32_t i, uint32_t *record) {
    static uint32_t state = 123456789;
    uint32_t position = part_start(chance(&state) % PARTS);
    if (i < HALF)
        annul(record, part_start(2 * i), GI_HIGHEST);
    else
        put(record, GI_RECORD_ADD, i - HALF + 1, position, position);
}

static void time_many_terms_met(uint32_t *card, uint32_t *batch) {
    heading("rounds and additions of a term each, such blocks");
    spread = 64;
    fill_entries(card, BLOCKS, spread, far_apart);
    time_arrived("64 positions, far apart, additions latest", card, batch, parts_and_terms, rising_additions_latest);
    time_arrived("64 positions, far apart, additions earliest", card, batch, parts_and_terms,
                 falling_additions_earliest);
    time_arrived("64 positions, far apart, by chance", card, batch, parts_and_terms, at_random);
    fill_entries(card, BLOCKS, 1, by_chance);
    time_arrived("one position, by chance, additions earliest", card, batch, parts_and_terms,
                 falling_additions_earliest);
    time_arrived("one position, by chance, by chance", card, batch, parts_and_terms, at_random);
}

int main(void) {
    uint32_t *card = words_for(CARD_WORDS);
    uint32_t *batch = words_for(BATCH_WORDS);
    printf("step and forecast, 4,096 records, ms a call (median of %d)\n", CALLS);
    heading("batch, on 81 blocks of one term");
    fill_one_term(card, BLOCKS, TERM, APART);
    time_made("removals, overlapping", card, batch, overlapping);
    time_made("removals, nested", card, batch, nested);
    time_made("removals, equal", card, batch, equal);
    time_made("removals, narrow", card, batch, narrow);
    time_made("removals, narrow ones before a wide one", card, batch, narrow_before_wide);
    time_made("a wide removal, additions beyond the pairs", card, batch, wide_with_additions);
    time_made("a wide removal, additions among the pairs", card, batch, additions_among_pairs);
    time_made("additions and wide removals in turn", card, batch, in_turn);
    time_made("removals with no game in them", card, batch, empty_ranges);
    time_made("a wide removal, such ranges behind it", card, batch, wide_with_empty_ranges);
    time_made("removals, a term each", card, batch, a_term_each);
    time_made("removals of a lower term, then of the term", card, batch, of_a_lower_term);
    fill_two_terms(card);
    time_made("removals of the last term", card, batch, of_the_last_term);
    time_one_term(card, batch);
    time_meetings(card, batch);
    time_rounds_met(card, batch);
    time_many_terms(card, batch);
    time_many_terms_met(card, batch);
    fill_zipf(card, ORDINARY_BLOCKS);
    heading("ordinary batches, on 403 blocks");
    zipf_additions(card, ORDINARY_BLOCKS, batch);
    time_ordinary("Zipf additions", card, batch);
    zipf_batch(card, ORDINARY_BLOCKS, batch);
    time_ordinary("Zipf additions and removals", card, batch);
    zipf_annulments(card, ORDINARY_BLOCKS, batch);
    time_ordinary("16 annulments and Zipf additions", card, batch);
    free(batch);
    free(card);
    return 0;
}
