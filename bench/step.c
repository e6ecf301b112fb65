/* Times steps of a pass on the largest card, half full and full, with a batch of
 * 4,096 records, which arrive in their order or by chance, against the judge alone on
 * the same card, since every step judges first, and against a step in plain C. The
 * three take turns, call by call, and the median of each counts. Then times a whole
 * pass in memory. The target: an ordinary step takes at most 1.5 times the judge. */
#include <inttypes.h>
#include <stdbool.h>
#include <stdio.h>
#include <stdlib.h>
#include <string.h>

#include "bench.h"
#include "step_c.h"

enum { CALLS = 60 };

static const char *const writes[] = {
    [GI_WRITE_BLOCK] = "block",
    [GI_WRITE_MAP_ENTRY] = "map entry",
    [GI_WRITE_CONFIGURATION] = "configuration",
};

/* What a step that was not refused answers. */
struct answer {
    uint32_t write;
    uint32_t freed;
    uint32_t finished;
};

typedef uint32_t step_function(uint32_t *card, size_t card_len, const uint32_t *batch, size_t batch_len,
                               uint32_t *write, uint32_t *freed, uint32_t *finished);

static struct answer step_by(step_function *function, uint32_t *card, const uint32_t *batch) {
    struct answer answer;
    if (function(card, CARD_WORDS, batch, BATCH_WORDS, &answer.write, &answer.freed, &answer.finished) != GI_DONE)
        give_up("a step was refused");
    return answer;
}

static struct answer step(uint32_t *card, const uint32_t *batch) {
    return step_by(gi_step, card, batch);
}

/* A step, its seconds, and what it wrote; the card stands. */
struct timed {
    struct answer answer;
    double took;
    struct before words;
};

static void timed_step(step_function *function, uint32_t *card, const uint32_t *batch, struct timed *timed) {
    struct before words = kept(card);
    double began = seconds();
    timed->answer = step_by(function, card, batch);
    timed->took = seconds() - began;
    timed->words = kept_at(card, words.place);
    put_back(card, &words);
}

/* Times the step that is next, beside the judge and plain C; the card stands. */
static void time_step(const char *where, uint32_t *card, const uint32_t *batch) {
    static double in_step[CALLS];
    static double in_judge[CALLS];
    static double in_plain[CALLS];
    struct timed library;
    struct timed plain;
    for (int i = 0; i < CALLS; i++) {
        in_judge[i] = timed_judge(card);
        timed_step(gi_step, card, batch, &library);
        timed_step(step_c, card, batch, &plain);
        in_step[i] = library.took;
        in_plain[i] = plain.took;
        if (memcmp(&library.answer, &plain.answer, sizeof library.answer) != 0 ||
            memcmp(&library.words, &plain.words, sizeof library.words) != 0)
            give_up("library and plain C differ");
    }
    double took = median(in_step, CALLS);
    double judge = median(in_judge, CALLS);
    printf("%-40s %-14s %9.4f %9.4f %9.2f %9.2f\n", where, writes[library.answer.write], took * 1e3, judge * 1e3,
           took / judge, took / median(in_plain, CALLS));
}

/* Makes steps until a number of configuration writes is done. */
static void advance(uint32_t *card, const uint32_t *batch, uint32_t configurations) {
    while (configurations > 0)
        configurations -= step(card, batch).write == GI_WRITE_CONFIGURATION;
}

/* Times each of the three steps of the next block, and goes past it. */
static void time_block(const char *where, uint32_t *card, const uint32_t *batch) {
    for (int write = GI_WRITE_BLOCK; write <= GI_WRITE_CONFIGURATION; write++) {
        time_step(where, card, batch);
        step(card, batch);
    }
}

/* How the records of a batch arrive. */
typedef void arrival(uint32_t *batch);

static void time_card(const char *name, uint32_t *card, uint32_t *batch, uint32_t live, arrival *arrive) {
    char where[64];
    fill_zipf(card, live);
    zipf_batch(card, live, batch);
    arrive(batch);
    snprintf(where, sizeof where, "%s, first block", name);
    time_block(where, card, batch);
    advance(card, batch, live / 2);
    snprintf(where, sizeof where, "%s, in mid-pass", name);
    time_block(where, card, batch);
}

/* Times a pass from its first step to its last, with the judge before each step
 * timed apart. */
static void time_pass(const char *name, uint32_t *card, uint32_t *batch, uint32_t live, arrival *arrive) {
    fill_zipf(card, live);
    zipf_batch(card, live, batch);
    arrive(batch);
    double in_steps = 0;
    double in_judge = 0;
    uint32_t steps = 0;
    for (bool finished = false; !finished; steps++) {
        in_judge += timed_judge(card);
        double began = seconds();
        finished = step(card, batch).finished != 0;
        in_steps += seconds() - began;
    }
    printf("%-40s %14" PRIu32 " %9.2f %9.0f %9.2f\n", name, steps, in_steps, steps / in_steps, in_steps / in_judge);
}

int main(void) {
    uint32_t *card = words_for(CARD_WORDS);
    uint32_t *batch = words_for(BATCH_WORDS);
    printf("step, 4,096 records, ms a call (median of %d)\n", CALLS);
    printf("%-40s %-14s %9s %9s %9s %9s\n", "card", "write", "step", "judge", "/judge", "/C");
    time_card("512 places, in order", card, batch, PLACES / 2, arrive_in_order);
    time_card("512 places, by chance", card, batch, PLACES / 2, arrive_by_chance);
    time_card("1,023 places, in order", card, batch, LIVE_PLACES, arrive_in_order);
    time_card("1,023 places, by chance", card, batch, LIVE_PLACES, arrive_by_chance);
    printf("\nwhole pass, in memory\n%-40s %14s %9s %9s %9s\n", "card", "steps", "seconds", "steps/s", "/judge");
    time_pass("512 places, in order", card, batch, PLACES / 2, arrive_in_order);
    time_pass("512 places, by chance", card, batch, PLACES / 2, arrive_by_chance);
    time_pass("1,023 places, in order", card, batch, LIVE_PLACES, arrive_in_order);
    time_pass("1,023 places, by chance", card, batch, LIVE_PLACES, arrive_by_chance);
    free(batch);
    free(card);
    return 0;
}
