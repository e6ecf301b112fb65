/* Fuzzes passes: a batch applied to a card by the library and by the plain C step, word for
 * word; what the forecast says of it; and the same pass cut short in one of its writes. */
#include <string.h>

#include "forecast_c.h"
#include "fuzz.h"
#include "step_c.h"

int LLVMFuzzerTestOneInput(const uint8_t *bytes, size_t length);

/* What the forecast tells, at 1, 3, 5 and 7. */
enum { BLOCKS = 1, LIMIT = 3, FINISHES = 5, WRITES = 7 };

/* What a step tells, at 1, 3 and 5. */
enum { WRITE = 1, FREED = 3, FINISHED = 5 };

/* The forecast of both, which agree and write nothing else. */
static uint32_t foretell(struct words card, struct words batch, struct told *told) {
    struct told twin = told_nothing();
    struct words lent = lend(card);
    struct words records = lend(batch);
    *told = told_nothing();
    uint32_t number = gi_forecast(lent.at, lent.count, records.at, records.count, &told->at[BLOCKS], &told->at[LIMIT],
                                  &told->at[FINISHES], &told->at[WRITES]);
    take_back_unchanged(lent, card);
    take_back_unchanged(records, batch);
    assert(number == forecast_c(card.at, card.count, batch.at, batch.count, &twin.at[BLOCKS], &twin.at[LIMIT],
                                &twin.at[FINISHES], &twin.at[WRITES]));
    assert(told_same(*told, twin));
    return number;
}

/* Sees that a step changed the card nowhere but where its write stands. */
static void see_span(struct words before, struct words after, uint32_t write) {
    size_t start;
    size_t count;
    assert(gi_write_span(after.at, after.count, write, &start, &count) == GI_DONE);
    assert(count != 0 && start + count <= after.count);
    assert(memcmp(before.at, after.at, start * sizeof *after.at) == 0);
    size_t end = start + count;
    assert(memcmp(before.at + end, after.at + end, (after.count - end) * sizeof *after.at) == 0);
}

/* One step of both, which agree. */
static uint32_t step(struct words card, struct words batch, struct told *told) {
    struct told twin = told_nothing();
    struct words before = words_of(card.at, card.count);
    struct words lent = lend(card);
    struct words records = lend(batch);
    *told = told_nothing();
    uint32_t number = gi_step(lent.at, lent.count, records.at, records.count, &told->at[WRITE], &told->at[FREED],
                              &told->at[FINISHED]);
    assert(number ==
           step_c(card.at, card.count, batch.at, batch.count, &twin.at[WRITE], &twin.at[FREED], &twin.at[FINISHED]));
    assert(told_same(*told, twin) && words_same(lent, card));
    if (number == GI_DONE)
        see_span(before, card, told->at[WRITE]);
    else
        assert(words_same(before, card));
    take_back(lent);
    take_back_unchanged(records, batch);
    words_free(before);
    return number;
}

/* Makes the pass to its end, which is the one foretold at its start and at every step. Gives
 * the steps that were not refused. */
static size_t make_pass(struct words card, struct words batch) {
    struct told start;
    struct told now;
    struct told told = told_nothing();
    size_t steps = 0;
    uint32_t writes = 0;
    uint32_t number = foretell(card, batch, &start);
    if (number != GI_DONE) {
        assert(step(card, batch, &told) == number);
        return 0;
    }
    do {
        number = step(card, batch, &told);
        steps += number == GI_DONE;
        writes += told.at[WRITE] == GI_WRITE_CONFIGURATION;
        assert(steps <= start.at[LIMIT]);
        if (number == GI_DONE && told.at[FINISHED] == 0)
            assert(foretell(card, batch, &now) == GI_DONE && now.at[FINISHES] == start.at[FINISHES]);
    } while (number == GI_DONE && told.at[FINISHED] == 0);
    assert(number == (start.at[FINISHES] != 0 ? GI_DONE : GI_CARD_FULL));
    assert(start.at[FINISHES] != 0 || writes == start.at[WRITES]);
    return steps;
}

/* Cuts the write of the step with this number, from 0: any words stand where it was to
 * write. The configuration words are written as one; all of them are the old ones. */
static void cut_step(struct words card, struct words batch, size_t number, struct drawn *from) {
    bool finished;
    size_t start;
    size_t count;
    struct told told = told_nothing();
    make_steps(card, batch, number, &finished);
    struct words before = words_of(card.at, card.count);
    gi_step(card.at, card.count, batch.at, batch.count, &told.at[WRITE], &told.at[FREED], &told.at[FINISHED]);
    gi_write_span(card.at, card.count, told.at[WRITE], &start, &count);
    for (size_t i = start; i < start + count; i++)
        card.at[i] = told.at[WRITE] == GI_WRITE_CONFIGURATION ? before.at[i] : draw_number(from);
    words_free(before);
}

int LLVMFuzzerTestOneInput(const uint8_t *bytes, size_t length) {
    struct drawn from = {bytes, length};
    bool finished;
    struct words card = draw_card(&from);
    struct words batch = draw_batch(&from);
    struct words cut = words_of(card.at, card.count);
    size_t steps = make_pass(card, batch);
    if (steps != 0) {
        cut_step(cut, batch, draw_byte(&from) % steps, &from);
        assert(gi_judge(cut.at, cut.count) == GI_DONE);
        make_steps(cut, batch, steps + 1, &finished);
    }
    assert(words_same(card, cut));
    words_free(cut);
    words_free(batch);
    words_free(card);
    return 0;
}
