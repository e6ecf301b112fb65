/* The cards of the test of runs beside each other, and all that a card is while passes
 * are made on it, computed in memory. */
#include <stdlib.h>
#include <string.h>

#include "beside.h"

/* ---- cards and batches */

uint32_t term_of(uint32_t index) {
    return 10 * (index + 1);
}

uint32_t position_of(uint32_t index) {
    return 100 * (index + 1);
}

uint32_t positions_of(const struct filling *filling) {
    /* an entry is a term, a count and its positions */
    return filling->b / filling->terms - 2;
}

/* Fills a block with the terms from term number first on. */
static void fill_block(uint32_t *block, const struct filling *filling, uint32_t first) {
    uint32_t count = positions_of(filling);
    for (uint32_t i = 0; i < filling->terms; i++) {
        *block++ = term_of(first + i);
        *block++ = count;
        for (uint32_t j = 0; j < count; j++)
            *block++ = position_of(j);
    }
}

uint32_t *filled_card(const struct filling *filling, size_t *length) {
    *length = gi_card_words(filling->b, filling->n);
    uint32_t *card = memory_for(*length, sizeof *card);
    if (gi_format(card, *length, filling->b, filling->n) != GI_DONE)
        give_up("the card was not formatted");
    card[GI_CONFIG_OLD_START] = filling->start;
    card[GI_CONFIG_OLD_LENGTH] = filling->live;
    for (uint32_t i = 0; i < filling->live; i++) {
        uint32_t place = (filling->start + i) % filling->n;
        uint32_t *block = card + GI_CONFIG_WORDS + filling->n * GI_MAP_ENTRY_WORDS + (size_t)place * filling->b;
        fill_block(block, filling, i * filling->terms);
        uint32_t *entry = card + GI_CONFIG_WORDS + place * GI_MAP_ENTRY_WORDS;
        entry[0] = block[0];
        entry[1] = block[2];
    }
    if (gi_judge(card, *length) != GI_DONE)
        give_up("the filled card is not sound");
    return card;
}

void add_record(struct batch *batch, uint32_t kind, uint32_t term, uint32_t from, uint32_t to) {
    if (batch->length + GI_RECORD_WORDS > sizeof batch->words / sizeof *batch->words)
        give_up("a batch is too long");
    uint32_t *record = batch->words + batch->length;
    batch->length += GI_RECORD_WORDS;
    record[0] = kind;
    record[1] = term;
    record[2] = from;
    record[3] = to;
    record[4] = (uint32_t)(batch->length / GI_RECORD_WORDS);
}

void replace_batch(struct batch *batch, const struct filling *filling, uint32_t position) {
    uint32_t terms = filling->live * filling->terms;
    uint32_t most = GI_BATCH_RECORDS_MAX / 2;
    batch->length = 0;
    for (uint32_t i = 0; i < terms && i < most; i++) {
        uint32_t at = position_of(position);
        add_record(batch, GI_RECORD_REMOVE, term_of(i), at, at);
        add_record(batch, GI_RECORD_ADD, term_of(i), at + 1, at + 1);
    }
}

size_t apply_in_memory(uint32_t *words, size_t length, const struct batch *batch) {
    uint32_t finished = 0;
    size_t steps = 0;
    while (finished == 0) {
        uint32_t write;
        uint32_t freed;
        if (gi_step(words, length, batch->words, batch->length, &write, &freed, &finished) != GI_DONE)
            give_up("a batch of the test does not fit");
        steps++;
    }
    return steps;
}

/* ---- the states of a card */

static void look_up(const uint32_t *card, size_t length, const struct question *asked, struct answer *answer) {
    uint32_t blocks;
    if (gi_lookup(card, length, asked->term, asked->from, asked->to, answer->positions, ANSWER_MAX, &answer->count,
                  &blocks) != GI_DONE)
        give_up("a lookup in memory was refused");
}

static void add_state(struct history *history) {
    if (history->states_count == history->states_room) {
        history->states_room = 2 * history->states_room + 64;
        history->states = realloc(history->states, history->states_room * sizeof *history->states);
        if (history->states == NULL)
            give_up("no memory");
    }
    struct state *state = &history->states[history->states_count++];
    memcpy(state->configuration, history->last, sizeof state->configuration);
    state->settled = history->settled;
    struct forecast *forecast = &state->forecast;
    if (gi_forecast(history->last, history->length, history->fits.words, history->fits.length, &forecast->blocks,
                    &forecast->limit, &forecast->finishes, &forecast->writes) != GI_DONE)
        give_up("a forecast in memory was refused");
}

/* Looks up all questions on the card as it is, with no pass open. */
static void answer_all(struct history *history) {
    for (size_t i = 0; i < QUESTIONS; i++)
        look_up(history->last, history->length, &history->questions[i], &history->answers[history->settled][i]);
}

struct history *history_of(uint32_t *card, size_t length, const struct question *questions, const struct batch *fits) {
    struct history *history = memory_for(1, sizeof *history);
    history->b = card[GI_CONFIG_BLOCK_WORDS];
    history->n = card[GI_CONFIG_PLACES];
    history->length = length;
    history->first = card;
    history->last = memory_for(length, sizeof *card);
    memcpy(history->last, card, length * sizeof *card);
    memcpy(history->questions, questions, sizeof history->questions);
    history->fits = *fits;
    add_state(history);
    answer_all(history);
    return history;
}

/* An answer that gi_lookup gave in the midst of a pass. */
struct sample {
    size_t state;
    size_t question;
    struct answer answer;
};

/* A question for a sample: one after another, and every second time one next to the
 * boundary, where what is before and what is after meet. */
static size_t sample_question(const struct history *history, size_t state) {
    uint32_t boundary = history->states[state].configuration[GI_CONFIG_BOUNDARY_TERM];
    size_t nearest = 0;
    if (state % 2 == 0)
        return state / 2 % QUESTIONS;
    for (size_t i = 1; i < QUESTIONS; i++) {
        int64_t here = llabs((int64_t)history->questions[i].term - boundary);
        if (here < llabs((int64_t)history->questions[nearest].term - boundary))
            nearest = i;
    }
    return nearest;
}

static bool same_answer(const struct answer *one, const struct answer *other) {
    return one->count == other->count &&
           memcmp(one->positions, other->positions, one->count * sizeof *one->positions) == 0;
}

/* Compares what gi_lookup gave during a pass with what the history tells of it. */
static void compare_samples(struct history *history, const struct sample *samples, size_t count) {
    struct answer told;
    for (size_t i = 0; i < count; i++) {
        history_answer(history, samples[i].state, samples[i].question, &told);
        history->looked_up++;
        history->wrong += !same_answer(&told, &samples[i].answer);
    }
}

void history_pass(struct history *history, const struct batch *batch) {
    struct sample *samples = memory_for(history->n, sizeof *samples);
    size_t count = 0;
    uint32_t finished = 0;
    while (finished == 0) {
        uint32_t write;
        uint32_t freed;
        if (gi_step(history->last, history->length, batch->words, batch->length, &write, &freed, &finished) != GI_DONE)
            give_up("a batch of the test does not fit");
        history->settled += finished;
        if (write != GI_WRITE_CONFIGURATION)
            continue;
        add_state(history);
        if (finished != 0 || count == history->n)
            continue;
        struct sample *sample = &samples[count++];
        sample->state = history->states_count - 1;
        sample->question = sample_question(history, sample->state);
        look_up(history->last, history->length, &history->questions[sample->question], &sample->answer);
    }
    if (history->settled >= SETTLED_MAX)
        give_up("too many passes for one history");
    answer_all(history);
    compare_samples(history, samples, count);
    free(samples);
}

void history_answer(const struct history *history, size_t state, size_t question, struct answer *answer) {
    const struct state *at = &history->states[state];
    const uint32_t *configuration = at->configuration;
    uint32_t term = history->questions[question].term;
    const struct answer *before = &history->answers[at->settled][question];
    *answer = *before;
    if (configuration[GI_CONFIG_NEW_LENGTH] == 0 || term > configuration[GI_CONFIG_BOUNDARY_TERM])
        return;
    const struct answer *after = &history->answers[at->settled + 1][question];
    uint32_t boundary =
        term < configuration[GI_CONFIG_BOUNDARY_TERM] ? GI_HIGHEST : configuration[GI_CONFIG_BOUNDARY_POSITION];
    answer->count = 0;
    for (uint32_t i = 0; i < after->count && after->positions[i] <= boundary; i++)
        answer->positions[answer->count++] = after->positions[i];
    for (uint32_t i = 0; i < before->count; i++)
        if (before->positions[i] > boundary)
            answer->positions[answer->count++] = before->positions[i];
}

size_t history_find(const struct history *history, size_t from, const uint32_t *configuration) {
    size_t state = from;
    while (state < history->states_count && memcmp(history->states[state].configuration, configuration,
                                                   sizeof history->states[state].configuration) != 0)
        state++;
    return state;
}

/* Whether some byte of a state's configuration words is neither that of one other state
 * nor that of the next: then no mixture of these two is the state's. */
static bool differs_from_two(const struct state *state, const struct state *pair) {
    const unsigned char *bytes = (const unsigned char *)state->configuration;
    const unsigned char *one = (const unsigned char *)pair[0].configuration;
    const unsigned char *next = (const unsigned char *)pair[1].configuration;
    for (size_t i = 0; i < sizeof state->configuration; i++)
        if (bytes[i] != one[i] && bytes[i] != next[i])
            return true;
    return false;
}

bool history_told_apart(const struct history *history) {
    for (size_t i = 0; i < history->states_count; i++)
        for (size_t j = 0; j + 1 < history->states_count; j++)
            if (i != j && i != j + 1 && !differs_from_two(&history->states[i], &history->states[j]))
                return false;
    return true;
}

void history_free(struct history *history) {
    free(history->first);
    free(history->last);
    free(history->states);
    free(history);
}
