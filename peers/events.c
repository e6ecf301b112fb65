/* The events of a season. A game is a position with three terms: an opening code and two
 * players. Both are drawn by a Zipf law: a few codes have thousands of games, most players
 * one or two. Which term a rank has is scattered, as numbers given out by time are. */
#include <math.h>

#include "peers.h"

enum {
    CODES = 500,
    PLAYERS = 40000,
    SCATTER = 7919, /* a prime that divides neither */
    LOAD_GAMES = GI_BATCH_RECORDS_MAX / 3,
    ROUND_GAMES = 120,
    ANNULLED_GAMES = 40
};

static uint32_t next_game = 1;

/* A number by chance from 0 up to 1, the same in every run. */
static double chance(void) {
    static uint32_t state = 2463534242;
    state ^= state << 13;
    state ^= state >> 17;
    state ^= state << 5;
    return state / 4294967296.0;
}

/* A rank by chance, below count: rank r comes as 1 / (r + even), so that a greater even
 * makes the first ranks more alike. */
static uint32_t zipf_rank(uint32_t count, double even) {
    return (uint32_t)(even * (pow(1 + count / even, chance()) - 1)) % count;
}

static uint32_t code(void) {
    return 1 + zipf_rank(CODES, 1) * SCATTER % CODES;
}

static uint32_t player(void) {
    return 1 + CODES + zipf_rank(PLAYERS, 20) * SCATTER % PLAYERS;
}

static void put(struct batch *batch, uint32_t kind, uint32_t term, uint32_t from, uint32_t to) {
    if (batch->count == GI_BATCH_RECORDS_MAX)
        give_up("events", "a batch is too long");
    uint32_t arrival = (uint32_t)batch->count + 1;
    batch->records[batch->count++] = (struct record){kind, term, from, to, arrival};
}

static void put_games(struct batch *batch, uint32_t count) {
    for (uint32_t i = 0; i < count; i++, next_game++) {
        put(batch, GI_RECORD_ADD, code(), next_game, next_game);
        put(batch, GI_RECORD_ADD, player(), next_game, next_game);
        put(batch, GI_RECORD_ADD, player(), next_game, next_game);
    }
}

void load_batch(struct batch *batch) {
    batch->count = 0;
    put_games(batch, LOAD_GAMES);
}

/* The games of a round; one of them entered under a wrong player, which is withdrawn, and one
 * withdrawn and entered again. In every third round an opening code is withdrawn from a range
 * of games, in every fourth an earlier range is annulled under every term, and its first game
 * is entered anew. */
void round_batch(struct batch *batch, uint32_t round) {
    batch->count = 0;
    put_games(batch, ROUND_GAMES);
    uint32_t wrong = player();
    put(batch, GI_RECORD_ADD, wrong, next_game - 1, next_game - 1);
    put(batch, GI_RECORD_REMOVE, wrong, next_game - 1, next_game - 1);
    put(batch, GI_RECORD_REMOVE, 1, next_game - 2, next_game - 2);
    put(batch, GI_RECORD_ADD, 1, next_game - 2, next_game - 2);
    if (round % 3 == 1)
        put(batch, GI_RECORD_REMOVE, code(), next_game / 2, next_game / 2 + 10 * ROUND_GAMES);
    if (round % 4 == 2) {
        uint32_t from = next_game - 3 * ROUND_GAMES;
        put(batch, GI_RECORD_ANNUL, 0, from, from + ANNULLED_GAMES - 1);
        put(batch, GI_RECORD_ADD, player(), from, from);
    }
}
