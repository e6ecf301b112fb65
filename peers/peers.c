/* Keeps the index of a season in five ways at once, by the same batches, and shows in one
 * table what each takes. After every batch all five must hold the same pairs. */
#define _XOPEN_SOURCE 700

#include <errno.h>
#include <stdio.h>
#include <stdlib.h>
#include <string.h>
#include <sys/stat.h>
#include <unistd.h>

#include "measure.h"
#include "peers.h"
#include "table.h"

enum { OPEN_LOOKUPS = 201, NEW_LOOKUPS = 41 };

static struct peer *const peers[WAYS] = {
    [LIBRARY] = &card_peer, [PROGRAM] = &program_peer, [ROLLBACK] = &rollback_peer,
    [WAL] = &wal_peer,      [LMDB] = &lmdb_peer,
};

void give_up(const char *what, const char *why) {
    fprintf(stderr, "peers: %s: %s\n", what, why);
    exit(1);
}

/* ---- batches */

/* Compares all pairs of each with those of the first; gives their number. */
static size_t compare_pairs(uint64_t *pairs) {
    static uint64_t others[PAIRS_MAX];
    size_t count = peers[0]->pairs(peers[0], pairs);
    for (int i = 1; i < WAYS; i++)
        if (peers[i]->pairs(peers[i], others) != count || memcmp(others, pairs, count * sizeof *pairs) != 0)
            give_up(peers[i]->files[0], "another index than the library's card");
    return count;
}

static struct taken apply(struct peer *peer, const struct batch *batch) {
    if (peer->deliver != NULL)
        peer->deliver(batch);
    struct taken start = taken_by_now();
    peer->apply(peer, batch);
    return taken_since(&start);
}

static void run_load(struct results *results, uint64_t *pairs) {
    static struct batch batch;
    for (int i = 0; i < LOADS; i++) {
        load_batch(&batch);
        for (int way = 0; way < WAYS; way++)
            results->load[way] += apply(peers[way], &batch).of[TIME];
        compare_pairs(pairs);
    }
}

static void run_rounds(struct results *results, uint64_t *pairs) {
    static struct batch batch;
    static double taken[WAYS][MEASURES][ROUNDS];
    for (uint32_t round = 0; round < ROUNDS; round++) {
        round_batch(&batch, round);
        for (int way = 0; way < WAYS; way++) {
            struct taken one = apply(peers[way], &batch);
            for (int i = 0; i < MEASURES; i++)
                taken[way][i][round] = one.of[i];
        }
        results->pairs = compare_pairs(pairs);
    }
    for (int way = 0; way < WAYS; way++) {
        for (int i = 0; i < MEASURES; i++) {
            results->round[i][way] = median(taken[way][i], ROUNDS);
            results->worst[i][way] = taken[way][i][ROUNDS - 1];
        }
        results->device[way] = taken[way][DEVICE][0];
    }
}

/* The program's syncs are another process's: those of the library's steps and four more, of
 * the card and its folder when it is opened, of the note and its folder. */
static void count_program_syncs(struct results *results) {
    enum { SYNCS_BESIDE_STEPS = 4 };
    results->round[SYNCS][PROGRAM] = results->round[SYNCS][LIBRARY] + SYNCS_BESIDE_STEPS;
}

/* ---- files */

static void remove_files(const struct peer *peer) {
    for (int i = 0; i < FILES_MAX && peer->files[i] != NULL; i++)
        if (unlink(peer->files[i]) != 0 && errno != ENOENT)
            give_up(peer->files[i], strerror(errno));
}

static void measure_files(struct results *results, int way) {
    for (int i = 0; i < FILES_MAX && peers[way]->files[i] != NULL; i++) {
        struct stat about;
        if (stat(peers[way]->files[i], &about) == 0) {
            results->length[way] += (double)about.st_size;
            results->allocated[way] += 512.0 * (double)about.st_blocks;
        }
    }
}

/* ---- lookups */

/* The most frequent term, the middle of its positions, and a term of one position from the
 * middle of the index. */
static void choose_questions(struct results *results, const uint64_t *pairs) {
    size_t most = 0;
    const uint64_t *middle = pairs; /* of the most frequent term */
    const uint64_t *rare = pairs;
    size_t first = 0; /* of a term */
    for (size_t i = 1; i <= results->pairs; i++) {
        if (i < results->pairs && pairs[i] >> 32 == pairs[first] >> 32)
            continue;
        if (i - first > most) {
            most = i - first;
            middle = pairs + first + most / 2;
        }
        if (i - first == 1 && i < results->pairs / 2)
            rare = pairs + first;
        results->terms++;
        first = i;
    }
    if (most < RANGE_POSITIONS)
        give_up("events", "no term is frequent");
    uint32_t term = (uint32_t)(*middle >> 32);
    results->asked[FREQUENT] = (struct question){term, GI_LOWEST, GI_HIGHEST};
    results->asked[RANGE] =
        (struct question){term, (uint32_t)middle[-RANGE_POSITIONS / 2], (uint32_t)middle[RANGE_POSITIONS / 2 - 1]};
    results->asked[RARE] = (struct question){(uint32_t)(*rare >> 32), GI_LOWEST, GI_HIGHEST};
}

/* Seconds of a lookup, of an index that is open or with its opening and closing. */
static double time_lookup(struct peer *peer, struct question asked, uint32_t *answer, size_t *found, bool opens) {
    double began = seconds();
    if (opens)
        peer->open(peer, false);
    *found = peer->lookup(peer, asked, answer);
    if (opens)
        peer->close(peer);
    return seconds() - began;
}

/* Asks a question several times; gives the median of the seconds. All must answer as the
 * first did. */
static double ask(struct results *results, int way, int question, int times, bool opens) {
    static uint32_t answer[PAIRS_MAX];
    static uint32_t expected[QUESTIONS][PAIRS_MAX];
    double took[OPEN_LOOKUPS];
    size_t found;
    for (int i = 0; i < times; i++) {
        took[i] = time_lookup(peers[way], results->asked[question], answer, &found, opens);
        if (results->found[question] == 0) {
            results->found[question] = found;
            memcpy(expected[question], answer, sizeof answer);
        }
        if (found != results->found[question] || memcmp(answer, expected[question], found * sizeof *answer) != 0)
            give_up(peers[way]->files[0], "another answer than the library's card");
    }
    return median(took, (size_t)times);
}

static void run_lookups(struct results *results) {
    for (int way = 0; way < WAYS; way++) {
        for (int i = 0; i < QUESTIONS && way != PROGRAM; i++)
            results->open[i][way] = ask(results, way, i, OPEN_LOOKUPS, false);
        peers[way]->close(peers[way]);
        for (int i = 0; i < QUESTIONS; i++)
            results->anew[i][way] = ask(results, way, i, NEW_LOOKUPS, true);
    }
}

/* ---- the run */

int main(int count, char **words) {
    static struct results results;
    static uint64_t pairs[PAIRS_MAX];
    if (count != 4) {
        fprintf(stderr, "usage: %s FOLDER ITS-FILE-SYSTEM HOST-PROGRAM\n", words[0]);
        return 2;
    }
    program_peer.how = realpath(words[3], NULL);
    if (program_peer.how == NULL || chdir(words[1]) != 0)
        give_up(program_peer.how == NULL ? words[3] : words[1], strerror(errno));
    results.sync = sync_seconds();
    for (int way = 0; way < WAYS; way++) {
        remove_files(peers[way]);
        peers[way]->open(peers[way], true);
    }
    run_load(&results, pairs);
    run_rounds(&results, pairs);
    count_program_syncs(&results);
    for (int way = 0; way < WAYS; way++)
        measure_files(&results, way);
    choose_questions(&results, pairs);
    run_lookups(&results);
    show_table(&results, words[1], words[2]);
    return 0;
}
