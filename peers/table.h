/* What came out of a run, and its table. */
#ifndef TABLE_H
#define TABLE_H

#include "measure.h"
#include "peers.h"

enum { LOADS = 27, ROUNDS = 11, RANGE_POSITIONS = 500 };

/* The ways to keep the index: a card by the library's calls, a card by the host program, and
 * the others. */
enum { LIBRARY, PROGRAM, ROLLBACK, WAL, LMDB, WAYS };

enum { FREQUENT, RANGE, RARE, QUESTIONS };

/* Times are seconds, lengths bytes. */
struct results {
    double sync; /* of one page */
    size_t pairs;
    size_t terms;
    double load[WAYS];
    double round[MEASURES][WAYS]; /* medians */
    double worst[MEASURES][WAYS];
    double device[WAYS]; /* bytes that it wrote in a round, the least: other work adds to them */
    double length[WAYS]; /* of its files */
    double allocated[WAYS];
    struct question asked[QUESTIONS];
    size_t found[QUESTIONS];
    double open[QUESTIONS][WAYS];
    double anew[QUESTIONS][WAYS];
};

void show_table(const struct results *results, const char *folder, const char *file_system);

#endif
