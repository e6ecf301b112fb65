/* What the parts of the test of runs beside each other share: checks, cards and the
 * history of their passes in memory, runs of the host program, locks. */
#ifndef BESIDE_H
#define BESIDE_H

#include <stdbool.h>
#include <stddef.h>
#include <stdint.h>
#include <sys/types.h>

#include "gameindex.h"

/* ---- checks */

/* Counts a check; a failing one is printed. Only the tester itself counts, not the
 * processes that it starts. */
void check(bool holds, const char *form, ...) __attribute__((format(printf, 2, 3)));

/* Stops the test: what it needs is not there. */
_Noreturn void give_up(const char *what);

void *memory_for(size_t count, size_t size);

/* ---- the clock, and numbers by chance */

double seconds(void);
void pause_for(double duration);
uint32_t chance(uint32_t *state);

/* ---- cards and batches in memory */

struct batch {
    size_t length; /* in words */
    uint32_t words[GI_RECORD_WORDS * GI_BATCH_RECORDS_MAX];
};

/* A card whose blocks are all full to the last word: terms terms to a block, each with
 * as many positions as fit. */
struct filling {
    uint32_t b;
    uint32_t n;
    uint32_t live;  /* how many blocks are live */
    uint32_t start; /* the place of the first of them */
    uint32_t terms;
};

/* The card's terms and positions. They leave room between them. */
uint32_t term_of(uint32_t index);
uint32_t position_of(uint32_t index);
/* How many positions a term of the card has. */
uint32_t positions_of(const struct filling *filling);

uint32_t *filled_card(const struct filling *filling, size_t *length);

/* Adds a record to a batch; its arrival number is its place in the batch. */
void add_record(struct batch *batch, uint32_t kind, uint32_t term, uint32_t from, uint32_t to);

/* The batch that moves one position of every term by one: no block gets longer or
 * shorter, and no last pair of a block changes. */
void replace_batch(struct batch *batch, const struct filling *filling, uint32_t position);

/* Applies a batch to a card to the end and gives the number of steps. */
size_t apply_in_memory(uint32_t *words, size_t length, const struct batch *batch);

/* ---- the history of a card's passes */

enum { QUESTIONS = 48, ANSWER_MAX = 512, SETTLED_MAX = 6 };

struct question {
    uint32_t term;
    uint32_t from;
    uint32_t to;
    bool ranged;
};

struct answer {
    uint32_t count;
    uint32_t positions[ANSWER_MAX];
};

struct forecast {
    uint32_t blocks;
    uint32_t limit;
    uint32_t finishes;
    uint32_t writes;
};

/* What the card was between two writes of its configuration words. Only these writes
 * change its live pairs, so the writes of blocks and map entries make no new state. */
struct state {
    uint32_t configuration[GI_CONFIG_WORDS];
    size_t settled; /* how many passes were finished by then */
    struct forecast forecast;
};

/* All states of a card from its first to its last, and what they answer. */
struct history {
    uint32_t b;
    uint32_t n;
    size_t length; /* words of the card */
    uint32_t *first;
    uint32_t *last;
    size_t states_count;
    size_t states_room;
    struct state *states;
    size_t settled; /* how many passes it has */
    struct question questions[QUESTIONS];
    struct answer answers[SETTLED_MAX][QUESTIONS]; /* while no pass is open */
    struct batch fits;                             /* the batch that fits is asked about */
    size_t looked_up;                              /* answers compared with those of gi_lookup */
    size_t wrong;                                  /* how many differed */
};

/* Begins a history with a card; the history keeps its words. */
struct history *history_of(uint32_t *card, size_t length, const struct question *questions, const struct batch *fits);

/* Goes on with the pass of a batch, to its end. */
void history_pass(struct history *history, const struct batch *batch);

/* What the card answers in a state. While a pass is open, what is at or below the
 * boundary is as after the pass, what is above it as before. */
void history_answer(const struct history *history, size_t state, size_t question, struct answer *answer);

/* The state with these configuration words, looked for from state from on; states_count
 * where there is none. */
size_t history_find(const struct history *history, size_t from, const uint32_t *configuration);

/* Whether configuration words that are read without a lock, so perhaps in the midst of
 * their being written, never look like those of a third state. */
bool history_told_apart(const struct history *history);

void history_free(struct history *history);

/* ---- the folder and its files */

extern char folder[]; /* the test's own, removed at its end */

/* The path of a file of the folder. The name must last, and the path does. */
const char *in_folder(const char *name);
void write_file(const char *path, const void *bytes, size_t length);
void write_words(const char *path, const uint32_t *words, size_t length);
/* Whether an open file has these words and nothing else. */
bool file_has(int file, const uint32_t *words, size_t length);

/* The state of an open card file, looked for from state from on; states_count where it is
 * none. It is read without a lock, so that the tester is in nobody's way;
 * history_told_apart says why that is sure. */
size_t state_now(const struct history *history, int file, size_t from);

/* ---- runs of the host program */

extern const char *program;

/* A run under way. What it writes goes to files that have no name. */
struct run {
    pid_t process;
    int out;
    int err;
    double began;
};

enum { OUTPUT_MAX = 1 << 17, RUN_FAILED = 1000 };

/* A run that has ended. */
struct ended {
    int status; /* its exit status, or RUN_FAILED and more: a signal, or never started */
    size_t out_length;
    char out[OUTPUT_MAX + 1];
    char err[4097];
    double took;
};

/* Starts the program with words, of which the last is NULL. Input is its standard
 * input; none where it is negative. */
void start(struct run *run, int input, const char *const *words);
#define START(run, ...) start(run, -1, (const char *const[]){__VA_ARGS__, NULL})

/* Whether it is still under way. */
bool under_way(struct run *run);

/* Waits for its end; after too many seconds it is killed. */
struct ended *end_of(struct run *run);

/* Starts it and waits for its end. */
struct ended *run_to_end(const char *const *words);
#define RUN(...) run_to_end((const char *const[]){__VA_ARGS__, NULL})

/* The same where the run cannot be expected to hang. */
void run_blocking(struct run *run, struct ended *ended, const char *const *words);

/* Checks a run's exit status; shows what it said where it is another. */
void check_status(const struct ended *ended, int status, const char *what);

/* Checks that a run was turned away since another has the card. */
void check_turned_away(const struct ended *ended, const char *what);

/* ---- the locks of a card file */

enum range { WORDS_RANGE, GATE_RANGE, WRITER_RANGE, RANGES };

/* Takes a lock (F_RDLCK, F_WRLCK) or gives it back (F_UNLCK); waits until it is free. */
void take_lock(int file, enum range range, short type);

/* The process that a lock would have to wait for; 0 where there is none. */
pid_t in_the_way(int file, enum range range, short type);

/* ---- the parts of the test */

void test_rounds(void);
void test_locks(void);

#endif
