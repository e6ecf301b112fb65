/* What the tests of faults and cuts share: a build of the host program whose system calls
 * go to calls.c first, a folder of cards with a medium apart from it, runs in children,
 * and indexes worked out apart from the library. */
#ifndef FAULTS_H
#define FAULTS_H

#include <stdbool.h>
#include <stddef.h>
#include <stdint.h>
#include <sys/types.h>

#include "gameindex.h"

/* ---- system calls and what becomes of them */

enum call_kind {
    CALL_ANY,
    CALL_OPEN,
    CALL_CLOSE,
    CALL_READ,
    CALL_WRITE,
    CALL_PREAD,
    CALL_PWRITE,
    CALL_FDATASYNC,
    CALL_FSYNC,
    CALL_STAT,
    CALL_REALPATH,
    CALL_RENAME,
    CALL_RENAME_NEW,
    CALL_UNLINK,
    CALL_LOCK,
    CALL_UNLOCK,
    CALL_FCNTL,
    CALL_CLOCK,
    CALL_SLEEP,
    CALL_MEMORY,
    CALL_OUTPUT,       /* a write of standard output */
    CALL_OUTPUT_CLOSE, /* its end */
    CALL_MESSAGE,      /* a write of standard error */
    CALL_KINDS
};

enum fault {
    FAULT_NONE,
    FAULT_FAIL,        /* fails once, with the plan's errno */
    FAULT_SHORT,       /* reads or writes half */
    FAULT_ZERO,        /* writes nothing and gives 0 */
    FAULT_FULL,        /* writes half; from there on nothing can be written or made (ENOSPC) */
    FAULT_GONE,        /* from there on every call on a file fails (EIO) */
    FAULT_BUSY,        /* from there on another run has every lock (EAGAIN) */
    FAULT_KILL_BEFORE, /* the run is killed before the call */
    FAULT_KILL_HALF,   /* in the middle of a write, else after the call */
    FAULT_KILL_AFTER,
    FAULTS
};

/* What is to happen in a run: a fault at one of its calls, counted from 1; of all, or of
 * those of a kind. */
struct plan {
    long at;
    enum call_kind kind;
    enum fault fault;
    int error;
    long busy; /* so many locks are another run's when they are first asked for */
};

enum { NAME_BYTES = 40 };

/* A call that a run made. */
struct call {
    enum call_kind kind;
    bool makes;            /* an open that makes a file */
    char name[NAME_BYTES]; /* the file's name in the folder of cards; "." is the folder; other files by their last name
                            */
};

/* ---- the folder of cards and its medium */

enum { FILE_BYTES = 2048, FILES = 12, NODES = 24, PENDING = 24, OPERATIONS = 24 };

/* Files as they can be read, in order of their names. */
struct folder {
    int count;
    struct file {
        char name[NAME_BYTES];
        size_t length;
        unsigned char bytes[FILE_BYTES];
    } files[FILES];
};

/* Which name is which file. */
struct names {
    int count;
    struct {
        char name[NAME_BYTES];
        int node;
    } entries[FILES];
};

/* A write that no sync has followed yet, or a cut of the file to no bytes. */
struct pending {
    int node;
    bool truncates;
    bool whole; /* it lands whole or not at all */
    size_t offset;
    size_t length;
    unsigned char bytes[FILE_BYTES];
};

/* A change of the folder that no sync of the folder has followed yet. */
struct operation {
    enum { OPERATION_CREATE, OPERATION_RENAME, OPERATION_UNLINK } kind;
    char name[NAME_BYTES];
    char to[NAME_BYTES];
    int node;
};

/* What is on the medium, and what may come to be on it. */
struct medium {
    struct node {
        ino_t number; /* of the file that runs see; 0 where it has no name any more */
        size_t length;
        unsigned char bytes[FILE_BYTES];
    } nodes[NODES];
    struct names now;
    struct names durable;
    int pending_count;
    struct pending pending[PENDING];
    int operation_count;
    struct operation operations[OPERATIONS];
};

/* The files that runs see, and the medium apart from them. */
struct state {
    struct folder files;
    struct medium medium;
};

/* ---- a run */

enum { CALLS_MAX = 8192, STREAM_BYTES = 32768 };

/* What a run leaves to who looks at it; it is in memory that parent and child share, so
 * that it outlives a killed run. */
struct run {
    struct plan plan;
    bool struck;        /* the fault has come */
    const char *broken; /* a rule of the locks that was broken before, or NULL */
    long calls;
    long calls_of[CALL_KINDS];
    struct call log[CALLS_MAX]; /* the first calls */
    char output[STREAM_BYTES];
    size_t output_length;
    char messages[STREAM_BYTES];
    size_t messages_length;
    struct medium medium;
};

extern struct run *run;

enum { STATUS_KILLED = -1 };

/* What a run does with its card, for the rules of the locks. */
struct flock;
void lock_rules_read(void);
void lock_rules_write(off_t offset, size_t length);
void lock_rules_sync(void);
void lock_rules_lock(const struct flock *lock);
void lock_rules_close(void);

/* Makes the folders of the tests and enters them. */
void medium_begin(void);

/* Removes them. */
void medium_end(void);

/* Runs the host program with the words, which NULL ends, and standard input from a file,
 * or none. Gives its exit status, STATUS_KILLED where it was killed, or minus the number
 * of another signal. */
int run_host(const char *const *words, const char *input, struct plan plan);

/* Lays files in the folder of cards; they are on the medium. */
void folder_lay(const struct folder *folder);
void folder_take(struct folder *folder);

/* Lays a state, or takes the one that is. */
void state_lay(const struct state *state);
void state_take(struct state *state);
uint64_t folder_hash(const struct folder *folder);
uint64_t state_hash(const struct state *state);

/* The file of a name, or NULL. */
const struct file *folder_find(const struct folder *folder, const char *name);
void folder_put(struct folder *folder, const char *name, const void *bytes, size_t length);
void folder_remove(struct folder *folder, const char *name);

/* Whether the medium's names and bytes, with all that is pending, are those of the files. */
bool medium_agrees(void);

/* What a power cut leaves of the medium: each choice, how many of the folder's changes have
 * landed and what became of each write, is left to a function, which is told of how many
 * there are to choose. */
typedef unsigned choose(void *from, unsigned ways);
void medium_cut(struct folder *left, choose *chosen, void *from);

/* How many choices there are in all, or limit where there are more. */
uint64_t medium_choices(uint64_t limit);

/* ---- indexes, worked out apart */

enum { TERMS = 8, POSITIONS = 16 };
extern const uint32_t terms[TERMS];
extern const uint32_t positions[POSITIONS];

/* The pairs of these terms and positions that are in an index. */
struct index {
    bool in[TERMS][POSITIONS];
};

struct record {
    uint32_t kind, term, from, to, arrival;
};

enum { RECORDS_MAX = 3 * 4096 };

/* Records in the order of their file. */
struct records {
    size_t count;
    struct record list[RECORDS_MAX];
};

/* The index after records from first on: of those that touch a pair the latest decides. */
struct index index_after(const struct index *before, const struct record *list, size_t count);
bool index_equal(const struct index *one, const struct index *other);

/* The pairs of one index up to a boundary, and of another above it. */
struct index index_joined(const struct index *upto, const struct index *above, const uint32_t boundary[2]);

/* A card read by the format's rules. */
struct reading {
    bool sound;
    bool open; /* a pass is open */
    uint32_t boundary[2];
    struct index index; /* what is in it */
};

enum { CARD_WORDS_MAX = FILE_BYTES / 4 };
size_t card_words(const struct file *file, uint32_t *words);
struct reading card_reading(const struct file *file);

bool reading_equal(const struct reading *one, const struct reading *other);

/* Whether a reading is on the way from one index to the next: one of the two, or in a
 * pass, up to the boundary as the next has it and above as the first has it. */
bool index_between(const struct reading *now, const struct index *first, const struct index *next);

/* Writes records as words, sorted; gives the bytes' number. */
size_t records_as_words(const struct records *records, unsigned char *bytes);

/* Writes records of the first two kinds as lines of text. */
size_t records_as_text(const struct records *records, char *bytes);

/* Makes a batch of the words that gi_step takes, sorted, of a part of the records. With
 * lines the arrival numbers are counted from 1 in the part. */
size_t records_batch(const struct record *list, size_t count, bool lines, uint32_t *batch);

/* A card in a file: empty, of B and N; then with a batch applied to its end, or as many
 * steps as given. Gives whether it came to its end. */
void card_make(struct file *file, uint32_t b, uint32_t n);
bool card_apply(struct file *file, const uint32_t *batch, size_t words, long steps);

void input_write(const char *name, const void *bytes, size_t length);

/* ---- checks */

extern long passed;
extern long failed;

/* Counts a check; where it does not hold, says what was tried and what is wrong. */
bool check(bool holds, const char *form, ...) __attribute__((format(printf, 2, 3)));

/* What checks are about, for their messages. */
void about(const char *form, ...) __attribute__((format(printf, 1, 2)));

/* Random numbers from a seed. */
extern uint64_t random_state;
uint32_t random_below(uint32_t limit);
unsigned choose_random(void *from, unsigned ways);

/* ---- faults */

enum { STAGES_MAX = 5, WORDS_MAX = 10 };

/* A command on files, and what it is to do. */
struct scenario {
    const char *name;
    const char *words[WORDS_MAX];
    const char *input; /* of standard input, or NULL */
    long busy;         /* so many times another run has the lock that is asked for */
    const struct state *start;
    int status;                    /* its exit status */
    const char *says;              /* in its output or its messages */
    const char *makes;             /* another file than the card, or NULL; a run finds it in the way (status 2) */
    const struct records *applied; /* to the card, or NULL */
    bool lines;                    /* in parts of lines */
    const struct state *base;      /* where the pass began, unless at the start */
    int stage_count;               /* the card goes from one of these indexes to the next, and no other way */
    struct index stages[STAGES_MAX];
};

/* Runs the command without a fault, and then with each fault at each of its calls. */
void try_scenario(const struct scenario *scenario);

/* Shows and checks how many faults were tried. */
void show_faults(void);

extern const char *const call_names[CALL_KINDS];

/* ---- the tests */

void test_faults(void);
void test_cuts(void);

#endif
