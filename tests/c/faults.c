/* Faults at every system call of every command: each call fails, is interrupted, does half
 * of its work or nothing, or is the first of many that fail. After each such run the exit
 * status, the messages, the files, the medium with every choice of a power cut, and the
 * same command run again are held against the run without a fault. */
#define _GNU_SOURCE

#include <errno.h>
#include <stdio.h>
#include <stdlib.h>
#include <string.h>

#include "faults.h"

enum { OUTCOMES_MAX = 100, STREAM_KEPT = 4096 };

/* What the run without a fault did. */
struct clean {
    char output[STREAM_KEPT];
    size_t output_length;
    char messages[STREAM_KEPT];
    size_t messages_length;
    long calls;
    struct call log[CALLS_MAX + 1];
    struct folder files;
    struct reading end; /* of the card */
};

static struct clean clean;
static struct state after; /* what the run in hand left */
static bool syncless;      /* it was told that there are no syncs: what it has done may not be on the medium */
static long faulted_runs;
static long reruns;
static long outcomes;
static long faults_of[FAULTS];
static long faults_at[CALL_KINDS];

/* ---- what was tried already */

enum { SEEN_SLOTS = 1 << 17 };
static uint64_t seen[SEEN_SLOTS];

/* Whether this was not looked at before in the scenario. */
static bool is_new(uint64_t hash) {
    hash += hash == 0;
    size_t at = hash % SEEN_SLOTS;
    while (seen[at] != 0 && seen[at] != hash)
        at = (at + 1) % SEEN_SLOTS;
    bool new = seen[at] == 0;
    seen[at] = hash;
    return new;
}

/* ---- the card that a run leaves */

/* Whether two folders have the same file of this name, or none. */
static bool same_file(const struct folder *one, const struct folder *other, const char *name) {
    const struct file *a = folder_find(one, name);
    const struct file *b = folder_find(other, name);
    if (a == NULL || b == NULL)
        return a == b;
    return a->length == b->length && memcmp(a->bytes, b->bytes, a->length) == 0;
}

/* Whether the card is on its way: as it was, or between two stages that follow one
 * another. A file that was no sound card may be as it was, and a new card may be absent. */
static bool on_the_way(const struct scenario *scenario, const struct folder *files) {
    const struct folder *start = &scenario->start->files;
    if (same_file(files, start, "card"))
        return true;
    struct reading now = card_reading(folder_find(files, "card"));
    if (!now.sound)
        return false;
    if (scenario->stage_count == 1)
        return index_equal(&now.index, &scenario->stages[0]) &&
               now.open == card_reading(folder_find(start, "card")).open;
    for (int i = 0; i + 1 < scenario->stage_count; i++)
        if (index_between(&now, &scenario->stages[i], &scenario->stages[i + 1]))
            return true;
    return false;
}

/* Checks what is left of the files, by the run or by a power cut after it. */
static bool check_files(const struct scenario *scenario, const struct folder *files, const char *where) {
    bool holds =
        check(on_the_way(scenario, files), "%s: the card is not sound, or has pairs of no index on its way", where);
    const struct folder *start = &scenario->start->files;
    bool format = strcmp(scenario->words[0], "format") == 0;
    if (format && !syncless && !same_file(files, start, "card"))
        holds &= check(folder_find(files, "card.pass") == NULL, "%s: a fresh card has a note of another life", where);
    if (folder_find(start, "new") != NULL)
        holds &= check(same_file(files, start, "new"), "%s: a file that was there is another", where);
    if (scenario->makes != NULL) {
        const struct file *made = folder_find(files, scenario->makes);
        holds &=
            check(made == NULL || same_file(files, &clean.files, scenario->makes), "%s: half a file is left", where);
    }
    return holds;
}

/* Whether the files are as the run without a fault leaves them. */
static bool at_end(const struct scenario *scenario, const struct folder *files) {
    struct reading now = card_reading(folder_find(files, "card"));
    if (!reading_equal(&now, &clean.end))
        return false;
    return scenario->makes == NULL || same_file(files, &clean.files, scenario->makes);
}

/* ---- another run */

/* Whether a command writes a card. */
static bool writes(const struct scenario *scenario) {
    const char *command = scenario->words[0];
    return strcmp(command, "apply") == 0 || strcmp(command, "annul") == 0 || strcmp(command, "format") == 0;
}

/* Runs the command again on files that are laid already; it must come to the end of the
 * run without a fault. */
static void run_again(const struct scenario *scenario, const struct folder *files, const char *where) {
    bool made = scenario->makes != NULL && folder_find(files, scenario->makes) != NULL;
    int status = run_host(scenario->words, scenario->input, (struct plan){0});
    reruns++;
    int expected = made ? 2 : scenario->status;
    if (check(status == expected, "%s, run again: status %d: %.*s", where, status, (int)run->messages_length,
              run->messages)) {
        static struct folder left;
        folder_take(&left);
        check(writes(scenario) || scenario->makes != NULL ? at_end(scenario, &left) : same_file(&left, files, "card"),
              "%s, run again: it does not come to the same end", where);
    }
}

/* Digits of a number, for every choice of a power cut in turn. */
static unsigned next_digit(void *from, unsigned ways) {
    uint64_t *number = from;
    unsigned digit = (unsigned)(*number % ways);
    *number /= ways;
    return digit;
}

/* The power fails after the run in hand, with every choice, or many drawn ones. Where the
 * run says that it is done its end must be on the medium in each. */
static void power_fails(const struct scenario *scenario, bool done) {
    static struct folder left;
    uint64_t choices = medium_choices(OUTCOMES_MAX);
    for (uint64_t i = 0; i < choices; i++) {
        uint64_t digits = i;
        run->medium = after.medium;
        medium_cut(&left, choices < OUTCOMES_MAX ? next_digit : choose_random, &digits);
        if (!is_new(folder_hash(&left) ^ (done ? UINT64_C(0x9e3779b97f4a7c15) : 0)))
            continue;
        outcomes++;
        if (!check_files(scenario, &left, "after a power cut"))
            continue;
        if (done)
            check(at_end(scenario, &left), "what was done is not on the medium");
        folder_lay(&left);
        run_again(scenario, &left, "after a power cut");
    }
}

/* The same command again, on the files and on what power cuts leave. */
static void try_again(const struct scenario *scenario, bool done) {
    if (is_new(state_hash(&after))) {
        state_lay(&after);
        run_again(scenario, &after.files, "on the files");
    }
    power_fails(scenario, done);
}

/* ---- status and messages */

/* Whether a run's text has a word. */
static bool has(const char *text, size_t length, const char *word) {
    return memmem(text, length, word, strlen(word)) != NULL;
}

static bool says(const char *word) {
    return has(run->messages, run->messages_length, word);
}

/* Why the failure of a call may be passed over, so that the run ends as without it, or
 * NULL. */
static const char *passed_over(const struct scenario *scenario, const struct call *call) {
    bool format = strcmp(scenario->words[0], "format") == 0;
    const char *next = call[1].kind == CALL_UNLINK ? call[1].name : "";
    switch (call->kind) {
    case CALL_CLOSE:
        return "what was written is on the medium by then, and what was read is in memory";
    case CALL_UNLOCK:
        return "the run's end releases its locks";
    case CALL_MESSAGE:
        return "there is nowhere to say it";
    case CALL_MEMORY:
        return !format && strcmp(next, "card.pass") == 0 ? "it is of the name of a note that is to be removed" : NULL;
    case CALL_UNLINK:
        return !format && strcmp(call->name, "card.pass") == 0 ? "a note without an open pass does no harm" : NULL;
    default:
        return NULL;
    }
}

/* What the message of a fault says of its cause. */
static bool names_cause(const struct plan *plan, const struct call *call) {
    if (plan->fault == FAULT_BUSY)
        return says("in use");
    if (call->kind == CALL_OUTPUT && says("not all of it was written"))
        return true; /* a write before the last one failed */
    if (call->kind == CALL_MEMORY)
        return says("no memory") || says(strerror(ENOMEM));
    if (plan->fault == FAULT_ZERO || plan->fault == FAULT_GONE)
        return says(strerror(EIO));
    if (plan->fault == FAULT_FULL)
        return says(strerror(ENOSPC));
    return says(strerror(plan->error));
}

/* Whether the message of a fault names a file of the command or a standard stream. */
static bool names_file(const struct scenario *scenario, const struct call *call) {
    if (call->kind == CALL_OUTPUT || call->kind == CALL_OUTPUT_CLOSE)
        return says("gamecard: standard output: ");
    if (call->kind == CALL_FCNTL)
        return says("gamecard: /dev/null: ");
    if (strcmp(call->name, "standard input") == 0)
        return says("gamecard: standard input: ");
    if (says("gamecard: standard input: "))
        return scenario->input != NULL;
    for (int i = 1; scenario->words[i] != NULL; i++)
        if (strchr(scenario->words[i], '/') != NULL && says(scenario->words[i]))
            return true;
    return says("/cards/card.pass");
}

/* Checks what a run says that ends with a fault. */
static void check_fault(const struct scenario *scenario, const struct plan *plan, const struct call *call) {
    bool card = strcmp(call->name, "card") == 0;
    const char *m = run->messages;
    int n = (int)run->messages_length;
    check(says("gamecard: "), "no message of a fault: %.*s", n, m);
    check(names_cause(plan, call), "the message does not name the cause: %.*s", n, m);
    check(names_file(scenario, call), "the message names no file of the command: %.*s", n, m);
    check(!says("finished") && !says("formatted") && !says("created"), "the message says what is not: %.*s", n, m);
    check(call->kind == CALL_OUTPUT ||
              (run->output_length <= clean.output_length && memcmp(run->output, clean.output, run->output_length) == 0),
          "standard output says something else than without the fault: %.*s", (int)run->output_length, run->output);
    struct reading now = card_reading(folder_find(&after.files, "card"));
    if (says("no step of it was made"))
        check(!now.open || same_file(&after.files, &scenario->start->files, "card"),
              "the message says that no step was made: %.*s", n, m);
    if (call->kind == CALL_FDATASYNC && plan->fault == FAULT_FAIL)
        check(says("may not be on the medium") && says("do not trust the file"),
              "the message does not say that the medium may lack it: %.*s", n, m);
    if (call->kind == CALL_PWRITE && card)
        check(says("again") && says("goes on"), "the message does not say that another run goes on: %.*s", n, m);
}

/* Checks that a run has ended as the one without a fault. */
static void check_clean(const struct scenario *scenario, int status, bool messages) {
    check(status == scenario->status, "status %d in place of %d: %.*s", status, scenario->status,
          (int)run->messages_length, run->messages);
    check(run->output_length == clean.output_length && memcmp(run->output, clean.output, run->output_length) == 0,
          "standard output is another: %.*s", (int)run->output_length, run->output);
    check(!messages || (run->messages_length == clean.messages_length &&
                        memcmp(run->messages, clean.messages, run->messages_length) == 0),
          "the messages are others: %.*s", (int)run->messages_length, run->messages);
    check(at_end(scenario, &after.files), "the files are others");
}

/* Whether a run has left a file that was not there and that no run leaves without a fault. */
static bool leaves_more(const struct scenario *scenario, const struct folder *files) {
    for (int i = 0; i < files->count; i++) {
        const char *name = files->files[i].name;
        if (strcmp(name, "card") != 0 && strcmp(name, "card.pass") != 0 && folder_find(&clean.files, name) == NULL &&
            folder_find(&scenario->start->files, name) == NULL)
            return true;
    }
    return false;
}

/* ---- a fault */

/* A fault that is tried at a call of a kind. Some a run must get over. */
struct trial {
    enum call_kind kind;
    enum fault fault;
    int error;
    enum { FAILS, GOES_ON, GOES_ON_FOLDER, GOES_ON_READER } then;
};

static const struct trial trials[] = {
    {CALL_OPEN, FAULT_FAIL, EIO, FAILS},
    {CALL_OPEN, FAULT_FAIL, ENOSPC, FAILS},
    {CALL_OPEN, FAULT_FAIL, EINTR, GOES_ON},
    {CALL_OPEN, FAULT_GONE, EIO, FAILS},
    {CALL_CLOSE, FAULT_FAIL, EIO, FAILS},
    {CALL_CLOSE, FAULT_FAIL, EINTR, GOES_ON},
    {CALL_READ, FAULT_FAIL, EIO, FAILS},
    {CALL_READ, FAULT_FAIL, EINTR, GOES_ON},
    {CALL_READ, FAULT_SHORT, 0, GOES_ON},
    {CALL_READ, FAULT_GONE, EIO, FAILS},
    {CALL_WRITE, FAULT_FAIL, EIO, FAILS},
    {CALL_WRITE, FAULT_FAIL, ENOSPC, FAILS},
    {CALL_WRITE, FAULT_FAIL, EINTR, GOES_ON},
    {CALL_WRITE, FAULT_SHORT, 0, GOES_ON},
    {CALL_WRITE, FAULT_ZERO, EIO, FAILS},
    {CALL_WRITE, FAULT_FULL, ENOSPC, FAILS},
    {CALL_WRITE, FAULT_GONE, EIO, FAILS},
    {CALL_PREAD, FAULT_FAIL, EIO, FAILS},
    {CALL_PREAD, FAULT_FAIL, EINTR, GOES_ON},
    {CALL_PREAD, FAULT_SHORT, 0, GOES_ON},
    {CALL_PREAD, FAULT_GONE, EIO, FAILS},
    {CALL_PWRITE, FAULT_FAIL, EIO, FAILS},
    {CALL_PWRITE, FAULT_FAIL, ENOSPC, FAILS},
    {CALL_PWRITE, FAULT_FAIL, EINTR, GOES_ON},
    {CALL_PWRITE, FAULT_SHORT, 0, GOES_ON},
    {CALL_PWRITE, FAULT_ZERO, EIO, FAILS},
    {CALL_PWRITE, FAULT_FULL, ENOSPC, FAILS},
    {CALL_PWRITE, FAULT_GONE, EIO, FAILS},
    {CALL_FDATASYNC, FAULT_FAIL, EIO, FAILS},
    {CALL_FDATASYNC, FAULT_FAIL, EINTR, GOES_ON},
    {CALL_FDATASYNC, FAULT_FAIL, EINVAL, GOES_ON_READER},
    {CALL_FDATASYNC, FAULT_GONE, EIO, FAILS},
    {CALL_FSYNC, FAULT_FAIL, EIO, FAILS},
    {CALL_FSYNC, FAULT_FAIL, EINTR, GOES_ON},
    {CALL_FSYNC, FAULT_FAIL, EINVAL, GOES_ON_FOLDER},
    {CALL_FSYNC, FAULT_GONE, EIO, FAILS},
    {CALL_STAT, FAULT_FAIL, EIO, FAILS},
    {CALL_STAT, FAULT_GONE, EIO, FAILS},
    {CALL_REALPATH, FAULT_FAIL, EIO, FAILS},
    {CALL_REALPATH, FAULT_FAIL, ENOMEM, FAILS},
    {CALL_RENAME, FAULT_FAIL, EIO, FAILS},
    {CALL_RENAME, FAULT_FAIL, ENOSPC, FAILS},
    {CALL_RENAME, FAULT_GONE, EIO, FAILS},
    {CALL_RENAME_NEW, FAULT_FAIL, EIO, FAILS},
    {CALL_RENAME_NEW, FAULT_FAIL, ENOSPC, FAILS},
    {CALL_RENAME_NEW, FAULT_FAIL, EINVAL, GOES_ON},
    {CALL_RENAME_NEW, FAULT_GONE, EIO, FAILS},
    {CALL_UNLINK, FAULT_FAIL, EIO, FAILS},
    {CALL_UNLINK, FAULT_GONE, EIO, FAILS},
    {CALL_LOCK, FAULT_FAIL, ENOLCK, FAILS},
    {CALL_LOCK, FAULT_FAIL, EAGAIN, GOES_ON},
    {CALL_LOCK, FAULT_FAIL, EACCES, GOES_ON},
    {CALL_LOCK, FAULT_FAIL, EINTR, GOES_ON},
    {CALL_LOCK, FAULT_BUSY, EAGAIN, FAILS},
    {CALL_UNLOCK, FAULT_FAIL, EIO, FAILS},
    {CALL_UNLOCK, FAULT_FAIL, EINTR, GOES_ON},
    {CALL_FCNTL, FAULT_FAIL, EIO, FAILS},
    {CALL_CLOCK, FAULT_FAIL, EINVAL, FAILS},
    {CALL_SLEEP, FAULT_FAIL, EINTR, GOES_ON},
    {CALL_MEMORY, FAULT_FAIL, ENOMEM, FAILS},
    {CALL_OUTPUT, FAULT_FAIL, EIO, FAILS},
    {CALL_OUTPUT, FAULT_FAIL, ENOSPC, FAILS},
    {CALL_OUTPUT, FAULT_FAIL, EPIPE, FAILS},
    {CALL_OUTPUT, FAULT_FULL, ENOSPC, FAILS},
    {CALL_OUTPUT_CLOSE, FAULT_FAIL, EIO, FAILS},
    {CALL_MESSAGE, FAULT_FAIL, EIO, FAILS},
    {CALL_MESSAGE, FAULT_FAIL, EPIPE, FAILS},
    {CALL_WRITE, FAULT_KILL_HALF, 0, FAILS},
    {CALL_PWRITE, FAULT_KILL_HALF, 0, FAILS},
    {CALL_ANY, FAULT_KILL_AFTER, 0, FAILS},
};

const char *const call_names[CALL_KINDS] = {
    "a call", "open",          "close",     "read",   "write",     "pread",        "pwrite", "fdatasync",
    "fsync",  "stat",          "realpath",  "rename", "renameat2", "unlink",       "lock",   "unlock",
    "fcntl",  "clock_gettime", "nanosleep", "memory", "output",    "output's end", "message"};

static const char *const fault_names[FAULTS] = {"none",        "fails",         "half",
                                                "nothing",     "full",          "gone from here on",
                                                "busy",        "killed before", "killed in the middle",
                                                "killed after"};

/* Whether a run must get over a fault at a call. */
static bool goes_on(const struct scenario *scenario, const struct trial *trial, const struct call *call) {
    return trial->then == GOES_ON || (trial->then == GOES_ON_FOLDER && strcmp(call->name, ".") == 0) ||
           (trial->then == GOES_ON_READER && !writes(scenario));
}

/* Checks status, messages and files of the run in hand. */
static void check_run(const struct scenario *scenario, const struct plan *plan, const struct call *call, int status,
                      bool as_clean) {
    bool lasting = plan->fault == FAULT_GONE;
    if (as_clean || status == 0 || (status == scenario->status && status != 2)) {
        check(as_clean || scenario->status != 0 || lasting || passed_over(scenario, call) != NULL,
              "the failure is passed over: status %d", status);
        check_clean(scenario, status, call->kind != CALL_MESSAGE);
        bool note = call->kind == CALL_UNLINK || call->kind == CALL_MEMORY;
        if (status == 0 && !note && !lasting)
            check(same_file(&after.files, &clean.files, "card.pass"), "the note beside the card is another");
    } else {
        if (check(status == 2, "status %d: %.*s", status, (int)run->messages_length, run->messages) &&
            call->kind != CALL_MESSAGE && scenario->status != 2)
            check_fault(scenario, plan, call);
    }
    if (call->kind != CALL_UNLINK && !lasting)
        check(!leaves_more(scenario, &after.files), "a temporary file is left");
}

static void try_fault(const struct scenario *scenario, long at, const struct trial *trial) {
    const struct call *call = &clean.log[at - 1];
    struct plan plan = {.at = at, .fault = trial->fault, .error = trial->error, .busy = scenario->busy};
    about("%s, call %ld, %s of %s, %s %s", scenario->name, at, call_names[call->kind], call->name,
          fault_names[trial->fault], trial->fault == FAULT_FAIL ? strerrorname_np(trial->error) : "");
    state_lay(scenario->start);
    int status = run_host(scenario->words, scenario->input, plan);
    faulted_runs++;
    faults_of[trial->fault]++;
    faults_at[call->kind]++;
    state_take(&after);
    check(run->struck, "the run has not made this call again");
    check(medium_agrees(), "the model of the medium does not follow the files");
    if (trial->fault >= FAULT_KILL_BEFORE)
        check(status == STATUS_KILLED, "status %d of a killed run", status);
    else
        check_run(scenario, &plan, call, status, goes_on(scenario, trial, call));
    syncless = trial->error == EINVAL && (call->kind == CALL_FSYNC || call->kind == CALL_FDATASYNC);
    if (check_files(scenario, &after.files, "on the files"))
        try_again(scenario, status == 0 && !syncless);
    syncless = false;
}

/* ---- a scenario */

/* Runs without a fault, and keeps what it did. */
static bool run_clean(const struct scenario *scenario) {
    about("%s, without a fault", scenario->name);
    state_lay(scenario->start);
    int status = run_host(scenario->words, scenario->input, (struct plan){.busy = scenario->busy});
    if (!check(status == scenario->status, "status %d in place of %d: %.*s", status, scenario->status,
               (int)run->messages_length, run->messages))
        return false;
    if (!check(run->output_length <= STREAM_KEPT && run->messages_length <= STREAM_KEPT && run->calls <= CALLS_MAX,
               "more than is kept: %ld calls", run->calls))
        return false;
    memcpy(clean.output, run->output, clean.output_length = run->output_length);
    memcpy(clean.messages, run->messages, clean.messages_length = run->messages_length);
    memcpy(clean.log, run->log, (size_t)(clean.calls = run->calls) * sizeof *run->log);
    clean.log[clean.calls] = (struct call){0};
    state_take(&after);
    clean.files = after.files;
    clean.end = card_reading(folder_find(&clean.files, "card"));
    check(has(clean.output, clean.output_length, scenario->says) ||
              has(clean.messages, clean.messages_length, scenario->says),
          "it does not say '%s'", scenario->says);
    check(medium_agrees(), "the model of the medium does not follow the files");
    check(on_the_way(scenario, &clean.files), "the card has other pairs");
    if (status == 0 && scenario->stage_count > 1 && writes(scenario))
        check(!clean.end.open && index_equal(&clean.end.index, &scenario->stages[scenario->stage_count - 1]),
              "the card has not the pairs of the batch applied");
    if (status == 1 && scenario->stage_count == 1)
        check(same_file(&clean.files, &scenario->start->files, "card") &&
                  same_file(&clean.files, &scenario->start->files, "card.pass"),
              "a refusal has changed a file");
    if (status == 0 && writes(scenario))
        check(folder_find(&clean.files, "card.pass") == NULL, "the note is left");
    if (check_files(scenario, &clean.files, "on the files") && status == 0)
        power_fails(scenario, true);
    return true;
}

/* Whether a fault is one of a call: there is no space for a file only where one is made. */
static bool is_for(const struct trial *trial, const struct call *call) {
    return (trial->kind == CALL_ANY || trial->kind == call->kind) &&
           (trial->kind != CALL_OPEN || trial->error != ENOSPC || call->makes);
}

void try_scenario(const struct scenario *scenario) {
    memset(seen, 0, sizeof seen);
    if (!run_clean(scenario))
        return;
    for (long at = 1; at <= clean.calls; at++)
        for (size_t i = 0; i < sizeof trials / sizeof *trials; i++)
            if (is_for(&trials[i], &clean.log[at - 1]))
                try_fault(scenario, at, &trials[i]);
}

/* ---- what was tried */

/* Every kind of call and of fault has come up. */
static void check_floors(void) {
    about("faults, what was tried");
    check(faulted_runs >= 10000 && reruns >= 2000 && outcomes >= 1000, "too few runs or power cuts");
    for (int i = CALL_OPEN; i < CALL_KINDS; i++)
        check(faults_at[i] > 0, "no fault at %s", call_names[i]);
    for (int i = FAULT_FAIL; i < FAULTS; i++)
        check(faults_of[i] > 0 || i == FAULT_KILL_BEFORE, "no fault: %s", fault_names[i]);
}

void show_faults(void) {
    printf(
        "faults: %ld runs with a fault: %ld calls failed, %ld did half, %ld nothing, %ld times no space from there on, "
        "%ld times the files gone, %ld times the locks; %ld killed; %ld runs again, %ld states after power cuts\n",
        faulted_runs, faults_of[FAULT_FAIL], faults_of[FAULT_SHORT], faults_of[FAULT_ZERO], faults_of[FAULT_FULL],
        faults_of[FAULT_GONE], faults_of[FAULT_BUSY], faults_of[FAULT_KILL_HALF] + faults_of[FAULT_KILL_AFTER], reruns,
        outcomes);
    check_floors();
}
