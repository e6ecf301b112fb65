/* Who waits for whom: writers for each other, readers and writers for those who have the
 * card. Here the tester holds locks itself, in the place of a run that stands still. The
 * tester opens a card only once at a time, since closing it anywhere would give up all
 * its locks on it. */
#define _GNU_SOURCE

#include <fcntl.h>
#include <inttypes.h>
#include <stdio.h>
#include <stdlib.h>
#include <string.h>
#include <sys/ioctl.h>
#include <unistd.h>

#include "beside.h"

/* A wait that is never over in this test, and a time after which the tester stops
 * looking for something that should have come at once. */
#define LONG_WAIT "60"
enum { PATIENCE = 20 };

/* What a run takes at most that does not wait: less than the wait of one that chooses
 * none. */
enum { AT_ONCE = 8 };

/* A small card, two batches for it, and what it is after them. */
static const struct filling small = {.b = 64, .n = 32, .live = 20, .start = 5, .terms = 4};
static struct batch first_batch;
static struct batch second_batch;
static size_t length;
static uint32_t *before;
static uint32_t *after_first;
static uint32_t *after_second;
static uint32_t *after_both;  /* the first, then the second */
static uint32_t *after_other; /* the second, then the first */

/* The card file of the scenes, its batches, and the file opened by the tester. */
static const char *card;
static const char *first_file;
static const char *second_file;
static int file;

static uint32_t *applied(const uint32_t *words, const struct batch *batch) {
    uint32_t *made = memory_for(length, sizeof *made);
    memcpy(made, words, length * sizeof *made);
    apply_in_memory(made, length, batch);
    return made;
}

static void prepare(void) {
    before = filled_card(&small, &length);
    replace_batch(&first_batch, &small, 3);
    replace_batch(&second_batch, &small, 8);
    after_first = applied(before, &first_batch);
    after_both = applied(after_first, &second_batch);
    after_second = applied(before, &second_batch);
    after_other = applied(after_second, &first_batch);
    card = in_folder("locks.card");
    first_file = in_folder("first.batch");
    second_file = in_folder("second.batch");
    write_words(first_file, first_batch.words, first_batch.length);
    write_words(second_file, second_batch.words, second_batch.length);
}

/* Begins a scene with a card. */
static void lay(const uint32_t *words, size_t count) {
    write_words(card, words, count);
    file = open(card, O_RDWR | O_CLOEXEC);
    if (file < 0)
        give_up("a card of the test could not be opened");
}

/* Ends it; all locks of the tester are gone. */
static void clear(void) {
    close(file);
}

/* Waits until a run has a lock that is in the way of such a lock. */
static bool comes_in_the_way(struct run *run, enum range range, short type) {
    double deadline = seconds() + PATIENCE;
    while (in_the_way(file, range, type) != run->process && under_way(run) && seconds() < deadline)
        pause_for(0.001);
    return in_the_way(file, range, type) == run->process;
}

/* Has every command that writes a card that is there turned away. */
static void writers_turned_away(const char *when) {
    check_turned_away(RUN("apply", "--wait", "0", card, second_file), when);
    check_turned_away(RUN("annul", "--wait", "0", card, "1", "100000"), when);
    check_turned_away(RUN("format", "--force", "--wait", "0", card, "64", "32"), when);
}

/* Has every command that reads a card turned away, or let in. */
static void readers_end(int status, const char *when) {
    const char *const commands[][8] = {
        {"lookup", "--wait", "0", card, "10"}, {"lookup", "--wait", "0", card, "10", "1", "500"},
        {"page", "--wait", "0", card, "10"},   {"judge", "--wait", "0", card},
        {"show", "--wait", "0", card},         {"fits", "--wait", "0", card, second_file},
    };
    for (size_t i = 0; i < sizeof commands / sizeof *commands; i++) {
        struct ended *ended = run_to_end(commands[i]);
        check_status(ended, status, when);
        check(ended->took < AT_ONCE, "%s: %s at once", when, commands[i][0]);
        if (status == 2)
            check(strstr(ended->err, "in use by another run") != NULL, "%s: %s says why", when, commands[i][0]);
    }
}

/* ---- writers and writers */

static void second_writer_waits(void) {
    struct run one;
    struct run two;
    lay(before, length);
    take_lock(file, WORDS_RANGE, F_RDLCK);
    START(&one, "apply", "--wait", LONG_WAIT, card, first_file);
    check(comes_in_the_way(&one, WRITER_RANGE, F_WRLCK), "a writer that waits for a reader keeps other writers off");
    writers_turned_away("beside a writer that waits");
    check(file_has(file, before, length), "writers that are turned away change nothing");
    START(&two, "apply", "--wait", LONG_WAIT, card, second_file);
    pause_for(0.1);
    take_lock(file, WORDS_RANGE, F_UNLCK);
    check_status(end_of(&one), 0, "the first of two writers");
    check_status(end_of(&two), 0, "the second of two writers");
    check(file_has(file, after_both, length), "two writers one after the other: both batches are whole");
    clear();
}

enum { CROWD = 5 };

/* Whether the card is what it is where the second batch came at some place in a row of
 * first ones. */
static bool crowd_was_whole(void) {
    bool whole = false;
    for (int place = 0; place < CROWD; place++) {
        uint32_t *words = memory_for(length, sizeof *words);
        memcpy(words, before, length * sizeof *words);
        for (int i = 0; i < CROWD; i++)
            apply_in_memory(words, length, i == place ? &second_batch : &first_batch);
        whole |= file_has(file, words, length);
        free(words);
    }
    return whole;
}

/* Many writers at once: each batch is worked in as a whole, in some order. */
static void writers_in_a_crowd(void) {
    struct run runs[CROWD];
    lay(before, length);
    for (int i = 0; i < CROWD; i++)
        START(&runs[i], "apply", "--wait", LONG_WAIT, card, i == 2 ? second_file : first_file);
    for (int i = 0; i < CROWD; i++)
        check_status(end_of(&runs[i]), 0, "a writer in a crowd");
    check(crowd_was_whole(), "writers in a crowd: every batch is whole");
    clear();
}

/* ---- a batch from standard input */

static void send(int pipe, const unsigned char *bytes, size_t count) {
    for (ssize_t put; count > 0; bytes += put, count -= (size_t)put)
        if ((put = write(pipe, bytes, count)) <= 0)
            return;
}

/* Waits until all that was sent has been read. */
static bool all_read(int pipe) {
    double deadline = seconds() + PATIENCE;
    int left = 1;
    while (ioctl(pipe, FIONREAD, &left) == 0 && left > 0 && seconds() < deadline)
        pause_for(0.001);
    return left == 0;
}

/* The bytes of the first batch as words, or as lines of text. */
static size_t batch_bytes(unsigned char *bytes) {
    size_t count = first_batch.length * 4;
    for (size_t i = 0; i < count; i++)
        bytes[i] = (unsigned char)(first_batch.words[i / 4] >> 8 * (i % 4));
    return count;
}

static size_t batch_text(unsigned char *bytes) {
    char *text = (char *)bytes;
    for (size_t i = 0; i < first_batch.length; i += GI_RECORD_WORDS) {
        const uint32_t *record = first_batch.words + i;
        text += record[0] == GI_RECORD_ADD
                    ? sprintf(text, "A\t%" PRIu32 "\t%" PRIu32 "\n", record[1], record[2])
                    : sprintf(text, "R\t%" PRIu32 "\t%" PRIu32 "\t%" PRIu32 "\n", record[1], record[2], record[3]);
    }
    return (size_t)(text - (char *)bytes);
}

/* Runs a command whose batch comes on standard input, in two halves. Between them others
 * read and write the card; then the command does what it should. */
static void input_holds_nothing(const char *const *words, const unsigned char *bytes, size_t count,
                                const uint32_t *after) {
    int ends[2];
    if (pipe2(ends, O_CLOEXEC) != 0)
        give_up("no pipe");
    lay(before, length);
    struct run run;
    start(&run, ends[0], words);
    send(ends[1], bytes, count / 2);
    check(all_read(ends[0]), "%s: the first half of a batch is read from standard input", words[0]);
    for (enum range range = WORDS_RANGE; range < RANGES; range++)
        check(in_the_way(file, range, F_WRLCK) == 0, "%s: who waits for a batch holds no lock", words[0]);
    readers_end(0, "beside a run that waits for its batch");
    check_status(RUN("apply", "--wait", "0", card, second_file), 0, "a writer beside a run that waits for its batch");
    send(ends[1], bytes + count / 2, count - count / 2);
    close(ends[1]);
    check_status(end_of(&run), 0, "a run that waited for its batch");
    check(file_has(file, after, length), "%s: the batch that came late comes after the other", words[0]);
    close(ends[0]);
    clear();
}

static void batches_from_input(void) {
    static unsigned char bytes[sizeof first_batch.words];
    size_t count = batch_bytes(bytes);
    input_holds_nothing((const char *const[]){"apply", "--wait", LONG_WAIT, card, "-", NULL}, bytes, count,
                        after_other);
    input_holds_nothing((const char *const[]){"fits", "--wait", LONG_WAIT, card, "-", NULL}, bytes, count,
                        after_second);
    count = batch_text(bytes);
    input_holds_nothing((const char *const[]){"apply", "--text", "--wait", LONG_WAIT, card, "-", NULL}, bytes, count,
                        after_other);
}

/* ---- the wait that is chosen */

/* Has a run turned away after a second. */
static void waits_a_second(const char *const *words) {
    struct ended *ended = run_to_end(words);
    check_turned_away(ended, words[0]);
    check(ended->took >= 0.99 && ended->took < 1 + AT_ONCE, "%s waits for a second: %.3f s", words[0], ended->took);
}

static void waits_are_kept(void) {
    struct run long_wait;
    struct run no_choice;
    lay(before, length);
    take_lock(file, WORDS_RANGE, F_WRLCK);
    readers_end(2, "while a step is made, without a wait");
    writers_turned_away("while a step is made, without a wait");
    START(&long_wait, "lookup", "--wait", LONG_WAIT, card, "10");
    START(&no_choice, "judge", card);
    waits_a_second((const char *const[]){"lookup", "--wait", "1", card, "10", NULL});
    waits_a_second((const char *const[]){"apply", "--wait", "1", card, first_file, NULL});
    check(under_way(&long_wait), "a reader with a long wait goes on waiting");
    check(file_has(file, before, length), "the card is as it was");
    take_lock(file, WORDS_RANGE, F_UNLCK);
    check_status(end_of(&long_wait), 0, "a reader with a long wait");
    check_status(end_of(&no_choice), 0, "a reader that chose no wait, after two seconds");
    clear();
}

static void readers_share(void) {
    lay(before, length);
    take_lock(file, WORDS_RANGE, F_RDLCK);
    readers_end(0, "beside another reader");
    clear();
}

/* ---- the gate */

/* A reader that comes while a writer waits comes after its step: so readers without
 * pause never keep a writer off. */
static void reader_after_waiting_writer(void) {
    struct run writer;
    struct run reader;
    lay(before, length);
    take_lock(file, WORDS_RANGE, F_RDLCK);
    START(&writer, "apply", "--wait", LONG_WAIT, card, first_file);
    check(comes_in_the_way(&writer, GATE_RANGE, F_RDLCK), "a writer that waits for its step has the gate");
    START(&reader, "lookup", "--wait", LONG_WAIT, card, "10");
    pause_for(0.5);
    check(under_way(&reader), "a reader waits behind a writer that waits");
    check(under_way(&writer), "a writer waits for a reader that stands still");
    take_lock(file, WORDS_RANGE, F_UNLCK);
    check_status(end_of(&reader), 0, "the reader behind a writer");
    check_status(end_of(&writer), 0, "the writer that waited for a reader");
    check(file_has(file, after_first, length), "its batch is whole");
    clear();
}

/* A writer that comes while a reader waits makes no step before the reader is in: so a
 * writer's steps, one after another, never keep a reader off. */
static void writer_after_waiting_reader(void) {
    enum { TRIES = 12 };
    int late = 0;
    for (int i = 0; i < TRIES && late == 0; i++) {
        struct run reader;
        struct run writer;
        lay(before, length);
        take_lock(file, WORDS_RANGE, F_WRLCK);
        START(&reader, "show", "--wait", LONG_WAIT, card);
        bool waits = comes_in_the_way(&reader, GATE_RANGE, F_WRLCK);
        START(&writer, "apply", "--wait", LONG_WAIT, card, first_file);
        waits &= comes_in_the_way(&writer, WRITER_RANGE, F_WRLCK);
        pause_for(0.005);
        take_lock(file, WORDS_RANGE, F_UNLCK);
        struct ended *shown = end_of(&reader);
        late += !waits || shown->status != 0 || strstr(shown->out, "a pass is open") != NULL;
        late += end_of(&writer)->status != 0;
        clear();
    }
    check(late == 0, "a reader that waits gets in before the next step");
}

/* ---- a writer that gives up in the midst of its pass */

/* Has a reader's locks taken in the midst of a pass; gives the state then, or 0 where no
 * pass could be met in its midst. */
static size_t stop_in_pass(const struct history *history, struct run *writer) {
    enum { TRIES = 20 };
    for (int i = 0; i < TRIES; i++) {
        lay(history->first, history->length);
        START(writer, "apply", "--wait", "1", card, in_folder("pass.batch"));
        while (under_way(writer) && state_now(history, file, 0) < 3)
            ;
        take_lock(file, GATE_RANGE, F_RDLCK);
        take_lock(file, WORDS_RANGE, F_RDLCK);
        take_lock(file, GATE_RANGE, F_UNLCK);
        size_t state = state_now(history, file, 0);
        if (state > 0 && state + 1 < history->states_count)
            return state;
        end_of(writer);
        clear();
    }
    return 0;
}

/* The pass that a reader which stands still comes into. */
static struct history *interrupted_pass(void) {
    static const struct filling filling = {.b = 256, .n = 256, .live = 255, .start = 9, .terms = 4};
    static struct question asked[QUESTIONS];
    static struct batch batch;
    for (size_t i = 0; i < QUESTIONS; i++)
        asked[i] = (struct question){.term = 10, .from = GI_LOWEST, .to = GI_HIGHEST};
    size_t words;
    uint32_t *filled = filled_card(&filling, &words);
    replace_batch(&batch, &filling, 20);
    struct history *history = history_of(filled, words, asked, &batch);
    history_pass(history, &batch);
    write_words(in_folder("pass.batch"), batch.words, batch.length);
    return history;
}

static void writer_gives_up(void) {
    struct history *history = interrupted_pass();
    struct run writer;
    size_t state = stop_in_pass(history, &writer);
    check(state > 0, "a reader comes into a pass in its midst");
    if (state > 0) {
        struct ended *ended = end_of(&writer);
        check_turned_away(ended, "a writer that meets a reader that stands still");
        check(ended->took >= 0.99, "it waits a second for it");
        check(state_now(history, file, 0) == state, "the card stays in the midst of the pass");
        ended = RUN("judge", "--wait", "0", card);
        check_status(ended, 0, "the judge in the midst of a pass without a writer");
        check(strstr(ended->out, "a pass is open") != NULL, "it says that a pass is open");
        take_lock(file, WORDS_RANGE, F_UNLCK);
        check_status(RUN("apply", "--wait", "1", card, in_folder("pass.batch")), 0, "the same command again");
        check(file_has(file, history->last, history->length), "it ends the pass, word for word");
        clear();
    }
    history_free(history);
}

void test_locks(void) {
    prepare();
    second_writer_waits();
    writers_in_a_crowd();
    batches_from_input();
    waits_are_kept();
    readers_share();
    reader_after_waiting_writer();
    writer_after_waiting_reader();
    writer_gives_up();
}
