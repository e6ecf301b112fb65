/* The commands that faults are tried on: every one in its ordinary forms and its refusals,
 * on cards that are new, empty, live, full or none, with passes open, cut short and noted or
 * not, and with files in the way; and the program that runs the tests of faults and cuts. */
#define _GNU_SOURCE

#include <stdio.h>
#include <stdlib.h>
#include <string.h>

#include "faults.h"

enum { TEXT_BYTES = 4000 };

/* ---- files to start from */

static struct index live_pairs;
static struct records nothing, everything, grow, change, other, annulment, text, long_text, growing_text, too_much;
static struct state none, note_alone, blank, live, full, junk;
static struct state card_half, new_there, note_pending, note_half, long_half, open_noted, open_bare, open_pending,
    annul_bare, long_open, long_settled, long_between;

static const char *const change_words[] = {"apply", "cards/card", "in/change", NULL};
static const char *const annul_words[] = {"annul", "cards/card", "2", "7", NULL};
static const char *const long_words[] = {"apply", "--text", "cards/card", "in/long", NULL};
static const char *const large_words[] = {"format", "cards/card", "8", "12", NULL};

static struct record record(uint32_t kind, uint32_t term, uint32_t from, uint32_t to, uint32_t arrival) {
    return (struct record){kind, term, from, to, arrival};
}

static void add(struct records *records, uint32_t kind, uint32_t term, uint32_t from, uint32_t to) {
    records->list[records->count] = record(kind, term, from, to, (uint32_t)records->count + 1);
    records->count++;
}

/* A state of these files, all on the medium. */
static void settle(struct state *state, const struct folder *files) {
    folder_lay(files);
    state_take(state);
}

static void card_state(struct state *state, uint32_t b, uint32_t n, const struct records *applied) {
    static struct folder files;
    static uint32_t batch[GI_RECORD_WORDS * 100];
    struct file card;
    files.count = 0;
    card_make(&card, b, n);
    if (applied != NULL && !card_apply(&card, batch, records_batch(applied->list, applied->count, false, batch), -1))
        abort();
    folder_put(&files, "card", card.bytes, card.length);
    settle(state, &files);
}

/* The state that a run leaves which is killed after so many of its calls of a kind; whether
 * it has made so many. */
static bool killed_state(struct state *state, const struct state *start, const char *const *words, enum call_kind kind,
                         long calls) {
    state_lay(start);
    about("%s, killed after %s %ld to start from", words[0], call_names[kind], calls);
    int status = run_host(words, NULL, (struct plan){.at = calls, .kind = kind, .fault = FAULT_KILL_AFTER});
    state_take(state);
    return check(status == STATUS_KILLED, "status %d: %.*s", status, (int)run->messages_length, run->messages);
}

/* The state of the long text's run that was killed in its second part: after a write of
 * the part's first steps, or after its last step and before the third part is noted. */
static void long_state(struct state *state, bool open) {
    struct index first = index_after(&live_pairs, long_text.list, PART_LINES);
    struct index second = index_after(&first, long_text.list + PART_LINES, PART_LINES);
    long calls = 2;
    while (killed_state(state, &live, long_words, open ? CALL_PWRITE : CALL_FDATASYNC, calls++)) {
        const struct file *note = folder_find(&state->files, "card.pass");
        struct reading now = card_reading(folder_find(&state->files, "card"));
        bool noted = note != NULL && memmem(note->bytes, note->length, "part 2 of 3", 11) != NULL;
        if (noted && now.open == open && (open || index_equal(&now.index, &second)))
            return;
    }
}

static void write_inputs(void) {
    static unsigned char bytes[4 * GI_RECORD_WORDS * RECORDS_MAX];
    static char lines[TEXT_BYTES];
    input_write("change", bytes, records_as_words(&change, bytes));
    input_write("other", bytes, records_as_words(&other, bytes));
    input_write("much", bytes, records_as_words(&too_much, bytes));
    input_write("empty", bytes, 0);
    input_write("text", lines, records_as_text(&text, lines));
    input_write("growing", lines, records_as_text(&growing_text, lines));
    input_write("long", lines, records_as_text(&long_text, lines));
    size_t length = records_as_text(&long_text, lines);
    lines[length - 2] ^= 1; /* a figure of the last line */
    input_write("long_other", lines, length);
    length = records_as_text(&text, lines);
    lines[length - 2] = 'x';
    input_write("text12", lines, length);
    input_write("text6", "A\t5\t1\nA\t0\t1\n", 12);
    size_t words = records_as_words(&change, bytes);
    input_write("batch6", bytes, words - 4);
    input_write("odd", bytes, words - 3);
    bytes[4 * 4] = 0; /* the first arrival number */
    input_write("batch14", bytes, words);
    records_as_words(&change, bytes);
    bytes[4] = 255; /* the first term */
    input_write("batch7", bytes, words);
    const unsigned char old[] = {1, 0, 0, 0, 1, 0, 0, 0, 2, 0, 0, 0, 2, 0, 0, 0,
                                 2, 0, 0, 0, 5, 0, 0, 0, 1, 0, 0, 0, 9, 0, 0, 0};
    input_write("old", old, sizeof old);
    input_write("old_odd", old, sizeof old - 4);
}

static void make_records(void) {
    for (int i = 0; i < 8; i++)
        add(&grow, GI_RECORD_ADD, 5, positions[i], positions[i]);
    add(&grow, GI_RECORD_ADD, 8, 1, 1);
    add(&grow, GI_RECORD_ADD, 8, 2, 2);
    add(&grow, GI_RECORD_ADD, 1000, 7, 7);
    add(&change, GI_RECORD_ADD, 1, 1, 1);
    add(&change, GI_RECORD_REMOVE, 5, 2, 4);
    add(&change, GI_RECORD_ADD, 5, 3, 3);
    add(&change, GI_RECORD_ADD, 5, 100, 100);
    add(&change, GI_RECORD_REMOVE, 8, 1, 1);
    add(&change, GI_RECORD_ADD, 70000, 5, 5);
    add(&other, GI_RECORD_ADD, 2, 2, 2);
    add(&other, GI_RECORD_REMOVE, 5, 9, 9);
    add(&everything, GI_RECORD_ANNUL, 0, 1, UINT32_MAX);
    add(&annulment, GI_RECORD_ANNUL, 0, 2, 7);
    add(&text, GI_RECORD_ADD, 70000, 9, 9);
    add(&text, GI_RECORD_REMOVE, 5, 1, 5);
    add(&text, GI_RECORD_ADD, 5, 4, 4);
    add(&text, GI_RECORD_ADD, 2, 4, 4);
    for (int t = 0; t < TERMS; t++)
        for (int p = 0; p < POSITIONS; p += 2)
            add(&too_much, GI_RECORD_ADD, terms[t], positions[p], positions[p]);
    for (int i = 0; i < 2 * PART_LINES + 2; i++)
        add(&growing_text, GI_RECORD_ADD, terms[i % TERMS], positions[i < PART_LINES ? 5 : 10],
            positions[i < PART_LINES ? 5 : 10]);
    for (int i = 0; i < 2 * PART_LINES + 2; i++) {
        if (i % 3 == 2)
            add(&long_text, GI_RECORD_REMOVE, terms[i % TERMS], positions[i % 7], positions[i % 7 + 2]);
        else
            add(&long_text, GI_RECORD_ADD, terms[(i / 2) % TERMS], positions[i % 11], positions[i % 11]);
    }
}

/* The same state with all of it on the medium, and without a file. */
static void settled_without(struct state *state, const struct state *start, const char *name) {
    static struct folder files;
    files = start->files;
    folder_remove(&files, name);
    settle(state, &files);
}

static void make_states(void) {
    static struct folder files;
    unsigned char bytes[4 * (8 + 6 * 10)];
    files.count = 0;
    settle(&none, &files);
    memset(bytes, 'u', sizeof bytes);
    folder_put(&files, "card", bytes, sizeof bytes);
    settle(&junk, &files);
    card_state(&blank, 8, 6, NULL);
    card_state(&live, 8, 12, &grow);
    card_state(&full, 8, 7, &grow);
    files.count = 0;
    folder_put(&files, "new", "as it was", 9);
    settle(&new_there, &files);
    killed_state(&card_half, &none, large_words, CALL_WRITE, 1);
    killed_state(&note_pending, &live, change_words, CALL_RENAME, 1);
    killed_state(&note_half, &live, change_words, CALL_WRITE, 1);
    killed_state(&long_half, &live, long_words, CALL_WRITE, 1);
    killed_state(&open_pending, &live, change_words, CALL_PWRITE, 6);
    settled_without(&open_noted, &open_pending, "");
    settled_without(&open_bare, &open_pending, "card.pass");
    settled_without(&note_alone, &open_pending, "card");
    killed_state(&annul_bare, &live, annul_words, CALL_PWRITE, 3);
    settled_without(&annul_bare, &annul_bare, "card.pass");
    live_pairs = card_reading(folder_find(&live.files, "card")).index;
    long_state(&long_open, true);
    settled_without(&long_settled, &long_open, "");
    long_state(&long_between, false);
}

/* ---- every command */

/* Works out the indexes that a card goes through, and tries the scenario. */
static void try_command(struct scenario scenario) {
    const struct state *base = scenario.base != NULL ? scenario.base : scenario.start;
    const struct records *applied = scenario.applied;
    size_t part = scenario.lines ? PART_LINES : RECORDS_MAX;
    scenario.stage_count = 1;
    scenario.stages[0] = card_reading(folder_find(&base->files, "card")).index;
    for (size_t at = 0; applied != NULL && (at == 0 || at < applied->count); at += part) {
        size_t count = applied->count - at < part ? applied->count - at : part;
        struct index *next = &scenario.stages[scenario.stage_count++];
        *next = index_after(next - 1, applied->list + at, count);
    }
    try_scenario(&scenario);
}

#define TRY(...) try_command((struct scenario){__VA_ARGS__})

static void try_formats(void) {
    TRY("format, new", {"format", "cards/card", "8", "6"}, .start = &none, .says = "created and formatted",
        .applied = &nothing);
    TRY("format, new, an old note", {"format", "cards/card", "8", "6"}, .start = &note_alone,
        .says = "created and formatted", .applied = &nothing);
    TRY("format, new, half a larger card", {"format", "cards/card", "8", "6"}, .start = &card_half,
        .says = "created and formatted", .applied = &nothing);
    TRY("format, empty", {"format", "cards/card", "8", "6"}, .start = &blank, .says = "formatted", .applied = &nothing);
    TRY("format, by force", {"format", "--force", "cards/card", "8", "12"}, .start = &live, .says = "formatted",
        .applied = &everything);
    TRY("format, by force, no card", {"format", "--force", "cards/card", "8", "6"}, .start = &junk, .says = "formatted",
        .applied = &nothing);
    TRY("format, by force, pass open", {"format", "--force", "cards/card", "8", "12"}, .start = &open_noted,
        .says = "formatted", .applied = &everything);
    TRY("format, refused, pairs", {"format", "cards/card", "8", "12"}, .start = &live, .status = 1, .says = "--force");
    TRY("format, refused, no card", {"format", "cards/card", "8", "6"}, .start = &junk, .status = 1, .says = "--force");
    TRY("format, refused, limits", {"format", "cards/card", "7", "6"}, .start = &none, .status = 1, .says = "number 5");
    TRY("format, refused, length", {"format", "cards/card", "8", "11"}, .start = &live, .status = 1,
        .says = "number 1");
    TRY("convert", {"convert", "in/old", "cards/new"}, .start = &none, .says = "2 records", .makes = "new");
    TRY("convert, the file is there", {"convert", "in/old", "cards/new"}, .start = &new_there, .status = 2,
        .says = "File exists");
    TRY("convert, refused", {"convert", "in/old_odd", "cards/new"}, .start = &none, .status = 1, .says = "refused");
}

static void try_applies(void) {
    TRY("apply, after others", {"apply", "cards/card", "in/other"}, .busy = 3, .start = &live,
        .says = "the pass is finished", .applied = &other);
    TRY("apply", {"apply", "cards/card", "in/change"}, .start = &live, .says = "the pass is finished",
        .applied = &change);
    TRY("apply, through a link", {"apply", "in/link", "in/change"}, .start = &live, .says = "the pass is finished",
        .applied = &change);
    TRY("apply, standard input", {"apply", "cards/card", "-"}, "in/other", .start = &blank,
        .says = "the pass is finished", .applied = &other);
    TRY("apply, text", {"apply", "--text", "cards/card", "in/text"}, .start = &live, .says = "the pass is finished",
        .applied = &text, .lines = true);
    TRY("apply, empty", {"apply", "cards/card", "in/empty"}, .start = &live, .says = "the pass is finished",
        .applied = &nothing);
    TRY("annul", {"annul", "cards/card", "2", "7"}, .start = &live, .says = "the pass is finished",
        .applied = &annulment);
    TRY("apply, quietly", {"apply", "cards/card", "in/change", "--quiet"}, .start = &live, .says = "",
        .applied = &change);
    TRY("apply, too much", {"apply", "cards/card", "in/much"}, .start = &full, .status = 1, .says = "number 8");
    TRY("apply, too much, --anyway", {"apply", "--anyway", "cards/card", "in/much"}, .start = &full, .status = 1,
        .says = "stays open", .applied = &too_much);
}

static void try_open_passes(void) {
    TRY("apply, again", {"apply", "cards/card", "in/change"}, .start = &open_noted, .says = "the pass is finished",
        .applied = &change, .base = &live);
    TRY("apply, again, a write pending", {"apply", "cards/card", "in/change"}, .start = &open_pending,
        .says = "the pass is finished", .applied = &change, .base = &live);
    TRY("apply, again, the note pending", {"apply", "cards/card", "in/change"}, .start = &note_pending,
        .says = "the pass is finished", .applied = &change, .base = &live);
    TRY("apply, again, half a note", {"apply", "cards/card", "in/change"}, .start = &note_half,
        .says = "the pass is finished", .applied = &change, .base = &live);
    TRY("apply, half a longer note", {"apply", "cards/card", "in/change"}, .start = &long_half,
        .says = "the pass is finished", .applied = &change);
    TRY("apply, --resume", {"apply", "--resume", "cards/card", "in/change"}, .start = &open_bare,
        .says = "the pass is finished", .applied = &change, .base = &live);
    TRY("apply, empty on an open pass", {"apply", "cards/card", "in/empty"}, .start = &open_noted,
        .says = "the pass is finished", .applied = &nothing);
    TRY("apply, no note", {"apply", "cards/card", "in/change"}, .start = &open_bare, .status = 1,
        .says = "a pass is open");
    TRY("apply, another", {"apply", "cards/card", "in/other"}, .start = &open_noted, .status = 1,
        .says = "a pass is open");
    TRY("apply, another, --resume", {"apply", "--resume", "cards/card", "in/other"}, .start = &open_noted, .status = 1,
        .says = "a pass is open");
    TRY("annul, on an open pass", {"annul", "--resume", "cards/card", "2", "7"}, .start = &open_noted, .status = 1,
        .says = "a pass is open");
    TRY("annul, --resume", {"annul", "--resume", "cards/card", "2", "7"}, .start = &annul_bare,
        .says = "the pass is finished", .applied = &annulment, .base = &live);
}

static void try_long_texts(void) {
    TRY("apply, long text", {"apply", "--text", "cards/card", "in/long"}, .start = &live, .says = "part 3 of 3",
        .applied = &long_text, .lines = true);
    TRY("apply, long text, again", {"apply", "--text", "cards/card", "in/long"}, .start = &long_open,
        .says = "part 3 of 3", .applied = &long_text, .lines = true, .base = &live);
    TRY("apply, long text, again between parts", {"apply", "--text", "cards/card", "in/long"}, .start = &long_between,
        .says = "part 3 of 3", .applied = &long_text, .lines = true, .base = &live);
    TRY("apply, long text, a part too much", {"apply", "--text", "cards/card", "in/growing"}, .start = &full,
        .status = 1, .says = "the parts before it are in the index", .applied = &growing_text, .lines = true);
    TRY("apply, another long text", {"apply", "--text", "cards/card", "in/long_other"}, .start = &long_settled,
        .status = 1, .says = "a pass is open");
    TRY("fits, long text", {"fits", "--text", "cards/card", "in/long"}, .start = &live, .says = "part 3 of 3");
}

static void try_bad_files(void) {
    TRY("apply, 6", {"apply", "cards/card", "in/batch6"}, .start = &live, .status = 1, .says = "number 6");
    TRY("apply, 7", {"apply", "cards/card", "in/batch7"}, .start = &live, .status = 1, .says = "number 7");
    TRY("apply, 14", {"apply", "cards/card", "in/batch14"}, .start = &live, .status = 1, .says = "number 14");
    TRY("apply, text, 12", {"apply", "--text", "cards/card", "in/text12"}, .start = &live, .status = 1,
        .says = "number 12");
    TRY("apply, text, 6", {"apply", "--text", "cards/card", "in/text6"}, .start = &live, .status = 1,
        .says = "number 6");
    TRY("apply, no whole words", {"apply", "cards/card", "in/odd"}, .start = &live, .status = 2, .says = "in/odd");
    TRY("apply, no card", {"apply", "cards/card", "in/change"}, .start = &none, .status = 2, .says = "No such file");
    TRY("apply, not sound", {"apply", "cards/card", "in/change"}, .start = &junk, .status = 1, .says = "number 2");
}

static void try_readers(void) {
    TRY("fits", {"fits", "cards/card", "in/change"}, .start = &live, .says = "the batch fits");
    TRY("fits, text", {"fits", "--text", "cards/card", "in/text"}, .start = &live, .says = "the batch fits");
    TRY("fits, too much", {"fits", "cards/card", "in/much"}, .start = &full, .status = 3, .says = "does not fit");
    TRY("fits, pass open", {"fits", "cards/card", "in/change"}, .start = &open_pending, .says = "a pass is open",
        .applied = &change, .base = &live);
    TRY("lookup", {"lookup", "cards/card", "5", "2", "100"}, .start = &live, .says = "7 positions");
    TRY("lookup, after others", {"lookup", "cards/card", "5"}, .busy = 3, .start = &live, .says = "8 positions");
    TRY("lookup, refused", {"lookup", "cards/card", "5", "3", "2"}, .start = &live, .status = 1, .says = "number 9");
    TRY("lookup, a write pending", {"lookup", "cards/card", "5"}, .start = &open_pending, .says = "positions",
        .applied = &change, .base = &live);
    TRY("page", {"page", "cards/card", "5"}, .start = &live, .says = "         5          1          2");
    TRY("page, a write pending", {"page", "cards/card", "5"}, .start = &open_pending, .says = "         5 ",
        .applied = &change, .base = &live);
    TRY("lookup, several terms", {"lookup", "cards/card", "5", "8", "--from", "2"}, .start = &live, .says = "8\t2\n");
    TRY("lookup, several terms, refused", {"lookup", "cards/card", "5", "0"}, .start = &live, .status = 1,
        .says = "number 9");
    TRY("page, several terms", {"page", "cards/card", "5", "8"}, .start = &live, .says = "         8          1");
    TRY("dump", {"dump", "cards/card"}, .start = &live, .says = "1000\t7\n");
    TRY("dump, pass open", {"dump", "cards/card"}, .start = &open_pending, .says = "1000\t7\n", .applied = &change,
        .base = &live);
    TRY("dump, not sound", {"dump", "cards/card"}, .start = &junk, .status = 1, .says = "number 2");
    TRY("terms", {"terms", "cards/card"}, .start = &live, .says = "1000\t1\n");
    TRY("terms, pass open", {"terms", "cards/card"}, .start = &open_pending, .says = "1000\t1\n", .applied = &change,
        .base = &live);
    TRY("judge", {"judge", "cards/card"}, .start = &live, .says = "0, sound");
    TRY("judge, not sound", {"judge", "cards/card"}, .start = &junk, .status = 1, .says = "2, ");
    TRY("judge, pass open", {"judge", "cards/card"}, .start = &open_pending, .says = "a pass is open",
        .applied = &change, .base = &live);
    TRY("show", {"show", "cards/card"}, .start = &live, .says = "live places");
    TRY("show, pass open", {"show", "cards/card"}, .start = &open_pending, .says = "a pass is open", .applied = &change,
        .base = &live);
}

void test_faults(void) {
    make_records();
    write_inputs();
    make_states();
    try_formats();
    try_applies();
    try_open_passes();
    try_long_texts();
    try_bad_files();
    try_readers();
    show_faults();
}

int __wrap_main(int argc, char **argv);

/* A seed for what is drawn may be given. */
int __wrap_main(int argc, char **argv) {
    random_state = argc > 1 ? strtoull(argv[1], NULL, 10) | 1 : 20261117;
    medium_begin();
    test_faults();
    test_cuts();
    medium_end();
    printf("%ld passed, %ld failed\n", passed, failed);
    return failed == 0 ? 0 : 1;
}
