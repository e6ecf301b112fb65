/* Fuzzes the host program: a card file, a note beside it, a batch or text file, and up to
 * four commands over them, one after another. Whatever they give, a sound card stays sound,
 * commands that only read leave the card's file byte for byte, a batch that was applied
 * gives the card that the library makes, and of a text that was applied, through any cuts,
 * the last line that touches a pair decides. */
#define _POSIX_C_SOURCE 200809L

#include <errno.h>
#include <stdio.h>
#include <stdlib.h>
#include <string.h>

#include "fuzz.h"

int LLVMFuzzerInitialize(int *count, char ***words);
int LLVMFuzzerTestOneInput(const uint8_t *bytes, size_t length);

/* The main of the host program, and what it calls in place of the system's syncs. */
int host_main(int count, char **words);
int __wrap_fsync(int file);
int __wrap_fdatasync(int file);

/* ---- the medium */

static uint32_t syncs_left; /* before one fails, which ends a run as a cut would */
static bool cut;            /* whether one failed */

int __wrap_fsync(int file) {
    (void)file;
    cut = syncs_left-- == 0 || cut;
    errno = EIO;
    return cut ? -1 : 0;
}

int __wrap_fdatasync(int file) {
    return __wrap_fsync(file);
}

/* ---- the files */

/* Every note is the host's own, and every open pass that of its note. */
static bool honest;

static char card_path[64];
static char note_path[64];
static char input_path[64]; /* of a batch or text */
static char new_path[64];   /* of what convert makes */

int LLVMFuzzerInitialize(int *count, char ***words) {
    (void)count;
    (void)words;
    strcpy(card_path, file_name("card"));
    strcpy(note_path, file_name("card.pass"));
    strcpy(input_path, file_name("input"));
    strcpy(new_path, file_name("new"));
    return freopen("/dev/null", "r", stdin) == NULL;
}

/* The words of a file; none where it is not there. */
static struct words read_words(const char *path) {
    static uint32_t words[GI_CARD_WORDS_MAX + 1];
    FILE *file = fopen(path, "rb");
    size_t count = 0;
    if (file != NULL) {
        count = fread(words, sizeof *words, sizeof words / sizeof *words, file);
        fclose(file);
    }
    return words_of(words, count);
}

static void make_words(const char *path, struct words words) {
    file_make(path, words.at, words.count * sizeof *words.at);
}

/* Opens the file as fopen does, where that can be done, and writes so many bytes of the
 * input, or zeros where there are no more. */
static void write_bytes(const char *path, const char *mode, struct drawn *from) {
    size_t length = 2 * (size_t)draw_byte(from);
    FILE *file = fopen(path, mode);
    if (file == NULL)
        return;
    for (; length > 0; length--)
        fputc((int)draw_byte(from), file);
    fclose(file);
}

/* The records of a batch without their arrival numbers, as earlier boxes wrote them. */
static void make_old(struct words batch) {
    size_t records = batch.count / GI_RECORD_WORDS;
    for (size_t i = 0; i < records; i++)
        memmove(batch.at + i * 4, batch.at + i * GI_RECORD_WORDS, 4 * sizeof *batch.at);
    batch.count = records * 4;
    make_words(input_path, batch);
}

/* The records of a batch as lines of text, an annulment as one of another form. */
static void make_lines(struct words batch) {
    FILE *file = fopen(input_path, "wb");
    assert(file != NULL);
    for (size_t i = 0; i + GI_RECORD_WORDS <= batch.count; i += GI_RECORD_WORDS) {
        const uint32_t *record = batch.at + i;
        if (record[0] == GI_RECORD_ADD)
            fprintf(file, "A\t%u\t%u\n", record[1], record[2]);
        else
            fprintf(file, "%c\t%u\t%u\t%u\n", record[0] == GI_RECORD_REMOVE ? 'R' : 'X', record[1], record[2],
                    record[3]);
    }
    fclose(file);
}

/* Makes the batch or text file, or leaves the one that is there. */
static void draw_input(struct drawn *from) {
    uint32_t choice = draw_byte(from) % 8;
    if (choice == 3)
        write_bytes(input_path, "wb", from);
    if (choice >= 3)
        return;
    struct words batch = draw_batch(from);
    if (choice == 0)
        make_words(input_path, batch);
    else if (choice == 1)
        make_lines(batch);
    else
        make_old(batch);
    words_free(batch);
}

/* Now and then there is no note, another one, or one with other bytes at its start or more
 * at its end. */
static void draw_note(struct drawn *from) {
    static const char *const modes[] = {"wb", "r+b", "ab"};
    uint32_t choice = draw_byte(from);
    if (choice == 1)
        remove(note_path);
    if (choice < 2 || choice > 4)
        return;
    honest = false;
    write_bytes(note_path, modes[choice - 2], from);
}

static void draw_files(struct drawn *from) {
    remove(note_path);
    remove(card_path);
    file_make(input_path, "", 0);
    honest = true;
    if (draw_byte(from) == 1)
        return;
    struct words card = draw_card(from);
    honest = card.count < GI_CONFIG_WORDS || card.at[GI_CONFIG_NEW_LENGTH] == 0;
    make_words(card_path, card);
    words_free(card);
}

/* ---- the commands */

enum { WORDS_MAX = 16, NUMBER_BYTES = 16 };

struct command {
    const char *name;
    bool writes; /* it may write the card */
    bool text;
    bool anyway;
    bool force;
    int count;
    char *words[WORDS_MAX + 1];
    char numbers[3][NUMBER_BYTES]; /* those of the words that are numbers */
    char *output;                  /* what it wrote to standard output */
};

/* The other words by their letters: the card, the input, a new file, numbers. */
static const struct {
    const char *name;
    const char *letters;
    bool writes;
} commands[] = {
    {"apply", "ci", true},   {"fits", "ci", false},    {"annul", "cnn", true},    {"lookup", "cn", false},
    {"judge", "c", false},   {"show", "c", false},     {"lookup", "cnnn", false}, {"page", "cn", false},
    {"page", "cnnn", false}, {"format", "cnn", true},  {"convert", "if", false},  {"help", "", false},
    {"none", "c", false},    {"apply", "c", false},    {"judge", "cnn", false},   {"dump", "c", false},
    {"terms", "c", false},   {"lookup", "cnn", false},
};

static const char *const options[] = {"--text", "--anyway", "--resume", "--force", "--wait", "--", "--odd", "--quiet"};

enum { COMMANDS = sizeof commands / sizeof *commands, OPTIONS = sizeof options / sizeof *options };

static void add_word(struct command *command, const char *word) {
    command->words[command->count++] = (char *)word;
}

/* The next byte has a bit for each option. */
static void draw_options(struct command *command, struct drawn *from) {
    uint32_t given = draw_byte(from);
    command->text = given & 1;
    command->anyway = given & 2;
    command->force = given & 8;
    honest = honest && !(given & 4); /* --resume */
    for (int i = 0; i < OPTIONS; i++) {
        if (given >> i & 1)
            add_word(command, options[i]);
        if (given >> i & 1 && strcmp(options[i], "--wait") == 0)
            add_word(command, "0");
    }
}

/* A number, or now and then what is none or has another form. */
static void draw_figures(char *word, struct drawn *from) {
    static const char *const odd[] = {"", "4294967296", "x", "01"};
    enum { ODD = 240, COUNT = sizeof odd / sizeof *odd };
    uint32_t number = draw_number(from);
    if (number >= ODD && number < ODD + COUNT)
        strcpy(word, odd[number - ODD]);
    else
        snprintf(word, NUMBER_BYTES, "%u", number);
}

static void draw_command(struct command *command, struct drawn *from) {
    uint32_t which = draw_byte(from) % COMMANDS;
    char(*number)[NUMBER_BYTES] = command->numbers;
    *command = (struct command){.name = commands[which].name, .writes = commands[which].writes};
    add_word(command, "host");
    add_word(command, command->name);
    draw_options(command, from);
    for (const char *letter = commands[which].letters; *letter != '\0'; letter++)
        if (*letter == 'n') {
            draw_figures(*number, from);
            add_word(command, *number++);
        } else {
            add_word(command, *letter == 'c' ? card_path : *letter == 'i' ? input_path : new_path);
        }
}

/* Most runs are not cut. */
static void draw_cut(struct drawn *from) {
    uint32_t choice = draw_byte(from);
    syncs_left = choice != 0 && choice < 64 ? choice : UINT32_MAX;
}

/* Runs a command; its output is the caller's to free, its other messages are dropped. */
static int run(struct command *command) {
    FILE *shown[] = {stdout, stderr};
    char *messages = NULL;
    size_t lengths[2];
    cut = false;
    remove(new_path);
    stdout = open_memstream(&command->output, &lengths[0]); /* the host closes it */
    stderr = open_memstream(&messages, &lengths[1]);
    int status = host_main(command->count, command->words);
    fclose(stderr);
    stdout = shown[0];
    stderr = shown[1];
    free(messages);
    return status;
}

/* ---- what must hold */

enum { DONE = 0, NO_ROOM = 3 };

/* A refused command changes nothing, but for the first parts of a text, what does not fit
 * and goes as far as it can, and what was cut. */
static bool may_change(const struct command *command, int status) {
    return command->writes && (status == DONE || command->text || command->anyway || cut);
}

/* The output of lookup and page has the positions of the answer, that of page the term
 * before them. */
static void see_answer(const struct command *command, struct words card) {
    struct words answer = words_blank(card.count);
    uint32_t asked[3] = {0, GI_LOWEST, GI_HIGHEST};
    uint32_t found;
    uint32_t blocks;
    char *at = command->output;
    for (int i = 0; i < 3 && command->numbers[i][0] != '\0'; i++)
        asked[i] = (uint32_t)strtoul(command->numbers[i], NULL, 10);
    gi_lookup(card.at, card.count, asked[0], asked[1], asked[2], answer.at, answer.count, &found, &blocks);
    if (found != 0 && strcmp(command->name, "page") == 0)
        assert(strtoul(at, &at, 10) == asked[0]);
    for (uint32_t i = 0; i < found; i++)
        assert(strtoul(at, &at, 10) == answer.at[i]);
    assert(strspn(at, " \n") == strlen(at));
    words_free(answer);
}

/* Sees a line of two numbers, and gives where the next one begins. */
static char *see_line(char *at, uint32_t first, uint32_t second) {
    assert(strtoul(at, &at, 10) == first && *at == '\t');
    assert(strtoul(at + 1, &at, 10) == second && *at == '\n');
    return at + 1;
}

/* Sees the line of each position of a term, or the one of their count. */
static char *see_term(char *at, struct words card, uint32_t term, bool counted) {
    struct words answer = words_blank(card.count);
    uint32_t found;
    uint32_t blocks;
    gi_lookup_all(card.at, card.count, term, answer.at, answer.count, &found, &blocks);
    if (counted && found != 0)
        at = see_line(at, term, found);
    for (uint32_t i = 0; !counted && i < found; i++)
        at = see_line(at, term, answer.at[i]);
    words_free(answer);
    return at;
}

static int compare(const void *left, const void *right) {
    uint32_t a = *(const uint32_t *)left;
    uint32_t b = *(const uint32_t *)right;
    return (a > b) - (a < b);
}

/* The output of dump and terms has every term of the index, rising: each is a word of the
 * card. */
static void see_index(const struct command *command, struct words card) {
    struct words terms = words_of(card.at, card.count);
    char *at = command->output;
    qsort(terms.at, terms.count, sizeof *terms.at, compare);
    for (size_t i = 0; i < terms.count; i++)
        if (i == 0 || terms.at[i] != terms.at[i - 1])
            at = see_term(at, card, terms.at[i], strcmp(command->name, "terms") == 0);
    assert(*at == '\0');
    words_free(terms);
}

/* The output of lookup with two terms has the lines of both. */
static void see_both(const struct command *command, struct words card) {
    char *at = command->output;
    for (int i = 0; i < 2; i++)
        at = see_term(at, card, (uint32_t)strtoul(command->numbers[i], NULL, 10), false);
    assert(*at == '\0');
}

/* The batch of a command: that of the annulled range, or the file's. */
static struct words batch_of(const struct command *command) {
    if (strcmp(command->name, "annul") != 0)
        return read_words(input_path);
    uint32_t from = (uint32_t)strtoul(command->numbers[0], NULL, 10);
    uint32_t to = (uint32_t)strtoul(command->numbers[1], NULL, 10);
    return words_of((const uint32_t[]){GI_RECORD_ANNUL, 0, from, to, 1}, GI_RECORD_WORDS);
}

/* The library makes the same card of a batch that was applied. */
static void see_applied(const struct command *command, struct words before, struct words after) {
    bool finished;
    struct words batch = batch_of(command);
    assert(make_steps(before, batch, SIZE_MAX, &finished) == GI_DONE && finished);
    assert(words_same(before, after));
    words_free(batch);
}

/* An empty index was made where no file was, or of a card without games, or by force. */
static void see_formatted(const struct command *command, struct words before, struct words after) {
    assert(gi_judge(after.at, after.count) == GI_DONE);
    assert(after.at[GI_CONFIG_OLD_LENGTH] == 0 && after.at[GI_CONFIG_NEW_LENGTH] == 0);
    if (command->force || before.count == 0)
        return;
    assert(gi_judge(before.at, before.count) == GI_DONE);
    assert(before.at[GI_CONFIG_OLD_LENGTH] == 0 && before.at[GI_CONFIG_NEW_LENGTH] == 0);
}

/* The record of a batch that touches a pair and arrived last; one of them does. */
static const uint32_t *latest(struct words batch, uint32_t term, uint32_t position) {
    const uint32_t *found = NULL;
    for (const uint32_t *r = batch.at; r != batch.at + batch.count; r += GI_RECORD_WORDS)
        if (r[1] == term && r[2] <= position && position <= r[3] && (found == NULL || r[4] > found[4]))
            found = r;
    return found;
}

/* Of the lines that touch an added pair the last one decides whether it is in the index. */
static void see_lines(struct words card) {
    enum { BYTES_MAX = 4096 };
    static uint8_t bytes[BYTES_MAX];
    size_t line;
    struct words batch = words_blank(BYTES_MAX);
    FILE *file = fopen(input_path, "rb");
    size_t length = fread(bytes, 1, sizeof bytes, file);
    fclose(file);
    assert(gi_scores(bytes, length, batch.at, BYTES_MAX, &batch.count, &line) == GI_DONE);
    for (const uint32_t *r = batch.at; r != batch.at + batch.count; r += GI_RECORD_WORDS) {
        uint32_t answer;
        uint32_t found;
        uint32_t blocks;
        gi_lookup(card.at, card.count, r[1], r[2], r[2], &answer, 1, &found, &blocks);
        assert(r[0] != GI_RECORD_ADD || found == (latest(batch, r[1], r[2])[0] == GI_RECORD_ADD));
    }
    words_free(batch);
}

/* What a command that is done has done. */
static void see_done(const struct command *command, struct words before, struct words after) {
    const char *name = command->name;
    if (strcmp(name, "dump") == 0 || strcmp(name, "terms") == 0)
        see_index(command, after);
    else if (strcmp(name, "lookup") == 0 && command->numbers[1][0] != '\0' && command->numbers[2][0] == '\0')
        see_both(command, after);
    else if (strcmp(name, "lookup") == 0 || strcmp(name, "page") == 0)
        see_answer(command, after);
    else if (strcmp(name, "format") == 0)
        see_formatted(command, before, after);
    else if (strcmp(name, "annul") == 0 || (strcmp(name, "apply") == 0 && !command->text))
        see_applied(command, before, after);
    else if (strcmp(name, "apply") == 0 && honest)
        see_lines(after);
}

static void run_drawn(struct drawn *from) {
    struct command command;
    draw_input(from);
    draw_note(from);
    draw_command(&command, from);
    draw_cut(from);
    struct words before = read_words(card_path);
    int status = run(&command);
    struct words after = read_words(card_path);
    assert(status >= DONE && status <= NO_ROOM);
    assert(status != NO_ROOM || strcmp(command.name, "fits") == 0);
    assert(gi_judge(before.at, before.count) != GI_DONE || gi_judge(after.at, after.count) == GI_DONE);
    assert(may_change(&command, status) || words_same(before, after));
    if (status == DONE)
        see_done(&command, before, after);
    free(command.output);
    words_free(before);
    words_free(after);
}

int LLVMFuzzerTestOneInput(const uint8_t *bytes, size_t length) {
    struct drawn from = {bytes, length};
    draw_files(&from);
    uint32_t runs = 1 + draw_byte(&from) % 4;
    for (uint32_t i = 0; i < runs; i++)
        run_drawn(&from);
    return 0;
}
