/* Cuts: drawn cards and batches, whose runs are killed at a drawn system call, and the power
 * fails after some of them. Each time the card must be sound, its pairs one by one as the
 * index before or after the part in hand has them, and the same command must go on and come
 * to the end that the records ask for, worked out apart. Between the runs other batches are
 * tried, which must be refused, the note beside the card is lost, or the pass is ended. */
#define _GNU_SOURCE

#include <inttypes.h>
#include <stdio.h>
#include <stdlib.h>
#include <string.h>

#include "faults.h"

enum { ROUNDS = 4000, PARTS_MAX = 4, ALL_STEPS = -1 };

/* What a round applies. */
enum kind { KIND_WORDS, KIND_TEXT, KIND_LONG, KIND_ANNUL, KIND_EMPTY, KINDS };
static const char *const kind_names[KINDS] = {"words", "text", "long text", "annul", "empty"};

static struct round {
    enum kind kind;
    struct records records;
    size_t parts;
    bool anyway;
    bool resume;   /* the note was lost: --resume is given */
    bool as_words; /* a text goes on as the same batch of words */
    bool standard; /* the batch comes from standard input */
    char numbers[2][16];
    struct index stages[PARTS_MAX + 1]; /* the index before the first part, and after each */
    long calls;                         /* of the run that is not cut */
    long calls_of[CALL_KINDS];
} round;

static struct folder files; /* what the run in hand left */

/* What was tried. */
static struct {
    long runs, kills, kills_of[FAULTS], cuts, resumes, parts_resumed, others, lost, refused, ended, full, anyway,
        same_words;
    long rounds_of[KINDS];
} count;

/* ---- what is drawn */

static uint32_t draw(const uint32_t *list, uint32_t length) {
    return list[random_below(length)];
}

/* A record; in lines there are no annulments. */
static struct record draw_record(bool lines) {
    uint32_t kind = random_below(100) < 60            ? GI_RECORD_ADD
                    : random_below(100) < 70 || lines ? GI_RECORD_REMOVE
                                                      : GI_RECORD_ANNUL;
    struct record record = {.kind = kind, .term = kind == GI_RECORD_ANNUL ? 0 : draw(terms, TERMS)};
    record.from = record.to = draw(positions, POSITIONS);
    if (kind != GI_RECORD_ADD)
        record.to = draw(positions, POSITIONS); /* also below from: then it removes nothing */
    return record;
}

/* Records, arriving in the order of their file, or by chance. */
static void draw_records(struct records *records, size_t length, bool lines) {
    records->count = length;
    uint32_t first = 1 + (lines ? 0 : random_below(1000));
    for (size_t i = 0; i < length; i++) {
        records->list[i] = draw_record(lines);
        records->list[i].arrival = first + (uint32_t)i;
    }
    for (size_t i = length; i > 1 && !lines; i--) {
        struct record *other = &records->list[random_below((uint32_t)i)];
        uint32_t arrival = other->arrival;
        other->arrival = records->list[i - 1].arrival;
        records->list[i - 1].arrival = arrival;
    }
}

/* A card of drawn size, with pairs where they fit. */
static void draw_card(void) {
    static struct records grown;
    static uint32_t batch[GI_RECORD_WORDS * RECORDS_MAX];
    struct file card, filled;
    card_make(&card, 8 + random_below(9), 2 + random_below(11));
    for (int i = 0; i < 2; i++) {
        draw_records(&grown, random_below(30), false);
        filled = card;
        if (card_apply(&filled, batch, records_batch(grown.list, grown.count, false, batch), ALL_STEPS))
            card = filled;
    }
    files.count = 0;
    folder_put(&files, "card", card.bytes, card.length);
}

static size_t part_records(size_t part, const struct record **list) {
    size_t lines = round.kind == KIND_LONG ? PART_LINES : RECORDS_MAX;
    *list = round.records.list + part * lines;
    size_t left = round.records.count - part * lines;
    return left < lines ? left : lines;
}

/* Works out the indexes of the round from a card on, whose command goes on with a part. Of
 * a pass that is open this part has what is above the boundary. */
static void work_out(const struct reading *now, size_t part) {
    for (size_t i = 0; i <= part; i++)
        round.stages[i] = now->index;
    for (size_t i = part; i < round.parts; i++) {
        const struct record *list;
        size_t length = part_records(i, &list);
        round.stages[i + 1] = index_after(&round.stages[i], list, length);
        if (i == part && now->open)
            round.stages[i + 1] = index_joined(&now->index, &round.stages[i + 1], now->boundary);
    }
}

static void write_inputs(void) {
    static unsigned char bytes[4 * GI_RECORD_WORDS * RECORDS_MAX];
    static char lines[40 * RECORDS_MAX];
    input_write("batch", bytes, records_as_words(&round.records, bytes));
    if (round.kind == KIND_TEXT || round.kind == KIND_LONG)
        input_write("lines", lines, records_as_text(&round.records, lines));
}

static enum kind draw_kind(void) {
    uint32_t drawn = random_below(100);
    return drawn < 35   ? KIND_WORDS
           : drawn < 50 ? KIND_TEXT
           : drawn < 85 ? KIND_LONG
           : drawn < 95 ? KIND_ANNUL
                        : KIND_EMPTY;
}

static void draw_round(void) {
    round.kind = draw_kind();
    round.anyway = random_below(6) == 0;
    round.standard = random_below(8) == 0;
    round.resume = round.as_words = false;
    bool lines = round.kind == KIND_TEXT || round.kind == KIND_LONG;
    size_t length = round.kind == KIND_WORDS  ? 1 + random_below(14)
                    : round.kind == KIND_TEXT ? 1 + random_below(PART_LINES)
                    : round.kind == KIND_LONG ? PART_LINES + 1 + random_below((PARTS_MAX - 1) * PART_LINES)
                                              : 0;
    draw_records(&round.records, length, lines);
    if (round.kind == KIND_ANNUL) {
        round.records.count = 1;
        round.records.list[0] =
            (struct record){GI_RECORD_ANNUL, 0, draw(positions, POSITIONS), draw(positions, POSITIONS), 1};
        snprintf(round.numbers[0], sizeof *round.numbers, "%u", (unsigned)round.records.list[0].from);
        snprintf(round.numbers[1], sizeof *round.numbers, "%u", (unsigned)round.records.list[0].to);
    }
    round.parts = round.kind == KIND_LONG ? (length + PART_LINES - 1) / PART_LINES : 1;
    write_inputs();
    draw_card();
    struct reading start = card_reading(folder_find(&files, "card"));
    work_out(&start, 0);
    count.rounds_of[round.kind]++;
}

/* ---- a run */

/* Runs the round's command. */
static int run_round(struct plan plan) {
    const char *words[WORDS_MAX + 1];
    int length = 0;
    bool lines = (round.kind == KIND_TEXT || round.kind == KIND_LONG) && !round.as_words;
    const char *batch = lines ? "in/lines" : "in/batch";
    words[length++] = round.kind == KIND_ANNUL ? "annul" : "apply";
    if (round.resume)
        words[length++] = "--resume";
    if (lines)
        words[length++] = "--text";
    if (round.anyway)
        words[length++] = "--anyway";
    words[length++] = "cards/card";
    if (round.kind == KIND_ANNUL) {
        words[length++] = round.numbers[0];
        words[length++] = round.numbers[1];
    } else {
        words[length++] = round.standard ? "-" : batch;
    }
    words[length] = NULL;
    count.runs++;
    return run_host(words, round.standard ? batch : NULL, plan);
}

/* A kill at some call, or at a call that matters. */
static struct plan draw_kill(void) {
    static const enum call_kind kinds[] = {CALL_PWRITE, CALL_FDATASYNC, CALL_WRITE,  CALL_FSYNC,
                                           CALL_RENAME, CALL_OPEN,      CALL_UNLINK, CALL_PWRITE};
    struct plan plan = {.fault = (enum fault)(FAULT_KILL_BEFORE + random_below(3))};
    if (random_below(2) == 0)
        plan.kind = kinds[random_below(sizeof kinds / sizeof *kinds)];
    long calls = plan.kind == CALL_ANY ? round.calls : round.calls_of[plan.kind];
    plan.at = calls == 0 ? 1 : 1 + random_below((uint32_t)calls);
    return plan;
}

/* ---- what is left */

static const char *messages(void) {
    run->messages[run->messages_length < STREAM_BYTES ? run->messages_length : STREAM_BYTES - 1] = '\0';
    return run->messages;
}

static struct reading reading_now(void) {
    return card_reading(folder_find(&files, "card"));
}

/* Takes what is left, and checks that the card is sound and on its way. */
static void check_way(const char *when) {
    struct reading now = reading_now();
    bool on_way = false;
    for (size_t i = 0; i < round.parts; i++)
        on_way |= index_between(&now, &round.stages[i], &round.stages[i + 1]);
    for (size_t i = 0; i <= round.parts; i++) /* also in the pass of a part that is applied again */
        on_way |= index_equal(&now.index, &round.stages[i]);
    check(now.sound, "%s: the card is not sound", when);
    check(on_way, "%s: the card has pairs of no index on its way", when);
}

/* The power fails: what is on the medium by chance is what is left. */
static void cut_power(void) {
    medium_cut(&files, choose_random, NULL);
    folder_lay(&files);
    count.cuts++;
}

static uint64_t add_words(uint64_t checksum, const uint32_t *words, size_t count) {
    for (size_t i = 0; i < count; i++)
        for (int shift = 0; shift < 32; shift += 8)
            checksum = (checksum ^ (words[i] >> shift & 255)) * UINT64_C(0x100000001b3);
    return checksum;
}

/* The checksum of a card, by the format's rules. */
static uint64_t card_checksum(const uint32_t *words) {
    uint64_t checksum = add_words(UINT64_C(0xcbf29ce484222325), words, 8);
    for (uint32_t i = 0; i < words[4] + words[5]; i++) {
        uint32_t place = (words[3] + i) % words[2];
        checksum = add_words(checksum, words + 8 + 2 * place, 2);
        checksum = add_words(checksum, words + 8 + 2 * words[2] + place * words[1], words[1]);
    }
    return checksum;
}

/* The part that the command goes on with, by the note and the card: the noted one, the
 * next one where the card is that of the noted one's end, or the first. */
static size_t part_in_hand(void) {
    const struct file *note = folder_find(&files, "card.pass");
    if (note == NULL || round.kind != KIND_LONG)
        return 0;
    char text[FILE_BYTES + 1];
    uint32_t words[CARD_WORDS_MAX];
    unsigned place, part;
    uint64_t begun, done;
    memcpy(text, note->bytes, note->length);
    text[note->length] = '\0';
    const char *line = strstr(text, "\npart ");
    const char *card = strstr(text, "\nblocks from place ");
    card_words(folder_find(&files, "card"), words);
    if (line == NULL || card == NULL || sscanf(line, "\npart %u of", &part) != 1)
        return 0;
    int said = sscanf(card, "\nblocks from place %u on\nbegun on checksum %" SCNx64 "\ndone on checksum %" SCNx64,
                      &place, &begun, &done);
    uint64_t now = card_checksum(words);
    if (words[5] != 0)
        return said >= 1 && place == (words[3] + words[4]) % words[2] ? part - 1 : 0;
    if (said >= 2 && begun == now)
        return part - 1;
    if (said < 3 || done != now)
        return 0;
    return part < round.parts ? part : part - 1;
}

/* What the command comes to on the card that is there, by the library: its exit status and
 * the card. */
static int foretell(struct file *card) {
    static uint32_t batch[GI_RECORD_WORDS * RECORDS_MAX];
    uint32_t words[CARD_WORDS_MAX];
    uint32_t told[4];
    for (size_t part = part_in_hand(); part < round.parts; part++) {
        const struct record *list;
        size_t length = part_records(part, &list);
        bool lines = round.kind == KIND_TEXT || round.kind == KIND_LONG;
        size_t batch_words = records_batch(list, length, lines, batch);
        size_t card_length = card_words(card, words);
        if (gi_forecast(words, card_length, batch, batch_words, &told[0], &told[1], &told[2], &told[3]) != GI_DONE)
            return 1;
        if ((told[2] == 0 && !round.anyway) || !card_apply(card, batch, batch_words, ALL_STEPS))
            return 1;
    }
    return 0;
}

/* ---- runs to the end */

/* Checks a run that was not killed: status, pairs, note and medium. */
static void check_end(int status, int expected, const struct reading *end) {
    struct reading now = reading_now();
    check(status == expected, "status %d in place of %d: %s", status, expected, messages());
    check(reading_equal(&now, end), "the card is another at the end");
    check_way("at the end");
    if (status == 0) {
        check(!now.open && index_equal(&now.index, &round.stages[round.parts]), "the pairs are not those of the batch");
        check(folder_find(&files, "card.pass") == NULL, "the note is left");
    } else {
        count.full++;
        check(strstr(messages(), "number 8") != NULL, "a refusal without number 8: %s", messages());
    }
    for (int i = 0; i < 3; i++) {
        static struct folder left;
        medium_cut(&left, choose_random, NULL);
        struct reading cut = card_reading(folder_find(&left, "card"));
        check(reading_equal(&now, &cut), "what was done is not on the medium");
    }
}

/* Runs the command to its end; it must be the one foretold. */
static void run_to_end(struct plan plan) {
    struct reading before = reading_now();
    if (!before.sound) /* that was told already */
        return;
    size_t part = part_in_hand();
    bool finished = !before.open && folder_find(&files, "card.pass") == NULL;
    if (finished && index_equal(&before.index, &round.stages[round.parts]))
        work_out(&before, 0); /* all of it once more */
    struct file card = *folder_find(&files, "card");
    int expected = foretell(&card);
    struct reading end = card_reading(&card);
    int status = run_round(plan);
    folder_take(&files);
    check(medium_agrees(), "the model of the medium does not follow the files");
    if (status == STATUS_KILLED) {
        count.kills++;
        count.kills_of[plan.fault]++;
        check_way("killed");
        return;
    }
    count.resumes += before.open;
    count.parts_resumed += before.open && part > 0;
    count.anyway += round.anyway && expected == 1;
    check_end(status, expected, &end);
}

/* ---- between the runs */

/* A command that must be refused and change nothing. */
static void refuse(const char *const *words, const char *what) {
    uint64_t before = folder_hash(&files);
    int status = run_host(words, NULL, (struct plan){0});
    folder_take(&files);
    count.runs++;
    count.refused++;
    check(status == 1 && strstr(messages(), "a pass is open") != NULL, "%s: status %d: %s", what, status, messages());
    check(run->output_length == 0, "%s: something is shown", what);
    check(folder_hash(&files) == before, "%s: something has changed", what);
}

/* Another batch on the open pass. */
static void try_other(void) {
    static struct records other;
    static unsigned char bytes[4 * GI_RECORD_WORDS * RECORDS_MAX];
    draw_records(&other, 1 + random_below(5), false);
    other.list[0].arrival += 5000; /* no batch of a round has such a number */
    input_write("other", bytes, records_as_words(&other, bytes));
    bool resume = random_below(2) == 0;
    refuse(resume ? (const char *const[]){"apply", "--resume", "cards/card", "in/other", NULL}
                  : (const char *const[]){"apply", "cards/card", "in/other", NULL},
           "another batch");
    count.others++;
}

/* The note is lost: the command is refused, and goes on with --resume, a long text from
 * its first part on. */
static void lose_note(void) {
    folder_remove(&files, "card.pass");
    folder_lay(&files);
    if (round.records.count != 0 && !round.resume) {
        uint64_t before = folder_hash(&files);
        int status = run_round((struct plan){0});
        folder_take(&files);
        count.refused++;
        check(status == 1 && strstr(messages(), "--resume") != NULL, "no note: status %d: %s", status, messages());
        check(folder_hash(&files) == before, "no note: something has changed");
    }
    round.resume = true;
    struct reading now = reading_now();
    work_out(&now, 0);
    count.lost++;
}

/* An empty batch ends the pass where it stands, also after cuts. */
static void end_pass(void) {
    static const char *const words[] = {"apply", "cards/card", "in/empty", NULL};
    struct reading before = reading_now();
    for (int tries = 0;; tries++) {
        int status = run_host(words, NULL, tries < 2 ? draw_kill() : (struct plan){0});
        count.runs++;
        folder_take(&files);
        if (status != STATUS_KILLED) {
            check(status == 0, "an empty batch: status %d: %s", status, messages());
            break;
        }
        count.kills++;
        if (random_below(2) == 0)
            cut_power();
        struct reading now = reading_now();
        check(now.sound && index_equal(&now.index, &before.index), "an empty batch, killed: other pairs");
    }
    struct reading now = reading_now();
    check(!now.open && index_equal(&now.index, &before.index), "an empty batch: other pairs, or the pass is open");
    check(folder_find(&files, "card.pass") == NULL, "an empty batch: the note is left");
    work_out(&now, 0);
    count.ended++;
}

/* What happens to a card with an open pass before the command goes on. */
static void come_between(void) {
    struct reading now = reading_now();
    bool noted = folder_find(&files, "card.pass") != NULL;
    if (!now.open || medium_choices(2) != 1)
        return;
    check(noted || round.resume, "a pass is open without a note");
    switch (random_below(6)) {
    case 0:
    case 1:
        if (noted)
            try_other();
        break;
    case 2:
        lose_note();
        break;
    case 3:
        end_pass();
        break;
    case 4:
        if (round.kind == KIND_TEXT) {
            round.as_words = true;
            count.same_words++;
        }
        break;
    default:
        break;
    }
}

/* ---- a round */

/* The run that is not cut: its calls are counted. */
static void run_uncut(void) {
    static struct folder start;
    start = files;
    folder_lay(&files);
    run_to_end((struct plan){0});
    round.calls = run->calls;
    memcpy(round.calls_of, run->calls_of, sizeof round.calls_of);
    files = start;
    folder_lay(&files);
}

static void play_round(int number) {
    draw_round();
    about("round %d, %s of %zu records%s", number, kind_names[round.kind], round.records.count,
          round.anyway ? ", --anyway" : "");
    run_uncut();
    for (uint32_t kills = 1 + random_below(5); kills > 0; kills--) {
        run_to_end(draw_kill());
        if (random_below(4) != 0) {
            cut_power();
            check_way("after a power cut");
        }
        come_between();
    }
    run_to_end((struct plan){0});
    if (reading_now().open)
        end_pass();
}

static void check_floors(void) {
    about("cuts, what was tried");
    check(count.kills >= 5000 && count.cuts >= 5000, "too few kills or power cuts");
    check(count.kills_of[FAULT_KILL_BEFORE] >= 1000 && count.kills_of[FAULT_KILL_HALF] >= 1000 &&
              count.kills_of[FAULT_KILL_AFTER] >= 1000,
          "too few kills of one kind");
    check(count.resumes >= 1000 && count.parts_resumed >= 200, "too few runs that went on");
    check(count.others >= 300 && count.lost >= 300 && count.ended >= 300, "too little came between");
    check(count.full >= 300 && count.anyway >= 100 && count.same_words >= 30,
          "too few full cards, or texts gone on with as words");
    for (int i = 0; i < KINDS; i++)
        check(count.rounds_of[i] >= 100, "too few rounds of %s", kind_names[i]);
}

void test_cuts(void) {
    for (int i = 1; i <= ROUNDS; i++)
        play_round(i);
    printf("cuts: %d rounds, %ld runs, %ld kills, %ld power cuts; %ld passes gone on with, %ld of them in a later "
           "part; %ld other batches and %ld notes lost, %ld refusals; %ld passes ended; %ld runs refused with 8, %ld "
           "of them after --anyway; %ld texts gone on with as words\n",
           ROUNDS, count.runs, count.kills, count.cuts, count.resumes, count.parts_resumed, count.others, count.lost,
           count.refused, count.ended, count.full, count.anyway, count.same_words);
    check_floors();
}
