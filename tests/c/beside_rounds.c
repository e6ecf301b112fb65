/* Readers without pause beside long passes. Each call is a whole process. The tester
 * knows every state that the card has during the passes; it looks at the card before
 * and after each call, and the answer must be that of one of the states in between. */
#define _GNU_SOURCE

#include <fcntl.h>
#include <inttypes.h>
#include <signal.h>
#include <stdatomic.h>
#include <stdio.h>
#include <stdlib.h>
#include <string.h>
#include <sys/mman.h>
#include <sys/prctl.h>
#include <sys/wait.h>
#include <unistd.h>

#include "beside.h"

enum { READERS = 4, STATES_MAX = 4096, SHOWN_MAX = 5, ROUND_SECONDS_MAX = 60 };

/* What readers wait for a lock at most, and what a call may take: far more than it does,
 * far less than the wait. */
#define READER_WAIT "40"
enum { CALL_SECONDS_MAX = 20 };

enum kind { LOOKUP, LOOKUP_RANGE, PAGE, JUDGE, SHOW, FITS, KINDS };
static const char *const kind_names[KINDS] = {"lookup", "lookup with a range", "page", "judge", "show", "fits"};

/* What the readers have found; they share it with the tester. */
struct tally {
    atomic_bool stop;
    atomic_ulong calls;
    atomic_ulong inside[KINDS];    /* calls that began and ended while a pass was at work */
    atomic_ulong refused;          /* calls with another exit status than they should have */
    atomic_ulong wrong;            /* answers that the card never had during the call */
    atomic_ulong unknown;          /* configuration words that the card should never have */
    atomic_ulong longest;          /* the longest call, in milliseconds */
    atomic_uchar seen[STATES_MAX]; /* the states that some call has surely seen */
};

static bool pass_open(const struct history *history, size_t state) {
    return history->states[state].configuration[GI_CONFIG_NEW_LENGTH] != 0;
}

/* ---- what a call must answer */

/* A call and what came of it. */
struct call {
    enum kind kind;
    size_t question;
    size_t first; /* the states before and after it */
    size_t last;
    const struct ended *ended;
};

/* The answer as lookup shows it, one position to a line. */
static size_t as_lines(const struct answer *answer, char *text) {
    char *end = text;
    for (uint32_t i = 0; i < answer->count; i++)
        end += sprintf(end, "%" PRIu32 "\n", answer->positions[i]);
    return (size_t)(end - text);
}

/* The answer as a page, five positions to a line. */
static size_t as_page(const struct answer *answer, uint32_t term, char *text) {
    char *end = text;
    for (uint32_t i = 0; i < answer->count; i += GI_PAGE_LINE_POSITIONS) {
        end += i == 0 ? sprintf(end, "%10" PRIu32, term) : sprintf(end, "%10s", "");
        for (uint32_t j = i; j < i + GI_PAGE_LINE_POSITIONS; j++)
            end += j < answer->count ? sprintf(end, " %10" PRIu32, answer->positions[j]) : sprintf(end, "%11s", "");
        *end++ = '\n';
    }
    return (size_t)(end - text);
}

static bool answers_positions(const struct history *history, const struct call *call, size_t state) {
    static char text[ANSWER_MAX * 2 * GI_PAGE_LINE_BYTES];
    static struct answer answer;
    history_answer(history, state, call->question, &answer);
    size_t length =
        call->kind == PAGE ? as_page(&answer, history->questions[call->question].term, text) : as_lines(&answer, text);
    return length == call->ended->out_length && memcmp(text, call->ended->out, length) == 0;
}

/* Whether it says that the card is sound, and that a pass is open where one is. */
static bool answers_verdict(const struct history *history, const struct call *call, size_t state) {
    const char *out = call->ended->out;
    return strstr(out, ": 0, sound") != NULL && (strstr(out, "a pass is open") != NULL) == pass_open(history, state);
}

/* Whether a line, from the line feed before it on, names a live place: its number, then
 * its segment. */
static bool is_place(const char *line) {
    const char *at = line + 1 + strspn(line + 1, " ");
    size_t figures = strspn(at, "0123456789");
    at += figures;
    at += strspn(at, " ");
    return figures > 0 && (strncmp(at, "old ", 4) == 0 || strncmp(at, "new ", 4) == 0);
}

/* Whether it shows a state's configuration words and as many live places. */
static bool answers_show(const struct history *history, const struct call *call, size_t state) {
    const uint32_t *configuration = history->states[state].configuration;
    const char *line = strstr(call->ended->out, "\nconfiguration\n");
    for (size_t i = 0; line != NULL && i <= GI_CONFIG_WORDS; i++) {
        line = strchr(line + 1, '\n');
        /* the word is the last figure of its line */
        if (i == 0 || line == NULL)
            continue;
        const char *figure = line;
        while (figure[-1] >= '0' && figure[-1] <= '9')
            figure--;
        if (strtoul(figure, NULL, 10) != configuration[i - 1])
            return false;
    }
    size_t places = 0;
    for (const char *at = line; at != NULL; at = strchr(at + 1, '\n'))
        places += is_place(at);
    return line != NULL && answers_verdict(history, call, state) &&
           places == configuration[GI_CONFIG_OLD_LENGTH] + configuration[GI_CONFIG_NEW_LENGTH];
}

/* Whether a figure stands by itself in a text, behind a blank. */
static bool names_figure(const char *text, uint32_t figure) {
    for (const char *at = strchr(text, ' '); at != NULL; at = strchr(at + 1, ' '))
        if (at[1] >= '0' && at[1] <= '9' && strtoul(at + 1, NULL, 10) == figure)
            return true;
    return false;
}

static bool answers_fits(const struct history *history, const struct call *call, size_t state) {
    const struct forecast *forecast = &history->states[state].forecast;
    const struct ended *ended = call->ended;
    if (ended->status != (forecast->finishes != 0 ? 0 : 3))
        return false;
    return names_figure(ended->out, forecast->blocks) &&
           names_figure(ended->out, forecast->finishes != 0 ? forecast->limit : forecast->writes);
}

static bool answers(const struct history *history, const struct call *call, size_t state) {
    switch (call->kind) {
    case JUDGE:
        return answers_verdict(history, call, state);
    case SHOW:
        return answers_show(history, call, state);
    case FITS:
        return answers_fits(history, call, state);
    default:
        return answers_positions(history, call, state);
    }
}

/* ---- readers */

static void complain(atomic_ulong *count, const struct call *call, const char *what) {
    if (atomic_fetch_add(count, 1) >= SHOWN_MAX)
        return;
    char text[1024];
    int length = snprintf(text, sizeof text, "        %s, states %zu to %zu: %s: status %d: %.300s%.300s\n",
                          kind_names[call->kind], call->first, call->last, what, call->ended->status, call->ended->err,
                          call->ended->out);
    if (length > 0 && write(STDOUT_FILENO, text, strlen(text)) < 0)
        return;
}

/* Holds a call against the states that it may have seen. */
static void judge_call(const struct history *history, struct tally *tally, const struct call *call) {
    int status = call->ended->status;
    if (status != 0 && !(call->kind == FITS && status == 3)) {
        complain(&tally->refused, call, "refused");
        return;
    }
    size_t state = call->first;
    while (state <= call->last && !answers(history, call, state))
        state++;
    if (state > call->last)
        complain(&tally->wrong, call, "the card had no such answer during the call");
    else if (call->kind == SHOW || call->first == call->last)
        atomic_store(&tally->seen[state], 1);
    if (call->first > 0 && call->last + 1 < history->states_count)
        atomic_fetch_add(&tally->inside[call->kind], 1);
}

static void note_time(struct tally *tally, double took) {
    unsigned long now = (unsigned long)(1000 * took);
    unsigned long longest = atomic_load(&tally->longest);
    while (now > longest && !atomic_compare_exchange_weak(&tally->longest, &longest, now))
        ;
}

/* The words of a command that makes a call. */
struct command {
    const char *words[8];
    char figures[3][12];
};

static void command_for(struct command *command, const struct history *history, const struct call *call,
                        const char *card) {
    static const char *const names[KINDS] = {"lookup", "lookup", "page", "judge", "show", "fits"};
    const struct question *asked = &history->questions[call->question];
    size_t count = 0;
    command->words[count++] = names[call->kind];
    command->words[count++] = "--wait";
    command->words[count++] = READER_WAIT;
    command->words[count++] = card;
    if (call->kind == FITS)
        command->words[count++] = in_folder("fits.batch");
    const uint32_t figures[3] = {asked->term, asked->from, asked->to};
    size_t figures_count = call->kind <= PAGE ? (asked->ranged ? 3 : 1) : 0;
    for (size_t i = 0; i < figures_count; i++) {
        snprintf(command->figures[i], sizeof command->figures[i], "%" PRIu32, figures[i]);
        command->words[count++] = command->figures[i];
    }
    command->words[count] = NULL;
}

/* A call by chance. Every second question has a range. */
static void choose(struct call *call, uint32_t *by_chance) {
    call->kind = (enum kind)(chance(by_chance) % KINDS);
    call->question = chance(by_chance) % QUESTIONS;
    if (call->kind == LOOKUP)
        call->question &= ~(size_t)1;
    else if (call->kind == LOOKUP_RANGE)
        call->question |= 1;
}

/* Calls the program without pause until the tester says stop. */
static void read_without_pause(const struct history *history, const char *card, struct tally *tally, uint32_t seed) {
    static struct ended ended;
    struct run run = {.out = memfd_create("out", MFD_CLOEXEC), .err = memfd_create("err", MFD_CLOEXEC)};
    struct call call = {.ended = &ended};
    struct command command;
    int file = open(card, O_RDONLY | O_CLOEXEC);
    while (!atomic_load(&tally->stop)) {
        choose(&call, &seed);
        command_for(&command, history, &call, card);
        call.first = state_now(history, file, call.last);
        run_blocking(&run, &ended, command.words);
        call.last = call.first == history->states_count ? call.first : state_now(history, file, call.first);
        if (call.last == history->states_count) {
            complain(&tally->unknown, &call, "the configuration words are none that the card should have");
            return;
        }
        judge_call(history, tally, &call);
        note_time(tally, ended.took);
        atomic_fetch_add(&tally->calls, 1);
    }
}

static pid_t start_reader(const struct history *history, const char *card, struct tally *tally, uint32_t seed) {
    fflush(stdout);
    pid_t reader = fork();
    if (reader < 0)
        give_up("no process for a reader");
    if (reader > 0)
        return reader;
    setpgid(0, 0);
    prctl(PR_SET_PDEATHSIG, SIGKILL);
    read_without_pause(history, card, tally, seed);
    _exit(0);
}

/* ---- a round: a writer and its readers */

struct round {
    const char *name;
    const struct history *history;
    const char *words[8]; /* the writer's command */
    bool intruders;       /* whether others try to write beside it */
    int kills;            /* how often it is killed before it may end */
    size_t inside_least;  /* how many calls must begin and end while a pass is at work */
    size_t seen_least;    /* how many states must be seen in the midst of a pass */
};

/* The round under way. */
struct scene {
    const struct round *round;
    const char *card;
    int file;
    struct tally *tally;
    pid_t readers[READERS];
    uint32_t by_chance;
    double deadline;
};

static size_t scene_state(const struct scene *scene) {
    return state_now(scene->round->history, scene->file, 0);
}

static void open_scene(struct scene *scene) {
    const struct history *history = scene->round->history;
    write_words(scene->card, history->first, history->length);
    write_words(in_folder("fits.batch"), history->fits.words, history->fits.length);
    scene->file = open(scene->card, O_RDONLY | O_CLOEXEC);
    scene->tally = mmap(NULL, sizeof *scene->tally, PROT_READ | PROT_WRITE, MAP_SHARED | MAP_ANONYMOUS, -1, 0);
    if (scene->file < 0 || scene->tally == MAP_FAILED)
        give_up("no memory for the readers' tally");
    for (int i = 0; i < READERS; i++)
        scene->readers[i] = start_reader(history, scene->card, scene->tally, 77u + 1001u * (uint32_t)i);
}

/* Has the readers stop; those that hang are killed with their calls. */
static void stop_readers(struct scene *scene) {
    enum { PATIENCE = 60 };
    atomic_store(&scene->tally->stop, true);
    double deadline = seconds() + PATIENCE;
    size_t ended = 0;
    for (int i = 0; i < READERS; i++) {
        int how;
        pid_t gone;
        while ((gone = waitpid(scene->readers[i], &how, WNOHANG)) == 0 && seconds() < deadline)
            pause_for(0.001);
        ended += gone == scene->readers[i] && WIFEXITED(how) && WEXITSTATUS(how) == 0;
        if (gone == 0) {
            kill(-scene->readers[i], SIGKILL);
            waitpid(scene->readers[i], &how, 0);
        }
    }
    check(ended == READERS, "%s: every reader comes to its end", scene->round->name);
}

/* While the readers read, cached pages of the card are given up, so that reading takes
 * long and meets as many steps as it can. */
static void watch(const struct scene *scene) {
    posix_fadvise(scene->file, 0, 0, POSIX_FADV_DONTNEED);
    pause_for(0.001);
}

/* Waits until the card is in some state or a later one, or the writer has ended. A writer
 * that does not come to its end beside the readers is killed. */
static void await_state(const struct scene *scene, struct run *writer, size_t state) {
    while (under_way(writer) && scene_state(scene) < state) {
        watch(scene);
        if (seconds() > scene->deadline)
            kill(writer->process, SIGKILL);
    }
}

/* Stops the writer in the midst of its pass and has others try to write: it has the card
 * for as long as it runs, also where it stands still. */
static void intrude(const struct scene *scene, struct run *writer) {
    const struct history *history = scene->round->history;
    char b[12];
    char n[12];
    snprintf(b, sizeof b, "%" PRIu32, history->b);
    snprintf(n, sizeof n, "%" PRIu32, history->n);
    await_state(scene, writer, 2);
    kill(writer->process, SIGSTOP);
    siginfo_t about = {0};
    waitid(P_PID, (id_t)writer->process, &about, WSTOPPED | WEXITED | WNOWAIT);
    size_t state = scene_state(scene);
    check(about.si_code == CLD_STOPPED && state > 0 && state + 1 < history->states_count,
          "%s: the writer is stopped in the midst of its pass", scene->round->name);
    if (about.si_code == CLD_STOPPED) {
        check_turned_away(RUN("apply", "--wait", "0", scene->card, in_folder("fits.batch")), "a second writer");
        check_turned_away(RUN("annul", "--wait", "0", scene->card, "1", "1000000"), "an annulment beside a writer");
        check_turned_away(RUN("format", "--force", "--wait", "0", scene->card, b, n), "a format beside a writer");
        check(scene_state(scene) == state, "%s: they changed nothing", scene->round->name);
    }
    kill(writer->process, SIGCONT);
}

/* Kills the writer all over its pass, at moments by chance, and starts it again. Gives
 * false where it was killed when its last step was made: the same command would then be
 * another pass. */
static bool kill_and_resume(struct scene *scene, struct run *writer) {
    enum { KILLS_LEAST = 3 };
    const struct round *round = scene->round;
    size_t last = round->history->states_count - 1;
    int kills = 0;
    bool goes_on = true;
    for (int i = 0; i < round->kills && goes_on; i++) {
        await_state(scene, writer, (size_t)(i + 1) * last / (size_t)(round->kills + 1));
        pause_for(1e-6 * (double)(chance(&scene->by_chance) % 5000));
        if (!under_way(writer))
            break;
        kill(writer->process, SIGKILL);
        kills += end_of(writer)->status == RUN_FAILED + SIGKILL;
        goes_on = scene_state(scene) != last;
        if (goes_on)
            start(writer, -1, round->words);
    }
    check(kills >= KILLS_LEAST, "%s: %d kills, expected %d", round->name, kills, KILLS_LEAST);
    return goes_on;
}

/* Calls of each kind that began and ended while a pass was at work. */
static unsigned long inside_all_rounds[KINDS];

/* What must hold at the end of a round. */
static void check_round(const struct scene *scene, double took) {
    const struct round *round = scene->round;
    const struct history *history = round->history;
    struct tally *tally = scene->tally;
    unsigned long inside = 0;
    size_t seen = 0;
    for (int i = 0; i < KINDS; i++) {
        inside_all_rounds[i] += tally->inside[i];
        inside += tally->inside[i];
    }
    for (size_t i = 1; i + 1 < history->states_count; i++)
        seen += tally->seen[i];
    printf("%s: %zu states in %.1f s; %lu calls, %lu of them inside, %zu states surely seen, longest call %lu ms\n",
           round->name, history->states_count, took, tally->calls, inside, seen, tally->longest);
    check(tally->refused == 0, "%s: %lu calls were refused", round->name, tally->refused);
    check(tally->wrong == 0, "%s: %lu answers were none of the card's during the call", round->name, tally->wrong);
    check(tally->unknown == 0, "%s: the card had states that it should never have", round->name);
    check(inside >= round->inside_least, "%s: %lu calls while the pass was at work, expected %zu", round->name, inside,
          round->inside_least);
    check(seen >= round->seen_least, "%s: %zu states of the pass were seen, expected %zu", round->name, seen,
          round->seen_least);
    check(tally->longest < 1000 * CALL_SECONDS_MAX, "%s: a call took %lu ms", round->name, tally->longest);
    check(file_has(scene->file, history->last, history->length), "%s: the card at the end, word for word", round->name);
}

static void run_round(const struct round *round) {
    struct scene scene = {.round = round, .card = in_folder("beside.card"), .by_chance = 4711};
    check(history_told_apart(round->history), "%s: the card's states are told apart", round->name);
    check(round->history->wrong == 0 && round->history->looked_up > 0, "%s: %zu of %zu answers differ from gi_lookup's",
          round->name, round->history->wrong, round->history->looked_up);
    if (round->history->states_count > STATES_MAX)
        give_up("too many states for a round");
    open_scene(&scene);
    while (atomic_load(&scene.tally->calls) < READERS && atomic_load(&scene.tally->unknown) == 0)
        pause_for(0.001);
    struct run writer;
    double began = seconds();
    scene.deadline = began + ROUND_SECONDS_MAX;
    start(&writer, -1, round->words);
    if (round->intruders)
        intrude(&scene, &writer);
    bool goes_on = round->kills == 0 || kill_and_resume(&scene, &writer);
    if (goes_on)
        await_state(&scene, &writer, SIZE_MAX);
    const struct ended *ended = goes_on ? end_of(&writer) : NULL;
    check(ended == NULL || ended->status == 0, "%s: the writer's exit status %d: %s", round->name,
          ended == NULL ? 0 : ended->status, ended == NULL ? "" : ended->err);
    double took = seconds() - began;
    stop_readers(&scene);
    check_round(&scene, took);
    close(scene.file);
    munmap(scene.tally, sizeof *scene.tally);
}

/* ---- the rounds */

/* How many times larger the cards are: where syncs take no time, as in memory, a pass
 * would be over before the readers have begun. */
static uint32_t scale(void) {
    enum { SYNCS = 50, SCALE = 3 };
    const double no_time = 50e-6;
    int file = open(in_folder("sync"), O_RDWR | O_CREAT | O_CLOEXEC, 0600);
    double began = seconds();
    for (int i = 0; i < SYNCS; i++)
        if (pwrite(file, &i, sizeof i, 4096 * i) < 0 || fdatasync(file) != 0)
            give_up("no sync in the folder of the test");
    close(file);
    return seconds() - began < SYNCS * no_time ? SCALE : 1;
}

/* A card as many times larger. */
static struct filling scaled(struct filling filling, uint32_t times) {
    uint32_t spare = filling.n - filling.live;
    filling.n *= times;
    filling.live = spare <= 2 ? filling.n - spare : filling.live * times;
    return filling;
}

/* Questions about terms all over the card, and two about terms that it has not. Every
 * second one has a range. */
static void make_questions(struct question *questions, const struct filling *filling, uint32_t seed) {
    uint32_t terms = filling->live * filling->terms;
    uint32_t most = position_of(positions_of(filling));
    for (uint32_t i = 0; i < QUESTIONS; i++) {
        struct question *question = &questions[i];
        *question = (struct question){.term = term_of(i * terms / QUESTIONS), .from = GI_LOWEST, .to = GI_HIGHEST};
        if (i < 2)
            question->term++;
        if (i % 2 == 0)
            continue;
        question->ranged = true;
        question->from = 1 + chance(&seed) % (most / 2);
        question->to = question->from + chance(&seed) % most;
    }
}

static struct history *begin_history(const struct filling *filling, const struct batch *fits) {
    struct question questions[QUESTIONS];
    size_t length;
    uint32_t *card = filled_card(filling, &length);
    make_questions(questions, filling, 12345);
    return history_of(card, length, questions, fits);
}

/* A batch of words on a card with one place free: each block is written over the one
 * that the step before freed, so that a reader whose reading a step interrupts sees what
 * no sound card has. The batch that fits is asked about does not fit until the pass is
 * past its term. */
static void words_round(uint32_t times) {
    const struct filling filling =
        scaled((struct filling){.b = 1024, .n = 192, .live = 191, .start = 85, .terms = 4}, times);
    static struct batch batch;
    static struct batch fits;
    fits.length = 0;
    add_record(&fits, GI_RECORD_ADD, term_of(400), 7, 7);
    replace_batch(&batch, &filling, positions_of(&filling) / 2);
    struct history *history = begin_history(&filling, &fits);
    history_pass(history, &batch);
    write_words(in_folder("words.batch"), batch.words, batch.length);
    size_t fitting = 0;
    for (size_t i = 0; i < history->states_count; i++)
        fitting += history->states[i].forecast.finishes != 0;
    check(fitting > 0 && fitting < history->states_count, "words: the batch fits in some states and not in others");
    const struct round round = {.name = "words",
                                .history = history,
                                .words = {"apply", in_folder("beside.card"), in_folder("words.batch")},
                                .intruders = true,
                                .inside_least = 60,
                                .seen_least = 20};
    run_round(&round);
    history_free(history);
}

/* A line of text by chance, for terms that the card has and some that it has not: two of
 * three lines add a pair. */
static size_t text_line(char *text, const struct filling *filling, uint32_t *by_chance) {
    uint32_t term = term_of(chance(by_chance) % (filling->live * filling->terms)) + (chance(by_chance) % 16 == 0);
    uint32_t position = 1 + chance(by_chance) % position_of(positions_of(filling));
    int length = chance(by_chance) % 3 != 0
                     ? sprintf(text, "A\t%" PRIu32 "\t%" PRIu32 "\n", term, position)
                     : sprintf(text, "R\t%" PRIu32 "\t%" PRIu32 "\t%" PRIu32 "\n", term, position, position + 150);
    return (size_t)length;
}

static void read_part(struct batch *batch, const char *text, size_t length) {
    size_t line;
    if (gi_scores((const uint8_t *)text, length, batch->words, sizeof batch->words / sizeof *batch->words,
                  &batch->length, &line) != GI_DONE)
        give_up("a text of the test is refused");
}

/* A text of several parts, so several passes in a row; then once more with a writer that is
 * killed time and again. */
static void text_round(uint32_t times) {
    const struct filling filling =
        scaled((struct filling){.b = 256, .n = 112, .live = 60, .start = 100, .terms = 4}, times);
    enum { LINES = 2 * GI_BATCH_RECORDS_MAX + 1000, LINE_MAX = 40 };
    static struct batch batch;
    static struct batch fits;
    uint32_t by_chance = 99;
    for (uint32_t i = 0; i < 4000; i++)
        add_record(&fits, GI_RECORD_ADD, term_of(100), 2 * i + 1, 2 * i + 1);
    struct history *history = begin_history(&filling, &fits);
    char *text = memory_for(LINES, LINE_MAX);
    size_t begin = 0;
    size_t length = 0;
    for (size_t line = 1; line <= LINES; line++) {
        length += text_line(text + length, &filling, &by_chance);
        if (line % GI_BATCH_RECORDS_MAX != 0 && line != LINES)
            continue;
        read_part(&batch, text + begin, length - begin);
        history_pass(history, &batch);
        begin = length;
    }
    write_file(in_folder("long.text"), text, length);
    free(text);
    struct round round = {.name = "text",
                          .history = history,
                          .words = {"apply", "--text", in_folder("beside.card"), in_folder("long.text")},
                          .intruders = true,
                          .inside_least = 20,
                          .seen_least = 6};
    run_round(&round);
    round.name = "text, killed";
    round.intruders = false;
    round.kills = 20;
    run_round(&round);
    history_free(history);
}

/* An annulment: one record changes every block. */
static void annul_round(uint32_t times) {
    const struct filling filling =
        scaled((struct filling){.b = 1024, .n = 96, .live = 94, .start = 40, .terms = 4}, times);
    static struct batch batch;
    static struct batch fits;
    fits.length = 0;
    add_record(&fits, GI_RECORD_ADD, term_of(200), 7, 7);
    batch.length = 0;
    add_record(&batch, GI_RECORD_ANNUL, 0, 1500, 3000);
    struct history *history = begin_history(&filling, &fits);
    history_pass(history, &batch);
    const struct round round = {.name = "annul",
                                .history = history,
                                .words = {"annul", in_folder("beside.card"), "1500", "3000"},
                                .inside_least = 20,
                                .seen_least = 6};
    run_round(&round);
    history_free(history);
}

/* A writer that is killed time and again; the same command goes on each time. */
static void kill_round(uint32_t times) {
    const struct filling filling =
        scaled((struct filling){.b = 512, .n = 128, .live = 126, .start = 50, .terms = 4}, times);
    static struct batch batch;
    replace_batch(&batch, &filling, 30);
    struct history *history = begin_history(&filling, &batch);
    history_pass(history, &batch);
    write_words(in_folder("kill.batch"), batch.words, batch.length);
    const struct round round = {.name = "kills",
                                .history = history,
                                .words = {"apply", in_folder("beside.card"), in_folder("kill.batch")},
                                .kills = 15,
                                .inside_least = 20,
                                .seen_least = 6};
    run_round(&round);
    history_free(history);
}

void test_rounds(void) {
    uint32_t times = scale();
    words_round(times);
    text_round(times);
    annul_round(times);
    kill_round(times);
    for (int i = 0; i < KINDS; i++)
        check(inside_all_rounds[i] > 0, "no %s began and ended while a pass was at work", kind_names[i]);
}
