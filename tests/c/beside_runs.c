/* Runs of the host program, the files that they work on, and the locks of a card. */
#define _GNU_SOURCE

#include <errno.h>
#include <fcntl.h>
#include <signal.h>
#include <spawn.h>
#include <stdio.h>
#include <stdlib.h>
#include <string.h>
#include <sys/mman.h>
#include <sys/wait.h>
#include <time.h>
#include <unistd.h>

#include "beside.h"

extern char **environ;

void *memory_for(size_t count, size_t size) {
    void *memory = calloc(count, size);
    if (memory == NULL)
        give_up("no memory");
    return memory;
}

double seconds(void) {
    struct timespec now;
    clock_gettime(CLOCK_MONOTONIC, &now);
    return (double)now.tv_sec + 1e-9 * (double)now.tv_nsec;
}

void pause_for(double duration) {
    struct timespec left = {.tv_sec = (time_t)duration};
    left.tv_nsec = (long)(1e9 * (duration - (double)left.tv_sec));
    while (nanosleep(&left, &left) != 0 && errno == EINTR)
        ;
}

uint32_t chance(uint32_t *state) {
    *state ^= *state << 13;
    *state ^= *state >> 17;
    *state ^= *state << 5;
    return *state;
}

/* ---- files */

const char *in_folder(const char *name) {
    enum { NAMES_MAX = 32 };
    static struct {
        const char *name;
        char path[4200];
    } names[NAMES_MAX];
    size_t i = 0;
    while (i < NAMES_MAX && names[i].name != NULL && strcmp(names[i].name, name) != 0)
        i++;
    if (i == NAMES_MAX)
        give_up("too many files");
    names[i].name = name;
    snprintf(names[i].path, sizeof names[i].path, "%.4095s/%.100s", folder, name);
    return names[i].path;
}

void write_file(const char *path, const void *bytes, size_t length) {
    FILE *out = fopen(path, "wb");
    if (out == NULL || fwrite(bytes, 1, length, out) != length || fclose(out) != 0)
        give_up("a file of the test could not be written");
}

/* The bytes of words as they stand in a file, the lowest first. */
static unsigned char *bytes_of(const uint32_t *words, size_t length) {
    unsigned char *bytes = memory_for(length + 1, 4);
    for (size_t i = 0; i < 4 * length; i++)
        bytes[i] = (unsigned char)(words[i / 4] >> 8 * (i % 4));
    return bytes;
}

void write_words(const char *path, const uint32_t *words, size_t length) {
    unsigned char *bytes = bytes_of(words, length);
    write_file(path, bytes, 4 * length);
    free(bytes);
}

bool file_has(int file, const uint32_t *words, size_t length) {
    unsigned char *bytes = bytes_of(words, length);
    unsigned char *found = memory_for(length + 1, 4);
    bool same = pread(file, found, 4 * length + 1, 0) == (ssize_t)(4 * length) && memcmp(found, bytes, 4 * length) == 0;
    free(found);
    free(bytes);
    return same;
}

size_t state_now(const struct history *history, int file, size_t from) {
    /* words in the midst of being written may be those of no state: they are read again */
    enum { TRIES = 2000 };
    size_t state = history->states_count;
    for (int i = 0; i < TRIES && state == history->states_count; i++) {
        uint32_t words[GI_CONFIG_WORDS] = {0};
        unsigned char bytes[sizeof words];
        if (pread(file, bytes, sizeof bytes, 0) != (ssize_t)sizeof bytes)
            continue;
        for (size_t at = 0; at < sizeof bytes; at++)
            words[at / 4] |= (uint32_t)bytes[at] << 8 * (at % 4);
        state = history_find(history, from, words);
    }
    return state;
}

/* ---- runs */

static int nameless_file(void) {
    int file = memfd_create("output", MFD_CLOEXEC);
    if (file < 0)
        give_up("no file for the output of a run");
    return file;
}

/* Starts the program with its output to the files of the run. */
static void spawn(struct run *run, int input, const char *const *words) {
    char *arguments[16] = {(char *)program};
    for (int i = 0; i < 14 && words[i] != NULL; i++)
        arguments[i + 1] = (char *)words[i];
    posix_spawn_file_actions_t streams;
    posix_spawn_file_actions_init(&streams);
    if (input < 0)
        posix_spawn_file_actions_addopen(&streams, STDIN_FILENO, "/dev/null", O_RDONLY, 0);
    else
        posix_spawn_file_actions_adddup2(&streams, input, STDIN_FILENO);
    posix_spawn_file_actions_adddup2(&streams, run->out, STDOUT_FILENO);
    posix_spawn_file_actions_adddup2(&streams, run->err, STDERR_FILENO);
    run->began = seconds();
    if (posix_spawn(&run->process, program, &streams, NULL, arguments, environ) != 0)
        give_up("the program could not be started");
    posix_spawn_file_actions_destroy(&streams);
}

void start(struct run *run, int input, const char *const *words) {
    run->out = nameless_file();
    run->err = nameless_file();
    spawn(run, input, words);
}

static size_t read_output(int file, char *text, size_t room) {
    ssize_t length = pread(file, text, room, 0);
    text[length < 0 ? 0 : length] = '\0';
    return length < 0 ? 0 : (size_t)length;
}

static void collect(const struct run *run, int how, struct ended *ended) {
    ended->took = seconds() - run->began;
    ended->status = WIFEXITED(how) ? WEXITSTATUS(how) : RUN_FAILED + WTERMSIG(how);
    ended->out_length = read_output(run->out, ended->out, OUTPUT_MAX);
    read_output(run->err, ended->err, sizeof ended->err - 1);
}

bool under_way(struct run *run) {
    siginfo_t about = {0};
    return waitid(P_PID, (id_t)run->process, &about, WEXITED | WNOHANG | WNOWAIT) == 0 && about.si_pid == 0;
}

struct ended *end_of(struct run *run) {
    enum { TOO_LONG = 90 };
    static struct ended ended[4];
    static unsigned turn;
    struct ended *this = &ended[turn++ % 4];
    double deadline = seconds() + TOO_LONG;
    while (under_way(run) && seconds() < deadline)
        pause_for(0.0005);
    if (under_way(run))
        kill(run->process, SIGKILL);
    int how;
    waitpid(run->process, &how, 0);
    collect(run, how, this);
    close(run->out);
    close(run->err);
    return this;
}

struct ended *run_to_end(const char *const *words) {
    struct run run;
    start(&run, -1, words);
    return end_of(&run);
}

void run_blocking(struct run *run, struct ended *ended, const char *const *words) {
    if (ftruncate(run->out, 0) != 0 || ftruncate(run->err, 0) != 0)
        give_up("no file for the output of a run");
    lseek(run->out, 0, SEEK_SET);
    lseek(run->err, 0, SEEK_SET);
    spawn(run, -1, words);
    int how;
    while (waitpid(run->process, &how, 0) < 0 && errno == EINTR)
        ;
    collect(run, how, ended);
}

void check_status(const struct ended *ended, int status, const char *what) {
    check(ended->status == status, "%s: exit status %d, expected %d: %s", what, ended->status, status, ended->err);
}

void check_turned_away(const struct ended *ended, const char *what) {
    check_status(ended, 2, what);
    check(strstr(ended->err, "in use by another run") != NULL, "%s: says that another run has the card: %s", what,
          ended->err);
}

/* ---- locks */

static off_t range_start(enum range range) {
    return range == WORDS_RANGE ? 0 : ((off_t)1 << 30) + (range == WRITER_RANGE);
}

static off_t range_length(enum range range) {
    return range == WORDS_RANGE ? (off_t)1 << 30 : 1;
}

static struct flock lock_of(enum range range, short type) {
    return (struct flock){
        .l_type = type, .l_whence = SEEK_SET, .l_start = range_start(range), .l_len = range_length(range)};
}

void take_lock(int file, enum range range, short type) {
    struct flock lock = lock_of(range, type);
    while (fcntl(file, F_SETLKW, &lock) != 0)
        if (errno != EINTR)
            give_up("a lock could not be taken");
}

pid_t in_the_way(int file, enum range range, short type) {
    struct flock lock = lock_of(range, type);
    if (fcntl(file, F_GETLK, &lock) != 0)
        give_up("a lock could not be asked about");
    return lock.l_type == F_UNLCK ? 0 : lock.l_pid;
}
