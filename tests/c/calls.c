/* System calls that fail.
 *
 * The linker puts these functions in place of the system's. In a run of the host program
 * each call is counted, logged and, where the plan says so, fails, does half of its work or
 * is the run's last; what it changes is pending on the medium. Outside of a run they are the
 * system's. */
#define _GNU_SOURCE

#include <errno.h>
#include <fcntl.h>
#include <signal.h>
#include <stdarg.h>
#include <stdio.h>
#include <stdlib.h>
#include <string.h>
#include <sys/stat.h>
#include <sys/wait.h>
#include <time.h>
#include <unistd.h>

#include "medium.h"

enum { CONFIGURATION_BYTES = 32, DESCRIPTORS = 64, SECONDS_MAX = 10 };

int __real_main(int argc, char **argv);
int __real_open(const char *path, int flags, ...);
int __real_close(int file);
ssize_t __real_read(int file, void *bytes, size_t length);
ssize_t __real_write(int file, const void *bytes, size_t length);
ssize_t __real_pread(int file, void *bytes, size_t length, off_t offset);
ssize_t __real_pwrite(int file, const void *bytes, size_t length, off_t offset);
int __real_fdatasync(int file);
int __real_fsync(int file);
int __real_fstat(int file, struct stat *about);
int __real_lstat(const char *path, struct stat *about);
int __real_stat(const char *path, struct stat *about);
int __real_access(const char *path, int mode);
char *__real_realpath(const char *path, char *resolved);
int __real_rename(const char *from, const char *to);
int __real_renameat2(int from_folder, const char *from, int to_folder, const char *to, unsigned flags);
int __real_unlink(const char *path);
int __real_fcntl(int file, int command, ...);
int __real_clock_gettime(clockid_t clock, struct timespec *now);
int __real_nanosleep(const struct timespec *time, struct timespec *left);
void *__real_malloc(size_t size);
void *__real_calloc(size_t count, size_t size);
void *__real_realloc(void *memory, size_t size);
pid_t __real_getpid(void);
char *__real_strdup(const char *text);
char *__real_strndup(const char *text, size_t length);

static bool in_run;              /* this is a child that runs the host program */
static int node_of[DESCRIPTORS]; /* what the run's open files are */
static char name_of[DESCRIPTORS][NAME_BYTES];
static struct timespec clock_offset; /* how long the run has slept */

/* ---- what becomes of a call */

static void die(void) {
    kill(__real_getpid(), SIGKILL);
    abort();
}

/* Whether the plan's fault goes on to a call after the one that it struck. */
static bool fails_too(enum call_kind kind, bool makes) {
    switch (run->plan.fault) {
    case FAULT_FULL:
        errno = ENOSPC;
        return kind == CALL_WRITE || kind == CALL_PWRITE || kind == CALL_OUTPUT || (kind == CALL_OPEN && makes);
    case FAULT_GONE:
        errno = EIO;
        return kind >= CALL_OPEN && kind <= CALL_UNLOCK;
    case FAULT_BUSY:
        errno = EAGAIN;
        return kind == CALL_LOCK;
    default:
        return false;
    }
}

/* Counts a call and says what becomes of it; where it fails errno is set. */
static enum fault next_call(enum call_kind kind, const char *name, bool makes) {
    long of_kind = ++run->calls_of[kind];
    long number = ++run->calls;
    if (number <= CALLS_MAX) {
        struct call *call = &run->log[number - 1];
        *call = (struct call){.kind = kind, .makes = makes};
        snprintf(call->name, sizeof call->name, "%s", name);
    }
    const struct plan *plan = &run->plan;
    if (run->struck)
        return fails_too(kind, makes) ? FAULT_FAIL : FAULT_NONE;
    if (plan->fault == FAULT_NONE || (plan->kind != CALL_ANY && plan->kind != kind) ||
        plan->at != (plan->kind == CALL_ANY ? number : of_kind))
        return FAULT_NONE;
    run->struck = true;
    if (plan->fault == FAULT_KILL_BEFORE)
        die();
    if (plan->fault == FAULT_GONE || plan->fault == FAULT_BUSY)
        return fails_too(kind, makes) ? FAULT_FAIL : FAULT_NONE;
    errno = plan->error;
    return plan->fault;
}

/* The end of a call that was done. */
static void end_call(enum fault fault) {
    if (fault == FAULT_KILL_HALF || fault == FAULT_KILL_AFTER) {
        int kept = errno;
        die();
        errno = kept;
    }
}

static bool fails(enum fault fault) {
    return fault == FAULT_FAIL;
}

/* How much of a read or write is done. */
static size_t length_of(enum fault fault, size_t length) {
    if (fault == FAULT_ZERO)
        return 0;
    return fault == FAULT_SHORT || fault == FAULT_FULL || fault == FAULT_KILL_HALF ? length / 2 : length;
}

static const char *file_name(int file) {
    return file >= 0 && file < DESCRIPTORS ? name_of[file] : "?";
}

static int file_node(int file) {
    return file >= 0 && file < DESCRIPTORS ? node_of[file] : NODE_NONE;
}

/* What a call on a path is about, for the log. */
static const char *path_name(const char *path) {
    const char *name = name_in_cards(path);
    if (name != NULL)
        return name;
    const char *slash = strrchr(path, '/');
    name = slash == NULL ? path : slash + 1;
    return strcmp(name, cards) == 0 ? "." : name;
}

/* Notes what a file is that a run has opened. */
static void note_opened(int file, const char *path, int flags, bool was_there) {
    struct stat about;
    must(file < DESCRIPTORS && __real_fstat(file, &about) == 0, path);
    struct medium *medium = &run->medium;
    const char *name = name_in_cards(path);
    node_of[file] = S_ISDIR(about.st_mode) && about.st_ino == cards_number ? NODE_FOLDER : NODE_NONE;
    snprintf(name_of[file], NAME_BYTES, "%s", path_name(path));
    for (int node = 0; node < NODES; node++)
        if (medium->nodes[node].number == about.st_ino && node_used(medium, node))
            node_of[file] = node;
    if (name == NULL)
        return;
    if (!was_there && (flags & O_CREAT) != 0) {
        struct operation create = {.kind = OPERATION_CREATE, .node = node_new(medium, about.st_ino)};
        snprintf(create.name, NAME_BYTES, "%s", name);
        medium_change(medium, create);
        medium->nodes[create.node].number = about.st_ino;
        node_of[file] = create.node;
    } else if ((flags & O_TRUNC) != 0 && node_of[file] >= 0) {
        pending_new(medium, node_of[file])->truncates = true;
    }
}

/* Notes what a run has written to a file. */
static void note_written(int file, const void *bytes, size_t length, off_t offset) {
    int node = file_node(file);
    if (node < 0 || length == 0)
        return;
    must((size_t)offset + length <= FILE_BYTES, "a file is too large");
    struct pending *write = pending_new(&run->medium, node);
    write->offset = (size_t)offset;
    write->length = length;
    write->whole = offset == 0 && length == CONFIGURATION_BYTES;
    memcpy(write->bytes, bytes, length);
}

/* ---- in place of the system's: files */

int __wrap_open(const char *path, int flags, ...);
int __wrap_close(int file);
ssize_t __wrap_read(int file, void *bytes, size_t length);
ssize_t __wrap_write(int file, const void *bytes, size_t length);
ssize_t __wrap_pread(int file, void *bytes, size_t length, off_t offset);
ssize_t __wrap_pwrite(int file, const void *bytes, size_t length, off_t offset);
int __wrap_fdatasync(int file);
int __wrap_fsync(int file);
int __wrap_fstat(int file, struct stat *about);
int __wrap_lstat(const char *path, struct stat *about);
int __wrap_stat(const char *path, struct stat *about);
int __wrap_access(const char *path, int mode);
char *__wrap_realpath(const char *path, char *resolved);
int __wrap_rename(const char *from, const char *to);
int __wrap_renameat2(int from_folder, const char *from, int to_folder, const char *to, unsigned flags);
int __wrap_unlink(const char *path);
int __wrap_fcntl(int file, int command, ...);
int __wrap_clock_gettime(clockid_t clock, struct timespec *now);
int __wrap_nanosleep(const struct timespec *time, struct timespec *left);
void *__wrap_malloc(size_t size);
void *__wrap_calloc(size_t count, size_t size);
void *__wrap_realloc(void *memory, size_t size);
pid_t __wrap_getpid(void);
char *__wrap_strdup(const char *text);
char *__wrap_strndup(const char *text, size_t length);

/* Whether an open file is the card. */
static bool is_card(int file) {
    return strcmp(file_name(file), "card") == 0;
}

int __wrap_open(const char *path, int flags, ...) {
    mode_t mode = 0;
    if ((flags & O_CREAT) != 0) {
        va_list words;
        va_start(words, flags);
        mode = va_arg(words, mode_t);
        va_end(words);
    }
    if (!in_run)
        return __real_open(path, flags, mode);
    struct stat about;
    bool was_there = __real_stat(path, &about) == 0;
    enum fault fault = next_call(CALL_OPEN, path_name(path), (flags & O_CREAT) != 0);
    if (fails(fault))
        return -1;
    int file = __real_open(path, flags, mode);
    if (file >= 0)
        note_opened(file, path, flags, was_there);
    end_call(fault);
    return file;
}

/* A close that fails has closed the file all the same, as Linux has it. */
int __wrap_close(int file) {
    if (!in_run)
        return __real_close(file);
    enum fault fault = next_call(CALL_CLOSE, file_name(file), false);
    if (is_card(file))
        lock_rules_close();
    int kept = errno;
    int done = __real_close(file);
    if (fails(fault)) {
        errno = kept;
        return -1;
    }
    end_call(fault);
    return done;
}

ssize_t __wrap_read(int file, void *bytes, size_t length) {
    if (!in_run)
        return __real_read(file, bytes, length);
    enum fault fault = next_call(CALL_READ, file == STDIN_FILENO ? "standard input" : file_name(file), false);
    if (fails(fault))
        return -1;
    if (fault == FAULT_SHORT && length > 7) /* fewer than the file has, if it has any */
        length = 7;
    ssize_t got = __real_read(file, bytes, length);
    end_call(fault);
    return got;
}

ssize_t __wrap_pread(int file, void *bytes, size_t length, off_t offset) {
    if (!in_run)
        return __real_pread(file, bytes, length, offset);
    enum fault fault = next_call(CALL_PREAD, file_name(file), false);
    if (fails(fault))
        return -1;
    lock_rules_read();
    ssize_t got = __real_pread(file, bytes, length_of(fault, length), offset);
    end_call(fault);
    return got;
}

ssize_t __wrap_write(int file, const void *bytes, size_t length) {
    if (!in_run)
        return __real_write(file, bytes, length);
    enum fault fault = next_call(CALL_WRITE, file_name(file), false);
    if (fails(fault))
        return -1;
    off_t offset = lseek(file, 0, SEEK_CUR);
    ssize_t put = __real_write(file, bytes, length_of(fault, length));
    if (put > 0)
        note_written(file, bytes, (size_t)put, offset);
    end_call(fault);
    return put;
}

ssize_t __wrap_pwrite(int file, const void *bytes, size_t length, off_t offset) {
    if (!in_run)
        return __real_pwrite(file, bytes, length, offset);
    enum fault fault = next_call(CALL_PWRITE, file_name(file), false);
    if (fails(fault))
        return -1;
    size_t asked = length_of(fault, length);
    if (offset == 0 && length == CONFIGURATION_BYTES && asked < length) /* all or nothing */
        asked = fault == FAULT_SHORT ? length : 0;
    if (fault == FAULT_FULL && asked == 0) {
        errno = ENOSPC;
        return -1;
    }
    lock_rules_write(offset, asked);
    ssize_t put = __real_pwrite(file, bytes, asked, offset);
    if (put > 0)
        note_written(file, bytes, (size_t)put, offset);
    end_call(fault);
    return put;
}

/* A sync of a file or of the folder. */
static int sync_opened(enum call_kind kind, int file) {
    int node = file_node(file);
    enum fault fault = next_call(kind, node == NODE_FOLDER ? "." : file_name(file), false);
    if (fails(fault))
        return -1;
    if (kind == CALL_FDATASYNC)
        lock_rules_sync();
    if (node >= 0)
        medium_sync(&run->medium, node);
    if (node == NODE_FOLDER && kind == CALL_FSYNC) {
        run->medium.durable = run->medium.now;
        run->medium.operation_count = 0;
    }
    end_call(fault);
    return 0;
}

int __wrap_fdatasync(int file) {
    return in_run ? sync_opened(CALL_FDATASYNC, file) : __real_fdatasync(file);
}

int __wrap_fsync(int file) {
    return in_run ? sync_opened(CALL_FSYNC, file) : __real_fsync(file);
}

int __wrap_fstat(int file, struct stat *about) {
    if (!in_run)
        return __real_fstat(file, about);
    enum fault fault = next_call(CALL_STAT, file_name(file), false);
    int done = fails(fault) ? -1 : __real_fstat(file, about);
    end_call(fault);
    return done;
}

int __wrap_lstat(const char *path, struct stat *about) {
    if (!in_run)
        return __real_lstat(path, about);
    enum fault fault = next_call(CALL_STAT, path_name(path), false);
    int done = fails(fault) ? -1 : __real_lstat(path, about);
    end_call(fault);
    return done;
}

int __wrap_stat(const char *path, struct stat *about) {
    if (!in_run)
        return __real_stat(path, about);
    enum fault fault = next_call(CALL_STAT, path_name(path), false);
    int done = fails(fault) ? -1 : __real_stat(path, about);
    end_call(fault);
    return done;
}

int __wrap_access(const char *path, int mode) {
    if (!in_run)
        return __real_access(path, mode);
    enum fault fault = next_call(CALL_STAT, path_name(path), false);
    int done = fails(fault) ? -1 : __real_access(path, mode);
    end_call(fault);
    return done;
}

char *__wrap_realpath(const char *path, char *resolved) {
    if (!in_run)
        return __real_realpath(path, resolved);
    enum fault fault = next_call(CALL_REALPATH, path_name(path), false);
    char *found = fails(fault) ? NULL : __real_realpath(path, resolved);
    end_call(fault);
    return found;
}

/* Notes that a file of the folder has another name. */
static void note_renamed(const char *from, const char *to) {
    from = name_in_cards(from);
    to = name_in_cards(to);
    must(from != NULL && to != NULL, "a file is renamed into or out of the folder of cards");
    struct operation rename = {.kind = OPERATION_RENAME, .node = names_node(&run->medium.now, from)};
    must(rename.node >= 0, "a file is renamed that is not on the medium");
    snprintf(rename.name, NAME_BYTES, "%s", from);
    snprintf(rename.to, NAME_BYTES, "%s", to);
    medium_change(&run->medium, rename);
}

int __wrap_rename(const char *from, const char *to) {
    if (!in_run)
        return __real_rename(from, to);
    enum fault fault = next_call(CALL_RENAME, path_name(to), false);
    if (fails(fault))
        return -1;
    int done = __real_rename(from, to);
    if (done == 0)
        note_renamed(from, to);
    end_call(fault);
    return done;
}

int __wrap_renameat2(int from_folder, const char *from, int to_folder, const char *to, unsigned flags) {
    if (!in_run)
        return __real_renameat2(from_folder, from, to_folder, to, flags);
    enum fault fault = next_call(CALL_RENAME_NEW, path_name(to), false);
    if (fails(fault))
        return -1;
    int done = __real_renameat2(from_folder, from, to_folder, to, flags);
    if (done == 0)
        note_renamed(from, to);
    end_call(fault);
    return done;
}

int __wrap_unlink(const char *path) {
    if (!in_run)
        return __real_unlink(path);
    const char *name = name_in_cards(path);
    enum fault fault = next_call(CALL_UNLINK, path_name(path), false);
    if (fails(fault))
        return -1;
    int done = __real_unlink(path);
    if (done == 0 && name != NULL) {
        struct operation remove = {.kind = OPERATION_UNLINK, .node = names_node(&run->medium.now, name)};
        snprintf(remove.name, NAME_BYTES, "%s", name);
        medium_change(&run->medium, remove);
    }
    end_call(fault);
    return done;
}

int __wrap_fcntl(int file, int command, ...) {
    va_list words;
    va_start(words, command);
    void *word = va_arg(words, void *);
    va_end(words);
    if (!in_run)
        return __real_fcntl(file, command, word);
    bool locks = command == F_SETLK || command == F_SETLKW;
    bool releases = locks && ((struct flock *)word)->l_type == F_UNLCK;
    enum fault fault = next_call(releases ? CALL_UNLOCK : locks ? CALL_LOCK : CALL_FCNTL, file_name(file), false);
    if (fault == FAULT_NONE && locks && !releases && run->calls_of[CALL_LOCK] <= run->plan.busy) {
        errno = EAGAIN;
        return -1;
    }
    int done = fails(fault) ? -1 : __real_fcntl(file, command, word);
    if (done == 0 && locks)
        lock_rules_lock(word);
    end_call(fault);
    return done;
}

/* ---- in place of the system's: time and memory */

/* The time is the system's and what the run has slept, which it does not wait for. */
int __wrap_clock_gettime(clockid_t clock, struct timespec *now) {
    if (!in_run)
        return __real_clock_gettime(clock, now);
    enum fault fault = next_call(CALL_CLOCK, "clock", false);
    if (fails(fault))
        return -1;
    int done = __real_clock_gettime(clock, now);
    now->tv_sec += clock_offset.tv_sec;
    now->tv_nsec += clock_offset.tv_nsec;
    if (now->tv_nsec >= 1000000000) {
        now->tv_sec++;
        now->tv_nsec -= 1000000000;
    }
    end_call(fault);
    return done;
}

int __wrap_nanosleep(const struct timespec *time, struct timespec *left) {
    if (!in_run)
        return __real_nanosleep(time, left);
    enum fault fault = next_call(CALL_SLEEP, "clock", false);
    if (fails(fault))
        return -1;
    /* where the locks are another's for good the wait is not drawn out */
    clock_offset.tv_sec += time->tv_sec + (run->plan.fault == FAULT_BUSY);
    clock_offset.tv_nsec += time->tv_nsec;
    if (clock_offset.tv_nsec >= 1000000000) {
        clock_offset.tv_sec++;
        clock_offset.tv_nsec -= 1000000000;
    }
    end_call(fault);
    return 0;
}

/* Counts a call for memory; whether it is to be had. */
static bool memory_given(void) {
    if (!in_run)
        return true;
    enum fault fault = next_call(CALL_MEMORY, "memory", false);
    end_call(fault);
    return !fails(fault);
}

void *__wrap_malloc(size_t size) {
    return memory_given() ? __real_malloc(size) : NULL;
}

void *__wrap_calloc(size_t count, size_t size) {
    return memory_given() ? __real_calloc(count, size) : NULL;
}

void *__wrap_realloc(void *memory, size_t size) {
    return memory_given() ? __real_realloc(memory, size) : NULL;
}

char *__wrap_strdup(const char *text) {
    return memory_given() ? __real_strdup(text) : NULL;
}

char *__wrap_strndup(const char *text, size_t length) {
    return memory_given() ? __real_strndup(text, length) : NULL;
}

/* All runs have the same number, as the first processes of containers have: what a killed
 * run left under a name with that number is in the way of the next. */
pid_t __wrap_getpid(void) {
    return in_run ? 4242 : __real_getpid();
}

/* ---- in place of the system's: standard output and standard error */

static size_t keep(char *stream, size_t *length, const char *bytes, size_t count) {
    size_t left = STREAM_BYTES - *length;
    size_t kept = count < left ? count : left;
    memcpy(stream + *length, bytes, kept);
    *length += kept;
    return count;
}

/* A write of a stream that fails; to a pipe that nobody reads, with its signal. */
static ssize_t not_written(void) {
    int kept = errno;
    if (kept == EPIPE)
        raise(SIGPIPE);
    errno = kept;
    return 0;
}

/* What stdio is told of a write that fails: fewer bytes than it gave, and errno. */
static ssize_t write_output(void *cookie, const char *bytes, size_t length) {
    (void)cookie;
    enum fault fault = next_call(CALL_OUTPUT, "standard output", false);
    if (fails(fault))
        return not_written();
    size_t asked = fault == FAULT_KILL_HALF || fault == FAULT_FULL ? length / 2 : length;
    keep(run->output, &run->output_length, bytes, asked);
    end_call(fault);
    if (asked < length)
        errno = ENOSPC;
    return (ssize_t)asked;
}

static int close_output(void *cookie) {
    (void)cookie;
    enum fault fault = next_call(CALL_OUTPUT_CLOSE, "standard output", false);
    end_call(fault);
    return fails(fault) ? -1 : 0;
}

static ssize_t write_messages(void *cookie, const char *bytes, size_t length) {
    (void)cookie;
    enum fault fault = next_call(CALL_MESSAGE, "standard error", false);
    if (fails(fault))
        return not_written();
    keep(run->messages, &run->messages_length, bytes, length);
    end_call(fault);
    return (ssize_t)length;
}

/* ---- a run */

/* Becomes the host program: its streams are the run's. */
static void become_host(const char *const *words, const char *input) {
    static char *arguments[32] = {"gamecard"};
    int count = 1;
    while (words[count - 1] != NULL && count < 31) {
        arguments[count] = (char *)words[count - 1];
        count++;
    }
    int nothing = open("/dev/null", O_RDWR);
    int standard = input == NULL ? nothing : open(input, O_RDONLY);
    must(standard >= 0 && dup2(standard, STDIN_FILENO) == 0, "standard input");
    dup2(nothing, STDOUT_FILENO);
    dup2(nothing, STDERR_FILENO);
    close(nothing);
    if (standard != nothing)
        close(standard);
    FILE *output = fopencookie(NULL, "w", (cookie_io_functions_t){.write = write_output, .close = close_output});
    FILE *messages = fopencookie(NULL, "w", (cookie_io_functions_t){.write = write_messages});
    static char buffer[200]; /* so that what is shown takes several writes */
    must(output != NULL && setvbuf(output, buffer, _IOFBF, sizeof buffer) == 0, "standard output");
    must(messages != NULL && setvbuf(messages, NULL, _IONBF, 0) == 0, "standard error");
    stdout = output;
    stderr = messages;
    for (int i = 0; i < DESCRIPTORS; i++)
        node_of[i] = NODE_NONE;
    alarm(SECONDS_MAX);
    in_run = true;
    exit(__real_main(count, arguments));
}

int run_host(const char *const *words, const char *input, struct plan plan) {
    run->plan = plan;
    run->struck = false;
    run->broken = NULL;
    run->calls = 0;
    memset(run->calls_of, 0, sizeof run->calls_of);
    run->output_length = run->messages_length = 0;
    fflush(stdout);
    fflush(stderr);
    pid_t child = fork();
    must(child >= 0, "fork");
    if (child == 0)
        become_host(words, input);
    int status;
    must(waitpid(child, &status, 0) == child, "waitpid");
    check(run->broken == NULL, "a rule of the locks is broken: %s", run->broken);
    if (WIFEXITED(status))
        return WEXITSTATUS(status);
    return WTERMSIG(status) == SIGKILL ? STATUS_KILLED : -WTERMSIG(status);
}
