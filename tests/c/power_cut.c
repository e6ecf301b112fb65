/* Gives a test build of the host program a medium apart from its files, and has
 * runs killed or held up, and writes and syncs fail: the linker puts these
 * functions in place of the system's. The card file is what runs read and write,
 * as the page cache is; it outlives a killed run. The medium is what a power cut
 * leaves. A write is on the medium from its sync on, and a name that a file was
 * given or lost from the sync of its folder on; until then both are pending, also
 * while later runs go on. The environment says what happens:
 *
 * MEDIUM      the file that stands for the medium; beside it, after its name,
 *             .pending keeps the writes that are pending, and .names what the
 *             names of the other files may stand for
 * KILL_WRITE  the number of the write to a card, from 1, that the run is killed at
 * KILL_WHEN   before: nothing of it is written
 *             half: its first half is written
 *             after: all of it is written, and not synced
 *             synced: all of it is written and synced
 * KILL_CALL   the number of the call, of all that are logged, from 1, that the run
 *             is killed before
 * KILL_HALF   where it is given, half of that call is done, if it is a write
 * PAUSE_CALL  the number of the call that the run waits before
 * PAUSE_FILE  the file that it makes then, and goes on when it is gone
 * FAIL_SYNC   the number of the sync, of cards, files and folders, from 1, that fails
 * FAIL_ERROR  its errno, EIO where it is not given
 * FAIL_WRITE  the number of the write to a card, from 1, that fails
 * FAIL_WRITE_ERROR  its errno, EIO where it is not given; also that of FAIL_PUT
 * SHORT_WRITE the number of the write, from 1, of which the first half is written
 * ZERO_WRITE  the number of the write, from 1, that writes nothing and gives 0
 * FAIL_PUT, ZERO_PUT  the same of the writes to files that are made whole
 * OTHER_FILE  a file that is made when a file is about to be given a name that no
 *             file has: another run has been faster
 * NO_REPLACE  where it is given, the file system has no such renaming, and fails
 *             with EINVAL
 * WRITE_LOG   a file to which each call is added, one to a line: write, with its
 *             place and length, and sync of cards; put and file, which is the sync,
 *             of files that are made whole; folder, which is its sync; name, with
 *             the name that a file is given; remove, with the name that it loses
 *
 * and the program has two commands more:
 *
 * power-cut CHOICE FOLDER  lays in the folder what a power cut leaves: the medium
 *                   as the file card, and the files of the other names. Choices,
 *                   from 0, say what became of all that is pending; after the last
 *                   the status is 1. Shows a checksum of what it laid
 * medium-state      shows a checksum of the medium and of all that is pending
 *
 * A write of the configuration words is all or nothing, so half leaves the old
 * ones. */
#define _GNU_SOURCE

#include <errno.h>
#include <inttypes.h>
#include <signal.h>
#include <stdarg.h>
#include <stdbool.h>
#include <stdint.h>
#include <stdio.h>
#include <stdlib.h>
#include <string.h>
#include <sys/stat.h>
#include <time.h>
#include <unistd.h>

enum { CONFIGURATION_BYTES = 32, CARD_BYTES_MAX = 4202528 };

int __real_main(int argc, char **argv);
ssize_t __real_pwrite(int file, const void *bytes, size_t length, off_t offset);
ssize_t __real_write(int file, const void *bytes, size_t length);
int __real_rename(const char *from, const char *to);
int __real_renameat2(int from_folder, const char *from, int to_folder, const char *to, unsigned flags);
int __real_unlink(const char *path);
int __wrap_main(int argc, char **argv);
ssize_t __wrap_pwrite(int file, const void *bytes, size_t length, off_t offset);
ssize_t __wrap_write(int file, const void *bytes, size_t length);
int __wrap_fdatasync(int file);
int __wrap_fsync(int file);
int __wrap_rename(const char *from, const char *to);
int __wrap_renameat2(int from_folder, const char *from, int to_folder, const char *to, unsigned flags);
int __wrap_unlink(const char *path);

static long calls;
static long writes;
static long puts_made;
static long syncs;

/* ---- what the environment says */

static long number_in(const char *name, long otherwise) {
    const char *text = getenv(name);
    return text == NULL ? otherwise : strtol(text, NULL, 10);
}

static bool kill_when(const char *when) {
    const char *named = getenv("KILL_WHEN");
    return named != NULL && strcmp(named, when) == 0 && number_in("KILL_WRITE", 0) == writes;
}

static void die(void) {
    kill(getpid(), SIGKILL);
    abort();
}

static void must(bool done) {
    if (!done)
        abort();
}

/* Waits until the file that it makes is gone. */
static void wait_here(void) {
    const char *path = getenv("PAUSE_FILE");
    must(path != NULL);
    FILE *file = fopen(path, "w");
    must(file != NULL && fclose(file) == 0);
    const struct timespec pause = {.tv_nsec = 1000 * 1000};
    while (access(path, F_OK) == 0)
        nanosleep(&pause, NULL);
}

/* Whether the run is killed at the next call; half of it is done first. */
static bool killed_here(void) {
    return number_in("KILL_CALL", 0) == calls;
}

/* Counts a call and adds it to the log; the run is held up or killed before it. */
static void next_call(const char *form, ...) {
    calls++;
    const char *path = getenv("WRITE_LOG");
    FILE *log = path == NULL ? NULL : fopen(path, "a");
    if (log != NULL) {
        va_list words;
        va_start(words, form);
        vfprintf(log, form, words);
        va_end(words);
        fclose(log);
    }
    if (number_in("PAUSE_CALL", 0) == calls)
        wait_here();
    if (killed_here() && getenv("KILL_HALF") == NULL)
        die();
}

/* ---- checksums, by which states that were tried are known again */

static uint64_t checksum = UINT64_C(0xcbf29ce484222325);

static void add_to_checksum(const void *bytes, size_t length) {
    const unsigned char *next = bytes;
    for (size_t i = 0; i < length; i++)
        checksum = (checksum ^ next[i]) * UINT64_C(0x100000001b3);
    checksum = (checksum ^ length) * UINT64_C(0x100000001b3);
}

/* ---- the medium */

/* A pending write; in its file its bytes come after it. */
struct pending {
    size_t offset;
    size_t length;
};

static unsigned char medium[CARD_BYTES_MAX];
static size_t medium_length;

/* Opens the medium's file, or one beside it; NULL where it is not there. */
static FILE *open_medium(const char *after_name, const char *mode) {
    char path[4096];
    const char *name = getenv("MEDIUM");
    must(name != NULL && (size_t)snprintf(path, sizeof path, "%s%s", name, after_name) < sizeof path);
    return fopen(path, mode);
}

/* False where there is no card yet. */
static bool read_medium(void) {
    FILE *in = open_medium("", "rb");
    if (in == NULL)
        return false;
    medium_length = fread(medium, 1, sizeof medium, in);
    fclose(in);
    return true;
}

static void write_medium(void) {
    FILE *out = open_medium("", "wb");
    must(out != NULL && fwrite(medium, 1, medium_length, out) == medium_length);
    must(fclose(out) == 0);
}

static void add_pending(const void *bytes, size_t length, off_t offset) {
    struct pending write = {(size_t)offset, length};
    FILE *out = open_medium(".pending", "ab");
    must(out != NULL && fwrite(&write, sizeof write, 1, out) == 1 && fwrite(bytes, 1, length, out) == length);
    must(fclose(out) == 0);
}

/* What can become of a write that is pending when the power fails. */
enum way { NOTHING, WHOLE, FIRST_HALF, SECOND_HALF, OTHER_WORDS, HALF_AND_OTHER_WORDS, WAYS };

/* How many of the ways a write can take: one of the configuration words is all
 * or nothing. */
static unsigned long ways_of(struct pending write) {
    return write.offset == 0 && write.length == CONFIGURATION_BYTES ? WHOLE + 1 : WAYS;
}

static void land(struct pending write, const unsigned char *bytes, enum way way) {
    for (size_t i = 0; i < write.length; i++) {
        bool first = i < write.length / 2;
        unsigned char *place = &medium[write.offset + i];
        if (way == WHOLE || (way == FIRST_HALF && first) || (way == SECOND_HALF && !first) ||
            (way == HALF_AND_OTHER_WORDS && first))
            *place = bytes[i];
        else if (way == OTHER_WORDS || way == HALF_AND_OTHER_WORDS)
            *place = (unsigned char)~bytes[i];
    }
}

/* Has the pending writes land on the medium in memory: all of them as a whole,
 * or each in the way that its digit of the choice names. Their order matters only
 * where they overlap, and there it is that of the page cache. Gives what is left
 * of the choice after its last digit. */
static unsigned long land_pending(bool all, unsigned long choice) {
    FILE *in = open_medium(".pending", "rb");
    struct pending write;
    while (in != NULL && fread(&write, sizeof write, 1, in) == 1) {
        static unsigned char bytes[CARD_BYTES_MAX];
        must(write.length <= sizeof bytes && fread(bytes, 1, write.length, in) == write.length);
        must(write.offset + write.length <= medium_length);
        land(write, bytes, all ? WHOLE : (enum way)(choice % ways_of(write)));
        choice /= ways_of(write);
    }
    if (in != NULL)
        fclose(in);
    return choice;
}

/* Brings the pending writes to the medium. */
static void sync_medium(void) {
    must(read_medium());
    land_pending(true, 0);
    write_medium();
    fclose(open_medium(".pending", "wb"));
}

/* ---- names */

/* What a name may stand for when the power fails: no file, or one with these bytes,
 * which may be on the medium or not. Of each name the first is what is on the medium. */
enum stands { NO_FILE, SYNCED_FILE, UNSYNCED_FILE };

struct standing {
    char name[256];
    enum stands what;
    size_t length;
    unsigned char *bytes;
};

enum { STANDINGS_MAX = 100 };
static struct standing standings[STANDINGS_MAX];
static size_t standing_count;

static ino_t synced_file; /* the last file that was synced and not written since */

static const char *last_name(const char *path) {
    const char *slash = strrchr(path, '/');
    return slash == NULL ? path : slash + 1;
}

static void read_names(void) {
    FILE *in = open_medium(".names", "rb");
    standing_count = 0;
    struct standing read;
    while (in != NULL && fread(&read, sizeof read, 1, in) == 1) {
        must(standing_count < STANDINGS_MAX);
        read.bytes = malloc(read.length + 1);
        must(read.bytes != NULL && fread(read.bytes, 1, read.length, in) == read.length);
        standings[standing_count++] = read;
    }
    if (in != NULL)
        fclose(in);
}

static void write_names(void) {
    FILE *out = open_medium(".names", "wb");
    must(out != NULL);
    for (size_t i = 0; i < standing_count; i++) {
        struct standing written;
        memset(&written, 0, sizeof written); /* also between its members, so that alike is the same */
        strcpy(written.name, standings[i].name);
        written.what = standings[i].what;
        written.length = standings[i].length;
        must(fwrite(&written, sizeof written, 1, out) == 1 &&
             fwrite(standings[i].bytes, 1, written.length, out) == written.length);
    }
    must(fclose(out) == 0);
}

/* What a path stands for now. */
static struct standing standing_of(const char *name, const char *path) {
    struct standing now = {.what = NO_FILE, .bytes = malloc(CARD_BYTES_MAX)};
    must(now.bytes != NULL && strlen(name) < sizeof now.name);
    strcpy(now.name, name);
    struct stat about;
    FILE *in = stat(path, &about) == 0 ? fopen(path, "rb") : NULL;
    if (in != NULL) {
        now.what = about.st_ino == synced_file ? SYNCED_FILE : UNSYNCED_FILE;
        now.length = fread(now.bytes, 1, CARD_BYTES_MAX, in);
        fclose(in);
    }
    return now;
}

static bool is_named(const char *name) {
    for (size_t i = 0; i < standing_count; i++)
        if (strcmp(standings[i].name, name) == 0)
            return true;
    return false;
}

/* A name is to stand for the file of a path, or for none where that is not there. What
 * it stood for before this build first changed it is taken to be on the medium. */
static void stands_for(const char *path, const char *file) {
    if (getenv("MEDIUM") == NULL)
        return;
    read_names();
    must(standing_count + 2 <= STANDINGS_MAX);
    if (!is_named(last_name(path))) {
        standings[standing_count] = standing_of(last_name(path), path);
        if (standings[standing_count].what == UNSYNCED_FILE)
            standings[standing_count].what = SYNCED_FILE;
        standing_count++;
    }
    standings[standing_count++] = standing_of(last_name(path), file);
    write_names();
}

/* Brings the names to the medium: each stands for what it stood for last. */
static void sync_names(void) {
    size_t kept = 0;
    read_names();
    for (size_t i = 0; i < standing_count; i++) {
        bool last = true;
        for (size_t j = i + 1; j < standing_count; j++)
            last = last && strcmp(standings[i].name, standings[j].name) != 0;
        if (last)
            standings[kept++] = standings[i];
    }
    standing_count = kept;
    write_names();
}

/* Lays one file in a folder: what a name stands for. Of a file whose bytes are not on the
 * medium nothing, half or all is left. */
static void lay(const char *folder, const struct standing *standing, unsigned long left) {
    char path[4096];
    must((size_t)snprintf(path, sizeof path, "%s/%s", folder, standing->name) < sizeof path);
    remove(path);
    if (standing->what == NO_FILE)
        return;
    size_t length = standing->what == SYNCED_FILE ? standing->length : left * standing->length / 2;
    add_to_checksum(standing->name, strlen(standing->name));
    add_to_checksum(standing->bytes, length);
    FILE *out = fopen(path, "wb");
    must(out != NULL && fwrite(standing->bytes, 1, length, out) == length && fclose(out) == 0);
}

/* Lays what each name stands for: one of what it may, which its digit of the choice
 * names. Gives what is left of the choice. */
static unsigned long lay_names(const char *folder, unsigned long choice) {
    read_names();
    for (size_t i = 0; i < standing_count; i++) {
        size_t ways = 0;
        bool first = true;
        for (size_t j = 0; j < i; j++)
            first = first && strcmp(standings[i].name, standings[j].name) != 0;
        for (size_t j = i; first && j < standing_count; j++)
            if (strcmp(standings[i].name, standings[j].name) == 0)
                ways += standings[j].what == UNSYNCED_FILE ? 3 : 1;
        size_t way = first ? choice % ways : 0;
        for (size_t j = i; first && j < standing_count; j++) {
            if (strcmp(standings[i].name, standings[j].name) != 0)
                continue;
            size_t own = standings[j].what == UNSYNCED_FILE ? 3 : 1;
            if (way < own)
                lay(folder, &standings[j], way);
            way = way < own ? SIZE_MAX : way - own;
            if (way == SIZE_MAX)
                break;
        }
        if (first)
            choice /= ways;
    }
    return choice;
}

static int power_cut(unsigned long choice, const char *folder) {
    char path[4096];
    must((size_t)snprintf(path, sizeof path, "%s/card", folder) < sizeof path);
    if (read_medium()) {
        choice = land_pending(false, choice);
        FILE *out = fopen(path, "wb");
        must(out != NULL && fwrite(medium, 1, medium_length, out) == medium_length && fclose(out) == 0);
        add_to_checksum(medium, medium_length);
    }
    int status = lay_names(folder, choice) == 0 ? 0 : 1;
    printf("%" PRIx64 "\n", checksum);
    return status;
}

static int medium_state(void) {
    static const char *const files[] = {"", ".pending", ".names"};
    static unsigned char bytes[2 * CARD_BYTES_MAX];
    for (size_t i = 0; i < sizeof files / sizeof *files; i++) {
        FILE *in = open_medium(files[i], "rb");
        add_to_checksum(bytes, in == NULL ? 0 : fread(bytes, 1, sizeof bytes, in));
        if (in != NULL)
            fclose(in);
    }
    printf("%" PRIx64 "\n", checksum);
    return 0;
}

/* ---- in place of the system's */

/* Writes to the card file; what is written is pending. */
static ssize_t write_to(int file, const void *bytes, size_t length, off_t offset) {
    ssize_t put = __real_pwrite(file, bytes, length, offset);
    if (put > 0 && getenv("MEDIUM") != NULL)
        add_pending(bytes, (size_t)put, offset);
    return put;
}

/* Whether a write fails, with errno set. */
static bool fails(const char *name, long number) {
    if (number_in(name, 0) != number)
        return false;
    errno = (int)number_in("FAIL_WRITE_ERROR", EIO);
    return true;
}

ssize_t __wrap_pwrite(int file, const void *bytes, size_t length, off_t offset) {
    writes++;
    next_call("write %jd %zu\n", (intmax_t)offset, length);
    if (number_in("ZERO_WRITE", 0) == writes)
        return 0;
    if (fails("FAIL_WRITE", writes))
        return -1;
    bool configuration = offset == 0 && length == CONFIGURATION_BYTES;
    if ((kill_when("half") || killed_here()) && !configuration)
        write_to(file, bytes, length / 2, offset);
    if (kill_when("before") || kill_when("half") || killed_here())
        die();
    if (number_in("SHORT_WRITE", 0) == writes)
        return write_to(file, bytes, length / 2, offset);
    ssize_t put = write_to(file, bytes, length, offset);
    if (kill_when("after"))
        die();
    return put;
}

ssize_t __wrap_write(int file, const void *bytes, size_t length) {
    puts_made++;
    next_call("put\n");
    if (number_in("ZERO_PUT", 0) == puts_made)
        return 0;
    if (fails("FAIL_PUT", puts_made))
        return -1;
    synced_file = 0;
    if (killed_here()) {
        if (__real_write(file, bytes, length / 2) < 0)
            abort();
        die();
    }
    return __real_write(file, bytes, length);
}

/* Counts a sync; false with errno set where it fails. */
static bool next_sync(const char *name) {
    syncs++;
    bool failing = number_in("FAIL_SYNC", 0) == syncs;
    next_call("%s%s\n", name, failing ? " fails" : "");
    if (killed_here())
        die();
    if (failing)
        errno = (int)number_in("FAIL_ERROR", EIO);
    return !failing;
}

int __wrap_fdatasync(int file) {
    (void)file;
    if (!next_sync("sync"))
        return -1;
    if (getenv("MEDIUM") != NULL)
        sync_medium();
    if (kill_when("synced"))
        die();
    return 0;
}

int __wrap_fsync(int file) {
    struct stat about;
    must(fstat(file, &about) == 0);
    bool folder = S_ISDIR(about.st_mode);
    if (!next_sync(folder ? "folder" : "file"))
        return -1;
    if (!folder)
        synced_file = about.st_ino;
    else if (getenv("MEDIUM") != NULL)
        sync_names();
    return 0;
}

int __wrap_rename(const char *from, const char *to) {
    next_call("name %s\n", last_name(to));
    if (killed_here())
        die();
    stands_for(to, from);
    return __real_rename(from, to);
}

int __wrap_renameat2(int from_folder, const char *from, int to_folder, const char *to, unsigned flags) {
    next_call("name %s\n", last_name(to));
    if (killed_here())
        die();
    const char *other = getenv("OTHER_FILE");
    if (other != NULL)
        fclose(fopen(other, "w"));
    if (getenv("NO_REPLACE") != NULL) {
        errno = EINVAL;
        return -1;
    }
    struct stat about;
    if (lstat(to, &about) != 0)
        stands_for(to, from);
    return __real_renameat2(from_folder, from, to_folder, to, flags);
}

int __wrap_unlink(const char *path) {
    next_call("remove %s\n", last_name(path));
    if (killed_here())
        die();
    struct stat about;
    if (lstat(path, &about) == 0)
        stands_for(path, "");
    return __real_unlink(path);
}

int __wrap_main(int argc, char **argv) {
    if (argc == 4 && strcmp(argv[1], "power-cut") == 0)
        return power_cut(strtoul(argv[2], NULL, 10), argv[3]);
    if (argc == 2 && strcmp(argv[1], "medium-state") == 0)
        return medium_state();
    return __real_main(argc, argv);
}
