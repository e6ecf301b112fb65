/* What a piece of work took. Bytes are what the system counts of this process, and of the
 * folder's device. Syncs are counted here: the functions below stand in front of the C library's, also for the shared
 * libraries of SQLite and LMDB, since names of the program come first. */
#define _GNU_SOURCE

#include "measure.h"

#include <errno.h>
#include <fcntl.h>
#include <stdbool.h>
#include <stdio.h>
#include <stdlib.h>
#include <string.h>
#include <sys/stat.h>
#include <sys/syscall.h>
#include <sys/sysmacros.h>
#include <time.h>
#include <unistd.h>

#include "peers.h"

double seconds(void) {
    struct timespec now;
    clock_gettime(CLOCK_MONOTONIC, &now);
    return (double)now.tv_sec + 1e-9 * (double)now.tv_nsec;
}

/* ---- syncs */

static double syncs;
static double syncing;

/* Counts a sync that began at this time and gives its status. */
static int synced(double began, long status) {
    syncs++;
    syncing += seconds() - began;
    return (int)status;
}

int fsync(int file) {
    double began = seconds();
    return synced(began, syscall(SYS_fsync, file));
}

int fdatasync(int file) {
    double began = seconds();
    return synced(began, syscall(SYS_fdatasync, file));
}

int msync(void *start, size_t length, int flags) {
    double began = seconds();
    return synced(began, syscall(SYS_msync, start, length, flags));
}

/* A write to a file that was opened with O_DSYNC, as LMDB's last write of a batch, is a sync
 * too. */
ssize_t pwrite(int file, const void *bytes, size_t length, off_t offset) {
    bool syncs_too = (fcntl(file, F_GETFL) & O_DSYNC) != 0;
    double began = seconds();
    long status = syscall(SYS_pwrite64, file, bytes, length, offset);
    return syncs_too ? synced(began, status) : status;
}

/* ---- time and bytes */

/* The bytes handed to write calls. */
static double bytes_handed(void) {
    double bytes;
    FILE *counts = fopen("/proc/self/io", "r");
    if (counts == NULL || fscanf(counts, "rchar: %*u wchar: %lf", &bytes) != 1)
        give_up("/proc/self/io", "it cannot be read");
    fclose(counts);
    return bytes;
}

/* The bytes written by the device of this folder; 0 where it has none of its own. */
static double bytes_of_device(void) {
    struct stat folder;
    char name[100];
    double sectors = 0;
    if (stat(".", &folder) != 0)
        give_up("the folder", strerror(errno));
    snprintf(name, sizeof name, "/sys/dev/block/%u:%u/stat", major(folder.st_dev), minor(folder.st_dev));
    FILE *counts = fopen(name, "r");
    if (counts == NULL)
        return 0;
    if (fscanf(counts, "%*u %*u %*u %*u %*u %*u %lf", &sectors) != 1)
        give_up(name, "it cannot be read");
    fclose(counts);
    return 512 * sectors;
}

struct taken taken_by_now(void) {
    struct taken taken = {
        .of = {[SYNCS] = syncs, [SYNCING] = syncing, [HANDED] = bytes_handed(), [DEVICE] = bytes_of_device()}};
    taken.of[TIME] = seconds();
    return taken;
}

struct taken taken_since(const struct taken *start) {
    double now = seconds();
    struct taken taken = taken_by_now();
    taken.of[TIME] = now;
    for (int i = 0; i < MEASURES; i++)
        taken.of[i] -= start->of[i];
    return taken;
}

static int by_size(const void *one, const void *other) {
    const double a = *(const double *)one;
    const double b = *(const double *)other;
    return (a > b) - (a < b);
}

double median(double *figures, size_t count) {
    qsort(figures, count, sizeof *figures, by_size);
    return figures[count / 2];
}

double sync_seconds(void) {
    enum { SYNCED = 50, PAGE = 4096 };
    static const char name[] = "sync.test";
    static char page[PAGE];
    double times[SYNCED];
    int file = open(name, O_RDWR | O_CREAT | O_TRUNC, 0666);
    for (int i = -1; i < SYNCED; i++) {
        page[0]++;
        if (pwrite(file, page, PAGE, 0) != PAGE)
            give_up(name, strerror(errno));
        double began = seconds();
        if (fdatasync(file) != 0)
            give_up(name, strerror(errno));
        if (i >= 0) /* the first one makes the file longer */
            times[i] = seconds() - began;
    }
    close(file);
    unlink(name);
    return median(times, SYNCED);
}
