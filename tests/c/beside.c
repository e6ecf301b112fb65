/* Tests runs of the host program beside each other on one card: host_beside PROGRAM
 * Readers must get in between any two steps of a pass and see what the card was at some
 * moment of their call; writers must keep each other off; nobody may wait in vain.
 * Nothing here fails since a machine is slow: what is limited by time has a limit many
 * times what it takes.
 * Prints each failing check and, as its last line, 'N passed, M failed'. */
#define _GNU_SOURCE

#include "beside.h"

#include <dirent.h>
#include <signal.h>
#include <stdarg.h>
#include <stdio.h>
#include <stdlib.h>
#include <unistd.h>

const char *program;
char folder[4096];

enum { HANGS_AFTER = 300 }; /* seconds */

static int passed;
static int failed;

void check(bool holds, const char *form, ...) {
    if (holds) {
        passed++;
        return;
    }
    failed++;
    va_list words;
    va_start(words, form);
    printf("FAILED: ");
    vprintf(form, words);
    putchar('\n');
    fflush(stdout);
    va_end(words);
}

/* Removes the folder and the files in it. */
static void remove_folder(void) {
    DIR *files = opendir(folder);
    if (files == NULL)
        return;
    for (struct dirent *file = readdir(files); file != NULL; file = readdir(files))
        if (file->d_name[0] != '.')
            unlinkat(dirfd(files), file->d_name, 0);
    closedir(files);
    rmdir(folder);
}

void give_up(const char *what) {
    fprintf(stderr, "host_beside: %s\n", what);
    printf("%d passed, %d failed\n", passed, failed + 1);
    fflush(stdout);
    remove_folder();
    _exit(1);
}

/* Ends a test that hangs. */
static void on_alarm(int signal) {
    static const char what[] = "FAILED: the test does not come to its end\n0 passed, 1 failed\n";
    (void)signal;
    _exit(write(STDOUT_FILENO, what, sizeof what - 1) < 0 ? 2 : 1);
}

static void make_folder(void) {
    const char *place = getenv("TMPDIR");
    snprintf(folder, sizeof folder, "%s/host_beside.XXXXXX", place != NULL && *place != '\0' ? place : "/tmp");
    if (mkdtemp(folder) == NULL)
        give_up("no folder for the cards");
}

int main(int argc, char **argv) {
    if (argc != 2) {
        fprintf(stderr, "usage: host_beside PROGRAM\n");
        return 2;
    }
    program = realpath(argv[1], NULL);
    if (program == NULL)
        give_up("no such program");
    signal(SIGPIPE, SIG_IGN);
    signal(SIGALRM, on_alarm);
    alarm(HANGS_AFTER);
    make_folder();
    test_locks();
    test_rounds();
    remove_folder();
    printf("%d passed, %d failed\n", passed, failed);
    return failed == 0 ? 0 : 1;
}
