/* The index on a card, by whole runs of the host program: it opens the card, judges and
 * forecasts, notes the batch beside the card, makes the pass and removes the note. */
#define _POSIX_C_SOURCE 200809L

#include <fcntl.h>
#include <inttypes.h>
#include <spawn.h>
#include <stdio.h>
#include <sys/wait.h>
#include <unistd.h>

#include "peers.h"

static const char batch_name[] = "program.batch";

/* Starts a run whose standard output comes out of a pipe; gives its number. */
static pid_t start(char **words, int *output) {
    extern char **environ;
    int ends[2];
    pid_t run;
    posix_spawn_file_actions_t streams;
    if (pipe(ends) != 0)
        give_up(words[0], "no pipe");
    posix_spawn_file_actions_init(&streams);
    posix_spawn_file_actions_adddup2(&streams, ends[1], STDOUT_FILENO);
    posix_spawn_file_actions_addclose(&streams, ends[0]);
    posix_spawn_file_actions_addclose(&streams, ends[1]);
    posix_spawn_file_actions_addopen(&streams, STDERR_FILENO, "/dev/null", O_WRONLY, 0);
    if (posix_spawn(&run, words[0], &streams, NULL, words, environ) != 0)
        give_up(words[0], "cannot be run");
    posix_spawn_file_actions_destroy(&streams);
    close(ends[1]);
    *output = ends[0];
    return run;
}

/* Runs the program to its end; gives the number of positions that it printed. */
static size_t run_program(char **words, uint32_t *answer) {
    int output;
    int status;
    size_t count = 0;
    pid_t run = start(words, &output);
    FILE *lines = fdopen(output, "r");
    if (lines == NULL)
        give_up(words[0], "no memory");
    while (answer != NULL && fscanf(lines, "%" SCNu32, &answer[count]) == 1)
        count++;
    while (fgetc(lines) != EOF)
        continue;
    fclose(lines);
    if (waitpid(run, &status, 0) != run || status != 0)
        give_up(words[0], "a run failed");
    return count;
}

/* Makes the card where there is none. */
static void program_open(struct peer *self, bool writes) {
    char b[20];
    char n[20];
    snprintf(b, sizeof b, "%d", BLOCK_WORDS);
    snprintf(n, sizeof n, "%d", PLACES);
    if (writes && access(self->files[0], F_OK) != 0)
        run_program((char *[]){(char *)self->how, "format", (char *)self->files[0], b, n, NULL}, NULL);
}

static void program_close(struct peer *self) {
    (void)self;
}

static void program_deliver(const struct batch *batch) {
    static uint32_t words[GI_BATCH_RECORDS_MAX * GI_RECORD_WORDS];
    size_t length = sorted_words(batch, words);
    FILE *file = fopen(batch_name, "w");
    if (file == NULL || fwrite(words, sizeof *words, length, file) != length || fclose(file) != 0)
        give_up(batch_name, "it cannot be written");
}

static void program_apply(struct peer *self, const struct batch *batch) {
    (void)batch; /* it was delivered */
    run_program((char *[]){(char *)self->how, "apply", (char *)self->files[0], (char *)batch_name, NULL}, NULL);
}

static size_t program_lookup(struct peer *self, struct question asked, uint32_t *answer) {
    char term[20];
    char from[20];
    char to[20];
    snprintf(term, sizeof term, "%" PRIu32, asked.term);
    snprintf(from, sizeof from, "%" PRIu32, asked.from);
    snprintf(to, sizeof to, "%" PRIu32, asked.to);
    return run_program((char *[]){(char *)self->how, "lookup", (char *)self->files[0], term, from, to, NULL}, answer);
}

static size_t program_pairs(struct peer *self, uint64_t *pairs) {
    return pairs_of_card(self->files[0], pairs);
}

struct peer program_peer = {
    .files = {"program.card", "program.card.pass"},
    .open = program_open,
    .close = program_close,
    .deliver = program_deliver,
    .apply = program_apply,
    .lookup = program_lookup,
    .pairs = program_pairs,
};
