/* What the commands of the host program have in common: exit statuses, options, and how
 * they tell of faults, refusals and what was done. */
#ifndef GAMECARD_H
#define GAMECARD_H

#include <stdbool.h>
#include <stddef.h>
#include <stdint.h>

/* The exit statuses of the host program. */
enum { EXIT_DONE = 0, EXIT_REFUSED = 1, EXIT_FAULT = 2, EXIT_NO_ROOM = 3 };

/* ---- options */

enum {
    OPTION_TEXT = 1,   /* --text: a scorekeepers' file in place of batch words */
    OPTION_RESUME = 2, /* --resume: go on with an open pass of which no note tells */
    OPTION_ANYWAY = 4, /* --anyway: apply what does not fit as far as it goes */
    OPTION_FORCE = 8,  /* --force: format a file that is not an empty card */
    OPTION_FROM = 16,  /* --from F, --to T: the range of a question */
    OPTION_TO = 32,
    OPTION_WAIT = 64,   /* --wait SECONDS: how long to wait for other runs */
    OPTION_QUIET = 128, /* --quiet: success is silent but for answers */
    OPTION_HELP = 256   /* --help: show how the command is used, and do nothing */
};

enum { WAIT_SECONDS = 10 }; /* where --wait is not given */

struct options {
    unsigned given; /* which of the options */
    uint32_t from;
    uint32_t to;
    uint32_t wait;
};

/* ---- the commands */

/* Runs a command with its words, of which there are as many as it takes and NULL after
 * them, and gives the exit status. */
typedef int command_function(const struct options *options, char **words);

command_function run_format;  /* makes an empty index */
command_function run_apply;   /* applies a batch, or a scorekeepers' file */
command_function run_annul;   /* removes a range of positions under every term */
command_function run_fits;    /* tells whether a batch fits, and writes nothing */
command_function run_lookup;  /* shows the positions of terms, one to a line */
command_function run_page;    /* writes them as pages */
command_function run_terms;   /* shows each term with its count */
command_function run_dump;    /* shows every pair */
command_function run_show;    /* shows a card as a whole */
command_function run_judge;   /* shows whether a card is sound */
command_function run_convert; /* makes a batch file of one with records of four words */

/* ---- what is told */

/* Tells on standard output what was done, as printf does; nothing after tell_quietly(true). */
void tell(const char *form, ...);
void tell_quietly(bool quiet);
bool telling(void);

/* Tells what is wrong with a file or stream, and gives EXIT_FAULT. */
int fault(const char *path, const char *form, ...);

/* Tells that there is no memory for something that has to do with a file, and gives
 * EXIT_FAULT. */
int no_memory(const char *path);

/* Tells a refusal's number and its meaning, and gives EXIT_REFUSED. */
int refused(const char *path, uint32_t number);

/* The same of a part of a file, such as "line 3", with the ground in place of the
 * number's meaning where it is not NULL. */
int refused_part(const char *path, const char *part, uint32_t number, const char *ground);

/* Shows the configuration words of a card. */
void show_configuration(const uint32_t *card);

/* "1 step", "2 steps": a count with its noun, for printf's "%" PRIu64 " %s%s". */
#define COUNTED(count, noun) (uint64_t)(count), noun, (count) == 1 ? "" : "s"

/* Reads a decimal number that fits a word. Where the text is none it tells so, with the
 * name that the help has for it, and gives false. */
bool parse_word(const char *name, const char *text, uint32_t *word);

#endif
