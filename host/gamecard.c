/* gamecard: the host program of the game index, over libgameindex.a.
 *
 * Exit status: 0 done, 1 refused (the number is shown, or the ground),
 * 2 a file, the output or the command line is at fault, 3 from fits alone: the
 * batch does not fit. */
#define _POSIX_C_SOURCE 200809L

#include "gamecard.h"

#include <errno.h>
#include <fcntl.h>
#include <limits.h>
#include <signal.h>
#include <stdio.h>
#include <string.h>
#include <unistd.h>

#include "gameindex.h"

/* ---- the commands */

enum {
    OPTIONS_ALL = OPTION_QUIET | OPTION_HELP, /* of every command */
    OPTIONS_CARD = OPTION_WAIT | OPTIONS_ALL, /* of every one that opens a card */
    OPTIONS_APPLY = OPTION_RESUME | OPTION_ANYWAY | OPTIONS_CARD,
    OPTIONS_ASK = OPTION_FROM | OPTION_TO | OPTIONS_CARD
};

struct command {
    const char *name;
    unsigned options;  /* those that it takes */
    const char *words; /* as the help shows them */
    int least;         /* how many words it takes */
    int most;
    const char *about;
    const char *more; /* what its own help says besides */
    command_function *run;
};

static const struct command commands[] = {
    {"format", OPTION_FORCE | OPTIONS_CARD, "CARD B N", 3, 3, "make an empty index of N places of B words",
     "B is 8 to 1,024 and N is 2 to 1,024. A file that is there is formatted if it is a card of\n"
     "that size without pairs; --force does it with any file of the right length.\n",
     run_format},
    {"apply", OPTION_TEXT | OPTIONS_APPLY, "CARD BATCH", 2, 2, "apply a file of batch words, or - for standard input",
     "Each write is on the medium before the next. A run that was cut short is completed by the\n"
     "same command. A batch that would not finish is refused with number 8 before its first step.\n"
     "An empty batch, /dev/null, ends an open pass where it stands.\n",
     run_apply},
    {"annul", OPTIONS_APPLY, "CARD FROM TO", 3, 3, "remove a range of running numbers under every term",
     "It applies the batch of the one record that says so. A range with FROM above TO has no game\n"
     "in it and removes nothing.\n",
     run_annul},
    {"fits", OPTION_TEXT | OPTIONS_CARD, "CARD BATCH", 2, 2,
     "say whether the card has room to apply a batch; write nothing",
     "With a pass open it tells what comes of going on with it.\n", run_fits},
    {"lookup", OPTIONS_ASK, "CARD TERM..", 2, INT_MAX, "show running numbers of terms, all or those in a range",
     "Three numbers without --from and --to are TERM FROM TO. Of one term each running number has\n"
     "its line; of several a line is term, tab, running number. Counts go to standard error.\n",
     run_lookup},
    {"page", OPTIONS_ASK, "CARD TERM..", 2, INT_MAX, "write the same as pages of text, five to a line",
     "Three numbers without --from and --to are TERM FROM TO.\n", run_page},
    {"terms", OPTIONS_CARD, "CARD", 1, 1, "show each term with the count of its running numbers",
     "A line is term, tab, count; the terms rise. With a pass open it is the index of this moment.\n", run_terms},
    {"dump", OPTIONS_CARD, "CARD", 1, 1, "show every pair of the index",
     "A line is term, tab, running number; the pairs rise. With a pass open it is the index of this\n"
     "moment. With A and a tab before each line it is a scorekeepers' file of all these pairs.\n",
     run_dump},
    {"show", OPTIONS_CARD, "CARD", 1, 1, "show a card: pairs, terms, how full it is, its circle of places",
     "Then its configuration words and its live places with their first pairs.\n", run_show},
    {"judge", OPTIONS_CARD, "CARD", 1, 1, "say whether the card is sound, and whether a pass is open",
     "With --quiet the exit status alone tells that a card is sound.\n", run_judge},
    {"convert", OPTIONS_ALL, "OLD NEW", 2, 2,
     "make a batch file of one with records of four words, as earlier boxes wrote them", "NEW must not be there.\n",
     run_convert},
};

enum { COMMANDS = sizeof commands / sizeof *commands };

static const struct {
    unsigned option;
    const char *letter; /* its short form, or "" */
    const char *form;   /* its name and, behind a blank, the help's name for its value */
    const char *about;
} all_options[] = {
    {OPTION_TEXT, "", "--text", "BATCH is a scorekeepers' file"},
    {OPTION_RESUME, "", "--resume", "go on with an open pass where no file CARD.pass tells its batch"},
    {OPTION_ANYWAY, "", "--anyway", "apply what does not fit as far as it goes"},
    {OPTION_FORCE, "", "--force", "format a file that is not an empty card; what it held is lost"},
    {OPTION_FROM, "", "--from F", "the lowest running number asked for; 1 if not given"},
    {OPTION_TO, "", "--to T", "the highest one; 4294967295 if not given"},
    {OPTION_WAIT, "", "--wait SECONDS", "how long to wait for another run that has the card; 10 if not given"},
    {OPTION_QUIET, "-q", "--quiet", "show answers, refusals and faults, and nothing else"},
    {OPTION_HELP, "-h", "--help", "show how the command is used, and do nothing"},
};

enum { OPTIONS = sizeof all_options / sizeof *all_options };

/* The help's name for the value of an option; NULL where it has none. */
static const char *value_name(int option) {
    const char *blank = strchr(all_options[option].form, ' ');
    return blank == NULL ? NULL : blank + 1;
}

/* ---- the help */

/* Shows a command with its words and those of its options that not every command has. */
static void show_form(FILE *out, const struct command *command) {
    fprintf(out, "%s", command->name);
    for (int i = 0; i < OPTIONS; i++)
        if (command->options & ~(unsigned)OPTIONS_CARD & all_options[i].option)
            fprintf(out, " [%s]", all_options[i].form);
    fprintf(out, " %s\n", command->words);
}

static void show_options(FILE *out, unsigned options) {
    fprintf(out, "\noptions, before or behind the other words; -- ends them\n");
    for (int i = 0; i < OPTIONS; i++) {
        char form[30];
        const char *letter = all_options[i].letter;
        snprintf(form, sizeof form, "%s%s%s", letter, *letter != '\0' ? ", " : "", all_options[i].form);
        if (options & all_options[i].option)
            fprintf(out, "  %-15s %s\n", form, all_options[i].about);
    }
}

static void show_statuses(FILE *out) {
    fprintf(out, "\nexit status: 0 done, 1 refused (the number is shown, or the ground), 2 a fault of a file,\n"
                 "the output or the command line; of fits, 0 the batch fits, 3 it does not: the card is too full\n");
}

/* Shows how a command is used. */
static int show_command(const struct command *command) {
    printf("usage: gamecard ");
    show_form(stdout, command);
    printf("\n%s\n%s", command->about, command->more);
    show_options(stdout, command->options);
    show_statuses(stdout);
    return EXIT_DONE;
}

/* Shows the commands with what each does. */
static void show_commands(FILE *out) {
    fprintf(out, "usage: gamecard COMMAND [OPTIONS] FILE ...\n"
                 "       gamecard COMMAND --help | --help | --version\n");
    for (int i = 0; i < COMMANDS; i++) {
        fprintf(out, "\n  ");
        show_form(out, &commands[i]);
        fprintf(out, "      %s\n", commands[i].about);
    }
}

static void show_help(FILE *out) {
    show_commands(out);
    show_options(out, ~0u);
    fprintf(out,
            "\ncards and batches are files of 32-bit words, little-endian; a batch is records of five: kind (1 adds,\n"
            "2 removes), term, from, to, arrival, by term, then from; an addition has from and to alike; kind 3, with\n"
            "term 0, removes from from to to under every term; a removal with from above to removes nothing\n");
    fprintf(
        out,
        "\narrival numbers are at least 1, and no two records of a batch have the same; of all records that touch a\n"
        "pair, the one with the greatest arrival number decides whether the pair is in the index\n");
    fprintf(
        out,
        "\nearlier boxes wrote records of four words, without arrival, and there an addition won; convert makes a new\n"
        "file of such a file, which means the same; a file of four-word records whose length is a multiple of 20\n"
        "bytes can pass for one of five-word records, and then means something else or is refused; nothing in the\n"
        "file tells them apart, so convert old files once, and know which are which\n");
    fprintf(
        out,
        "\na scorekeepers' file is lines, the latest last: A<tab>term<tab>position adds, R<tab>term<tab>from<tab>to "
        "removes;\nit may have any length, and is applied in parts of 4,096 lines\n");
    show_statuses(out);
}

/* ---- the command line */

/* Tells what is wrong with the command line, and how the command is used. */
static int misused(const struct command *command, const char *what, const char *word) {
    fprintf(stderr, "gamecard: %s: %s %s\nusage: gamecard ", command->name, what, word);
    show_form(stderr, command);
    return EXIT_FAULT;
}

/* Tells that the word at a place is missing, by the help's name for it. */
static int missing(const struct command *command, int place) {
    const char *name = command->words;
    for (; place > 0; place--)
        name = strchr(name, ' ') + 1;
    char word[20];
    snprintf(word, sizeof word, "%.*s", (int)strcspn(name, " ."), name);
    return misused(command, "a word is missing:", word);
}

static bool is_option(const char *word) {
    return strncmp(word, "--", 2) == 0 || strcmp(word, "-q") == 0 || strcmp(word, "-h") == 0;
}

/* Finds the option of a command that a word names; OPTIONS where there is none. A value
 * may stand behind it, after "=". */
static int find_option(const struct command *command, const char *word, const char **value) {
    size_t length = strcspn(word, "=");
    *value = word[length] == '=' ? word + length + 1 : NULL;
    int i = 0;
    for (; i < OPTIONS; i++) {
        const char *form = all_options[i].form;
        bool named = strcspn(form, " ") == length && memcmp(word, form, length) == 0;
        if ((command->options & all_options[i].option) && (named || strcmp(word, all_options[i].letter) == 0))
            break;
    }
    return i < OPTIONS && *value != NULL && value_name(i) == NULL ? OPTIONS : i;
}

/* Where the value of an option goes. */
static uint32_t *value_of(struct options *options, unsigned option) {
    return option == OPTION_FROM ? &options->from : option == OPTION_TO ? &options->to : &options->wait;
}

/* Reads the options out of the words, which are left with the others. Gives an exit
 * status. */
static int read_options(const struct command *command, struct options *options, char **words) {
    *options = (struct options){.from = GI_LOWEST, .to = GI_HIGHEST, .wait = WAIT_SECONDS};
    char **kept = words;
    bool ended = false;
    for (; *words != NULL; words++) {
        const char *value;
        if (ended || !is_option(*words)) {
            *kept++ = *words;
            continue;
        }
        ended = strcmp(*words, "--") == 0;
        if (ended)
            continue;
        int i = find_option(command, *words, &value);
        if (i == OPTIONS)
            return misused(command, "it has no option", *words);
        options->given |= all_options[i].option;
        if (value_name(i) == NULL)
            continue;
        if (value == NULL)
            value = *++words;
        if (value == NULL)
            return misused(command, "a word is missing:", value_name(i));
        if (!parse_word(value_name(i), value, value_of(options, all_options[i].option)))
            return EXIT_FAULT;
    }
    *kept = NULL;
    return EXIT_DONE;
}

/* Whether help is asked for among the options. */
static bool wants_help(char **words) {
    for (; *words != NULL && strcmp(*words, "--") != 0; words++)
        if (strcmp(*words, "--help") == 0 || strcmp(*words, "-h") == 0)
            return true;
    return false;
}

/* Runs a command with the words behind its name. */
static int run_words(const struct command *command, char **words) {
    if (wants_help(words))
        return show_command(command);
    struct options options;
    int status = read_options(command, &options, words);
    if (status != EXIT_DONE)
        return status;
    int count = 0;
    while (words[count] != NULL)
        count++;
    if (count < command->least)
        return missing(command, count);
    if (count > command->most)
        return misused(command, "a word too many:", words[command->most]);
    tell_quietly(options.given & OPTION_QUIET);
    return command->run(&options, words);
}

/* Finds a command; NULL after telling that there is none of that name. */
static const struct command *find_command(const char *name) {
    for (int i = 0; i < COMMANDS; i++)
        if (strcmp(name, commands[i].name) == 0)
            return &commands[i];
    fault(name, "there is no such command; gamecard help shows all");
    return NULL;
}

static int run_command(char **words) {
    if (words[0] == NULL) {
        show_help(stderr);
        return EXIT_FAULT;
    }
    bool help = strcmp(words[0], "help") == 0;
    if (strcmp(words[0], "--help") == 0 || strcmp(words[0], "-h") == 0 || (help && words[1] == NULL)) {
        show_help(stdout);
        return EXIT_DONE;
    }
    if (strcmp(words[0], "--version") == 0) {
        printf("gamecard %s\n", GI_VERSION);
        return EXIT_DONE;
    }
    const struct command *command = find_command(words[help]);
    if (command == NULL)
        return EXIT_FAULT;
    return help ? show_command(command) : run_words(command, words + 1);
}

/* ---- the standard streams */

/* Takes the place of every standard stream that is closed, so that no card is
 * opened there and written over with what is said. Such a stream cannot be
 * read or written. */
static bool take_streams(void) {
    for (int stream = STDIN_FILENO; stream <= STDERR_FILENO; stream++)
        /* what is opened is the lowest that is closed, so this one */
        if (fcntl(stream, F_GETFD) < 0 && open("/dev/null", stream == STDIN_FILENO ? O_WRONLY : O_RDONLY) != stream)
            return false;
    return true;
}

/* Ends standard output and gives the exit status: a run whose output was not
 * written as a whole is at fault, whatever it did. */
static int end_output(int status) {
    bool lost = ferror(stdout);
    errno = 0;
    if (fclose(stdout) == 0 && !lost)
        return status;
    return fault("standard output", "%s", errno != 0 ? strerror(errno) : "not all of it was written");
}

int main(int argc, char **argv) {
    signal(SIGPIPE, SIG_IGN); /* a pipe that nobody reads is output that cannot be written, and told as that */
    if (!take_streams())
        return fault("/dev/null", "%s", strerror(errno));
    return end_output(run_command(argv + (argc > 0)));
}
