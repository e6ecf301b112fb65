/* The table of a run, and what it says. */
#include "table.h"

#include <stdio.h>

enum { KIB = 1024, MS = 1000, US = 1000 * 1000 };

/* ---- the table */

/* Shows a figure with three digits or more; 0 is one that there is not. */
static void show_figure(double figure) {
    if (figure == 0)
        printf(" %11s", "-");
    else
        printf(" %11.*f", figure < 10 ? 2 : figure < 100 ? 1 : 0, figure);
}

/* Shows a row of figures: each times unit. */
static void show_row(const char *label, const double *figures, double unit) {
    printf("%-40s", label);
    for (int way = 0; way < WAYS; way++)
        show_figure(figures[way] * unit);
    printf("\n");
}

static void show_words(const char *label, const char *const *words) {
    printf("%-40s", label);
    for (int way = 0; way < WAYS; way++)
        printf(" %11s", words[way]);
    printf("\n");
}

static void show_lookups(const struct results *results, const char *label, const double times[QUESTIONS][WAYS]) {
    for (int i = 0; i < QUESTIONS; i++) {
        char text[60];
        size_t found = results->found[i];
        snprintf(text, sizeof text, "%s%zu position%s, us", label, found, found == 1 ? "" : "s");
        show_row(text, times[i], US);
    }
}

static void show_figures(const struct results *results) {
    char load[60];
    snprintf(load, sizeof load, "the first load, %d batches, s", LOADS);
    show_words("", (const char *const[]){"card,", "card,", "SQLite,", "SQLite,", "LMDB,"});
    show_words("", (const char *const[]){"library", "program", "rollback", "WAL", "default"});
    show_row("a round's batch, median, ms", results->round[TIME], MS);
    show_row("  the worst, ms", results->worst[TIME], MS);
    show_row("  of it in syncs, median, ms", results->round[SYNCING], MS);
    show_row("  its syncs, if each took 5 ms, ms", results->round[SYNCS], 5);
    show_row("syncs for it", results->round[SYNCS], 1);
    show_row("bytes handed to writes for it, KiB", results->round[HANDED], 1.0 / KIB);
    show_row("  the worst, KiB", results->worst[HANDED], 1.0 / KIB);
    show_row("bytes that the device wrote, least, KiB", results->device, 1.0 / KIB);
    show_row(load, results->load, 1);
    show_row("files at the end, length, KiB", results->length, 1.0 / KIB);
    show_row("  on the medium, KiB", results->allocated, 1.0 / KIB);
    show_lookups(results, "lookup, open, ", results->open);
    show_lookups(results, "lookup, opened anew, ", results->anew);
    show_words("what is proved", (const char *const[]){"the library", "the library", "nothing", "nothing", "nothing"});
}

/* ---- what it says */

/* A figure in which less is better: our card's by the library, the better SQLite's, LMDB's;
 * and why ours is as it is. */
struct comparison {
    const char *what;
    double ours;
    double sqlite;
    double lmdb;
    const char *why;
};

static double less(double one, double other) {
    return one < other ? one : other;
}

static struct comparison of(const char *what, const double *row, const char *why) {
    return (struct comparison){what, row[LIBRARY], less(row[ROLLBACK], row[WAL]), row[LMDB], why};
}

static void show_ratio(double ratio, const char *whose) {
    printf(" %.*f x %s", ratio < 1 ? 2 : ratio < 10 ? 1 : 0, ratio, whose);
}

/* Shows the comparisons that our card loses to one or both, or those that it wins. */
static void show_comparisons(const struct comparison *all, size_t count, bool lost) {
    for (size_t i = 0; i < count; i++) {
        const struct comparison *one = &all[i];
        if (one->ours == 0 || (one->ours > less(one->sqlite, one->lmdb)) != lost)
            continue;
        printf("- %s:", one->what);
        show_ratio(one->ours / one->sqlite, "SQLite,");
        show_ratio(one->ours / one->lmdb, "LMDB: ");
        printf("%s\n", one->why);
    }
}

/* What a batch by the library's calls spends its time on. Each step and the question where its
 * write stands judge the card, as a lookup does, of which a rare term's is little else. */
static void show_parts(const struct results *r) {
    double steps = r->round[SYNCS][LIBRARY];
    printf("- a batch's parts: of its %.0f ms syncs take %.0f, the judge, twice a step, some %.0f\n",
           r->round[TIME][LIBRARY] * MS, r->round[SYNCING][LIBRARY] * MS, 2 * steps * r->open[RARE][LIBRARY] * MS);
}

static void show_reasons(const struct results *r) {
    const struct comparison all[] = {
        of("a batch", r->round[TIME], "a pass writes all blocks anew, and each step judges"),
        of("its syncs", r->round[SYNCS], "each write is on the medium before the next"),
        of("on the device", r->device, "a write of 8 or 32 bytes costs it 4 KiB"),
        of("bytes handed over", r->round[HANDED], "they write 4 KiB for each page that a record touches"),
        of("the first load", r->load, "a pass for each batch, and at most 4,096 records in one"),
        of("on the medium", r->allocated, "4 bytes a position, 8 a term, of a fixed size"),
        of("many positions", r->open[FREQUENT], "all live blocks are judged first, then it copies"),
        of("one position", r->open[RARE], "all live blocks are judged; they go down one path"),
        of("many, opened anew", r->anew[FREQUENT], "the whole file is read and judged"),
        of("one, opened anew", r->anew[RARE], "the same, where they read a few pages"),
    };
    const size_t count = sizeof all / sizeof *all;
    printf("\nWhere the card by the library loses to one or both, and why:\n");
    show_parts(r);
    show_comparisons(all, count, true);
    printf("Where it wins against both, and why:\n");
    show_comparisons(all, count, false);
}

static void show_heading(const struct results *results, const char *folder, const char *file_system) {
    /* a pass makes three writes for a block, each with its sync */
    double blocks = results->round[SYNCS][LIBRARY] / 3;
    printf("%s, file system %s, one sync of 4 KiB: %.3f ms\n", folder, file_system, results->sync * MS);
    printf("%zu pairs of %zu terms; a card of %d places of %d words, %.0f of 100 in use; %d rounds\n\n", results->pairs,
           results->terms, PLACES, BLOCK_WORDS, 100 * blocks / PLACES, ROUNDS);
}

void show_table(const struct results *results, const char *folder, const char *file_system) {
    show_heading(results, folder, file_system);
    show_figures(results);
    printf("\nProved of the card: after any calls and power cuts its index is what its history says (demand3),\n"
           "and a lookup is exact. Assumed: the file's first 32 bytes are written whole, and syncs work. The\n"
           "host program in C is tested, the compiler's back end trusted. Of SQLite and LMDB nothing is\n"
           "proved; both are tested and used very widely.\n");
    show_reasons(results);
}
