/* The index in SQLite: a table of pairs that is its own B-tree, a transaction for a batch,
 * synchronous FULL; with a rollback journal, and with a write-ahead log, whose checkpoints
 * come by themselves within a commit, as is the default. FULL does not sync the folder after
 * a rollback journal is removed: a cut just then can undo the last batch; EXTRA, one sync
 * more, would. The removal of a range under every term goes over the whole table: it has no
 * second index, by position. */
#include <sqlite3.h>
#include <stdio.h>
#include <stdlib.h>

#include "peers.h"

enum { ADD, REMOVE, ANNUL, LOOKUP, ALL, BEGIN, COMMIT, STATEMENTS };

static const char *const texts[STATEMENTS] = {
    [ADD] = "INSERT OR IGNORE INTO pair VALUES (?1, ?2)",
    [REMOVE] = "DELETE FROM pair WHERE term = ?1 AND position BETWEEN ?2 AND ?3",
    [ANNUL] = "DELETE FROM pair WHERE position BETWEEN ?2 AND ?3",
    [LOOKUP] = "SELECT position FROM pair WHERE term = ?1 AND position BETWEEN ?2 AND ?3 ORDER BY position",
    [ALL] = "SELECT term, position FROM pair ORDER BY term, position",
    [BEGIN] = "BEGIN IMMEDIATE",
    [COMMIT] = "COMMIT",
};

struct database {
    sqlite3 *file;
    sqlite3_stmt *statements[STATEMENTS];
};

static void must(struct database *database, int status, int wanted) {
    if (status != wanted)
        give_up("SQLite", sqlite3_errmsg(database->file));
}

/* ---- opened and closed */

/* Has a new table, or the one that is there, and the journal mode. */
static void prepare_to_write(struct database *database, const char *mode) {
    char text[200];
    snprintf(text, sizeof text,
             "PRAGMA journal_mode=%s; PRAGMA synchronous=FULL;"
             "CREATE TABLE IF NOT EXISTS pair"
             "(term INTEGER, position INTEGER, PRIMARY KEY (term, position)) WITHOUT ROWID",
             mode);
    must(database, sqlite3_exec(database->file, text, NULL, NULL, NULL), SQLITE_OK);
}

static void sqlite_open(struct peer *self, bool writes) {
    int flags = writes ? SQLITE_OPEN_READWRITE | SQLITE_OPEN_CREATE : SQLITE_OPEN_READONLY;
    struct database *database = calloc(1, sizeof *database);
    if (database == NULL)
        give_up("SQLite", "no memory");
    self->state = database;
    must(database, sqlite3_open_v2(self->files[0], &database->file, flags, NULL), SQLITE_OK);
    if (writes)
        prepare_to_write(database, self->how);
}

/* A statement, prepared when it is first asked for. */
static sqlite3_stmt *prepared(struct database *database, int which) {
    sqlite3_stmt **statement = &database->statements[which];
    if (*statement == NULL)
        must(database, sqlite3_prepare_v2(database->file, texts[which], -1, statement, NULL), SQLITE_OK);
    return *statement;
}

static void sqlite_close(struct peer *self) {
    struct database *database = self->state;
    for (int i = 0; i < STATEMENTS; i++)
        sqlite3_finalize(database->statements[i]);
    must(database, sqlite3_close(database->file), SQLITE_OK);
    free(database);
}

/* ---- a batch */

/* Has a statement ask for a term and a range; for an addition, the range's start. */
static sqlite3_stmt *bound(struct database *database, int which, uint32_t term, uint32_t from, uint32_t to) {
    sqlite3_stmt *statement = prepared(database, which);
    int words = sqlite3_bind_parameter_count(statement);
    if (which != ANNUL)
        must(database, sqlite3_bind_int64(statement, 1, term), SQLITE_OK);
    must(database, sqlite3_bind_int64(statement, 2, from), SQLITE_OK);
    if (words == 3)
        must(database, sqlite3_bind_int64(statement, 3, to), SQLITE_OK);
    return statement;
}

static void run(struct database *database, sqlite3_stmt *statement) {
    must(database, sqlite3_step(statement), SQLITE_DONE);
    must(database, sqlite3_reset(statement), SQLITE_OK);
}

static void sqlite_apply(struct peer *self, const struct batch *batch) {
    static const int of_kind[] = {[GI_RECORD_ADD] = ADD, [GI_RECORD_REMOVE] = REMOVE, [GI_RECORD_ANNUL] = ANNUL};
    struct database *database = self->state;
    run(database, prepared(database, BEGIN));
    for (size_t i = 0; i < batch->count; i++) {
        const struct record *record = &batch->records[i];
        run(database, bound(database, of_kind[record->kind], record->term, record->from, record->to));
    }
    run(database, prepared(database, COMMIT));
}

/* ---- questions */

static size_t sqlite_lookup(struct peer *self, struct question asked, uint32_t *answer) {
    struct database *database = self->state;
    sqlite3_stmt *statement = bound(database, LOOKUP, asked.term, asked.from, asked.to);
    size_t count = 0;
    while (sqlite3_step(statement) == SQLITE_ROW)
        answer[count++] = (uint32_t)sqlite3_column_int64(statement, 0);
    must(database, sqlite3_reset(statement), SQLITE_OK);
    return count;
}

static size_t sqlite_pairs(struct peer *self, uint64_t *pairs) {
    struct database *database = self->state;
    sqlite3_stmt *statement = prepared(database, ALL);
    size_t count = 0;
    while (sqlite3_step(statement) == SQLITE_ROW && count < PAIRS_MAX)
        pairs[count++] =
            pair_of((uint32_t)sqlite3_column_int64(statement, 0), (uint32_t)sqlite3_column_int64(statement, 1));
    must(database, sqlite3_reset(statement), SQLITE_OK);
    return count;
}

struct peer rollback_peer = {
    .files = {"rollback.sqlite", "rollback.sqlite-journal"},
    .how = "DELETE",
    .open = sqlite_open,
    .close = sqlite_close,
    .apply = sqlite_apply,
    .lookup = sqlite_lookup,
    .pairs = sqlite_pairs,
};

struct peer wal_peer = {
    .files = {"wal.sqlite", "wal.sqlite-wal", "wal.sqlite-shm"},
    .how = "WAL",
    .open = sqlite_open,
    .close = sqlite_close,
    .apply = sqlite_apply,
    .lookup = sqlite_lookup,
    .pairs = sqlite_pairs,
};
