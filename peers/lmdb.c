/* The index in LMDB: a term is a key, its positions are the key's sorted duplicates of four
 * bytes each, which LMDB packs and reads by the page. A write transaction for a batch, with
 * the flags that are the default: durable. */
#include <lmdb.h>
#include <stdlib.h>

#include "peers.h"

enum { MAP_BYTES = 1 << 28, FILE_MODE = 0644 };

struct store {
    MDB_env *env;
    MDB_dbi pairs;
};

static void must(int status) {
    if (status != MDB_SUCCESS)
        give_up("LMDB", mdb_strerror(status));
}

/* Whether something was found. */
static int there(int status) {
    if (status != MDB_NOTFOUND)
        must(status);
    return status == MDB_SUCCESS;
}

static MDB_val value_of(uint32_t *word) {
    return (MDB_val){sizeof *word, word};
}

static uint32_t word_of(const MDB_val *value) {
    return *(const uint32_t *)value->mv_data;
}

/* ---- opened and closed */

static void lmdb_open(struct peer *self, bool writes) {
    static const unsigned int packed = MDB_INTEGERKEY | MDB_DUPSORT | MDB_DUPFIXED | MDB_INTEGERDUP;
    const unsigned int reads = writes ? 0 : MDB_RDONLY;
    struct store *store = calloc(1, sizeof *store);
    MDB_txn *txn;
    if (store == NULL)
        give_up("LMDB", "no memory");
    self->state = store;
    must(mdb_env_create(&store->env));
    must(mdb_env_set_mapsize(store->env, MAP_BYTES));
    must(mdb_env_open(store->env, self->files[0], MDB_NOSUBDIR | reads, FILE_MODE));
    must(mdb_txn_begin(store->env, NULL, reads, &txn));
    must(mdb_dbi_open(txn, NULL, packed | (writes ? MDB_CREATE : 0), &store->pairs));
    must(mdb_txn_commit(txn));
}

static void lmdb_close(struct peer *self) {
    struct store *store = self->state;
    mdb_env_close(store->env);
    free(store);
}

/* ---- a batch */

/* The pairs to be removed. */
static uint64_t found[PAIRS_MAX];

/* Finds the positions of a range under the term that the cursor is at; gives the number of
 * all that are found by now. */
static size_t find_range(MDB_cursor *cursor, const struct record *record, size_t count) {
    uint32_t from = record->from;
    MDB_val key;
    MDB_val position = value_of(&from);
    must(mdb_cursor_get(cursor, &key, &(MDB_val){0}, MDB_GET_CURRENT));
    uint32_t term = word_of(&key);
    int status = mdb_cursor_get(cursor, &key, &position, MDB_GET_BOTH_RANGE);
    while (there(status) && word_of(&position) <= record->to) {
        found[count++] = pair_of(term, word_of(&position));
        status = mdb_cursor_get(cursor, &key, &position, MDB_NEXT_DUP);
    }
    return count;
}

/* Finds what a removal removes, under its term or, term by term, under all. */
static size_t find_removed(MDB_cursor *cursor, const struct record *record) {
    uint32_t term = record->term;
    MDB_val key = value_of(&term);
    MDB_val position;
    if (record->kind == GI_RECORD_REMOVE)
        return there(mdb_cursor_get(cursor, &key, &position, MDB_SET)) ? find_range(cursor, record, 0) : 0;
    size_t count = 0;
    while (there(mdb_cursor_get(cursor, &key, &position, MDB_NEXT_NODUP)))
        count = find_range(cursor, record, count);
    return count;
}

static void remove_pairs(MDB_txn *txn, MDB_dbi pairs, const struct record *record) {
    MDB_cursor *cursor;
    must(mdb_cursor_open(txn, pairs, &cursor));
    size_t count = find_removed(cursor, record);
    mdb_cursor_close(cursor);
    for (size_t i = 0; i < count; i++) {
        uint32_t term = (uint32_t)(found[i] >> 32);
        uint32_t position = (uint32_t)found[i];
        must(mdb_del(txn, pairs, &(MDB_val){sizeof term, &term}, &(MDB_val){sizeof position, &position}));
    }
}

static void add_pair(MDB_txn *txn, MDB_dbi pairs, struct record record) {
    MDB_val key = value_of(&record.term);
    MDB_val position = value_of(&record.from);
    int status = mdb_put(txn, pairs, &key, &position, MDB_NODUPDATA);
    if (status != MDB_KEYEXIST)
        must(status);
}

static void lmdb_apply(struct peer *self, const struct batch *batch) {
    struct store *store = self->state;
    MDB_txn *txn;
    must(mdb_txn_begin(store->env, NULL, 0, &txn));
    for (size_t i = 0; i < batch->count; i++) {
        if (batch->records[i].kind == GI_RECORD_ADD)
            add_pair(txn, store->pairs, batch->records[i]);
        else
            remove_pairs(txn, store->pairs, &batch->records[i]);
    }
    must(mdb_txn_commit(txn));
}

/* ---- questions */

static MDB_cursor *reader(struct store *store, MDB_txn **txn) {
    MDB_cursor *cursor;
    must(mdb_txn_begin(store->env, NULL, MDB_RDONLY, txn));
    must(mdb_cursor_open(*txn, store->pairs, &cursor));
    return cursor;
}

/* Appends the positions of a page that are asked for; gives the number of all by now. */
static size_t take_page(const MDB_val *page, struct question asked, uint32_t *answer, size_t count) {
    const uint32_t *positions = page->mv_data;
    for (size_t i = 0; i < page->mv_size / sizeof *positions && positions[i] <= asked.to; i++)
        if (positions[i] >= asked.from)
            answer[count++] = positions[i];
    return count;
}

/* From the page of the first position on, page by page. A term's only position has no page. */
static size_t lmdb_lookup(struct peer *self, struct question asked, uint32_t *answer) {
    MDB_txn *txn;
    MDB_cursor *cursor = reader(self->state, &txn);
    MDB_val key = value_of(&asked.term);
    MDB_val page = value_of(&asked.from);
    size_t count = 0;
    int status = mdb_cursor_get(cursor, &key, &page, MDB_GET_BOTH_RANGE);
    if (there(status))
        must(mdb_cursor_get(cursor, &key, &page, MDB_GET_MULTIPLE));
    while (there(status) && *(const uint32_t *)page.mv_data <= asked.to) {
        count = take_page(&page, asked, answer, count);
        status = mdb_cursor_get(cursor, &key, &page, MDB_NEXT_MULTIPLE);
    }
    mdb_cursor_close(cursor);
    mdb_txn_abort(txn);
    return count;
}

static size_t lmdb_pairs(struct peer *self, uint64_t *pairs) {
    MDB_txn *txn;
    MDB_cursor *cursor = reader(self->state, &txn);
    MDB_val key;
    MDB_val position;
    size_t count = 0;
    while (count < PAIRS_MAX && there(mdb_cursor_get(cursor, &key, &position, MDB_NEXT)))
        pairs[count++] = pair_of(word_of(&key), word_of(&position));
    mdb_cursor_close(cursor);
    mdb_txn_abort(txn);
    return count;
}

struct peer lmdb_peer = {
    .files = {"pairs.lmdb", "pairs.lmdb-lock"},
    .open = lmdb_open,
    .close = lmdb_close,
    .apply = lmdb_apply,
    .lookup = lmdb_lookup,
    .pairs = lmdb_pairs,
};
