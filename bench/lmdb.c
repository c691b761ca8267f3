// LMDB on the same stream: an entry for each slot, one LMDB transaction for each transaction. No sync, the map written in place, the
// file on a memory file system, no locks for other processes. A map that is written in place hides its stores: with a second argument
// the pages are written by system calls, and counted.
#include "stream.h"
#include <lmdb.h>
#include <string.h>
#include <unistd.h>

static uint64_t memory[8192];
static unsigned flags = MDB_NOSUBDIR | MDB_NOSYNC | MDB_NOMETASYNC | MDB_NOLOCK | MDB_NOTLS;
static MDB_env *env;
static MDB_dbi db;

static inline void ok(int code) {
    if (code) die(mdb_strerror(code));
}

static void open_store(const char *path) {
    MDB_txn *txn;
    ok(mdb_env_create(&env));
    ok(mdb_env_set_mapsize(env, 64 << 20));
    ok(mdb_env_open(env, path, flags, 0600));
    ok(mdb_txn_begin(env, NULL, 0, &txn));
    ok(mdb_dbi_open(txn, NULL, MDB_INTEGERKEY | MDB_CREATE, &db));
    ok(mdb_txn_commit(txn));
}

static inline void put(MDB_txn *txn, uint64_t id, uint64_t *value, uint64_t width) {
    MDB_val key = {sizeof id, &id}, data = {8 * width, value};
    ok(mdb_put(txn, db, &key, &data, 0));
}

static void format(plan p) {
    uint64_t zero[32] = {0};
    MDB_txn *txn;
    ok(mdb_txn_begin(env, NULL, 0, &txn));
    for (uint64_t id = 0; id < p.pages * p.slots; id++) put(txn, id, zero, p.width);
    ok(mdb_txn_commit(txn));
}

// Reads every slot, in the order of the page memory.
static void load(plan p) {
    uint64_t *target = memory;
    MDB_txn *txn;
    MDB_cursor *cursor;
    MDB_val key, data;
    ok(mdb_txn_begin(env, NULL, MDB_RDONLY, &txn));
    ok(mdb_cursor_open(txn, db, &cursor));
    for (; mdb_cursor_get(cursor, &key, &data, MDB_NEXT) == 0; target += p.width) memcpy(target, data.mv_data, 8 * p.width);
    mdb_cursor_close(cursor);
    mdb_txn_abort(txn);
}

int main(int count, char **argument) {
    if (count < 2) die("usage: lmdb FILE [written]");
    if (count == 2) flags |= MDB_WRITEMAP | MDB_MAPASYNC;
    plan p = read_plan();
    unlink(argument[1]);
    open_store(argument[1]);
    format(p);
    uint64_t r = SEED, aborts = 0, value[32], written = written_bytes();
    for (uint64_t i = 0; i < p.transactions; i++) {
        MDB_txn *txn;
        r = next(r);
        bool aborting = r % ABORTS == 0;
        ok(mdb_txn_begin(env, NULL, 0, &txn));
        for (int k = 0; k < UPDATES; k++) {
            r = next(r);
            spread(value, p.width, r);
            put(txn, pick(r >> 32, p.pages) * p.slots + pick(r, p.slots), value, p.width);
        }
        r = next(r);
        if (aborting) mdb_txn_abort(txn), aborts++;
        else ok(mdb_txn_commit(txn));
    }
    line("transactions", p.transactions);
    line("aborts", aborts);
    if (count > 2) line("stores", (written_bytes() - written) / 8);
    load(p);
    line("before", digest(memory, p.pages * p.slots * p.width));
    for (uint64_t i = 0; i < p.restarts; i++) {
        mdb_env_close(env);
        open_store(argument[1]);
        load(p);
    }
    if (p.restarts) line("after", digest(memory, p.pages * p.slots * p.width));
    mdb_env_close(env);
    line("file", file_bytes(argument[1]));
    unlink(argument[1]);
}
