// SQLite on the same stream: a row for each slot, one SQLite transaction for each transaction. Journal in memory, synchronous off,
// prepared statements, the file on a memory file system, locked once for the whole run.
#include "stream.h"
#include <sqlite3.h>
#include <string.h>
#include <unistd.h>

static uint64_t memory[8192];
static sqlite3 *db;
static sqlite3_stmt *begin, *commit, *rollback, *update, *all;

static void run(const char *sql) {
    if (sqlite3_exec(db, sql, NULL, NULL, NULL) != SQLITE_OK) die(sqlite3_errmsg(db));
}

static sqlite3_stmt *prepare(const char *sql) {
    sqlite3_stmt *s;
    if (sqlite3_prepare_v3(db, sql, -1, SQLITE_PREPARE_PERSISTENT, &s, NULL) != SQLITE_OK) die(sqlite3_errmsg(db));
    return s;
}

static inline void step(sqlite3_stmt *s) {
    if (sqlite3_step(s) != SQLITE_DONE) die(sqlite3_errmsg(db));
    sqlite3_reset(s);
}

static void open_store(const char *path, bool fresh) {
    if (sqlite3_open(path, &db) != SQLITE_OK) die(sqlite3_errmsg(db));
    run("PRAGMA journal_mode=MEMORY; PRAGMA synchronous=OFF; PRAGMA locking_mode=EXCLUSIVE; PRAGMA temp_store=MEMORY");
    if (fresh) run("CREATE TABLE slot (id INTEGER PRIMARY KEY, value BLOB NOT NULL)");
    begin = prepare("BEGIN IMMEDIATE");
    commit = prepare("COMMIT");
    rollback = prepare("ROLLBACK");
    update = prepare("UPDATE slot SET value = ?2 WHERE id = ?1");
    all = prepare("SELECT value FROM slot ORDER BY id");
}

static void close_store(void) {
    sqlite3_stmt *s[] = {begin, commit, rollback, update, all};
    for (int i = 0; i < 5; i++) sqlite3_finalize(s[i]);
    if (sqlite3_close(db) != SQLITE_OK) die(sqlite3_errmsg(db));
}

static void format(plan p) {
    uint64_t zero[32] = {0};
    sqlite3_stmt *insert = prepare("INSERT INTO slot VALUES (?1, ?2)");
    step(begin);
    for (uint64_t id = 0; id < p.pages * p.slots; id++) {
        sqlite3_bind_int64(insert, 1, (sqlite3_int64)id);
        sqlite3_bind_blob(insert, 2, zero, (int)(8 * p.width), SQLITE_STATIC);
        step(insert);
    }
    step(commit);
    sqlite3_finalize(insert);
}

// Reads every slot, in the order of the page memory.
static void load(plan p) {
    uint64_t *target = memory;
    for (; sqlite3_step(all) == SQLITE_ROW; target += p.width) memcpy(target, sqlite3_column_blob(all, 0), 8 * p.width);
    sqlite3_reset(all);
}

int main(int count, char **argument) {
    if (count != 2) die("usage: sqlite FILE");
    plan p = read_plan();
    unlink(argument[1]);
    open_store(argument[1], true);
    format(p);
    uint64_t r = SEED, aborts = 0, value[32], written = written_bytes();
    for (uint64_t i = 0; i < p.transactions; i++) {
        r = next(r);
        bool aborting = r % ABORTS == 0;
        step(begin);
        for (int k = 0; k < UPDATES; k++) {
            r = next(r);
            spread(value, p.width, r);
            sqlite3_bind_int64(update, 1, (sqlite3_int64)(pick(r >> 32, p.pages) * p.slots + pick(r, p.slots)));
            sqlite3_bind_blob(update, 2, value, (int)(8 * p.width), SQLITE_STATIC);
            step(update);
        }
        r = next(r);
        step(aborting ? rollback : commit);
        aborts += aborting;
    }
    line("transactions", p.transactions);
    line("aborts", aborts);
    line("stores", (written_bytes() - written) / 8);
    load(p);
    line("before", digest(memory, p.pages * p.slots * p.width));
    for (uint64_t i = 0; i < p.restarts; i++) {
        close_store();
        open_store(argument[1], false);
        load(p);
    }
    if (p.restarts) line("after", digest(memory, p.pages * p.slots * p.width));
    close_store();
    line("file", file_bytes(argument[1]));
    unlink(argument[1]);
}
