/* The work of bench/run on LMDB and on SQLite (a table without rowid, WAL, full sync).
 *
 * usage: peers lmdb|sqlite FOLDER COUNT COMMIT_EVERY ascending|shuffled insert|all
 *
 * COUNT inserts of different entries with a durable commit behind every COMMIT_EVERY, then three scans in order, the
 * last behind a checkpoint if there is one, COUNT lookups of keys in random order, the deletion of every other entry in
 * one transaction, and a check if there is one. It prints a line for each part: its name, how many entries it was for, and how many nanoseconds it took. An
 * entry is a key of 16 bytes and a row of six, the same as in bench/src/work.rt.txt. */
#include <lmdb.h>
#include <sqlite3.h>
#include <stdint.h>
#include <stdio.h>
#include <stdlib.h>
#include <string.h>
#include <time.h>

enum { KEY = 16, ENTRY = KEY + 6 };

struct work {
    const char *folder;
    uint32_t count, commit_every;
    int ascending, only_inserts;
};

static uint64_t now(void) {
    struct timespec t;
    clock_gettime(CLOCK_MONOTONIC, &t);
    return (uint64_t)t.tv_sec * 1000000000u + (uint64_t)t.tv_nsec;
}

static void need(int holds, const char *what) {
    if (!holds) {
        fprintf(stderr, "peers: %s\n", what);
        exit(1);
    }
}

static void tell(const char *name, uint32_t count, uint64_t start) {
    printf("%s %u %llu\n", name, count, (unsigned long long)(now() - start));
    fflush(stdout);
}

static void put_big(unsigned char *out, uint32_t number) {
    for (int k = 0; k < 4; k++) out[k] = (unsigned char)(number >> (24 - 8 * k));
}

static void put_little(unsigned char *out, uint64_t number) {
    for (int k = 0; k < 8; k++) out[k] = (unsigned char)(number >> (8 * k));
}

static void entry(uint32_t i, int ascending, unsigned char *out) {
    memset(out, 0, ENTRY);
    if (ascending) {
        put_big(out + 12, i);
    } else {
        uint64_t first = i * 0x9e3779b97f4a7c15ull;
        first ^= first >> 29;
        put_little(out, first);
        put_little(out + 8, first * 6364136223846793005ull + 1442695040888963407ull);
    }
    put_big(out + KEY, i);
    out[ENTRY - 1] = 1;
}

static void lmdb_insert(MDB_env *env, MDB_dbi *table, struct work w) {
    unsigned char bytes[ENTRY];
    for (uint32_t i = 0; i < w.count;) {
        MDB_txn *transaction;
        need(!mdb_txn_begin(env, 0, 0, &transaction), "begin");
        need(!mdb_dbi_open(transaction, 0, 0, table), "table");
        for (uint32_t j = 0; j < w.commit_every && i < w.count; j++, i++) {
            entry(i, w.ascending, bytes);
            MDB_val key = {ENTRY, bytes}, none = {0, ""};
            need(!mdb_put(transaction, *table, &key, &none, MDB_NOOVERWRITE), "insert");
        }
        need(!mdb_txn_commit(transaction), "commit");
    }
}

static void lmdb_scan(MDB_env *env, MDB_dbi table, uint32_t count) {
    MDB_txn *transaction;
    MDB_cursor *cursor;
    MDB_val key, value;
    uint32_t seen = 0;
    need(!mdb_txn_begin(env, 0, MDB_RDONLY, &transaction), "begin");
    need(!mdb_cursor_open(transaction, table, &cursor), "cursor");
    for (int r = mdb_cursor_get(cursor, &key, &value, MDB_FIRST); !r;
         r = mdb_cursor_get(cursor, &key, &value, MDB_NEXT))
        seen++;
    mdb_cursor_close(cursor);
    mdb_txn_abort(transaction);
    need(seen == count, "scan");
}

/* The entry that the next lookup asks for. */
static uint32_t next_one(uint32_t i, uint32_t count) {
    return (uint32_t)((i * 2654435761ull) % count);
}

/* Each looks an entry up by its key alone: the first one that begins so. */
static void lmdb_look_up(MDB_env *env, MDB_dbi table, struct work w) {
    unsigned char bytes[ENTRY];
    MDB_txn *transaction;
    MDB_cursor *cursor;
    need(!mdb_txn_begin(env, 0, MDB_RDONLY, &transaction), "begin");
    need(!mdb_cursor_open(transaction, table, &cursor), "cursor");
    for (uint32_t i = 0; i < w.count; i++) {
        entry(next_one(i, w.count), w.ascending, bytes);
        MDB_val key = {KEY, bytes}, value;
        need(!mdb_cursor_get(cursor, &key, &value, MDB_SET_RANGE) && key.mv_size == ENTRY && !memcmp(key.mv_data, bytes, ENTRY), "lookup");
    }
    mdb_cursor_close(cursor);
    mdb_txn_abort(transaction);
}

static void lmdb_delete(MDB_env *env, MDB_dbi table, struct work w) {
    unsigned char bytes[ENTRY];
    MDB_txn *transaction;
    need(!mdb_txn_begin(env, 0, 0, &transaction), "begin");
    for (uint32_t i = 1; i < w.count; i += 2) {
        entry(i, w.ascending, bytes);
        MDB_val key = {ENTRY, bytes};
        need(!mdb_del(transaction, table, &key, 0), "delete");
    }
    need(!mdb_txn_commit(transaction), "commit");
}

static void lmdb(struct work w) {
    MDB_env *env;
    MDB_dbi table;
    need(!mdb_env_create(&env), "make");
    need(!mdb_env_set_mapsize(env, 4ull << 30), "size");
    need(!mdb_env_open(env, w.folder, 0, 0644), "open");
    uint64_t start = now();
    lmdb_insert(env, &table, w);
    tell("insert", w.count, start);
    if (!w.only_inserts) {
        start = now();
        lmdb_scan(env, table, w.count);
        tell("scan", w.count, start);
        start = now();
        lmdb_scan(env, table, w.count);
        tell("scan-again", w.count, start);
        start = now();
        lmdb_scan(env, table, w.count);
        tell("scan-written", w.count, start);
        start = now();
        lmdb_look_up(env, table, w);
        tell("lookup", w.count, start);
        start = now();
        lmdb_delete(env, table, w);
        tell("delete", w.count / 2, start);
    }
    mdb_env_close(env);
}

static void run(sqlite3 *db, const char *text) {
    need(sqlite3_exec(db, text, 0, 0, 0) == SQLITE_OK, text);
}

static sqlite3_stmt *prepared(sqlite3 *db, const char *text) {
    sqlite3_stmt *statement;
    need(sqlite3_prepare_v2(db, text, -1, &statement, 0) == SQLITE_OK, text);
    return statement;
}

static void with_entry(sqlite3_stmt *statement, uint32_t i, int ascending) {
    unsigned char bytes[ENTRY];
    entry(i, ascending, bytes);
    sqlite3_bind_blob(statement, 1, bytes, ENTRY, SQLITE_STATIC);
    need(sqlite3_step(statement) == SQLITE_DONE, "step");
    sqlite3_reset(statement);
}

static void sqlite_insert(sqlite3 *db, struct work w) {
    sqlite3_stmt *insert = prepared(db, "insert into t values(?)");
    for (uint32_t i = 0; i < w.count;) {
        run(db, "begin");
        for (uint32_t j = 0; j < w.commit_every && i < w.count; j++, i++) with_entry(insert, i, w.ascending);
        run(db, "commit");
    }
    sqlite3_finalize(insert);
}

static void sqlite_scan(sqlite3 *db, uint32_t count) {
    sqlite3_stmt *scan = prepared(db, "select k from t order by k");
    uint32_t seen = 0;
    while (sqlite3_step(scan) == SQLITE_ROW) seen++;
    sqlite3_finalize(scan);
    need(seen == count, "scan");
}

static void sqlite_look_up(sqlite3 *db, struct work w) {
    unsigned char bytes[ENTRY];
    sqlite3_stmt *one = prepared(db, "select k from t where k >= ? order by k limit 1");
    for (uint32_t i = 0; i < w.count; i++) {
        entry(next_one(i, w.count), w.ascending, bytes);
        sqlite3_bind_blob(one, 1, bytes, KEY, SQLITE_STATIC);
        need(sqlite3_step(one) == SQLITE_ROW && !memcmp(sqlite3_column_blob(one, 0), bytes, ENTRY), "lookup");
        sqlite3_reset(one);
    }
    sqlite3_finalize(one);
}

static void sqlite_delete(sqlite3 *db, struct work w) {
    sqlite3_stmt *one = prepared(db, "delete from t where k = ?");
    run(db, "begin");
    for (uint32_t i = 1; i < w.count; i += 2) with_entry(one, i, w.ascending);
    run(db, "commit");
    sqlite3_finalize(one);
}

static int say_checked(void *unused, int columns, char **values, char **names) {
    (void)unused, (void)columns, (void)names;
    need(!strcmp(values[0], "ok"), "check");
    return 0;
}

static void sqlite(struct work w) {
    char path[4096];
    sqlite3 *db;
    snprintf(path, sizeof path, "%s/t.db", w.folder);
    need(sqlite3_open(path, &db) == SQLITE_OK, "open");
    run(db, "pragma journal_mode = wal; pragma synchronous = full; create table t(k blob primary key) without rowid");
    uint64_t start = now();
    sqlite_insert(db, w);
    tell("insert", w.count, start);
    if (!w.only_inserts) {
        start = now();
        sqlite_scan(db, w.count);
        tell("scan", w.count, start);
        start = now();
        sqlite_scan(db, w.count);
        tell("scan-again", w.count, start);
        run(db, "pragma wal_checkpoint(truncate)");
        start = now();
        sqlite_scan(db, w.count);
        tell("scan-written", w.count, start);
        run(db, "begin");
        start = now();
        sqlite_look_up(db, w);
        tell("lookup", w.count, start);
        run(db, "commit");
        start = now();
        sqlite_delete(db, w);
        tell("delete", w.count / 2, start);
        start = now();
        need(sqlite3_exec(db, "pragma integrity_check", say_checked, 0, 0) == SQLITE_OK, "check");
        tell("check", w.count - w.count / 2, start);
    }
    sqlite3_close(db);
}

int main(int argc, char **argv) {
    need(argc == 7, "peers lmdb|sqlite FOLDER COUNT COMMIT_EVERY ascending|shuffled insert|all");
    struct work w = {argv[2], (uint32_t)strtoul(argv[3], 0, 10), (uint32_t)strtoul(argv[4], 0, 10),
                     !strcmp(argv[5], "ascending"), !strcmp(argv[6], "insert")};
    need(w.commit_every > 0, "COMMIT_EVERY");
    if (!strcmp(argv[1], "lmdb")) lmdb(w);
    else sqlite(w);
    return 0;
}
