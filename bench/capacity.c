/* How an index grows: what each part costs by how many entries there are, up to a full index of this library.
 *
 * usage: capacity nardsill|sqlite|lmdb FOLDER ascending|shuffled COUNT ..
 *        capacity NAME FOLDER rest
 *
 * It inserts entries up to each COUNT, with a durable commit behind every 10,000, closes the file, opens it again, scans it, and
 * checks it if there is a check. A line for each COUNT: how many entries there are, the nanoseconds of an insert (of the last
 * 10,000, their commit among it), of the opening, of a scan and of a check, the bytes of the file, and those in memory once it is
 * open. If this library answers that the index is full, that is the last line. `rest` opens the file and prints the last number. */
#include "nardsill.h"
#include <lmdb.h>
#include <sqlite3.h>
#include <stdint.h>
#include <stdio.h>
#include <stdlib.h>
#include <string.h>
#include <sys/stat.h>
#include <time.h>
#include <unistd.h>

enum { KEY = 16, ENTRY = KEY + 6, EVERY = 10000 };

static int is_ascending;

static uint64_t now(void) {
    struct timespec t;
    clock_gettime(CLOCK_MONOTONIC, &t);
    return (uint64_t)t.tv_sec * 1000000000u + (uint64_t)t.tv_nsec;
}

static void need(int holds, const char *what) {
    if (holds) return;
    fprintf(stderr, "capacity: %s\n", what);
    exit(1);
}

/* Sixteen bytes that tell which entry this is, as bench/peers.c makes them. */
static void key_of(uint32_t i, unsigned char *out) {
    memset(out, 0, KEY);
    if (is_ascending) {
        for (int k = 0; k < 4; k++) out[12 + k] = (unsigned char)(i >> (24 - 8 * k));
        return;
    }
    uint64_t first = i * 0x9e3779b97f4a7c15ull;
    first ^= first >> 29;
    uint64_t second = first * 6364136223846793005ull + 1442695040888963407ull;
    memcpy(out, &first, 8);
    memcpy(out + 8, &second, 8);
}

static void entry_of(uint32_t i, unsigned char *out) {
    key_of(i, out);
    for (int k = 0; k < 4; k++) out[KEY + k] = (unsigned char)(i >> (24 - 8 * k));
    out[KEY + 4] = 0;
    out[KEY + 5] = 1;
}

/* What each index does. `insert` answers 0 where it is full, and nothing was added. */
struct index {
    const char *file;
    void (*open)(const char *path);
    int (*insert)(uint32_t i);
    void (*commit)(void);
    uint64_t (*scan)(void);
    void (*check)(const char *path);
    void (*close)(void);
};

static nardsill *own;

static void open_own(const char *path) {
    nardsill_limits limits = NARDSILL_LIMITS;
    limits.pages = 65536;
    limits.log_bytes = 16777216;
    if (access(path, F_OK)) need(!nardsill_create(path, &limits), "create");
    need(!nardsill_open(path, 1024, &own), "open");
}

static int insert_own(uint32_t i) {
    unsigned char key[KEY];
    key_of(i, key);
    int status = nardsill_insert(own, key, KEY, (nardsill_row){i, 1}, 0);
    need(!status || status == NARDSILL_INDEX_FULL, "insert");
    return !status;
}

static void commit_own(void) { need(!nardsill_commit(own, 0), "commit"); }

static uint64_t scan_own(void) {
    nardsill_scan *scan;
    nardsill_entry few[256];
    uint64_t seen = 0;
    size_t n;
    int status;
    need(!nardsill_scan_open(own, 0, 0, 0, 0, &scan), "scan");
    do {
        status = nardsill_scan_read(scan, few, 256, &n);
        seen += n;
    } while (!status);
    need(status == NARDSILL_DONE, "scan");
    nardsill_scan_close(scan);
    return seen;
}

static void check_own(const char *path) {
    nardsill_report report = NARDSILL_REPORT;
    need(!nardsill_check(path, 1024, &report) && !report.damage, "check");
}

static void close_own(void) { need(!nardsill_close(own), "close"); }

static sqlite3 *db;
static sqlite3_stmt *adds;

static void run(const char *text) { need(sqlite3_exec(db, text, 0, 0, 0) == SQLITE_OK, text); }

static void open_sqlite(const char *path) {
    need(sqlite3_open(path, &db) == SQLITE_OK, "open");
    run("pragma journal_mode = wal; pragma synchronous = full; create table if not exists t(k blob primary key) without rowid; begin");
    need(sqlite3_prepare_v2(db, "insert into t values(?)", -1, &adds, 0) == SQLITE_OK, "prepare");
}

static int insert_sqlite(uint32_t i) {
    unsigned char entry[ENTRY];
    entry_of(i, entry);
    sqlite3_bind_blob(adds, 1, entry, ENTRY, SQLITE_STATIC);
    need(sqlite3_step(adds) == SQLITE_DONE, "insert");
    sqlite3_reset(adds);
    return 1;
}

static void commit_sqlite(void) { run("commit; begin"); }

static uint64_t scan_sqlite(void) {
    sqlite3_stmt *scan;
    uint64_t seen = 0;
    need(sqlite3_prepare_v2(db, "select k from t order by k", -1, &scan, 0) == SQLITE_OK, "prepare");
    while (sqlite3_step(scan) == SQLITE_ROW) seen++;
    sqlite3_finalize(scan);
    return seen;
}

static void close_sqlite(void) {
    sqlite3_finalize(adds);
    run("commit");
    need(sqlite3_close(db) == SQLITE_OK, "close");
}

static void check_sqlite(const char *path) {
    open_sqlite(path);
    run("pragma integrity_check");
    close_sqlite();
}

static MDB_env *env;
static MDB_txn *txn;
static MDB_dbi table;

static void begin_lmdb(void) {
    need(!mdb_txn_begin(env, 0, 0, &txn) && !mdb_dbi_open(txn, 0, 0, &table), "begin");
}

static void open_lmdb(const char *path) {
    need(!mdb_env_create(&env) && !mdb_env_set_mapsize(env, 4ull << 30) && !mdb_env_open(env, path, MDB_NOSUBDIR, 0644), "open");
    begin_lmdb();
}

static int insert_lmdb(uint32_t i) {
    unsigned char entry[ENTRY];
    entry_of(i, entry);
    MDB_val key = {ENTRY, entry}, nothing = {0, ""};
    need(!mdb_put(txn, table, &key, &nothing, is_ascending ? MDB_APPEND : MDB_NOOVERWRITE), "insert");
    return 1;
}

static void commit_lmdb(void) {
    need(!mdb_txn_commit(txn), "commit");
    begin_lmdb();
}

static uint64_t scan_lmdb(void) {
    MDB_cursor *cursor;
    MDB_val key, value;
    uint64_t seen = 0;
    need(!mdb_cursor_open(txn, table, &cursor), "scan");
    while (!mdb_cursor_get(cursor, &key, &value, MDB_NEXT)) seen++;
    mdb_cursor_close(cursor);
    return seen;
}

static void close_lmdb(void) {
    need(!mdb_txn_commit(txn), "commit");
    mdb_env_close(env);
}

static const struct index indexes[] = {
    {"capacity.idx", open_own, insert_own, commit_own, scan_own, check_own, close_own},
    {"capacity.db", open_sqlite, insert_sqlite, commit_sqlite, scan_sqlite, check_sqlite, close_sqlite},
    {"capacity.mdb", open_lmdb, insert_lmdb, commit_lmdb, scan_lmdb, 0, close_lmdb},
};

/* The bytes of this process that are in memory. */
static unsigned long in_memory(void) {
    unsigned long all, resident;
    FILE *file = fopen("/proc/self/statm", "r");
    need(file && fscanf(file, "%lu %lu", &all, &resident) == 2, "statm");
    fclose(file);
    return resident * (unsigned long)sysconf(_SC_PAGESIZE);
}

static unsigned long at_rest(const char *program, const char *name, const char *folder) {
    char words[9000];
    unsigned long bytes = 0;
    snprintf(words, sizeof words, "'%s' %s '%s' rest", program, name, folder);
    FILE *told = popen(words, "r");
    need(told && fscanf(told, "%lu", &bytes) == 1 && !pclose(told), "rest");
    return bytes;
}

/* Inserts up to so many. Answers how many there are then; the time of an insert is that of the last 10,000. */
static uint32_t fill(const struct index *index, uint32_t from, uint32_t to, uint64_t *nanos) {
    uint64_t start = now();
    for (uint32_t i = from; i < to; i++) {
        if (i == to - EVERY) start = now();
        if (!index->insert(i)) {
            *nanos = 0;
            return i;
        }
        if (i % EVERY == EVERY - 1) index->commit();
    }
    *nanos = (now() - start) / (to - from < EVERY ? to - from : EVERY);
    return to;
}

int main(int argc, char **argv) {
    need(argc > 3, "usage: capacity nardsill|sqlite|lmdb FOLDER ascending|shuffled COUNT ..");
    const struct index *index = indexes + (!strcmp(argv[1], "sqlite") ? 1 : !strcmp(argv[1], "lmdb") ? 2 : 0);
    char path[5000];
    struct stat file;
    snprintf(path, sizeof path, "%s/%s", argv[2], index->file);
    if (!strcmp(argv[3], "rest")) {
        unsigned long before = in_memory();
        index->open(path);
        printf("%lu\n", in_memory() - before);
        index->close();
        return 0;
    }
    is_ascending = !strcmp(argv[3], "ascending");
    index->open(path);
    uint32_t count = 0;
    for (int k = 4; k < argc; k++) {
        uint32_t to = (uint32_t)strtoul(argv[k], 0, 10);
        uint64_t insert, open, scan, check = 0;
        count = fill(index, count, to, &insert);
        index->commit();
        index->close();
        unsigned long rest = at_rest(argv[0], argv[1], argv[2]);
        open = now();
        index->open(path);
        open = now() - open;
        scan = now();
        need(index->scan() == count, "a scan gives another number");
        scan = now() - scan;
        index->close();
        if (index->check) {
            check = now();
            index->check(path);
            check = now() - check;
        }
        need(!stat(path, &file), "stat");
        printf("%u %llu %llu %llu %llu %llu %lu\n", count, (unsigned long long)insert, (unsigned long long)open, (unsigned long long)scan,
               (unsigned long long)check, (unsigned long long)file.st_size, rest);
        fflush(stdout);
        if (count < to) return 0;
        index->open(path);
    }
    index->close();
    return 0;
}
