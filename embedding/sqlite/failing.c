/* Refuses each call that changes the index in turn, in the middle of a commit. Before the database is committed the index is as it was then,
 * and behind it as an ordinary table is. It is linked with the table and the library, and with `--wrap` of the calls below. */
#include "nardsill.h"
#include "testing.h"
#include <errno.h>

static int left_until, times; /* how many calls are granted; how many are refused then */

static int is_refused(void) {
    if (!left_until) return 0;
    if (left_until > 1) return left_until--, 0;
    if (!--times) left_until = 0;
    return 1;
}

int __real_nardsill_insert(nardsill *, const void *, size_t, nardsill_row, uint64_t *);
int __real_nardsill_insert_many(nardsill *, const nardsill_entry *, size_t, size_t *);
int __real_nardsill_delete_rows(nardsill *, const nardsill_row *, size_t, nardsill_stats *);
int __real_nardsill_commit(nardsill *, uint64_t *);
int __real_nardsill_checkpoint(nardsill *, uint64_t *);
int __real_nardsill_scan_read(nardsill_scan *, nardsill_entry *, size_t, size_t *);

int __wrap_nardsill_insert(nardsill *index, const void *key, size_t len, nardsill_row row, uint64_t *action) {
    return is_refused() ? NARDSILL_INDEX_FULL : __real_nardsill_insert(index, key, len, row, action);
}

/* How many checkpoints were made, and how many before the last delete. */
static int checkpoints, checkpoints_before;

/* A batch that is refused is half in. */
int __wrap_nardsill_insert_many(nardsill *index, const nardsill_entry *entries, size_t count, size_t *done) {
    if (!is_refused()) return __real_nardsill_insert_many(index, entries, count, done);
    TRUE(!__real_nardsill_insert_many(index, entries, count / 2, done));
    return NARDSILL_INDEX_FULL;
}

/* A bulk delete that is refused has deleted some. */
int __wrap_nardsill_delete_rows(nardsill *index, const nardsill_row *rows, size_t count, nardsill_stats *stats) {
    checkpoints_before = checkpoints;
    if (!is_refused()) return __real_nardsill_delete_rows(index, rows, count, stats);
    TRUE(!__real_nardsill_delete_rows(index, rows, count / 2, stats));
    return NARDSILL_INDEX_FULL;
}

int __wrap_nardsill_commit(nardsill *index, uint64_t *actions) { return is_refused() ? NARDSILL_INDEX_FULL : __real_nardsill_commit(index, actions); }

int __wrap_nardsill_checkpoint(nardsill *index, uint64_t *actions) {
    checkpoints++;
    return is_refused() ? NARDSILL_INDEX_FULL : __real_nardsill_checkpoint(index, actions);
}

int __wrap_nardsill_scan_read(nardsill_scan *scan, nardsill_entry *out, size_t room, size_t *count) {
    *count = 0;
    return is_refused() ? NARDSILL_INDEX_FULL : __real_nardsill_scan_read(scan, out, room, count);
}

static int syncs_fail;
int __real_fdatasync(int);
int __wrap_fdatasync(int fd) {
    if (!syncs_fail) return __real_fdatasync(fd);
    errno = EIO;
    return -1;
}

#define SUM_OF(table) "select count(*), sum(block * 7 + offset * 3 + length(key)), group_concat(substr(key, 1, 1) || block % 7, '')" \
    " from (select * from " table " order by key, block, offset)"
#define SUM SUM_OF("t")

/* 300 entries of 150 rows go, 200 move, 200 come; of 100 of these the row has another entry. Of 20 rows one entry goes and another stays. */
#define CHANGES(table) "delete from " table " where block < 150; update " table " set key = key || 'y' where block >= 900;" \
    "with recursive n(i) as (select 500 union all select i + 1 from n where i < 599) insert into " table " select 'new' || i, i, 1 from n;" \
    "with recursive n(i) as (select 2000 union all select i + 1 from n where i < 2099) insert into " table " select 'new' || i, i, 1 from n;" \
    "delete from " table " where block >= 300 and block < 320 and key like 'x%'"

static char before[4096], behind[4096];

/* An index with 1,600 entries; an ordinary table tells what the changes make of it. */
static void fill(void) {
    unlink("failing.idx");
    sqlite3 *db = connect_to(":memory:");
    run(db, "create virtual table t using nardsill('failing.idx', pages=256)");
    run(db, "with recursive n(i) as (select 0 union all select i + 1 from n where i < 999)"
            "insert into t select printf('%04d', i * 7919 % 1000), i, 1 from n union all select 'x' || i, i, 1 from n where i < 600");
    run(db, "create table o(key text, block integer, offset integer); insert into o select key, block, offset from t");
    strcpy(before, rows_of(db, SUM_OF("o")));
    run(db, CHANGES("o"));
    strcpy(behind, rows_of(db, SUM_OF("o")));
    TRUE(!sqlite3_close(db));
}

/* Behind a commit that went well: what was refused then is told by the next use while it is refused, and done once it isn't. */
static void look_behind(sqlite3 *db) {
    if (left_until) refuses(db, "select * from t", SQLITE_FULL, "IndexFull");
    TRUE(!left_until);
    ROWS(db, SUM, behind);
}

/* Makes the call fail that is the nth of a commit, so many times. Tells whether it has; and whether the database was committed then. Behind it
 * the table is used, or the connection closed at once: then the closing does what is owed. */
static int try(int nth, int so_often, int is_closed, int *committed) {
    fill();
    sqlite3 *db = connect_to(":memory:");
    run(db, "create virtual table t using nardsill('failing.idx')");
    ROWS(db, SUM, before);
    run(db, "begin;" CHANGES("t"));
    left_until = nth;
    times = so_often;
    char *error = 0;
    int status = sqlite3_exec(db, "commit", 0, 0, &error), was_refused = !left_until || times < so_often;
    *committed = !status;
    TRUE(!status || (was_refused && status == SQLITE_FULL && strstr(error, "IndexFull")));
    TRUE(sqlite3_get_autocommit(db));
    if (status || !was_refused) left_until = 0;
    if (is_closed) left_until = 0;
    else if (status) ROWS(db, SUM, before);
    else look_behind(db);
    sqlite3_free(error);
    TRUE(!sqlite3_close(db));
    db = connect_to(":memory:");
    ROWS(db, "select nardsill_check('failing.idx') like 'ok %'", "1");
    run(db, "create virtual table t using nardsill('failing.idx')");
    ROWS(db, SUM, status ? before : behind);
    TRUE(!sqlite3_close(db));
    return was_refused;
}

static void try_each(int so_often) {
    int nth = 0, committed = 0, before_it = 0;
    while (try(++nth, so_often, 0, &committed)) before_it += !committed;
    TRUE(before_it > 10 && nth - 1 - before_it == 2);
    for (int i = 1; i <= 2; i++) TRUE(try(before_it + i, 1, 1, &committed) && committed);
    printf("failing: %d calls before the database's commit, 2 behind it, each refused %d times: the index is as it must be\n", before_it, so_often);
}

/* A sync that fails stops the index. The connection is closed and opened again: then the index is sound. */
static void fail_sync(void) {
    fill();
    sqlite3 *db = connect_to(":memory:");
    run(db, "create virtual table t using nardsill('failing.idx')");
    run(db, "begin;" CHANGES("t"));
    syncs_fail = 1;
    refuses(db, "commit", SQLITE_IOERR, "The index may hold a part of the transaction");
    syncs_fail = 0;
    TRUE(sqlite3_get_autocommit(db));
    refuses(db, "select * from t", SQLITE_IOERR, "close it and open it again (Stopped)");
    refuses(db, "insert into t values ('a', 1, 1)", SQLITE_IOERR, "(Stopped)");
    TRUE(!sqlite3_close(db));
    db = connect_to(":memory:");
    ROWS(db, "select nardsill_check('failing.idx') like 'ok %'", "1");
    run(db, "create virtual table t using nardsill('failing.idx'); delete from t");
    TRUE(!sqlite3_close(db));
    puts("failing: a sync that fails is told, and the index is sound when it is opened again");
}

/* The rows that go are deleted behind the database's commit. If that fails, the next use says so. */
static void fail_sync_behind(void) {
    fill();
    sqlite3 *db = connect_to(":memory:");
    run(db, "create virtual table t using nardsill('failing.idx'); begin; delete from t where block < 150");
    syncs_fail = 1;
    run(db, "commit");
    syncs_fail = 0;
    refuses(db, "select * from t", SQLITE_IOERR, "close it and open it again (Stopped)");
    run(db, "drop table t");
    TRUE(!sqlite3_close(db));
    db = connect_to(":memory:");
    ROWS(db, "select nardsill_check('failing.idx') like 'ok %'", "1");
    TRUE(!sqlite3_close(db));
    puts("failing: a sync that fails behind the commit is told by the next use");
}

static int refuse_commit(void *unused) {
    (void)unused;
    checkpoints = checkpoints_before = 0;
    return 1;
}

/* An undoing that deletes entries which nobody named, to put them back, has the log's whole room: a checkpoint goes before. */
static void empty_log(void) {
    fill();
    sqlite3 *db = connect_to(":memory:");
    run(db, "create virtual table t using nardsill('failing.idx')");
    sqlite3_commit_hook(db, refuse_commit, 0);
    refuses(db, "insert into t values ('new', 20, 1), ('new', 30, 1)", SQLITE_CONSTRAINT, "");
    TRUE(checkpoints == 1 && checkpoints_before == 1);
    ROWS(db, SUM, before);
    refuses(db, "update t set key = 'new' where block = 700", SQLITE_CONSTRAINT, "");
    TRUE(checkpoints == 1 && checkpoints_before == 1);
    ROWS(db, SUM, before);
    refuses(db, "insert into t values ('new', 5000, 1)", SQLITE_CONSTRAINT, "");
    TRUE(checkpoints == 0);
    ROWS(db, SUM, before);
    TRUE(!sqlite3_close(db));
}

int main(void) {
    empty_log();
    try_each(1);
    try_each(2);
    fail_sync();
    fail_sync_behind();
    return 0;
}
