/* Refuses each allocation of SQLite and of the table in turn. A statement that is refused for that has changed nothing. */
#include "testing.h"

static sqlite3_mem_methods plain;
static int left_until, refused; /* how many allocations are granted until one is refused; 0 if none is to be */

static int is_refused(void) {
    if (!left_until || --left_until) return 0;
    refused = 1;
    return 1;
}
static void *allocate(int size) { return is_refused() ? 0 : plain.xMalloc(size); }
static void *reallocate(void *at, int size) { return is_refused() ? 0 : plain.xRealloc(at, size); }

static void take_over(void) {
    TRUE(!sqlite3_config(SQLITE_CONFIG_GETMALLOC, &plain));
    sqlite3_mem_methods mine = plain;
    mine.xMalloc = allocate;
    mine.xRealloc = reallocate;
    TRUE(!sqlite3_config(SQLITE_CONFIG_MALLOC, &mine));
}

#define ALL_OF_T "select group_concat(key || '.' || block || '.' || offset) from (select * from t order by key, block, offset)"
static const char committed[] = "a.1.1,b.1.1,c.2.1";

static sqlite3 *db;

/* What a transaction does before the statement that is tried, and what the table has then. */
static const char *more = "", *before = "a.1.1,b.1.1,c.2.1,e.4.1,f.4.2";

/* A transaction that has changed something. */
static void begin_case(void) {
    db = connect_to(":memory:");
    run(db, "create virtual table t using nardsill('memory.idx', pages=32)");
    run(db, "delete from t; insert into t values ('a', 1, 1), ('b', 1, 1), ('c', 2, 1)");
    run(db, "begin; insert into t values ('d', 3, 1); savepoint s; insert into t values ('e', 4, 1), ('f', 4, 2); delete from t where key = 'd'");
    run(db, more);
}

/* Runs the statement with the nth allocation refused; tells whether one was. */
static int try(const char *statement, int nth, char *after) {
    begin_case();
    ROWS(db, ALL_OF_T, before);
    refused = 0;
    left_until = nth;
    int status = sqlite3_exec(db, statement, 0, 0, 0);
    left_until = 0;
    TRUE(!status || status == SQLITE_NOMEM);
    const char *now = rows_of(db, ALL_OF_T);
    if (!status && !*after) strcpy(after, now);
    const char *want = !status ? after : sqlite3_get_autocommit(db) ? committed : before;
    if (strcmp(now, want)) fprintf(stderr, "%s, allocation %d: %d: %s, not %s\n", statement, nth, status, now, want), exit(1);
    int is_open = !sqlite3_get_autocommit(db);
    if (is_open) run(db, "rollback");
    if (is_open) ROWS(db, ALL_OF_T, committed);
    TRUE(!sqlite3_close(db));
    return refused;
}

static void try_each(const char *statement) {
    char after[1000] = "";
    int nth = 0;
    try(statement, 0, after);
    while (try(statement, ++nth, after)) continue;
    printf("%d allocations: %s%s\n", nth - 1, more, statement);
}

/* A connection that is refused leaves the file to the next one. */
static void try_connecting(void) {
    int nth = 0;
    do {
        db = connect_to("memory.db");
        run(db, "create virtual table if not exists t using nardsill('memory.idx')");
        TRUE(!sqlite3_close(db));
        db = connect_to("memory.db");
        refused = 0;
        left_until = ++nth;
        int status = sqlite3_exec(db, "select count(*) from t", 0, 0, 0);
        left_until = 0;
        TRUE(!status || status == SQLITE_NOMEM);
        TRUE(!sqlite3_exec(db, "select count(*) from t", 0, 0, 0));
        TRUE(!sqlite3_close(db));
    } while (refused);
    printf("%d allocations: connecting\n", nth - 1);
}

int main(void) {
    take_over();
    unlink("memory.idx");
    unlink("memory.db");
    try_each("insert into t values ('g', 5, 1)");
    try_each("insert into t select key || 'x', block + 10, offset from t");
    try_each("insert or replace into t values ('a', 1, 1), ('h', 5, 1)");
    try_each("update t set block = block + 5");
    try_each("delete from t where key < 'c'");
    try_each("select * from t where key in ('a', 'e', 'c') order by key");
    try_each("savepoint r");
    try_each("rollback to s");
    try_each("release s");
    try_each("commit");
    /* Rows that go whole, and rows of which an entry goes and another comes or stays. */
    more = "delete from t where block = 1;";
    before = "c.2.1,e.4.1,f.4.2";
    try_each("commit");
    more = "delete from t where key = 'b'; update t set key = key || 'x' where block = 2;";
    before = "a.1.1,cx.2.1,e.4.1,f.4.2";
    try_each("commit");
    more = "";
    before = "a.1.1,b.1.1,c.2.1,e.4.1,f.4.2";
    try_each("rollback");
    try_connecting();
    return 0;
}
