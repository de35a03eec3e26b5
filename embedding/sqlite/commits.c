/* Commits that fail, and what stands open while one is made. Each case shows that the index has all of a transaction, or nothing. */
#include "testing.h"
#include <signal.h>
#include <sys/wait.h>

static sqlite3 *db;

/* A connection to a database with an ordinary table and an index: three entries of two rows. */
static void begin_case(const char *arguments) {
    unlink("commits.db");
    unlink("commits.db-journal");
    unlink("commits.idx");
    db = connect_to("commits.db");
    char *make = sqlite3_mprintf("create virtual table t using nardsill('commits.idx'%s); create table o(a)", arguments);
    run(db, make);
    sqlite3_free(make);
    run(db, "insert into t values ('a', 1, 1), ('b', 1, 1), ('c', 2, 1)");
}

#define BEFORE "a|1|1,b|1|1,c|2|1"
#define ALL_OF_T "select * from t order by key, block, offset"

/* Opens the index anew, looks at its entries, and has them judged. */
static void end_case(const char *want) {
    ROWS(db, ALL_OF_T, want);
    TRUE(!sqlite3_close(db));
    db = connect_to("commits.db");
    ROWS(db, ALL_OF_T, want);
    TRUE(!sqlite3_close(db));
    db = connect_to("commits.db");
    ROWS(db, "select nardsill_check('commits.idx') like 'ok %'", "1");
    TRUE(!sqlite3_close(db));
}

/* It removes row 1 with both of its entries, moves one, and adds an entry to a row that keeps another. */
static const char changes[] = "insert into o values (1); delete from t where block = 1; update t set key = 'cc' where key = 'c';"
                              "insert into t values ('d', 2, 1), ('e', 3, 1), ('a', 4, 1)";
#define AFTER "a|4|1,cc|2|1,d|2|1,e|3|1"

/* Another connection reads: so the ordinary table can't be committed, after the index was. */
static sqlite3 *begin_other(sqlite3_stmt **reading) {
    sqlite3 *other;
    TRUE(!sqlite3_open("commits.db", &other));
    TRUE(!sqlite3_prepare_v2(other, "select * from o union all select 1", -1, reading, 0));
    TRUE(sqlite3_step(*reading) == SQLITE_ROW);
    return other;
}

static void end_other(sqlite3 *other, sqlite3_stmt *reading) {
    sqlite3_finalize(reading);
    TRUE(!sqlite3_close(other));
}

static void busy_then(const char *statement, const char *want) {
    sqlite3_stmt *reading;
    begin_case("");
    sqlite3 *other = begin_other(&reading);
    run(db, "begin");
    run(db, changes);
    refuses(db, "commit", SQLITE_BUSY, "");
    TRUE(!sqlite3_get_autocommit(db));
    ROWS(db, ALL_OF_T, AFTER);
    refuses(db, "commit", SQLITE_BUSY, "");
    end_other(other, reading);
    run(db, statement);
    if (!sqlite3_get_autocommit(db)) run(db, "commit");
    end_case(want);
}

static void busy(void) {
    busy_then("rollback", BEFORE);
    busy_then("commit", AFTER);
    busy_then("insert into t values ('f', 5, 1); commit", AFTER ",f|5|1");
    busy_then("delete from t where key = 'd'; commit", "a|4|1,cc|2|1,e|3|1");
    busy_then("insert into t values ('f', 5, 1); rollback", BEFORE);
    busy_then("savepoint s; delete from t; rollback to s; commit", AFTER);
}

static void busy_with_savepoint(void) {
    sqlite3_stmt *reading;
    begin_case("");
    sqlite3 *other = begin_other(&reading);
    run(db, "begin; insert into o values (1); insert into t values ('d', 4, 1); savepoint s");
    run(db, changes + strlen("insert into o values (1); "));
    refuses(db, "commit", SQLITE_BUSY, "");
    run(db, "rollback to s");
    ROWS(db, ALL_OF_T, BEFORE ",d|4|1");
    end_other(other, reading);
    run(db, "commit");
    end_case(BEFORE ",d|4|1");
}

/* A process that is killed: what was committed is there, and what was taken back isn't. */
static void killed(void) {
    for (int is_taken_back = 0; is_taken_back < 2; is_taken_back++) {
        begin_case("");
        TRUE(!sqlite3_close(db));
        int status;
        pid_t child = fork();
        if (!child) {
            sqlite3_stmt *reading;
            db = connect_to("commits.db");
            if (is_taken_back) begin_other(&reading);
            run(db, "begin");
            run(db, changes);
            if (is_taken_back) refuses(db, "commit", SQLITE_BUSY, "");
            run(db, is_taken_back ? "rollback" : "commit");
            kill(getpid(), SIGKILL);
        }
        TRUE(waitpid(child, &status, 0) == child && WIFSIGNALED(status) && WTERMSIG(status) == SIGKILL);
        db = connect_to("commits.db");
        end_case(is_taken_back ? BEFORE : AFTER);
    }
}

static int hook_calls;
static int refuse_commit(void *unused) {
    (void)unused;
    hook_calls++;
    return 1;
}

/* A commit hook is asked after the index was committed. */
static void hook(void) {
    begin_case("");
    sqlite3_commit_hook(db, refuse_commit, 0);
    run(db, "begin");
    run(db, changes);
    refuses(db, "commit", SQLITE_CONSTRAINT, "");
    TRUE(sqlite3_get_autocommit(db));
    refuses(db, "insert into t values ('f', 9, 1)", SQLITE_CONSTRAINT, "");
    TRUE(hook_calls == 2);
    sqlite3_commit_hook(db, 0, 0);
    end_case(BEFORE);
}

/* A foreign key is looked at before the index is: the transaction stays open. */
static void foreign_key(void) {
    begin_case("");
    run(db, "pragma foreign_keys = on; create table p(id integer primary key);"
            "create table q(id references p deferrable initially deferred)");
    run(db, "begin; insert into q values (7)");
    run(db, changes);
    refuses(db, "commit", SQLITE_CONSTRAINT, "FOREIGN KEY");
    TRUE(!sqlite3_get_autocommit(db));
    ROWS(db, ALL_OF_T, AFTER);
    run(db, "insert into p values (7); commit");
    end_case(AFTER);
}

/* The second index of a transaction refuses: so the first is as it was. */
static void two_indexes(void) {
    unlink("second.idx");
    begin_case("");
    run(db, "create virtual table u using nardsill('second.idx', pages=8); insert into u values ('x', 1, 1), ('y', 1, 1)");
    run(db, "begin");
    run(db, changes);
    run(db, "with recursive n(i) as (select 1 union all select i + 1 from n where i < 3000) insert into u select printf('k%06d', i), i + 100, 1 from n");
    refuses(db, "commit", SQLITE_FULL, "second.idx: ");
    TRUE(sqlite3_get_autocommit(db));
    ROWS(db, "select * from u", "x|1|1,y|1|1");
    run(db, "drop table u");
    end_case(BEFORE);
}

/* The index has no room for all: it keeps none. */
static void full(void) {
    begin_case(", pages=8");
    run(db, "begin");
    run(db, changes);
    run(db, "with recursive n(i) as (select 1 union all select i + 1 from n where i < 3000)"
            "insert into t select printf('k%06d', i), i + 100, 1 from n");
    refuses(db, "commit", SQLITE_FULL, "IndexFull");
    ROWS(db, ALL_OF_T, BEFORE);
    run(db, "insert into t values ('d', 4, 1)");
    end_case(BEFORE ",d|4|1");
}

/* Rows go while a statement reads them, and none is given twice. */
static void open_cursor(void) {
    sqlite3_stmt *reading;
    begin_case("");
    run(db, "with recursive n(i) as (select 1 union all select i + 1 from n where i < 1000)"
            "insert into t select printf('k%06d', i), i + 100, 1 from n");
    TRUE(!sqlite3_prepare_v2(db, "select block from t where key > 'd'", -1, &reading, 0));
    int rows = 0, last = 0;
    while (sqlite3_step(reading) == SQLITE_ROW) {
        int block = sqlite3_column_int(reading, 0);
        TRUE(block > last);
        last = block;
        if (++rows % 10) continue;
        char text[100];
        snprintf(text, sizeof text, "delete from t where block in (%d, %d, %d)", block, block + 1, block - 1);
        run(db, text);
    }
    sqlite3_finalize(reading);
    /* Of each ten that are given, an eleventh is gone before. */
    TRUE(rows == 910);
    run(db, "delete from t where block > 100");
    end_case(BEFORE);
}

/* The same from the last key to the first: no row is given that is gone. */
static void open_cursor_backward(void) {
    sqlite3_stmt *reading;
    begin_case("");
    run(db, "with recursive n(i) as (select 1 union all select i + 1 from n where i < 1000)"
            "insert into t select printf('k%06d', i), i + 100, 1 from n; begin");
    TRUE(!sqlite3_prepare_v2(db, "select block from t where key > 'd' order by key desc", -1, &reading, 0));
    int rows = 0, last = 5000;
    while (sqlite3_step(reading) == SQLITE_ROW) {
        int block = sqlite3_column_int(reading, 0);
        TRUE(block < last && block % 10 != 9);
        last = block;
        rows++;
        char text[100];
        snprintf(text, sizeof text, "delete from t where block = %d", block / 10 * 10 - 1);
        if (block % 10 == 0) run(db, text);
    }
    sqlite3_finalize(reading);
    TRUE(rows == 900);
    run(db, "rollback; delete from t where block > 100");
    end_case(BEFORE);
}

/* More statements read than an index has scans. */
static void many_cursors(void) {
    enum { MANY = 200 };
    sqlite3_stmt *reading[MANY];
    begin_case("");
    run(db, "with recursive n(i) as (select 1 union all select i + 1 from n where i < 1000)"
            "insert into t select printf('k%06d', i), i + 100, 1 from n");
    for (int i = 0; i < MANY; i++) {
        TRUE(!sqlite3_prepare_v2(db, "select block from t", -1, &reading[i], 0));
        TRUE(sqlite3_step(reading[i]) == SQLITE_ROW);
    }
    for (int i = 0; i < MANY; i++) {
        int rows = 1;
        while (sqlite3_step(reading[i]) == SQLITE_ROW) rows++;
        TRUE(rows == 1003);
    }
    for (int i = 0; i < MANY; i++) sqlite3_finalize(reading[i]);
    run(db, "delete from t where block > 100");
    end_case(BEFORE);
}

/* A statement that reads what it writes ends. So it does if two tables have one index. */
static void itself(void) {
    begin_case("");
    run(db, "insert into t select key || 'x', block + 10, offset from t");
    ROWS(db, ALL_OF_T, "a|1|1,ax|11|1,b|1|1,bx|11|1,c|2|1,cx|12|1");
    run(db, "create virtual table u using nardsill('commits.idx')");
    run(db, "begin; insert into u select key, block + 100, offset from t where block < 500");
    ROWS(db, "select count(*) from t", "12");
    run(db, "savepoint s; delete from u where key > 'b'; insert into t values ('z', 9, 9); rollback to s");
    ROWS(db, "select count(*) from u", "12");
    run(db, "rollback; begin; insert into t values ('m', 8, 1), ('m', 9, 1); commit; begin; delete from t where block = 9");
    run(db, "insert or ignore into u select key, block + 1, offset from t where block between 8 and 30");
    ROWS(db, "select block from t where key = 'm'", "8,9");
    run(db, "delete from u where block > 2; commit; drop table u");
    end_case(BEFORE);
}

/* The table's making may be taken back by a savepoint: so are the changes. */
static void made_and_taken_back(void) {
    unlink("made.idx");
    begin_case("");
    run(db, "begin; savepoint s; create virtual table n using nardsill('made.idx'); insert into n values ('x', 1, 1)");
    run(db, "rollback to s; commit");
    run(db, "create virtual table n using nardsill('made.idx')");
    ROWS(db, "select count(*) from n", "0");
    run(db, "begin; drop table n; rollback");
    run(db, "begin; insert into n values ('x', 1, 1)");
    refuses(db, "drop table n", SQLITE_LOCKED, "");
    run(db, "commit; alter table n rename to m; insert into m values ('y', 1, 1)");
    ROWS(db, "select key from m", "x,y");
    run(db, "drop table m");
    end_case(BEFORE);
}

/* A savepoint stays open behind the way back to it. */
static void back_twice(void) {
    begin_case("");
    run(db, "begin; savepoint s; insert into t values ('x', 9, 1); rollback to s; insert into t values ('y', 9, 1); rollback to s");
    ROWS(db, ALL_OF_T, BEFORE);
    run(db, "insert into t values ('z', 9, 1); release s; rollback");
    end_case(BEFORE);
}

/* A connection that is closed in a transaction rolls it back. */
static void closed(void) {
    begin_case("");
    run(db, "begin");
    run(db, changes);
    TRUE(!sqlite3_close(db));
    db = connect_to("commits.db");
    end_case(BEFORE);
}

int main(void) {
    busy();
    busy_with_savepoint();
    killed();
    hook();
    foreign_key();
    two_indexes();
    full();
    open_cursor();
    open_cursor_backward();
    many_cursors();
    itself();
    made_and_taken_back();
    back_twice();
    closed();
    puts("commits: each is whole, or nothing of it");
    return 0;
}
