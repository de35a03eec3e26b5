/* Where a table's file is looked for, and what is said where it isn't. Runs in an empty folder. */
#include "testing.h"
#include <sys/stat.h>

#ifndef SQLITE_CORE
static void take_module_along(void) { TRUE(!system("cp ../nardsill_table.so .")); }
#else
static void take_module_along(void) {}
#endif

static int is_there(const char *path) {
    struct stat file;
    return !stat(path, &file);
}

/* Makes the database and the index below one folder. */
static void make(void) {
    TRUE(!mkdir("below", 0777) && !mkdir("else", 0777));
    sqlite3 *db = connect_to("below/mail.db");
    run(db, "create virtual table t using nardsill('mail.idx'); insert into t values ('a', 1, 1)");
    TRUE(is_there("below/mail.idx") && !is_there("mail.idx"));
    run(db, "create virtual table quoted using nardsill('it''s.idx', unique=1); drop table quoted");
    TRUE(is_there("below/it's.idx"));
    run(db, "create virtual table bare using nardsill([the other].idx)");
    TRUE(is_there("below/[the other].idx"));
    run(db, "create virtual table bracketed using nardsill([an other.idx])");
    TRUE(is_there("below/an other.idx"));
    run(db, "create virtual table \"a \"\"b\" using nardsill(\"double \"\"quotes\"\".idx\")");
    TRUE(is_there("below/double \"quotes\".idx"));
    sqlite3_close(db);
}

/* The database is opened from another folder, and attached to another one. */
static void from_elsewhere(void) {
    TRUE(!chdir("else"));
    take_module_along();
    sqlite3 *db = connect_to("../below/mail.db");
    ROWS(db, "select key from t", "a");
    sqlite3 *second = connect_to("../below/mail.db");
    refuses(second, "select * from t", SQLITE_BUSY, "below/mail.idx: another handle has the file (Locked)");
    ROWS(second, "select nardsill_check('mail.idx')", "refused 102 Locked");
    TRUE(!sqlite3_close(second));
    TRUE(!sqlite3_close(db));
    db = connect_to("here.db");
    run(db, "attach '../below/mail.db' as mail; insert into mail.t values ('b', 2, 1)");
    run(db, "create virtual table mail.u using nardsill('u.idx')");
    TRUE(is_there("../below/u.idx") && !is_there("u.idx") && !is_there("mail.idx"));
    TRUE(!sqlite3_close(db));
    db = connect_to("../below/mail.db");
    ROWS(db, "select nardsill_check('mail.idx') like 'ok % entries=2 %'", "1");
    TRUE(!sqlite3_close(db));
}

/* An in-memory or a temporary table's file is in the working directory. */
static void without_folder(void) {
    sqlite3 *db = connect_to(":memory:");
    run(db, "create virtual table t using nardsill('memory.idx'); create virtual table temp.u using nardsill('temp.idx')");
    TRUE(is_there("memory.idx") && is_there("temp.idx"));
    refuses(db, "create virtual table v using nardsill('no folder/v.idx')", SQLITE_CANTOPEN, "/else/no folder/v.idx: ");
    TRUE(!sqlite3_close(db));
}

/* A table whose file is gone isn't given an empty one. */
static void missing(void) {
    TRUE(!rename("../below/mail.idx", "../below/moved.idx"));
    sqlite3 *db = connect_to("../below/mail.db");
    refuses(db, "select * from t", SQLITE_CANTOPEN, "/below/mail.idx: ");
    refuses(db, "select * from t", SQLITE_CANTOPEN, "No such file or directory");
    refuses(db, "insert into t values ('c', 3, 1)", SQLITE_CANTOPEN, "No such file or directory");
    TRUE(!is_there("../below/mail.idx"));
    TRUE(!mkdir("../below/mail.idx", 0777));
    refuses(db, "select * from t", SQLITE_CANTOPEN, "Is a directory");
    refuses(db, "create virtual table v using nardsill('mail.idx')", SQLITE_CANTOPEN, "Is a directory");
    TRUE(!rmdir("../below/mail.idx"));
    FILE *file = fopen("../below/mail.idx", "w");
    for (int i = 0; i < 100000; i++) fputc('x', file);
    fclose(file);
    refuses(db, "select * from t", SQLITE_NOTADB, "/below/mail.idx: ");
    TRUE(!rename("../below/moved.idx", "../below/mail.idx"));
    ROWS(db, "select key from t", "a,b");
    TRUE(!sqlite3_close(db));
}

/* A database whose texts are UTF-16 has tables of blobs. */
static void encoding(void) {
    sqlite3 *db = connect_to(":memory:");
    run(db, "pragma encoding = 'UTF-16'");
    refuses(db, "create virtual table v using nardsill('utf16.idx')", SQLITE_ERROR, "isn't UTF-8: use key=blob");
    TRUE(!is_there("utf16.idx"));
    run(db, "create virtual table v using nardsill('utf16.idx', key=blob); insert into v values (x'6162', 1, 1)");
    ROWS(db, "select hex(key) from v where key > x'61'", "6162");
    TRUE(!sqlite3_close(db));
}

/* A table is dropped whatever is at its path, or isn't. */
static void dropped(void) {
    sqlite3 *db = connect_to("drop.db");
    run(db, "create virtual table gone using nardsill('gone.idx'); create virtual table other using nardsill('other.idx');"
            "create virtual table folder using nardsill('folder.idx'); create virtual table kept using nardsill('kept.idx')");
    run(db, "insert into kept values ('a', 1, 1)");
    TRUE(!sqlite3_close(db));
    TRUE(!unlink("gone.idx") && !unlink("folder.idx") && !mkdir("folder.idx", 0777) && !truncate("other.idx", 5000));
    db = connect_to("drop.db");
    refuses(db, "select * from other", SQLITE_NOTADB, "/other.idx: ");
    run(db, "begin; drop table gone; drop table other; drop table folder; rollback");
    refuses(db, "select * from gone", SQLITE_CANTOPEN, "/gone.idx: ");
    sqlite3 *second = connect_to("drop.db");
    run(second, "drop table gone; drop table other; drop table folder");
    ROWS(second, "select name from sqlite_schema", "kept");
    ROWS(db, "select key from kept", "a");
    refuses(second, "select key from kept", SQLITE_BUSY, "Locked");
    run(second, "drop table kept");
    refuses(db, "select key from kept", SQLITE_ERROR, "no such table");
    TRUE(is_there("kept.idx") && !is_there("gone.idx"));
    TRUE(!sqlite3_close(db) && !sqlite3_close(second));
    TRUE(!rmdir("folder.idx"));
}

/* Whether another process may write into the database. */
static int others_may_write(void) { return !system("sqlite3 real.db 'insert into o values (9)' 2>said"); }

/* A statement that names a file of this connection's databases is refused, and the locks of this process stay. */
static void refuses_file(sqlite3 *db, const char *path, const char *words) {
    char *make = sqlite3_mprintf("create virtual table v using nardsill(%Q)", path), *judge = sqlite3_mprintf("select nardsill_check(%Q)", path);
    refuses(db, make, SQLITE_CANTOPEN, words);
    TRUE(!others_may_write());
    refuses(db, judge, SQLITE_ERROR, words);
    TRUE(!others_may_write());
    sqlite3_free(make);
    sqlite3_free(judge);
}

/* A table was made whose file is a database now. It's refused as it is connected, and can be dropped. */
static void connected_to_database(void) {
    sqlite3 *db = connect_to("real.db");
    run(db, "create virtual table t using nardsill('soon.db')");
    TRUE(!sqlite3_close(db));
    TRUE(!unlink("soon.db") && !rename("second.db", "soon.db"));
    db = connect_to("soon.db");
    run(db, "attach 'real.db' as with_table; begin immediate; insert into p values (2)");
    refuses(db, "select * from with_table.t", SQLITE_CANTOPEN, "is a file of this connection's database main");
    TRUE(system("sqlite3 soon.db 'insert into p values (9)' 2>said") != 0);
    run(db, "commit; drop table with_table.t");
    TRUE(!sqlite3_close(db));
}

/* By closing such a file this process would lose SQLite's locks of it: so none is opened. */
static void database_files(void) {
    sqlite3 *db = connect_to("real.db");
    run(db, "pragma journal_mode = wal; create table o(a); attach 'second.db' as two; create table two.p(a); attach 'draft.idx.nardsill-draft' as d;"
            "create table d.q(a)");
    TRUE(!symlink("real.db", "by symlink") && !link("real.db", "by link") && is_there("real.db-wal") && is_there("real.db-shm"));
    TRUE(others_may_write());
    run(db, "begin immediate; insert into o values (1)");
    static const char *const paths[] = {"real.db", "./real.db", "../else/real.db", "by symlink", "by link", "real.db-wal", "real.db-shm",
        "real.db-journal", "../else/real.db-journal"};
    for (size_t i = 0; i < sizeof paths / sizeof *paths; i++) refuses_file(db, paths[i], "is a file of this connection's database main: ");
    refuses_file(db, "second.db", "is a file of this connection's database two: ");
    refuses_file(db, "second.db-journal", "is a file of this connection's database two: ");
    refuses(db, "create virtual table v using nardsill('draft.idx')", SQLITE_CANTOPEN, "database d: ");
    run(db, "commit; create virtual table v using nardsill('real.db.idx'); drop table v");
    TRUE(others_may_write());
    ROWS(db, "select group_concat(a) from o", "9,1,9");
    TRUE(!sqlite3_close(db));
    connected_to_database();
}

/* ---- Waiting for a file ---- */

static sqlite3 *holder, *waiter;
static int asked, ends_at, is_interrupting;

/* A waiting connection asks how long it is to wait. Then the one that has the file is closed; or the waiting one is interrupted. */
static int is_asked(void *unused, int action, const char *name, const char *argument, const char *schema, const char *trigger) {
    (void)unused, (void)argument, (void)schema, (void)trigger;
    if (action != SQLITE_PRAGMA || strcmp(name, "busy_timeout") || ++asked != ends_at) return SQLITE_OK;
    if (is_interrupting) sqlite3_interrupt(waiter);
    else TRUE(!sqlite3_close(holder));
    return SQLITE_OK;
}

static void begin_waiting(int milliseconds, int closes_at, int interrupts) {
    holder = connect_to("waits.db");
    run(holder, "create virtual table if not exists t using nardsill('waits.idx'); insert or ignore into t values ('a', 1, 1)");
    waiter = connect_to("waits.db");
    sqlite3_busy_timeout(waiter, milliseconds);
    sqlite3_set_authorizer(waiter, is_asked, 0);
    asked = 0;
    ends_at = closes_at;
    is_interrupting = interrupts;
}

static void end_waiting(int is_held) {
    TRUE(!sqlite3_close(waiter) && (!is_held || !sqlite3_close(holder)));
}

/* A file that another handle has is waited for, as long as SQLite waits for a lock. */
static void waits(void) {
    static const char *const statements[] = {"select * from t", "insert into t values ('b', 2, 1)", "delete from t where key = 'b'",
        "create virtual table u using nardsill('waits.idx'); drop table u"};
    for (size_t i = 0; i < sizeof statements / sizeof *statements; i++) {
        begin_waiting(0, 2, 0);
        refuses(waiter, statements[i], SQLITE_BUSY, "Locked");
        TRUE(asked == 1);
        end_waiting(1);
        begin_waiting(20, 100, 0);
        refuses(waiter, statements[i], SQLITE_BUSY, "Locked");
        TRUE(asked > 3);
        end_waiting(1);
        begin_waiting(1000000, 4, 0);
        run(waiter, statements[i]);
        TRUE(asked == 4);
        end_waiting(0);
        begin_waiting(1000000, 4, 1);
        refuses(waiter, statements[i], SQLITE_INTERRUPT, "");
        end_waiting(1);
    }
    begin_waiting(20, 100, 0);
    ROWS(waiter, "select nardsill_check('waits.idx')", "refused 102 Locked");
    TRUE(asked > 3);
    end_waiting(1);
    begin_waiting(1000000, 4, 0);
    ROWS(waiter, "select nardsill_check('waits.idx') like 'ok %'", "1");
    end_waiting(0);
}

int main(void) {
    make();
    from_elsewhere();
    without_folder();
    missing();
    encoding();
    dropped();
    database_files();
    waits();
    puts("paths: each is where it must be");
    return 0;
}
