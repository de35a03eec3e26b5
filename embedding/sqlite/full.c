/* Commits into a nearly full index with four entries a page: full [TRANSACTIONS [SEED]]
 *
 * An ordinary table in the same transactions tells what each leaves: all of it, or nothing if it is refused, by the index or by the commit hook.
 * Transactions of whole rows never leave a part: each adds all entries of a row, or deletes all. Of other ones a few do, and each of them says
 * so: in a full index an entry that went with its row may find no page again. */
#include "testing.h"

static sqlite3 *db;
static int refuses_next, told_parts;
static uint32_t last_block;

static int judge_commit(void *unused) {
    (void)unused;
    return refuses_next;
}

/* A rollback that is refused is told to the log alone. */
static void note_log(void *unused, int code, const char *text) {
    (void)unused, (void)code;
    if (strstr(text, "the index may hold a part")) told_parts++;
}

static void begin_index(int is_unique) {
    unlink("full.idx");
    db = connect_to(":memory:");
    char *make = sqlite3_mprintf("create virtual table t using nardsill('full.idx', items=4, pages=40, log_bytes=65536, unique=%d)", is_unique);
    run(db, make);
    sqlite3_free(make);
    run(db, is_unique ? "create table o(key text unique, block integer, offset integer, primary key(key, block, offset)) without rowid"
                      : "create table o(key text, block integer, offset integer, primary key(key, block, offset)) without rowid");
    sqlite3_commit_hook(db, judge_commit, 0);
}

static void end_index(void) {
    TRUE(!sqlite3_close(db));
    db = connect_to(":memory:");
    ROWS(db, "select nardsill_check('full.idx') like 'ok %'", "1");
    TRUE(!sqlite3_close(db));
}

/* Runs a statement on both tables: '@' stands for the table. Both take it, or both refuse it. */
static void on_both(const char *text) {
    char sql[2][400];
    for (int i = 0; i < 2; i++) {
        char *to = sql[i];
        for (const char *at = text; *at; at++) *to++ = *at == '@' ? "to"[i] : *at;
        *to = 0;
    }
    int table = sqlite3_exec(db, sql[0], 0, 0, 0), ordinary = sqlite3_exec(db, sql[1], 0, 0, 0);
    if (!table != !ordinary) fprintf(stderr, "%s: %d, not %d\n", text, table, ordinary), exit(1);
}

/* A key is of a few random bytes: so keys of a row lie apart, or side by side. */
static void on_rows(uint32_t count, uint32_t most_entries) {
    char text[200];
    for (; count; count--) {
        uint32_t block = ++last_block;
        for (uint32_t entries = 1 + roll(most_entries); entries; entries--) {
            snprintf(text, sizeof text, "insert or ignore into @ values ('%c%06u', %u, 1)", 'a' + (int)roll(4), roll(900000), block);
            on_both(text);
        }
    }
}

static void delete_some(const char *where) {
    char text[200];
    snprintf(text, sizeof text, "delete from @ where %s %u", where, roll(10));
    on_both(text);
}

/* A transaction that changes rows in part too. */
static void change_parts(void) {
    static const char *const changes[] = {"update or ignore @ set key = key || 'x' where length(key) < 12 and block % 10 = ",
        "update or ignore @ set key = 'z' || key where length(key) < 12 and block % 10 = ", "delete from @ where key like 'a%' and block % 10 = ",
        "insert or ignore into @ select 'b' || key, block, 1 from @ where length(key) < 12 and block % 10 = ",
        "update or ignore @ set block = block + 1 where block % 10 = ", "update or replace @ set key = 'c' || key where length(key) < 12 and block % 10 = "};
    char text[200];
    snprintf(text, sizeof text, "%s%u", changes[roll(6)], roll(10));
    on_both(text);
}

static int is_same(void) {
    static char ordinary[64];
    snprintf(ordinary, sizeof ordinary, "%s", rows_of(db, "select count(*), sum(block) from o"));
    return !strcmp(rows_of(db, "select count(*), sum(block) from t"), ordinary) &&
           !strcmp(rows_of(db, "select count(*) from t join o using (key, block, offset)"), rows_of(db, "select count(*) from o"));
}

static void begin_transaction(int is_whole) {
    run(db, "begin");
    for (uint32_t steps = 1 + roll(3); steps; steps--) {
        if (once_in(3)) delete_some("block % 10 =");
        else if (is_whole || once_in(2)) on_rows(1 + roll(30), 3);
        else change_parts();
    }
    refuses_next = once_in(5);
}

/* Commits, and tells whether it was refused. A part is told. */
static int end_transaction(int is_whole, int *parts) {
    char *error = 0;
    told_parts = 0;
    int status = sqlite3_exec(db, "commit", 0, 0, &error), is_told = told_parts || (error && strstr(error, "may hold a part"));
    if (status) TRUE(status == SQLITE_FULL || (refuses_next && status == SQLITE_CONSTRAINT));
    refuses_next = 0;
    if (!sqlite3_get_autocommit(db)) run(db, "rollback");
    if (is_whole) TRUE(!is_told);
    if (!is_told) TRUE(is_same());
    *parts += is_told;
    sqlite3_free(error);
    return status != 0;
}

static void fill_full(int is_whole, int is_unique, int count) {
    int refused = 0, parts = 0;
    begin_index(is_unique);
    for (int i = 0; i < count; i++) {
        int parts_before = parts;
        begin_transaction(is_whole);
        refused += end_transaction(is_whole, &parts);
        if (parts == parts_before) continue;
        /* It goes on with what the ordinary table has, as who compares would. */
        run(db, "delete from t; delete from o");
    }
    end_index();
    TRUE(refused > count / 20);
    printf("full: %s of %s index, %d transactions, %d refused, %d parts\n", is_whole ? "whole rows" : "any changes", is_unique ? "a unique" : "an", count,
           refused, parts);
}

int main(int argc, char **argv) {
    int count = argc > 1 ? atoi(argv[1]) : 400;
    dice = argc > 2 ? (uint32_t)atoi(argv[2]) : 1;
    TRUE(!sqlite3_config(SQLITE_CONFIG_LOG, note_log, 0));
    for (int is_unique = 0; is_unique < 2; is_unique++) {
        fill_full(1, is_unique, count);
        fill_full(0, is_unique, count);
    }
    return 0;
}
