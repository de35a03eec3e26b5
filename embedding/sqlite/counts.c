/* Counts what a statement reads of the index, and how many steps it goes along a transaction's changes. It is linked with the library, and with
 * `--wrap` of `nardsill_scan_read`. */
#include <stddef.h>
static size_t steps, entries_read;
#define STEP (steps++)
#include "nardsill_table.c"
#include "testing.h"

int __real_nardsill_scan_read(nardsill_scan *, nardsill_entry *, size_t, size_t *);
int __wrap_nardsill_scan_read(nardsill_scan *scan, nardsill_entry *out, size_t room, size_t *count) {
    int status = __real_nardsill_scan_read(scan, out, room, count);
    entries_read += *count;
    return status;
}

static sqlite3 *db;

/* An index and an ordinary table with as many entries, of three rows each key. */
static void fill(int count) {
    unlink("counts.idx");
    db = connect_to(":memory:");
    run(db, "create virtual table t using nardsill('counts.idx'); create virtual table u using nardsill('counts.idx');"
            "create table o(key text, block integer, offset integer)");
    char *insert = sqlite3_mprintf("with recursive n(i) as (select 0 union all select i + 1 from n where i < %d)"
                                   "insert into o select printf('k%%06d', i * 7919 %% 100003 / 3), i, 1 from n; insert into t select * from o", count - 1);
    run(db, insert);
    sqlite3_free(insert);
}

/* Runs a query over both, '@' stands for the table; tells how many entries of the index it reads. */
static size_t reads(const char *query) {
    char text[2][400], want[4096];
    for (int i = 0; i < 2; i++) {
        char *to = text[i];
        for (const char *at = query; *at; at++) *to++ = *at == '@' ? "ot"[i] : *at;
        *to = 0;
    }
    snprintf(want, sizeof want, "%s", rows_of(db, text[0]));
    entries_read = 0;
    ROWS(db, text[1], want);
    return entries_read;
}

/* What needs few entries reads few. */
static void reads_few(void) {
    static const char *const queries[] = {"select min(key) from @", "select max(key) from @", "select block from @ where key is 'k000000' order by block",
        "select min(key) from @ where key > 'k01'", "select max(key) from @ where key < 'k01'", "select max(key) from @ where key between 'k00' and 'k015x'",
        "select max(key) from @ where key > 'x'", "select distinct key from (select key from @ order by key desc limit 5)",
        "select count(*) from @ where key is null", "select key from @ order by key limit 3", "select min(key), 1 from @"};
    size_t all = reads("select count(*) from @"), few;
    TRUE(all >= 20000);
    for (size_t i = 0; i < sizeof queries / sizeof *queries; i++) {
        few = reads(queries[i]);
        if (few > all / 20) fprintf(stderr, "%s reads %zu of %zu entries\n", queries[i], few, all), exit(1);
    }
    /* All from the last to the first: by passes, each of which keeps more than the one before. */
    few = reads("select count(*), min(key), sum(i * block) from (select key, block, 1 as i from @ order by key desc)");
    TRUE(few < 5 * all);
    ROWS(db, "select count(*) from (select key, lag(key) over () as before from (select key from t order by key desc)) where key > before", "0");
    run(db, "begin; delete from t where key > 'k0005'; delete from o where key > 'k0005'");
    reads("select max(key) from @");
    run(db, "insert into t values ('k9', 1, 1), ('', 2, 2); insert into o values ('k9', 1, 1), ('', 2, 2)");
    reads("select max(key) from @");
    reads("select group_concat(key) from (select key from @ where key < 'k0001' order by key desc)");
    run(db, "delete from t where key > ''; delete from o where key > ''");
    reads("select '[' || max(key) || ']' from @");
    run(db, "delete from t; delete from o");
    reads("select max(key) from @");
    run(db, "rollback");
}

/* How many steps a lookup takes among so many deletions of a transaction. */
static size_t steps_behind(int deletions) {
    char text[100];
    snprintf(text, sizeof text, "begin; insert into t values ('z', 99999, 1); delete from t where block < %d", deletions);
    run(db, text);
    steps = 0;
    ROWS(db, "select block from t where key = 'a'", "");
    ROWS(db, "select block from t where key > 'y'", "99999");
    size_t taken = steps;
    run(db, "rollback");
    return taken;
}

/* How many steps a statement takes that adds so many entries as it reads, by another table of the same index. */
static size_t steps_of_adding(int count) {
    char text[140];
    snprintf(text, sizeof text, "begin; insert into t values ('a', 1, 1); insert into u select 'z' || key, block, 2 from t where block < %d", count);
    steps = 0;
    run(db, text);
    size_t taken = steps;
    run(db, "rollback");
    return taken;
}

static void takes_few_steps(void) {
    size_t few = steps_behind(100), many = steps_behind(20000);
    if (many > 10 * few) fprintf(stderr, "a lookup behind 100 deletions takes %zu steps, and behind 20000 %zu\n", few, many), exit(1);
    few = steps_of_adding(500), many = steps_of_adding(8000);
    if (many > 50 * few) fprintf(stderr, "500 additions take %zu steps, and 8000 %zu\n", few, many), exit(1);
}

int main(void) {
    fill(21000);
    reads_few();
    takes_few_steps();
    TRUE(!sqlite3_close(db));
    puts("counts: what needs few entries reads few, and no lookup goes along all changes");
    return 0;
}
