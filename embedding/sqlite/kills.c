/* Kills a process within a commit, at its writes of the index and of the database: kills [TIMES [SEED]]
 *
 * A transaction adds rows and deletes rows, more than the index's log holds. Whenever it's killed, the database has all of it or nothing, and
 * the index lacks no entry of a row that is there. What it has besides, the cleaning statement of the documents takes away. Another one changes
 * rows in part: behind it the index may lack entries too, and the second statement of the documents puts them back. */
#include "testing.h"
#include <signal.h>
#include <sys/wait.h>

/* At which write the process is killed; 0 if it isn't. */
static uint32_t killed_at, writes;

static void note_write(void) {
    if (++writes == killed_at) kill(getpid(), SIGKILL);
}

ssize_t __real_pwrite(int, const void *, size_t, off_t);
ssize_t __wrap_pwrite(int fd, const void *bytes, size_t count, off_t at) {
    note_write();
    return __real_pwrite(fd, bytes, count, at);
}

int __real_fdatasync(int);
int __wrap_fdatasync(int fd) {
    note_write();
    return __real_fdatasync(fd);
}

/* SQLite's own calls. */
static ssize_t write_there(int fd, const void *bytes, size_t count, off_t at) { return __wrap_pwrite(fd, bytes, count, at); }
static int remove_there(const char *path) {
    note_write();
    return unlink(path);
}

static void watch_sqlite(void) {
    sqlite3_vfs *files = sqlite3_vfs_find(0);
    files->xSetSystemCall(files, "pwrite", (sqlite3_syscall_ptr)write_there);
    files->xSetSystemCall(files, "pwrite64", (sqlite3_syscall_ptr)write_there);
    files->xSetSystemCall(files, "unlink", (sqlite3_syscall_ptr)remove_there);
}

/* A letter has two entries of one row. */
#define ENTRIES_OF "insert into t select sender, id, 1 from letter where id >= %d union all select title, id, 1 from letter where id >= %d"

static void insert_letters(sqlite3 *db, int from, int to) {
    char *insert = sqlite3_mprintf("with recursive n(i) as (select %d union all select i + 1 from n where i < %d) insert into letter select i,"
                                   " printf('s%%05d', i * 7919 %% 10007), printf('t%%05d', i * 104729 %% 10007) from n;" ENTRIES_OF, from, to, from, from);
    run(db, insert);
    sqlite3_free(insert);
}

static void remove_all(void) {
    static const char *const files[] = {"kills.db", "kills.db-journal", "kills.db-wal", "kills.db-shm", "kills.idx"};
    for (size_t i = 0; i < sizeof files / sizeof *files; i++) unlink(files[i]);
}

static void fill(const char *mode) {
    remove_all();
    sqlite3 *db = connect_to("kills.db");
    char *make = sqlite3_mprintf("pragma journal_mode = %s; pragma synchronous = off; create table letter(id integer primary key, sender text, title text);"
                                 "create virtual table t using nardsill('kills.idx', pages=512, log_bytes=65536)", mode);
    run(db, make);
    sqlite3_free(make);
    insert_letters(db, 1, 500);
    TRUE(!sqlite3_close(db));
}

/* Whether the transaction changes rows in part: one of a row's two entries. */
static int is_in_part;

/* The transaction. It is killed at a write; or tells how many it made. */
static void change(void) {
    sqlite3 *db = connect_to("kills.db");
    run(db, "pragma synchronous = off; begin");
    if (is_in_part) {
        run(db, "update letter set sender = 'x' || sender where id % 3; update t set key = 'x' || key where block % 3 and key like 's%'");
    } else {
        run(db, "delete from letter where id % 5 < 2; delete from t where block % 5 < 2");
        insert_letters(db, 501, 700);
    }
    writes = 0;
    run(db, "commit");
    FILE *told = fopen("kills.told", "w");
    fprintf(told, "%u", writes);
    fclose(told);
    TRUE(!sqlite3_close(db));
}

/* Runs it in a child, and tells whether it was killed. */
static int run_child(uint32_t at) {
    int status;
    pid_t child = fork();
    if (!child) {
        watch_sqlite();
        killed_at = at;
        change();
        _exit(0);
    }
    TRUE(waitpid(child, &status, 0) == child);
    TRUE(WIFSIGNALED(status) ? WTERMSIG(status) == SIGKILL : !WEXITSTATUS(status));
    return WIFSIGNALED(status);
}

#define LACKS "select count(*) from letter where not exists (select 1 from t where key = sender and block = id)" \
    " or not exists (select 1 from t where key = title and block = id)"
#define PUT_BACK "insert or ignore into t select sender, id, 1 from letter union all select title, id, 1 from letter"
#define CLEAN "delete from t where not exists (select 1 from letter where id = block and key in (sender, title))"

/* Whether the database has the transaction, or nothing of it. */
static int has_all(sqlite3 *db) {
    static const char *const looks[] = {"select count(*), min(id), max(id) from letter", "select count(*), sum(sender like 'x%') from letter"};
    static const char *const before[] = {"500|1|500", "500|0"}, *const behind[] = {"500|2|700", "500|334"};
    int is_behind = !strcmp(rows_of(db, looks[is_in_part]), behind[is_in_part]);
    if (!is_behind) ROWS(db, looks[is_in_part], before[is_in_part]);
    return is_behind;
}

/* Judges what a kill has left. Tells whether the database has the transaction; and whether the index had more than it, or lacked something. */
static int judge(int *had_more, int *lacked) {
    sqlite3 *db = connect_to("kills.db");
    int is_behind = has_all(db);
    *lacked = strcmp(rows_of(db, LACKS), "0") != 0;
    if (!is_in_part) TRUE(!*lacked);
    *had_more = strcmp(rows_of(db, "select count(*) from t where not exists (select 1 from letter where id = block and key in (sender, title))"), "0") != 0;
    run(db, CLEAN);
    if (is_in_part) run(db, PUT_BACK);
    ROWS(db, LACKS, "0");
    ROWS(db, "select count(*) from t", "1000");
    TRUE(!sqlite3_close(db));
    db = connect_to(":memory:");
    ROWS(db, "select nardsill_check('kills.idx') like 'ok %'", "1");
    TRUE(!sqlite3_close(db));
    return is_behind;
}

static uint32_t num_writes(void) {
    uint32_t count = 0;
    FILE *told = fopen("kills.told", "r");
    TRUE(told && fscanf(told, "%u", &count) == 1);
    fclose(told);
    return count;
}

static void kill_each(const char *mode, int in_part, uint32_t times) {
    int num_behind = 0, num_more = 0, num_lacked = 0, num_killed = 0;
    is_in_part = in_part;
    fill(mode);
    TRUE(!run_child(0));
    uint32_t count = num_writes();
    for (uint32_t i = 0; i < times; i++) {
        int had_more, lacked;
        fill(mode);
        /* The first and the last ones are all tried. */
        uint32_t at = i < 4 ? i + 1 : i < times / 2 ? count - (i - 4) : 1 + roll(count);
        num_killed += run_child(at);
        num_behind += judge(&had_more, &lacked);
        num_more += had_more;
        num_lacked += lacked;
    }
    TRUE(num_behind < (int)times && num_more > 0);
    printf("kills: %s, rows %s, %u writes, %d killed: %d with the transaction, %d with entries too many, %d with rows that lack one\n", mode,
           in_part ? "in part" : "whole", count, num_killed, num_behind, num_more, num_lacked);
}

int main(int argc, char **argv) {
    uint32_t times = argc > 1 ? (uint32_t)atoi(argv[1]) : 24;
    dice = argc > 2 ? (uint32_t)atoi(argv[2]) : 1;
    kill_each("delete", 0, times);
    kill_each("wal", 0, times);
    kill_each("delete", 1, times / 2);
    return 0;
}
