/* Each call of nardsill.h: what it answers, and what is there behind it. Status 1 at the first wrong answer. */
#define _GNU_SOURCE
#include "testing.h"
#include <pthread.h>
#include <sys/stat.h>
#include <sys/wait.h>
#include <unistd.h>

#define PATH "test.idx"

/* The keys of a scan, with a space behind each. */
static const char *listed(nardsill_scan *scan) {
    static char text[1000];
    nardsill_entry entry;
    char *at = text;
    int status;
    while (!(status = nardsill_scan_next(scan, &entry))) at += sprintf(at, "%.*s ", entry.key_len, (const char *)entry.key);
    IS(NARDSILL_DONE, status);
    *at = 0;
    return text;
}

static const char *scanned(nardsill *index, const char *from, const char *below) {
    nardsill_scan *scan;
    IS(0, nardsill_scan_open(index, from, from ? strlen(from) : 0, below, below ? strlen(below) : 0, &scan));
    const char *text = listed(scan);
    nardsill_scan_close(scan);
    return text;
}

static const char *begun_so(nardsill *index, const char *prefix, size_t len) {
    nardsill_scan *scan;
    IS(0, nardsill_scan_open_prefix(index, prefix, len, &scan));
    const char *text = listed(scan);
    nardsill_scan_close(scan);
    return text;
}

#define LISTS(want, text) HOLDS(!strcmp(want, text))

static void makings(void) {
    nardsill *index = (nardsill *)1;
    struct stat file;
    nardsill_limits limits = NARDSILL_LIMITS, few = {sizeof few, 4, 7, 65536, 0}, unsized = {0, 50, 1024, 65536, 0};
    unlink(PATH);
    IS(NARDSILL_IO, nardsill_open(PATH, 64, &index));
    HOLDS(!index);
    IS(ENOENT, errno);
    IS(ENOENT, nardsill_last_fault()->error);
    IS(NARDSILL_BAD_LIMITS, nardsill_create(PATH, &few));
    IS(NARDSILL_MISUSE, nardsill_create(PATH, &unsized));
    IS(NARDSILL_MISUSE, nardsill_create(0, &limits));
    IS(NARDSILL_IO, nardsill_create("no/folder/x.idx", &limits));
    IS(ENOENT, nardsill_last_fault()->error);
    HOLDS(access(PATH, F_OK) && access(PATH ".nardsill-draft", F_OK));
    limits = (nardsill_limits){sizeof limits, 20, 64, 69632, 1};
    IS(0, nardsill_create(PATH, &limits));
    HOLDS(!stat(PATH, &file) && file.st_size == 4096 + 69632 + 64 * 4096);
    IS(NARDSILL_IO, nardsill_create(PATH, &limits));
    IS(EEXIST, nardsill_last_fault()->error);
    HOLDS(access(PATH ".nardsill-draft", F_OK));
    IS(NARDSILL_BAD_LIMITS, nardsill_open(PATH, 15, &index));
    IS(NARDSILL_BAD_LIMITS, nardsill_open(PATH, 1025, &index));
    HOLDS(!index);
    IS(0, nardsill_open(PATH, 1024, &index));
    nardsill_details details = NARDSILL_DETAILS;
    IS(0, nardsill_info(index, &details));
    HOLDS(details.items == 20 && details.pages == 64 && details.log_bytes == 69632 && details.unique == 1 && details.frames == 1024);
    HOLDS(details.pages_used == 2 && details.pages_free == 0 && !details.scans && !details.stopped);
    IS(0, nardsill_close(index));
    IS(0, nardsill_close(0));
    unlink(PATH);
    /* No limits stand for the usual ones. */
    index = made(PATH, 0);
    IS(0, nardsill_info(index, &details));
    HOLDS(details.items == 50 && details.pages == 4096 && details.log_bytes == 1048576 && !details.unique && details.frames == 64);
    IS(0, nardsill_close(index));
}

static void entries(nardsill *index) {
    unsigned char key[65] = {0};
    static const unsigned char long_key[300];
    uint64_t first, second, actions = 0;
    nardsill_row row;
    for (unsigned i = 0; i < 10000; i++) {
        key_of(i, key);
        IS(0, nardsill_insert(index, key, 16, row_of(i, 1), i ? &second : &first));
    }
    HOLDS(first == 1 && second >= 10000);
    key_of(77, key);
    IS(NARDSILL_EXISTS, nardsill_insert(index, key, 16, row_of(77, 1), 0));
    IS(NARDSILL_EXISTS, nardsill_last_fault()->status);
    IS(NARDSILL_KEY_TOO_LONG, nardsill_insert(index, key, 65, row_of(77, 1), 0));
    IS(NARDSILL_KEY_TOO_LONG, nardsill_insert(index, long_key, 300, row_of(77, 1), 0));
    IS(NARDSILL_BAD_ROW, nardsill_insert(index, key, 16, row_of(77, 0), 0));
    IS(NARDSILL_BAD_ROW, nardsill_insert(index, key, 16, row_of(4294967295u, 1), 0));
    IS(NARDSILL_MISUSE, nardsill_insert(0, key, 16, row_of(77, 1), 0));
    IS(NARDSILL_MISUSE, nardsill_insert(index, 0, 16, row_of(77, 1), 0));
    IS(0, nardsill_commit(index, &actions));
    HOLDS(actions >= second);
    for (unsigned i = 0; i < 10000; i += 37) {
        key_of(i, key);
        IS(0, nardsill_get(index, key, 16, &row));
        HOLDS(row.block == i && row.offset == 1);
        IS(NARDSILL_NOT_FOUND, nardsill_get(index, key, 15, &row));
        IS(NARDSILL_NOT_FOUND, nardsill_get(index, key, 17, &row));
    }
    IS(NARDSILL_KEY_TOO_LONG, nardsill_get(index, key, 65, &row));
    IS(NARDSILL_MISUSE, nardsill_get(index, 0, 3, &row));
    IS(NARDSILL_NOT_FOUND, nardsill_get(index, 0, 0, &row));
    IS(10000, counted(index));
}

/* The first of a key's entries is told, also of the keys at the ends. */
static void first_rows(nardsill *index) {
    unsigned char high[64];
    nardsill_row row;
    memset(high, 255, 64);
    IS(0, nardsill_insert(index, "", 0, row_of(9, 9), 0));
    IS(0, nardsill_insert(index, "", 0, row_of(9, 4), 0));
    IS(0, nardsill_insert(index, high, 64, row_of(8, 8), 0));
    IS(0, nardsill_insert(index, high, 64, row_of(7, 8), 0));
    IS(0, nardsill_insert(index, high, 63, row_of(6, 8), 0));
    IS(0, nardsill_get(index, 0, 0, &row));
    HOLDS(row.block == 9 && row.offset == 4);
    IS(0, nardsill_get(index, high, 64, &row));
    HOLDS(row.block == 7 && row.offset == 8);
    IS(0, nardsill_get(index, high, 63, &row));
    HOLDS(row.block == 6 && row.offset == 8);
    high[63] = 254;
    IS(NARDSILL_NOT_FOUND, nardsill_get(index, high, 64, &row));
    /* A key isn't the longer one that begins so. */
    memset(high, 'y', 64);
    IS(0, nardsill_insert(index, high, 64, row_of(5, 8), 0));
    IS(NARDSILL_NOT_FOUND, nardsill_get(index, high, 63, &row));
    HOLDS(row.block == 6 && row.offset == 8);
}

/* A call that goes well, and a scan's end, leave errno and the last fault as they were. */
#define LEAVES(want, call)                                        \
    do {                                                          \
        errno = 77;                                               \
        IS(want, call);                                           \
        IS(77, errno);                                            \
        IS(NARDSILL_MISUSE, nardsill_last_fault()->status);       \
    } while (0)

static void what_is_left(void) {
    nardsill *index;
    nardsill_scan *scan;
    nardsill_entry entry = {{2, 2}, 1, "b"};
    nardsill_row row;
    nardsill_stats stats = NARDSILL_STATS;
    nardsill_report report = NARDSILL_REPORT;
    nardsill_details details = NARDSILL_DETAILS;
    size_t count;
    remove(PATH);
    remove("test-copy.idx");
    /* A wrong argument is a refusal as others are, in whatever call it is seen. */
    index = made(PATH, 0);
    IS(0, insert(index, "a", 1, 1));
    IS(NARDSILL_EXISTS, insert(index, "a", 1, 1));
    IS(NARDSILL_EXISTS, nardsill_last_fault()->status);
    IS(0, nardsill_close(index));
    IS(NARDSILL_MISUSE, nardsill_commit(0, 0));
    remove(PATH);
    LEAVES(0, nardsill_create(PATH, 0));
    LEAVES(0, nardsill_open(PATH, 0, &index));
    LEAVES(0, insert(index, "a", 1, 1));
    LEAVES(0, nardsill_insert_many(index, &entry, 1, 0));
    LEAVES(0, nardsill_get(index, "a", 1, &row));
    LEAVES(0, nardsill_scan_open(index, 0, 0, 0, 0, &scan));
    LEAVES(0, nardsill_scan_next(scan, &entry));
    LEAVES(NARDSILL_DONE, nardsill_scan_read(scan, &entry, 2, &count));
    LEAVES(0, nardsill_scan_restart(scan, 0, 0, "a", 1));
    LEAVES(NARDSILL_DONE, nardsill_scan_next(scan, &entry));
    errno = 77;
    nardsill_scan_close(scan);
    IS(77, errno);
    LEAVES(0, nardsill_scan_open_prefix(index, "a", 1, &scan));
    nardsill_scan_close(scan);
    LEAVES(0, nardsill_set_patience(index, 1));
    LEAVES(0, nardsill_delete_rows(index, &row, 1, &stats));
    LEAVES(0, nardsill_vacuum(index, &stats));
    LEAVES(0, nardsill_commit(index, 0));
    LEAVES(0, nardsill_checkpoint(index, 0));
    LEAVES(0, nardsill_info(index, &details));
    LEAVES(0, nardsill_copy(index, "test-copy.idx", 0, 0, 0, 0));
    LEAVES(0, nardsill_close(index));
    LEAVES(0, nardsill_check(PATH, 0, &report));
    remove("test-copy.idx");
    /* Another refusal that isn't of the file leaves errno too. */
    index = made(PATH, 0);
    errno = 77;
    IS(NARDSILL_BAD_ROW, insert(index, "a", 1, 0));
    IS(NARDSILL_NOT_FOUND, nardsill_get(index, "a", 1, &row));
    IS(77, errno);
    IS(NARDSILL_NOT_FOUND, nardsill_last_fault()->status);
    /* Each call that sees a wrong argument tells it so. */
    IS(NARDSILL_MISUSE, nardsill_insert(index, 0, 1, row, 0));
    IS(NARDSILL_MISUSE, nardsill_last_fault()->status);
    IS(NARDSILL_NOT_FOUND, nardsill_get(index, "a", 1, &row));
    IS(NARDSILL_MISUSE, nardsill_get(index, 0, 1, &row));
    IS(NARDSILL_MISUSE, nardsill_last_fault()->status);
    IS(0, nardsill_close(index));
}

static void ranges(void) {
    nardsill *index = made(PATH, 0);
    nardsill_scan *scan = (nardsill_scan *)1, *other;
    nardsill_entry entry;
    static const char *const words[] = {"a", "ab", "abc", "ac", "a\377", "a\377x", "b", "ba", "c", "\377", "\377\377", "\377\377x"};
    for (unsigned i = 0; i < 12; i++) IS(0, insert(index, words[i], i + 1, 3));
    LISTS("a ab abc ac a\377 a\377x b ba c \377 \377\377 \377\377x ", scanned(index, 0, 0));
    LISTS("ab abc ac a\377 a\377x b ", scanned(index, "ab", "ba"));
    LISTS("a ab ", scanned(index, 0, "abc"));
    LISTS("", scanned(index, 0, ""));
    LISTS("\377\377 \377\377x ", scanned(index, "\377\377", 0));
    LISTS("ab abc ", begun_so(index, "ab", 2));
    LISTS("b ba ", begun_so(index, "b", 1));
    LISTS("\377\377 \377\377x ", begun_so(index, "\377\377", 2));
    LISTS("a\377 a\377x ", begun_so(index, "a\377", 2));
    LISTS("a ab abc ac a\377 a\377x b ba c \377 \377\377 \377\377x ", begun_so(index, "", 0));
    LISTS("", begun_so(index, "d", 1));
    char long_end[65] = "b";
    IS(NARDSILL_KEY_TOO_LONG, nardsill_scan_open(index, 0, 0, long_end, 65, &scan));
    HOLDS(!scan);
    IS(NARDSILL_KEY_TOO_LONG, nardsill_scan_open(index, long_end, 320, 0, 0, &scan));
    IS(NARDSILL_KEY_TOO_LONG, nardsill_scan_open_prefix(index, long_end, 65, &scan));
    IS(NARDSILL_MISUSE, nardsill_scan_open(index, 0, 1, 0, 0, &scan));
    IS(NARDSILL_MISUSE, nardsill_scan_open(index, 0, 0, 0, 0, 0));
    IS(0, nardsill_scan_open(index, "b", 1, 0, 0, &scan));
    IS(0, nardsill_scan_next(scan, &entry));
    HOLDS(entry.key_len == 1 && entry.key[0] == 'b' && entry.row.block == 7 && entry.row.offset == 3);
    /* Begun anew in its midst, and at its end. */
    IS(0, nardsill_scan_restart(scan, "a", 1, "abc", 3));
    LISTS("a ab ", listed(scan));
    IS(0, nardsill_scan_restart(scan, "ba", 2, 0, 0));
    LISTS("ba c \377 \377\377 \377\377x ", listed(scan));
    IS(NARDSILL_KEY_TOO_LONG, nardsill_scan_restart(scan, long_end, 65, 0, 0));
    nardsill_details details = NARDSILL_DETAILS;
    IS(0, nardsill_scan_open(index, 0, 0, 0, 0, &other));
    IS(0, nardsill_info(index, &details));
    IS(2, details.scans);
    nardsill_scan_close(scan);
    /* A scan that outlives its index is over. */
    IS(0, nardsill_close(index));
    IS(NARDSILL_NO_SESSION, nardsill_scan_next(other, &entry));
    IS(NARDSILL_NO_SESSION, nardsill_scan_restart(other, 0, 0, 0, 0));
    nardsill_scan_close(other);
    nardsill_scan_close(0);
    IS(NARDSILL_MISUSE, nardsill_scan_next(0, &entry));
}

/* 63 scans are open at most; each on a leaf of its own wants a page in memory. */
static void many_scans(nardsill *index) {
    nardsill_scan *scans[64];
    nardsill_row row;
    for (int i = 0; i < 63; i++) IS(0, nardsill_scan_open(index, 0, 0, 0, 0, scans + i));
    IS(NARDSILL_NO_SESSION, nardsill_scan_open(index, 0, 0, 0, 0, scans + 63));
    IS(NARDSILL_NO_SESSION, nardsill_get(index, "a", 1, &row));
    HOLDS(!scans[63]);
    for (int i = 0; i < 63; i++) nardsill_scan_close(scans[i]);
    IS(0, nardsill_scan_open(index, 0, 0, 0, 0, scans));
    nardsill_scan_close(scans[0]);
}

static void frames(void) {
    nardsill *index;
    nardsill_scan *scans[30];
    nardsill_entry entry;
    int status = 0;
    for (int most = 16; most <= 40; most += 24) {
        IS(0, nardsill_open(PATH, (uint32_t)most, &index));
        int i = 0;
        for (; i < 30 && !status; i++) {
            unsigned char from[1] = {(unsigned char)(8 * i)};
            IS(0, nardsill_scan_open(index, from, 1, 0, 0, scans + i));
            status = nardsill_scan_next(scans[i], &entry);
        }
        IS(most == 16 ? NARDSILL_NO_FRAME : 0, status);
        while (i--) nardsill_scan_close(scans[i]);
        IS(0, nardsill_close(index));
        status = 0;
    }
}

static void deletions(nardsill *index) {
    unsigned char key[16];
    nardsill_scan *scan;
    nardsill_entry entry;
    nardsill_row rows[3] = {{77, 1}, {78, 1}, {10000, 1}};
    nardsill_stats stats = NARDSILL_STATS, unsized = {0, 0, 0, 0, 0, 0, 0, 0};
    key_of(77, key);
    IS(0, nardsill_scan_open(index, key, 16, 0, 0, &scan));
    IS(0, nardsill_scan_next(scan, &entry));
    HOLDS(entry.key_len == 16 && !memcmp(entry.key, key, 16) && entry.row.block == 77 && entry.row.offset == 1);
    IS(NARDSILL_BLOCKED, nardsill_delete_rows(index, rows, 3, &stats));
    HOLDS(nardsill_last_fault()->page > 1);
    nardsill_scan_close(scan);
    IS(0, nardsill_delete_rows(index, rows, 3, &stats));
    HOLDS(stats.entries == 9998 && stats.removed == 2 && stats.pages > 200 && !stats.pages_newly_deleted && !stats.pages_deleted);
    IS(NARDSILL_BAD_ROW, nardsill_delete_rows(index, (nardsill_row[]){{5, 1}, {5, 0}}, 2, &stats));
    IS(NARDSILL_BAD_ROW, nardsill_delete_rows(index, (nardsill_row[]){{5, 0}, {5, 1}}, 2, &stats));
    IS(0, nardsill_last_fault()->page);
    IS(0, nardsill_delete_rows(index, rows, 0, &stats));
    IS(0, stats.removed);
    IS(NARDSILL_MISUSE, nardsill_delete_rows(index, 0, 1, &stats));
    IS(NARDSILL_MISUSE, nardsill_delete_rows(index, rows, 1, &unsized));
    IS(0, nardsill_delete_rows(index, rows, 1, 0));
    IS(0, nardsill_vacuum(index, &stats));
    HOLDS(stats.entries == 9998 && counted(index) == 9998);
    IS(NARDSILL_MISUSE, nardsill_vacuum(index, &unsized));
}

/* Pages that are deleted are counted, and used again. */
static void pages(void) {
    nardsill *index = made(PATH, 0);
    nardsill_stats stats = NARDSILL_STATS;
    nardsill_details details = NARDSILL_DETAILS;
    static nardsill_row rows[5000];
    unsigned char key[16];
    for (unsigned i = 0; i < 5000; i++) {
        rows[i] = row_of(i, 1);
        sprintf((char *)key, "%08u", i);
        IS(0, nardsill_insert(index, key, 8, rows[i], 0));
    }
    IS(0, nardsill_delete_rows(index, rows + 1000, 3000, &stats));
    HOLDS(stats.removed == 3000 && stats.entries == 2000);
    uint32_t all = stats.pages;
    IS(0, nardsill_vacuum(index, &stats));
    HOLDS(stats.pages == all && stats.pages_newly_deleted > 50 && stats.pages_deleted == stats.pages_newly_deleted && stats.entries == 2000 && !stats.removed);
    uint32_t deleted = stats.pages_deleted;
    IS(0, nardsill_vacuum(index, &stats));
    HOLDS(!stats.pages_newly_deleted && stats.pages_deleted == deleted && stats.pages_free == deleted);
    IS(0, nardsill_info(index, &details));
    HOLDS(details.pages_used == all && details.pages_free == deleted);
    IS(0, nardsill_close(index));
}

static void batches(nardsill *index) {
    nardsill_entry many[4] = {{{1, 3}, 2, "m1"}, {{2, 4}, 2, "m2"}, {{0, 0}, 2, "m3"}, {{4, 3}, 2, "m4"}};
    nardsill_stats stats = NARDSILL_STATS;
    nardsill_row row;
    size_t done;
    IS(NARDSILL_BAD_ROW, nardsill_insert_many(index, many, 4, &done));
    IS(2, done);
    IS(0, nardsill_get(index, "m2", 2, &row));
    HOLDS(row.block == 2 && row.offset == 4);
    IS(NARDSILL_NOT_FOUND, nardsill_get(index, "m4", 2, &row));
    IS(0, nardsill_insert_many(index, many, 0, &done));
    IS(0, done);
    IS(NARDSILL_MISUSE, nardsill_insert_many(index, 0, 1, &done));
    nardsill_row two[2] = {{1, 3}, {2, 4}};
    IS(0, nardsill_delete_rows(index, two, 2, &stats));
    IS(2, stats.removed);
}

static void *insert_some(void *index) {
    for (unsigned i = 0; i < 500; i++) {
        unsigned char key[4] = {9, 9, (unsigned char)(i >> 8), (unsigned char)i};
        int status = nardsill_insert(index, key, 4, row_of(i, 7), 0);
        if (status != NARDSILL_EXISTS) IS(0, status);
    }
    return 0;
}

static void threads(nardsill *index, unsigned before) {
    pthread_t some[4];
    for (int i = 0; i < 4; i++) IS(0, pthread_create(some + i, 0, insert_some, index));
    for (int i = 0; i < 4; i++) pthread_join(some[i], 0);
    IS(before + 500, counted(index));
}

/* Whether the file has these bytes in its pages, or in its log. */
static int is_in_file(const char *bytes, long from, long below) {
    static char all[1 << 25];
    FILE *file = fopen(PATH, "rb");
    size_t len = fread(all, 1, sizeof all, file);
    fclose(file);
    if ((size_t)below > len) below = (long)len;
    return !!memmem(all + from, (size_t)(below - from), bytes, strlen(bytes));
}

static void durability(void) {
    nardsill *index = made(PATH, 0);
    const long log = 4096, home = 4096 + 1048576, end = 1 << 25;
    uint64_t actions;
    IS(0, insert(index, "a word that is sought", 1, 1));
    HOLDS(!is_in_file("that is sought", log, end));
    IS(0, nardsill_commit(index, &actions));
    IS(1, actions);
    HOLDS(is_in_file("that is sought", log, home) && !is_in_file("that is sought", home, end));
    IS(0, nardsill_checkpoint(index, &actions));
    IS(1, actions);
    HOLDS(is_in_file("that is sought", home, end));
    IS(0, insert(index, "another word", 1, 1));
    IS(0, nardsill_close(index));
    HOLDS(is_in_file("another word", home, end));
}

/* What a child committed before it ended is there. */
static void ended_child(void) {
    nardsill *index;
    int status;
    pid_t child = fork();
    if (!child) {
        if (nardsill_open(PATH, 64, &index) || insert(index, "kept", 1, 1) || nardsill_commit(index, 0)) _exit(1);
        _exit(insert(index, "lost, maybe", 1, 1));
    }
    waitpid(child, &status, 0);
    IS(0, status);
    IS(0, nardsill_open(PATH, 64, &index));
    IS(NARDSILL_EXISTS, insert(index, "kept", 1, 1));
    IS(0, nardsill_close(index));
}

static void checks(void) {
    nardsill *index;
    nardsill_report report = NARDSILL_REPORT, unsized = {0, 0, 0, 0, 0, 0, 0, 0, 0};
    index = made(PATH, 0);
    for (unsigned i = 0; i < 3000; i++) {
        unsigned char key[16];
        key_of(i, key);
        IS(0, nardsill_insert(index, key, 16, row_of(i, 1), 0));
    }
    IS(NARDSILL_LOCKED, nardsill_check(PATH, 0, &report));
    IS(0, nardsill_close(index));
    IS(0, nardsill_check(PATH, 0, &report));
    HOLDS(!report.damage && report.entries == 3000 && report.levels == 3 && report.pages > 60 && !report.half_dead && !report.deleted);
    IS(NARDSILL_BAD_LIMITS, nardsill_check(PATH, 15, &report));
    IS(0, nardsill_check(PATH, 1024, &report));
    IS(NARDSILL_MISUSE, nardsill_check(PATH, 0, &unsized));
    IS(NARDSILL_IO, nardsill_check("no.idx", 0, &report));
    IS(ENOENT, errno);
    FILE *file = fopen(PATH, "r+b");
    fseek(file, 4096 + 1048576 + 5 * 4096, SEEK_SET);
    fputs("damage", file);
    fclose(file);
    IS(NARDSILL_PAGE_DAMAGED, nardsill_check(PATH, 0, &report));
    IS(5, nardsill_last_fault()->page);
    IS(NARDSILL_PAGE_DAMAGED, nardsill_open(PATH, 0, &index));
    IS(5, nardsill_last_fault()->page);
}

static void unique_index(void) {
    nardsill_limits limits = {sizeof limits, 50, 1024, 1048576, 1};
    nardsill_report report = NARDSILL_REPORT;
    nardsill *index = made(PATH, &limits);
    size_t done;
    IS(0, insert(index, "one", 7, 1));
    IS(NARDSILL_EXISTS, insert(index, "one", 7, 1));
    IS(NARDSILL_KEY_EXISTS, insert(index, "one", 8, 2));
    const nardsill_fault *fault = nardsill_last_fault();
    HOLDS(fault->status == NARDSILL_KEY_EXISTS && fault->row.block == 7 && fault->row.offset == 1 && !fault->page);
    IS(0, insert(index, "two", 8, 2));
    nardsill_entry pair[2] = {{{9, 1}, 5, "three"}, {{9, 1}, 3, "two"}};
    IS(NARDSILL_KEY_EXISTS, nardsill_insert_many(index, pair, 2, &done));
    HOLDS(done == 1 && fault->row.block == 8 && fault->row.offset == 2);
    IS(NARDSILL_BAD_ROW, insert(index, "one", 8, 0));
    HOLDS(!fault->row.block && !fault->row.offset);
    IS(0, nardsill_close(index));
    IS(0, nardsill_open(PATH, 64, &index));
    IS(NARDSILL_KEY_EXISTS, insert(index, "two", 7, 1));
    IS(3, counted(index));
    IS(0, nardsill_close(index));
    IS(0, nardsill_check(PATH, 0, &report));
    HOLDS(!report.damage && report.entries == 3);
}

/* Each status has a name and a sentence of its own. */
static void texts(void) {
    static const int own[] = {NARDSILL_DONE, NARDSILL_MISUSE, NARDSILL_LOCKED, NARDSILL_NOT_FOUND, NARDSILL_FORKED};
    LISTS("Exists", nardsill_errname(5));
    LISTS("KeyExists", nardsill_errname(21));
    LISTS("Locked", nardsill_errname(NARDSILL_LOCKED));
    LISTS("Forked", nardsill_errname(NARDSILL_FORKED));
    LISTS("Unknown", nardsill_errname(22));
    LISTS("the entry is there", nardsill_strerror(5));
    LISTS("the key is there with another row", nardsill_strerror(NARDSILL_KEY_EXISTS));
    LISTS("another handle has the file", nardsill_strerror(NARDSILL_LOCKED));
    LISTS("no such status", nardsill_strerror(-1));
    for (int i = 0; i < 26; i++)
        for (int k = 0; k < i; k++) {
            int a = i < 21 ? i + 1 : own[i - 21], b = k < 21 ? k + 1 : own[k - 21];
            HOLDS(strcmp(nardsill_errname(a), nardsill_errname(b)) && strcmp(nardsill_strerror(a), nardsill_strerror(b)));
        }
    LISTS(NARDSILL_VERSION, nardsill_version());
}

int main(void) {
    IS(0, nardsill_last_fault()->status);
    texts();
    makings();
    nardsill *index = made(PATH, 0);
    entries(index);
    deletions(index);
    batches(index);
    threads(index, 9998);
    first_rows(index);
    many_scans(index);
    IS(0, nardsill_close(index));
    frames();
    ended_child();
    ranges();
    pages();
    what_is_left();
    durability();
    checks();
    unique_index();
    unlink(PATH);
    puts("test: all is as it must be");
    return 0;
}
