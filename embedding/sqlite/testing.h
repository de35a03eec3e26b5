/* What the tests of the virtual table share: a connection that has it, statements, and a random choice. */
#ifndef TESTING_H
#define TESTING_H
#include <sqlite3.h>
#include <stdint.h>
#include <stdio.h>
#include <stdlib.h>
#include <string.h>
#include <unistd.h>

#define TRUE(fact) is_true(fact, #fact, __FILE__, __LINE__)
static void is_true(int fact, const char *text, const char *file, int line) {
    if (fact) return;
    fprintf(stderr, "%s:%d: not so: %s\n", file, line, text);
    exit(1);
}

static uint32_t dice = 1;
static uint32_t roll(uint32_t sides) {
    dice ^= dice << 13;
    dice ^= dice >> 17;
    dice ^= dice << 5;
    return dice % sides;
}
static __attribute__((unused)) int once_in(uint32_t sides) { return !roll(sides); }

#ifdef SQLITE_CORE
int sqlite3_nardsilltable_init(sqlite3 *, char **, const struct sqlite3_api_routines *);
#endif

/* A connection that has the table's module: from ./nardsill_table.so, or linked with the test. */
static __attribute__((unused)) sqlite3 *connect_to(const char *path) {
    sqlite3 *db;
    char *error = 0;
    if (sqlite3_open(path, &db)) fprintf(stderr, "%s: %s\n", path, sqlite3_errmsg(db)), exit(1);
#ifdef SQLITE_CORE
    int status = sqlite3_nardsilltable_init(db, &error, 0);
#else
    sqlite3_enable_load_extension(db, 1);
    int status = sqlite3_load_extension(db, "./nardsill_table", 0, &error);
#endif
    if (status) fprintf(stderr, "no nardsill_table: %s\n", error ? error : ""), exit(1);
    return db;
}

/* Runs a statement that must do. */
static __attribute__((unused)) void run(sqlite3 *db, const char *sql) {
    char *error = 0;
    if (!sqlite3_exec(db, sql, 0, 0, &error)) return;
    fprintf(stderr, "%s: %s\n", sql, error ? error : "?");
    exit(1);
}

/* Runs a statement that must be refused with this code, and with these words in its message. */
static __attribute__((unused)) void refuses(sqlite3 *db, const char *sql, int code, const char *words) {
    char *error = 0;
    int status = sqlite3_exec(db, sql, 0, 0, &error);
    if ((status & 0xff) != code || !strstr(error ? error : "", words)) {
        fprintf(stderr, "%s: %d %s, not %d %s\n", sql, status, error ? error : "", code, words);
        exit(1);
    }
    sqlite3_free(error);
}

/* The rows of a query, as a text: '|' between columns, ',' between rows. It stands until the next call. */
static __attribute__((unused)) const char *rows_of(sqlite3 *db, const char *sql) {
    static char text[4096];
    sqlite3_stmt *query;
    size_t len = 0;
    *text = 0;
    if (sqlite3_prepare_v2(db, sql, -1, &query, 0)) return sqlite3_errmsg(db);
    int status;
    while ((status = sqlite3_step(query)) == SQLITE_ROW)
        for (int i = 0; i < sqlite3_column_count(query); i++) {
            const char *column = (const char *)sqlite3_column_text(query, i);
            len += (size_t)snprintf(text + len, sizeof text - len, "%s%s", i ? "|" : len ? "," : "", column ? column : "null");
            if (len >= sizeof text) exit(1);
        }
    if (sqlite3_finalize(query)) return sqlite3_errmsg(db);
    return text;
}

#define ROWS(db, sql, want) gives(db, sql, want, __FILE__, __LINE__)
static __attribute__((unused)) void gives(sqlite3 *db, const char *sql, const char *want, const char *file, int line) {
    const char *got = rows_of(db, sql);
    if (!strcmp(got, want)) return;
    fprintf(stderr, "%s:%d: %s: %s, not %s\n", file, line, sql, got, want);
    exit(1);
}

#endif
