/* The files of the databases that a connection has open: none of them is opened as an index.
 *
 * By any closing of a file a process loses its POSIX locks of it, and SQLite keeps such locks. So behind an opening that is refused another
 * process could write into a database that this one has locked, and a row would be lost. `stat` opens nothing. */
#ifndef NARDSILL_FILES_H
#define NARDSILL_FILES_H
#include "arguments.h"
#include <sys/stat.h>

/* Where a path leads: to a file, if there is one, and to a name in a folder. */
typedef struct {
    int has_file, has_folder;
    struct stat file, folder;
    const char *name; /* within the path */
} place;

static place place_at(const char *path) {
    place p = {0};
    char folder[PATH_MAX];
    const char *slash = strrchr(path, '/');
    size_t len = slash ? (size_t)(slash - path) + 1 : 0;
    p.name = path + len;
    p.has_file = !stat(path, &p.file);
    if (len >= sizeof folder) return p;
    memcpy(folder, path, len);
    folder[len] = 0;
    p.has_folder = !stat(len ? folder : ".", &p.folder);
    return p;
}

static int is_same_file(const struct stat *one, const struct stat *other) { return one->st_dev == other->st_dev && one->st_ino == other->st_ino; }

/* Whether both are one file, by whatever names, or would be: a journal may come and go. */
static int is_same_place(const place *one, const place *other) {
    if (one->has_file && other->has_file && is_same_file(&one->file, &other->file)) return 1;
    return one->has_folder && other->has_folder && is_same_file(&one->folder, &other->folder) && !strcmp(one->name, other->name);
}

/* Whether a path leads to a database, or to a file that SQLite keeps beside it. 0 too if memory is out: then `*status` says so. */
static int is_of_database(const place *path, const char *database, int *status) {
    static const char *const behind[] = {"", "-journal", "-wal", "-shm"};
    int is_one = 0;
    for (size_t i = 0; i < sizeof behind / sizeof *behind && !is_one && !*status; i++) {
        char *file = sqlite3_mprintf("%s%s", database, behind[i]);
        if (!file) {
            *status = SQLITE_NOMEM;
        } else {
            const place kept = place_at(file);
            is_one = is_same_place(path, &kept);
        }
        sqlite3_free(file);
    }
    return is_one;
}

/* Refuses a path that leads to a file of a database of this connection. */
static int refuse_database_file(sqlite3 *db, const char *path, char **message) {
    const place asked = place_at(path);
    sqlite3_stmt *databases = 0;
    int status = sqlite3_prepare_v2(db, "pragma database_list", -1, &databases, 0), is_one = 0;
    while (!status && !is_one && sqlite3_step(databases) == SQLITE_ROW) {
        const char *name = (const char *)sqlite3_column_text(databases, 1), *file = (const char *)sqlite3_column_text(databases, 2);
        is_one = file && *file && is_of_database(&asked, file, &status);
        if (is_one)
            say(message, "nardsill: %s is a file of this connection's database %s: an index has a file of its own", path, name ? name : "");
    }
    int ended = sqlite3_finalize(databases);
    return is_one ? SQLITE_CANTOPEN : status ? status : ended;
}

#endif
