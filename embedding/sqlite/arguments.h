/* What stands between the parentheses of `create virtual table .. using nardsill(..)`. */
#ifndef NARDSILL_ARGUMENTS_H
#define NARDSILL_ARGUMENTS_H
#include "nardsill.h"
#include <limits.h>
#include <stdarg.h>
#include <stddef.h>
#include <stdlib.h>
#include <string.h>
#include <unistd.h>

typedef struct {
    char *path; /* a whole one */
    int is_blob;
    uint32_t frames;
    nardsill_limits limits;
    unsigned given; /* a bit for each option, by its place in `options` */
} arguments;

/* An option's number is from `low` to `high`, and a multiple of `step`. */
typedef struct {
    const char *name;
    size_t at;
    uint32_t low, high, step;
} option;

static const option options[] = {
    {"items", offsetof(arguments, limits.items), 4, 50, 1},
    {"pages", offsetof(arguments, limits.pages), 8, 65536, 1},
    {"log_bytes", offsetof(arguments, limits.log_bytes), 65536, 16777216, 4096},
    {"unique", offsetof(arguments, limits.unique), 0, 1, 1},
    {"frames", offsetof(arguments, frames), 16, 1024, 1},
};
enum { NUM_OPTIONS = sizeof options / sizeof *options };

static uint32_t *number_at(arguments *a, int which) { return (uint32_t *)((char *)a + options[which].at); }

/* Sets a message of SQLite's. */
static void say(char **message, const char *format, ...) {
    va_list values;
    va_start(values, format);
    sqlite3_free(*message);
    *message = sqlite3_vmprintf(format, values);
    va_end(values);
}

/* The text of an argument. Quotes around it are undone as SQL does: a doubled one within stands for one. Null if memory is out. */
static char *unquoted(const char *text, size_t len) {
    char *out = sqlite3_malloc64(len + 1);
    if (!out) return 0;
    char quote = len > 1 && strchr("'\"`[", *text) ? *text == '[' ? ']' : *text : 0;
    if (!quote || text[len - 1] != quote) {
        memcpy(out, text, len);
        out[len] = 0;
        return out;
    }
    size_t to = 0;
    for (size_t from = 1; from < len - 1; from++) {
        if (text[from] == quote && text[from + 1] == quote && from + 1 < len - 1) from++;
        out[to++] = text[from];
    }
    out[to] = 0;
    return out;
}

/* A relative path is beside the file of its database. If that has none, it is in the working directory. Null if memory is out. */
static char *whole_path(sqlite3 *db, const char *schema, const char *path) {
    if (*path == '/') return sqlite3_mprintf("%s", path);
    const char *file = sqlite3_db_filename(db, schema), *slash = file ? strrchr(file, '/') : 0;
    if (slash) return sqlite3_mprintf("%.*s%s", (int)(slash - file) + 1, file, path);
    char folder[PATH_MAX];
    if (!getcwd(folder, sizeof folder)) return sqlite3_mprintf("%s", path);
    return sqlite3_mprintf("%s%s%s", folder, folder[1] ? "/" : "", path);
}

/* An argument's name and value: the parts before and behind its first '='. */
typedef struct {
    const char *name, *value;
    size_t name_len, value_len;
} assignment;

static int is_space(char byte) { return byte == ' ' || (byte >= '\t' && byte <= '\r'); }

/* Parts an argument; 0 if it has no '='. */
static int part(const char *text, assignment *out) {
    const char *equals = strchr(text, '='), *end = text + strlen(text);
    if (!equals) return 0;
    const char *name_end = equals, *value = equals + 1;
    while (name_end > text && is_space(name_end[-1])) name_end--;
    while (value < end && is_space(*value)) value++;
    *out = (assignment){text, value, (size_t)(name_end - text), (size_t)(end - value)};
    return 1;
}

static int is_named(const assignment *a, const char *name) {
    return a->name_len == strlen(name) && !sqlite3_strnicmp(a->name, name, (int)a->name_len);
}

/* The option of this name, or -1. */
static int which_option(const assignment *a) {
    for (int i = 0; i < NUM_OPTIONS; i++)
        if (is_named(a, options[i].name)) return i;
    return -1;
}

/* Takes the number of an option; 0 if it is none, or out of range. */
static int take_number(arguments *out, int which, const char *value) {
    const option *o = &options[which];
    size_t len = strlen(value);
    if (!len || len > 9 || strspn(value, "0123456789") != len) return 0;
    uint32_t number = (uint32_t)strtoul(value, 0, 10);
    if (number < o->low || number > o->high || number % o->step) return 0;
    *number_at(out, which) = number;
    out->given |= 1u << which;
    return 1;
}

static int take_key_type(arguments *out, const char *value, char **message) {
    out->is_blob = !sqlite3_stricmp(value, "blob");
    if (out->is_blob || !sqlite3_stricmp(value, "text")) return SQLITE_OK;
    say(message, "nardsill: key=%s: text or blob is wanted", value);
    return SQLITE_ERROR;
}

/* Takes one argument behind the first. */
static int take_option(arguments *out, const char *text, char **message) {
    assignment a;
    int is_key = 0, which = -1;
    if (part(text, &a)) is_key = is_named(&a, "key"), which = which_option(&a);
    if (!is_key && which < 0) {
        say(message, "nardsill: %s: no such argument: key=, items=, pages=, log_bytes=, unique= and frames= are known", text);
        return SQLITE_ERROR;
    }
    char *value = unquoted(a.value, a.value_len);
    if (!value) return SQLITE_NOMEM;
    int status = SQLITE_OK;
    if (is_key) {
        status = take_key_type(out, value, message);
    } else if (!take_number(out, which, value)) {
        const option *o = &options[which];
        if (o->step == 1) say(message, "nardsill: %s=%s: a number from %u to %u is wanted", o->name, value, o->low, o->high);
        else say(message, "nardsill: %s=%s: a multiple of %u from %u to %u is wanted", o->name, value, o->step, o->low, o->high);
        status = SQLITE_ERROR;
    }
    sqlite3_free(value);
    return status;
}

/* Takes the first argument, the file. */
static int take_path(arguments *out, sqlite3 *db, const char *schema, const char *text, char **message) {
    assignment a;
    if (!*text || (part(text, &a) && (is_named(&a, "key") || which_option(&a) >= 0))) {
        say(message, "nardsill: the first argument is the file of the index");
        return SQLITE_ERROR;
    }
    char *path = unquoted(text, strlen(text));
    if (!path) return SQLITE_NOMEM;
    int is_empty = !*path;
    if (is_empty) say(message, "nardsill: the file of the index has an empty name");
    else out->path = whole_path(db, schema, path);
    sqlite3_free(path);
    return is_empty ? SQLITE_ERROR : out->path ? SQLITE_OK : SQLITE_NOMEM;
}

/* Takes the arguments as a module gets them: its own name, the schema's and the table's stand before. `path` is to be freed by the
 * caller, whatever is answered. */
static int take_arguments(arguments *out, sqlite3 *db, int argc, const char *const *argv, char **message) {
    *out = (arguments){.limits = NARDSILL_LIMITS};
    int status = take_path(out, db, argv[1], argc > 3 ? argv[3] : "", message);
    for (int i = 4; !status && i < argc; i++) status = take_option(out, argv[i], message);
    return status;
}

#endif
