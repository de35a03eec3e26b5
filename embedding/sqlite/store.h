/* An open index, and what a transaction is about to do to it.
 *
 * All tables of a connection that name the same file share one. SQLite connects a table anew when its schema has changed, while statements
 * that it prepared before, or an open transaction, keep the earlier one. */
#ifndef NARDSILL_STORE_H
#define NARDSILL_STORE_H
#include "arguments.h"
#include "files.h"
#include "pending.h"
#include <errno.h>

/* Rows in order, each once. A row can be marked. */
typedef struct {
    nardsill_row *rows;
    uint8_t *is_marked;
    size_t count;
} row_set;

typedef struct {
    nardsill_entry *entries;
    size_t count, room;
} entry_list;

typedef struct reader reader;
typedef struct store store;

/* What a connection has open. */
typedef struct {
    sqlite3 *db;
    store *stores;
} connection;

struct store {
    connection *of;
    store *next;
    int uses; /* tables that have it */
    struct table *tables; /* these */
    char *path;
    uint32_t frames;
    nardsill *index; /* null until it could be opened */
    int is_unique;
    reader *readers; /* the open ones */
    pending pending;
    /* What the index has of the pending changes: nothing; a part, of a commit or of its undoing that was refused; all but the rows that go; or
     * these are owed alone, since the database is committed. */
    enum { NOTHING, SOME, ADDED, OWED } carried;
    row_set added;   /* rows of the entries that a commit adds */
    row_set gone;    /* rows that go whole */
    row_set changed; /* rows that lose an entry and keep or get another */
    entry_list others; /* entries that stay of rows that are to be deleted: they are put back */
};

/* SQLite's code for a refusal. */
static int code_of(int status) {
    switch (status) {
    case NARDSILL_OK: return SQLITE_OK;
    case NARDSILL_NO_MEMORY: return SQLITE_NOMEM;
    case NARDSILL_IO: case NARDSILL_STOPPED: return SQLITE_IOERR;
    case NARDSILL_EXISTS: case NARDSILL_KEY_EXISTS: return SQLITE_CONSTRAINT;
    case NARDSILL_BLOCKED: case NARDSILL_LOCKED: return SQLITE_BUSY;
    case NARDSILL_INDEX_FULL: case NARDSILL_TOO_TALL: return SQLITE_FULL;
    case NARDSILL_BAD_SUPER: case NARDSILL_BAD_VERSION: case NARDSILL_DEVICE_TOO_SMALL: return SQLITE_NOTADB;
    case NARDSILL_LOG_DAMAGED: case NARDSILL_PAGE_DAMAGED: return SQLITE_CORRUPT_VTAB;
    default: return SQLITE_ERROR;
    }
}

/* Says why a call of the index in this file has just been refused, and gives SQLite's code. */
static int refused(const char *path, int status, char **message) {
    int error = status == NARDSILL_IO ? nardsill_last_fault()->error : 0;
    if (status == NARDSILL_NO_MEMORY) return SQLITE_NOMEM;
    say(message, "nardsill: %s: %s (%s)%s%s", path, nardsill_strerror(status), nardsill_errname(status), error ? ": " : "",
        error ? strerror(error) : "");
    return code_of(status);
}

/* ---- Opening and letting go ---- */

/* Whether the index is what the arguments ask for. */
static int judge_limits(arguments *a, const nardsill_details *details, char **message) {
    const uint32_t has[] = {details->items, details->pages, details->log_bytes, details->unique};
    for (int i = 0; i < (int)(sizeof has / sizeof *has); i++)
        if (a->given & 1u << i && has[i] != *number_at(a, i)) {
            say(message, "nardsill: %s: the file is there, and its index has %s=%u", a->path, options[i].name, has[i]);
            return SQLITE_ERROR;
        }
    return SQLITE_OK;
}

/* Tells how many milliseconds this connection waits for a lock, as `sqlite3_busy_timeout` has set it. Refused if the statement is interrupted. */
static int patience_of(sqlite3 *db, int *patience) {
    sqlite3_stmt *asking = 0;
    *patience = 0;
    int status = sqlite3_prepare_v2(db, "pragma busy_timeout", -1, &asking, 0);
    if (!status && sqlite3_step(asking) == SQLITE_ROW) *patience = sqlite3_column_int(asking, 0);
    return sqlite3_finalize(asking) == SQLITE_INTERRUPT ? SQLITE_INTERRUPT : SQLITE_OK;
}

/* Waits a little for a file that another handle has, behind so many milliseconds. Busy if it has waited long enough. */
static int wait_for_file(sqlite3 *db, int *waited) {
    int patience, status = patience_of(db, &patience), left = patience - *waited, part = 1 + *waited / 4;
    if (status || left <= 0) return status ? status : SQLITE_BUSY;
    if (part > 50) part = 50;
    if (part > left) part = left;
    sqlite3_sleep(part);
    *waited += part;
    return SQLITE_OK;
}

/* Opens the index in a file, or makes it before if there is no such file and limits are given. */
static int open_file(sqlite3 *db, const char *path, uint32_t frames, const nardsill_limits *limits, nardsill **out, char **message) {
    int code = refuse_database_file(db, path, message);
    if (code) return code;
    int status = nardsill_open(path, frames, out);
    if (status == NARDSILL_IO && limits && nardsill_last_fault()->error == ENOENT) {
        /* A making writes there first. */
        char *draft = sqlite3_mprintf("%s.nardsill-draft", path);
        code = draft ? refuse_database_file(db, draft, message) : SQLITE_NOMEM;
        sqlite3_free(draft);
        if (code) return code;
        status = nardsill_create(path, limits);
        if (!status) status = nardsill_open(path, frames, out);
    }
    if (!status) return SQLITE_OK;
    code = refused(path, status, message);
    return code == SQLITE_IOERR ? SQLITE_CANTOPEN : code;
}

/* Opens a store's index, unless it is open. It waits for a file that another handle has, if it is to. */
static int open_index(store *s, const nardsill_limits *limits, int waits, char **message) {
    nardsill_details details = NARDSILL_DETAILS;
    nardsill *index = 0;
    int waited = 0, status, ended = SQLITE_OK;
    if (s->index) return SQLITE_OK;
    do status = open_file(s->of->db, s->path, s->frames, limits, &index, message);
    while (status == SQLITE_BUSY && waits && !(ended = wait_for_file(s->of->db, &waited)));
    if (status) return ended ? ended : status;
    /* While it waited it was told why not. */
    sqlite3_free(*message);
    *message = 0;
    int info = nardsill_info(index, &details);
    if (info) {
        status = refused(s->path, info, message);
        if (nardsill_close(index)) sqlite3_log(status, "nardsill: %s: closing failed", s->path);
        return status;
    }
    s->index = index;
    s->is_unique = details.unique != 0;
    return SQLITE_OK;
}

static store *find_store(connection *of, const char *path) {
    store *s = of->stores;
    while (s && strcmp(s->path, path)) s = s->next;
    return s;
}

/* A store whose index isn't open yet; null if memory is out. */
static store *make_store(connection *of, const arguments *a) {
    store *s = sqlite3_malloc64(sizeof *s);
    char *path = sqlite3_mprintf("%s", a->path);
    if (!s || !path) {
        sqlite3_free(s);
        sqlite3_free(path);
        return 0;
    }
    *s = (store){.of = of, .next = of->stores, .path = path, .frames = a->frames};
    return of->stores = s;
}

static void free_rows(row_set *set) {
    sqlite3_free(set->rows);
    sqlite3_free(set->is_marked);
    *set = (row_set){0};
}

static void end_transaction(store *s);
static int pay_owed(store *s);

/* Lets a store go, and closes its index if no table has it. */
static void let_go(store *s) {
    if (--s->uses > 0) return;
    store **link = &s->of->stores;
    while (*link != s) link = &(*link)->next;
    *link = s->next;
    int status = s->carried == OWED ? pay_owed(s) : 0;
    end_transaction(s);
    int closed = s->index ? nardsill_close(s->index) : 0;
    if (!status) status = closed;
    if (status) sqlite3_log(code_of(status), "nardsill: %s: closing: %s", s->path, nardsill_strerror(status));
    sqlite3_free(s->path);
    sqlite3_free(s);
}

/* Opens the index for a table that is made, or makes it too, and looks whether it is what the arguments ask for. */
static int open_for_new(store *s, arguments *a, int is_in_transaction, char **message) {
    nardsill_details details = NARDSILL_DETAILS;
    /* If a savepoint undoes the making, SQLite doesn't tell the table of it: so the changes of another one would stay, or go. */
    if (s->uses > 1 && is_in_transaction) {
        say(message, "nardsill: %s: another table has this index: end the transaction before another one is made", a->path);
        return SQLITE_LOCKED;
    }
    if (s->pending.num_acts) {
        say(message, "nardsill: %s: the open transaction has changed this index: end it first", a->path);
        return SQLITE_LOCKED;
    }
    int status = open_index(s, &a->limits, 1, message);
    if (status) return status;
    int info = nardsill_info(s->index, &details);
    return info ? refused(s->path, info, message) : judge_limits(a, &details, message);
}

/* The store of the file that the arguments name. A table that is there is connected though its index can't be opened: so it can be dropped.
 * Its first use tries again, and says why not. */
static int take_store(connection *of, arguments *a, int is_new, int is_in_transaction, store **out, char **message) {
    store *s = find_store(of, a->path);
    if (!s) s = make_store(of, a);
    if (!s) return SQLITE_NOMEM;
    s->uses++;
    char *why = 0;
    int status = is_new ? open_for_new(s, a, is_in_transaction, message) : open_index(s, 0, 0, &why);
    sqlite3_free(why);
    if (!is_new && status != SQLITE_NOMEM) status = SQLITE_OK;
    if (status) let_go(s);
    else *out = s;
    return status;
}

/* ---- Reading ---- */

/* Keys from `from` on and below `below`, if that is there. */
typedef struct {
    uint8_t from_len, below_len, has_below;
    uint8_t from[NARDSILL_KEY_MAX], below[NARDSILL_KEY_MAX];
} key_range;

/* Gives what the transaction sees in some ranges, in order: the entries of the index without those removed, and the added ones. It finds
 * the next entry by the last one that it gave. So the index and the pending changes may change meanwhile. */
struct reader {
    store *of;
    reader *next;
    const key_range *ranges; /* in order; none has a key of another */
    int num_ranges, at;
    nardsill_scan *scan; /* null if it isn't begun, or is over */
    int is_read; /* the index has no entry of the range behind those in `few` */
    int num_few, at_few;
    size_t passed; /* removed entries that it has passed over */
    nardsill_entry few[64];
    change *added; /* the next added entry; it stands while the version does */
    uint64_t version;
    uint64_t time; /* what is added later isn't given */
    nardsill_entry entry; /* the last that was given */
    int has_entry, is_over;
};

/* Lets the scan of the index go. The reader begins another one when it reads on. */
static void suspend(reader *r) {
    nardsill_scan_close(r->scan);
    r->scan = 0;
    r->is_read = r->num_few = r->at_few = 0;
}

/* No scan of this connection stands on a page of the index then. */
static void suspend_all(store *s) {
    for (reader *r = s->readers; r; r = r->next) suspend(r);
}

static void begin_reading(reader *r, store *s, const key_range *ranges, int num_ranges) {
    suspend(r);
    r->of = s;
    r->ranges = ranges;
    r->num_ranges = num_ranges;
    r->at = r->has_entry = r->is_over = 0;
    r->version = s->pending.version - 1;
    r->time = s->pending.time;
}

/* Whether the range begins behind the last entry's key. */
static int is_ahead(const reader *r, const key_range *range) {
    return !r->has_entry || compare_keys(r->entry.key, r->entry.key_len, range->from, range->from_len) < 0;
}

static int open_scan(reader *r) {
    const key_range *range = &r->ranges[r->at];
    const uint8_t *from = range->from;
    size_t from_len = range->from_len;
    if (!is_ahead(r, range)) from = r->entry.key, from_len = r->entry.key_len;
    return nardsill_scan_open(r->of->index, from, from_len, range->has_below ? range->below : 0, range->has_below ? range->below_len : 0,
                              &r->scan);
}

/* Reads some entries of the index more. */
static int read_few(reader *r) {
    int status = 0;
    if (!r->scan) {
        status = open_scan(r);
        /* Too many scans are open, or they hold all pages in memory: those of this connection can wait. */
        if (status == NARDSILL_NO_SESSION || status == NARDSILL_NO_FRAME) {
            suspend_all(r->of);
            status = open_scan(r);
        }
    }
    /* A first read may be the only one. */
    size_t count = 0, room = r->num_few ? sizeof r->few / sizeof *r->few : 8;
    r->at_few = r->num_few = 0;
    if (!status) status = nardsill_scan_read(r->scan, r->few, room, &count);
    if (status && status != NARDSILL_DONE) {
        suspend(r);
        return status;
    }
    r->num_few = (int)count;
    if (status == NARDSILL_DONE) {
        nardsill_scan_close(r->scan);
        r->scan = 0;
        r->is_read = 1;
    }
    return 0;
}

/* The next entry of the index that the transaction sees; null if the range has none. */
static int next_stored(reader *r, const nardsill_entry **out) {
    *out = 0;
    while (r->at_few < r->num_few || !r->is_read) {
        if (r->at_few == r->num_few) {
            int status = read_few(r);
            if (status) return status;
            continue;
        }
        const nardsill_entry *entry = &r->few[r->at_few];
        int is_given = r->has_entry && compare_entries(entry, &r->entry) <= 0;
        const change *c = is_given ? 0 : find_change(&r->of->pending, entry);
        /* One that was removed may have been added again, later than this reading began. */
        if (!is_given && (!c || (c->now && c->since <= r->time))) {
            *out = entry;
            return 0;
        }
        r->passed += !is_given;
        r->at_few++;
    }
    return 0;
}

static int is_in(const key_range *range, const nardsill_entry *entry) {
    return !range->has_below || compare_keys(entry->key, entry->key_len, range->below, range->below_len) < 0;
}

/* The first added entry of the range, or behind the last one that was given. */
static change *seek_added(reader *r, const key_range *range) {
    nardsill_entry from = {.key_len = range->from_len};
    memcpy(from.key, range->from, range->from_len);
    int is_first = is_ahead(r, range);
    if (!is_first) from = r->entry;
    change *c = seek_added_change(&r->of->pending, &from, 0);
    if (c && !is_first && !compare_entries(&c->entry, &from)) c = next_added_of(c)[0];
    for (; c && c->since > r->time; c = next_added_of(c)[0]) STEP;
    return c;
}

/* Whether the added entry that was found last is still the next one. A change is freed, or comes back, only when the version has gone on. */
static int is_still_next(const reader *r) {
    const change *c = r->added;
    if (r->version != r->of->pending.version) return 0;
    return !c || (is_added(c) && c->since <= r->time && !(r->has_entry && compare_entries(&c->entry, &r->entry) <= 0));
}

/* The next entry that the transaction adds; null if the range has none. */
static const nardsill_entry *next_added(reader *r) {
    pending *p = &r->of->pending;
    const key_range *range = &r->ranges[r->at];
    if (!p->first_added[0]) return 0;
    if (!is_still_next(r)) {
        r->added = seek_added(r, range);
        r->version = p->version;
    }
    return r->added && is_in(range, &r->added->entry) ? &r->added->entry : 0;
}

/* Goes to the next entry. */
static int read_next(reader *r) {
    for (; r->at < r->num_ranges; r->at++, suspend(r), r->version = r->of->pending.version - 1) {
        const nardsill_entry *stored, *added = next_added(r);
        int status = next_stored(r, &stored);
        if (status) return status;
        const nardsill_entry *next = !stored || (added && compare_entries(added, stored) < 0) ? added : stored;
        if (!next) continue;
        r->entry = *next;
        r->has_entry = 1;
        return 0;
    }
    r->is_over = 1;
    return 0;
}

/* Makes the first key behind this one; 0 if there is none. */
static int make_successor(uint8_t *key, uint8_t *len) {
    if (*len < NARDSILL_KEY_MAX) {
        key[(*len)++] = 0;
        return 1;
    }
    for (; *len; --*len)
        if (key[*len - 1] < 255) {
            key[*len - 1]++;
            return 1;
        }
    return 0;
}

/* The keys from this one up to itself. */
static key_range range_of_key(const void *key, size_t len) {
    key_range range = {.from_len = (uint8_t)len, .below_len = (uint8_t)len};
    if (len) {
        memcpy(range.from, key, len);
        memcpy(range.below, key, len);
    }
    range.has_below = (uint8_t)make_successor(range.below, &range.below_len);
    return range;
}

/* Whether the transaction sees this entry; and what is known of the gap behind it. */
static int look_up(store *s, const nardsill_entry *entry, int *is_there, gap *behind) {
    const change *c = find_change(&s->pending, entry);
    *behind = c ? c->behind : gap_around(&s->pending, entry);
    *is_there = c && c->now;
    if (c || behind->is_known) return 0;
    const key_range range = range_of_key(entry->key, entry->key_len);
    const nardsill_entry *stored = 0;
    reader r = {0};
    begin_reading(&r, s, &range, 1);
    /* No entry has offset 0: nothing lies between. */
    r.entry = *entry;
    r.entry.row.offset--;
    r.has_entry = 1;
    int status = next_stored(&r, &stored);
    *is_there = stored && !compare_entries(stored, entry);
    if (!status && !*is_there) *behind = (gap){1, !stored, stored ? stored->row : (nardsill_row){0, 0}};
    suspend(&r);
    return status;
}

/* Whether the transaction sees an entry of this key, and which is the first. */
static int look_up_key(store *s, const nardsill_entry *of_key, int *is_there, nardsill_entry *found) {
    const key_range range = range_of_key(of_key->key, of_key->key_len);
    reader r = {0};
    begin_reading(&r, s, &range, 1);
    int status = read_next(&r);
    *is_there = !status && !r.is_over;
    *found = r.entry;
    suspend(&r);
    return status;
}

/* ---- Committing ---- */

/* Calls `visit` for each entry of the index, up to the first that it refuses. */
static int each_stored(store *s, int (*visit)(void *, const nardsill_entry *), void *with) {
    nardsill_scan *scan;
    nardsill_entry few[64];
    int status = nardsill_scan_open(s->index, 0, 0, 0, 0, &scan), answer = 0;
    if (status) return status;
    while (!status && !answer) {
        size_t count = 0;
        status = nardsill_scan_read(scan, few, sizeof few / sizeof *few, &count);
        for (size_t i = 0; i < count && !answer; i++) answer = visit(with, &few[i]);
    }
    nardsill_scan_close(scan);
    return answer ? answer : status == NARDSILL_DONE ? 0 : status;
}

/* The rows of the entries that are removed; or of those that are added. 0 if memory is out. */
static int gather_rows(pending *p, int (*is_wanted)(const change *), row_set *out) {
    size_t count = 0;
    for (change *c = p->first[0]; c; c = c->next[0]) count += (size_t)is_wanted(c);
    *out = (row_set){0};
    if (!count) return 1;
    out->rows = sqlite3_malloc64(count * sizeof *out->rows);
    out->is_marked = sqlite3_malloc64(count);
    if (!out->rows || !out->is_marked) {
        free_rows(out);
        return 0;
    }
    for (change *c = p->first[0]; c; c = c->next[0])
        if (is_wanted(c)) out->rows[out->count++] = c->entry.row;
    qsort(out->rows, count, sizeof *out->rows, compare_rows);
    memset(out->is_marked, 0, count);
    out->count = 1;
    for (size_t i = 1; i < count; i++)
        if (compare_rows(&out->rows[i], &out->rows[out->count - 1])) out->rows[out->count++] = out->rows[i];
    return 1;
}

/* The place of a row, or -1. */
static ptrdiff_t place_of(const row_set *set, nardsill_row row) {
    const nardsill_row *found = set->count ? bsearch(&row, set->rows, set->count, sizeof row, compare_rows) : 0;
    return found ? found - set->rows : -1;
}

/* Adds an entry to a list; 0 if memory is out. */
static int note_entry(entry_list *list, const nardsill_entry *entry) {
    if (list->count == list->room) {
        size_t room = 2 * list->room + 16;
        nardsill_entry *entries = sqlite3_realloc64(list->entries, room * sizeof *entries);
        if (!entries) return 0;
        list->entries = entries;
        list->room = room;
    }
    list->entries[list->count++] = *entry;
    return 1;
}

/* The removed entry with the key of this one; null if there is none. */
static change *removed_of_key(pending *p, const change *of) {
    nardsill_entry from = of->entry;
    from.row = (nardsill_row){0, 0};
    for (change *c = seek_change(p, &from, 0); c; c = c->next[0]) {
        if (compare_keys(c->entry.key, c->entry.key_len, from.key, from.key_len)) return 0;
        if (is_removed(c)) return c;
    }
    return 0;
}

/* Whether an added entry can come only when another one is gone: one of its row, or on a unique index the one of its key. */
static int waits_for_removal(store *s, const change *c) {
    if (!s->changed.count) return 0;
    return place_of(&s->changed, c->entry.row) >= 0 || (s->is_unique && removed_of_key(&s->pending, c));
}

/* Marks the rows of removed entries for which added ones wait. */
static void mark_changed(store *s, row_set *removed) {
    for (change *c = s->pending.first_added[0]; c; c = next_added_of(c)[0]) {
        const change *goes = s->is_unique ? removed_of_key(&s->pending, c) : 0;
        ptrdiff_t own = place_of(removed, c->entry.row), of_key = goes ? place_of(removed, goes->entry.row) : -1;
        if (own >= 0) removed->is_marked[own] = 1;
        if (of_key >= 0) removed->is_marked[of_key] = 1;
    }
}

typedef struct {
    store *of;
    row_set *removed;
} judging;

/* Marks a row that keeps this entry, and notes it. */
static int judge_entry(void *with, const nardsill_entry *entry) {
    judging *j = with;
    ptrdiff_t place = place_of(j->removed, entry->row);
    if (place < 0) return 0;
    const change *c = find_change(&j->of->pending, entry);
    if (c && is_removed(c)) return 0;
    j->removed->is_marked[place] = 1;
    return note_entry(&j->of->others, entry) ? 0 : NARDSILL_NO_MEMORY;
}

/* Keeps the rows whose mark is this one. */
static void keep_marked(row_set *set, int mark) {
    size_t kept = 0;
    for (size_t i = 0; i < set->count; i++)
        if (set->is_marked[i] == mark) set->rows[kept++] = set->rows[i];
    set->count = kept;
    if (kept) memset(set->is_marked, 0, kept);
}

/* Copies a set of rows; 0 if memory is out. */
static int copy_rows(const row_set *set, row_set *out) {
    if (!set->count) return 1;
    out->rows = sqlite3_malloc64(set->count * sizeof *out->rows);
    out->is_marked = sqlite3_malloc64(set->count);
    if (!out->rows || !out->is_marked) {
        free_rows(out);
        return 0;
    }
    memcpy(out->rows, set->rows, set->count * sizeof *out->rows);
    memcpy(out->is_marked, set->is_marked, set->count);
    out->count = set->count;
    return 1;
}

static void forget_plan(store *s) {
    free_rows(&s->added);
    free_rows(&s->gone);
    free_rows(&s->changed);
    sqlite3_free(s->others.entries);
    s->others = (entry_list){0};
}

/* Parts the rows of removed entries: those that go whole, and those that keep or get another entry. */
static int plan_commit(store *s, char **message) {
    forget_plan(s);
    if (!gather_rows(&s->pending, is_added, &s->added) || !gather_rows(&s->pending, is_removed, &s->gone)) return SQLITE_NOMEM;
    if (!s->gone.count) return SQLITE_OK;
    judging j = {.of = s, .removed = &s->gone};
    mark_changed(s, &s->gone);
    suspend_all(s);
    int status = each_stored(s, judge_entry, &j);
    if (status) return refused(s->path, status, message);
    if (!copy_rows(&s->gone, &s->changed)) return SQLITE_NOMEM;
    keep_marked(&s->changed, 1);
    keep_marked(&s->gone, 0);
    return SQLITE_OK;
}

/* Adds the added entries: those that wait for the removal of another, or the rest. */
static int add_entries(store *s, int that_wait) {
    nardsill_entry few[64];
    size_t count = 0, done;
    for (change *c = s->pending.first_added[0]; c; c = next_added_of(c)[0]) {
        if (waits_for_removal(s, c) == that_wait) few[count++] = c->entry;
        if (count < sizeof few / sizeof *few) continue;
        int status = nardsill_insert_many(s->index, few, count, &done);
        if (status) return status;
        count = 0;
    }
    return count ? nardsill_insert_many(s->index, few, count, &done) : 0;
}

static int delete_rows(store *s, const row_set *set) {
    nardsill_stats stats = NARDSILL_STATS;
    return set->count ? nardsill_delete_rows(s->index, set->rows, set->count, &stats) : 0;
}

static int commit_index(store *s) {
    uint64_t actions;
    return nardsill_commit(s->index, &actions);
}

static int put_back(store *s, const nardsill_entry *entry) {
    int status = nardsill_insert(s->index, entry->key, entry->key_len, entry->row, 0);
    return status == NARDSILL_EXISTS ? 0 : status;
}

/* Puts back the entries that went because their row did. */
static int put_others_back(store *s) {
    int status = 0;
    for (size_t i = 0; i < s->others.count && !status; i++) status = put_back(s, &s->others.entries[i]);
    return status;
}

/* Marks the row of an entry that was added, and notes another one of such a row. */
static int sort_entry(void *with, const nardsill_entry *entry) {
    store *s = with;
    ptrdiff_t place = place_of(&s->added, entry->row);
    if (place < 0) return 0;
    const change *c = find_change(&s->pending, entry);
    if (c && is_added(c)) s->added.is_marked[place] = 1;
    else if (!note_entry(&s->others, entry)) return NARDSILL_NO_MEMORY;
    return 0;
}

/* Puts back the entries that were removed from rows that have others. */
static int put_removed_back(store *s) {
    int status = 0;
    for (change *c = s->pending.first[0]; c && !status; c = c->next[0])
        if (is_removed(c) && place_of(&s->changed, c->entry.row) >= 0) status = put_back(s, &c->entry);
    return status;
}

/* Nothing of the pending changes is in the index. */
static void nothing_is_carried(store *s) {
    forget_plan(s);
    s->carried = NOTHING;
}

/* Gives the log its whole room, so that no entry is deleted on the disk before it is put back there. All that was done is durable already. */
static int empty_log(store *s) {
    uint64_t actions;
    return (s->others.count || s->changed.count) && s->carried == ADDED ? nardsill_checkpoint(s->index, &actions) : 0;
}

/* Undoes in the index whatever was carried out. The pending changes stay. It can be called again if it was refused. */
static int take_back(store *s) {
    int has_changed = s->added.count || s->changed.count;
    suspend_all(s);
    int status = s->added.count ? each_stored(s, sort_entry, s) : 0;
    if (!status) status = empty_log(s);
    if (!status) {
        s->carried = SOME;
        keep_marked(&s->added, 1);
        status = delete_rows(s, &s->added);
    }
    if (!status) status = put_others_back(s);
    if (!status) status = put_removed_back(s);
    if (!status && has_changed) status = commit_index(s);
    if (!status) nothing_is_carried(s);
    return status;
}

/* Says that neither a commit nor its undoing went through. `message` says why the commit didn't. */
static void say_part(int status, char **message) {
    char *why = *message;
    *message = sqlite3_mprintf("%s, and what was done before can't be undone: %s (%s). The index may hold a part of the transaction",
                               why ? why : "nardsill: out of memory", nardsill_strerror(status), nardsill_errname(status));
    sqlite3_free(why);
}

/* Carries out the changes, but for the rows that go. What needs room comes first: so a full index refuses before anything is deleted, but
 * for the rows that lose an entry and keep or get another. If a step is refused, takes back what was done before it. */
static int carry_out(store *s, char **message) {
    s->carried = SOME;
    suspend_all(s);
    int status = add_entries(s, 0);
    if (!status) status = delete_rows(s, &s->changed);
    if (!status) status = put_others_back(s);
    if (!status) status = add_entries(s, 1);
    if (!status && (s->added.count || s->changed.count)) status = commit_index(s);
    if (!status) {
        s->carried = ADDED;
        return SQLITE_OK;
    }
    int code = refused(s->path, status, message), undone = take_back(s);
    if (undone) say_part(undone, message);
    return code;
}

/* Makes the pending changes durable, but for the rows that go. They stay pending until the commit has ended, for it may still fail. */
static int sync_store(store *s, char **message) {
    int status = s->carried == SOME ? take_back(s) : 0;
    if (status) return refused(s->path, status, message);
    if (s->carried == ADDED || !s->pending.num_acts) return SQLITE_OK;
    int code = plan_commit(s, message);
    if (code) nothing_is_carried(s);
    return code ? code : carry_out(s, message);
}

/* Ends the transaction. */
static void end_transaction(store *s) {
    nothing_is_carried(s);
    forget_changes(&s->pending);
}

/* Deletes the rows that go, and ends the transaction. If it is refused, they stay owed. */
static int pay_owed(store *s) {
    s->carried = OWED;
    suspend_all(s);
    int status = delete_rows(s, &s->gone);
    if (!status && s->gone.count) status = commit_index(s);
    if (!status) end_transaction(s);
    return status;
}

/* Before a table is used: its index is open, and owes nothing. */
static int prepare_store(store *s, char **message) {
    int status = open_index(s, 0, 1, message);
    if (status || s->carried != OWED) return status;
    int paid = pay_owed(s);
    return paid ? refused(s->path, paid, message) : SQLITE_OK;
}

/* Brings a commit back that SQLite hasn't ended, so that the transaction can go on. */
static int reopen_transaction(store *s, char **message) {
    int status = s->carried == NOTHING ? 0 : take_back(s);
    return status ? refused(s->path, status, message) : SQLITE_OK;
}

#endif
