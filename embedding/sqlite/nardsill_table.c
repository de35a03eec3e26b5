/* An index as a virtual table of SQLite, 3.38 or later:
 *
 *     .load ./nardsill_table
 *     create virtual table t using nardsill('file.idx');        -- opens the index in the file, or makes one
 *     insert into t values ('alice', 7, 1);                       -- key, block, offset
 *     select * from t where key >= 'alice' and key < 'bob';       -- a range scan
 *     delete from t where block = 7;
 *     select nardsill_check('file.idx');                          -- what the verifier says of a file that nobody has open
 *
 * The file: a relative path is beside the file of the database. If the database has none, it is in the working directory. `create`
 * makes the index if there is no file. `drop` leaves the file. One connection has the file at a time.
 *
 * Arguments behind the file, in any order:
 *
 *     key=text | key=blob     what each key of the table is: text if nothing is said
 *     items=  pages=  log_bytes=  unique=1     of the index that is made (nardsill.h, "Sizes"); for one that is there, what it must have
 *     frames=                 pages in memory, 16 to 1024
 *
 * Keys have up to 64 bytes and are compared by them. A comparison of `key` by =, <, <=, >, >=, between or in reads a range of the index, if
 * the value has the table's type. `order by key`, or `key, block, offset`, needs no sorting. A hidden column `entry`, a blob, is the primary
 * key: the key's bytes, then the block and the offset, high bytes first.
 *
 * A transaction's changes are in memory until it is committed; its own statements see them. `rollback` and savepoints are SQLite's. Entries
 * are added before the database is committed, and rows deleted behind it. The index can only delete all entries of a row together: those that
 * stay of such a row are put back. */
#include <sqlite3ext.h>
SQLITE_EXTENSION_INIT1
#include "backward.h"

#if SQLITE_VERSION_NUMBER < 3038000
#error "the header of SQLite 3.38 or later is wanted"
#endif

typedef struct table table;
struct table {
    sqlite3_vtab base;
    table *next; /* of its store's */
    sqlite3 *db;
    store *of;
    int is_blob;
    int is_new; /* made in the transaction that is open */
    char *schema, *name;
};

typedef struct {
    sqlite3_vtab_cursor base;
    reader reads;
    key_range *ranges;
    int num_ranges, room;
    int is_backward;
    backward back;
} cursor;

static const char text_columns[] =
    "create table t (key text not null, block integer not null, offset integer not null, entry blob hidden primary key) without rowid";
static const char blob_columns[] =
    "create table t (key blob not null, block integer not null, offset integer not null, entry blob hidden primary key) without rowid";
enum { KEY, BLOCK, OFFSET, ENTRY };

/* ---- Connecting ---- */

static int free_table(table *t) {
    sqlite3_free(t->base.zErrMsg);
    sqlite3_free(t->schema);
    sqlite3_free(t->name);
    sqlite3_free(t);
    return SQLITE_OK;
}

/* Text is compared by its bytes only if the database keeps it as UTF-8. */
static int judge_encoding(sqlite3 *db, char **message) {
    sqlite3_stmt *asking = 0;
    int status = sqlite3_prepare_v2(db, "pragma encoding", -1, &asking, 0);
    if (!status && sqlite3_step(asking) == SQLITE_ROW && sqlite3_stricmp((const char *)sqlite3_column_text(asking, 0), "UTF-8")) {
        say(message, "nardsill: the database's encoding isn't UTF-8: use key=blob");
        status = SQLITE_ERROR;
    }
    sqlite3_finalize(asking);
    return status;
}

static int declare(sqlite3 *db, int is_blob) {
    int status = sqlite3_declare_vtab(db, is_blob ? blob_columns : text_columns);
    if (!status) status = sqlite3_vtab_config(db, SQLITE_VTAB_CONSTRAINT_SUPPORT, 1);
    return status ? status : sqlite3_vtab_config(db, SQLITE_VTAB_DIRECTONLY);
}

/* Makes the table over the index that the arguments name. */
static int start(table *t, connection *of, arguments *a, int may_make, const char *const *argv, char **message) {
    t->is_blob = a->is_blob;
    t->schema = sqlite3_mprintf("%s", argv[1]);
    t->name = sqlite3_mprintf("%s", argv[2]);
    if (!t->schema || !t->name) return SQLITE_NOMEM;
    int status = a->is_blob ? SQLITE_OK : judge_encoding(t->db, message);
    if (!status) status = declare(t->db, a->is_blob);
    if (!status) status = take_store(of, a, may_make, !sqlite3_get_autocommit(t->db), &t->of, message);
    if (status) return status;
    t->next = t->of->tables;
    t->of->tables = t;
    return SQLITE_OK;
}

static int start_table(sqlite3 *db, void *aux, int argc, const char *const *argv, sqlite3_vtab **out, char **message, int may_make) {
    table *t = sqlite3_malloc64(sizeof *t);
    if (!t) return SQLITE_NOMEM;
    *t = (table){.db = db, .is_new = may_make && !sqlite3_get_autocommit(db)};
    arguments a;
    int status = take_arguments(&a, db, argc, argv, message);
    if (!status) status = start(t, aux, &a, may_make, argv, message);
    sqlite3_free(a.path);
    if (status) free_table(t);
    else *out = &t->base;
    return status;
}

static int create_table(sqlite3 *db, void *aux, int argc, const char *const *argv, sqlite3_vtab **out, char **message) {
    return start_table(db, aux, argc, argv, out, message, 1);
}

/* A table that is there has its file: none is made in its place. */
static int connect_table(sqlite3 *db, void *aux, int argc, const char *const *argv, sqlite3_vtab **out, char **message) {
    return start_table(db, aux, argc, argv, out, message, 0);
}

static int disconnect(sqlite3_vtab *base) {
    table *t = (table *)base, **link = &t->of->tables;
    while (*link != t) link = &(*link)->next;
    *link = t->next;
    let_go(t->of);
    return free_table(t);
}

/* A table can't be dropped by the transaction that has changed its index: if it went back to a savepoint, the changes would be lost. */
static int destroy(sqlite3_vtab *base) {
    const store *s = ((table *)base)->of;
    return s->pending.num_acts && s->carried != OWED ? SQLITE_LOCKED : disconnect(base);
}

static int rename_table(sqlite3_vtab *base, const char *name) {
    table *t = (table *)base;
    char *copy = sqlite3_mprintf("%s", name);
    if (!copy) return SQLITE_NOMEM;
    sqlite3_free(t->name);
    t->name = copy;
    return SQLITE_OK;
}

/* ---- Planning ---- */

/* What a plan's number tells of the values that it is given: the first is of the lower end, the last of the upper one. */
enum {
    FROM = 1,      /* keys from the value on */
    PAST = 2,      /* keys behind it */
    BELOW = 4,     /* keys below the value */
    UP_TO = 8,     /* keys below it, and itself */
    IS_LIST = 16,  /* the keys of a list of values */
    IS_ENTRY = 32, /* the key of this entry */
    IS_LITERAL = 64, /* the upper end is written in the statement */
    BACKWARD = 128 /* from the last key to the first */
};

/* Whether a constraint can narrow a scan: one that compares by bytes. */
static int can_narrow(sqlite3_index_info *info, int which, int column) {
    const struct sqlite3_index_constraint *c = &info->aConstraint[which];
    return c->usable && c->iColumn == column && !sqlite3_stricmp(sqlite3_vtab_collation(info, which), "BINARY");
}

/* The first constraint of a column with one of two operators, or -1. */
static int find_constraint(sqlite3_index_info *info, int column, int op, int or_op) {
    for (int i = 0; i < info->nConstraint; i++) {
        int has = info->aConstraint[i].op;
        if ((has == op || has == or_op) && can_narrow(info, i, column)) return i;
    }
    return -1;
}

/* The first plain equality with `key`. Else the first list of values for it, or -1. */
static int find_equality(sqlite3_index_info *info, int *is_list) {
    int list = -1;
    for (int i = 0; i < info->nConstraint; i++) {
        int op = info->aConstraint[i].op;
        if ((op != SQLITE_INDEX_CONSTRAINT_EQ && op != SQLITE_INDEX_CONSTRAINT_IS) || !can_narrow(info, i, KEY)) continue;
        *is_list = 0;
        if (!sqlite3_vtab_in(info, i, -1)) return i;
        if (list < 0) list = i;
    }
    *is_list = list >= 0;
    return list;
}

/* Whether a constraint's value is written in the statement. */
static int is_literal(sqlite3_index_info *info, int which) {
    sqlite3_value *value = 0;
    return sqlite3_vtab_rhs_value(info, which, &value) == SQLITE_OK && value;
}

/* Uses the ends of a range of keys, and tells how many it has. */
static int use_range(sqlite3_index_info *info) {
    int used = 0, from = find_constraint(info, KEY, SQLITE_INDEX_CONSTRAINT_GE, SQLITE_INDEX_CONSTRAINT_GT);
    int below = find_constraint(info, KEY, SQLITE_INDEX_CONSTRAINT_LE, SQLITE_INDEX_CONSTRAINT_LT);
    if (from >= 0) {
        info->aConstraintUsage[from].argvIndex = ++used;
        info->idxNum |= info->aConstraint[from].op == SQLITE_INDEX_CONSTRAINT_GE ? FROM : PAST;
    }
    if (below >= 0) {
        info->aConstraintUsage[below].argvIndex = ++used;
        info->idxNum |= info->aConstraint[below].op == SQLITE_INDEX_CONSTRAINT_LT ? BELOW : UP_TO;
        if (is_literal(info, below)) info->idxNum |= IS_LITERAL;
    }
    return used;
}

/* Whether the wanted order is the index's, or a beginning of it. */
static int is_in_order(const sqlite3_index_info *info) {
    if (!info->nOrderBy || info->nOrderBy > 3) return 0;
    for (int i = 0; i < info->nOrderBy; i++)
        if (info->aOrderBy[i].iColumn != KEY + i || info->aOrderBy[i].desc) return 0;
    return 1;
}

/* Whether the keys are wanted from the last to the first. */
static int is_backward(const sqlite3_index_info *info) {
    return info->nOrderBy == 1 && info->aOrderBy[0].iColumn == KEY && info->aOrderBy[0].desc;
}

static void expect(sqlite3_index_info *info, double rows, double cost) {
    info->estimatedRows = (sqlite3_int64)rows;
    info->estimatedCost = cost;
}

/* SQLite judges each constraint itself, whatever the scan is narrowed to. */
static int best_index(sqlite3_vtab *base, sqlite3_index_info *info) {
    store *s = ((table *)base)->of;
    nardsill_details details = NARDSILL_DETAILS;
    int is_list = 0, equality = find_equality(info, &is_list), entry = find_constraint(info, ENTRY, SQLITE_INDEX_CONSTRAINT_EQ, -1);
    double all = nardsill_info(s->index, &details) ? 100000 : 35.0 * details.pages_used + 35;
    info->idxNum = 0;
    info->orderByConsumed = is_in_order(info);
    if (entry >= 0) {
        info->idxNum = FROM | UP_TO | IS_ENTRY;
        info->aConstraintUsage[entry].argvIndex = 1;
        expect(info, 1, 12);
    } else if (equality >= 0) {
        info->idxNum = FROM | UP_TO;
        if (is_list && sqlite3_vtab_in(info, equality, 1)) info->idxNum |= IS_LIST;
        info->aConstraintUsage[equality].argvIndex = 1;
        expect(info, s->is_unique ? 1 : 4, 15);
        if (is_list) expect(info, 25, 100);
    } else {
        int ends = use_range(info);
        if (is_backward(info)) info->idxNum |= BACKWARD, info->orderByConsumed = 1;
        double part = ends == 2 ? 16 : ends == 1 ? 4 : 1;
        expect(info, all / part + 1, all / part + 20);
    }
    return SQLITE_OK;
}

/* ---- Reading ---- */

static int open_cursor(sqlite3_vtab *base, sqlite3_vtab_cursor **out) {
    store *s = ((table *)base)->of;
    int status = prepare_store(s, &base->zErrMsg);
    cursor *c = status ? 0 : sqlite3_malloc64(sizeof *c);
    if (!c) return status ? status : SQLITE_NOMEM;
    memset(c, 0, sizeof *c);
    c->reads.of = s;
    c->reads.is_over = 1;
    c->reads.next = s->readers;
    s->readers = &c->reads;
    *out = &c->base;
    return SQLITE_OK;
}

static int close_cursor(sqlite3_vtab_cursor *base) {
    cursor *c = (cursor *)base;
    reader **link = &c->reads.of->readers;
    while (*link != &c->reads) link = &(*link)->next;
    *link = c->reads.next;
    suspend(&c->reads);
    end_backward(&c->back);
    sqlite3_free(c->ranges);
    sqlite3_free(c);
    return SQLITE_OK;
}

/* The key that a value is: it has the table's type. `len` may be above 64. 0 if memory is out. */
static int bytes_of(const table *t, sqlite3_value *value, const uint8_t **bytes, size_t *len) {
    *bytes = t->is_blob ? sqlite3_value_blob(value) : sqlite3_value_text(value);
    *len = (size_t)sqlite3_value_bytes(value);
    return *bytes || (t->is_blob && !*len);
}

static int has_type(const table *t, sqlite3_value *value) {
    return sqlite3_value_type(value) == (t->is_blob ? SQLITE_BLOB : SQLITE_TEXT);
}

/* Adds a range to those that a cursor reads; 0 if memory is out. */
static int add_range(cursor *c, const key_range *range) {
    if (c->num_ranges == c->room) {
        int room = 2 * c->room + 1;
        key_range *ranges = sqlite3_realloc64(c->ranges, (size_t)room * sizeof *ranges);
        if (!ranges) return 0;
        c->ranges = ranges;
        c->room = room;
    }
    c->ranges[c->num_ranges++] = *range;
    return 1;
}

static int compare_ranges(const void *a, const void *b) {
    const key_range *one = a, *other = b;
    return compare_keys(one->from, one->from_len, other->from, other->from_len);
}

/* Makes a range for each value of a list, in order. One range is of all keys if a value isn't of the table's type. */
static int range_list(cursor *c, sqlite3_value *list) {
    const table *t = (table *)c->base.pVtab;
    const key_range all = {0};
    sqlite3_value *value = 0;
    int status = sqlite3_vtab_in_first(list, &value);
    for (; !status && value; status = sqlite3_vtab_in_next(list, &value)) {
        const uint8_t *bytes;
        size_t len;
        if (sqlite3_value_type(value) == SQLITE_NULL) continue;
        if (!has_type(t, value)) {
            c->num_ranges = 0;
            return add_range(c, &all) ? SQLITE_OK : SQLITE_NOMEM;
        }
        if (!bytes_of(t, value, &bytes, &len)) return SQLITE_NOMEM;
        if (len > NARDSILL_KEY_MAX) continue;
        const key_range range = range_of_key(bytes, len);
        if (!add_range(c, &range)) return SQLITE_NOMEM;
    }
    if (c->num_ranges) qsort(c->ranges, (size_t)c->num_ranges, sizeof *c->ranges, compare_ranges);
    return status == SQLITE_DONE ? SQLITE_OK : status;
}

/* A longer value lies behind its first 64 bytes, and no key lies between. Tells in how many bytes it is a key. */
static uint8_t cut(const uint8_t *bytes, size_t len, uint8_t *out) {
    uint8_t kept = (uint8_t)(len < NARDSILL_KEY_MAX ? len : NARDSILL_KEY_MAX);
    if (kept) memcpy(out, bytes, kept);
    return kept;
}

/* Sets the lower end; `is_empty` if no key is behind it. */
static void set_from(key_range *range, int plan, const uint8_t *bytes, size_t len, int *is_empty) {
    range->from_len = cut(bytes, len, range->from);
    if ((plan & PAST || len > NARDSILL_KEY_MAX) && !make_successor(range->from, &range->from_len)) *is_empty = 1;
}

/* Sets the upper end. SQLite compares a key that looks like a number as a number if the other side is a column of numbers, and any number
 * is below any text. So an end that may be of such a column lets all through that begins as a number does: each is below a colon. */
static void set_below(key_range *range, int plan, int is_cautious, const uint8_t *bytes, size_t len) {
    if (is_cautious && (!len || *bytes < ':')) {
        range->below[0] = ':';
        range->below_len = range->has_below = 1;
        return;
    }
    range->below_len = cut(bytes, len, range->below);
    range->has_below = 1;
    if (plan & UP_TO || len > NARDSILL_KEY_MAX) range->has_below = (uint8_t)make_successor(range->below, &range->below_len);
}

/* Makes the range of a plan. A value that isn't of the table's type narrows nothing, and with null no comparison is true. */
static int range_between(cursor *c, int plan, int argc, sqlite3_value **argv) {
    const table *t = (table *)c->base.pVtab;
    key_range range = {0};
    int is_empty = 0;
    const uint8_t *bytes;
    size_t len;
    for (int i = 0; i < argc; i++) is_empty |= sqlite3_value_type(argv[i]) == SQLITE_NULL;
    if (!is_empty && plan & (FROM | PAST) && has_type(t, argv[0])) {
        if (!bytes_of(t, argv[0], &bytes, &len)) return SQLITE_NOMEM;
        set_from(&range, plan, bytes, len, &is_empty);
    }
    if (!is_empty && plan & (BELOW | UP_TO) && has_type(t, argv[argc - 1])) {
        sqlite3_value *value = argv[argc - 1];
        int is_equality = plan & FROM && argc == 1;
        int is_cautious = !t->is_blob && !is_equality && !(plan & IS_LITERAL) && !sqlite3_value_frombind(value);
        if (!bytes_of(t, value, &bytes, &len)) return SQLITE_NOMEM;
        set_below(&range, plan, is_cautious, bytes, len);
    }
    return is_empty || add_range(c, &range) ? SQLITE_OK : SQLITE_NOMEM;
}

enum { ROW_BYTES = 6 };

/* Makes the range of an entry's key. What is no entry has none. */
static int range_of_entry(cursor *c, sqlite3_value *value) {
    size_t len = sqlite3_value_type(value) == SQLITE_BLOB ? (size_t)sqlite3_value_bytes(value) : 0;
    if (len < ROW_BYTES || len > NARDSILL_KEY_MAX + ROW_BYTES) return SQLITE_OK;
    const key_range range = range_of_key(sqlite3_value_blob(value), len - ROW_BYTES);
    return add_range(c, &range) ? SQLITE_OK : SQLITE_NOMEM;
}

static int next(sqlite3_vtab_cursor *base) {
    cursor *c = (cursor *)base;
    reader *r = &c->reads;
    int status = c->is_backward ? read_back(&c->back, r) : read_next(r);
    if (!status) return SQLITE_OK;
    r->is_over = 1;
    return refused(r->of->path, status, &base->pVtab->zErrMsg);
}

static int filter(sqlite3_vtab_cursor *base, int plan, const char *text, int argc, sqlite3_value **argv) {
    (void)text;
    cursor *c = (cursor *)base;
    c->num_ranges = 0;
    int status = plan & IS_LIST ? range_list(c, argv[0]) : plan & IS_ENTRY ? range_of_entry(c, argv[0]) : range_between(c, plan, argc, argv);
    if (status) {
        c->reads.is_over = 1;
        return status;
    }
    c->is_backward = plan & BACKWARD && c->num_ranges;
    if (c->is_backward) begin_backward(&c->back, c->reads.of, c->ranges);
    begin_reading(&c->reads, c->reads.of, c->ranges, c->num_ranges);
    return next(base);
}

static int is_over(sqlite3_vtab_cursor *base) { return ((cursor *)base)->reads.is_over; }

/* The key's bytes, the block, the offset. */
static int spell_entry(const nardsill_entry *entry, uint8_t *out) {
    uint8_t *row = out + entry->key_len;
    memcpy(out, entry->key, entry->key_len);
    for (int i = 0; i < 4; i++) row[i] = (uint8_t)(entry->row.block >> (24 - 8 * i));
    row[4] = (uint8_t)(entry->row.offset >> 8);
    row[5] = (uint8_t)entry->row.offset;
    return entry->key_len + ROW_BYTES;
}

static int column(sqlite3_vtab_cursor *base, sqlite3_context *context, int which) {
    const nardsill_entry *entry = &((cursor *)base)->reads.entry;
    uint8_t spelt[NARDSILL_KEY_MAX + ROW_BYTES];
    if (which == BLOCK) sqlite3_result_int64(context, entry->row.block);
    else if (which == OFFSET) sqlite3_result_int(context, entry->row.offset);
    else if (which == ENTRY) sqlite3_result_blob(context, spelt, spell_entry(entry, spelt), SQLITE_TRANSIENT);
    else if (((table *)base->pVtab)->is_blob) sqlite3_result_blob(context, entry->key, entry->key_len, SQLITE_TRANSIENT);
    else sqlite3_result_text(context, (const char *)entry->key, entry->key_len, SQLITE_TRANSIENT);
    return SQLITE_OK;
}

/* ---- Changing ---- */

/* The entry that `spell_entry` spelt; 0 if it is none. */
static int parse_entry(sqlite3_value *value, nardsill_entry *out) {
    int len = sqlite3_value_type(value) == SQLITE_BLOB ? sqlite3_value_bytes(value) - ROW_BYTES : -1;
    if (len < 0 || len > NARDSILL_KEY_MAX) return 0;
    const uint8_t *bytes = sqlite3_value_blob(value), *row = bytes + len;
    memset(out, 0, sizeof *out);
    out->key_len = (uint8_t)len;
    memcpy(out->key, bytes, (size_t)len);
    for (int i = 0; i < 4; i++) out->row.block = out->row.block << 8 | row[i];
    out->row.offset = (uint16_t)(row[4] << 8 | row[5]);
    return 1;
}

static int take_key(table *t, sqlite3_value *value, nardsill_entry *out) {
    const uint8_t *bytes;
    size_t len;
    if (!has_type(t, value)) {
        if (sqlite3_value_type(value) == SQLITE_NULL) say(&t->base.zErrMsg, "nardsill: a key can't be null");
        else if (t->is_blob) say(&t->base.zErrMsg, "nardsill: each key of this table is a blob: use cast(.. as blob), or a table of key=text");
        else say(&t->base.zErrMsg, "nardsill: each key of this table is text: use cast(.. as text), or a table of key=blob");
        return SQLITE_MISMATCH;
    }
    if (!bytes_of(t, value, &bytes, &len)) return SQLITE_NOMEM;
    if (len > NARDSILL_KEY_MAX) {
        say(&t->base.zErrMsg, "nardsill: %s (%s)", nardsill_strerror(NARDSILL_KEY_TOO_LONG), nardsill_errname(NARDSILL_KEY_TOO_LONG));
        return SQLITE_TOOBIG;
    }
    out->key_len = cut(bytes, len, out->key);
    return SQLITE_OK;
}

/* Takes a whole number; it is -1 if it is below 0, or too large for a row. */
static int take_integer(table *t, sqlite3_value *value, const char *name, sqlite3_int64 *out) {
    int type = sqlite3_value_numeric_type(value);
    double real = type == SQLITE_FLOAT ? sqlite3_value_double(value) : 0;
    int is_whole = type == SQLITE_INTEGER || (type == SQLITE_FLOAT && real > -1e15 && real < 1e15 && real == (double)(sqlite3_int64)real);
    if (!is_whole) {
        say(&t->base.zErrMsg, "nardsill: %s is an integer", name);
        return SQLITE_MISMATCH;
    }
    *out = type == SQLITE_INTEGER ? sqlite3_value_int64(value) : (sqlite3_int64)real;
    if (*out < 0 || *out > UINT32_MAX) *out = -1;
    return SQLITE_OK;
}

static int take_row(table *t, sqlite3_value *block, sqlite3_value *offset, nardsill_row *out) {
    sqlite3_int64 b = 0, o = 0;
    int status = take_integer(t, block, "block", &b);
    if (!status) status = take_integer(t, offset, "offset", &o);
    if (status) return status;
    if (b < 0 || b == UINT32_MAX || o < 1 || o > UINT16_MAX) {
        say(&t->base.zErrMsg, "nardsill: %s (%s)", nardsill_strerror(NARDSILL_BAD_ROW), nardsill_errname(NARDSILL_BAD_ROW));
        return SQLITE_ERROR;
    }
    *out = (nardsill_row){(uint32_t)b, (uint16_t)o};
    return SQLITE_OK;
}

/* Whether a value says that the entry is this one. */
static int says_entry(sqlite3_value *value, const nardsill_entry *entry) {
    nardsill_entry said;
    return parse_entry(value, &said) && !compare_entries(&said, entry);
}

/* The entry of the values of an insert or an update. `old` is the one that an update changes, else null. */
static int take_entry(table *t, sqlite3_value **values, const nardsill_entry *old, nardsill_entry *out) {
    memset(out, 0, sizeof *out);
    int status = take_key(t, values[KEY], out);
    if (!status) status = take_row(t, values[BLOCK], values[OFFSET], &out->row);
    if (status) return status;
    sqlite3_value *said = values[ENTRY];
    if (sqlite3_value_type(said) == SQLITE_NULL || says_entry(said, out) || (old && says_entry(said, old))) return SQLITE_OK;
    say(&t->base.zErrMsg, "nardsill: entry is made of key, block and offset: it can't be set");
    return SQLITE_MISMATCH;
}

/* What an insert or an update turns: an entry that goes, one that is replaced, one that comes. */
typedef struct {
    change *changes[3];
    int count;
} step;

static int add_to_step(table *t, step *s, const nardsill_entry *entry, int was) {
    change *c = change_of(&t->of->pending, entry, was);
    if (!c) return SQLITE_NOMEM;
    s->changes[s->count++] = c;
    return SQLITE_OK;
}

/* Turns all of a step, or nothing. */
static int carry_step(table *t, const step *s) {
    if (!reserve_acts(&t->of->pending, (size_t)s->count)) return SQLITE_NOMEM;
    for (int i = 0; i < s->count; i++) act(&t->of->pending, s->changes[i]);
    return SQLITE_OK;
}

static int is_replacing(table *t) { return sqlite3_vtab_on_conflict(t->db) == SQLITE_REPLACE; }

/* Refuses an entry because of another one; SQLite passes over it if it is told to ignore it. */
static int refuse_entry(table *t, int status, const nardsill_entry *other, int code) {
    if (sqlite3_vtab_on_conflict(t->db) == SQLITE_IGNORE) return code;
    if (status == NARDSILL_KEY_EXISTS)
        say(&t->base.zErrMsg, "nardsill: %s (%s): row (%u,%u)", nardsill_strerror(status), nardsill_errname(status), other->row.block,
            (unsigned)other->row.offset);
    else say(&t->base.zErrMsg, "nardsill: %s (%s)", nardsill_strerror(status), nardsill_errname(status));
    return code;
}

/* Adds to a step that an entry comes. `old` is the one that goes by it, else null. */
static int step_to(table *t, step *s, const nardsill_entry *old, const nardsill_entry *new) {
    int is_there = 0, has_key = 0;
    nardsill_entry other;
    gap behind;
    int status = look_up(t->of, new, &is_there, &behind);
    if (!status && !is_there && t->of->is_unique) status = look_up_key(t->of, new, &has_key, &other);
    if (status) return refused(t->of->path, status, &t->base.zErrMsg);
    if (is_there) return is_replacing(t) ? SQLITE_OK : refuse_entry(t, NARDSILL_EXISTS, new, SQLITE_CONSTRAINT_PRIMARYKEY);
    if (has_key && !(old && !compare_entries(old, &other))) {
        if (!is_replacing(t)) return refuse_entry(t, NARDSILL_KEY_EXISTS, &other, SQLITE_CONSTRAINT_UNIQUE);
        status = add_to_step(t, s, &other, 1);
        if (status) return status;
    }
    status = add_to_step(t, s, new, 0);
    if (!status) s->changes[s->count - 1]->behind = behind;
    return status;
}

/* Deletes an entry if `values` is null, else puts another one into its place. One that is gone meanwhile stays gone. */
static int change_entry(table *t, sqlite3_value *old_value, sqlite3_value **values) {
    nardsill_entry old, new;
    step s = {.count = 0};
    if (!parse_entry(old_value, &old)) return SQLITE_MISMATCH;
    int status = values ? take_entry(t, values, &old, &new) : SQLITE_OK;
    if (status || (values && !compare_entries(&old, &new))) return status;
    status = add_to_step(t, &s, &old, 1);
    if (status || !s.changes[0]->now) return status;
    if (values) status = step_to(t, &s, &old, &new);
    return status ? status : carry_step(t, &s);
}

static int insert_entry(table *t, sqlite3_value **values) {
    nardsill_entry new;
    step s = {.count = 0};
    int status = take_entry(t, values, 0, &new);
    if (!status) status = step_to(t, &s, 0, &new);
    return status ? status : carry_step(t, &s);
}

static int update(sqlite3_vtab *base, int argc, sqlite3_value **argv, sqlite3_int64 *id) {
    (void)id;
    table *t = (table *)base;
    int status = reopen_transaction(t->of, &base->zErrMsg);
    if (status) return status;
    if (argc == 1) return change_entry(t, argv[0], 0);
    return sqlite3_value_type(argv[0]) == SQLITE_NULL ? insert_entry(t, argv + 2) : change_entry(t, argv[0], argv + 2);
}

/* ---- Transactions ---- */

static int begin(sqlite3_vtab *base) { return prepare_store(((table *)base)->of, &base->zErrMsg); }

/* Whether SQLite still has the table: going back to a savepoint may have undone its making. */
static int is_in_schema(const table *t) { return !sqlite3_table_column_metadata(t->db, t->schema, t->name, 0, 0, 0, 0, 0, 0); }

/* Whether it still has any table of this index. The one that was made may have been connected anew, as when another table is altered, and
   then a renaming comes to the new object alone. */
static int has_a_table(const table *made) {
    for (const table *t = made->of->tables; t; t = t->next)
        if (is_in_schema(t)) return 1;
    return 0;
}

static int sync_table(sqlite3_vtab *base) {
    table *t = (table *)base;
    if (t->is_new && t->of->pending.num_acts && !has_a_table(t)) keep_acts(&t->of->pending, 0);
    return sync_store(t->of, &base->zErrMsg);
}

/* The database is committed, and takes no refusal any more: what can't be deleted now is told by the next use. */
static int commit_table(sqlite3_vtab *base) {
    table *t = (table *)base;
    int status = t->of->carried == NOTHING ? 0 : pay_owed(t->of);
    if (status) sqlite3_log(code_of(status), "nardsill: %s: rows that were deleted stay: %s", t->of->path, nardsill_strerror(status));
    else end_transaction(t->of);
    t->is_new = 0;
    return SQLITE_OK;
}

static int roll_back(sqlite3_vtab *base) {
    table *t = (table *)base;
    int status = t->of->carried == NOTHING ? 0 : take_back(t->of);
    if (status)
        sqlite3_log(code_of(status), "nardsill: %s: a rollback is refused, and the index may hold a part of the transaction: %s", t->of->path,
                    nardsill_strerror(status));
    t->is_new = 0;
    end_transaction(t->of);
    return SQLITE_OK;
}

static int begin_savepoint(sqlite3_vtab *base, int number) { return mark(&((table *)base)->of->pending, number) ? SQLITE_OK : SQLITE_NOMEM; }

static int release_savepoint(sqlite3_vtab *base, int number) {
    release_mark(&((table *)base)->of->pending, number);
    return SQLITE_OK;
}

static int back_to_savepoint(sqlite3_vtab *base, int number) {
    store *s = ((table *)base)->of;
    int status = reopen_transaction(s, &base->zErrMsg);
    if (!status) back_to_mark(&s->pending, number);
    return status;
}

/* ---- The module ---- */

static char *spell_report(const nardsill_report *report) {
    if (report->damage) return sqlite3_mprintf("damage %u block %u", report->damage, report->block);
    return sqlite3_mprintf("ok levels=%u pages=%u entries=%llu halfdead=%u deleted=%u unfinished=%u", report->levels, report->pages,
                           (unsigned long long)report->entries, report->half_dead, report->deleted, report->unfinished);
}

static char *spell_refusal(int status) {
    int error = status == NARDSILL_IO ? nardsill_last_fault()->error : 0;
    return sqlite3_mprintf("refused %d %s%s%s", status, nardsill_errname(status), error ? ": " : "", error ? strerror(error) : "");
}

/* Judges the index in a file; it waits for one that another handle has. */
static int judge_file(sqlite3 *db, const char *path, nardsill_report *report) {
    int status, waited = 0;
    do status = nardsill_check(path, 0, report);
    while (status == NARDSILL_LOCKED && !wait_for_file(db, &waited));
    return status;
}

static void check(sqlite3_context *context, int argc, sqlite3_value **argv) {
    (void)argc;
    nardsill_report report = NARDSILL_REPORT;
    sqlite3 *db = sqlite3_context_db_handle(context);
    const char *path = (const char *)sqlite3_value_text(argv[0]);
    char *whole = path ? whole_path(db, "main", path) : 0, *message = 0;
    int code = whole ? refuse_database_file(db, whole, &message) : SQLITE_OK;
    if (code) {
        if (message) sqlite3_result_error(context, message, -1);
        else sqlite3_result_error_code(context, code);
    } else {
        int status = whole ? judge_file(db, whole, &report) : path ? NARDSILL_NO_MEMORY : NARDSILL_MISUSE;
        char *text = status ? spell_refusal(status) : spell_report(&report);
        if (text) sqlite3_result_text(context, text, -1, sqlite3_free);
        else sqlite3_result_error_nomem(context);
    }
    sqlite3_free(message);
    sqlite3_free(whole);
}

static const sqlite3_module module = {
    .iVersion = 2,
    .xCreate = create_table,
    .xConnect = connect_table,
    .xBestIndex = best_index,
    .xDisconnect = disconnect,
    .xDestroy = destroy,
    .xOpen = open_cursor,
    .xClose = close_cursor,
    .xFilter = filter,
    .xNext = next,
    .xEof = is_over,
    .xColumn = column,
    .xUpdate = update,
    .xBegin = begin,
    .xSync = sync_table,
    .xCommit = commit_table,
    .xRollback = roll_back,
    .xRename = rename_table,
    .xSavepoint = begin_savepoint,
    .xRelease = release_savepoint,
    .xRollbackTo = back_to_savepoint,
};

__attribute__((visibility("default")))
int sqlite3_nardsilltable_init(sqlite3 *db, char **error, const sqlite3_api_routines *api) {
    SQLITE_EXTENSION_INIT2(api);
    if (sqlite3_libversion_number() < 3038000) {
        *error = sqlite3_mprintf("nardsill: SQLite 3.38 or later is wanted, not %s", sqlite3_libversion());
        return SQLITE_ERROR;
    }
    connection *of = sqlite3_malloc64(sizeof *of);
    if (!of) return SQLITE_NOMEM;
    *of = (connection){.db = db};
    int status = sqlite3_create_module_v2(db, "nardsill", &module, of, sqlite3_free);
    return status ? status : sqlite3_create_function(db, "nardsill_check", 1, SQLITE_UTF8 | SQLITE_DIRECTONLY, 0, check, 0, 0);
}
