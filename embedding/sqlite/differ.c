/* Compares the virtual table with an ordinary one: differ [QUERIES [STEPS [SEED]]]
 *
 * Random queries over tables of texts and of blobs; then random transactions, with a look at all rows after each step; then transactions
 * that make a table, fill it, rename it and change others; then transactions over several tables of several files. Status 1 at the first
 * difference, which it prints. */
#include "testing.h"

/* A text or a blob, a number, or null. */
typedef struct {
    int type, len;
    sqlite3_int64 number;
    unsigned char bytes[80];
} value;

enum { MOST_VALUES = 64 };
static value pool[100], pool_of_long[8];
static int num_pool, num_long, is_blob;

static void add_value(const char *bytes, int len) {
    pool[num_pool].len = len;
    memcpy(pool[num_pool++].bytes, bytes, (size_t)len);
}

static void add_run(value *to, int byte, int len, int last) {
    to->len = len;
    memset(to->bytes, byte, (size_t)len);
    if (last) to->bytes[len - 1] = (unsigned char)last;
}

/* Keys that are beginnings of each other, look like numbers, aren't ASCII or not even UTF-8, or are as long as can be. */
static void make_pool(void) {
    static const char *const texts[] = {"", "a", "ab", "abc", "abd", "A", "Ab", "aB", "B", "b", "ba", "\303\251", "\303\274x",
        "\346\227\245\346\234\254", "5", "05", "5.0", "10", "9", "95", "-3", " 7", "1e1", ":", "~", "\t", "a b", "a%", "a_c", "2024-01-31", "2024-02",
        "zz", "\377", "\200", "\303", "z\377"};
    for (size_t i = 0; i < sizeof texts / sizeof *texts; i++) add_value(texts[i], (int)strlen(texts[i]));
    add_value("a\0b", 3);
    add_value("\0", 1);
    add_value("a\0", 2);
    add_run(&pool[num_pool++], 'a', 64, 0);
    add_run(&pool[num_pool++], 'a', 63, 0);
    add_run(&pool[num_pool++], 'a', 64, 'b');
    add_run(&pool[num_pool++], 255, 64, 0);
    add_run(&pool[num_pool++], 255, 63, 0);
    add_run(&pool_of_long[num_long++], 'a', 65, 0);
    add_run(&pool_of_long[num_long++], 'a', 70, 'b');
    add_run(&pool_of_long[num_long++], 255, 65, 0);
    add_run(&pool_of_long[num_long++], 255, 70, 1);
    add_run(&pool_of_long[num_long++], 'z', 66, 0);
}

static int own_type(void) { return is_blob ? SQLITE_BLOB : SQLITE_TEXT; }

static value any_key(void) {
    value v = pool[roll((uint32_t)num_pool)];
    v.type = own_type();
    return v;
}

static value any_value(void) {
    if (once_in(12)) return (value){.type = SQLITE_NULL};
    if (once_in(8)) return (value){.type = SQLITE_INTEGER, .number = (int)roll(14) - 3};
    value v = once_in(8) ? pool_of_long[roll((uint32_t)num_long)] : any_key();
    v.type = once_in(6) ? SQLITE_TEXT + SQLITE_BLOB - own_type() : own_type();
    return v;
}

static void bind(sqlite3_stmt *query, int at, const value *v) {
    if (v->type == SQLITE_TEXT) sqlite3_bind_text(query, at, (const char *)v->bytes, v->len, SQLITE_TRANSIENT);
    else if (v->type == SQLITE_BLOB) sqlite3_bind_blob(query, at, v->bytes, v->len, SQLITE_TRANSIENT);
    else if (v->type == SQLITE_INTEGER) sqlite3_bind_int64(query, at, v->number);
    else sqlite3_bind_null(query, at);
}

/* ---- A statement in the making: '@' stands for the table, '$' for a second one ---- */

static char sql[20000];
static value bound[MOST_VALUES];
static int sql_len, num_bound;

static void put(const char *text) {
    sql_len += snprintf(sql + sql_len, sizeof sql - (size_t)sql_len, "%s", text);
    if (sql_len >= (int)sizeof sql) exit(1);
}

static void put_number(int number) {
    char text[20];
    snprintf(text, sizeof text, "%d", number);
    put(text);
}

static void put_literal(const value *v) {
    char *text;
    char hex[200] = "";
    for (int i = 0; i < v->len; i++) snprintf(hex + 2 * i, 3, "%02x", v->bytes[i]);
    if (v->type == SQLITE_NULL) text = sqlite3_mprintf("null");
    else if (v->type == SQLITE_INTEGER) text = sqlite3_mprintf("%lld", v->number);
    else if (v->type == SQLITE_BLOB) text = sqlite3_mprintf("x'%s'", hex);
    else if (memchr(v->bytes, 0, (size_t)v->len) || once_in(5)) text = sqlite3_mprintf("cast(x'%s' as text)", hex);
    else text = sqlite3_mprintf("'%.*q'", v->len, v->bytes);
    /* '@' isn't in the pool. */
    put(text);
    sqlite3_free(text);
}

/* A value: written, or a parameter. */
static void put_value(const value *v) {
    if (num_bound < MOST_VALUES && once_in(2)) {
        bound[num_bound++] = *v;
        put("?");
        put_number(num_bound);
    } else put_literal(v);
}

static void put_any(void) {
    value v = any_value();
    put_value(&v);
}

static const char *one_of(const char *const *texts, uint32_t count) { return texts[roll(count)]; }

static void put_comparison(void) {
    static const char *const ops[] = {" = ", " < ", " <= ", " > ", " >= ", " <> ", " is ", " is not ", " = ", " = "};
    const char *op = one_of(ops, 10);
    if (once_in(6)) {
        put_any();
        put(op);
        put("key");
        return;
    }
    put(once_in(12) ? "key collate nocase" : once_in(12) ? "+key" : "key");
    put(op);
    put_any();
    if (once_in(10)) put(once_in(2) ? " collate nocase" : " collate binary");
}

static void put_list(void) {
    static const char *const selections[] = {"select txt from other", "select num from other", "select any from other", "select bin from other",
        "select key from @ where block < 4", "select max(key) from @"};
    put(once_in(10) ? "key collate nocase" : "key");
    put(once_in(5) ? " not in (" : " in (");
    if (once_in(3)) {
        put(one_of(selections, 6));
    } else {
        for (uint32_t i = 0, count = roll(5); i < count; i++) {
            if (i) put(", ");
            put_any();
        }
    }
    put(")");
}

static void put_pattern(void) {
    static const char *const patterns[] = {"key like 'a%'", "key like 'A_'", "key like '%b%'", "key glob 'a*'", "key glob '5*'", "key like '5%'",
        "key not like 'a%'", "key like '2024-%'", "key glob 'ab?'"};
    put(one_of(patterns, 9));
}

static void put_vector(void) {
    static const char *const ops[] = {" > ", " >= ", " < ", " <= ", " = "};
    put("(key, block)");
    put(one_of(ops, 5));
    put("(");
    put_any();
    put(", ");
    put_number((int)roll(20));
    put(")");
}

static void put_other(void) {
    static const char *const others[] = {"block = 3", "block between 2 and 6", "offset > 1", "key is null", "key is not null", "typeof(key) = 'text'",
        "length(key) > 1", "block in (1, 5, 9)", "key > block", "key = offset", "key < '9' || 'a'", "key = (select min(txt) from other)",
        "key < (select num from other where txt = 'q')", "key >= (select max(key) from @ where block = 2)",
        "exists (select 1 from @ as inside where inside.key > key and inside.block = 1)"};
    put(one_of(others, 15));
}

static void put_condition(int depth) {
    if (depth && once_in(3)) {
        put(once_in(6) ? "not (" : "(");
        put_condition(depth - 1);
        put(once_in(2) ? " or " : " and ");
        put_condition(depth - 1);
        put(")");
        return;
    }
    switch (roll(12)) {
    case 0: put("key between "); put_any(); put(" and "); put_any(); break;
    case 1: case 2: put_list(); break;
    case 3: put_pattern(); break;
    case 4: put_vector(); break;
    case 5: case 6: put_other(); break;
    default: put_comparison();
    }
}

static void put_joined(void) {
    static const char *const joins[] = {
        "select a.key, a.block, b.offset from @ a join @ b on a.key = b.key and a.block < b.block",
        "select a.key, a.block, x.txt from other x join @ a on a.key = x.txt",
        "select a.key, a.block, x.num from other x cross join @ a on a.key = x.num",
        "select a.key, a.block, x.num from other x cross join @ a on a.key < x.num",
        "select a.key, a.block, x.num from other x cross join @ a on a.key >= x.num",
        "select a.key, a.block, x.any from other x cross join @ a on a.key >= x.any and a.key <= x.txt",
        "select a.key, a.block, x.bin from other x left join @ a on a.key = x.bin",
        "select a.key, a.block, x.any from other x left join @ a on a.key = x.any and a.block > 3",
        "select a.key, b.key from @ a join @ b on a.block = b.block and a.offset = b.offset and a.key < b.key",
        "select x.txt from other x where exists (select 1 from @ a where a.key = x.txt)",
        "select x.txt from other x where x.txt not in (select key from @)",
        "select a.key, a.block from @ a where a.key in (select txt from other union select any from other)",
        "select x.txt from other x left join @ a on a.key = x.txt where a.key is null",
        "select x.txt, (select max(a.key) from @ a where a.key < x.txt), (select min(a.key) from @ a where a.key > x.txt) from other x"};
    put(one_of(joins, 14));
}

/* Puts a query. `is_ordered` if the order of its rows is told. */
static void put_query(int *is_ordered) {
    static const char *const selections[] = {"select key, block, offset from @", "select count(*), min(key), max(key), sum(block) from @",
        "select distinct key from @", "select key, count(*), sum(offset) from @", "select key from @", "select block, count(*) from @"};
    static const char *const orders[] = {" order by key, block, offset", " order by key desc, block, offset", " order by key, block desc, offset",
        " order by block, key, offset", " order by key desc, block desc, offset desc", " order by key collate nocase, key, block, offset"};
    sql_len = num_bound = *is_ordered = 0;
    if (once_in(6)) {
        put_joined();
        return;
    }
    uint32_t which = roll(6);
    put(selections[which]);
    put(once_in(15) ? " where 1" : " where ");
    if (sql[sql_len - 1] != '1') put_condition(2);
    if (which == 3) put(" group by key");
    if (which == 5) put(" group by block order by block");
    *is_ordered = which == 5;
    if (which == 1 || which == 5) return;
    *is_ordered = once_in(2) || which == 4;
    if (!*is_ordered) return;
    put(which == 0 ? one_of(orders, 6) : once_in(3) ? " order by key desc" : " order by key");
    if (!once_in(3)) put(" limit "), put_number((int)roll(9));
    if (once_in(3) && sql[sql_len - 1] != 'y' && strstr(sql, " limit ")) put(" offset 2");
}

/* ---- Running a query over both ---- */

typedef struct {
    char **rows;
    int count, room, status;
    char *message;
} answer;

static const char *second = "";

static char *named(const char *table) {
    char *out = malloc(4 * (size_t)sql_len + 1), *to = out;
    for (const char *at = sql; *at; at++) {
        if (*at == '@' || *at == '$') to += sprintf(to, "%s", *at == '@' ? table : second);
        else *to++ = *at;
    }
    *to = 0;
    return out;
}

static char *spell_row(sqlite3_stmt *query) {
    sqlite3_str *row = sqlite3_str_new(0);
    for (int i = 0; i < sqlite3_column_count(query); i++) {
        int type = sqlite3_column_type(query, i);
        if (type == SQLITE_INTEGER || type == SQLITE_FLOAT || type == SQLITE_NULL) {
            sqlite3_str_appendf(row, "%s ", type == SQLITE_NULL ? "null" : (const char *)sqlite3_column_text(query, i));
            continue;
        }
        const unsigned char *bytes = sqlite3_column_blob(query, i);
        sqlite3_str_appendf(row, type == SQLITE_TEXT ? "t'" : "x'");
        for (int k = 0; k < sqlite3_column_bytes(query, i); k++) sqlite3_str_appendf(row, "%02x", bytes[k]);
        sqlite3_str_appendf(row, "' ");
    }
    return sqlite3_str_finish(row);
}

static answer ask(sqlite3 *db, const char *table) {
    answer a = {0};
    char *text = named(table);
    sqlite3_stmt *query = 0;
    a.status = sqlite3_prepare_v2(db, text, -1, &query, 0);
    for (int i = 0; i < num_bound && !a.status; i++) bind(query, i + 1, &bound[i]);
    while (!a.status && sqlite3_step(query) == SQLITE_ROW) {
        if (a.count == a.room) a.rows = realloc(a.rows, (size_t)(a.room = 2 * a.room + 8) * sizeof *a.rows);
        a.rows[a.count++] = spell_row(query);
    }
    int ended = sqlite3_finalize(query);
    if (!a.status) a.status = ended;
    a.message = a.status ? strdup(sqlite3_errmsg(db)) : 0;
    free(text);
    return a;
}

static void free_answer(answer *a) {
    for (int i = 0; i < a->count; i++) sqlite3_free(a->rows[i]);
    free(a->rows);
    free(a->message);
}

static int compare_texts(const void *a, const void *b) { return strcmp(*(char *const *)a, *(char *const *)b); }

static void sort_rows(answer *a) {
    if (a->count) qsort(a->rows, (size_t)a->count, sizeof *a->rows, compare_texts);
}

static int is_same(answer *one, answer *other, int is_ordered) {
    if (one->status != other->status || one->count != other->count) return 0;
    if (!one->count) return 1;
    if (!is_ordered) {
        sort_rows(one);
        sort_rows(other);
    }
    for (int i = 0; i < one->count; i++)
        if (strcmp(one->rows[i], other->rows[i])) return 0;
    return 1;
}

static void show(const char *whose, const answer *a) {
    fprintf(stderr, "%s: status %d %s, %d rows\n", whose, a->status, a->message ? a->message : "", a->count);
    for (int i = 0; i < a->count && i < 40; i++) fprintf(stderr, "  %s\n", a->rows[i]);
}

static void tell_difference(const answer *table, const answer *ordinary) {
    fprintf(stderr, "differ: %s\n", sql);
    for (int i = 0; i < num_bound; i++) {
        fprintf(stderr, "?%d = type %d, %lld, ", i + 1, bound[i].type, bound[i].number);
        for (int k = 0; k < bound[i].len; k++) fprintf(stderr, "%02x", bound[i].bytes[k]);
        fprintf(stderr, "\n");
    }
    show("table", table);
    show("ordinary", ordinary);
    exit(1);
}

static int run_for(sqlite3 *db, const char *table) {
    answer a = ask(db, table);
    if (a.status) fprintf(stderr, "%s: %s\n", sql, a.message);
    int status = a.status;
    free_answer(&a);
    return status;
}

static void set_sql(const char *text) {
    sql_len = num_bound = 0;
    put(text);
}

/* ---- Queries ---- */

static void fill_other(sqlite3 *db) {
    run(db, "create table other(txt text, num integer, any, bin blob)");
    for (int i = 0; i < 14; i++) {
        value v[4] = {any_value(), any_value(), any_value(), any_value()};
        if (i == 0) v[0] = (value){.type = SQLITE_TEXT, .len = 1, .bytes = "q"}, v[1] = (value){.type = SQLITE_TEXT, .len = 2, .bytes = "!x"};
        if (i == 1) v[1] = (value){.type = SQLITE_INTEGER, .number = 5};
        if (i == 3) v[1] = (value){.type = SQLITE_TEXT, .len = 3, .bytes = "9 x"};
        if (i == 2) v[1] = (value){.type = SQLITE_TEXT, .len = 7, .bytes = "2024-02"};
        set_sql("insert into other values (?1, ?2, ?3, ?4)");
        num_bound = 4;
        memcpy(bound, v, sizeof v);
        TRUE(!run_for(db, ""));
    }
}

static void compare_queries(const char *type, int count) {
    is_blob = !strcmp(type, "blob");
    unlink("differ.idx");
    sqlite3 *db = connect_to(":memory:");
    char *make = sqlite3_mprintf("create virtual table t using nardsill('differ.idx', key=%s);"
                                 "create table o(key %s, block integer, offset integer, primary key(key, block, offset)) without rowid", type, type);
    run(db, make);
    sqlite3_free(make);
    for (int i = 0; i < 400; i++) {
        set_sql("insert or ignore into @ values (?1, ?2, ?3)");
        num_bound = 3;
        bound[0] = any_key();
        bound[1] = (value){.type = SQLITE_INTEGER, .number = roll(20)};
        bound[2] = (value){.type = SQLITE_INTEGER, .number = 1 + roll(3)};
        TRUE(!run_for(db, "t") && !run_for(db, "o"));
    }
    fill_other(db);
    /* In the second half a part of the rows is pending. */
    for (int i = 0; i < count; i++) {
        int is_ordered;
        if (i == count / 2) {
            run(db, "begin; delete from t where block % 5 = 1; delete from o where block % 5 = 1;"
                    "update or replace t set block = block + 7 where block % 5 = 2; update or replace o set block = block + 7 where block % 5 = 2");
        }
        put_query(&is_ordered);
        answer table = ask(db, "t"), ordinary = ask(db, "o");
        if (!is_same(&table, &ordinary, is_ordered)) tell_difference(&table, &ordinary);
        free_answer(&table);
        free_answer(&ordinary);
    }
    run(db, "rollback");
    ROWS(db, "select count(*) = count(distinct entry) from t", "1");
    ROWS(db, "select count(*) from t a join t b on a.entry = b.entry", rows_of(db, "select count(*) from o"));
    sqlite3_close(db);
    printf("%s: %d queries, no difference\n", type, count);
}

/* ---- Transactions ---- */

/* The virtual table's connection, and that of an ordinary table with the same constraints. */
static sqlite3 *of_table, *of_ordinary;
static int is_unique;

static void put_small_key(void) {
    static const char *const keys[] = {"a", "ab", "b", "", "c", "\303\251", "d", "ca"};
    value v = {.type = own_type()};
    const char *key = one_of(keys, 8);
    v.len = (int)strlen(key);
    memcpy(v.bytes, key, (size_t)v.len);
    put_value(&v);
}

static void put_place(void) {
    static const char *const places[] = {" where block = 1", " where block = 2 and offset = 1", " where block % 3 = 0", " where offset = 2", "",
        " where block in (1, 4)"};
    if (once_in(2)) {
        put(" where key ");
        put(once_in(3) ? "<= " : "= ");
        put_small_key();
        if (once_in(2)) put(" and block > 3");
    } else put(one_of(places, 6));
}

static void put_rows(int may_be_bad) {
    uint32_t count = once_in(2) ? 1 : 1 + roll(4);
    put(" values ");
    for (uint32_t i = 0; i < count; i++) {
        put(i ? ", (" : "(");
        int is_bad = may_be_bad && once_in(20);
        if (is_bad && once_in(2)) put(once_in(2) ? "null" : is_blob ? "'x'" : "x'78'");
        else put_small_key();
        put(", ");
        if (is_bad && once_in(2)) put("4294967295");
        else if (once_in(8)) put(once_in(2) ? "2147483648" : "3000000000");
        else put_number((int)roll(8));
        put(", ");
        put_number(is_bad && once_in(3) ? 0 : 1 + (int)roll(2));
        put(")");
    }
}

static void put_change(void) {
    static const char *const ways[] = {"", "", "", " or ignore", " or replace", " or fail", " or abort", " or rollback"};
    static const char *const settings[] = {"block = block + 1", "key = key", "offset = offset + 1", "offset = 3 - offset", "block = 7 - block"};
    sql_len = num_bound = 0;
    const char *way = one_of(ways, 8);
    uint32_t kind = roll(10);
    if (kind < 5) {
        put("insert"), put(way), put(" into @");
        put_rows(!*way);
    } else if (kind < 6) {
        put("insert"), put(way), put(" into @ select key, block + 1, offset from @");
        put_place();
    } else if (kind < 8) {
        put("delete from @");
        put_place();
    } else {
        put("update"), put(way), put(" @ set ");
        uint32_t what = roll(6);
        if (what < 2) put("key = "), put_small_key();
        else if (what < 3) put(is_blob ? "key = cast(substr(key || 'b', 1, 3) as blob)" : "key = substr(key || 'b', 1, 3)");
        /* A row that can't be is refused by an abort, whatever the way. */
        else put(one_of(settings, *way ? 3 : 5));
        put_place();
    }
}

static answer all_rows(sqlite3 *db, const char *table) {
    char kept[sizeof sql];
    int kept_len = sql_len, kept_bound = num_bound;
    memcpy(kept, sql, sizeof sql);
    set_sql("select key, block, offset from @ order by key, block, offset");
    answer a = ask(db, table);
    memcpy(sql, kept, sizeof sql);
    sql_len = kept_len, num_bound = kept_bound;
    return a;
}

static void compare_all(void) {
    answer table = all_rows(of_table, "t"), ordinary = all_rows(of_ordinary, "o");
    if (!is_same(&table, &ordinary, 1)) tell_difference(&table, &ordinary);
    TRUE(sqlite3_get_autocommit(of_table) == sqlite3_get_autocommit(of_ordinary));
    free_answer(&table);
    free_answer(&ordinary);
}

static int exec(sqlite3 *db, const char *text) { return sqlite3_exec(db, text, 0, 0, 0); }

/* Ends both transactions by a commit. */
static void commit_both(const char *text) {
    run(of_table, text);
    run(of_ordinary, text);
    TRUE(sqlite3_get_autocommit(of_table));
}

static void change_both(void) {
    put_change();
    answer table = ask(of_table, "t"), ordinary = ask(of_ordinary, "o");
    /* An update may replace a row that it was to change later: the virtual table's count has that one too. */
    int is_counted = strstr(sql, "or replace") || sqlite3_changes(of_table) == sqlite3_changes(of_ordinary);
    if (!table.status != !ordinary.status || !is_counted) tell_difference(&table, &ordinary);
    free_answer(&table);
    free_answer(&ordinary);
}

static void open_table(const char *type) {
    of_table = connect_to("differ.db");
    char *make = sqlite3_mprintf("create virtual table if not exists t using nardsill('differ.idx', unique=%d, key=%s, pages=512)", is_unique, type);
    run(of_table, make);
    sqlite3_free(make);
}

static int open_savepoints, is_first_the_transaction;

/* A statement that is left open keeps the table that it was prepared with. */
static sqlite3_stmt *left;

static void use_left(void) {
    if (once_in(50)) sqlite3_finalize(left), left = 0;
    if (!left && once_in(50)) TRUE(!sqlite3_prepare_v2(of_table, "select * from t where key > 'a'", -1, &left, 0));
    if (left && once_in(5) && sqlite3_step(left) != SQLITE_ROW) sqlite3_reset(left);
}

/* Changes the schema, so that SQLite connects the table anew. It refuses some of this while a statement is open. */
static void change_schema(void) {
    static const char *const changes[] = {"create table x(a)", "drop table x", "alter table x add column b", "alter table x rename to y",
        "alter table y rename to x"};
    exec(of_table, one_of(changes, 5));
}

/* A savepoint's begin, its end, or the way back to it. */
static void at_savepoint(void) {
    char text[60];
    if (once_in(3)) change_schema();
    if (!open_savepoints || once_in(2)) {
        snprintf(text, sizeof text, "savepoint s%d", open_savepoints++);
    } else {
        int which = (int)roll((uint32_t)open_savepoints), is_back = once_in(2);
        snprintf(text, sizeof text, is_back ? "rollback to s%d" : "release s%d", which);
        open_savepoints = is_back ? which + 1 : which;
        if (!which && !is_back && is_first_the_transaction) {
            commit_both(text);
            return;
        }
    }
    TRUE(!exec(of_table, text));
    TRUE(!exec(of_ordinary, text));
}

static void open_again(const char *type) {
    sqlite3_finalize(left);
    left = 0;
    TRUE(!sqlite3_close(of_table));
    open_table(type);
}

static void take_step(const char *type) {
    int is_open = !sqlite3_get_autocommit(of_table);
    if (!is_open) open_savepoints = is_first_the_transaction = 0;
    switch (roll(16)) {
    case 0:
        if (!is_open) run(of_table, "begin"), run(of_ordinary, "begin");
        else commit_both("commit");
        break;
    case 1:
        if (is_open) run(of_table, "rollback"), run(of_ordinary, "rollback");
        break;
    case 2: case 3:
        if (is_open) at_savepoint();
        break;
    case 4:
        if (!is_open && once_in(4)) open_again(type);
        else if (!is_open) run(of_table, "savepoint s0"), run(of_ordinary, "savepoint s0"), is_first_the_transaction = open_savepoints = 1;
        else change_schema();
        break;
    default: change_both();
    }
}

static void compare_transactions(const char *type, int unique, int count) {
    is_blob = !strcmp(type, "blob");
    is_unique = unique;
    unlink("differ.idx");
    unlink("differ.db");
    open_table(type);
    TRUE(!sqlite3_open(":memory:", &of_ordinary));
    char *make = sqlite3_mprintf("create table o(key %s check (typeof(key) = '%s'), block integer check (block between 0 and 4294967294),"
                                 " offset integer check (offset > 0), primary key(key, block, offset)%s) without rowid",
                                 type, type, unique ? ", unique(key)" : "");
    run(of_ordinary, make);
    sqlite3_free(make);
    for (int i = 0; i < count; i++) {
        take_step(type);
        compare_all();
        use_left();
    }
    sqlite3_finalize(left);
    left = 0;
    if (!sqlite3_get_autocommit(of_table)) run(of_table, "rollback"), run(of_ordinary, "rollback");
    compare_all();
    TRUE(!sqlite3_close(of_table));
    of_table = connect_to(":memory:");
    ROWS(of_table, "select nardsill_check('differ.idx') like 'ok %'", "1");
    sqlite3_close(of_table);
    sqlite3_close(of_ordinary);
    printf("%s%s: %d steps, no difference\n", unique ? "unique " : "", type, count);
}

/* ---- Tables that are made in a transaction ---- */

/* The names that the two tables have now. */
static const char *name_of_table, *name_of_ordinary;

static void rename_both(void) {
    int is_first = !strcmp(name_of_table, "t");
    char text[80];
    snprintf(text, sizeof text, "alter table %s rename to %s", name_of_table, is_first ? "u" : "t");
    run(of_table, text);
    snprintf(text, sizeof text, "alter table %s rename to %s", name_of_ordinary, is_first ? "p" : "o");
    run(of_ordinary, text);
    name_of_table = is_first ? "u" : "t";
    name_of_ordinary = is_first ? "p" : "o";
}

/* How many were made in this transaction: each has a file of its own. */
static unsigned made;

static void remove_made(void) {
    char path[40];
    while (made) {
        snprintf(path, sizeof path, "made-%u.idx", --made);
        unlink(path);
    }
}

static void make_both(void) {
    char *make = sqlite3_mprintf("create virtual table t using nardsill('made-%u.idx', pages=512, log_bytes=65536)", made++);
    run(of_table, make);
    sqlite3_free(make);
    run(of_ordinary, "create table o(key text check (typeof(key) = 'text'), block integer check (block between 0 and 4294967294),"
                     " offset integer check (offset > 0), primary key(key, block, offset)) without rowid");
    name_of_table = "t";
    name_of_ordinary = "o";
}

static int has_table(sqlite3 *db, const char *name) { return name && sqlite3_table_column_metadata(db, "main", name, 0, 0, 0, 0, 0, 0) == SQLITE_OK; }

static void compare_made(void) {
    TRUE(has_table(of_table, name_of_table) == has_table(of_ordinary, name_of_ordinary));
    if (!has_table(of_table, name_of_table)) return;
    answer table = all_rows(of_table, name_of_table), ordinary = all_rows(of_ordinary, name_of_ordinary);
    if (!is_same(&table, &ordinary, 1)) tell_difference(&table, &ordinary);
    free_answer(&table);
    free_answer(&ordinary);
}

/* A step of a transaction in which the tables are made. The way back to a savepoint has the names that stood there. */
static void take_making_step(const char **names, int *savepoints) {
    char text[40];
    uint32_t kind = roll(12);
    if (kind < 2) change_schema();
    else if (kind < 4 && has_table(of_table, name_of_table)) rename_both();
    else if (kind < 6 && *savepoints < 8) {
        names[2 * *savepoints] = name_of_table;
        names[2 * *savepoints + 1] = name_of_ordinary;
        snprintf(text, sizeof text, "savepoint s%d", (*savepoints)++);
        run(of_table, text), run(of_ordinary, text);
    } else if (kind < 7 && *savepoints) {
        int which = (int)roll((uint32_t)*savepoints);
        snprintf(text, sizeof text, "rollback to s%d", which);
        run(of_table, text), run(of_ordinary, text);
        *savepoints = which + 1;
        name_of_table = names[2 * which];
        name_of_ordinary = names[2 * which + 1];
    } else if (!has_table(of_table, name_of_table)) make_both();
    else {
        sql_len = num_bound = 0;
        put("insert or ignore into @");
        put_rows(0);
        answer table = ask(of_table, name_of_table), ordinary = ask(of_ordinary, name_of_ordinary);
        TRUE(!table.status && !ordinary.status);
        free_answer(&table);
        free_answer(&ordinary);
    }
}

/* Transactions in which a table is made, filled and renamed, while others are altered: what is committed is what the ordinary one has. */
static void compare_makings(int count) {
    is_blob = is_unique = 0;
    unlink("differ.db");
    for (int i = 0; i < count; i++) {
        const char *names[16];
        int savepoints = 0;
        of_table = connect_to("differ.db");
        TRUE(!sqlite3_open(":memory:", &of_ordinary));
        name_of_table = name_of_ordinary = 0;
        run(of_table, "begin"), run(of_ordinary, "begin");
        for (uint32_t steps = 4 + roll(16); steps; steps--) {
            take_making_step(names, &savepoints);
            compare_made();
        }
        int is_kept = !once_in(4);
        run(of_table, is_kept ? "commit" : "rollback"), run(of_ordinary, is_kept ? "commit" : "rollback");
        if (!is_kept) name_of_table = name_of_ordinary = 0;
        compare_made();
        TRUE(!sqlite3_close(of_table));
        of_table = connect_to("differ.db");
        compare_made();
        if (name_of_table && has_table(of_table, name_of_table)) {
            char text[40];
            snprintf(text, sizeof text, "drop table %s", name_of_table);
            run(of_table, text);
        }
        TRUE(!sqlite3_close(of_table));
        sqlite3_close(of_ordinary);
        remove_made();
    }
    printf("made: %d transactions, no difference\n", count);
}

/* A second table of an index isn't made inside a transaction, and the changes of the first one are kept. Outside of one it is made. */
static void second_table(void) {
    unlink("differ.db");
    of_table = connect_to("differ.db");
    run(of_table, "create virtual table t using nardsill('made-0.idx', pages=512, log_bytes=65536)");
    run(of_table, "begin; savepoint a");
    TRUE(exec(of_table, "create virtual table v using nardsill('made-0.idx')") == SQLITE_LOCKED);
    TRUE(strstr(sqlite3_errmsg(of_table), "another table has this index") != 0);
    run(of_table, "rollback to a; insert into t values ('a', 1, 1); commit");
    run(of_table, "create virtual table v using nardsill('made-0.idx')");
    ROWS(of_table, "select count(*) from t join v using (key, block, offset)", "1");
    TRUE(!sqlite3_close(of_table));
    unlink("made-0.idx");
    puts("second: refused in a transaction, made outside of one");
}

/* ---- Several tables of several files ---- */

/* The first two are of one file. Each has two names, between which it is renamed. */
enum { NUM_TABLES = 4, NUM_FILES = 3, MOST_SAVEPOINTS = 8 };
static const int file_of[NUM_TABLES] = {0, 0, 1, 2};
static const char *const ordinary_names[NUM_FILES] = {"o0", "o1", "o2"};
typedef struct { int is_other[NUM_TABLES]; } naming;
static naming now, at_begin, at_savepoints[MOST_SAVEPOINTS];

static const char *name_now(int which) {
    static const char *const names[NUM_TABLES][2] = {{"first", "first2"}, {"second", "second2"}, {"third", "third2"}, {"fourth", "fourth2"}};
    return names[which][now.is_other[which]];
}

static void make_table(int which) {
    char *make = sqlite3_mprintf("create virtual table %s using nardsill('several-%d.idx', pages=256, log_bytes=65536)", name_now(which), file_of[which]);
    run(of_table, make);
    sqlite3_free(make);
}

static void begin_several(void) {
    char text[300];
    unlink("differ.db");
    for (int i = 0; i < NUM_FILES; i++) {
        snprintf(text, sizeof text, "several-%d.idx", i);
        unlink(text);
    }
    of_table = connect_to("differ.db");
    TRUE(!sqlite3_open(":memory:", &of_ordinary));
    now = (naming){{0}};
    for (int i = 0; i < NUM_TABLES; i++) make_table(i);
    for (int i = 0; i < NUM_FILES; i++) {
        snprintf(text, sizeof text, "create table %s(key text check (typeof(key) = 'text'), block integer check (block between 0 and 4294967294),"
                 " offset integer check (offset > 0), primary key(key, block, offset)) without rowid", ordinary_names[i]);
        run(of_ordinary, text);
    }
}

static void compare_several(void) {
    for (int i = 0; i < NUM_TABLES; i++) {
        answer table = all_rows(of_table, name_now(i)), ordinary = all_rows(of_ordinary, ordinary_names[file_of[i]]);
        if (!is_same(&table, &ordinary, 1)) tell_difference(&table, &ordinary);
        free_answer(&table);
        free_answer(&ordinary);
    }
    TRUE(sqlite3_get_autocommit(of_table) == sqlite3_get_autocommit(of_ordinary));
}

/* A statement over one table, or over two. It may fail, and may roll back the transaction. */
static void change_several(void) {
    int which = (int)roll(NUM_TABLES), other = (int)roll(NUM_TABLES), was_open = !sqlite3_get_autocommit(of_table);
    put_change();
    if (once_in(4)) {
        set_sql(once_in(2) ? "insert or ignore into @ select key, block + 1, offset from $" : "delete from @ where block in (select block from $ where offset = 2)");
        if (once_in(2)) put(sql[0] == 'i' ? " where block < 3" : " and key > 'b'");
    }
    second = name_now(other);
    answer table = ask(of_table, name_now(which));
    second = ordinary_names[file_of[other]];
    answer ordinary = ask(of_ordinary, ordinary_names[file_of[which]]);
    second = "";
    if (!table.status != !ordinary.status) tell_difference(&table, &ordinary);
    free_answer(&table);
    free_answer(&ordinary);
    if (was_open && sqlite3_get_autocommit(of_table)) now = at_begin;
}

static void rename_one(void) {
    int which = (int)roll(NUM_TABLES);
    char text[80], was[20];
    snprintf(was, sizeof was, "%s", name_now(which));
    now.is_other[which] ^= 1;
    snprintf(text, sizeof text, "alter table %s rename to %s", was, name_now(which));
    run(of_table, text);
}

/* A table is dropped and made anew: its file keeps the entries. */
static void drop_one(void) {
    int which = (int)roll(NUM_TABLES);
    char text[40];
    snprintf(text, sizeof text, "drop table %s", name_now(which));
    run(of_table, text);
    make_table(which);
}

static void both(const char *text) {
    run(of_table, text);
    run(of_ordinary, text);
}

/* A savepoint's begin, its release, or the way back to it. */
static void at_several_savepoint(int *savepoints) {
    char text[40];
    if (*savepoints < MOST_SAVEPOINTS && (!*savepoints || once_in(2))) {
        at_savepoints[*savepoints] = now;
        snprintf(text, sizeof text, "savepoint s%d", (*savepoints)++);
        both(text);
        return;
    }
    int which = (int)roll((uint32_t)*savepoints), is_back = once_in(2);
    snprintf(text, sizeof text, is_back ? "rollback to s%d" : "release s%d", which);
    both(text);
    if (is_back) now = at_savepoints[which];
    *savepoints = is_back ? which + 1 : which;
}

static void take_step_of_several(int *savepoints) {
    int is_open = !sqlite3_get_autocommit(of_table);
    if (!is_open) *savepoints = 0;
    switch (roll(16)) {
    case 0: case 1:
        if (!is_open) both("begin"), at_begin = now;
        else if (once_in(4)) both("rollback"), now = at_begin;
        else both("commit");
        break;
    case 2: case 3:
        if (is_open) at_several_savepoint(savepoints);
        break;
    case 4: rename_one(); break;
    case 5: change_schema(); break;
    case 6:
        if (is_open || once_in(2)) break;
        TRUE(!sqlite3_close(of_table));
        of_table = connect_to("differ.db");
        break;
    case 7:
        if (!is_open) drop_one();
        break;
    default: change_several();
    }
}

static void compare_tables(int count) {
    int savepoints = 0;
    is_blob = is_unique = 0;
    begin_several();
    for (int i = 0; i < count; i++) {
        take_step_of_several(&savepoints);
        compare_several();
    }
    if (!sqlite3_get_autocommit(of_table)) both("rollback"), now = at_begin;
    compare_several();
    TRUE(!sqlite3_close(of_table) && !sqlite3_close(of_ordinary));
    of_table = connect_to(":memory:");
    for (int i = 0; i < NUM_FILES; i++) {
        char text[80];
        snprintf(text, sizeof text, "select nardsill_check('several-%d.idx') like 'ok %%'", i);
        ROWS(of_table, text, "1");
    }
    TRUE(!sqlite3_close(of_table));
    printf("several tables of several files: %d steps, no difference\n", count);
}

int main(int argc, char **argv) {
    int queries = argc > 1 ? atoi(argv[1]) : 20000, steps = argc > 2 ? atoi(argv[2]) : 5000;
    dice = argc > 3 ? (uint32_t)atoi(argv[3]) : 1;
    if (!dice) dice = 1;
    make_pool();
    compare_queries("text", queries / 2);
    compare_queries("blob", queries - queries / 2);
    compare_transactions("text", 0, steps);
    compare_transactions("blob", 0, steps);
    compare_transactions("text", 1, steps);
    compare_makings(steps / 4);
    second_table();
    compare_tables(steps);
    return 0;
}
