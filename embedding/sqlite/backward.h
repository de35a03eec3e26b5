/* Gives what the transaction sees in a range from its last key to its first, as `max(key)` and `order by key desc` want it.
 *
 * The index is read forwards alone. So the last key is searched for, byte by byte, and each byte by halves: is there an entry from here on?
 * That is much for each of many keys. Behind the first few, passes go on: each reads what is left, from its beginning, keeps the last entries
 * and gives those. */
#ifndef NARDSILL_BACKWARD_H
#define NARDSILL_BACKWARD_H
#include "store.h"

/* How many keys are searched for; entries that the first pass keeps, and any; removed entries that a search passes over at most. */
enum { FEW_KEYS = 4, FEW_KEPT = 4096, MOST_KEPT = 262144, MOST_PASSED = 1000 };

typedef struct {
    store *of;
    uint64_t time; /* what is added later isn't given */
    key_range left; /* keys that aren't given yet */
    key_range of_key; /* the key that is being given */
    int num_keys;
    size_t passed; /* removed entries that the search has passed over */
    int has_end;
    nardsill_entry end; /* entries from this one on are given */
    nardsill_entry *kept; /* a ring */
    size_t room, count, behind; /* how many of these are left to give; the place behind the last of them */
} backward;

static void begin_backward(backward *b, store *s, const key_range *range) {
    *b = (backward){.of = s, .time = s->pending.time, .left = *range, .kept = b->kept, .room = b->room};
}

static void end_backward(backward *b) {
    sqlite3_free(b->kept);
    b->kept = 0;
}

/* Tells the first entry that is left from a key on. */
static int find_from(backward *b, const uint8_t *key, uint8_t len, int *is_there, nardsill_entry *found) {
    key_range range = b->left;
    reader r = {0};
    range.from_len = len;
    memcpy(range.from, key, len);
    begin_reading(&r, b->of, &range, 1);
    r.time = b->time;
    int status = read_next(&r);
    *is_there = !status && !r.is_over;
    if (*is_there) *found = r.entry;
    b->passed += r.passed;
    suspend(&r);
    return status;
}

/* Finds the largest byte behind the first `depth` ones that an entry has, and such an entry, where all that are left behind `last` begin with
 * these of its key. -1 if none has one. */
static int find_byte(backward *b, int depth, nardsill_entry *last, int *out) {
    int low = last->key_len > depth ? last->key[depth] : -1, high = 255, status = 0;
    while (low < high && !status) {
        uint8_t from[NARDSILL_KEY_MAX];
        int middle = (low + high + 1) / 2, is_there;
        memcpy(from, last->key, (size_t)depth);
        from[depth] = (uint8_t)middle;
        status = find_from(b, from, (uint8_t)(depth + 1), &is_there, last);
        if (!status && is_there) low = last->key[depth];
        else high = middle - 1;
    }
    *out = low;
    return status;
}

/* Finds an entry of the last key that is left. */
static int find_last(backward *b, int *is_there, nardsill_entry *last) {
    int status = find_from(b, b->left.from, b->left.from_len, is_there, last), is_behind = *is_there, byte = 0;
    for (int depth = 0; !status && is_behind && byte >= 0 && depth < NARDSILL_KEY_MAX && b->passed <= MOST_PASSED; depth++) {
        nardsill_entry next = *last;
        is_behind = make_successor(next.key, &next.key_len);
        if (is_behind) status = find_from(b, next.key, next.key_len, &is_behind, last);
        if (!status && is_behind) status = find_byte(b, depth, last, &byte);
    }
    return status;
}

/* Keeps the last entries of those that are left. */
static int keep_last(backward *b) {
    size_t room = b->room ? 2 * b->room : FEW_KEPT, count = 0;
    if (room <= MOST_KEPT) {
        nardsill_entry *kept = sqlite3_realloc64(b->kept, room * sizeof *kept);
        if (!kept) return NARDSILL_NO_MEMORY;
        b->kept = kept;
        b->room = room;
    }
    reader r = {0};
    begin_reading(&r, b->of, &b->left, 1);
    r.time = b->time;
    int status = read_next(&r);
    for (; !status && !r.is_over && !(b->has_end && compare_entries(&r.entry, &b->end) >= 0); status = read_next(&r))
        b->kept[count++ % b->room] = r.entry;
    suspend(&r);
    b->count = count < b->room ? count : b->room;
    b->behind = count;
    if (b->count) b->end = b->kept[(count - b->count) % b->room];
    b->has_end = 1;
    return status;
}

/* Gives a kept entry that isn't removed meanwhile. */
static int read_kept(backward *b, reader *out) {
    for (;;) {
        int status = b->count ? 0 : keep_last(b);
        if (status || !b->count) {
            out->is_over = 1;
            return status;
        }
        b->count--;
        out->entry = b->kept[--b->behind % b->room];
        const change *c = find_change(&b->of->pending, &out->entry);
        if (!c || c->now) return 0;
    }
}

/* Goes to the next entry, which the reader has then. Entries of one key come in any order. */
static int read_back(backward *b, reader *out) {
    if (b->num_keys && !b->has_end) {
        int status = read_next(out);
        if (status || !out->is_over) return status;
    }
    out->is_over = 0;
    int is_there = 0, is_searched = b->num_keys < FEW_KEYS && b->passed <= MOST_PASSED && !b->has_end;
    nardsill_entry last;
    int status = is_searched ? find_last(b, &is_there, &last) : 0;
    if (status) return status;
    if (!is_searched || b->passed > MOST_PASSED) return read_kept(b, out);
    b->num_keys++;
    if (!is_there) {
        out->is_over = 1;
        return 0;
    }
    b->of_key = range_of_key(last.key, last.key_len);
    b->left.has_below = 1;
    b->left.below_len = last.key_len;
    memcpy(b->left.below, last.key, last.key_len);
    begin_reading(out, b->of, &b->of_key, 1);
    out->time = b->time;
    return read_next(out);
}

#endif
