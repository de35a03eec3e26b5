/* What an open transaction has changed. The index itself is changed only when the transaction is committed.
 *
 * A change is of one entry. It is found by its entry, and stays until the transaction ends: so going back to a savepoint needs no memory.
 * An act turns one change: the entry is there now, or it is no longer. The acts are a list, and a savepoint is a length of that list. */
#ifndef NARDSILL_PENDING_H
#define NARDSILL_PENDING_H
#include "nardsill.h"
#include <string.h>

enum { LEVELS = 12 };

/* A step along a list of changes. A test counts them. */
#ifndef STEP
#define STEP ((void)0)
#endif

/* Behind an entry and before row `next` of its key, or before its key's end, the index has no entry but those with a change of their own.
 * So the next row of a key with many is found without reading them. */
typedef struct {
    uint8_t is_known, is_last;
    nardsill_row next;
} gap;

typedef struct change change;
struct change {
    nardsill_entry entry;
    uint8_t was;    /* whether the index has the entry without this transaction */
    uint8_t now;    /* whether the transaction sees it */
    uint8_t levels;
    uint64_t since; /* the time of the act that made it seen */
    gap behind;
    change *next[]; /* the next change at each of its levels; then the next added one at each */
};

typedef struct {
    change *first[LEVELS]; /* a skip list, in the index's order */
    change *first_added[LEVELS]; /* and one of the changes alone whose entries are seen and that the index hasn't */
    uint32_t dice;
    change **acts;
    size_t num_acts, room_of_acts;
    size_t *marks; /* how many acts there were at each savepoint */
    int num_marks, room_of_marks;
    uint64_t time; /* it goes on with each act, and never back */
    uint64_t version; /* it goes on whenever acts are taken back, or changes are freed */
} pending;

static int compare_rows(const void *a, const void *b) {
    const nardsill_row *one = a, *other = b;
    if (one->block != other->block) return one->block < other->block ? -1 : 1;
    return (int)one->offset - (int)other->offset;
}

static int compare_keys(const uint8_t *one, size_t one_len, const uint8_t *other, size_t other_len) {
    size_t shorter = one_len < other_len ? one_len : other_len;
    int order = shorter ? memcmp(one, other, shorter) : 0;
    return order ? order : (one_len > other_len) - (one_len < other_len);
}

/* The index's order: by the key, then by the row. */
static int compare_entries(const nardsill_entry *one, const nardsill_entry *other) {
    int order = compare_keys(one->key, one->key_len, other->key, other->key_len);
    return order ? order : compare_rows(&one->row, &other->row);
}

/* The first change of this entry or of a later one. `links` gets the place of such a change at each level. */
static change *seek_change(pending *p, const nardsill_entry *entry, change ***links) {
    change **at = p->first;
    for (int level = LEVELS; level--;) {
        for (; at[level] && compare_entries(&at[level]->entry, entry) < 0; at = at[level]->next) STEP;
        if (links) links[level] = &at[level];
    }
    return at[0];
}

static change **next_added_of(change *c) { return c->next + c->levels; }

/* The same among those of added entries. */
static change *seek_added_change(pending *p, const nardsill_entry *entry, change ***links) {
    change **at = p->first_added;
    for (int level = LEVELS; level--;) {
        for (; at[level] && compare_entries(&at[level]->entry, entry) < 0; at = next_added_of(at[level])) STEP;
        if (links) links[level] = &at[level];
    }
    return at[0];
}

/* Takes a change into the list of added ones, or out of it. */
static void list_added(pending *p, change *c, int is_in) {
    change **links[LEVELS];
    seek_added_change(p, &c->entry, links);
    for (int level = 0; level < c->levels; level++) {
        if (is_in) next_added_of(c)[level] = *links[level];
        *links[level] = is_in ? c : next_added_of(c)[level];
    }
}

/* The gap that this entry lies in, as the change before it knows. */
static gap gap_around(pending *p, const nardsill_entry *entry) {
    change **at = p->first, *before = 0;
    for (int level = LEVELS; level--;)
        while (at[level] && compare_entries(&at[level]->entry, entry) < 0) {
            before = at[level];
            at = before->next;
        }
    if (!before || compare_keys(before->entry.key, before->entry.key_len, entry->key, entry->key_len)) return (gap){0};
    int is_within = before->behind.is_last || compare_rows(&entry->row, &before->behind.next) < 0;
    return is_within ? before->behind : (gap){0};
}

/* The change of this very entry, or null. */
static change *find_change(pending *p, const nardsill_entry *entry) {
    if (!p->first[0]) return 0;
    change *found = seek_change(p, entry, 0);
    return found && !compare_entries(&found->entry, entry) ? found : 0;
}

/* How many levels a new change has: each further one has a chance of a quarter. */
static int num_levels(pending *p) {
    if (!p->dice) p->dice = 2463534242u;
    p->dice ^= p->dice << 13;
    p->dice ^= p->dice >> 17;
    p->dice ^= p->dice << 5;
    int levels = 1;
    for (uint32_t rest = p->dice; levels < LEVELS && !(rest & 3); rest >>= 2) levels++;
    return levels;
}

/* The change of this entry, made if there is none: one that changes nothing yet. Null if memory is out. */
static change *change_of(pending *p, const nardsill_entry *entry, int was) {
    change **links[LEVELS];
    change *found = seek_change(p, entry, links);
    if (found && !compare_entries(&found->entry, entry)) return found;
    int levels = num_levels(p);
    change *made = sqlite3_malloc64(sizeof *made + 2 * (size_t)levels * sizeof *made->next);
    if (!made) return 0;
    made->entry = *entry;
    made->levels = (uint8_t)levels;
    made->was = made->now = was != 0;
    made->since = 0;
    made->behind = (gap){0};
    for (int level = 0; level < levels; level++) {
        made->next[level] = *links[level];
        *links[level] = made;
    }
    return made;
}

static int is_added(const change *c) { return c->now && !c->was; }

static int is_removed(const change *c) { return c->was && !c->now; }

/* Makes room for so many acts more; 0 if memory is out. */
static int reserve_acts(pending *p, size_t more) {
    if (p->num_acts + more <= p->room_of_acts) return 1;
    size_t room = 2 * p->room_of_acts + more + 16;
    change **acts = sqlite3_realloc64(p->acts, room * sizeof *acts);
    if (!acts) return 0;
    p->acts = acts;
    p->room_of_acts = room;
    return 1;
}

static void turn(pending *p, change *c, uint64_t since) {
    c->now = !c->now;
    c->since = since;
    if (!c->was) list_added(p, c, c->now);
}

/* An act, for which there is room. */
static void act(pending *p, change *c) {
    turn(p, c, ++p->time);
    p->acts[p->num_acts++] = c;
}

/* Takes back all acts but the first ones. */
static void keep_acts(pending *p, size_t count) {
    while (p->num_acts > count) turn(p, p->acts[--p->num_acts], 0);
    p->version++;
}

/* Begins savepoint `number`. A lower one that was never told began with the transaction. One that is open stays as it is, since another
 * table of the same index has told it. 0 if memory is out. */
static int mark(pending *p, int number) {
    if (number >= p->room_of_marks) {
        int room = 2 * number + 8;
        size_t *marks = sqlite3_realloc64(p->marks, (size_t)room * sizeof *marks);
        if (!marks) return 0;
        p->marks = marks;
        p->room_of_marks = room;
    }
    while (p->num_marks <= number) p->marks[p->num_marks++] = p->num_acts;
    return 1;
}

/* Ends a savepoint and all later ones. */
static void release_mark(pending *p, int number) {
    if (number < p->num_marks) p->num_marks = number < 0 ? 0 : number;
}

/* Goes back to a savepoint, which stays open. A number below 0 stands for the transaction's beginning. */
static void back_to_mark(pending *p, int number) {
    if (number >= p->num_marks) return;
    keep_acts(p, number < 0 ? 0 : p->marks[number]);
    p->num_marks = number < 0 ? 0 : number + 1;
}

/* Ends the transaction: no change is left. */
static void forget_changes(pending *p) {
    for (change *c = p->first[0], *next; c; c = next) {
        next = c->next[0];
        sqlite3_free(c);
    }
    sqlite3_free(p->acts);
    sqlite3_free(p->marks);
    *p = (pending){.dice = p->dice, .time = p->time, .version = p->version + 1};
}

#endif
