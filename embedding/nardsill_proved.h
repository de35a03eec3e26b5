/* The exports of the proved library (crates/nardsill), as C sees them. Programs include nardsill.h. */
#ifndef NARDSILL_PROVED_H
#define NARDSILL_PROVED_H
#include <stdbool.h>
#include <stdint.h>

/* The calls of nardsill_proved_call, each with the fields that it reads and those that its answer tells. */
enum nardsill_what {
    NARDSILL_INSERT = 1,        /* key, len, block, offset; number: the action's, other: the fault that left it unfinished, or 0 */
    NARDSILL_BEGIN = 2,         /* ends, key, len, below, below_len; number, session: the token */
    NARDSILL_AGAIN = 3,         /* the same, and number, session: the token */
    NARDSILL_END = 4,           /* number, session */
    NARDSILL_NAME_DEAD = 5,     /* block, offset; where it is refused, no row is named */
    NARDSILL_DELETE = 6,        /* number: how many entries are removed; other: how many are left; the counts of pages */
    NARDSILL_VACUUM = 7,        /* the same */
    NARDSILL_COMMIT = 8,        /* number: how many actions are durable */
    NARDSILL_CHECKPOINT = 9,    /* the same */
    NARDSILL_LET_GO = 10,       /* the handle's block may be freed behind it */
    NARDSILL_BEGIN_DELETE = 11, /* begins, in parts, what DELETE does; the rows are forgotten, also where it is refused */
    NARDSILL_BEGIN_VACUUM = 12, /* begins, in parts, what VACUUM does */
    NARDSILL_GO_ON = 13,        /* block: how many steps more; session: 1 where it has finished, with what DELETE tells; 0 where all were made */
    NARDSILL_END_VACUUM = 14,   /* ends what was begun so, finished or not; its rows are freed by FREE_ROWS, or behind the next one */
    NARDSILL_ADVANCE = 15,      /* the next part of a commit but for its last sync; number: 0 nothing waits, 1 its first sync is next, 2 its last */
    NARDSILL_SYNC = 16,         /* of a handle that was given it by nardsill_proved_share: syncs the file */
    NARDSILL_FREE_ROWS = 17     /* block: how many rows of a bulk delete that has ended are freed */
};

struct nardsill_ask {
    uint32_t what, session;
    uint64_t number;
    uint32_t block;
    uint16_t offset;
    uint8_t len, below_len;
    uint32_t ends; /* 1: the range begins at key, 2: it ends below below, 3: both, 0: neither */
    uint8_t key[64], below[64];
};

/* A file that is open, and another open file of it, by which it is synced; or its descriptor twice, where there is none. */
struct nardsill_files {
    int file, beside;
};

struct nardsill_open_ask {
    int32_t descriptor;
    uint32_t frames;
};

struct nardsill_make_ask {
    int32_t descriptor;
    uint32_t items, pages, log_bytes, unique;
};

struct nardsill_answer {
    uint32_t status, page;
    uint64_t number, other;
    uint32_t session;
    bool is_durable;
    uint32_t num_pages, pages_newly_deleted, pages_deleted, pages_free;
    uint32_t block; /* the row that a fault names */
    uint16_t offset;
    int32_t descriptor; /* that of the library, where an index was opened, and that of what syncs its file */
};

struct nardsill_token {
    uint64_t number;
    uint32_t session;
};

struct nardsill_given {
    uint32_t status, page, block;
    uint16_t offset;
    uint8_t len;
    bool is_given;
    uint8_t key[64];
};

struct nardsill_facts {
    uint32_t status, items, pages, log_bytes, pages_used, pages_free;
    bool is_unique, is_stopped;
};

struct nardsill_check_ask {
    int32_t descriptor;
    uint32_t frames;
};

struct nardsill_checked {
    uint32_t status, page, damage, block;
    uint64_t entries;
    uint32_t levels, pages, half_dead, deleted, unfinished;
};

struct nardsill_shell;

/* A handle without an index, at out: 0, or 1 where there is no memory. */
uint32_t nardsill_proved_new(struct nardsill_shell **out);

/* Each of these three is given a file that is open: file points to its descriptor, which stays the caller's. The first makes an
   empty index there, and what the file held is gone; the second opens the index in it; the third judges it. The second is given two
   open files of one file. */
struct nardsill_answer nardsill_proved_make(struct nardsill_shell *at, int *file, struct nardsill_make_ask ask);
struct nardsill_answer nardsill_proved_take(struct nardsill_shell *at, struct nardsill_files *files, struct nardsill_open_ask ask);
struct nardsill_checked nardsill_proved_check(struct nardsill_shell *at, int *file, struct nardsill_check_ask ask);

/* Gives a handle, which has no index, what syncs the file of another's index. Then NARDSILL_SYNC may be called of the one while a call
   of the other goes on. NARDSILL_NO_SESSION if that index was opened with one open file alone. Nothing of what is asked is read. */
struct nardsill_answer nardsill_proved_share(struct nardsill_shell *at, struct nardsill_shell *from, struct nardsill_open_ask ask);

/* One call at a time, on a handle that was not let go. */
struct nardsill_answer nardsill_proved_call(struct nardsill_shell *at, struct nardsill_ask ask);
struct nardsill_given nardsill_proved_next(struct nardsill_shell *at, struct nardsill_token token);
struct nardsill_facts nardsill_proved_info(struct nardsill_shell *at);
#endif
