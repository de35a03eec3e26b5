/* An index of keys in a file. docs/EMBEDDING.md tells what is promised, which thread may call what, and what to do at each status. */
#ifndef NARDSILL_H
#define NARDSILL_H
#include <stddef.h>
#include <stdint.h>
#ifdef __cplusplus
extern "C" {
#endif

/* The version of this header. A library of the same major number has at least what a header of a lower minor one names. */
#define NARDSILL_VERSION_MAJOR 1
#define NARDSILL_VERSION_MINOR 3
#define NARDSILL_VERSION_PATCH 0
#define NARDSILL_VERSION "1.3.0"

/* What a call answers is to be looked at: a commit that was refused has made nothing durable. */
#if defined(__GNUC__)
#define NARDSILL_LOOK __attribute__((warn_unused_result))
#else
#define NARDSILL_LOOK
#endif

/* A function that a call calls throws nothing: from C++17 on that stands in its type. */
#if defined(__cplusplus) && __cplusplus >= 201703L
#define NARDSILL_NOEXCEPT noexcept
#else
#define NARDSILL_NOEXCEPT
#endif

/* A key has so many bytes at most. Keys are ordered by their bytes, a beginning before what it begins. */
#define NARDSILL_KEY_MAX 64

/* What a call answers: 0, or why it was refused. */
enum {
    NARDSILL_OK = 0,
    NARDSILL_NO_MEMORY = 1,
    NARDSILL_IO = 2,               /* a call of the file failed: `error` of the fault, and errno, say why */
    NARDSILL_STOPPED = 3,          /* one failed before, `error` says why: close the index and open it again */
    NARDSILL_BLOCKED = 4,          /* an open scan stands on a page that a vacuum needs, longer than its patience: `page` of the fault */
    NARDSILL_EXISTS = 5,           /* this very entry, its key and its row, is there */
    NARDSILL_KEY_TOO_LONG = 6,
    NARDSILL_BAD_ROW = 7,          /* block 4294967295, or offset 0 */
    NARDSILL_INDEX_FULL = 8,
    NARDSILL_LOG_FULL = 9,         /* no call answers it */
    NARDSILL_NO_FRAME = 10,        /* open scans hold the pages in memory */
    NARDSILL_VACUUM_RUNNING = 11,  /* no call answers it */
    NARDSILL_NO_SESSION = 12,      /* the scan is over since a fault, or its index is closed; or 63 scans are open, 62 beside a vacuum */
    NARDSILL_SESSION_BUSY = 13,    /* no call answers it */
    NARDSILL_BAD_SUPER = 14,       /* the file is no index */
    NARDSILL_BAD_VERSION = 15,
    NARDSILL_LOG_DAMAGED = 16,
    NARDSILL_PAGE_DAMAGED = 17,    /* `page` of the fault */
    NARDSILL_BAD_LIMITS = 18,
    NARDSILL_TOO_TALL = 19,
    NARDSILL_DEVICE_TOO_SMALL = 20,
    NARDSILL_KEY_EXISTS = 21,      /* on a unique index: the key is there with another row: `row` of the fault */
    NARDSILL_DONE = 100,           /* a scan has no entry left */
    NARDSILL_MISUSE = 101,         /* a null pointer, a `size` that isn't set, or a descriptor that can't be an index's */
    NARDSILL_LOCKED = 102,         /* another handle, in this process or another, has the file */
    NARDSILL_NOT_FOUND = 103,      /* no entry has the key */
    NARDSILL_FORKED = 104,         /* the handle is the parent's: a forked child opens the index for itself */
    NARDSILL_GIVEN_UP = 105        /* who was told how far a copy is gave it up */
};

typedef struct nardsill nardsill;           /* an open index */
typedef struct nardsill_scan nardsill_scan; /* an open scan of it: 63 at most */
typedef struct { uint32_t block; uint16_t offset; } nardsill_row;
typedef struct { nardsill_row row; uint8_t key_len; uint8_t key[NARDSILL_KEY_MAX]; } nardsill_entry;

/* Why the last refused call of this thread was refused. NARDSILL_DONE is no refusal. The library may add fields behind these. */
typedef struct {
    int status;
    int error;        /* of NARDSILL_IO and NARDSILL_STOPPED: why a call of the file failed, a number of errno, or 0 */
    uint32_t page;    /* of NARDSILL_BLOCKED and NARDSILL_PAGE_DAMAGED, else 0 */
    nardsill_row row; /* of NARDSILL_KEY_EXISTS, else zeros */
} nardsill_fault;

/* It is this thread's alone, stands until the next call of this thread is refused, and is never null. Its status is 0 before the first.
   It is memory that may be written, so that who interrupts a thread can put it back. Each call that doesn't answer NARDSILL_IO leaves errno
   as it was. */
const nardsill_fault *nardsill_last_fault(void);

/* A call uses 96 KB of its thread's stack at most: a thread that makes calls has 128 KB or more. */

/* Each of these structs begins with its size, as its macro sets it: so a later version may add fields behind. */

/* Sizes of an index: items a page, 4 to 50; pages, 8 to 65,536; bytes of the log, 65,536 to 16,777,216, a multiple of 4,096. And whether
   it is unique: 0 where entries may share a key. A page holds 25 to 50 entries: 100,000 entries in order fill 4,096 pages. */
typedef struct { uint32_t size, items, pages, log_bytes, unique; } nardsill_limits;
#define NARDSILL_LIMITS {sizeof(nardsill_limits), 50, 4096, 1048576, 0}

typedef struct {
    uint32_t size;
    uint32_t pages, pages_newly_deleted, pages_deleted, pages_free; /* in use; of these deleted now, deleted, and to be used again */
    uint32_t zero;
    uint64_t entries, removed;
} nardsill_stats;
#define NARDSILL_STATS {sizeof(nardsill_stats), 0, 0, 0, 0, 0, 0, 0}

/* What the verifier found: the number and the block of the first damage; or damage 0, and what was counted. */
typedef struct {
    uint32_t size;
    uint32_t damage, block, levels, pages, half_dead, deleted, unfinished;
    uint64_t entries;
} nardsill_report;
#define NARDSILL_REPORT {sizeof(nardsill_report), 0, 0, 0, 0, 0, 0, 0, 0}

/* What an open index is: its limits; pages in use, and of these those that may be used again; pages in memory at most; open scans; and
   whether it has stopped: 1 where a write or a sync of the file has failed, and calls are refused until it is opened again. */
typedef struct {
    uint32_t size;
    uint32_t items, pages, log_bytes, unique;
    uint32_t pages_used, pages_free;
    uint32_t frames, scans, stopped;
} nardsill_details;
#define NARDSILL_DETAILS {sizeof(nardsill_details), 0, 0, 0, 0, 0, 0, 0, 0, 0}

/* Never give a call a file that another library of this process locks, as an SQLite database: also a call that refuses it has opened and
   closed it. By any closing of a file a process loses its POSIX locks of it, and another one may then write there. */

/* Makes an empty index in a new file, which is at the path only once it is whole. Null limits are those of NARDSILL_LIMITS. Until then
   ".nardsill-draft" stands behind its name: so that has 240 bytes at most on most file systems. */
NARDSILL_LOOK int nardsill_create(const char *path, const nardsill_limits *limits);

/* Opens the index in a file, after any crash, with so many pages in memory, 16 to 1,024; 0 stands for 64. A refusal sets *out to null. */
NARDSILL_LOOK int nardsill_open(const char *path, uint32_t frames, nardsill **out);

/* The same for the file of a descriptor that is open for reading and writing and doesn't append. The file is opened anew, by
   /proc/self/fd: so the descriptor stays the caller's, as it was, and may be closed at once. */
NARDSILL_LOOK int nardsill_open_fd(int fd, uint32_t frames, nardsill **out);

/* Makes a checkpoint, closes the file, and frees the handle, whatever is answered. A scan that is left is over, and is still to be
   closed. */
NARDSILL_LOOK int nardsill_close(nardsill *index);

/* Adds an entry. `action` is its number; all numbers up to what a commit tells are durable. Where it is refused, a number or a struct that
   a call would tell stays as it was. Where the log is full an insert, or a part of a vacuum, makes a checkpoint before: see there. */
NARDSILL_LOOK int nardsill_insert(nardsill *index, const void *key, size_t key_len, nardsill_row row, uint64_t *action);

/* Adds entries up to the first that is refused; `done` is how many are in. */
NARDSILL_LOOK int nardsill_insert_many(nardsill *index, const nardsill_entry *entries, size_t count, size_t *done);

/* The row of the first entry with this key; NARDSILL_NOT_FOUND where there is none. It takes the place of an open scan while it runs. */
NARDSILL_LOOK int nardsill_get(nardsill *index, const void *key, size_t key_len, nardsill_row *out);

/* Deletes each entry with one of these rows. It reads every leaf: name many rows in one call. Where it is refused some may be gone, and
   no other entry is.
   It and the next one are vacuums. One runs at a time, in parts, and calls of other threads go on in between. It has the place of an open
   scan then; where 63 are open it is made whole. An entry that is inserted meanwhile with one of the rows may be deleted, or not. */
NARDSILL_LOOK int nardsill_delete_rows(nardsill *index, const nardsill_row *rows, size_t count, nardsill_stats *stats);

/* Deletes empty pages, and counts what is there: of entries that are inserted meanwhile, those that it meets. */
NARDSILL_LOOK int nardsill_vacuum(nardsill *index, nardsill_stats *stats);

/* How long a vacuum waits for open scans at most, at each page that it needs and on which one stands: 0 at first. Once it has moved on,
   or was closed, the vacuum goes on. A thread whose own scan stands there waits in vain. */
NARDSILL_LOOK int nardsill_set_patience(nardsill *index, uint32_t milliseconds);

/* Makes all that was done durable; `actions` is how many were since the opening. A checkpoint writes the pages home too. Commits of
   threads share a sync: one may wait for those that it shared the last one with, 20 ms at most. While a commit syncs, calls that only
   read go on, and the others wait. While a checkpoint writes and syncs, four times, all others wait: also where it comes by itself. */
NARDSILL_LOOK int nardsill_commit(nardsill *index, uint64_t *actions);
NARDSILL_LOOK int nardsill_checkpoint(nardsill *index, uint64_t *actions);

/* Makes an index in a new file, as nardsill_create does, with the entries of this one. Its leaves are nearly full: some 48 entries a page
   of 50. Null limits are this index's own. The file is at the path only once all is in it and durable; `copied` is how many entries
   these are. Other calls go on meanwhile: of what they insert or delete any part may be in the copy. Refused as nardsill_create and a
   scan are; with NARDSILL_INDEX_FULL if they don't fit, and with NARDSILL_KEY_EXISTS if the new one is unique and two have one key.
   `progress`, if it isn't null, is told how many are copied so far. It may make other calls, but close neither the index nor the process's
   files, and it returns: by an exception or a longjmp out of it the copy's scan, its draft and the draft's lock would stay. If it answers
   another number than 0, the copy is given up: NARDSILL_GIVEN_UP. The new file has the mode of this one's, less the umask, as by cp. */
NARDSILL_LOOK int nardsill_copy(nardsill *index, const char *path, const nardsill_limits *limits,
                                int (*progress)(void *context, uint64_t copied) NARDSILL_NOEXCEPT, void *context, uint64_t *copied);

/* What the index is, now. Behind a call of the file that failed it may make a checkpoint, which shows whether the index has stopped. */
NARDSILL_LOOK int nardsill_info(nardsill *index, nardsill_details *out);

/* The entries from `from` on and below `below`; a null end is open. */
NARDSILL_LOOK int nardsill_scan_open(nardsill *index, const void *from, size_t from_len, const void *below, size_t below_len, nardsill_scan **out);

/* The entries whose keys begin so. */
NARDSILL_LOOK int nardsill_scan_open_prefix(nardsill *index, const void *prefix, size_t prefix_len, nardsill_scan **out);

/* Begins an open scan anew, over another range. */
NARDSILL_LOOK int nardsill_scan_restart(nardsill_scan *scan, const void *from, size_t from_len, const void *below, size_t below_len);
NARDSILL_LOOK int nardsill_scan_next(nardsill_scan *scan, nardsill_entry *out);

/* Up to `room` entries; `count` is how many. NARDSILL_DONE comes with the last ones. */
NARDSILL_LOOK int nardsill_scan_read(nardsill_scan *scan, nardsill_entry *out, size_t room, size_t *count);
void nardsill_scan_close(nardsill_scan *scan);

/* Judges the index in a file that nobody has open: its levels and links, its parents and children. As each opening does, it writes home
   what the log holds. */
NARDSILL_LOOK int nardsill_check(const char *path, uint32_t frames, nardsill_report *out);

const char *nardsill_strerror(int status); /* a sentence */
const char *nardsill_errname(int status);  /* "Exists", as the programs print it */
const char *nardsill_version(void);        /* the library's, as NARDSILL_VERSION */

#ifdef __cplusplus
}
#endif
#endif
