/* The calls of nardsill.h, over the exports of the proved library: opens the file, checks pointers, takes the handle's lock, makes one
   call for commits that come together, syncs with the lock let go, and vacuums in parts. */
#define _GNU_SOURCE
#include "nardsill.h"
#include "nardsill_proved.h"
#include <errno.h>
#include <fcntl.h>
#include <pthread.h>
#include <stdatomic.h>
#include <stdio.h>
#include <stdlib.h>
#include <string.h>
#include <sys/file.h>
#include <sys/stat.h>
#include <sys/vfs.h>
#include <time.h>
#include <unistd.h>

/* What C and the proved library share is laid out alike: crates/nardsill has the same numbers. */
#define IS_LAID_OUT(type, size, last, at) _Static_assert(sizeof(struct type) == (size) && offsetof(struct type, last) == (at), #type)
IS_LAID_OUT(nardsill_ask, 160, below, 92);
IS_LAID_OUT(nardsill_files, 8, beside, 4);
IS_LAID_OUT(nardsill_open_ask, 8, frames, 4);
IS_LAID_OUT(nardsill_make_ask, 20, unique, 16);
IS_LAID_OUT(nardsill_answer, 64, descriptor, 56);
IS_LAID_OUT(nardsill_token, 16, session, 8);
IS_LAID_OUT(nardsill_given, 80, key, 16);
IS_LAID_OUT(nardsill_facts, 28, is_stopped, 25);
IS_LAID_OUT(nardsill_check_ask, 8, frames, 4);
IS_LAID_OUT(nardsill_checked, 48, unfinished, 40);
_Static_assert(sizeof(nardsill_entry) == 76 && offsetof(nardsill_entry, key) == 9, "nardsill_entry");

struct commit;

/* Commits share a call of the library. Those that have come wait for the committers of the last call, who may come again. */
struct gathering {
    pthread_cond_t bell;    /* rung when a call has told its commits */
    pthread_cond_t forced;  /* rung then too, for calls that may log an action */
    int is_forcing;         /* a commit syncs the file, with the lock let go between its parts */
    pthread_cond_t back;    /* rung when it has the lock back */
    atomic_int returns;     /* it has synced, and waits for the lock */
    unsigned held, passing; /* calls that wait for its end; and those that waited for that of the last one, and haven't gone on yet */
    struct commit *commits; /* those that wait for the next call, the last that came first */
    unsigned expected;      /* committers of the last call that haven't come again */
    atomic_uint at_lock;    /* threads that have committed before, and wait for the handle's lock */
    unsigned vain, skips;   /* how often in a row nobody came while one waited, 6 at most; and how many calls don't wait therefore */
    uint64_t call;          /* the number of the last call, from 1 on */
    uint64_t seen[64];      /* the call of a thread's last commit; two threads may have one place */
    uint64_t took, last;    /* how long the last call took, and when the last commit came, in nanoseconds */
    uint64_t until;         /* when the first commit waits no longer */
};

/* A vacuum is made in parts, and who waits for the handle's lock has it between two of them. */
struct turns {
    pthread_mutex_t one;    /* whoever vacuums has it, and has taken it before the handle's lock */
    pthread_cond_t bell;    /* rung for the vacuum that rests */
    pthread_cond_t through; /* rung for those that stand aside until it has made a part */
    atomic_uint waiting;    /* threads that wait for the handle's lock */
    uint64_t came;          /* how many that waited have had it, and one */
    uint64_t awaited;       /* the vacuum rests until so many have come; 0 where it doesn't */
    uint64_t parts;         /* how many parts were made, or refused */
    uint64_t due;           /* from when on calls that come stand aside, in nanoseconds; 0 for never */
    int is_blocked;         /* the vacuum rests until a scan has moved */
    uint32_t patience;      /* how long, in milliseconds */
};

struct nardsill {
    pthread_mutex_t lock;
    struct nardsill_shell *shell; /* embedding/fuzz.c knows its place */
    struct nardsill_shell *syncer; /* syncs the file without the lock; whoever commits has it; null where there is none */
    struct gathering gathering;
    struct turns turns;
    nardsill_scan *scans; /* those that are open */
    uint32_t frames, count;
    int descriptor, beside; /* the library's own, for a forked child to close; the second syncs, and is -1 where there is no syncer */
    int cause;              /* why the last call of the file failed that did; 0 where none has */
    int is_doubtful;        /* one has: it may have been a write or a sync, behind which the file takes no call */
    int has_stopped;        /* it was: each call is refused */
    int is_parents;       /* this process is a child of the one that opened it */
    nardsill *next;       /* of the process's handles */
};

struct nardsill_scan {
    nardsill *index; /* null once it is closed */
    uint64_t number;
    uint32_t session;
    nardsill_scan *next, **before;
};

/* What a call answers: its status, with what a fault names. */
struct outcome {
    int status, error;
    uint32_t page;
    nardsill_row row;
};

static _Thread_local nardsill_fault last_fault;

const nardsill_fault *nardsill_last_fault(void) { return &last_fault; }

/* What a call keeps of its thread: whether it may be cancelled, and errno. */
struct kept {
    int state, error;
};

/* A call isn't left by a cancellation: the thread would keep the handle's lock, or a descriptor. */
static struct kept enter(void) {
    struct kept kept = {.error = errno};
    pthread_setcancelstate(PTHREAD_CANCEL_DISABLE, &kept.state);
    return kept;
}

static void leave(struct kept kept) {
    errno = kept.error;
    pthread_setcancelstate(kept.state, 0);
}

static int leave_with(struct kept kept, struct outcome outcome) {
    if (outcome.status == NARDSILL_IO) {
        /* A file that is shorter than it was fails without a number of its own. */
        if (!outcome.error) outcome.error = EIO;
        kept.error = outcome.error;
    }
    if (outcome.status && outcome.status != NARDSILL_DONE) last_fault = (nardsill_fault){outcome.status, outcome.error, outcome.page, outcome.row};
    leave(kept);
    return outcome.status;
}

/* The outcome of a call of the system that failed just now. */
static struct outcome system_failed(void) { return (struct outcome){.status = NARDSILL_IO, .error = errno}; }

static struct outcome only(int status) { return (struct outcome){.status = status}; }

static int misused(void) { return leave_with(enter(), only(NARDSILL_MISUSE)); }

/* What the library answered. Why a call of the file has failed, now or before, stands in errno. */
static struct outcome told(uint32_t status, uint32_t page, nardsill_row row) {
    return (struct outcome){(int)status, status == NARDSILL_IO || status == NARDSILL_STOPPED ? errno : 0, page, row};
}

static struct outcome told_by(struct nardsill_answer answer) {
    return told(answer.status, answer.page, (nardsill_row){answer.block, answer.offset});
}

/* A forked child has the parent's files and handles. It closes the files, so that it holds no lock of the parent's, and uses none of
   the handles. No call opens a file while the process is forked: its descriptor would be known to nobody in the child. A fork goes
   before calls that come later, else it might wait for ever. */
static pthread_rwlock_t forking = PTHREAD_RWLOCK_WRITER_NONRECURSIVE_INITIALIZER_NP;
static pthread_mutex_t all_lock = PTHREAD_MUTEX_INITIALIZER;
static nardsill *all;

static void before_fork(void) {
    pthread_rwlock_wrlock(&forking);
    pthread_mutex_lock(&all_lock);
}

static void behind_fork(void) {
    pthread_mutex_unlock(&all_lock);
    pthread_rwlock_unlock(&forking);
}

static void in_child(void) {
    for (nardsill *index = all; index; index = index->next) {
        close(index->descriptor);
        if (index->beside >= 0) close(index->beside);
        index->is_parents = 1;
    }
    all = 0;
    all_lock = (pthread_mutex_t)PTHREAD_MUTEX_INITIALIZER;
    forking = (pthread_rwlock_t)PTHREAD_RWLOCK_WRITER_NONRECURSIVE_INITIALIZER_NP;
}

static pthread_once_t once = PTHREAD_ONCE_INIT;
static int is_watched;

static void watch(void) { is_watched = !pthread_atfork(before_fork, behind_fork, in_child); }

/* Keeps forks out until the file is in a handle, or closed. Answers 0 where there is no memory to watch them. */
static int hold_forks(void) {
    pthread_once(&once, watch);
    if (is_watched) pthread_rwlock_rdlock(&forking);
    return is_watched;
}

static void let_forks(void) { pthread_rwlock_unlock(&forking); }

static void keep(nardsill *index) {
    pthread_mutex_lock(&all_lock);
    index->next = all;
    all = index;
    pthread_mutex_unlock(&all_lock);
}

static void forget_locked(nardsill *index) {
    nardsill **at = &all;
    while (*at && *at != index) at = &(*at)->next;
    if (*at) *at = index->next;
}

static void let_go(struct nardsill_shell *shell) {
    nardsill_proved_call(shell, (struct nardsill_ask){.what = NARDSILL_LET_GO});
    /* Its block is malloc's. */
    free(shell);
}

/* Takes the lock of the file, which the library then has by another descriptor of the same open file. */
static struct outcome lock(int fd) {
    if (!flock(fd, LOCK_EX | LOCK_NB)) return only(0);
    return errno == EWOULDBLOCK ? only(NARDSILL_LOCKED) : system_failed();
}

/* The lock is let go by a call: where a forked child has not come to close its descriptor yet, and on a file system that learns of a
   closing late, a closing alone would keep it a while. */
static void close_unlocked(int fd) {
    int error = errno;
    flock(fd, LOCK_UN);
    close(fd);
    errno = error;
}

/* What a new file has, beside the umask. */
enum { ANY_MODE = 0666 };

/* Opens a file for this library alone. It never has the number of a standard stream, on which something else may write. */
static struct outcome open_file(const char *path, int flags, mode_t mode, int *fd) {
    int low = open(path, O_CLOEXEC | O_NOCTTY | flags, mode);
    *fd = low;
    if (low < 0) return system_failed();
    if (low > 2) return only(0);
    *fd = fcntl(low, F_DUPFD_CLOEXEC, 3);
    struct outcome outcome = *fd < 0 ? system_failed() : only(0);
    close(low);
    return outcome;
}

static struct outcome sync_folder(const char *path) {
    const char *slash = strrchr(path, '/');
    char *folder = slash ? strndup(path, (size_t)(slash - path) + 1) : strdup(".");
    if (!folder) return only(NARDSILL_NO_MEMORY);
    int fd = open(folder, O_RDONLY | O_DIRECTORY | O_CLOEXEC);
    struct outcome outcome = fd < 0 || fsync(fd) ? system_failed() : only(0);
    free(folder);
    if (fd >= 0) close(fd);
    return outcome;
}

/* The name of the file in which an index is made, beside its own. */
static char *draft_of(const char *path) {
    size_t len = strlen(path);
    char *draft = malloc(len + sizeof ".nardsill-draft");
    if (!draft) return 0;
    memcpy(draft, path, len);
    memcpy(draft + len, ".nardsill-draft", sizeof ".nardsill-draft");
    return draft;
}

/* Whether a name leads to this very file. */
static int leads_to(int fd, const char *name) {
    struct stat held, named;
    return !fstat(fd, &held) && !lstat(name, &named) && held.st_dev == named.st_dev && held.st_ino == named.st_ino;
}

/* Whether the file is a draft that no other maker has taken, or placed, before its lock was had. */
static struct outcome is_draft(int fd, const char *draft) {
    struct stat held;
    if (fstat(fd, &held)) return system_failed();
    errno = !S_ISREG(held.st_mode) ? EEXIST : held.st_nlink != 1 || !leads_to(fd, draft) ? EBUSY : 0;
    return errno ? system_failed() : only(0);
}

/* Takes the draft's name from a file that has its own one too: one that is whole, whose making was stopped before its end. */
static struct outcome let_whole_go(const char *draft) {
    struct stat named;
    if (lstat(draft, &named)) return errno == ENOENT ? only(0) : system_failed();
    if (!S_ISREG(named.st_mode)) {
        errno = EEXIST;
        return system_failed();
    }
    return named.st_nlink > 1 && unlink(draft) ? system_failed() : only(0);
}

/* Gives a draft its own name, unless that is taken. A file system without hard links moves it there. */
static struct outcome place(const char *draft, const char *path) {
    if (!link(draft, path)) return only(0);
    if (errno != EPERM && errno != EOPNOTSUPP && errno != ENOSYS) return system_failed();
    return renameat2(AT_FDCWD, draft, AT_FDCWD, path, RENAME_NOREPLACE) ? system_failed() : only(0);
}

/* A file is placed and its name is durable, or it isn't at the path. It is locked: nobody has used it before. */
static struct outcome place_durably(const char *draft, const char *path) {
    struct outcome outcome = place(draft, path);
    if (outcome.status) return outcome;
    outcome = sync_folder(path);
    if (outcome.status) unlink(path);
    return outcome;
}

/* A File of the library is its descriptor's number; it compares that with the one that it is told. */
static struct outcome make(int fd, struct nardsill_make_ask ask) {
    int file = fd;
    struct nardsill_shell *shell;
    if (nardsill_proved_new(&shell)) return only(NARDSILL_NO_MEMORY);
    ask.descriptor = fd;
    errno = 0;
    struct outcome outcome = told_by(nardsill_proved_make(shell, &file, ask));
    let_go(shell);
    return outcome;
}

/* A draft that was left may be open to more than a new one would be. Where its file system knows no modes it stays as it is. */
static struct outcome narrow(int fd, mode_t mode) {
    struct stat held;
    if (fstat(fd, &held)) return system_failed();
    if (held.st_mode & 0777 & ~mode) (void)!fchmod(fd, held.st_mode & mode);
    return only(0);
}

/* Opens a draft that is nobody else's, with this mode at most, and locks it. */
static struct outcome open_draft(const char *draft, mode_t mode, int *fd) {
    struct outcome outcome = let_whole_go(draft);
    if (!outcome.status) outcome = open_file(draft, O_RDWR | O_CREAT | O_NOFOLLOW, mode, fd);
    if (outcome.status) return outcome;
    outcome = lock(*fd);
    if (!outcome.status) outcome = is_draft(*fd, draft);
    if (!outcome.status) outcome = narrow(*fd, mode);
    if (outcome.status) close_unlocked(*fd);
    return outcome;
}

/* Makes an index in the draft's file, and gives it its own name once it is whole. */
static struct outcome create_by(const char *draft, const char *path, struct nardsill_make_ask ask) {
    int fd;
    struct outcome outcome = open_draft(draft, ANY_MODE, &fd);
    if (outcome.status) return outcome;
    outcome = make(fd, ask);
    if (!outcome.status) outcome = place_durably(draft, path);
    unlink(draft);
    close_unlocked(fd);
    return outcome;
}

/* Nothing has this name. */
static struct outcome want_free(const char *path) {
    struct stat there;
    if (!lstat(path, &there)) errno = EEXIST;
    return errno == ENOENT ? only(0) : system_failed();
}

static struct outcome create(const char *path, struct nardsill_make_ask ask) {
    struct outcome outcome = want_free(path);
    if (outcome.status) return outcome;
    char *draft = draft_of(path);
    if (!draft) return only(NARDSILL_NO_MEMORY);
    outcome = only(NARDSILL_NO_MEMORY);
    if (hold_forks()) {
        outcome = create_by(draft, path, ask);
        let_forks();
    }
    free(draft);
    return outcome;
}

static struct nardsill_make_ask ask_of(const nardsill_limits *limits) {
    return (struct nardsill_make_ask){.items = limits->items, .pages = limits->pages, .log_bytes = limits->log_bytes, .unique = limits->unique};
}

int nardsill_create(const char *path, const nardsill_limits *limits) {
    static const nardsill_limits usual = NARDSILL_LIMITS;
    if (!limits) limits = &usual;
    if (!path || limits->size != sizeof *limits) return misused();
    struct kept kept = enter();
    return leave_with(kept, create(path, ask_of(limits)));
}

enum { BELLS = 5 };

static void free_bells(nardsill *index, int count) {
    pthread_cond_t *const bells[] = {&index->gathering.bell, &index->gathering.forced, &index->gathering.back, &index->turns.bell, &index->turns.through};
    while (count--) pthread_cond_destroy(bells[count]);
}

/* Makes a handle's bells. 0, or 1 where the system has no room for them. */
static int make_bells(nardsill *index) {
    pthread_cond_t *const bells[] = {&index->gathering.bell, &index->gathering.forced, &index->gathering.back, &index->turns.bell, &index->turns.through};
    pthread_condattr_t clock;
    int count = 0;
    if (pthread_condattr_init(&clock)) return 1;
    /* The clock of the day may be set back, and a wait would last so much longer. */
    if (!pthread_condattr_setclock(&clock, CLOCK_MONOTONIC))
        while (count < BELLS && !pthread_cond_init(bells[count], &clock)) count++;
    pthread_condattr_destroy(&clock);
    if (count == BELLS) return 0;
    free_bells(index, count);
    return 1;
}

/* Makes a handle's locks and its bells. 0, or 1 where the system has no room for them. */
static int make_locks(nardsill *index) {
    if (make_bells(index)) return 1;
    if (!pthread_mutex_init(&index->turns.one, 0)) {
        if (!pthread_mutex_init(&index->lock, 0)) return 0;
        pthread_mutex_destroy(&index->turns.one);
    }
    free_bells(index, BELLS);
    return 1;
}

static void free_locks(nardsill *index) {
    pthread_mutex_destroy(&index->lock);
    pthread_mutex_destroy(&index->turns.one);
    free_bells(index, BELLS);
}

static void let_syncer_go(nardsill *index) {
    if (index->syncer) let_go(index->syncer);
    index->syncer = 0;
    index->beside = -1;
}

/* Makes what syncs the index's file while the index answers calls. Without it a commit syncs with the lock held. */
static struct outcome share(nardsill *index) {
    if (nardsill_proved_new(&index->syncer)) return only(NARDSILL_NO_MEMORY);
    struct nardsill_answer answer = nardsill_proved_share(index->syncer, index->shell, (struct nardsill_open_ask){0, 0});
    if (!answer.status) index->beside = answer.descriptor;
    else let_syncer_go(index);
    return only(answer.status == NARDSILL_NO_MEMORY ? NARDSILL_NO_MEMORY : 0);
}

/* A path by which the file of a descriptor is opened anew. */
static void spell_path(int fd, char path[32]) { snprintf(path, 32, "/proc/self/fd/%d", fd); }

/* As Linux names what a program serves by FUSE (statfs(2)), volumes of GlusterFS among them. */
enum { FUSE = 0x65735546 };

/* Whether a program serves the file, or that can't be known. */
static int is_served(int fd) {
    struct statfs where;
    return fstatfs(fd, &where) || where.f_type == FUSE;
}

/* Another open file of the same file, which syncs; or the same one, where the system opens none. Of a write that came to nothing the
   system tells each open file once: so the index's own syncs are told of it too, whoever was told first. On a volume of GlusterFS there
   is one open file alone: a lock of its own that two share may stay behind on a server that comes back, and keeps other hosts out. It is
   open for reading: a sync wants no more, and no write goes out by it. */
static int open_beside(int fd) {
    char anew[32];
    int beside;
    if (is_served(fd)) return fd;
    spell_path(fd, anew);
    return open_file(anew, O_RDONLY, 0, &beside).status ? fd : beside;
}

/* Opens the index in a file of this library's own, in a handle that has no index yet. */
static struct outcome take(nardsill *index, int fd) {
    struct outcome outcome = lock(fd);
    if (outcome.status) return outcome;
    if (nardsill_proved_new(&index->shell)) return only(NARDSILL_NO_MEMORY);
    struct nardsill_files files = {fd, open_beside(fd)};
    errno = 0;
    struct nardsill_answer answer = nardsill_proved_take(index->shell, &files, (struct nardsill_open_ask){fd, index->frames});
    outcome = told_by(answer);
    if (files.beside != fd) close(files.beside);
    index->descriptor = answer.descriptor;
    if (!outcome.status) outcome = share(index);
    if (outcome.status) let_go(index->shell);
    return outcome;
}

static struct outcome start(int fd, uint32_t frames, nardsill **out) {
    nardsill *index = calloc(1, sizeof *index);
    if (!index) return only(NARDSILL_NO_MEMORY);
    index->beside = -1;
    index->frames = frames ? frames : 64;
    index->gathering.call = 1;
    index->turns.came = 1;
    if (make_locks(index)) {
        free(index);
        return only(NARDSILL_NO_MEMORY);
    }
    struct outcome outcome = take(index, fd);
    if (outcome.status) {
        free_locks(index);
        free(index);
        return outcome;
    }
    keep(index);
    *out = index;
    return outcome;
}

/* Syncs the folder of a file that has its draft's name too, and takes that. */
static struct outcome end_making_at(int fd, const char *path) {
    char *draft = draft_of(path);
    if (!draft) return only(NARDSILL_NO_MEMORY);
    struct outcome outcome = only(0);
    if (leads_to(fd, draft) && leads_to(fd, path)) {
        outcome = sync_folder(path);
        if (!outcome.status && unlink(draft)) outcome = system_failed();
    }
    free(draft);
    return outcome;
}

/* A maker that died after it gave the file its name, and before it took the draft's, may not have synced the folder. */
static struct outcome end_making(int fd, const char *path) {
    struct stat held;
    if (fstat(fd, &held)) return system_failed();
    if (held.st_nlink < 2) return only(0);
    char *real = realpath(path, 0);
    if (!real) return errno == ENOMEM ? only(NARDSILL_NO_MEMORY) : system_failed();
    struct outcome outcome = end_making_at(fd, real);
    free(real);
    return outcome;
}

/* Opens a file and the index in it. A path of a making that was stopped is made durable before. */
static struct outcome open_index(const char *path, int is_path, uint32_t frames, nardsill **out) {
    int fd;
    if (!hold_forks()) return only(NARDSILL_NO_MEMORY);
    struct outcome outcome = open_file(path, O_RDWR, 0, &fd);
    if (!outcome.status) {
        outcome = start(fd, frames, out);
        if (!outcome.status && is_path) outcome = end_making(fd, path);
        /* The library has the same lock by its own descriptor. */
        if (outcome.status) close_unlocked(fd);
        else close(fd);
    }
    let_forks();
    return outcome;
}

/* No fork comes between: its child would have the file, and not know it. */
static void free_index(nardsill *index) {
    pthread_mutex_lock(&all_lock);
    forget_locked(index);
    flock(index->descriptor, LOCK_UN);
    let_syncer_go(index);
    let_go(index->shell);
    pthread_mutex_unlock(&all_lock);
    free_locks(index);
    free(index);
}

static int open_and_leave(const char *path, int is_path, uint32_t frames, nardsill **out) {
    struct kept kept = enter();
    nardsill *index = 0;
    struct outcome outcome = open_index(path, is_path, frames, &index);
    if (outcome.status && index) {
        free_index(index);
        index = 0;
    }
    *out = index;
    return leave_with(kept, outcome);
}

int nardsill_open(const char *path, uint32_t frames, nardsill **out) {
    if (out) *out = 0;
    return path && out ? open_and_leave(path, 1, frames, out) : misused();
}

int nardsill_open_fd(int fd, uint32_t frames, nardsill **out) {
    if (out) *out = 0;
    int flags = fcntl(fd, F_GETFL);
    if (!out || flags < 0 || (flags & O_ACCMODE) != O_RDWR || flags & (O_APPEND | O_PATH)) return misused();
    /* The file is opened anew: a lock doesn't part two handles of one open file, and the caller's may be closed, or append. */
    char path[32];
    spell_path(fd, path);
    return open_and_leave(path, 0, frames, out);
}

/* This thread's number behind 0, in the order of their first commits; 0 before that. */
static _Thread_local unsigned committer;

static uint64_t nanoseconds(void) {
    struct timespec now;
    clock_gettime(CLOCK_MONOTONIC, &now);
    return (uint64_t)now.tv_sec * 1000000000u + (uint64_t)now.tv_nsec;
}

/* Waits at a bell until it is rung, or until this time. */
static void wait_until(nardsill *index, pthread_cond_t *bell, uint64_t until) {
    const struct timespec end = {(time_t)(until / 1000000000u), (long)(until % 1000000000u)};
    pthread_cond_timedwait(bell, &index->lock, &end);
}

/* So long calls may go before a vacuum that waits for the lock. Then those that come stand aside until it has made a part. */
enum { MOST_BEHIND = 1000000 };

static int is_vacuums_turn(const struct turns *turns) { return turns->due && nanoseconds() >= turns->due; }

/* Wakes the vacuum that rests, which calls go before for a while. */
static void ring(struct turns *turns) {
    if (!turns->due) turns->due = nanoseconds() + MOST_BEHIND;
    pthread_cond_signal(&turns->bell);
}

/* Who has waited for the lock has it. */
static void arrive(struct turns *turns) {
    turns->came++;
    if (--turns->waiting && turns->came != turns->awaited) return;
    if (turns->awaited) ring(turns);
}

/* Takes the handle's lock. Who waits for it is seen: a vacuum rests for it, and commits may wait for a committer. */
static void take_lock(nardsill *index) {
    struct turns *turns = &index->turns;
    int has_it = !pthread_mutex_trylock(&index->lock);
    if (has_it && !is_vacuums_turn(turns) && !index->gathering.returns) return;
    if (committer) index->gathering.at_lock++;
    turns->waiting++;
    if (!has_it) pthread_mutex_lock(&index->lock);
    while (index->gathering.returns) pthread_cond_wait(&index->gathering.back, &index->lock);
    if (is_vacuums_turn(turns)) {
        uint64_t parts = turns->parts;
        while (turns->parts == parts) pthread_cond_wait(&turns->through, &index->lock);
    }
    arrive(turns);
    if (committer) index->gathering.at_lock--;
}

/* Before a call that may log an action: while a commit syncs it waits, else the parts of the commit would have to be done again, under
   the lock. It goes before the next commit, else one thread that commits again and again would keep it out. */
static void wait_for_force(nardsill *index) {
    struct gathering *all = &index->gathering;
    if (!all->is_forcing) return;
    uint64_t call = all->call;
    all->held++;
    while (all->call == call) pthread_cond_wait(&all->forced, &index->lock);
    if (!--all->passing) pthread_cond_broadcast(&all->bell);
}

/* Takes the handle's lock for such a call. */
static void take_lock_to_log(nardsill *index) {
    take_lock(index);
    wait_for_force(index);
}

/* A scan may have left its leaf, or the index has stopped: a vacuum that waits for that goes before each call that comes. */
static void tell_blocked(struct turns *turns) {
    if (!turns->is_blocked) return;
    turns->is_blocked = 0;
    turns->due = 1;
    pthread_cond_signal(&turns->bell);
}

/* Notes that a call of the file has failed, or that none was made since one has: errno tells why then, and to each refusal behind it. */
static void note_failure(nardsill *index, uint32_t status) {
    if (status != NARDSILL_IO && status != NARDSILL_STOPPED) return;
    if (errno) index->cause = errno;
    else errno = index->cause;
    index->is_doubtful = 1;
    tell_blocked(&index->turns);
}

/* Whether a call frees what an index has in memory: it is made of one that has stopped too. */
static int is_freeing(uint32_t what) { return what == NARDSILL_END || what == NARDSILL_END_VACUUM || what == NARDSILL_FREE_ROWS; }

/* A call of the library, by a thread that has the handle's lock. */
static struct nardsill_answer ask_locked(nardsill *index, struct nardsill_ask ask) {
    struct nardsill_answer answer = {.status = NARDSILL_STOPPED};
    errno = 0;
    if (!index->has_stopped || is_freeing(ask.what)) answer = nardsill_proved_call(index->shell, ask);
    note_failure(index, answer.status);
    /* An entry is in, and a call of the file that came behind it has failed. */
    if (ask.what == NARDSILL_INSERT && !answer.status) note_failure(index, (uint32_t)answer.other);
    /* A checkpoint reads nothing. */
    if (ask.what == NARDSILL_CHECKPOINT && answer.status == NARDSILL_IO) index->has_stopped = 1;
    return answer;
}

/* Makes a checkpoint, and tells how many actions are durable, if that is wanted. */
static struct outcome checkpoint(nardsill *index, uint64_t *actions) {
    take_lock_to_log(index);
    struct nardsill_answer answer = ask_locked(index, (struct nardsill_ask){.what = NARDSILL_CHECKPOINT});
    struct outcome outcome = told_by(answer);
    pthread_mutex_unlock(&index->lock);
    if (!outcome.status && actions) *actions = answer.number;
    return outcome;
}

/* Before each call of a handle: 0, or why it isn't made. */
static int refusal_of(const nardsill *index) { return !index ? NARDSILL_MISUSE : index->is_parents ? NARDSILL_FORKED : 0; }

static int refused(int status) { return leave_with(enter(), only(status)); }

/* Scans that are left know that their index is gone. */
static void orphan(nardsill *index) {
    for (nardsill_scan *scan = index->scans; scan; scan = scan->next) scan->index = 0;
}

int nardsill_close(nardsill *index) {
    if (!index) return 0;
    /* What another thread of the parent did when the process was forked is half done here: its memory is left alone. */
    if (index->is_parents) return refused(NARDSILL_FORKED);
    struct kept kept = enter();
    orphan(index);
    struct outcome outcome = checkpoint(index, 0);
    free_index(index);
    return leave_with(kept, outcome);
}

static struct nardsill_answer insert_locked(nardsill *index, const void *key, size_t key_len, nardsill_row row) {
    if (key_len > NARDSILL_KEY_MAX) return (struct nardsill_answer){.status = NARDSILL_KEY_TOO_LONG};
    struct nardsill_ask ask = {.what = NARDSILL_INSERT, .block = row.block, .offset = row.offset, .len = (uint8_t)key_len};
    if (key_len) memcpy(ask.key, key, key_len);
    return ask_locked(index, ask);
}

int nardsill_insert(nardsill *index, const void *key, size_t key_len, nardsill_row row, uint64_t *action) {
    int status = !key && key_len ? NARDSILL_MISUSE : refusal_of(index);
    if (status) return refused(status);
    struct kept kept = enter();
    take_lock_to_log(index);
    struct nardsill_answer answer = insert_locked(index, key, key_len, row);
    struct outcome outcome = told_by(answer);
    pthread_mutex_unlock(&index->lock);
    if (!outcome.status && action) *action = answer.number;
    return leave_with(kept, outcome);
}

int nardsill_insert_many(nardsill *index, const nardsill_entry *entries, size_t count, size_t *done) {
    if (done) *done = 0;
    int status = !entries && count ? NARDSILL_MISUSE : refusal_of(index);
    if (status) return refused(status);
    struct kept kept = enter();
    size_t i = 0;
    struct outcome outcome = only(0);
    take_lock_to_log(index);
    for (; i < count; i++) {
        outcome = told_by(insert_locked(index, entries[i].key, entries[i].key_len, entries[i].row));
        if (outcome.status) break;
    }
    pthread_mutex_unlock(&index->lock);
    if (done) *done = i;
    return leave_with(kept, outcome);
}

/* The ask of a range; its status is that of ends that are none. */
static int spell_range(struct nardsill_ask *ask, const void *from, size_t from_len, const void *below, size_t below_len) {
    if ((!from && from_len) || (!below && below_len)) return NARDSILL_MISUSE;
    if (from_len > NARDSILL_KEY_MAX || below_len > NARDSILL_KEY_MAX) return NARDSILL_KEY_TOO_LONG;
    ask->ends = (from ? 1u : 0u) + (below ? 2u : 0u);
    ask->len = (uint8_t)from_len;
    ask->below_len = (uint8_t)below_len;
    if (from_len) memcpy(ask->key, from, from_len);
    if (below_len) memcpy(ask->below, below, below_len);
    return 0;
}

/* The end of the keys that begin so: the first key behind them all, or none where each byte is 255. */
static void end_prefix(struct nardsill_ask *ask, const uint8_t *prefix, size_t len) {
    while (len && prefix[len - 1] == 255) len--;
    if (!len) return;
    memcpy(ask->below, prefix, len);
    ask->below[len - 1]++;
    ask->below_len = (uint8_t)len;
    ask->ends |= 2;
}

/* The end of the entries of one key: the first key behind it. */
static void end_key(struct nardsill_ask *ask, const uint8_t *key, size_t len) {
    if (len == NARDSILL_KEY_MAX) {
        end_prefix(ask, key, len);
        return;
    }
    if (len) memcpy(ask->below, key, len);
    ask->below_len = (uint8_t)(len + 1);
    ask->ends |= 2;
}

static struct nardsill_given next_locked(nardsill *index, struct nardsill_token token) {
    errno = 0;
    struct nardsill_given given = nardsill_proved_next(index->shell, token);
    note_failure(index, given.status);
    return given;
}

static struct outcome told_given(const struct nardsill_given *given) {
    if (given->status) return told(given->status, given->page, (nardsill_row){0, 0});
    return only(given->is_given ? 0 : NARDSILL_DONE);
}

/* A scan of one key is begun, asked once and closed. */
static struct outcome get_locked(nardsill *index, struct nardsill_ask ask, nardsill_row *out) {
    struct nardsill_answer begun = ask_locked(index, ask);
    if (begun.status) return told_by(begun);
    struct nardsill_given given = next_locked(index, (struct nardsill_token){begun.number, begun.session});
    struct outcome outcome = told_given(&given);
    ask_locked(index, (struct nardsill_ask){.what = NARDSILL_END, .session = begun.session, .number = begun.number});
    if (outcome.status == NARDSILL_DONE) return only(NARDSILL_NOT_FOUND);
    if (!outcome.status) *out = (nardsill_row){given.block, given.offset};
    return outcome;
}

int nardsill_get(nardsill *index, const void *key, size_t key_len, nardsill_row *out) {
    struct nardsill_ask ask = {.what = NARDSILL_BEGIN};
    int status = !out ? NARDSILL_MISUSE : refusal_of(index);
    if (!status) status = spell_range(&ask, key ? key : "", key ? key_len : 0, 0, 0);
    if (!key && key_len) status = NARDSILL_MISUSE;
    if (status) return refused(status);
    end_key(&ask, ask.key, key_len);
    struct kept kept = enter();
    take_lock(index);
    struct outcome outcome = get_locked(index, ask, out);
    pthread_mutex_unlock(&index->lock);
    return leave_with(kept, outcome);
}

static void add_scan(nardsill *index, nardsill_scan *scan) {
    scan->next = index->scans;
    scan->before = &index->scans;
    if (scan->next) scan->next->before = &scan->next;
    index->scans = scan;
    index->count++;
}

static void remove_scan(nardsill *index, nardsill_scan *scan) {
    *scan->before = scan->next;
    if (scan->next) scan->next->before = scan->before;
    index->count--;
}

/* Opens the scan that is asked for. */
static struct outcome begin(nardsill *index, struct nardsill_ask ask, nardsill_scan **out) {
    nardsill_scan *scan = malloc(sizeof *scan);
    if (!scan) return only(NARDSILL_NO_MEMORY);
    take_lock(index);
    struct nardsill_answer answer = ask_locked(index, ask);
    struct outcome outcome = told_by(answer);
    *scan = (nardsill_scan){index, answer.number, answer.session, 0, 0};
    if (!outcome.status) add_scan(index, scan);
    pthread_mutex_unlock(&index->lock);
    if (outcome.status) free(scan);
    else *out = scan;
    return outcome;
}

int nardsill_scan_open(nardsill *index, const void *from, size_t from_len, const void *below, size_t below_len, nardsill_scan **out) {
    if (out) *out = 0;
    struct nardsill_ask ask = {.what = NARDSILL_BEGIN};
    int status = !out ? NARDSILL_MISUSE : refusal_of(index);
    if (!status) status = spell_range(&ask, from, from_len, below, below_len);
    if (status) return refused(status);
    struct kept kept = enter();
    return leave_with(kept, begin(index, ask, out));
}

int nardsill_scan_open_prefix(nardsill *index, const void *prefix, size_t prefix_len, nardsill_scan **out) {
    if (out) *out = 0;
    struct nardsill_ask ask = {.what = NARDSILL_BEGIN};
    int status = !out ? NARDSILL_MISUSE : refusal_of(index);
    if (!status) status = spell_range(&ask, prefix, prefix_len, 0, 0);
    if (status) return refused(status);
    end_prefix(&ask, ask.key, prefix_len);
    struct kept kept = enter();
    return leave_with(kept, begin(index, ask, out));
}

/* Before each call of a scan: 0, or why it isn't made. */
static int refusal_of_scan(const nardsill_scan *scan) {
    return !scan ? NARDSILL_MISUSE : !scan->index ? NARDSILL_NO_SESSION : refusal_of(scan->index);
}

int nardsill_scan_restart(nardsill_scan *scan, const void *from, size_t from_len, const void *below, size_t below_len) {
    int status = refusal_of_scan(scan);
    if (status) return refused(status);
    struct nardsill_ask ask = {.what = NARDSILL_AGAIN, .session = scan->session, .number = scan->number};
    status = spell_range(&ask, from, from_len, below, below_len);
    if (status) return refused(status);
    struct kept kept = enter();
    take_lock(scan->index);
    struct outcome outcome = told_by(ask_locked(scan->index, ask));
    tell_blocked(&scan->index->turns);
    pthread_mutex_unlock(&scan->index->lock);
    return leave_with(kept, outcome);
}

static struct outcome read_locked(nardsill_scan *scan, nardsill_entry *out, size_t room, size_t *count) {
    const struct nardsill_token token = {scan->number, scan->session};
    for (; *count < room; ++*count) {
        struct nardsill_given given = next_locked(scan->index, token);
        struct outcome outcome = told_given(&given);
        if (outcome.status) return outcome;
        out[*count].row = (nardsill_row){given.block, given.offset};
        out[*count].key_len = given.len;
        memcpy(out[*count].key, given.key, NARDSILL_KEY_MAX);
    }
    return only(0);
}

int nardsill_scan_read(nardsill_scan *scan, nardsill_entry *out, size_t room, size_t *count) {
    if (count) *count = 0;
    int status = !count || (!out && room) ? NARDSILL_MISUSE : refusal_of_scan(scan);
    if (status) return refused(status);
    struct kept kept = enter();
    take_lock(scan->index);
    struct outcome outcome = read_locked(scan, out, room, count);
    tell_blocked(&scan->index->turns);
    pthread_mutex_unlock(&scan->index->lock);
    return leave_with(kept, outcome);
}

int nardsill_scan_next(nardsill_scan *scan, nardsill_entry *out) {
    size_t count;
    return nardsill_scan_read(scan, out, 1, &count);
}

void nardsill_scan_close(nardsill_scan *scan) {
    if (!scan) return;
    nardsill *index = scan->index;
    if (index && !index->is_parents) {
        struct kept kept = enter();
        take_lock(index);
        ask_locked(index, (struct nardsill_ask){.what = NARDSILL_END, .session = scan->session, .number = scan->number});
        remove_scan(index, scan);
        tell_blocked(&index->turns);
        pthread_mutex_unlock(&index->lock);
        leave(kept);
    }
    free(scan);
}

static void tell(const struct nardsill_answer *answer, nardsill_stats *stats) {
    if (stats)
        *stats = (nardsill_stats){stats->size, answer->num_pages, answer->pages_newly_deleted, answer->pages_deleted, answer->pages_free, 0,
                                  answer->other, answer->number};
}

static int is_sized(const nardsill_stats *stats) { return !stats || stats->size == sizeof *stats; }

/* A vacuum: the calls that begin it in parts and that make it whole; the rows of a bulk delete; and how far it is. */
struct vacuum {
    uint32_t begin, whole;
    const nardsill_row *rows;
    size_t count, named;
    int is_begun, is_over;
    uint64_t blocked; /* since when its next step is blocked; 0 where it isn't */
};

/* Steps of a part, and rows that are named in one. */
enum { PART = 32, ROWS = 512 };

/* Names some rows more. Only a vacuum names any, and only one runs. Where one is refused, those before it are forgotten. */
static struct nardsill_answer name_some(nardsill *index, struct vacuum *me) {
    struct nardsill_answer answer = {.status = 0};
    for (int left = ROWS; left && me->named < me->count && !answer.status; left--) {
        const nardsill_row *row = me->rows + me->named++;
        answer = ask_locked(index, (struct nardsill_ask){.what = NARDSILL_NAME_DEAD, .block = row->block, .offset = row->offset});
    }
    return answer;
}

/* Begins it. It has the place of an open scan while it goes on: where there is none, it is made whole. The rows are forgotten. */
static struct nardsill_answer begin_vacuum(nardsill *index, struct vacuum *me) {
    int is_whole = index->count == 63;
    struct nardsill_answer answer = ask_locked(index, (struct nardsill_ask){.what = is_whole ? me->whole : me->begin});
    me->named = 0;
    me->is_begun = !is_whole && !answer.status;
    me->is_over = is_whole && !answer.status;
    return answer;
}

/* A part of it. A step that was blocked is tried alone. */
static struct nardsill_answer make_part(nardsill *index, struct vacuum *me) {
    if (!me->is_begun) return me->named < me->count ? name_some(index, me) : begin_vacuum(index, me);
    struct nardsill_answer answer = ask_locked(index, (struct nardsill_ask){.what = NARDSILL_GO_ON, .block = me->blocked ? 1 : PART});
    me->is_over = (int)answer.session;
    return answer;
}

/* Lets the lock go until the bell is rung, or until this time if it isn't 0; then it may be overtaken for a while. */
static void rest(nardsill *index, uint64_t until) {
    struct turns *turns = &index->turns;
    turns->parts++;
    turns->due = until ? until + MOST_BEHIND : 0;
    pthread_cond_broadcast(&turns->through);
    if (until) wait_until(index, &turns->bell, until);
    else pthread_cond_wait(&turns->bell, &index->lock);
}

/* Whether somebody waits for the lock who is to have it before the next part: a commit whose wait has ended does too. */
static int is_awaited(nardsill *index) {
    const struct turns *turns = &index->turns;
    const struct gathering *all = &index->gathering;
    return (turns->waiting && turns->came < turns->awaited) || (all->commits && nanoseconds() >= all->until);
}

/* Lets those have the lock that wait for it now. */
static void let_in(nardsill *index) {
    struct turns *turns = &index->turns;
    turns->awaited = turns->came + turns->waiting;
    while (is_awaited(index)) rest(index, 0);
    turns->awaited = 0;
}

/* Waits until a scan has moved: whether the step is to be tried again. */
static int wait_for_scans(nardsill *index, struct vacuum *me) {
    struct turns *turns = &index->turns;
    if (!me->blocked) me->blocked = nanoseconds();
    for (turns->is_blocked = 1; turns->is_blocked;) {
        uint64_t until = me->blocked + turns->patience * (uint64_t)1000000;
        if (nanoseconds() >= until) break;
        rest(index, until);
    }
    int is_told = !turns->is_blocked;
    turns->is_blocked = 0;
    return is_told;
}

/* Many rows take a while to be freed: that goes by parts too. */
static void end_vacuum(nardsill *index, size_t rows) {
    let_in(index);
    ask_locked(index, (struct nardsill_ask){.what = NARDSILL_END_VACUUM});
    for (size_t freed = 0; freed < rows; freed += ROWS) {
        let_in(index);
        ask_locked(index, (struct nardsill_ask){.what = NARDSILL_FREE_ROWS, .block = ROWS});
    }
}

/* Waits for a commit that syncs. Calls that come needn't stand aside meanwhile. */
static void wait_before_part(nardsill *index) {
    if (!index->gathering.is_forcing) return;
    index->turns.parts++;
    index->turns.due = 0;
    pthread_cond_broadcast(&index->turns.through);
    wait_for_force(index);
}

/* Makes it, part by part, and ends it, also where a part is refused. */
static struct outcome vacuum_locked(nardsill *index, struct vacuum *me, nardsill_stats *stats) {
    for (;;) {
        wait_before_part(index);
        struct nardsill_answer answer = make_part(index, me);
        struct outcome outcome = told_by(answer);
        if (outcome.status == NARDSILL_BLOCKED && wait_for_scans(index, me)) continue;
        if (outcome.status || me->is_over) {
            if (me->is_begun) end_vacuum(index, me->count);
            if (!outcome.status) tell(&answer, stats);
            return outcome;
        }
        if (me->is_begun) me->blocked = 0;
        let_in(index);
    }
}

/* One vacuum at a time: another waits for its end. */
static struct outcome run_vacuum(nardsill *index, struct vacuum *me, nardsill_stats *stats) {
    struct turns *turns = &index->turns;
    pthread_mutex_lock(&turns->one);
    take_lock(index);
    struct outcome outcome = vacuum_locked(index, me, stats);
    turns->parts++;
    turns->due = 0;
    pthread_cond_broadcast(&turns->through);
    pthread_mutex_unlock(&index->lock);
    pthread_mutex_unlock(&turns->one);
    return outcome;
}

int nardsill_delete_rows(nardsill *index, const nardsill_row *rows, size_t count, nardsill_stats *stats) {
    int status = (!rows && count) || !is_sized(stats) ? NARDSILL_MISUSE : refusal_of(index);
    if (status) return refused(status);
    struct kept kept = enter();
    struct vacuum me = {.begin = NARDSILL_BEGIN_DELETE, .whole = NARDSILL_DELETE, .rows = rows, .count = count};
    return leave_with(kept, run_vacuum(index, &me, stats));
}

int nardsill_vacuum(nardsill *index, nardsill_stats *stats) {
    int status = !is_sized(stats) ? NARDSILL_MISUSE : refusal_of(index);
    if (status) return refused(status);
    struct kept kept = enter();
    struct vacuum me = {.begin = NARDSILL_BEGIN_VACUUM, .whole = NARDSILL_VACUUM};
    return leave_with(kept, run_vacuum(index, &me, stats));
}

int nardsill_set_patience(nardsill *index, uint32_t milliseconds) {
    int status = refusal_of(index);
    if (status) return refused(status);
    struct kept kept = enter();
    take_lock(index);
    index->turns.patience = milliseconds;
    tell_blocked(&index->turns);
    pthread_mutex_unlock(&index->lock);
    return leave_with(kept, only(0));
}

/* A commit, on its thread's stack, and what the call told that covers it. Whoever makes that call has the handle's lock; all that is
   here lies under it. So what a commit covers was done before the call began. */
struct commit {
    struct commit *next;
    int is_over;
    struct outcome outcome;
    uint64_t actions;
};

enum { MOST_WAIT = 20000000 };

static uint64_t lesser(uint64_t a, uint64_t b) { return a < b ? a : b; }

static void number_thread(void) {
    static atomic_uint numbers;
    if (!committer) committer = 1 + atomic_fetch_add(&numbers, 1);
}

/* Puts a commit to those that wait. */
static void join(struct gathering *all, struct commit *mine) {
    uint64_t *seen = all->seen + committer % 64;
    if (*seen == all->call) all->expected--;
    *seen = all->call + 1;
    /* It is worth while to wait. */
    if (all->commits) all->vain = all->skips = 0;
    mine->next = all->commits;
    all->commits = mine;
    all->last = nanoseconds();
}

/* The first commit waits until another has made the call, or no other came for as long as the last call took. */
static void wait_first(nardsill *index, const struct commit *mine) {
    struct gathering *all = &index->gathering;
    uint64_t begun = all->last;
    while (!mine->is_over) {
        all->until = lesser(all->last + all->took, begun + MOST_WAIT);
        if (nanoseconds() >= all->until) break;
        wait_until(index, &all->bell, all->until);
        if (index->turns.awaited) ring(&index->turns);
    }
    if (all->last > begun) return;
    /* Threads that commit in turn would wait each time. */
    if (all->vain < 6) all->vain++;
    all->skips = (1u << all->vain) - 1;
}

/* Waits for other commits, if some are expected. The last one that is expected doesn't wait, and makes the call. A committer that waits
   for the lock may never get it from one that commits again and again, so that one soon waits for it. */
static void gather(nardsill *index, const struct commit *mine) {
    struct gathering *all = &index->gathering;
    if (mine->next) {
        while (all->expected && !mine->is_over) pthread_cond_wait(&all->bell, &index->lock);
    } else if (all->at_lock ? all->skips % 8 : all->skips) {
        all->skips--;
    } else if (all->expected || all->at_lock) {
        wait_first(index, mine);
    }
}

/* Keeps the number of the system's answer, if this call of the library is the first that failed by it. */
static void keep_error(struct nardsill_answer answer, int *error) {
    if (answer.status == NARDSILL_IO && !*error) *error = errno ? errno : EIO;
}

/* Syncs the file with the lock let go: calls that read go on. */
static void sync_unlocked(nardsill *index, int *error) {
    pthread_mutex_unlock(&index->lock);
    errno = 0;
    keep_error(nardsill_proved_call(index->syncer, (struct nardsill_ask){.what = NARDSILL_SYNC}), error);
    /* Calls that come stand aside, else many that read would keep it from the lock. */
    index->gathering.returns = 1;
    pthread_mutex_lock(&index->lock);
    index->gathering.returns = 0;
    pthread_cond_broadcast(&index->gathering.back);
}

/* Does the parts of a commit, each behind a sync with the lock let go. Whatever of it isn't done, the commit at its end does. */
static void advance(nardsill *index, int *error) {
    if (!index->syncer) return;
    for (uint64_t part = 1; part < 3; part++) {
        struct nardsill_answer answer = ask_locked(index, (struct nardsill_ask){.what = NARDSILL_ADVANCE});
        keep_error(answer, error);
        if (answer.status || answer.number != part) return;
        sync_unlocked(index, error);
    }
}

/* Makes one commit for all that are there at its end, and tells each of them what it told. They wait for the lock from then on. What
   they cover was done before: while the commit syncs no call logs an action. */
static void commit_all(nardsill *index) {
    struct gathering *all = &index->gathering;
    uint64_t begun = nanoseconds();
    int error = 0;
    all->is_forcing = 1;
    advance(index, &error);
    struct nardsill_answer answer = ask_locked(index, (struct nardsill_ask){.what = NARDSILL_COMMIT});
    struct outcome outcome = told_by(answer);
    /* A sync or a part that failed stops the index, and the commit is told that alone. */
    if (error) {
        outcome = (struct outcome){.status = NARDSILL_IO, .error = error};
        index->cause = error;
    }
    all->is_forcing = 0;
    all->passing = all->held;
    all->held = 0;
    pthread_cond_broadcast(&all->forced);
    all->took = nanoseconds() - begun;
    for (struct commit *one = all->commits; one; one = one->next) {
        one->outcome = outcome;
        one->actions = answer.number;
        one->is_over = 1;
        index->turns.waiting++;
    }
    all->commits = 0;
    all->expected = 0;
    all->call++;
    for (unsigned i = 0; i < 64; i++) all->expected += all->seen[i] == all->call;
    pthread_cond_broadcast(&all->bell);
}

/* One commit syncs at a time; and those go before it that have waited for the last one. */
static void wait_for_turn(nardsill *index, const struct commit *mine) {
    struct gathering *all = &index->gathering;
    while ((all->is_forcing || all->passing) && !mine->is_over) pthread_cond_wait(&all->bell, &index->lock);
}

int nardsill_commit(nardsill *index, uint64_t *actions) {
    int status = refusal_of(index);
    if (status) return refused(status);
    struct kept kept = enter();
    struct commit mine = {.is_over = 0};
    number_thread();
    take_lock(index);
    join(&index->gathering, &mine);
    gather(index, &mine);
    wait_for_turn(index, &mine);
    if (!mine.is_over) commit_all(index);
    arrive(&index->turns);
    pthread_mutex_unlock(&index->lock);
    if (!mine.outcome.status && actions) *actions = mine.actions;
    return leave_with(kept, mine.outcome);
}

int nardsill_checkpoint(nardsill *index, uint64_t *actions) {
    int status = refusal_of(index);
    if (status) return refused(status);
    struct kept kept = enter();
    return leave_with(kept, checkpoint(index, actions));
}

/* Whether the index has stopped. The library tells it of its log alone; behind a call of the file that failed a checkpoint shows whether
   the file still takes any. */
static int has_stopped_locked(nardsill *index) {
    if (index->is_doubtful) wait_for_force(index);
    int is_sure = index->has_stopped || nardsill_proved_info(index->shell).is_stopped;
    if (is_sure || !index->is_doubtful) return is_sure;
    int has_failed = ask_locked(index, (struct nardsill_ask){.what = NARDSILL_CHECKPOINT}).status != 0;
    index->is_doubtful = has_failed;
    return has_failed;
}

int nardsill_info(nardsill *index, nardsill_details *out) {
    int status = !out || out->size != sizeof *out ? NARDSILL_MISUSE : refusal_of(index);
    if (status) return refused(status);
    struct kept kept = enter();
    take_lock(index);
    int has_stopped = has_stopped_locked(index);
    struct nardsill_facts facts = nardsill_proved_info(index->shell);
    uint32_t scans = index->count;
    pthread_mutex_unlock(&index->lock);
    if (!facts.status)
        *out = (nardsill_details){out->size, facts.items, facts.pages, facts.log_bytes, facts.is_unique, facts.pages_used, facts.pages_free,
                                  index->frames, scans, has_stopped};
    return leave_with(kept, only((int)facts.status));
}

/* A leaf that overflows is split in the middle, so entries that come in order leave leaves half full. A copy takes so many entries, and
   puts some of them later than all others: just as many as fill the halves, evenly spread. It has so many pages in memory. */
enum { TAKEN = 4900, COPY_FRAMES = 256 };

/* A copy that is made: from where, into what, and who is told how far it is. */
struct copying {
    nardsill_scan *scan;
    nardsill *into;
    uint32_t items;
    nardsill_entry *room;
    int (*progress)(void *, uint64_t);
    void *context;
    uint64_t copied;
};

/* Whether the entry at this place is put later. Of a page's items a split leaves half and one; and one place stays free, since an entry
   between two pages may come to either. */
static int is_later(size_t i, size_t items) {
    size_t later = items - items / 2 - 2, all = items - 1;
    return (i + 1) * later / all > i * later / all;
}

/* Puts an entry. One that was added, and whose split was left unfinished, is refused too: the copy would be refused at the next one. */
static struct outcome put(nardsill *index, const nardsill_entry *entry) {
    struct nardsill_answer answer = insert_locked(index, entry->key, entry->key_len, entry->row);
    return answer.status ? told_by(answer) : told((uint32_t)answer.other, 0, (nardsill_row){0, 0});
}

/* Puts the entries that were taken and are to be put later, or those that aren't. Nobody else has the new index. */
static struct outcome put_some(struct copying *copying, size_t count, int later) {
    struct outcome outcome = only(0);
    for (size_t i = 0; i < count && !outcome.status; i++)
        if (is_later(i, copying->items) == later) outcome = put(copying->into, copying->room + i);
    return outcome;
}

/* Takes entries, and puts them. NARDSILL_DONE behind the last. */
static struct outcome copy_some(struct copying *copying) {
    nardsill *from = copying->scan->index;
    size_t count = 0;
    take_lock(from);
    struct outcome taken = read_locked(copying->scan, copying->room, TAKEN, &count);
    tell_blocked(&from->turns);
    pthread_mutex_unlock(&from->lock);
    if (taken.status && taken.status != NARDSILL_DONE) return taken;
    struct outcome outcome = put_some(copying, count, 0);
    if (!outcome.status) outcome = put_some(copying, count, 1);
    if (outcome.status) return outcome;
    copying->copied += count;
    int gives_up = copying->progress && copying->progress(copying->context, copying->copied);
    /* It may have forked the process, and this is the child. */
    if (copying->into->is_parents) return only(NARDSILL_FORKED);
    return gives_up ? only(NARDSILL_GIVEN_UP) : taken;
}

/* Puts all entries of an index into another one, and makes them durable. */
static struct outcome copy_all(nardsill *index, struct copying *copying) {
    struct outcome outcome = begin(index, (struct nardsill_ask){.what = NARDSILL_BEGIN}, &copying->scan);
    if (outcome.status) return outcome;
    while (!outcome.status) outcome = copy_some(copying);
    nardsill_scan_close(copying->scan);
    return outcome.status == NARDSILL_DONE ? checkpoint(copying->into, 0) : outcome;
}

/* Makes the draft of a copy, with the mode of the old file, and opens the index in it. */
static struct outcome begin_copy(nardsill *index, const char *draft, struct nardsill_make_ask ask, nardsill **into) {
    int fd;
    struct stat old;
    if (fstat(index->descriptor, &old)) return system_failed();
    struct outcome outcome = open_draft(draft, old.st_mode & 0777, &fd);
    if (outcome.status) return outcome;
    outcome = make(fd, ask);
    if (!outcome.status) outcome = start(fd, COPY_FRAMES, into);
    /* The handle has the same lock by its own descriptor. */
    if (!outcome.status) close(fd);
    else {
        unlink(draft);
        close_unlocked(fd);
    }
    return outcome;
}

/* The draft gets its own name once all is in it, and is gone if not. No fork comes while it is opened and placed. */
static struct outcome copy_by(nardsill *index, const char *draft, const char *path, struct nardsill_make_ask ask, struct copying *copying) {
    if (!hold_forks()) return only(NARDSILL_NO_MEMORY);
    struct outcome outcome = begin_copy(index, draft, ask, &copying->into);
    let_forks();
    if (outcome.status) return outcome;
    outcome = copy_all(index, copying);
    /* The parent goes on with both. */
    if (copying->into->is_parents) return outcome;
    if (!outcome.status && hold_forks()) {
        outcome = place_durably(draft, path);
        let_forks();
    }
    unlink(draft);
    free_index(copying->into);
    return outcome;
}

static struct outcome copy(nardsill *index, const char *path, struct nardsill_make_ask ask, struct copying *copying) {
    struct outcome outcome = want_free(path);
    if (outcome.status) return outcome;
    char *draft = draft_of(path);
    copying->items = ask.items;
    copying->room = malloc(TAKEN * sizeof *copying->room);
    outcome = draft && copying->room ? copy_by(index, draft, path, ask, copying) : only(NARDSILL_NO_MEMORY);
    free(copying->room);
    free(draft);
    return outcome;
}

/* The sizes of an index. */
static struct nardsill_make_ask sizes_of(nardsill *index) {
    take_lock(index);
    struct nardsill_facts facts = nardsill_proved_info(index->shell);
    pthread_mutex_unlock(&index->lock);
    return (struct nardsill_make_ask){.items = facts.items, .pages = facts.pages, .log_bytes = facts.log_bytes, .unique = facts.is_unique};
}

int nardsill_copy(nardsill *index, const char *path, const nardsill_limits *limits, int (*progress)(void *, uint64_t), void *context,
                  uint64_t *copied) {
    int status = !path || (limits && limits->size != sizeof *limits) ? NARDSILL_MISUSE : refusal_of(index);
    if (status) return refused(status);
    struct kept kept = enter();
    struct copying copying = {.progress = progress, .context = context};
    struct outcome outcome = copy(index, path, limits ? ask_of(limits) : sizes_of(index), &copying);
    if (!outcome.status && copied) *copied = copying.copied;
    return leave_with(kept, outcome);
}

static struct outcome judge(int fd, uint32_t frames, nardsill_report *out) {
    int file = fd;
    struct nardsill_shell *shell;
    struct outcome outcome = lock(fd);
    if (outcome.status) return outcome;
    if (nardsill_proved_new(&shell)) return only(NARDSILL_NO_MEMORY);
    errno = 0;
    struct nardsill_checked c = nardsill_proved_check(shell, &file, (struct nardsill_check_ask){fd, frames ? frames : 64});
    outcome = told(c.status, c.page, (nardsill_row){0, 0});
    if (!c.status) *out = (nardsill_report){out->size, c.damage, c.block, c.levels, c.pages, c.half_dead, c.deleted, c.unfinished, c.entries};
    let_go(shell);
    return outcome;
}

static struct outcome check(const char *path, uint32_t frames, nardsill_report *out) {
    int fd;
    if (!hold_forks()) return only(NARDSILL_NO_MEMORY);
    struct outcome outcome = open_file(path, O_RDWR, 0, &fd);
    if (!outcome.status) {
        outcome = judge(fd, frames, out);
        close_unlocked(fd);
    }
    let_forks();
    return outcome;
}

int nardsill_check(const char *path, uint32_t frames, nardsill_report *out) {
    if (!path || !out || out->size != sizeof *out) return misused();
    struct kept kept = enter();
    return leave_with(kept, check(path, frames, out));
}

const char *nardsill_version(void) { return NARDSILL_VERSION; }

const char *nardsill_errname(int status) {
    static const char *const names[] = {
        "Ok", "NoMemory", "Io", "Stopped", "Blocked", "Exists", "KeyTooLong", "BadRow", "IndexFull", "LogFull", "NoFrame", "VacuumRunning",
        "NoSession", "SessionBusy", "BadSuper", "BadVersion", "LogDamaged", "PageDamaged", "BadLimits", "TooTall", "DeviceTooSmall",
        "KeyExists"};
    static const char *const own[] = {"Done", "Misuse", "Locked", "NotFound", "Forked", "GivenUp"};
    if (status >= 0 && status <= 21) return names[status];
    return status >= 100 && status <= 105 ? own[status - 100] : "Unknown";
}

const char *nardsill_strerror(int status) {
    static const char *const names[] = {
        "no error", "out of memory", "a call of the file failed", "the index has stopped: close it and open it again",
        "an open scan stands on a page that the call needs", "the entry is there", "the key has more than 64 bytes",
        "no row is so: a block is below 4294967295, an offset from 1 to 65535", "the index is full", "the log is full",
        "open scans hold all pages in memory", "a vacuum runs", "the scan is over, or 63 scans are open", "the session is busy",
        "the file is no index", "the file's layout is unknown", "the log is damaged", "a page is damaged", "a limit is out of its range",
        "the tree is too tall", "the file is too short", "the key is there with another row"};
    static const char *const own[] = {"no entry is left", "a wrong argument", "another handle has the file", "no entry has the key",
                                      "the handle is the parent process's", "the copy was given up"};
    if (status >= 0 && status <= 21) return names[status];
    return status >= 100 && status <= 105 ? own[status - 100] : "no such status";
}
