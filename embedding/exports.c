/* What no clause of the proved functions says: that an opening, a check and a letting go do nothing else to the file, and where the
   fields lie that C and the library share. And the calls that make a vacuum in parts, with any values, in any order. */
#define _GNU_SOURCE
#include "nardsill_proved.h"
#include "testing.h"
#include <fcntl.h>
#include <unistd.h>

#define PATH "exports.idx"

static struct nardsill_shell *handle(void) {
    struct nardsill_shell *shell = 0;
    IS(0, nardsill_proved_new(&shell));
    HOLDS(shell);
    IS(NARDSILL_NO_SESSION, nardsill_proved_call(shell, (struct nardsill_ask){.what = NARDSILL_COMMIT}).status);
    IS(NARDSILL_NO_SESSION, nardsill_proved_info(shell).status);
    return shell;
}

static void let_go(struct nardsill_shell *shell) {
    IS(0, nardsill_proved_call(shell, (struct nardsill_ask){.what = NARDSILL_LET_GO}).status);
    free(shell);
}

static struct nardsill_shell *opened(int fd) {
    struct nardsill_shell *shell = handle();
    struct nardsill_files files = {fd, fd};
    struct nardsill_answer answer = nardsill_proved_take(shell, &files, (struct nardsill_open_ask){fd, 16});
    IS(0, answer.status);
    HOLDS(answer.descriptor > 2 && answer.descriptor != fd && fcntl(answer.descriptor, F_GETFD) == FD_CLOEXEC);
    HOLDS(files.file == fd && files.beside == fd);
    return shell;
}

static struct nardsill_answer asks(struct nardsill_shell *shell, struct nardsill_ask ask) { return nardsill_proved_call(shell, ask); }

static void inserts(struct nardsill_shell *shell, const char *key, uint32_t block) {
    struct nardsill_ask ask = {.what = NARDSILL_INSERT, .block = block, .offset = 1, .len = (uint8_t)strlen(key)};
    memcpy(ask.key, key, strlen(key));
    IS(0, asks(shell, ask).status);
}

/* The keys of an open index, each with what of a field is beside it. */
static unsigned entries(struct nardsill_shell *shell) {
    struct nardsill_answer begun = asks(shell, (struct nardsill_ask){.what = NARDSILL_BEGIN});
    unsigned count = 0;
    IS(0, begun.status);
    for (;;) {
        struct nardsill_given given = nardsill_proved_next(shell, (struct nardsill_token){begun.number, begun.session});
        IS(0, given.status);
        if (!given.is_given) break;
        HOLDS(given.len == 64 ? given.key[63] == 'x' : given.len == 1);
        count++;
    }
    IS(0, asks(shell, (struct nardsill_ask){.what = NARDSILL_END, .number = begun.number, .session = begun.session}).status);
    return count;
}

/* An ask of this call, whose other fields are forged. */
static struct nardsill_ask forged(uint32_t what, uint32_t block) {
    struct nardsill_ask ask;
    memset(&ask, 0xa5, sizeof ask);
    ask.what = what;
    ask.block = block;
    return ask;
}

static void names(struct nardsill_shell *shell, uint32_t block) {
    IS(0, asks(shell, (struct nardsill_ask){.what = NARDSILL_NAME_DEAD, .block = block, .offset = 1}).status);
}

/* Calls that make a vacuum in parts, in any order: what is refused, and with what. */
static void out_of_order(struct nardsill_shell *shell) {
    for (int begun = NARDSILL_BEGIN_DELETE; begun <= NARDSILL_BEGIN_VACUUM; begun++) {
        IS(NARDSILL_NO_SESSION, asks(shell, forged(NARDSILL_GO_ON, 1)).status);
        IS(NARDSILL_NO_SESSION, asks(shell, forged(NARDSILL_END_VACUUM, 0)).status);
        IS(0, asks(shell, forged((uint32_t)begun, 7)).status);
        for (int what = NARDSILL_BEGIN_DELETE; what <= NARDSILL_BEGIN_VACUUM; what++) IS(NARDSILL_VACUUM_RUNNING, asks(shell, forged((uint32_t)what, 1)).status);
        for (int what = NARDSILL_DELETE; what <= NARDSILL_VACUUM; what++) IS(NARDSILL_VACUUM_RUNNING, asks(shell, forged((uint32_t)what, 1)).status);
        /* The session that it has is no scan's. */
        for (uint64_t number = 0; number < 20; number++) {
            IS(NARDSILL_NO_SESSION, asks(shell, (struct nardsill_ask){.what = NARDSILL_END, .number = number}).status);
            IS(NARDSILL_NO_SESSION, asks(shell, (struct nardsill_ask){.what = NARDSILL_AGAIN, .number = number}).status);
            IS(NARDSILL_NO_SESSION, nardsill_proved_next(shell, (struct nardsill_token){number, 0}).status);
        }
        struct nardsill_answer none = asks(shell, forged(NARDSILL_GO_ON, 0));
        HOLDS(!none.status && !none.session);
        IS(0, asks(shell, forged(NARDSILL_END_VACUUM, 0)).status);
    }
}

/* The rows of a bulk delete in parts are those that were named before it, whether it is begun or refused; and it tells what it removed. */
static void rows_of_parts(struct nardsill_shell *shell) {
    names(shell, 1);
    IS(0, asks(shell, forged(NARDSILL_BEGIN_DELETE, 0)).status);
    names(shell, 2);
    struct nardsill_answer part = asks(shell, forged(NARDSILL_GO_ON, 1));
    HOLDS(!part.status && !part.session);
    part = asks(shell, forged(NARDSILL_GO_ON, 4294967295u));
    HOLDS(!part.status && part.session == 1 && part.number == 1 && part.other == 2 && part.num_pages == 2 && !part.is_durable);
    IS(NARDSILL_NO_SESSION, asks(shell, forged(NARDSILL_GO_ON, 1)).status);
    IS(NARDSILL_VACUUM_RUNNING, asks(shell, forged(NARDSILL_BEGIN_DELETE, 0)).status);
    IS(0, asks(shell, forged(NARDSILL_END_VACUUM, 0)).status);
    part = asks(shell, forged(NARDSILL_DELETE, 0));
    HOLDS(!part.status && !part.number && part.other == 2);
    IS(2, entries(shell));
    /* One that goes on is let go with its handle. */
    names(shell, 2);
    IS(0, asks(shell, forged(NARDSILL_BEGIN_DELETE, 0)).status);
}

/* Its step is blocked by a scan, and tried again by the next part. */
static void blocked_parts(struct nardsill_shell *shell) {
    struct nardsill_answer scan = asks(shell, (struct nardsill_ask){.what = NARDSILL_BEGIN});
    HOLDS(nardsill_proved_next(shell, (struct nardsill_token){scan.number, scan.session}).is_given);
    IS(0, asks(shell, forged(NARDSILL_BEGIN_DELETE, 0)).status);
    for (int i = 0; i < 3; i++) {
        struct nardsill_answer part = asks(shell, forged(NARDSILL_GO_ON, 64));
        HOLDS(part.status == NARDSILL_BLOCKED && part.page == 1 && !part.session);
    }
    IS(0, asks(shell, (struct nardsill_ask){.what = NARDSILL_END, .number = scan.number, .session = scan.session}).status);
    IS(1, asks(shell, forged(NARDSILL_GO_ON, 64)).session);
    IS(0, asks(shell, forged(NARDSILL_END_VACUUM, 0)).status);
}

/* Pages that a vacuum has deleted are used again once it has ended, and not before. */
static void full_beside_a_vacuum(int fd) {
    struct nardsill_ask ask = {.what = NARDSILL_INSERT, .offset = 1, .len = 2};
    struct nardsill_answer part = {.session = 0};
    struct nardsill_shell *shell = handle();
    int file = fd, tries = 0;
    IS(0, nardsill_proved_make(shell, &file, (struct nardsill_make_ask){fd, 4, 32, 65536, 0}).status);
    let_go(shell);
    shell = opened(fd);
    while (!asks(shell, ask).status) ask.key[1] = (uint8_t)++ask.block;
    IS(NARDSILL_INDEX_FULL, asks(shell, ask).status);
    for (uint32_t block = 0; block < ask.block / 2; block++) names(shell, block);
    IS(ask.block / 2, asks(shell, forged(NARDSILL_DELETE, 0)).number);
    IS(0, asks(shell, forged(NARDSILL_BEGIN_VACUUM, 0)).status);
    for (; !part.session; tries++) {
        part = asks(shell, forged(NARDSILL_GO_ON, 1));
        IS(0, part.status);
        if (!part.session) IS(NARDSILL_INDEX_FULL, asks(shell, ask).status);
    }
    HOLDS(tries > 32 && part.pages_newly_deleted > 3);
    IS(0, asks(shell, forged(NARDSILL_END_VACUUM, 0)).status);
    IS(0, asks(shell, ask).status);
    let_go(shell);
}

int main(void) {
    char long_key[65];
    memset(long_key, 'x', 64);
    long_key[64] = 0;
    unlink(PATH);
    int fd = open(PATH, O_RDWR | O_CREAT | O_CLOEXEC, 0666), file = fd;
    struct nardsill_shell *shell = handle();
    IS(NARDSILL_BAD_LIMITS, nardsill_proved_make(shell, &file, (struct nardsill_make_ask){fd, 3, 64, 65536, 0}).status);
    IS(0, nardsill_proved_make(shell, &file, (struct nardsill_make_ask){fd, 7, 64, 65536, 1}).status);
    IS(4096 + 65536 + 64 * 4096, lseek(fd, 0, SEEK_END));
    let_go(shell);
    shell = opened(fd);
    struct nardsill_facts facts = nardsill_proved_info(shell);
    HOLDS(!facts.status && facts.items == 7 && facts.pages == 64 && facts.log_bytes == 65536 && facts.pages_used == 2 && !facts.pages_free);
    HOLDS(facts.is_unique && !facts.is_stopped);
    inserts(shell, "a", 1);
    inserts(shell, "b", 2);
    inserts(shell, long_key, 3);
    IS(0, asks(shell, (struct nardsill_ask){.what = NARDSILL_COMMIT}).status);
    /* A letting go does nothing, whatever rows were named. */
    IS(0, asks(shell, (struct nardsill_ask){.what = NARDSILL_NAME_DEAD, .block = 1, .offset = 1}).status);
    let_go(shell);
    shell = opened(fd);
    IS(3, entries(shell));
    let_go(shell);
    shell = handle();
    struct nardsill_checked checked = nardsill_proved_check(shell, &file, (struct nardsill_check_ask){fd, 16});
    HOLDS(!checked.status && !checked.damage && checked.entries == 3 && checked.levels == 1 && checked.pages == 2 && !checked.half_dead);
    HOLDS(!checked.deleted && !checked.unfinished && !checked.block);
    let_go(shell);
    shell = opened(fd);
    IS(3, entries(shell));
    out_of_order(shell);
    blocked_parts(shell);
    rows_of_parts(shell);
    let_go(shell);
    shell = opened(fd);
    IS(3, entries(shell));
    let_go(shell);
    full_beside_a_vacuum(fd);
    close(fd);
    unlink(PATH);
    puts("exports: all is as it must be");
    return 0;
}
