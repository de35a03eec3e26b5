/* How long a vacuum through C holds the lock at most: the processor's time of each call of the proved library that it makes.
 *
 * usage: holds FILE FRAMES LOG_BYTES
 *
 * An index of 100,000 shuffled entries is made at FILE, so in memory if that is in /dev/shm. All their rows are deleted, in another
 * order, and a cleanup follows. It prints for each kind of call its number, the longest and the sum. Compile it with
 * embedding/nardsill.c, the proved library and -Wl,--wrap=nardsill_proved_call. */
#include "nardsill.h"
#include "nardsill_proved.h"
#include <stdio.h>
#include <stdlib.h>
#include <string.h>
#include <time.h>
#include <unistd.h>

enum { ENTRIES = 100000, KEY = 16, KINDS = 18 };

static struct {
    uint64_t calls, longest, sum;
} kinds[KINDS];

static uint64_t processor_time(void) {
    struct timespec t;
    clock_gettime(CLOCK_THREAD_CPUTIME_ID, &t);
    return (uint64_t)t.tv_sec * 1000000000u + (uint64_t)t.tv_nsec;
}

struct nardsill_answer __real_nardsill_proved_call(struct nardsill_shell *at, struct nardsill_ask ask);
struct nardsill_answer __wrap_nardsill_proved_call(struct nardsill_shell *at, struct nardsill_ask ask);

struct nardsill_answer __wrap_nardsill_proved_call(struct nardsill_shell *at, struct nardsill_ask ask) {
    uint64_t begun = processor_time();
    struct nardsill_answer answer = __real_nardsill_proved_call(at, ask);
    uint64_t took = processor_time() - begun;
    kinds[ask.what].calls++;
    kinds[ask.what].sum += took;
    if (took > kinds[ask.what].longest) kinds[ask.what].longest = took;
    return answer;
}

static void need(int status, const char *what) {
    if (!status) return;
    fprintf(stderr, "holds: %s: %s\n", what, nardsill_strerror(status));
    exit(1);
}

static void key_of(uint32_t i, unsigned char *out) {
    memset(out, 0, KEY);
    uint64_t first = i * 0x9e3779b97f4a7c15ull;
    first ^= first >> 29;
    memcpy(out, &first, 8);
    memcpy(out + 8, &i, 4);
}

static void tell(const char *name, enum nardsill_what what) {
    printf("%s: %llu calls, %.3f ms at most, %.1f ms in all\n", name, (unsigned long long)kinds[what].calls, (double)kinds[what].longest / 1e6,
           (double)kinds[what].sum / 1e6);
}

int main(int count, char **words) {
    static nardsill_row rows[ENTRIES];
    unsigned char key[KEY];
    nardsill *index;
    if (count != 4) return 2;
    nardsill_limits limits = {sizeof limits, 50, 65536, (uint32_t)strtoul(words[3], 0, 10), 0};
    unlink(words[1]);
    need(nardsill_create(words[1], &limits), "create");
    need(nardsill_open(words[1], (uint32_t)atoi(words[2]), &index), "open");
    for (uint32_t i = 0; i < ENTRIES; i++) {
        key_of(i, key);
        need(nardsill_insert(index, key, KEY, (nardsill_row){i, 3}, 0), "insert");
        rows[i] = (nardsill_row){i * 7919u % ENTRIES, 3};
    }
    need(nardsill_checkpoint(index, 0), "checkpoint");
    memset(kinds, 0, sizeof kinds);
    need(nardsill_delete_rows(index, rows, ENTRIES, 0), "delete");
    need(nardsill_vacuum(index, 0), "vacuum");
    tell("naming a row", NARDSILL_NAME_DEAD);
    tell("a part", NARDSILL_GO_ON);
    tell("ending", NARDSILL_END_VACUUM);
    tell("freeing rows", NARDSILL_FREE_ROWS);
    need(nardsill_close(index), "close");
    unlink(words[1]);
    return 0;
}
