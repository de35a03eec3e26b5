/* The exports called with random bytes in each field: each answers one of the 21 numbers, or 0. */
#define _GNU_SOURCE
#include "nardsill.h"
#include "nardsill_proved.h"
#include <pthread.h>
#include <stdio.h>
#include <stdlib.h>
#include <string.h>
#include <unistd.h>

/* What a handle of the wrapper begins with. */
struct head {
    pthread_mutex_t lock;
    struct nardsill_shell *shell;
};

/* Random bytes, with fields now and then in a range where something is found. */
static struct nardsill_ask random_ask(void) {
    struct nardsill_ask ask;
    unsigned char *bytes = (unsigned char *)&ask;
    for (size_t k = 0; k < sizeof ask; k += 4) {
        int four = (int)random();
        memcpy(bytes + k, &four, 4);
    }
    if (random() % 100 < 95) ask.what = 1 + (uint32_t)(random() % NARDSILL_END_VACUUM);
    if (ask.what == NARDSILL_LET_GO) ask.what = NARDSILL_GO_ON;
    if ((ask.what == NARDSILL_COMMIT || ask.what == NARDSILL_CHECKPOINT) && random() % 50) ask.what = NARDSILL_INSERT;
    if (random() % 2) ask.session %= 70;
    if (random() % 2) ask.number %= 100;
    if (random() % 2) ask.len %= 66;
    if (random() % 2) ask.block %= 5000;
    ask.ends %= 5;
    return ask;
}

/* A file that isn't the number that is told is refused, and nothing is touched. */
static int refuses_another_number(struct nardsill_shell *shell) {
    int file = 0;
    struct nardsill_files files = {0, 0};
    return nardsill_proved_take(shell, &files, (struct nardsill_open_ask){1, 16}).status == NARDSILL_BAD_VERSION
        && nardsill_proved_make(shell, &file, (struct nardsill_make_ask){1, 4, 8, 65536, 0}).status == NARDSILL_BAD_VERSION
        && nardsill_proved_check(shell, &file, (struct nardsill_check_ask){1, 16}).status == NARDSILL_BAD_VERSION;
}

static int is_informed(struct nardsill_shell *shell) {
    struct nardsill_facts facts = nardsill_proved_info(shell);
    return !facts.status && facts.items == 4 && facts.pages == 1024 && facts.pages_used <= 1024 && facts.pages_free < facts.pages_used;
}

int main(int argc, char **argv) {
    long rounds = argc > 1 ? atol(argv[1]) : 300000, seen[22] = {0};
    nardsill *index;
    nardsill_limits limits = {sizeof limits, 4, 1024, 65536, 0};
    unlink("fuzz.idx");
    if (nardsill_create("fuzz.idx", &limits) || nardsill_open("fuzz.idx", 16, &index)) return 1;
    struct nardsill_shell *shell = ((struct head *)index)->shell;
    if (!refuses_another_number(shell)) {
        fprintf(stderr, "fuzz: a file of another number is taken\n");
        return 1;
    }
    srandom(7);
    for (long i = 0; i < rounds; i++) {
        struct nardsill_ask ask = random_ask();
        struct nardsill_given given = nardsill_proved_next(shell, (struct nardsill_token){ask.number, ask.session});
        struct nardsill_answer answer = nardsill_proved_call(shell, ask);
        if (given.status > 21 || given.len > 64 || answer.status > 21 || (i % 1000 == 0 && !is_informed(shell))) {
            fprintf(stderr, "fuzz: status %u %u\n", given.status, answer.status);
            return 1;
        }
        seen[answer.status]++;
    }
    for (int k = 0; k <= 21; k++)
        if (seen[k]) printf("%s %ld\n", nardsill_errname(k), seen[k]);
    int status = nardsill_close(index);
    unlink("fuzz.idx");
    return status != 0;
}
