/* The lines of the program `ledger` (docs/SCRIPTS.md), over nardsill.h: the example of a C program, and what the tools are given. */
#define _GNU_SOURCE
#include "nardsill.h"
#include <stdio.h>
#include <stdlib.h>
#include <string.h>
#include <unistd.h>

enum { FORM = -1, FEW = 64 };

static int digit(char c) { return c >= '0' && c <= '9' ? c - '0' : c >= 'a' && c <= 'f' ? c - 'a' + 10 : -1; }

/* The key of a word: FORM if it is none, else a status. */
static int key_of(const char *word, uint8_t *key, size_t *len) {
    size_t digits = strlen(word);
    *len = 0;
    if (!strcmp(word, "-")) return 0;
    if (!digits || digits % 2) return FORM;
    for (size_t i = 0; i < digits; i++)
        if (digit(word[i]) < 0) return FORM;
    if (digits > 2 * NARDSILL_KEY_MAX) return NARDSILL_KEY_TOO_LONG;
    for (*len = 0; *len < digits / 2; ++*len) key[*len] = (uint8_t)(16 * digit(word[2 * *len]) + digit(word[2 * *len + 1]));
    return 0;
}

static int number_of(const char **at, char end, unsigned long most, unsigned long *out) {
    if (**at < '0' || **at > '9' || (**at == '0' && (*at)[1] != end)) return FORM;
    for (*out = 0; **at >= '0' && **at <= '9'; ++*at) {
        *out = 10 * *out + (unsigned long)(**at - '0');
        if (*out > most) return FORM;
    }
    return *(*at)++ == end ? 0 : FORM;
}

static int row_of(const char *word, nardsill_row *row) {
    unsigned long block, offset;
    if (*word++ != '(' || number_of(&word, ',', UINT32_MAX, &block) || number_of(&word, ')', UINT16_MAX, &offset) || *word) return FORM;
    *row = (nardsill_row){(uint32_t)block, (uint16_t)offset};
    return !offset || block == UINT32_MAX ? NARDSILL_BAD_ROW : 0;
}

static int refused(int status) {
    if (status == FORM) return puts("not a line");
    return printf("refused %d %s\n", status, nardsill_errname(status));
}

/* Behind KeyExists stands the row that is there. */
static int refused_insert(int status) {
    if (status != NARDSILL_KEY_EXISTS) return refused(status);
    nardsill_row row = nardsill_last_fault()->row;
    return printf("refused %d %s (%u,%u)\n", status, nardsill_errname(status), row.block, row.offset);
}

static int insert(nardsill *index, const char *key_word, const char *row_word) {
    uint8_t key[NARDSILL_KEY_MAX];
    size_t len;
    nardsill_row row;
    uint64_t action;
    int bad_key = key_of(key_word, key, &len), bad_row = row_of(row_word, &row);
    if (bad_key == FORM || bad_row == FORM) return refused(FORM);
    int status = bad_key ? bad_key : bad_row ? bad_row : nardsill_insert(index, key, len, row, &action);
    return status ? refused_insert(status) : printf("added %llu\n", (unsigned long long)action);
}

static int delete(nardsill *index, char *words) {
    size_t count = 0;
    nardsill_row *rows = malloc((strlen(words) / 6 + 1) * sizeof *rows);
    nardsill_stats stats = NARDSILL_STATS;
    int status = 0;
    for (char *word = words; rows && word; count++) {
        char *behind = strchr(word, ' ');
        if (behind) *behind++ = 0;
        nardsill_row row;
        int bad = row_of(word, &row);
        if (bad == FORM) { free(rows); return refused(FORM); }
        if (bad) status = bad;
        rows[count] = row;
        word = behind;
    }
    if (!rows) return refused(NARDSILL_NO_MEMORY);
    if (!status) status = nardsill_delete_rows(index, rows, count, &stats);
    free(rows);
    return status ? refused(status) : printf("deleted %llu\n", (unsigned long long)stats.removed);
}

static int list(nardsill *index, const char *from_word, const char *below_word) {
    uint8_t from[NARDSILL_KEY_MAX], below[NARDSILL_KEY_MAX];
    size_t from_len = 0, below_len = 0, count, all = 0;
    int has_from = strcmp(from_word, "*"), has_below = strcmp(below_word, "*");
    int bad_from = has_from ? key_of(from_word, from, &from_len) : 0, bad_below = has_below ? key_of(below_word, below, &below_len) : 0;
    if (bad_from == FORM || bad_below == FORM) return refused(FORM);
    nardsill_scan *scan;
    nardsill_entry few[FEW];
    int status = bad_from ? bad_from : bad_below ? bad_below : nardsill_scan_open(index, has_from ? from : 0, from_len, has_below ? below : 0, below_len, &scan);
    if (status) return refused(status);
    while (status != NARDSILL_DONE) {
        status = nardsill_scan_read(scan, few, FEW, &count);
        for (size_t i = 0; i < count; i++) {
            fputs("entry ", stdout);
            if (!few[i].key_len) putchar('-');
            for (int k = 0; k < few[i].key_len; k++) printf("%02x", few[i].key[k]);
            printf(" (%u,%u)\n", few[i].row.block, few[i].row.offset);
        }
        all += count;
        if (status && status != NARDSILL_DONE) break;
    }
    nardsill_scan_close(scan);
    return status == NARDSILL_DONE ? printf("done %zu\n", all) : refused(status);
}

static int vacuum(nardsill *index) {
    nardsill_stats s = NARDSILL_STATS;
    int status = nardsill_vacuum(index, &s);
    if (status) return refused(status);
    return printf("finished pages=%u tuples=%llu removed=%llu new=%u deleted=%u free=%u\n", s.pages, (unsigned long long)s.entries,
                  (unsigned long long)s.removed, s.pages_newly_deleted, s.pages_deleted, s.pages_free);
}

static int force(nardsill *index, const char *word, int (*call)(nardsill *, uint64_t *)) {
    uint64_t actions;
    int status = call(index, &actions);
    return status ? refused(status) : printf("%s %llu\n", word, (unsigned long long)actions);
}

static int answer(nardsill *index, char *line) {
    char *one = strchr(line, ' '), *two = one ? strchr(one + 1, ' ') : 0;
    if (!strcmp(line, "commit")) return force(index, "committed", nardsill_commit);
    if (!strcmp(line, "checkpoint")) return force(index, "checkpointed", nardsill_checkpoint);
    if (!strcmp(line, "vacuum")) return vacuum(index);
    if (!strcmp(line, "delete")) return puts("deleted 0");
    if (!strncmp(line, "delete ", 7)) return delete(index, line + 7);
    if (!two || strchr(two + 1, ' ')) return refused(FORM);
    *one++ = *two++ = 0;
    if (!strcmp(line, "insert")) return insert(index, one, two);
    if (!strcmp(line, "list")) return list(index, one, two);
    return refused(FORM);
}

int main(int argc, char **argv) {
    nardsill *index;
    char *line = 0;
    size_t room = 0;
    if (argc != 2) return 2;
    int status = access(argv[1], F_OK) ? nardsill_create(argv[1], 0) : 0;
    if (!status) status = nardsill_open(argv[1], 64, &index);
    if (status) return fprintf(stderr, "ledger: refused %d %s\n", status, nardsill_errname(status)), 2;
    for (ssize_t len; (len = getline(&line, &room, stdin)) > 0;) {
        if (line[len - 1] == '\n') line[len - 1] = 0;
        answer(index, line);
        fflush(stdout);
    }
    free(line);
    return nardsill_close(index) ? 2 : 0;
}
