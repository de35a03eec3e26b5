/* The line of `btidx check PATH --parents` (docs/SCRIPTS.md), over nardsill.h: tools/power-cut is given it with the `ledger` of C. */
#include "nardsill.h"
#include <stdio.h>
#include <string.h>

int main(int argc, char **argv) {
    nardsill_report report = NARDSILL_REPORT;
    if (argc < 3 || strcmp(argv[1], "check")) return 2;
    int status = nardsill_check(argv[2], 0, &report);
    if (status) return fprintf(stderr, "check: refused %d %s\n", status, nardsill_errname(status)), 2;
    if (report.damage) return printf("damage %u block %u\n", report.damage, report.block), 1;
    return printf("ok levels=%u pages=%u entries=%llu halfdead=%u deleted=%u unfinished=%u\n", report.levels, report.pages,
                  (unsigned long long)report.entries, report.half_dead, report.deleted, report.unfinished) < 0;
}
