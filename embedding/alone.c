/* Stands before the proved functions if the thread sanitizer watches: it doesn't see into them, but sees that two calls of one handle
   are here at once. The test has one index, and so two handles: the second one syncs, and is let go. */
#include "nardsill_proved.h"

static unsigned calls, syncs;

struct nardsill_answer __real_nardsill_proved_call(struct nardsill_shell *at, struct nardsill_ask ask);
struct nardsill_given __real_nardsill_proved_next(struct nardsill_shell *at, struct nardsill_token token);
struct nardsill_facts __real_nardsill_proved_info(struct nardsill_shell *at);

struct nardsill_answer __wrap_nardsill_proved_call(struct nardsill_shell *at, struct nardsill_ask ask) {
    if (ask.what == NARDSILL_SYNC) syncs++;
    else calls++;
    return __real_nardsill_proved_call(at, ask);
}

struct nardsill_given __wrap_nardsill_proved_next(struct nardsill_shell *at, struct nardsill_token token) {
    calls++;
    return __real_nardsill_proved_next(at, token);
}

struct nardsill_facts __wrap_nardsill_proved_info(struct nardsill_shell *at) {
    calls++;
    return __real_nardsill_proved_info(at);
}
