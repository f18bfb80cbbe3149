/* One call of the library on a unit's bytes, beside what it is to answer and leave. */
#ifndef TRIAL_H
#define TRIAL_H

#include "../shared/call.h"

struct trials {
    uint64_t answered[KINDS][NUMBERS];
};

void trials_start(struct trials *trials);

/* Calls the library on a copy of `before`, and leaves in `after` what the unit is then (`after` may be `before`, or null). Ends the program
   with status 1, and shows unit and call, where the answer, the unit, the lent buffer or a byte beside what was lent is not right. */
struct tmc_answer trial(struct trials *trials, const struct tmc_unit *before, const struct call *call, struct tmc_unit *after);

#endif
