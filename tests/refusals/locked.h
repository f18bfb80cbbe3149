/* A call on a unit in read-only memory. */
#ifndef LOCKED_H
#define LOCKED_H

#include "../shared/call.h"

/* Where a call reached that may not: `byte` counts from the beginning of `place`, which is null where no call did. */
struct reached {
    const char *place;
    ptrdiff_t byte;
};

/* Takes the memory. Ends the program with status 2 where the system gives none. */
void locked_start(void);

/* Calls the library on a copy of `unit` that cannot be written. Unit, input and buffer each have pages beside them that cannot even be
   read. `buffer` has what the lent buffer holds before, and gets what it holds after. */
struct reached call_locked(const struct tmc_unit *unit, const struct call *call, uint8_t *buffer, struct tmc_answer *answer);

#endif
