/* What a call is to answer and to leave, whatever the unit's bytes are: bench/plain.c on the unit converted field by field. */
#ifndef ORACLE_H
#define ORACLE_H

#include "../shared/call.h"

/* Alters unit and buffer as the call is to. */
struct tmc_answer expected(struct tmc_unit *unit, const struct call *call, uint8_t *buffer);

#endif
