/* What is written over a unit. */
#ifndef OVERWRITE_H
#define OVERWRITE_H

#include "chance.h"
#include "tewennos.h"

#define STATE_BEGINS (2 * TMC_STORE) /* behind the stores */
#define STATE_BYTES (sizeof(struct tmc_unit) - STATE_BEGINS)
#define NUMBER_FIELDS 10 /* fields of two bytes */

/* Values for a two-byte field, `which` from 0 to LIMITS - 1: at a limit of document 01, or beside what the live unit has. */
#define LIMITS 34
uint16_t limit(unsigned which, const struct tmc_unit *live);

void set_number(struct tmc_unit *unit, unsigned field, uint16_t value);

/* A status byte, and the packet of Interrupt-IN that waits beside it, `which` from 0 to PACKETS - 1: every first byte, and with each the two
   status bytes at their limits, with bit 6 on and off. */
#define PACKETS (256u * 4u * 4u)
void set_packet(struct tmc_unit *unit, unsigned which);

/* One two-byte field, with a likely value. */
void overwrite_number(struct chance *chance, struct tmc_unit *unit, const struct tmc_unit *live);

/* A few fields at once, each with a likely value. */
void overwrite_some(struct chance *chance, struct tmc_unit *unit, const struct tmc_unit *live);

/* All fields, each in its range in the phase that it is in: mostly no unit that calls reach, and sound in many cases. */
void overwrite_plausibly(struct chance *chance, struct tmc_unit *unit);

#endif
