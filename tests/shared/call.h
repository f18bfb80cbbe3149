/* A call as data, calls by chance that suit a unit, or nearly, and a call made on the library. */
#ifndef CALL_H
#define CALL_H

#include "chance.h"
#include "tewennos.h"

enum kind { POWER_ON, SETUP, BULK_OUT, BULK_IN, INTERRUPT_IN, TAKE, OFFER, SET_STATUS, PANEL, BUS_RESET, SUSPEND, KINDS };

#define LONGEST 2048u /* bytes that a call reads, or is lent to write */
#define NUMBERS 17u   /* 0 to 16, of which 14 is free */

struct call {
    enum kind kind;
    uint16_t value; /* the packet size at power-on, or the status byte */
    size_t length;  /* of the bytes that the call reads */
    size_t room;    /* of the buffer that it is lent */
    uint8_t bytes[LONGEST];
};

#define NAME_WIDTH 12 /* of the longest name, in a table */
extern const char *const kind_names[KINDS];

/* A call of that kind: mostly one that the unit will do, else one that is damaged or has a length that does not fit. */
void make_call(struct chance *chance, enum kind kind, const struct tmc_unit *unit, struct call *call);

/* A call of a kind that leads on from where the unit is. */
void make_traffic(struct chance *chance, const struct tmc_unit *unit, struct call *call);

/* Calls the library. `input` has what the call reads, `buffer` is what it is lent. */
struct tmc_answer perform(struct tmc_unit *unit, const struct call *call, const uint8_t *input, uint8_t *buffer);

/* Whether the call can be answered with that number (document 01, "The first that applies decides"; 02, requests 1 and 2). */
bool can_come(enum kind kind, unsigned number);

#endif
