/* The port and the one in plain C, side by side: each call is made on both, and what they answer and leave must be the same. */
#ifndef PAIR_H
#define PAIR_H

#include "../../include/tewennos.h"
#include "../plain.h"
#include "call.h"

/* What a call cost on one side. */
struct cost {
    unsigned region;
    size_t stack;
};

struct pair {
    const char *name; /* of the case, to show with a difference */
    uint16_t packet_size;
    struct tmc_unit port;
    struct plain_unit plain;
};

/* What both answered, and what it cost. */
struct made {
    uint8_t number;
    size_t length;
    struct cost port;
    struct cost plain;
};

/* Ends the program, with what differs, where the two differ. */
struct made pair_call(struct pair *pair, const struct call *call);

#endif
