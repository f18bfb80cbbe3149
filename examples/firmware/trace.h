/* The calls of the library, each with what it was given and what it answered: for a log. */
#ifndef TRACE_H
#define TRACE_H

#include "tewennos.h"

#include <stdbool.h>

enum traced {
    TRACED_POWER_ON,
    TRACED_SETUP,
    TRACED_BULK_OUT,
    TRACED_BULK_IN,
    TRACED_INTERRUPT_IN,
    TRACED_TAKE,
    TRACED_OFFER,
    TRACED_SET_STATUS,
    TRACED_PANEL,
    TRACED_BUS_RESET,
    TRACED_SUSPEND
};

struct trace {
    enum traced call;
    const uint8_t *given;
    size_t given_length;
    struct tmc_answer answer;
    const uint8_t *bytes; /* answer.length of them */
    bool begins;          /* a bulk packet: with it a transfer begins */
};

/* From the interrupt routine, or with it masked. On the instrument it would be empty, as it is for the scenes. */
void firmware_traces(const struct trace *trace);

/* The same of a setup packet that the port left to the device (15). */
void firmware_serves(const uint8_t setup[8], bool is_served, const uint8_t *bytes, size_t length);

#endif
