/* The calls that are measured. */
#ifndef CASES_H
#define CASES_H

#include "pair.h"

/* A case brings a unit that is powered on to where its call is made, and gives that call. */
struct measured_case {
    const char *group;
    const char *name;
    const char *title;
    uint8_t number;  /* that the call must be answered with */
    bool both_sizes; /* measured for packets of 512 bytes too */
    struct call (*reach)(struct pair *pair);
};

extern const struct measured_case cases[];
extern const size_t case_count;

#endif
