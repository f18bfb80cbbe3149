/* A function called between marks, on a stack of its own. */
#ifndef INVOKE_H
#define INVOKE_H

#include <stddef.h>
#include <stdint.h>

#define MOST_ARGUMENTS 5

struct invocation {
    uintptr_t function;
    uintptr_t argument[MOST_ARGUMENTS];
};

/* The two registers that a function gives its result in, the number of its region, and the stack that it used. */
struct result {
    uintptr_t word[2];
    unsigned region;
    size_t stack; /* bytes, with the return address, in whole words */
};

struct result invoke(const struct invocation *invocation);

/* Does nothing: one call and one return. */
void return_at_once(void);

#endif
