#include "invoke.h"

#include <string.h>

#define STACK_BYTES 65536
#define UNTOUCHED 0xA5
#define WORD sizeof(uintptr_t)

static uint8_t stack[STACK_BYTES] __attribute__((aligned(64)));

/* In marked.S. */
void call_between_marks(const struct invocation *invocation, void *stack_top, uintptr_t *result);

static size_t touched_bytes(void)
{
    size_t lowest = 0;

    while (lowest < STACK_BYTES && stack[lowest] == UNTOUCHED)
        lowest++;
    return (STACK_BYTES - lowest + WORD - 1) / WORD * WORD;
}

struct result invoke(const struct invocation *invocation)
{
    static unsigned regions;
    struct result result;

    memset(stack, UNTOUCHED, STACK_BYTES);
    call_between_marks(invocation, stack + STACK_BYTES, result.word);
    result.region = regions++;
    result.stack = touched_bytes();
    return result;
}
