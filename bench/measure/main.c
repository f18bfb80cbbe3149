/* Makes each measured call on both sides, and writes a line for it with the numbers of its two regions; the plugin counts them.
   The parts of a line are divided by tabs. */
#include "cases.h"
#include "invoke.h"

#include <stdio.h>
#include <stdlib.h>
#include <string.h>

static void write_sizes(void)
{
    printf("unit\t%zu\t%zu\n", sizeof(struct tmc_unit), sizeof(struct plain_unit));
}

static void write_empty_call(void)
{
    struct invocation invocation = {(uintptr_t)return_at_once, {0}};
    struct result result = invoke(&invocation);

    printf("empty\t%u\t%zu\n", result.region, result.stack);
}

/* Units that no one has powered on. */
static struct pair unused_pair(const char *name, uint16_t packet_size)
{
    struct pair pair;

    memset(&pair.port, 0xA5, sizeof pair.port);
    memset(&pair.plain, 0xA5, sizeof pair.plain);
    pair.name = name;
    pair.packet_size = packet_size;
    return pair;
}

static void require_number(const char *name, uint8_t number, uint8_t expected)
{
    if (number == expected)
        return;
    fprintf(stderr, "%s is answered %u, not %u as the case says\n", name, number, expected);
    exit(1);
}

static void write_call(const struct measured_case *it, const char *name, uint16_t size, const struct made *made)
{
    printf("call\t%s\t%s\t%s\t%u\t%u\t%u\t%zu\t%u\t%zu\n", it->group, name, it->title, it->both_sizes ? size : 0u,
           made->number, made->port.region, made->port.stack, made->plain.region, made->plain.stack);
}

static void measure(const struct measured_case *it, uint16_t size)
{
    struct pair pair;
    struct call call;
    struct made made;
    char name[64];

    if (it->both_sizes)
        snprintf(name, sizeof name, "%s-%u", it->name, size);
    else
        snprintf(name, sizeof name, "%s", it->name);
    pair = unused_pair(name, size);
    call = power_on(size);
    require_number(name, pair_call(&pair, &call).number, TMC_NUMBER_DONE);
    call = it->reach(&pair);
    made = pair_call(&pair, &call);
    require_number(name, made.number, it->number);
    write_call(it, name, size, &made);
}

int main(void)
{
    write_sizes();
    write_empty_call();
    for (size_t i = 0; i < case_count; i++) {
        measure(&cases[i], TMC_FULL_SPEED);
        if (cases[i].both_sizes)
            measure(&cases[i], TMC_HIGH_SPEED);
    }
    return 0;
}
