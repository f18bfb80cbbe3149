#include "pair.h"

#include "invoke.h"

#include <stdio.h>
#include <stdlib.h>
#include <string.h>

#define LENT 0xA5 /* what a lent buffer holds before the call */

struct outcome {
    uint8_t number;
    uint8_t tells;
    size_t length;
    uint8_t lent[LARGEST_LENT];
};

static const uintptr_t port_function[KINDS] = {
    [POWER_ON] = (uintptr_t)tmc_power_on,         [SETUP] = (uintptr_t)tmc_setup,
    [BULK_OUT] = (uintptr_t)tmc_bulk_out,         [BULK_IN] = (uintptr_t)tmc_bulk_in,
    [INTERRUPT_IN] = (uintptr_t)tmc_interrupt_in, [TAKE] = (uintptr_t)tmc_take,
    [OFFER] = (uintptr_t)tmc_offer,               [SET_STATUS] = (uintptr_t)tmc_set_status,
    [PANEL] = (uintptr_t)tmc_panel,               [BUS_RESET] = (uintptr_t)tmc_bus_reset,
    [SUSPEND] = (uintptr_t)tmc_suspend,
};

static const uintptr_t plain_function[KINDS] = {
    [POWER_ON] = (uintptr_t)plain_power_on,           [SETUP] = (uintptr_t)plain_setup,
    [BULK_OUT] = (uintptr_t)plain_packet,             [BULK_IN] = (uintptr_t)plain_poll,
    [INTERRUPT_IN] = (uintptr_t)plain_interrupt_poll, [TAKE] = (uintptr_t)plain_take,
    [OFFER] = (uintptr_t)plain_offer,                 [SET_STATUS] = (uintptr_t)plain_set_status,
    [PANEL] = (uintptr_t)plain_return_to_local,       [BUS_RESET] = (uintptr_t)plain_bus_reset,
    [SUSPEND] = (uintptr_t)plain_suspend,
};

/* The two sides take the same arguments. */
static struct invocation invocation_of(const struct call *call, uintptr_t function, void *unit, uint8_t *lent)
{
    struct invocation invocation = {function, {(uintptr_t)unit}};
    uintptr_t *argument = invocation.argument + 1;

    switch (call->kind) {
    case POWER_ON:
    case SET_STATUS:
        argument[0] = call->number;
        break;
    case SETUP:
        argument[0] = (uintptr_t)call->bytes;
        argument[1] = call->length;
        argument[2] = (uintptr_t)lent;
        argument[3] = call->room;
        break;
    case BULK_OUT:
    case OFFER:
        argument[0] = (uintptr_t)call->bytes;
        argument[1] = call->length;
        break;
    case BULK_IN:
    case INTERRUPT_IN:
    case TAKE:
        argument[0] = (uintptr_t)lent;
        argument[1] = call->room;
        break;
    default:
        break;
    }
    return invocation;
}

static struct cost call_port(struct pair *pair, const struct call *call, struct outcome *outcome)
{
    struct invocation invocation = invocation_of(call, port_function[call->kind], &pair->port, outcome->lent);
    struct result result = invoke(&invocation);
    struct tmc_answer answer;

    memcpy(&answer, result.word, sizeof answer);
    outcome->number = answer.number;
    outcome->tells = answer.tells;
    outcome->length = answer.length;
    return (struct cost){result.region, result.stack};
}

/* Some calls of the plain side give a number only. */
static bool gives_number_only(enum call_kind kind)
{
    return kind != SETUP && kind != BULK_OUT && kind != BULK_IN && kind != INTERRUPT_IN && kind != TAKE;
}

static struct cost call_plain(struct pair *pair, const struct call *call, struct outcome *outcome)
{
    struct invocation invocation = invocation_of(call, plain_function[call->kind], &pair->plain, outcome->lent);
    struct result result = invoke(&invocation);
    struct plain_answer answer = {(uint8_t)result.word[0], PLAIN_NOTHING, 0};

    if (!gives_number_only(call->kind))
        memcpy(&answer, result.word, sizeof answer);
    outcome->number = answer.number;
    outcome->tells = answer.tells;
    outcome->length = answer.length;
    return (struct cost){result.region, result.stack};
}

static void require_equal(const struct pair *pair, const char *what, size_t port, size_t plain)
{
    if (port == plain)
        return;
    fprintf(stderr, "DIFFERENCE in %s: %s is %zu of the port and %zu in plain C\n", pair->name, what, port, plain);
    exit(1);
}

static void require_same_bytes(const struct pair *pair, const char *what, const uint8_t *port, const uint8_t *plain,
                               size_t length)
{
    for (size_t i = 0; i < length; i++) {
        if (port[i] == plain[i])
            continue;
        fprintf(stderr, "DIFFERENCE in %s: byte %zu of %s is %02x of the port and %02x in plain C\n", pair->name, i, what,
                port[i], plain[i]);
        exit(1);
    }
}

static void require_same_answer(const struct pair *pair, const struct outcome *port, const struct outcome *plain)
{
    require_equal(pair, "the number", port->number, plain->number);
    require_equal(pair, "what the instrument is told", port->tells, plain->tells);
    require_equal(pair, "the length", port->length, plain->length);
    require_same_bytes(pair, "the lent buffer", port->lent, plain->lent, LARGEST_LENT);
}

static void require_same_unit(const struct pair *pair)
{
    const struct tmc_unit *port = &pair->port;
    const struct plain_unit *plain = &pair->plain;

    require_same_bytes(pair, "the message store", port->message, plain->message, TMC_STORE);
    require_same_bytes(pair, "the reply store", port->reply, plain->reply, TMC_STORE);

    require_equal(pair, "packet", port->packet, plain->packet_size);
    require_equal(pair, "configured", port->configured, plain->configured);
    require_equal(pair, "ren", port->ren, plain->ren);
    require_equal(pair, "remote", port->remote, plain->remote);

    require_equal(pair, "out_held", port->out_held, plain->out_held);
    require_equal(pair, "out_ready", port->out_ready, plain->out_ready);
    require_equal(pair, "out_halted", port->out_halted, plain->out_halted);
    require_equal(pair, "out_left", port->out_left, plain->out_left);
    require_equal(pair, "out_got", port->out_got, plain->out_got);
    require_equal(pair, "out_end", port->out_end, plain->out_eom);
    require_equal(pair, "out_recent", port->out_recent, plain->out_tag);

    require_equal(pair, "in_at", port->in_at, plain->reply_at);
    require_equal(pair, "in_unsent", port->in_unsent, plain->reply_left);
    require_equal(pair, "in_asked", port->in_asked, plain->in_asked);
    require_equal(pair, "in_left", port->in_left, plain->in_left);
    require_equal(pair, "in_sent", port->in_sent, plain->in_sent);
    require_equal(pair, "in_phase", port->in_phase, plain->in_phase);
    require_equal(pair, "in_tag", port->in_tag, plain->in_tag);
    require_equal(pair, "in_enabled", port->in_enabled, plain->in_term_enabled);
    require_equal(pair, "in_term", port->in_term, plain->in_term);
    require_equal(pair, "in_halted", port->in_halted, plain->in_halted);
    require_equal(pair, "in_recent", port->in_recent, plain->in_recent);

    require_equal(pair, "status", port->status, plain->status);
    require_equal(pair, "notify1", port->notify1, plain->notify1);
    require_equal(pair, "notify2", port->notify2, plain->notify2);
    require_equal(pair, "interrupt_halted", port->interrupt_halted, plain->interrupt_halted);

    require_equal(pair, "count", port->count, plain->split_count);
    require_equal(pair, "split", port->split, plain->split);
}

struct made pair_call(struct pair *pair, const struct call *call)
{
    struct outcome port, plain;
    struct made made;

    memset(port.lent, LENT, LARGEST_LENT);
    memset(plain.lent, LENT, LARGEST_LENT);
    made.port = call_port(pair, call, &port);
    made.plain = call_plain(pair, call, &plain);
    require_same_answer(pair, &port, &plain);
    require_same_unit(pair);
    made.number = port.number;
    made.length = port.length;
    return made;
}
