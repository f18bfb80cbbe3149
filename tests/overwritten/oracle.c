#include "oracle.h"

#include "../../bench/plain.h"

#include <string.h>

static void to_plain(struct plain_unit *plain, const struct tmc_unit *unit)
{
    memcpy(plain->message, unit->message, TMC_STORE);
    memcpy(plain->reply, unit->reply, TMC_STORE);
    plain->packet_size = unit->packet;
    plain->configured = unit->configured;
    plain->ren = unit->ren;
    plain->remote = unit->remote;
    plain->out_held = unit->out_held;
    plain->out_ready = unit->out_ready;
    plain->out_halted = unit->out_halted;
    plain->out_left = unit->out_left;
    plain->out_got = unit->out_got;
    plain->out_eom = unit->out_end;
    plain->out_tag = unit->out_recent;
    plain->reply_at = unit->in_at;
    plain->reply_left = unit->in_unsent;
    plain->in_asked = unit->in_asked;
    plain->in_left = unit->in_left;
    plain->in_sent = unit->in_sent;
    plain->in_phase = unit->in_phase;
    plain->in_tag = unit->in_tag;
    plain->in_term_enabled = unit->in_enabled;
    plain->in_term = unit->in_term;
    plain->in_halted = unit->in_halted;
    plain->in_recent = unit->in_recent;
    plain->status = unit->status;
    plain->notify1 = unit->notify1;
    plain->notify2 = unit->notify2;
    plain->interrupt_halted = unit->interrupt_halted;
    plain->split_count = unit->count;
    plain->split = unit->split;
}

static void from_plain(struct tmc_unit *unit, const struct plain_unit *plain)
{
    memcpy(unit->message, plain->message, TMC_STORE);
    memcpy(unit->reply, plain->reply, TMC_STORE);
    unit->packet = plain->packet_size;
    unit->configured = plain->configured;
    unit->ren = plain->ren;
    unit->remote = plain->remote;
    unit->out_held = plain->out_held;
    unit->out_ready = plain->out_ready;
    unit->out_halted = plain->out_halted;
    unit->out_left = plain->out_left;
    unit->out_got = plain->out_got;
    unit->out_end = plain->out_eom;
    unit->out_recent = plain->out_tag;
    unit->in_at = plain->reply_at;
    unit->in_unsent = plain->reply_left;
    unit->in_asked = plain->in_asked;
    unit->in_left = plain->in_left;
    unit->in_sent = plain->in_sent;
    unit->in_phase = plain->in_phase;
    unit->in_tag = plain->in_tag;
    unit->in_enabled = plain->in_term_enabled;
    unit->in_term = plain->in_term;
    unit->in_halted = plain->in_halted;
    unit->in_recent = plain->in_recent;
    unit->status = plain->status;
    unit->notify1 = plain->notify1;
    unit->notify2 = plain->notify2;
    unit->interrupt_halted = plain->interrupt_halted;
    unit->count = plain->split_count;
    unit->split = plain->split;
}

/* The answer of a call that has nothing but a number. */
static struct plain_answer only(uint8_t number)
{
    struct plain_answer answer = {number, PLAIN_NOTHING, 0};
    return answer;
}

static struct plain_answer played(struct plain_unit *plain, const struct call *call, uint8_t *buffer)
{
    switch (call->kind) {
    case POWER_ON:
        return only(plain_power_on(plain, call->value));
    case SETUP:
        return plain_setup(plain, call->bytes, call->length, buffer, call->room);
    case BULK_OUT:
        return plain_packet(plain, call->bytes, call->length);
    case BULK_IN:
        return plain_poll(plain, buffer, call->room);
    case INTERRUPT_IN:
        return plain_interrupt_poll(plain, buffer, call->room);
    case TAKE:
        return plain_take(plain, buffer, call->room);
    case OFFER:
        return only(plain_offer(plain, call->bytes, call->length));
    case SET_STATUS:
        return only(plain_set_status(plain, (uint8_t)call->value));
    case PANEL:
        return only(plain_return_to_local(plain));
    case BUS_RESET:
        return only(plain_bus_reset(plain));
    default:
        return only(plain_suspend(plain));
    }
}

struct tmc_answer expected(struct tmc_unit *unit, const struct call *call, uint8_t *buffer)
{
    struct tmc_answer answer;
    struct plain_unit plain;
    struct plain_answer given;

    to_plain(&plain, unit);
    given = played(&plain, call, buffer);
    answer.number = given.number;
    answer.tells = given.tells;
    answer.length = given.length;
    from_plain(unit, &plain);
    return answer;
}
