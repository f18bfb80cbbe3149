#include "overwrite.h"

#include <string.h>

#define COUNT(array) (sizeof(array) / sizeof(array)[0])

static const size_t number_fields[NUMBER_FIELDS] = {
    offsetof(struct tmc_unit, packet),    offsetof(struct tmc_unit, out_held), offsetof(struct tmc_unit, out_left),
    offsetof(struct tmc_unit, out_got),   offsetof(struct tmc_unit, in_at),    offsetof(struct tmc_unit, in_unsent),
    offsetof(struct tmc_unit, in_asked),  offsetof(struct tmc_unit, in_left),  offsetof(struct tmc_unit, in_sent),
    offsetof(struct tmc_unit, count),
};

static const size_t byte_fields[] = {
    offsetof(struct tmc_unit, configured), offsetof(struct tmc_unit, ren),        offsetof(struct tmc_unit, remote),
    offsetof(struct tmc_unit, out_ready),  offsetof(struct tmc_unit, out_halted), offsetof(struct tmc_unit, out_end),
    offsetof(struct tmc_unit, out_recent), offsetof(struct tmc_unit, in_phase),   offsetof(struct tmc_unit, in_tag),
    offsetof(struct tmc_unit, in_enabled), offsetof(struct tmc_unit, in_term),    offsetof(struct tmc_unit, in_halted),
    offsetof(struct tmc_unit, in_recent),  offsetof(struct tmc_unit, split),      offsetof(struct tmc_unit, status),
    offsetof(struct tmc_unit, notify1),    offsetof(struct tmc_unit, notify2),    offsetof(struct tmc_unit, interrupt_halted),
};

static uint16_t number_at(const struct tmc_unit *unit, unsigned field)
{
    uint16_t value;

    memcpy(&value, (const uint8_t *)unit + number_fields[field], sizeof value);
    return value;
}

void set_number(struct tmc_unit *unit, unsigned field, uint16_t value)
{
    memcpy((uint8_t *)unit + number_fields[field], &value, sizeof value);
}

uint16_t limit(unsigned which, const struct tmc_unit *live)
{
    static const uint16_t fixed[] = {0, 1, 2, 3, 12, 51, 52, 53, 63, 64, 65, 255, 256, 511, 512, 513, 1023, 1024, 1025, 2048, 32768, 65535};
    const uint16_t beside[] = {
        live->out_held,
        (uint16_t)(TMC_STORE - live->out_held),
        live->in_unsent,
        (uint16_t)(TMC_STORE - live->in_at),
    };

    if (which < COUNT(fixed))
        return fixed[which];
    which -= (unsigned)COUNT(fixed);
    return (uint16_t)(beside[which / 3] + which % 3 - 1);
}

/* A value that a two-byte field might be thought to take. */
static uint16_t likely_number(struct chance *chance, const struct tmc_unit *live)
{
    uint32_t beside = below(chance, 3);

    switch (below(chance, 4)) {
    case 0:
        return (uint16_t)(number_at(live, below(chance, NUMBER_FIELDS)) + beside - 1);
    case 1:
        return (uint16_t)below(chance, TMC_STORE + 1);
    default:
        return limit(below(chance, LIMITS), live);
    }
}

void overwrite_number(struct chance *chance, struct tmc_unit *unit, const struct tmc_unit *live)
{
    uint16_t value = likely_number(chance, live);

    set_number(unit, below(chance, NUMBER_FIELDS), value);
}

void set_packet(struct tmc_unit *unit, unsigned which)
{
    static const uint8_t statuses[] = {0x00, 0x40, 0xBF, 0xFF};

    unit->notify1 = (uint8_t)(which % 256);
    unit->notify2 = statuses[which / 256 % 4];
    unit->status = statuses[which / 1024];
}

/* A value that a field of one byte might be thought to take: of a flag or an enum, or of Interrupt-IN's packet. */
static uint8_t likely_byte(struct chance *chance)
{
    static const uint8_t of_packet[] = {0x00, 0x01, 0x3F, 0x40, 0x7F, 0x80, 0x81, 0x82, 0xBF, 0xC0, 0xFF};

    switch (below(chance, 8)) {
    case 0:
        return (uint8_t)draw(chance);
    case 1:
    case 2:
        return of_packet[below(chance, COUNT(of_packet))];
    default:
        return (uint8_t)below(chance, 4);
    }
}

static void overwrite_byte(struct chance *chance, struct tmc_unit *unit)
{
    uint8_t value = likely_byte(chance);
    size_t offset = byte_fields[below(chance, COUNT(byte_fields))];

    memcpy((uint8_t *)unit + offset, &value, 1);
}

void overwrite_some(struct chance *chance, struct tmc_unit *unit, const struct tmc_unit *live)
{
    unsigned count = 2 + below(chance, 4);

    for (; count > 0; count--) {
        if (one_in(chance, 2))
            overwrite_number(chance, unit, live);
        else
            overwrite_byte(chance, unit);
    }
}

static uint8_t flag(struct chance *chance)
{
    return (uint8_t)below(chance, 2);
}

static uint16_t at_most(struct chance *chance, uint32_t most)
{
    return (uint16_t)(one_in(chance, 4) ? most : below(chance, most + 1));
}

static void plausible_out(struct chance *chance, struct tmc_unit *unit)
{
    unit->out_held = at_most(chance, TMC_STORE);
    unit->out_left = 0;
    unit->out_got = 0;
    unit->out_end = 0;
    unit->out_ready = flag(chance);
    unit->out_halted = flag(chance);
    unit->out_recent = (uint8_t)draw(chance);
    if (unit->out_halted && !unit->out_ready)
        unit->out_held = 0;
    if (!unit->out_halted && !unit->out_ready && flag(chance)) {
        unit->out_left = at_most(chance, TMC_STORE - unit->out_held);
        unit->out_got = at_most(chance, unit->out_held);
        unit->out_end = flag(chance);
    }
}

static void plausible_in(struct chance *chance, struct tmc_unit *unit)
{
    unit->in_at = at_most(chance, TMC_STORE);
    unit->in_unsent = at_most(chance, TMC_STORE - unit->in_at);
    unit->in_asked = 0;
    unit->in_enabled = 0;
    unit->in_term = 0;
    unit->in_left = 0;
    unit->in_sent = 0;
    unit->in_phase = (uint8_t)below(chance, 4);
    unit->in_tag = unit->in_phase == TMC_PHASE_CLOSED ? 0 : (uint8_t)(1 + below(chance, 255));
    unit->in_halted = one_in(chance, 4);
    unit->in_recent = (uint8_t)draw(chance);
    if (unit->in_phase == TMC_PHASE_ASKED) {
        unit->in_asked = at_most(chance, TMC_STORE);
        unit->in_enabled = flag(chance);
        unit->in_term = unit->in_enabled ? (uint8_t)draw(chance) : 0;
    } else if (unit->in_phase == TMC_PHASE_SENDING) {
        unit->in_left = at_most(chance, unit->in_unsent);
        unit->in_sent = at_most(chance, TMC_STORE - unit->in_left);
    }
}

static void plausible_interrupt(struct chance *chance, struct tmc_unit *unit)
{
    unit->status = (uint8_t)draw(chance);
    unit->notify1 = 0;
    unit->notify2 = 0;
    unit->interrupt_halted = one_in(chance, 4);
    if (one_in(chance, 3)) {
        unit->notify1 = 0x81;
        unit->notify2 = (uint8_t)(draw(chance) | 0x40u);
    } else if (one_in(chance, 2)) {
        unit->notify1 = (uint8_t)(0x82u + below(chance, 126));
        unit->notify2 = (uint8_t)(draw(chance) & 0xBFu);
    } else {
        unit->status &= 0xBF;
    }
}

static void plausible_split(struct chance *chance, struct tmc_unit *unit)
{
    unit->split = (uint8_t)below(chance, 4);
    if (unit->in_phase == TMC_PHASE_OWED && unit->split < TMC_SPLIT_ABORT_IN)
        unit->split = TMC_SPLIT_ABORT_IN;
    if (!unit->out_halted && (unit->split == TMC_SPLIT_ABORT_OUT || unit->split == TMC_SPLIT_CLEAR))
        unit->split = TMC_SPLIT_ABORT_IN;
    unit->count = unit->split == TMC_SPLIT_ABORT_OUT || unit->split == TMC_SPLIT_ABORT_IN ? at_most(chance, TMC_STORE) : 0;
    if (unit->split == TMC_SPLIT_CLEAR) {
        unit->out_held = 0;
        unit->out_ready = 0;
        unit->out_recent = 0;
        unit->in_recent = 0;
        unit->in_unsent = 0;
    }
}

void overwrite_plausibly(struct chance *chance, struct tmc_unit *unit)
{
    unit->packet = one_in(chance, 2) ? TMC_FULL_SPEED : TMC_HIGH_SPEED;
    unit->configured = !one_in(chance, 8);
    unit->ren = flag(chance);
    unit->remote = (uint8_t)below(chance, 4);
    plausible_out(chance, unit);
    plausible_in(chance, unit);
    plausible_interrupt(chance, unit);
    plausible_split(chance, unit);
}
