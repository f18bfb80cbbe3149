#include "call.h"

#include <string.h>

const char *const kind_names[KINDS] = {"power_on", "setup",      "bulk_out", "bulk_in",   "interrupt_in", "take",
                                       "offer",    "set_status", "panel",    "bus_reset", "suspend"};

#define COUNT(array) (sizeof(array) / sizeof(array)[0])

/* One of the lengths, or any at all. */
static size_t some_length(struct chance *chance, const size_t *lengths, uint32_t count)
{
    return one_in(chance, 8) ? below(chance, LONGEST + 1) : lengths[below(chance, count)];
}

static void put_number(uint8_t *bytes, uint32_t number)
{
    bytes[0] = (uint8_t)number;
    bytes[1] = (uint8_t)(number >> 8);
    bytes[2] = (uint8_t)(number >> 16);
    bytes[3] = (uint8_t)(number >> 24);
}

/* Changes one byte of what the call reads. */
static void damage(struct chance *chance, struct call *call, size_t length)
{
    uint8_t *byte = call->bytes + below(chance, (uint32_t)length);

    *byte = one_in(chance, 2) ? (uint8_t)(*byte ^ 1u << below(chance, 8)) : (uint8_t)draw(chance);
}

/* Power-on. */

static void make_power_on(struct chance *chance, struct call *call)
{
    static const uint16_t sizes[] = {64, 512, 64, 512, 0, 1, 8, 63, 65, 511, 513, 1024, 65535};

    call->value = sizes[below(chance, COUNT(sizes))];
}

/* Setup packets. */

struct row {
    uint8_t type, request;
    uint16_t value, index, length;
};

/* Rows that leave the unit configured; a value of 256 stands for a tag. */
static const struct row rows[] = {
    {0xA2, 1, 256, 0x01, 2}, {0xA2, 3, 256, 0x82, 2}, {0xA2, 3, 256, 0x82, 2}, {0xA2, 2, 0, 0x01, 8},  {0xA2, 4, 0, 0x82, 8},
    {0xA1, 5, 0, 0, 1},      {0xA1, 6, 0, 0, 2},      {0xA1, 7, 0, 0, 24},     {0xA1, 64, 0, 0, 1},    {0xA1, 128, 2, 0, 3},
    {0xA1, 128, 127, 0, 3},  {0xA1, 160, 1, 0, 1},    {0xA1, 160, 1, 0, 1},    {0xA1, 160, 0, 0, 1},   {0xA1, 161, 0, 0, 1},
    {0xA1, 162, 0, 0, 1},    {0x02, 1, 0, 0x01, 0},   {0x02, 1, 0, 0x01, 0},   {0x02, 1, 0, 0x82, 0},  {0x02, 1, 0, 0x82, 0},
    {0x02, 3, 0, 0x01, 0},   {0x02, 3, 0, 0x82, 0},   {0x82, 0, 0, 0x01, 2},   {0x82, 0, 0, 0x82, 2},  {0x02, 1, 0, 0x83, 0},
    {0x02, 3, 0, 0x83, 0},   {0x82, 0, 0, 0x83, 2},
};
static const struct row configure = {0x00, 9, 1, 0, 0};

static uint16_t some_tag(struct chance *chance, const struct tmc_unit *unit, uint8_t request)
{
    uint8_t own = request == 1 ? unit->out_recent : unit->in_phase != TMC_PHASE_CLOSED ? unit->in_tag : unit->in_recent;

    return own != 0 && !one_in(chance, 4) ? own : (uint16_t)(1 + below(chance, 255));
}

static struct row some_row(struct chance *chance, const struct tmc_unit *unit)
{
    struct row row = rows[below(chance, COUNT(rows))];

    if (!unit->configured ? !one_in(chance, 4) : one_in(chance, 60)) {
        row = configure;
        row.value = one_in(chance, 5) ? 0 : 1;
    }
    if (row.value == 256)
        row.value = some_tag(chance, unit, row.request);
    return row;
}

static void make_row(struct row row, struct call *call)
{
    call->bytes[0] = row.type;
    call->bytes[1] = row.request;
    put_number(call->bytes + 2, (uint32_t)row.index << 16 | row.value);
    call->bytes[6] = (uint8_t)row.length;
    call->bytes[7] = (uint8_t)(row.length >> 8);
    call->length = 8;
    call->room = TMC_CONTROL_BUFFER;
}

static void make_setup(struct chance *chance, const struct tmc_unit *unit, struct call *call)
{
    static const size_t lengths[] = {0, 7, 9, 64, 512, 1024, 1025};
    static const size_t rooms[] = {0, 1, 23, 25, 64, 1024, 1025};

    make_row(some_row(chance, unit), call);
    if (one_in(chance, 10))
        damage(chance, call, 8);
    if (one_in(chance, 16))
        call->length = some_length(chance, lengths, COUNT(lengths));
    if (one_in(chance, 8))
        call->room = some_length(chance, rooms, COUNT(rooms));
}

/* The next setup packet on a host's way back from a halt of Bulk-OUT. */
static struct row way_back(const struct tmc_unit *unit)
{
    static const struct row check_abort = {0xA2, 2, 0, 0x01, 8}, check_clear = {0xA1, 6, 0, 0, 2}, clear_halt = {0x02, 1, 0, 0x01, 0};

    if (unit->split == TMC_SPLIT_ABORT_OUT)
        return check_abort;
    if (unit->split == TMC_SPLIT_CLEAR)
        return check_clear;
    return clear_halt;
}

/* Bulk-OUT packets. */

static size_t up_to_four(size_t length)
{
    return (length + 3) / 4 * 4;
}

/* The packet that brings, behind `from` bytes, as much as it can of `left` data bytes and their alignment: zeros now and then, and else what
   stands there, which may be anything (02, request 2). */
static void bring(struct chance *chance, const struct tmc_unit *unit, struct call *call, size_t from, size_t left)
{
    size_t whole = from + up_to_four(left);

    call->length = whole < unit->packet ? whole : unit->packet;
    if (from + left < call->length && one_in(chance, 4))
        memset(call->bytes + from + left, 0, call->length - from - left);
}

static uint32_t some_size(struct chance *chance, const struct tmc_unit *unit)
{
    uint32_t room = TMC_STORE - unit->out_held;

    switch (below(chance, 8)) {
    case 0:
        return room + below(chance, 3) - 1;
    case 1:
        return one_in(chance, 4) ? UINT32_MAX - unit->out_held + below(chance, 4) : below(chance, 1026);
    case 2:
        return 1 + below(chance, room > 0 ? room : 1);
    case 3:
        return unit->packet - 12u + below(chance, 3) - 1;
    case 4:
        return 2u * unit->packet - 12 + below(chance, 3) - 1;
    default:
        return 1 + below(chance, 80);
    }
}

static void make_header(struct chance *chance, const struct tmc_unit *unit, uint32_t size, struct call *call)
{
    uint8_t tag = (uint8_t)(1 + below(chance, 255));
    uint32_t choice = below(chance, 8);

    memset(call->bytes, 0, 12);
    call->bytes[1] = tag;
    call->bytes[2] = (uint8_t)~tag;
    call->length = 12;
    if (choice == 0) {
        call->bytes[0] = 128;
    } else if (choice < 4) {
        call->bytes[0] = 2;
        put_number(call->bytes + 4, size);
        call->bytes[8] = one_in(chance, 2) ? 2 : 0;
        call->bytes[9] = one_in(chance, 2) ? 0x0A : (uint8_t)draw(chance);
    } else {
        call->bytes[0] = 1;
        put_number(call->bytes + 4, size);
        call->bytes[8] = one_in(chance, 2) ? 1 : 0;
        bring(chance, unit, call, 12, size);
    }
}

/* A packet that the unit will take, but for one out of turn. */
static void make_good_bulk_out(struct chance *chance, const struct tmc_unit *unit, struct call *call)
{
    uint32_t room = TMC_STORE - unit->out_held;
    uint32_t most = one_in(chance, 2) ? 80 : 600;

    if (unit->out_left != 0)
        bring(chance, unit, call, 0, unit->out_left);
    else
        make_header(chance, unit, 1 + below(chance, room == 0 ? 1 : room < most ? room : most), call);
}

static void make_bulk_out(struct chance *chance, const struct tmc_unit *unit, struct call *call)
{
    static const size_t lengths[] = {0, 4, 8, 12, 16, 60, 63, 64, 65, 508, 511, 512, 513, 1024, 1025};

    if (unit->out_left != 0)
        bring(chance, unit, call, 0, unit->out_left);
    else
        make_header(chance, unit, some_size(chance, unit), call);
    if (one_in(chance, 12))
        damage(chance, call, call->length < 12 ? 12 : call->length);
    if (one_in(chance, 16))
        call->length = one_in(chance, 2) ? call->length + 4 : call->length - 4;
    else if (one_in(chance, 12))
        call->length = some_length(chance, lengths, COUNT(lengths));
}

/* The other calls. */

static void make_bulk_in(struct chance *chance, const struct tmc_unit *unit, struct call *call)
{
    static const size_t rooms[] = {0, 1, 63, 64, 65, 511, 512, 513, 1024, 1025};

    call->room = one_in(chance, 6) ? some_length(chance, rooms, COUNT(rooms)) : unit->packet;
}

static void make_interrupt_in(struct chance *chance, struct call *call)
{
    static const size_t rooms[] = {0, 1, 3, 64, 1025};

    call->room = one_in(chance, 6) ? some_length(chance, rooms, COUNT(rooms)) : 2;
}

static void make_take(struct chance *chance, const struct tmc_unit *unit, struct call *call)
{
    const size_t rooms[] = {0, 1, unit->out_held, unit->out_held + 1u, unit->out_held > 0 ? unit->out_held - 1u : 0, 1025};

    call->room = one_in(chance, 3) ? some_length(chance, rooms, COUNT(rooms)) : TMC_STORE;
}

static void make_offer(struct chance *chance, struct call *call)
{
    static const size_t lengths[] = {0, 1, 51, 52, 53, 64, 116, 499, 500, 501, 1012, 1023, 1024, 1025};

    call->length = one_in(chance, 3) ? some_length(chance, lengths, COUNT(lengths)) : 1 + below(chance, 200);
}

/* Data with line ends in it, so that a TermChar is found now and then. */
static void make_bytes(struct chance *chance, struct call *call)
{
    uint32_t lines = below(chance, 4);

    fill(chance, call->bytes, LONGEST);
    for (; lines > 0; lines--)
        call->bytes[below(chance, 200)] = 0x0A;
}

void make_call(struct chance *chance, enum kind kind, const struct tmc_unit *unit, struct call *call)
{
    make_bytes(chance, call);
    call->kind = kind;
    call->value = (uint16_t)below(chance, 256);
    call->length = 0;
    call->room = 0;
    switch (kind) {
    case POWER_ON:
        make_power_on(chance, call);
        break;
    case SETUP:
        make_setup(chance, unit, call);
        break;
    case BULK_OUT:
        make_bulk_out(chance, unit, call);
        break;
    case BULK_IN:
        make_bulk_in(chance, unit, call);
        break;
    case INTERRUPT_IN:
        make_interrupt_in(chance, call);
        break;
    case TAKE:
        make_take(chance, unit, call);
        break;
    case OFFER:
        make_offer(chance, call);
        break;
    default:
        break;
    }
}

/* What leads on from a halt, or keeps a transfer going. */
static bool make_next(struct chance *chance, const struct tmc_unit *unit, struct call *call)
{
    static const struct row clear_halt_in = {0x02, 1, 0, 0x82, 0}, clear_halt_interrupt = {0x02, 1, 0, 0x83, 0};
    const struct row abort_out = {0xA2, 1, unit->out_recent, 0x01, 2};

    if (unit->out_left != 0 && one_in(chance, 5)) {
        make_call(chance, SETUP, unit, call);
        make_row(abort_out, call);
    } else if (unit->out_halted && one_in(chance, 3)) {
        make_call(chance, SETUP, unit, call);
        make_row(way_back(unit), call);
    } else if (unit->in_halted && one_in(chance, 6)) {
        make_call(chance, SETUP, unit, call);
        make_row(clear_halt_in, call);
    } else if (unit->interrupt_halted && one_in(chance, 6)) {
        make_call(chance, SETUP, unit, call);
        make_row(clear_halt_interrupt, call);
    } else if (!unit->out_halted && !unit->out_ready && one_in(chance, 2)) {
        make_call(chance, BULK_OUT, unit, call);
        make_good_bulk_out(chance, unit, call);
    } else {
        return false;
    }
    return true;
}

void make_traffic(struct chance *chance, const struct tmc_unit *unit, struct call *call)
{
    static const enum kind often[] = {SETUP,   SETUP,   SETUP, SETUP, BULK_OUT,     BULK_OUT,
                                      BULK_IN, BULK_IN, TAKE,  OFFER, INTERRUPT_IN, SET_STATUS};
    static const enum kind seldom[] = {PANEL, PANEL, BUS_RESET, SUSPEND};

    if (!unit->configured && !one_in(chance, 8))
        make_call(chance, SETUP, unit, call);
    else if (one_in(chance, 24))
        make_call(chance, seldom[below(chance, COUNT(seldom))], unit, call);
    else if (!make_next(chance, unit, call))
        make_call(chance, often[below(chance, COUNT(often))], unit, call);
}

/* On the library. */

struct tmc_answer perform(struct tmc_unit *unit, const struct call *call, const uint8_t *input, uint8_t *buffer)
{
    switch (call->kind) {
    case POWER_ON:
        return tmc_power_on(unit, call->value);
    case SETUP:
        return tmc_setup(unit, input, call->length, buffer, call->room);
    case BULK_OUT:
        return tmc_bulk_out(unit, input, call->length);
    case BULK_IN:
        return tmc_bulk_in(unit, buffer, call->room);
    case INTERRUPT_IN:
        return tmc_interrupt_in(unit, buffer, call->room);
    case TAKE:
        return tmc_take(unit, buffer, call->room);
    case OFFER:
        return tmc_offer(unit, input, call->length);
    case SET_STATUS:
        return tmc_set_status(unit, (uint8_t)call->value);
    case PANEL:
        return tmc_panel(unit);
    case BUS_RESET:
        return tmc_bus_reset(unit);
    default:
        return tmc_suspend(unit);
    }
}

bool can_come(enum kind kind, unsigned number)
{
    static const uint32_t numbers[KINDS] = {
        1u << 0 | 1u << 3,                                   /* power_on */
        1u << 0 | 1u << 1 | 1u << 3 | 1u << 15,              /* setup */
        (1u << 14) - 1,                                      /* bulk_out: 0 to 13 */
        (1u << 6) - 1, (1u << 6) - 1,                        /* bulk_in, interrupt_in: 0 to 5 */
        (1u << 4) - 1 + (1u << 16),                          /* take: 0 to 3, 16 */
        (1u << 4) - 1 + (1u << 16),                          /* offer */
        (1u << 3) - 1, (1u << 3) - 1,                        /* set_status, panel: 0 to 2 */
        (1u << 2) - 1, (1u << 2) - 1                         /* bus_reset, suspend: 0, 1 */
    };

    return (numbers[kind] >> number & 1u) != 0;
}
