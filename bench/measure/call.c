#include "call.h"

#include <string.h>

#define HEADER 12
#define CONTROL_BUFFER 24
#define NOTIFY 2

enum message_id { DEV_DEP_MSG_OUT = 1, REQUEST_DEV_DEP_MSG_IN = 2, TRIGGER = 128 };

struct call bare(enum call_kind kind)
{
    struct call call = {0};

    call.kind = kind;
    return call;
}

struct call power_on(uint16_t packet_size)
{
    struct call call = bare(POWER_ON);

    call.number = packet_size;
    return call;
}

struct call set_status(uint8_t status)
{
    struct call call = bare(SET_STATUS);

    call.number = status;
    return call;
}

struct call take(size_t room)
{
    struct call call = bare(TAKE);

    call.room = room;
    return call;
}

struct call poll(size_t room)
{
    struct call call = bare(BULK_IN);

    call.room = room;
    return call;
}

struct call interrupt_poll(void)
{
    struct call call = bare(INTERRUPT_IN);

    call.room = NOTIFY;
    return call;
}

static void put16(uint8_t *at, uint16_t number)
{
    at[0] = (uint8_t)number;
    at[1] = (uint8_t)(number >> 8);
}

struct call setup(uint8_t type, uint8_t request, uint16_t value, uint16_t index, uint16_t length)
{
    struct call call = bare(SETUP);

    call.bytes[0] = type;
    call.bytes[1] = request;
    put16(call.bytes + 2, value);
    put16(call.bytes + 4, index);
    put16(call.bytes + 6, length);
    call.length = 8;
    call.room = CONTROL_BUFFER;
    return call;
}

/* Letters behind what the call has. */
static void add_letters(struct call *call, size_t count)
{
    for (size_t i = 0; i < count; i++)
        call->bytes[call->length++] = (uint8_t)('A' + i % 26);
}

struct call offer(size_t length)
{
    struct call call = bare(OFFER);

    add_letters(&call, length);
    return call;
}

struct call offer_with_line_end(size_t length, size_t index)
{
    struct call call = offer(length);

    call.bytes[index] = '\n';
    return call;
}

/* The bytes past the letters are 0. */
static void align(struct call *call)
{
    call->length = (call->length + 3) / 4 * 4;
}

static struct call header(enum message_id id, uint8_t tag, size_t size)
{
    struct call call = bare(BULK_OUT);

    call.bytes[0] = (uint8_t)id;
    call.bytes[1] = tag;
    call.bytes[2] = (uint8_t)~tag;
    put16(call.bytes + 4, (uint16_t)size);
    call.length = HEADER;
    return call;
}

struct call message(uint8_t tag, size_t size, bool end, size_t carried)
{
    struct call call = header(DEV_DEP_MSG_OUT, tag, size);

    call.bytes[8] = end;
    add_letters(&call, carried);
    align(&call);
    return call;
}

struct call continuing(size_t carried)
{
    struct call call = bare(BULK_OUT);

    add_letters(&call, carried);
    align(&call);
    return call;
}

struct call request(uint8_t tag, uint16_t size)
{
    return header(REQUEST_DEV_DEP_MSG_IN, tag, size);
}

struct call request_to_line_end(uint8_t tag, uint16_t size)
{
    struct call call = request(tag, size);

    call.bytes[8] = 2;
    call.bytes[9] = '\n';
    return call;
}

struct call trigger(uint8_t tag)
{
    return header(TRIGGER, tag, 0);
}
