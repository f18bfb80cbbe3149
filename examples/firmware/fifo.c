#include "fifo.h"

#include <string.h>

#define ROOM 2u /* packets of Bulk-OUT */

struct packet {
    uint8_t bytes[CONTROLLER_LARGEST];
    size_t length;
};

static struct {
    struct packet received[ROOM]; /* the oldest first */
    unsigned count;
    bool held;
    struct packet loaded[ENDPOINTS];
    bool is_loaded[ENDPOINTS];
    bool has_gone[ENDPOINTS];
    bool stalled[ENDPOINTS];
} fifo;

static void put(struct packet *packet, const uint8_t *bytes, size_t length)
{
    packet->length = length;
    if (length != 0)
        memcpy(packet->bytes, bytes, length);
}

void fifo_start(void)
{
    memset(&fifo, 0, sizeof fifo);
}

/* The firmware's side. */

const uint8_t *fifo_received(size_t *length)
{
    *length = fifo.received[0].length;
    return fifo.count != 0 ? fifo.received[0].bytes : NULL;
}

void fifo_done(void)
{
    fifo.count--;
    memmove(&fifo.received[0], &fifo.received[1], fifo.count * sizeof fifo.received[0]);
}

void fifo_hold(bool held)
{
    fifo.held = held;
}

void fifo_load(enum endpoint endpoint, const uint8_t *bytes, size_t length)
{
    put(&fifo.loaded[endpoint], bytes, length);
    fifo.is_loaded[endpoint] = true;
}

bool fifo_is_loaded(enum endpoint endpoint)
{
    return fifo.is_loaded[endpoint];
}

void fifo_unload(enum endpoint endpoint)
{
    fifo.is_loaded[endpoint] = false;
}

bool fifo_has_gone(enum endpoint endpoint)
{
    bool was = fifo.has_gone[endpoint];

    fifo.has_gone[endpoint] = false;
    return was;
}

void fifo_stall(enum endpoint endpoint, bool stalled)
{
    fifo.stalled[endpoint] = stalled;
}

/* The controller's own. */

enum handshake fifo_receives(const uint8_t *packet, size_t length)
{
    if (fifo.stalled[BULK_OUT])
        return HANDSHAKE_STALL;
    if (fifo.held || fifo.count == ROOM)
        return HANDSHAKE_NAK;
    put(&fifo.received[fifo.count++], packet, length);
    return HANDSHAKE_ACK;
}

enum handshake fifo_sends(enum endpoint endpoint, uint8_t *bytes, size_t *length)
{
    const struct packet *packet = &fifo.loaded[endpoint];

    if (fifo.stalled[endpoint])
        return HANDSHAKE_STALL;
    if (!fifo.is_loaded[endpoint])
        return HANDSHAKE_NAK;
    memcpy(bytes, packet->bytes, packet->length);
    *length = packet->length;
    fifo.is_loaded[endpoint] = false;
    fifo.has_gone[endpoint] = true;
    return HANDSHAKE_ACK;
}
